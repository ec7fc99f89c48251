/* Requests by name. */
#define _POSIX_C_SOURCE 200809L
#include "client.h"

#include <string.h>

static femem_error named(const femem *client, femem_request *request, femem_operation operation, const char *name) {
  if (fe_is_copy(client)) return FEMEM_FORKED;
  size_t length = strlen(name);
  if (length > sizeof request->name) return FEMEM_BAD_NAME;
  *request = (femem_request){.operation = operation, .name_length = (uint8_t)length};
  memcpy(request->name, name, length);
  return FEMEM_OK;
}

femem_error femem_create(femem *client, const char *name, uint32_t length, bool full, uint64_t *array) {
  femem_request request;
  femem_answer answer = {0};
  femem_error error = named(client, &request, FEMEM_CREATE, name);
  if (error) return error;
  request.length = length;
  request.full = full;
  error = femem_call(client, &request, &answer);
  if (error == FEMEM_OK && array) *array = answer.array;
  return error;
}

femem_error femem_find(femem *client, const char *name, uint64_t *array, uint32_t *length) {
  femem_request request;
  femem_answer answer = {0};
  femem_error error = named(client, &request, FEMEM_FIND, name);
  if (error == FEMEM_OK) error = femem_call(client, &request, &answer);
  if (error == FEMEM_OK && array) *array = answer.array;
  if (error == FEMEM_OK && length) *length = answer.length;
  return error;
}

femem_error fe_shared_array(femem *client, const char *name, uint32_t length, uint64_t *array) {
  for (;;) {
    uint32_t found;
    femem_error error = femem_find(client, name, array, &found);
    if (error == FEMEM_OK) return found == length ? FEMEM_OK : FEMEM_BAD_CALL;
    if (error == FEMEM_NO_ARRAY) error = femem_create(client, name, length, false, array);
    if (error != FEMEM_NAME_TAKEN) return error;
  }
}

static femem_error access_word(femem *client, femem_operation operation, uint64_t array, uint32_t index,
                               uint64_t operand, uint64_t *value) {
  femem_request request = {.operation = operation, .array = array, .index = index, .operand = operand};
  femem_answer answer = {0};
  femem_error error = femem_call(client, &request, &answer);
  if (error == FEMEM_OK && value) *value = answer.value;
  return error;
}

femem_error femem_remove(femem *client, uint64_t array) { return access_word(client, FEMEM_REMOVE, array, 0, 0, NULL); }

static femem_error send_word(femem *client, femem_operation operation, uint64_t array, uint32_t index,
                             uint64_t operand, uint64_t *number) {
  femem_request request = {.operation = operation, .array = array, .index = index, .operand = operand};
  return femem_send(client, &request, number);
}

#define READING(name, operation) \
  femem_error femem_##name(femem *client, uint64_t array, uint32_t index, uint64_t *value) { \
    return access_word(client, operation, array, index, 0, value); \
  } \
  femem_error femem_send_##name(femem *client, uint64_t array, uint32_t index, uint64_t *number) { \
    return send_word(client, operation, array, index, 0, number); \
  }
#define WRITING(name, operation) \
  femem_error femem_##name(femem *client, uint64_t array, uint32_t index, uint64_t operand) { \
    return access_word(client, operation, array, index, operand, NULL); \
  } \
  femem_error femem_send_##name(femem *client, uint64_t array, uint32_t index, uint64_t operand, uint64_t *number) { \
    return send_word(client, operation, array, index, operand, number); \
  }

READING(readfe, FEMEM_READFE)
READING(readff, FEMEM_READFF)
READING(readxx, FEMEM_READXX)
WRITING(writeef, FEMEM_WRITEEF)
WRITING(writeff, FEMEM_WRITEFF)
WRITING(writexf, FEMEM_WRITEXF)

femem_error femem_purge(femem *client, uint64_t array, uint32_t index) {
  return access_word(client, FEMEM_PURGE, array, index, 0, NULL);
}

femem_error femem_send_purge(femem *client, uint64_t array, uint32_t index, uint64_t *number) {
  return send_word(client, FEMEM_PURGE, array, index, 0, number);
}

femem_error femem_int_fetch_add(femem *client, uint64_t array, uint32_t index, uint64_t operand, uint64_t *value) {
  return access_word(client, FEMEM_INT_FETCH_ADD, array, index, operand, value);
}

femem_error femem_send_int_fetch_add(femem *client, uint64_t array, uint32_t index, uint64_t operand,
                                     uint64_t *number) {
  return send_word(client, FEMEM_INT_FETCH_ADD, array, index, operand, number);
}
