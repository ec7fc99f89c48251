/* Channels and counters: one word. A put fills a channel's, and a take empties it; a counter's is always full. */
#define _POSIX_C_SOURCE 200809L
#include "client.h"

#include <stdlib.h>

struct femem_channel {
  femem *client;
  uint64_t array;
};

femem_error femem_channel_open(femem_channel **channel, femem *client, const char *name) {
  *channel = NULL;
  if (fe_is_copy(client)) return FEMEM_FORKED;
  if (client->settings.resume) return FEMEM_BAD_CALL;
  femem_channel *made = calloc(1, sizeof *made);
  if (!made) return FEMEM_MEMORY;
  made->client = client;
  femem_error error = fe_shared_array(client, name, 1, &made->array);
  if (error) femem_channel_close(made);
  else *channel = made;
  return error;
}

void femem_channel_close(femem_channel *channel) { free(channel); }

/* Makes a request for the word. Without a key it ends with its process, so that no later one waits here unasked. */
static femem_error pass(femem_channel *channel, femem_operation operation, uint64_t operand, const char *key,
                        int64_t within, femem_answer *answer) {
  femem_request request = {.operation = operation, .array = channel->array, .operand = operand};
  return key ? femem_once_within(channel->client, key, &request, within, answer)
             : fe_call(channel->client, &request, SEND_ENDS, within, answer);
}

femem_error femem_channel_put(femem_channel *channel, uint64_t value, const char *key, int64_t within) {
  femem_answer answer;
  return pass(channel, FEMEM_WRITEEF, value, key, within, &answer);
}

femem_error femem_channel_take(femem_channel *channel, uint64_t *value, const char *key, int64_t within) {
  femem_answer answer = {0};
  femem_error error = pass(channel, FEMEM_READFE, 0, key, within, &answer);
  if (error == FEMEM_OK) *value = answer.value;
  return error;
}

/* ---- counters ---- */

struct femem_counter {
  femem *client;
  uint64_t array;
};

/* Finds the array of that name, or makes it, with its word full. */
static femem_error full_array(femem *client, const char *name, uint64_t *array) {
  for (;;) {
    uint32_t length;
    femem_error error = femem_find(client, name, array, &length);
    if (error == FEMEM_OK) return length == 1 ? FEMEM_OK : FEMEM_BAD_CALL;
    if (error == FEMEM_NO_ARRAY) error = femem_create(client, name, 1, true, array);
    if (error != FEMEM_NAME_TAKEN) return error;
  }
}

femem_error femem_counter_open(femem_counter **counter, femem *client, const char *name) {
  *counter = NULL;
  if (fe_is_copy(client)) return FEMEM_FORKED;
  if (client->settings.resume) return FEMEM_BAD_CALL;
  femem_counter *made = calloc(1, sizeof *made);
  if (!made) return FEMEM_MEMORY;
  made->client = client;
  femem_error error = full_array(client, name, &made->array);
  if (error) femem_counter_close(made);
  else *counter = made;
  return error;
}

void femem_counter_close(femem_counter *counter) { free(counter); }

femem_error femem_counter_add(femem_counter *counter, uint64_t amount, const char *key, uint64_t *was) {
  femem_request add = {.operation = FEMEM_INT_FETCH_ADD, .array = counter->array, .operand = amount, .no_wait = !key};
  femem *client = counter->client;
  femem_answer answer = {0};
  femem_error error = key ? femem_once(client, key, &add, &answer)
                          : fe_call(client, &add, SEND_ENDS, client->settings.wait, &answer);
  if (error == FEMEM_OK && was) *was = answer.value;
  return error;
}

femem_error femem_counter_value(femem_counter *counter, uint64_t *value) {
  femem_request read = {.operation = FEMEM_READFF, .array = counter->array, .no_wait = true};
  femem_answer answer = {0};
  femem_error error = femem_call(counter->client, &read, &answer);
  if (error == FEMEM_OK) *value = answer.value;
  return error;
}
