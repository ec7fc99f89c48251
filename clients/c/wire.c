/* Encoding requests and reading replies (docs/formats.md, "Frames"). */
#define _POSIX_C_SOURCE 200809L
#include "client.h"

#include <string.h>

void fe_put4(uint8_t *at, uint32_t number) {
  for (int i = 0; i < 4; i++) at[i] = (uint8_t)(number >> (24 - 8 * i));
}

void fe_put8(uint8_t *at, uint64_t number) {
  fe_put4(at, (uint32_t)(number >> 32));
  fe_put4(at + 4, (uint32_t)number);
}

static uint32_t get4(const uint8_t *at) {
  return (uint32_t)at[0] << 24 | (uint32_t)at[1] << 16 | (uint32_t)at[2] << 8 | at[3];
}

static uint64_t get8(const uint8_t *at) { return (uint64_t)get4(at) << 32 | get4(at + 4); }

bool fe_is_access(femem_operation operation) {
  return operation >= FEMEM_READFE && operation <= FEMEM_INT_FETCH_ADD;
}

bool fe_tells(femem_operation operation) {
  return (operation >= FEMEM_READFE && operation <= FEMEM_READXX) || operation == FEMEM_INT_FETCH_ADD;
}

static bool has_operand(femem_operation operation) {
  return (operation >= FEMEM_WRITEEF && operation <= FEMEM_WRITEXF) || operation == FEMEM_INT_FETCH_ADD;
}

static size_t put_named(uint8_t *body, const femem_request *request) {
  size_t room = request->name_length > 16 ? 32 : 16;
  body[0] = request->name_length;
  memset(body + 1, 0, room);
  memcpy(body + 1, request->name, request->name_length);
  if (request->operation == FEMEM_FIND) return 1 + room;
  fe_put4(body + 1 + room, request->length);
  body[5 + room] = request->full;
  return 6 + room;
}

size_t fe_put_request(uint8_t *at, uint64_t number, const femem_request *request) {
  uint8_t *body = at + 13;
  size_t size;
  fe_put8(at + 5, number);
  if (request->operation == FEMEM_CREATE || request->operation == FEMEM_FIND) {
    bool find = request->operation == FEMEM_FIND;
    at[4] = request->name_length > 16 ? (find ? FIND_LONG : CREATE_LONG) : (find ? FIND : CREATE);
    size = put_named(body, request);
  } else if (request->operation == FEMEM_REMOVE) {
    at[4] = REMOVE;
    fe_put8(body, request->array);
    size = 8;
  } else {
    at[4] = request->no_wait ? ACCESS_NOW : ACCESS;
    body[0] = (uint8_t)request->operation;
    fe_put8(body + 1, request->array);
    fe_put4(body + 9, request->index);
    fe_put8(body + 13, has_operand(request->operation) ? request->operand : 0);
    size = 21;
  }
  fe_put4(at, (uint32_t)(9 + size));
  return 13 + size;
}

/* The part of a create or a find behind its number. */
static bool get_named(const uint8_t *body, size_t size, femem_request *request) {
  size_t room = request->operation == FEMEM_CREATE ? size - 6 : size - 1;
  if (body[0] > room) return false;
  request->name_length = body[0];
  memcpy(request->name, body + 1, body[0]);
  if (request->operation == FEMEM_FIND) return true;
  request->length = get4(body + 1 + room);
  request->full = body[5 + room] == 1;
  return true;
}

/* The size of a request's frame; 0 if the kind is no request's. */
static size_t frame_size(uint8_t kind) {
  static const uint8_t sizes[] = {[CREATE] = 35,     [FIND] = 30,        [REMOVE] = 21,   [ACCESS] = 34,
                                  [ACCESS_NOW] = 34, [CREATE_LONG] = 51, [FIND_LONG] = 46};
  return kind < sizeof sizes ? sizes[kind] : 0;
}

size_t fe_get_request(const uint8_t *frame, size_t count, femem_request *request) {
  size_t size = count < 5 ? 0 : frame_size(frame[4]);
  if (size == 0 || size > count) return 0;
  uint8_t kind = frame[4];
  const uint8_t *body = frame + 13;
  *request = (femem_request){.operation = FEMEM_REMOVE, .no_wait = kind == ACCESS_NOW};
  if (kind == CREATE || kind == CREATE_LONG) request->operation = FEMEM_CREATE;
  if (kind == FIND || kind == FIND_LONG) request->operation = FEMEM_FIND;
  if (kind == ACCESS || kind == ACCESS_NOW) {
    request->operation = (femem_operation)body[0];
    if (!fe_is_access(request->operation)) return 0;
    request->array = get8(body + 1);
    request->index = get4(body + 9);
    request->operand = get8(body + 13);
  } else if (kind == REMOVE) {
    request->array = get8(body);
  } else if (!get_named(body, size - 13, request)) {
    return 0;
  }
  /* A request has one encoding. */
  uint8_t spelled[LONGEST_REQUEST];
  return fe_put_request(spelled, 0, request) == size && memcmp(spelled, frame, size) == 0 ? size : 0;
}

/* The length of a kind of reply (a report's is the least), and 0 for other kinds. */
static uint32_t reply_length(uint8_t kind) {
  static const uint8_t lengths[] = {17, 22, 9, 9, 9, 10, 2};
  return kind >= WELCOME && kind <= REPORTED ? lengths[kind - WELCOME] : 0;
}

int fe_read_reply(const uint8_t *bytes, size_t count, reply *read) {
  if (count < 4) return 0;
  uint32_t length = get4(bytes);
  if (length == 0 || length > LONGEST_REPORT + 1) return -1;
  if (count < 5) return 0;
  *read = (reply){.kind = bytes[4]};
  uint32_t due = reply_length(read->kind);
  if (read->kind == REPORTED && length >= due) {
    read->length = length - 1;
    return 5;
  }
  if (due == 0 || length != due) return -1;
  if (count < 4 + length) return 0;
  const uint8_t *body = bytes + 5;
  read->number = get8(body);
  if (read->kind == WELCOME) read->value = get8(body + 8);
  if (read->kind == REFUSED) read->code = body[8];
  if (read->kind == REFUSED && (read->code < 1 || read->code > 10)) return -1;
  if (read->kind == ANSWER) {
    read->code = body[8];
    read->value = get8(body + 9);
    read->length = get4(body + 17);
    if (read->code < ANSWER_VALUE || read->code > LAST_ANSWER) return -1;
    if (read->code > ANSWER_ARRAY || read->code == ANSWER_DONE) return read->value || read->length ? -1 : 26;
    if (read->code == ANSWER_VALUE && read->length) return -1;
  }
  return (int)(4 + length);
}

bool fe_is_text(const uint8_t *bytes, size_t count) {
  size_t at = 0;
  while (at < count) {
    uint8_t head = bytes[at++];
    if (head < 0x80) continue;
    if (head < 0xc2 || head > 0xf4) return false;
    int more = head < 0xe0 ? 1 : head < 0xf0 ? 2 : 3;
    if (count - at < (size_t)more) return false;
    uint8_t next = bytes[at];
    if ((head == 0xe0 && next < 0xa0) || (head == 0xed && next > 0x9f)) return false;
    if ((head == 0xf0 && next < 0x90) || (head == 0xf4 && next > 0x8f)) return false;
    for (; more > 0; more--)
      if ((bytes[at++] & 0xc0) != 0x80) return false;
  }
  return true;
}
