/* The records, blocks and header of a session file: how they are written and read. */
#define _POSIX_C_SOURCE 200809L
#include "client.h"

#include <stdlib.h>
#include <string.h>

enum { RECORD_ASKED = 1, RECORD_ENDED, RECORD_ANSWERED, RECORD_MOVED, RECORD_FORGOTTEN, RECORD_KEPT, RECORD_LEAVING };
enum {
  LENGTH_OF_KEY = 2,
  ANSWER_BYTES = 13,
  LONGEST_RECORD = 1 + 8 + 8 + LENGTH_OF_KEY + LONGEST_REQUEST + ANSWER_BYTES, /* and a key */
  SPARE = 4096 /* more than the other records of a whole window */
};

static const char magic[8] = {'F', 'E', 'M', 'E', 'M', 'S', 'F', '2'};

/* ---- numbers ---- */

uint8_t *session_put(uint8_t *at, uint64_t number, int bytes) {
  for (int i = 0; i < bytes; i++) at[i] = (uint8_t)(number >> (8 * (bytes - 1 - i)));
  return at + bytes;
}

uint64_t session_get(const uint8_t *at, int bytes) {
  uint64_t number = 0;
  for (int i = 0; i < bytes; i++) number = number << 8 | at[i];
  return number;
}

/* Four bits at a time. */
uint32_t session_sum(uint32_t before, const uint8_t *bytes, size_t count) {
  static const uint32_t sums[16] = {0x00000000, 0x1db71064, 0x3b6e20c8, 0x26d930ac, 0x76dc4190, 0x6b6b51f4,
                                    0x4db26158, 0x5005713c, 0xedb88320, 0xf00f9344, 0xd6d6a3e8, 0xcb61b38c,
                                    0x9b64c2b0, 0x86d3d2d4, 0xa00ae278, 0xbdbdf21c};
  uint32_t sum = ~before;
  for (size_t i = 0; i < count; i++) {
    sum ^= bytes[i];
    sum = sum >> 4 ^ sums[sum & 15];
    sum = sum >> 4 ^ sums[sum & 15];
  }
  return ~sum;
}

static uint32_t sum_of_block(const session_file *file, const uint8_t *block, size_t count) {
  uint8_t session[8];
  session_put(session, file->session, 8);
  return session_sum(session_sum(0, session, sizeof session), block, count);
}

/* ---- writing ---- */

bool session_room(session_file *file, size_t key) {
  size_t wanted = SESSION_HEAD + file->payload + LONGEST_RECORD + key + SPARE + SESSION_SUM;
  if (wanted <= file->room) return true;
  uint8_t *block = realloc(file->block, 2 * wanted);
  if (!block) return false;
  file->block = block;
  file->room = 2 * wanted;
  return true;
}

static uint8_t *record(session_file *file, uint8_t kind) {
  uint8_t *at = file->block + SESSION_HEAD + file->payload;
  *at = kind;
  return at + 1;
}

/* Ends a record. */
static void recorded(session_file *file, const uint8_t *end) {
  file->payload = (size_t)(end - file->block) - SESSION_HEAD;
}

static uint8_t *put_key(uint8_t *at, const char *key, size_t length) {
  at = session_put(at, length, LENGTH_OF_KEY);
  if (length > 0) memcpy(at, key, length);
  return at + length;
}

static uint8_t *put_answer(uint8_t *at, const femem_request *request, const femem_answer *answer) {
  femem_operation operation = request->operation;
  uint64_t code = fe_tells(operation) ? ANSWER_VALUE : ANSWER_DONE;
  if (operation == FEMEM_CREATE || operation == FEMEM_FIND) code = ANSWER_ARRAY;
  if (answer->error) code = (uint64_t)answer->error;
  at = session_put(at, code, 1);
  at = session_put(at, code == ANSWER_ARRAY ? answer->array : code == ANSWER_VALUE ? answer->value : 0, 8);
  return session_put(at, code == ANSWER_ARRAY ? answer->length : 0, 4);
}

void session_put_asked(session_file *file, const kept_request *kept) {
  uint8_t *at = session_put(session_put(record(file, RECORD_ASKED), kept->wire, 8), kept->number, 8);
  at = session_put(at, kept->ends_with_process, 1);
  at = kept->key ? put_key(at, kept->key->key, kept->key->length) : put_key(at, NULL, 0);
  recorded(file, at + fe_put_request(at, 0, &kept->request));
}

void session_put_kept(session_file *file, const kept_key *kept) {
  uint8_t *at = session_put(record(file, RECORD_KEPT), kept->number, 8);
  at = put_key(at, kept->key, kept->length);
  at += fe_put_request(at, 0, &kept->request);
  recorded(file, put_answer(at, &kept->request, &kept->answer));
}

void session_put_ended(session_file *file, uint64_t wire) {
  recorded(file, session_put(record(file, RECORD_ENDED), wire, 8));
}

void session_put_answered(session_file *file, uint64_t wire, const kept_key *kept) {
  uint8_t *at = session_put(record(file, RECORD_ANSWERED), wire, 8);
  recorded(file, put_answer(at, &kept->request, &kept->answer));
}

void session_put_moved(session_file *file, uint64_t wire, uint64_t to) {
  recorded(file, session_put(session_put(record(file, RECORD_MOVED), wire, 8), to, 8));
}

void session_put_forgotten(session_file *file, const char *key, size_t length) {
  recorded(file, put_key(record(file, RECORD_FORGOTTEN), key, length));
}

void session_put_leaving(session_file *file) { recorded(file, record(file, RECORD_LEAVING)); }

size_t session_end_block(session_file *file, uint64_t floor, uint64_t asked, uint64_t next) {
  uint8_t *at = session_put(file->block, file->payload, 4);
  session_put(session_put(session_put(at, floor, 8), asked, 8), next, 8);
  size_t count = SESSION_HEAD + file->payload;
  session_put(file->block + count, sum_of_block(file, file->block, count), SESSION_SUM);
  file->payload = 0;
  return count + SESSION_SUM;
}

void session_put_header(const session_file *file, uint8_t *header) {
  memcpy(header, magic, sizeof magic);
  session_put(header + 8, file->session, 8);
  session_put(header + 16, session_sum(0, header, 16), SESSION_SUM);
}

/* ---- reading ---- */

/* The part of a payload that was not read. Once something is not there, `ends` is set and everything is 0. */
typedef struct cursor {
  const uint8_t *at;
  size_t left;
  bool ends;
} cursor;

static const uint8_t *bytes_at(cursor *from, size_t count) {
  if (from->ends || count > from->left) {
    from->ends = true;
    return NULL;
  }
  from->at += count;
  from->left -= count;
  return from->at - count;
}

static uint64_t number_at(cursor *from, int bytes) {
  const uint8_t *at = bytes_at(from, (size_t)bytes);
  return at ? session_get(at, bytes) : 0;
}

static const char *key_at(cursor *from, size_t *length) {
  *length = number_at(from, LENGTH_OF_KEY);
  if (*length > FEMEM_KEY) from->ends = true;
  return (const char *)bytes_at(from, *length);
}

static femem_request request_at(cursor *from) {
  femem_request request = {.operation = FEMEM_CREATE};
  size_t size = from->ends ? 0 : fe_get_request(from->at, from->left, &request);
  if (size == 0) from->ends = true;
  else bytes_at(from, size);
  return request;
}

/* The record has the end of an answer's frame. */
static femem_answer answer_at(cursor *from, const femem_request *request) {
  uint8_t frame[13 + ANSWER_BYTES] = {0, 0, 0, 22, ANSWER};
  const uint8_t *at = bytes_at(from, ANSWER_BYTES);
  reply told = {0};
  if (at) memcpy(frame + 13, at, ANSWER_BYTES);
  if (fe_read_reply(frame, sizeof frame, &told) <= 0 || !fe_fits(request, &told)) from->ends = true;
  return fe_answer_of(&told);
}

static femem_error take_asked(session_file *file, cursor *from) {
  kept_request asked = {.wire = number_at(from, 8)};
  asked.number = number_at(from, 8);
  uint64_t flags = number_at(from, 1);
  asked.ends_with_process = flags == 1;
  size_t length;
  const char *key = key_at(from, &length);
  asked.request = request_at(from);
  if (from->ends || flags > 1 || asked.wire <= file->last) return FEMEM_FILE_DAMAGED;
  return session_asked(file, &asked, key, length);
}

static femem_error take_kept(session_file *file, cursor *from) {
  kept_key kept = {.number = number_at(from, 8)};
  size_t length;
  const char *key = key_at(from, &length);
  kept.request = request_at(from);
  kept.answer = answer_at(from, &kept.request);
  kept.answer.number = kept.number;
  return from->ends ? FEMEM_FILE_DAMAGED : session_kept(file, &kept, key, length);
}

static bool take_answered(session_file *file, cursor *from) {
  uint64_t wire = number_at(from, 8);
  const kept_request *place = session_place(file, wire);
  if (wire == 0 || place->wire != wire) return false;
  femem_answer answer = answer_at(from, &place->request);
  answer.number = place->number;
  return !from->ends && session_answered(file, wire, &answer);
}

static bool take_moved(session_file *file, cursor *from) {
  uint64_t wire = number_at(from, 8), to = number_at(from, 8);
  return to > file->last && session_moved(file, wire, to);
}

static bool take_forgotten(session_file *file, cursor *from) {
  size_t length;
  const char *key = key_at(from, &length);
  return !from->ends && session_forgotten(file, key, length);
}

/* Takes a record. A number that is not there is 0, which no request has. */
static femem_error take(session_file *file, cursor *from) {
  bool right = false;
  switch (number_at(from, 1)) {
    case RECORD_ASKED: return take_asked(file, from);
    case RECORD_KEPT: return take_kept(file, from);
    case RECORD_ENDED: right = session_ended(file, number_at(from, 8)); break;
    case RECORD_ANSWERED: right = take_answered(file, from); break;
    case RECORD_MOVED: right = take_moved(file, from); break;
    case RECORD_FORGOTTEN: right = take_forgotten(file, from); break;
    case RECORD_LEAVING: right = file->leaving = true; break;
    default: break;
  }
  return right ? FEMEM_OK : FEMEM_FILE_DAMAGED;
}

/* The size of the whole block at `at`; 0 if there is none. */
static size_t block_at(const session_file *file, const uint8_t *at, size_t count) {
  if (count < SESSION_HEAD + SESSION_SUM) return 0;
  uint64_t payload = session_get(at, 4);
  if (payload > count - SESSION_HEAD - SESSION_SUM) return 0;
  size_t size = SESSION_HEAD + (size_t)payload;
  return session_get(at + size, SESSION_SUM) == sum_of_block(file, at, size) ? size + SESSION_SUM : 0;
}

static femem_error take_block(session_file *file, const uint8_t *block, size_t size) {
  cursor from = {.at = block + SESSION_HEAD, .left = size - SESSION_HEAD - SESSION_SUM};
  while (from.left > 0) {
    femem_error error = take(file, &from);
    if (error) return error;
  }
  bool right = session_numbers(file, session_get(block + 4, 8), session_get(block + 12, 8), session_get(block + 20, 8));
  return right ? FEMEM_OK : FEMEM_FILE_DAMAGED;
}

/* What an interrupted write left is at the end, with no whole block behind it. Nothing of it was sent. */
femem_error session_read(session_file *file, const uint8_t *bytes, size_t size, size_t *end) {
  if (size < SESSION_HEADER || memcmp(bytes, magic, sizeof magic) != 0) return FEMEM_FILE_DAMAGED;
  if (session_get(bytes + 16, SESSION_SUM) != session_sum(0, bytes, 16)) return FEMEM_FILE_DAMAGED;
  file->session = session_get(bytes + 8, 8);
  size_t at = SESSION_HEADER;
  for (size_t whole; (whole = block_at(file, bytes + at, size - at)) > 0; at += whole) {
    femem_error error = take_block(file, bytes + at, whole);
    if (error) return error;
  }
  for (size_t behind = at + 1; behind < size; behind++)
    if (block_at(file, bytes + behind, size - behind) > 0) return FEMEM_FILE_DAMAGED;
  *end = at;
  return FEMEM_OK;
}
