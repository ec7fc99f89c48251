/* What a session file holds: requests that have not ended, and keys. Content that no client writes is refused here,
   whatever the form that it had in the file. */
#define _POSIX_C_SOURCE 200809L
#include "client.h"

#include <stdlib.h>
#include <string.h>

kept_request *session_place(session_file *file, uint64_t wire) { return &file->requests[wire % SESSION_REQUESTS]; }

/* ---- keys ---- */

static unsigned bucket_of(const char *key, size_t length) {
  return session_sum(0, (const uint8_t *)key, length) % SESSION_BUCKETS;
}

static bool is_of(const kept_key *kept, const char *key, size_t length) {
  return kept->length == length && memcmp(kept->key, key, length) == 0;
}

kept_key *session_find(const session_file *file, const char *key, size_t length) {
  kept_key *kept = file->keys[bucket_of(key, length)];
  while (kept && !is_of(kept, key, length)) kept = kept->next;
  return kept;
}

static kept_key *add_key(session_file *file, const char *key, size_t length) {
  kept_key *kept = calloc(1, sizeof *kept + length + 1), **bucket = &file->keys[bucket_of(key, length)];
  if (!kept) return NULL;
  kept->length = length;
  memcpy(kept->key, key, length);
  kept->next = *bucket;
  return *bucket = kept;
}

static void drop_key(session_file *file, const kept_key *dropped) {
  kept_key **at = &file->keys[bucket_of(dropped->key, dropped->length)];
  while (*at != dropped) at = &(*at)->next;
  kept_key *kept = *at;
  *at = kept->next;
  free(kept);
}

/* ---- records ---- */

/* Whether a number is in one window with those that have no answer, as each one that a client gives. */
static bool is_within(const session_file *file, uint64_t wire) {
  for (const kept_request *kept = file->requests; kept < file->requests + SESSION_REQUESTS; kept++)
    if (kept->wire && wire > kept->wire && wire - kept->wire >= SESSION_REQUESTS) return false;
  return true;
}

femem_error session_asked(session_file *file, const kept_request *asked, const char *key, size_t length) {
  kept_request *place = session_place(file, asked->wire);
  if (asked->wire == 0 || asked->number == 0 || asked->number > asked->wire || place->wire) return FEMEM_FILE_DAMAGED;
  if (!is_within(file, asked->wire)) return FEMEM_FILE_DAMAGED;
  if (length > 0 && session_find(file, key, length)) return FEMEM_FILE_DAMAGED;
  kept_key *kept = length > 0 ? add_key(file, key, length) : NULL;
  if (length > 0 && !kept) return FEMEM_MEMORY;
  *place = *asked;
  place->key = kept;
  if (kept) kept->number = asked->number;
  if (kept) kept->request = asked->request;
  if (asked->wire > file->last) file->last = asked->wire;
  return FEMEM_OK;
}

femem_error session_kept(session_file *file, const kept_key *kept, const char *key, size_t length) {
  if (length == 0 || session_find(file, key, length)) return FEMEM_FILE_DAMAGED;
  kept_key *made = add_key(file, key, length);
  if (!made) return FEMEM_MEMORY;
  made->number = kept->number;
  made->request = kept->request;
  made->answer = kept->answer;
  made->is_answered = true;
  return FEMEM_OK;
}

static bool is_unanswered(session_file *file, uint64_t wire) {
  return wire > 0 && session_place(file, wire)->wire == wire;
}

bool session_ended(session_file *file, uint64_t wire) {
  if (!is_unanswered(file, wire)) return false;
  kept_request *place = session_place(file, wire);
  if (place->key) drop_key(file, place->key);
  *place = (kept_request){0};
  return true;
}

bool session_answered(session_file *file, uint64_t wire, const femem_answer *answer) {
  if (!is_unanswered(file, wire)) return false;
  kept_request *place = session_place(file, wire);
  if (place->key) {
    place->key->answer = *answer;
    place->key->is_answered = true;
  }
  *place = (kept_request){0};
  return true;
}

bool session_moved(session_file *file, uint64_t wire, uint64_t to) {
  if (!is_unanswered(file, wire) || to <= wire) return false;
  kept_request request = *session_place(file, wire);
  *session_place(file, wire) = (kept_request){0};
  if (session_place(file, to)->wire || !is_within(file, to)) return false;
  request.wire = to;
  *session_place(file, to) = request;
  if (to > file->last) file->last = to;
  return true;
}

bool session_forgotten(session_file *file, const char *key, size_t length) {
  const kept_key *kept = session_find(file, key, length);
  if (!kept || !kept->is_answered) return false;
  drop_key(file, kept);
  return true;
}

bool session_numbers(session_file *file, uint64_t floor, uint64_t asked, uint64_t next) {
  bool ordered = floor <= asked && asked <= next && next - asked <= SESSION_REQUESTS;
  if (!ordered || (floor == 0 && next > 0) || asked > GREATEST_FLOOR) return false;
  if (floor < file->floor || asked < file->asked || next < file->next) return false;
  if (file->last > 0 && file->last >= next) return false;
  for (const kept_request *kept = file->requests; kept < file->requests + SESSION_REQUESTS; kept++)
    if (kept->wire && kept->wire < asked) return false;
  file->floor = floor;
  file->asked = asked;
  file->next = next;
  return true;
}

void session_forget_all(session_file *file) {
  for (kept_key **bucket = file->keys; bucket < file->keys + SESSION_BUCKETS; bucket++)
    while (*bucket) drop_key(file, *bucket);
  memset(file->requests, 0, sizeof file->requests);
  file->floor = file->asked = file->next = file->last = 0;
  file->leaving = false;
  file->payload = 0;
}
