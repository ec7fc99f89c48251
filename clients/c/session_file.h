/* The file in which a client keeps its session over its own restarts. docs/session-file.md has its format. Records are
   buffered here, and are in the file after the next session_file_sync. */
#ifndef FEMEM_SESSION_FILE_H
#define FEMEM_SESSION_FILE_H

#include "femem.h"

enum {
  SESSION_REQUESTS = 32,       /* a request's place is its number modulo this */
  SESSION_BUCKETS = 1024,
  SESSION_HEADER = 20,
  SESSION_HEAD = 28,           /* of a block, before its payload */
  SESSION_SUM = 4              /* behind it */
};

/* A key, its request, and its answer once there is one. */
typedef struct kept_key {
  struct kept_key *next;
  bool is_answered;
  uint64_t number;             /* of the caller; 0 if it is not known */
  femem_request request;
  femem_answer answer;
  size_t length;
  char key[];                  /* and a zero byte */
} kept_key;

/* A request that has not ended, as far as the file knows. */
typedef struct kept_request {
  uint64_t wire, number;       /* wire: 0 if the place is free; number: the caller's */
  bool ends_with_process;      /* the next process cancels it, and nobody gets its answer */
  femem_request request;
  kept_key *key;
} kept_request;

typedef struct session_file {
  int descriptor;
  char *path;
  bool failed, leaving;
  uint64_t session;
  uint64_t floor, asked, next; /* of the last block; all 0 before the session's first request */
  uint64_t last;               /* the greatest number that a request was given */
  size_t size, compacted;      /* of the file, now and after its last rewriting */
  kept_request requests[SESSION_REQUESTS];
  kept_key *keys[SESSION_BUCKETS];
  size_t payload, room;        /* what is buffered in `block`, and the size of that */
  uint8_t *block;
} session_file;

/* ---- session_file.c: the file, and what is written to it ---- */

/* Opens, locks, reads and syncs the file, which is created if it is missing. FEMEM_FILE_FAULT (errno says why),
   FEMEM_FILE_IN_USE, FEMEM_FILE_DAMAGED, FEMEM_MEMORY; then *file is NULL. */
femem_error session_file_open(session_file **file, const char *path);
/* Closes and unlocks the file. Writes nothing. */
void session_file_close(session_file *file);

/* Notes a request, under its number on the wire; `ends` if it ends with its process. `key` may be NULL. False if there
   is no memory. */
bool session_file_ask(session_file *file, uint64_t wire, uint64_t number, const femem_request *request,
                      const char *key, bool ends);
/* Notes a request's new number. */
void session_file_move(session_file *file, uint64_t wire, uint64_t to);
/* Notes how a request has ended. A key keeps an answer, and is forgotten if the request has not happened. */
void session_file_end(session_file *file, uint64_t wire, const femem_answer *answer);
/* Notes in the file that a request has ended without effect, before a settle passes it. Until the floor is above it, an
   answer may still come: so its key is kept here. */
void session_file_pass(session_file *file, uint64_t wire);
/* How that request has ended. If it has happened, its key has the answer in the file after the next sync: true. */
bool session_file_passed(session_file *file, uint64_t wire, const femem_answer *answer);
/* Drops a key that has an answer. False if there is no memory; then nothing has changed. */
bool session_file_forget(session_file *file, const char *key);
/* Notes that the session is about to be ended. */
void session_file_leave(session_file *file);

/* Writes the buffered records as one block, with the last floor that the server reported, the one that was asked for
   and the next number, and syncs it. If it returns false, errno says why, and the file can't be written any more. */
bool session_file_sync(session_file *file, uint64_t floor, uint64_t asked, uint64_t next);
/* Drops everything, and begins with a new session. */
bool session_file_begin(session_file *file);

/* ---- session_state.c: what the file holds ---- */

kept_request *session_place(session_file *file, uint64_t wire);
kept_key *session_find(const session_file *file, const char *key, size_t length);

/* What a record means. FEMEM_FILE_DAMAGED, or false, if it contradicts what the file holds. */
femem_error session_asked(session_file *file, const kept_request *asked, const char *key, size_t length);
femem_error session_kept(session_file *file, const kept_key *kept, const char *key, size_t length);
bool session_ended(session_file *file, uint64_t wire);
bool session_answered(session_file *file, uint64_t wire, const femem_answer *answer);
bool session_moved(session_file *file, uint64_t wire, uint64_t to);
bool session_forgotten(session_file *file, const char *key, size_t length);
/* Takes the numbers at the end of a block. False if they contradict each other or what the file holds. */
bool session_numbers(session_file *file, uint64_t floor, uint64_t asked, uint64_t next);
/* Drops everything. */
void session_forget_all(session_file *file);

/* ---- session_records.c: how it is written ---- */

/* Big-endian numbers. */
uint8_t *session_put(uint8_t *at, uint64_t number, int bytes);
uint64_t session_get(const uint8_t *at, int bytes);
/* CRC-32 of `before`, which has that sum, and of the bytes behind it; 0 is the sum of nothing. */
uint32_t session_sum(uint32_t before, const uint8_t *bytes, size_t count);

/* Makes room for one more record; false if there is no memory. Records that need no room are ended, moved and leaving:
   there is always some for those of a whole window. */
bool session_room(session_file *file, size_t key);
void session_put_asked(session_file *file, const kept_request *kept);
void session_put_kept(session_file *file, const kept_key *kept);
void session_put_ended(session_file *file, uint64_t wire);
void session_put_answered(session_file *file, uint64_t wire, const kept_key *kept);
void session_put_moved(session_file *file, uint64_t wire, uint64_t to);
void session_put_forgotten(session_file *file, const char *key, size_t length);
void session_put_leaving(session_file *file);
/* Puts head and sum round the records. Returns the size of the block, which begins at file->block. */
size_t session_end_block(session_file *file, uint64_t floor, uint64_t asked, uint64_t next);
void session_put_header(const session_file *file, uint8_t *header);

/* Reads a whole file of version 2. `end` is where the blocks end. FEMEM_FILE_DAMAGED, FEMEM_MEMORY. */
femem_error session_read(session_file *file, const uint8_t *bytes, size_t size, size_t *end);

#endif
