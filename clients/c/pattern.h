/* What locks, semaphores, barriers, counters and queues share. docs/patterns.md has their words and steps. */
#ifndef PATTERN_H
#define PATTERN_H

#include "client.h"

/* Milliseconds, between two looks of one that waits: at first, and at most. */
enum { FIRST_LOOK = 50, LAST_LOOK = 1000 };

/* Requests for a word that do not wait. */
femem_request fp_read(uint64_t array, uint64_t index);
femem_request fp_take(uint64_t array, uint64_t index);
femem_request fp_fill(uint64_t array, uint64_t index, uint64_t value);
femem_request fp_add(uint64_t array, uint64_t index, uint64_t value);
femem_request fp_empty(uint64_t array, uint64_t index);
/* A request to find, or to make with empty words, an array of that name. */
femem_request fp_named(femem_operation operation, const char *name, uint32_t length);
/* Makes requests together. Answers may be FEMEM_OK, FEMEM_NO_ARRAY, FEMEM_NOT_NOW and FEMEM_NAME_TAKEN. */
femem_error fp_batch(femem *client, const femem_request *requests, size_t count, femem_answer *answers);
/* Makes a request that waits, `within` milliseconds at most: FEMEM_WITHDRAWN. */
femem_error fp_wait(femem *client, femem_request request, int64_t within, femem_answer *answer);
/* What a key's tries have come to, of which each fills a word with the session. FEMEM_OK: one has, *done. FEMEM_NOT_NOW: none
   has, and none will. FEMEM_BAD_CALL: there is no session file, or it is no key. FEMEM_OTHER_REQUEST. */
femem_error fp_tried(femem *client, const char *key, femem_request *done);
/* fp_batch and fp_wait, the first request under the key, of which no try has happened; it may be NULL. */
femem_error fp_batch_under(femem *client, const char *key, const femem_request *requests, size_t count, femem_answer *answers);
femem_error fp_wait_under(femem *client, const char *key, femem_request request, int64_t within, femem_answer *answer);
/* Begins a call that femem_stop_at may end; and whether it is over, since it was ended or its time is. */
int64_t fp_begin(femem *client, int64_t within);
bool fp_is_over(const femem *client, int64_t end);
/* What is left until the moment, in milliseconds; the least of that and `most`. */
int64_t fp_left(int64_t end);
int64_t fp_least(int64_t end, int64_t most);
/* A handle's name, of 1 to `most` bytes. */
bool fp_set_name(char *to, const char *name, size_t most);
/* Fills the first word with the eight letters of a mark. FEMEM_BAD_CALL if it has another value. */
femem_error fp_mark(femem *client, uint64_t array, const char *mark);

/* ---- who is there ---- */

/* Shows this client for a handle, which says in *shows whether it has done so; and no more. */
femem_error fp_show(femem *client, bool *shows);
void fp_hide(femem *client, bool shows);
/* Whether a report has the session at `presence`. */
bool fp_is_there(const femem *client, const char *report, uint64_t session);

/* ---- what this process has filled with its session ----

   Any other word that has the session was left, by an earlier process or by a call whose answer did not come. */

/* Room for one more word: FEMEM_MEMORY. */
femem_error fp_reserve(femem *client);
void fp_hold(femem *client, uint64_t array, uint64_t index);
void fp_let_go(femem *client, uint64_t array, uint64_t index);
/* Whether this process has filled the word. */
bool fp_is_held(const femem *client, uint64_t array, uint64_t index);
/* Whether a word that has the session was left, and no key of the session file has it. */
bool fp_is_left(const femem *client, uint64_t array, uint64_t index);

#endif
