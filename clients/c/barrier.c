/* Barriers. Each round has an array of its own, NAME_0 or NAME_1 in turns; the newest has the greatest id. Its word ARRIVED
   counts, and its word GATE is filled once, by whoever decides the round. */
#define _POSIX_C_SOURCE 200809L
#include "pattern.h"

#include <stdlib.h>
#include <string.h>

enum { ARRIVED, GATE, LENGTH };
enum { OPEN = 1, BROKEN = 2, ROUNDS = 2 };

struct femem_barrier {
  femem *client;
  char names[ROUNDS][sizeof((femem_request){0}.name) + 1];
  uint32_t parties;
  uint64_t array;               /* of the newest round that is known, or 0 */
};

femem_error femem_barrier_open(femem_barrier **barrier, femem *client, const char *name, uint32_t parties) {
  *barrier = NULL;
  if (fe_is_copy(client)) return FEMEM_FORKED;
  if (parties == 0 || client->settings.resume) return FEMEM_BAD_CALL;
  femem_barrier *made = calloc(1, sizeof *made);
  if (!made) return FEMEM_MEMORY;
  *made = (femem_barrier){.client = client, .parties = parties};
  for (int i = 0; i < ROUNDS; i++) {
    if (!fp_set_name(made->names[i], name, sizeof made->names[i] - 3)) {
      free(made);
      return FEMEM_BAD_NAME;
    }
    memcpy(made->names[i] + strlen(name), i ? "_1" : "_0", 3);
  }
  *barrier = made;
  return FEMEM_OK;
}

void femem_barrier_close(femem_barrier *barrier) { free(barrier); }

/* Finds the arrays of both names; 0: there is none. FEMEM_BAD_CALL if one is another pattern's. */
static femem_error find_rounds(femem_barrier *barrier, uint64_t *ids) {
  femem_request finds[ROUNDS];
  femem_answer answers[ROUNDS];
  for (int i = 0; i < ROUNDS; i++) finds[i] = fp_named(FEMEM_FIND, barrier->names[i], 0);
  femem_error error = fp_batch(barrier->client, finds, ROUNDS, answers);
  for (int i = 0; i < ROUNDS && error == FEMEM_OK; i++) {
    ids[i] = answers[i].error == FEMEM_OK ? answers[i].array : 0;
    if (ids[i] && answers[i].length != LENGTH) error = FEMEM_BAD_CALL;
  }
  return error;
}

static femem_error find(femem_barrier *barrier) {
  uint64_t ids[ROUNDS];
  if (barrier->array) return FEMEM_OK;
  femem_error error = find_rounds(barrier, ids);
  if (error) return error;
  barrier->array = ids[0] > ids[1] ? ids[0] : ids[1];
  return barrier->array ? FEMEM_OK : fe_shared_array(barrier->client, barrier->names[0], LENGTH, &barrier->array);
}

/* Begins the round after this one, which is decided. Its array takes the place of the one before. */
static femem_error begin_next(femem_barrier *barrier) {
  uint64_t ids[ROUNDS], array = barrier->array;
  barrier->array = 0;
  femem_error error = find_rounds(barrier, ids);
  if (error) return error;
  bool is_second = ids[1] == array, is_newest = array >= ids[0] && array >= ids[1] && (is_second || ids[0] == array);
  int other = is_second ? 0 : 1;
  femem_request requests[2];
  femem_answer answers[2];
  size_t count = 0;
  if (!is_newest) return FEMEM_OK;
  if (ids[other]) requests[count++] = (femem_request){.operation = FEMEM_REMOVE, .array = ids[other]};
  requests[count++] = fp_named(FEMEM_CREATE, barrier->names[other], LENGTH);
  return fp_batch(barrier->client, requests, count, answers);
}

/* Decides the round, unless it is decided. *how says how it is. */
static femem_error decide(femem_barrier *barrier, uint64_t wanted, uint64_t *how) {
  const femem_request requests[] = {fp_fill(barrier->array, GATE, wanted), fp_read(barrier->array, GATE)};
  femem_answer answers[2];
  femem_error error = fp_batch(barrier->client, requests, 2, answers);
  *how = error == FEMEM_OK && answers[1].error == FEMEM_OK ? answers[1].value : BROKEN;
  return error;
}

/* Goes on from a broken round to the next one. FEMEM_BROKEN if there is none. */
static femem_error pass_over(femem_barrier *barrier) {
  uint64_t array = barrier->array;
  barrier->array = 0;
  femem_error error = find(barrier);
  return error == FEMEM_OK && barrier->array == array ? FEMEM_BROKEN : error;
}

/* Arrives in a round that is not full. */
static femem_error arrive(femem_barrier *barrier, uint64_t *number) {
  for (;;) {
    femem_error error = find(barrier);
    if (error) return error;
    const femem_request requests[] = {fp_fill(barrier->array, ARRIVED, 0), fp_read(barrier->array, GATE),
                                      fp_add(barrier->array, ARRIVED, 1)};
    femem_answer answers[3];
    uint64_t how = OPEN;
    error = fp_batch(barrier->client, requests, 3, answers);
    if (error) return error;
    bool is_gone = answers[2].error == FEMEM_NO_ARRAY, is_broken = answers[1].error == FEMEM_OK && answers[1].value == BROKEN;
    *number = answers[2].value;
    if (!is_gone && !is_broken && *number < barrier->parties) return FEMEM_OK;
    if (is_gone) barrier->array = 0;
    else if (!is_broken) error = decide(barrier, OPEN, &how);
    if (error == FEMEM_OK && (is_broken || how == BROKEN)) error = pass_over(barrier);
    else if (error == FEMEM_OK && !is_gone) error = begin_next(barrier);
    if (error) return error;
  }
}

/* How the round is decided, once it is. Looks each second whether the last one disappeared before it opened the gate.
   FEMEM_WITHDRAWN: the time is over, and the round is broken. */
static femem_error wait_at_gate(femem_barrier *barrier, int64_t end, uint64_t *how) {
  for (;;) {
    femem_answer answer = {0};
    femem_error error = fp_wait(barrier->client, fp_read(barrier->array, GATE), fp_least(end, LAST_LOOK), &answer);
    *how = error == FEMEM_NO_ARRAY ? BROKEN : answer.value;
    if (error == FEMEM_OK || error == FEMEM_NO_ARRAY) return FEMEM_OK;
    if (error != FEMEM_WITHDRAWN) return error;
    if (fp_is_over(barrier->client, end)) {
      error = decide(barrier, BROKEN, how);
      return error == FEMEM_OK && *how == BROKEN ? FEMEM_WITHDRAWN : error;
    }
    const femem_request look = fp_read(barrier->array, ARRIVED);
    error = fp_batch(barrier->client, &look, 1, &answer);
    if (error) return error;
    if (answer.error == FEMEM_OK && answer.value >= barrier->parties) return decide(barrier, OPEN, how);
  }
}

femem_error femem_barrier_wait(femem_barrier *barrier, int64_t within, uint32_t *number) {
  uint64_t arrival, how = BROKEN;
  if (fe_is_copy(barrier->client)) return FEMEM_FORKED;
  int64_t end = fp_begin(barrier->client, within);
  femem_error error = arrive(barrier, &arrival);
  if (error) return error;
  error = arrival == barrier->parties - 1 ? decide(barrier, OPEN, &how) : wait_at_gate(barrier, end, &how);
  if (error == FEMEM_OK && number) *number = (uint32_t)arrival;
  return error == FEMEM_OK && how != OPEN ? FEMEM_BROKEN : error;
}

femem_error femem_barrier_reset(femem_barrier *barrier) {
  uint64_t how;
  if (fe_is_copy(barrier->client)) return FEMEM_FORKED;
  barrier->array = 0;
  femem_error error = find(barrier);
  if (error == FEMEM_OK) error = decide(barrier, BROKEN, &how);
  return error ? error : begin_next(barrier);
}
