/* Semaphores. Each permit's word has the session of its holder; a ring hands on the numbers of permits that are free. Only
   the permits' words decide: one that is free and not in the ring is found by whoever waits, after a moment. */
#define _POSIX_C_SOURCE 200809L
#include "ring.h"

#include <stdlib.h>

struct femem_semaphore {
  femem *client;
  char name[sizeof((femem_request){0}.name) + 1];
  uint32_t permits;
  ring ring;
  uint32_t *held;               /* the permits of this handle */
  uint32_t held_count;
  bool has_looked, adopted;     /* for what an earlier process of this session left */
};

femem_error femem_semaphore_open(femem_semaphore **semaphore, femem *client, const char *name, uint32_t permits) {
  *semaphore = NULL;
  if (fe_is_copy(client)) return FEMEM_FORKED;
  if (permits == 0 || permits > (MOST_WORDS - RING_SLOTS) / 2 || client->settings.resume) return FEMEM_BAD_CALL;
  femem_semaphore *made = calloc(1, sizeof *made);
  if (!made) return FEMEM_MEMORY;
  *made = (femem_semaphore){.client = client, .permits = permits, .ring = {.client = client, .slots = permits}};
  made->held = calloc(permits, sizeof *made->held);
  made->ring.requests = calloc((size_t)permits + 2, sizeof *made->ring.requests);
  made->ring.answers = calloc((size_t)permits + 2, sizeof *made->ring.answers);
  bool has_room = made->held && made->ring.requests && made->ring.answers;
  bool is_named = fp_set_name(made->name, name, sizeof made->name - 1);
  if (has_room && is_named) *semaphore = made;
  else femem_semaphore_close(made);
  return !has_room ? FEMEM_MEMORY : is_named ? FEMEM_OK : FEMEM_BAD_NAME;
}

static uint64_t word_of(const femem_semaphore *semaphore, uint64_t permit) {
  return RING_SLOTS + semaphore->permits + permit;
}

void femem_semaphore_close(femem_semaphore *semaphore) {
  if (!semaphore) return;
  while (semaphore->held_count)
    fp_let_go(semaphore->client, semaphore->ring.array, word_of(semaphore, semaphore->held[--semaphore->held_count]));
  free(semaphore->held);
  free(semaphore->ring.requests);
  free(semaphore->ring.answers);
  free(semaphore);
}

/* Finds the array, or makes it. At first the ring has all numbers. */
static femem_error find(femem_semaphore *semaphore) {
  femem *client = semaphore->client;
  ring *of = &semaphore->ring;
  uint64_t array;
  if (of->array) return FEMEM_OK;
  femem_error error = fe_shared_array(client, semaphore->name, RING_SLOTS + 2 * semaphore->permits, &array);
  if (error == FEMEM_OK) error = fp_mark(client, array, "fe_sema1");
  if (error) return error;
  of->requests[0] = fp_read(array, RING_HEAD);
  error = fp_batch(client, of->requests, 1, of->answers);
  if (error == FEMEM_OK && of->answers[0].error == FEMEM_NOT_NOW) {
    for (uint32_t i = 0; i < semaphore->permits; i++) of->requests[i] = fp_fill(array, RING_SLOTS + i, i);
    of->requests[semaphore->permits] = fp_fill(array, RING_TAIL, semaphore->permits);
    of->requests[semaphore->permits + 1] = fp_fill(array, RING_HEAD, 0);
    error = fp_batch(client, of->requests, (size_t)semaphore->permits + 2, of->answers);
  }
  if (error == FEMEM_OK) of->array = array;
  return error;
}

/* Reads the permits' words: answers[i] is that of permit i. */
static femem_error look(femem_semaphore *semaphore) {
  ring *of = &semaphore->ring;
  for (uint32_t i = 0; i < semaphore->permits; i++) of->requests[i] = fp_read(of->array, word_of(semaphore, i));
  return fp_batch(semaphore->client, of->requests, semaphore->permits, of->answers);
}

/* Empties the permit's word if it has that session, and leaves the number in the ring. *gave says whether it did. */
static femem_error give(femem_semaphore *semaphore, uint64_t permit, uint64_t holder, bool *gave) {
  ring *of = &semaphore->ring;
  uint64_t word = word_of(semaphore, permit);
  const femem_request looks[] = {fp_read(of->array, word), fp_add(of->array, RING_TAIL, 1)}, take = fp_take(of->array, word);
  femem_answer answers[2], taken;
  *gave = false;
  femem_error error = fp_batch(semaphore->client, looks, 2, answers);
  if (error) return error;
  if (answers[0].error || answers[0].value != holder) {
    fp_let_go(semaphore->client, of->array, word);
    return FEMEM_OK;
  }
  error = fp_batch(semaphore->client, &take, 1, &taken);
  if (error) return error;
  fp_let_go(semaphore->client, of->array, word);
  *gave = taken.error == FEMEM_OK;
  return *gave && answers[1].error == FEMEM_OK ? fr_leave(of, answers[1].value, permit) : FEMEM_OK;
}

static void hold(femem_semaphore *semaphore, uint32_t permit) {
  semaphore->held[semaphore->held_count++] = permit;
  fp_hold(semaphore->client, semaphore->ring.array, word_of(semaphore, permit));
}

/* Takes this permit, if it is free: FEMEM_NOT_NOW. */
static femem_error take(femem_semaphore *semaphore, const char *key, uint32_t permit) {
  const femem_request fill = fp_fill(semaphore->ring.array, word_of(semaphore, permit), femem_session(semaphore->client));
  femem_answer answer;
  femem_error error = fp_batch_under(semaphore->client, key, &fill, 1, &answer);
  if (error == FEMEM_OK && answer.error == FEMEM_OK) hold(semaphore, permit);
  return error ? error : answer.error;
}

/* Takes any permit: FEMEM_NOT_NOW if none is free. */
static femem_error take_any(femem_semaphore *semaphore, const char *key) {
  femem_error error = look(semaphore);
  for (uint32_t i = 0; i < semaphore->permits && error == FEMEM_OK; i++) {
    if (semaphore->ring.answers[i].error != FEMEM_NOT_NOW) continue;
    error = take(semaphore, key, i);
    if (error != FEMEM_NOT_NOW) return error;
    error = FEMEM_OK;
  }
  return error ? error : FEMEM_NOT_NOW;
}

/* Adopts one of the permits that were left, if there is no key, and gives back all others. */
static femem_error adopt(femem_semaphore *semaphore, const char *key) {
  uint64_t session = femem_session(semaphore->client), array = semaphore->ring.array;
  femem_error error = semaphore->has_looked ? FEMEM_OK : look(semaphore);
  if (error || semaphore->has_looked) return error;
  uint32_t left = 0, adopts = key ? 0 : 1;
  for (uint32_t i = 0; i < semaphore->permits; i++) {
    const femem_answer *holder = &semaphore->ring.answers[i];
    if (holder->error || holder->value != session || !fp_is_left(semaphore->client, array, word_of(semaphore, i))) continue;
    semaphore->held[semaphore->held_count + left++] = i;
  }
  for (bool gave; left > adopts && error == FEMEM_OK; left--)
    error = give(semaphore, semaphore->held[semaphore->held_count + left - 1], session, &gave);
  if (error) return error;
  semaphore->has_looked = true;
  semaphore->adopted = left == 1;
  if (semaphore->adopted) hold(semaphore, semaphore->held[semaphore->held_count]);
  return FEMEM_OK;
}

/* Takes a permit of the ring, or any that is free once none came from there for a while. */
static femem_error take_one(femem_semaphore *semaphore, const char *key, int64_t end) {
  for (int64_t pause = FIRST_LOOK;; pause = 2 * pause < LAST_LOOK ? 2 * pause : LAST_LOOK) {
    uint64_t number;
    femem_error error = fr_get(&semaphore->ring, fe_moment(fp_least(end, pause)), &number);
    if (error == FEMEM_OK) error = number < semaphore->permits ? take(semaphore, key, (uint32_t)number) : FEMEM_NOT_NOW;
    if (error == FEMEM_WITHDRAWN) error = take_any(semaphore, key);
    if (error != FEMEM_NOT_NOW) return error;
    if (fp_is_over(semaphore->client, end)) return FEMEM_WITHDRAWN;
  }
}

static femem_error acquire(femem_semaphore *semaphore, const char *key, int64_t within) {
  int64_t end = fp_begin(semaphore->client, within);
  if (semaphore->held_count == semaphore->permits) return FEMEM_BAD_CALL;
  semaphore->adopted = false;
  femem_error error = fp_reserve(semaphore->client);
  if (error == FEMEM_OK) error = find(semaphore);
  if (error == FEMEM_OK) error = adopt(semaphore, key);
  if (error == FEMEM_OK && !semaphore->adopted) error = take_one(semaphore, key, end);
  if (error == FEMEM_NO_ARRAY) semaphore->ring.array = 0;
  /* A call whose answer did not come may have taken one: the next look shows it. */
  if (error && error != FEMEM_WITHDRAWN) semaphore->has_looked = false;
  return error;
}

femem_error femem_semaphore_acquire(femem_semaphore *semaphore, int64_t within) {
  return fe_is_copy(semaphore->client) ? FEMEM_FORKED : acquire(semaphore, NULL, within);
}

/* The permit was acquired under the key before: by this process, or by an earlier one. */
static femem_error take_again(femem_semaphore *semaphore, const femem_request *done) {
  femem_answer holder;
  femem_error error = fp_reserve(semaphore->client);
  if (error == FEMEM_OK) error = find(semaphore);
  if (error) return error;
  uint64_t array = semaphore->ring.array, first = word_of(semaphore, 0);
  if (array != done->array || done->index < first || done->index - first >= semaphore->permits) return FEMEM_NOT_OWNER;
  const femem_request look = fp_read(array, done->index);
  error = fp_batch(semaphore->client, &look, 1, &holder);
  if (error) return error;
  if (holder.error == FEMEM_NO_ARRAY) semaphore->ring.array = 0;
  if (holder.error || holder.value != femem_session(semaphore->client)) return FEMEM_NOT_OWNER;
  if (fp_is_held(semaphore->client, array, done->index)) return FEMEM_OK;
  hold(semaphore, (uint32_t)(done->index - first));
  semaphore->adopted = true;
  return FEMEM_OK;
}

femem_error femem_semaphore_acquire_once(femem_semaphore *semaphore, const char *key, int64_t within) {
  femem_request done;
  if (fe_is_copy(semaphore->client)) return FEMEM_FORKED;
  semaphore->adopted = false;
  femem_error error = fp_tried(semaphore->client, key, &done);
  if (error == FEMEM_OK) return take_again(semaphore, &done);
  return error == FEMEM_NOT_NOW ? acquire(semaphore, key, within) : error;
}

femem_error femem_semaphore_release(femem_semaphore *semaphore) {
  if (fe_is_copy(semaphore->client)) return FEMEM_FORKED;
  uint64_t session = femem_session(semaphore->client);
  bool gave = false;
  femem_error error = find(semaphore);
  while (error == FEMEM_OK && !gave && semaphore->held_count) {
    error = give(semaphore, semaphore->held[semaphore->held_count - 1], session, &gave);
    if (error == FEMEM_OK) semaphore->held_count--;
  }
  if (error || gave) return error;
  return femem_semaphore_release_of(semaphore, session);
}

femem_error femem_semaphore_release_of(femem_semaphore *semaphore, uint64_t session) {
  if (fe_is_copy(semaphore->client)) return FEMEM_FORKED;
  bool is_own = session == femem_session(semaphore->client), gave = false;
  femem_error error = find(semaphore);
  if (error == FEMEM_OK) error = look(semaphore);
  for (uint32_t i = 0; i < semaphore->permits && error == FEMEM_OK && !gave; i++) {
    const femem_answer *holder = &semaphore->ring.answers[i];
    bool is_left = !is_own || !fp_is_held(semaphore->client, semaphore->ring.array, word_of(semaphore, i));
    if (holder->error == FEMEM_OK && holder->value == session && is_left) error = give(semaphore, i, session, &gave);
  }
  return error || gave ? error : FEMEM_NOT_OWNER;
}

femem_error femem_semaphore_holders(femem_semaphore *semaphore, uint64_t *sessions, size_t most, size_t *count) {
  *count = 0;
  if (fe_is_copy(semaphore->client)) return FEMEM_FORKED;
  femem_error error = find(semaphore);
  if (error == FEMEM_OK) error = look(semaphore);
  for (uint32_t i = 0; i < semaphore->permits && error == FEMEM_OK; i++) {
    if (semaphore->ring.answers[i].error) continue;
    if (*count < most) sessions[*count] = semaphore->ring.answers[i].value;
    ++*count;
  }
  return error;
}

bool femem_semaphore_adopted(const femem_semaphore *semaphore) { return semaphore->adopted; }
