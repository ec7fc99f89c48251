/* Locks: one of its own, or one of the places of an array, which keys share. Word OWNER is empty while it is free, and
   otherwise has its owner's session. Word COUNT counts acquisitions. */
#define _POSIX_C_SOURCE 200809L
#include "pattern.h"

#include <stdlib.h>
#include <string.h>

/* The words of a lock, and those of an array of places: of place i, OWNER and NEXT. A place whose NEXT is full is dead: its
   keys go on at the place that NEXT names. */
enum { OWNER, COUNT, LENGTH };
enum { SPARES = 2, PLACES, EACH = 2 };
enum { GENERATION_BITS = 40, USUAL_CAPACITY = 4096 };

struct femem_lock {
  femem *client;
  char name[sizeof((femem_request){0}.name) + 1];
  uint32_t capacity, spares;    /* of an array of places; 0: a lock of its own */
  uint64_t first, place;        /* where the key begins, and where it is now */
  uint64_t array;               /* that is known, or 0 */
  uint64_t held, held_at;       /* the word with which this handle holds it: its array, or 0, and its index */
  uint64_t generation, broke;
  uint64_t absent;              /* a session that was absent when it was looked for last, since `absent_at`; -1: none was */
  int64_t absent_at, look_at;   /* microseconds; look_at: when to look again */
  bool shows, adopted, has_broken;
};

/* ---- opening ---- */

static uint32_t length_of(const femem_lock *lock) {
  return lock->capacity ? PLACES + EACH * (lock->capacity + lock->spares) : LENGTH;
}

static femem_error open_lock(femem_lock **lock, femem *client, const char *name, uint32_t capacity, uint64_t first) {
  *lock = NULL;
  if (fe_is_copy(client)) return FEMEM_FORKED;
  if (client->settings.resume) return FEMEM_BAD_CALL;
  femem_lock *made = calloc(1, sizeof *made);
  if (!made) return FEMEM_MEMORY;
  *made = (femem_lock){.client = client, .capacity = capacity, .first = first, .place = first};
  if (capacity) made->spares = capacity < 8 ? 1 : capacity / 8;
  bool fits = length_of(made) <= MOST_WORDS;
  if (!fits || !fp_set_name(made->name, name, sizeof made->name - 1)) {
    free(made);
    return fits ? FEMEM_BAD_NAME : FEMEM_BAD_CALL;
  }
  *lock = made;
  return FEMEM_OK;
}

femem_error femem_lock_open(femem_lock **lock, femem *client, const char *name) {
  return open_lock(lock, client, name, 0, 0);
}

femem_error femem_lock_open_in(femem_lock **lock, femem *client, const char *name, uint32_t capacity, const char *key) {
  *lock = NULL;
  if (capacity == 0) capacity = USUAL_CAPACITY;
  if (!*key || capacity > MOST_WORDS) return FEMEM_BAD_CALL;
  return open_lock(lock, client, name, capacity, session_sum(0, (const uint8_t *)key, strlen(key)) % capacity);
}

void femem_lock_close(femem_lock *lock) {
  if (!lock) return;
  if (lock->held) fp_let_go(lock->client, lock->held, lock->held_at);
  fp_hide(lock->client, lock->shows);
  free(lock);
}

/* ---- words ---- */

static uint64_t owner_of(const femem_lock *lock) { return lock->capacity ? PLACES + EACH * lock->place : OWNER; }
static uint64_t next_of(const femem_lock *lock) { return owner_of(lock) + 1; }

/* Finds the array. With `makes` it is made if it is missing. FEMEM_BAD_CALL if it is another pattern's. */
static femem_error find(femem_lock *lock, bool makes) {
  if (lock->array) return FEMEM_OK;
  uint64_t array;
  uint32_t length = length_of(lock), found = length;
  lock->place = lock->first;
  femem_error error = makes ? fe_shared_array(lock->client, lock->name, length, &array)
                            : femem_find(lock->client, lock->name, &array, &found);
  if (error == FEMEM_OK && found != length) error = FEMEM_BAD_CALL;
  if (error == FEMEM_OK && lock->capacity) error = fp_mark(lock->client, array, "fe_lcks1");
  if (error) return error;
  const femem_request fills[] = {fp_fill(array, COUNT, 0), fp_fill(array, SPARES, 0)};
  femem_answer answers[2];
  error = fp_batch(lock->client, fills, lock->capacity ? 2 : 1, answers);
  if (error == FEMEM_OK && answers[0].error == FEMEM_NO_ARRAY) error = FEMEM_NO_ARRAY;
  if (error == FEMEM_OK) lock->array = array;
  return error;
}

/* Makes requests together. FEMEM_NO_ARRAY, and the array is not known any more, if it is gone. */
static femem_error ask_under(femem_lock *lock, const char *key, const femem_request *requests, size_t count,
                             femem_answer *answers) {
  femem_error error = fp_batch_under(lock->client, key, requests, count, answers);
  for (size_t i = 0; i < count && error == FEMEM_OK; i++)
    if (answers[i].error == FEMEM_NO_ARRAY) error = FEMEM_NO_ARRAY;
  if (error == FEMEM_NO_ARRAY) lock->array = 0;
  return error;
}

static femem_error ask(femem_lock *lock, const femem_request *requests, size_t count, femem_answer *answers) {
  return ask_under(lock, NULL, requests, count, answers);
}

/* Whether the place is dead: then its keys go on at the next one, and whoever waits here is woken. */
static bool goes_on(femem_lock *lock, const femem_answer *next) {
  if (!lock->capacity || next->error) return false;
  const femem_request wake = fp_empty(lock->array, owner_of(lock));
  femem_answer answer;
  fp_batch(lock->client, &wake, 1, &answer);
  lock->place = next->value;
  return true;
}

/* The session that holds the lock. FEMEM_NOT_NOW if it is free. */
static femem_error read_owner(femem_lock *lock, uint64_t *session) {
  for (;;) {
    const femem_request reads[] = {fp_read(lock->array, owner_of(lock)), fp_read(lock->array, next_of(lock))};
    femem_answer answers[2];
    femem_error error = ask(lock, reads, lock->capacity ? 2 : 1, answers);
    if (error) return error;
    if (goes_on(lock, &answers[1])) continue;
    *session = answers[0].value;
    return answers[0].error;
  }
}

/* ---- acquiring ---- */

static femem_error acquired(femem_lock *lock, const femem_answer *count) {
  if (count->error) return count->error;
  lock->generation = (lock->array << GENERATION_BITS) + count->value + 1;
  lock->held = lock->array;
  lock->held_at = owner_of(lock);
  fp_hold(lock->client, lock->held, lock->held_at);
  return FEMEM_OK;
}

/* The requests behind that which fills OWNER: the place is not dead, and the acquisition counts. */
static size_t put_looks(const femem_lock *lock, femem_request *requests) {
  requests[0] = fp_add(lock->array, COUNT, 1);
  requests[1] = fp_read(lock->array, next_of(lock));
  return lock->capacity ? 2 : 1;
}

/* Empties OWNER, which has the session, if an earlier process left it: a new key cannot have it. FEMEM_NOT_NOW otherwise. */
static femem_error empty_left(femem_lock *lock, const char *key) {
  femem_answer answer;
  femem_error error = femem_forget(lock->client, key);
  if (error) return error;
  if (!fp_is_left(lock->client, lock->array, owner_of(lock))) return FEMEM_NOT_NOW;
  const femem_request take = fp_take(lock->array, owner_of(lock));
  return ask(lock, &take, 1, &answer);
}

/* Takes the lock if it is free, or left by an earlier process of this session. FEMEM_NOT_NOW otherwise. */
static femem_error try_lock(femem_lock *lock, const char *key) {
  uint64_t session = femem_session(lock->client);
  for (;;) {
    femem_request requests[4] = {fp_fill(lock->array, owner_of(lock), session)};
    femem_answer answers[4];
    size_t count = 1 + put_looks(lock, requests + 1);
    requests[count] = fp_read(lock->array, owner_of(lock));
    femem_error error = ask_under(lock, key, requests, count + 1, answers);
    if (error) return error;
    if (goes_on(lock, &answers[2])) continue;
    bool is_new = answers[0].error == FEMEM_OK, is_own = answers[count].error == FEMEM_OK && answers[count].value == session;
    if (key && !is_new && is_own) {
      error = empty_left(lock, key);
      if (error) return error;
      continue;
    }
    lock->adopted = !is_new && is_own && fp_is_left(lock->client, lock->array, owner_of(lock));
    return is_new || lock->adopted ? acquired(lock, &answers[1]) : FEMEM_NOT_NOW;
  }
}

/* Waits for the lock, for a part of the time. FEMEM_NO_ARRAY: to begin again. */
static femem_error wait_for_lock(femem_lock *lock, const char *key, int64_t within) {
  femem_request take = fp_fill(lock->array, owner_of(lock), femem_session(lock->client)), looks[2];
  femem_answer answer, answers[2];
  femem_error error = fp_wait_under(lock->client, key, take, within, &answer);
  if (error == FEMEM_NO_ARRAY) lock->array = 0;
  if (error) return error;
  error = ask(lock, looks, put_looks(lock, looks), answers);
  if (error) return error;
  return goes_on(lock, &answers[1]) ? FEMEM_NO_ARRAY : acquired(lock, &answers[0]);
}

/* Frees the lock, whoever holds it: its array goes, or its place is dead. *did says whether this client did so. */
static femem_error free_it(femem_lock *lock, bool *did) {
  uint64_t array = lock->array;
  femem_answer answers[3];
  *did = false;
  if (lock->capacity) {
    const femem_request draw = fp_add(array, SPARES, 1);
    femem_error error = ask(lock, &draw, 1, answers);
    if (error) return error;
    if (answers[0].value < lock->spares) {
      const femem_request dies[] = {fp_fill(array, next_of(lock), lock->capacity + answers[0].value),
                                    fp_empty(array, owner_of(lock)), fp_read(array, next_of(lock))};
      error = ask(lock, dies, 3, answers);
      *did = error == FEMEM_OK && answers[0].error == FEMEM_OK;
      if (error == FEMEM_OK) lock->place = answers[2].value;
      return error;
    }
  }
  femem_error error = femem_remove(lock->client, array);
  *did = error == FEMEM_OK;
  lock->array = 0;
  return error == FEMEM_NO_ARRAY ? FEMEM_OK : error;
}

/* Looks after the owner. One that was absent for long enough loses the lock: FEMEM_NO_ARRAY. */
static femem_error look_after(femem_lock *lock, int64_t after) {
  uint64_t owner;
  const char *report;
  bool did;
  femem_error error = read_owner(lock, &owner);
  if (error == FEMEM_NOT_NOW) lock->absent_at = -1;
  if (error || after < 0) return error == FEMEM_NOT_NOW ? FEMEM_OK : error;
  error = femem_report(lock->client, &report);
  if (error) return error;
  bool is_new = lock->absent_at < 0 || lock->absent != owner;
  if (is_new) lock->absent_at = fe_now();
  lock->absent = owner;
  if (fp_is_there(lock->client, report, owner)) lock->absent_at = -1;
  if (lock->absent_at < 0 || fe_now() - lock->absent_at < 1000 * after) return FEMEM_OK;
  error = free_it(lock, &did);
  if (error == FEMEM_OK && did) lock->broke = owner;
  if (error == FEMEM_OK && did) lock->has_broken = true;
  return error ? error : FEMEM_NO_ARRAY;
}

/* Waits until the end: FEMEM_WITHDRAWN. FEMEM_NO_ARRAY: to begin again. What the last call saw counts, if it was just now. */
static femem_error wait_and_look(femem_lock *lock, const char *key, int64_t end, int64_t after) {
  int64_t pause = after < 0 ? LAST_LOOK : after / 4 > 10 ? after / 4 : 10, late = lock->look_at + 1000 * LAST_LOOK;
  if (after < 0 && !lock->capacity) return wait_for_lock(lock, key, fp_left(end));
  if (late < fe_now()) lock->absent_at = -1;
  if (late < fe_now()) lock->look_at = fe_moment(pause);
  for (;;) {
    uint64_t place = lock->place;
    femem_error error = wait_for_lock(lock, key, fp_least(end, fp_left(lock->look_at)));
    if (error != FEMEM_WITHDRAWN) return error;
    if (fe_is_past(lock->look_at)) {
      error = look_after(lock, after);
      if (error) return error;
      lock->look_at = fe_moment(pause);
    }
    if (fp_is_over(lock->client, end)) return FEMEM_WITHDRAWN;
    if (lock->place != place) return FEMEM_NO_ARRAY;
  }
}

static femem_error acquire(femem_lock *lock, const char *key, int64_t within, int64_t takeover_after) {
  int64_t end = fp_begin(lock->client, within);
  lock->adopted = lock->has_broken = false;
  femem_error error = lock->held ? FEMEM_BAD_CALL : fp_reserve(lock->client);
  if (error == FEMEM_OK) error = fp_show(lock->client, &lock->shows);
  while (error == FEMEM_OK || error == FEMEM_NO_ARRAY) {
    error = find(lock, true);
    if (error == FEMEM_OK) error = try_lock(lock, key);
    if (error == FEMEM_NOT_NOW) error = fp_is_over(lock->client, end) ? FEMEM_WITHDRAWN : wait_and_look(lock, key, end, takeover_after);
    if (error == FEMEM_OK) break;
  }
  return error;
}

femem_error femem_lock_acquire(femem_lock *lock, int64_t within, int64_t takeover_after) {
  return fe_is_copy(lock->client) ? FEMEM_FORKED : acquire(lock, NULL, within, takeover_after);
}

/* It was acquired under the key before: by this process, or by an earlier one. It counts again, since that may have been killed
   before it did. */
static femem_error take_again(femem_lock *lock, const femem_request *done) {
  uint64_t owner;
  femem_answer count;
  femem_error error = fp_reserve(lock->client);
  if (error == FEMEM_OK) error = fp_show(lock->client, &lock->shows);
  if (!lock->held) lock->array = 0;
  if (error == FEMEM_OK) error = find(lock, false);
  if (error == FEMEM_OK) error = read_owner(lock, &owner);
  if (error == FEMEM_NO_ARRAY || error == FEMEM_NOT_NOW) return FEMEM_NOT_OWNER;
  if (error) return error;
  if (lock->array != done->array || done->index != OWNER || owner != femem_session(lock->client)) return FEMEM_NOT_OWNER;
  if (fp_is_held(lock->client, lock->array, OWNER)) return FEMEM_OK;
  const femem_request add = fp_add(lock->array, COUNT, 1);
  error = ask(lock, &add, 1, &count);
  if (error == FEMEM_OK) error = acquired(lock, &count);
  lock->adopted = error == FEMEM_OK;
  return error == FEMEM_NO_ARRAY ? FEMEM_NOT_OWNER : error;
}

femem_error femem_lock_acquire_once(femem_lock *lock, const char *key, int64_t within, int64_t takeover_after) {
  femem_request done;
  if (fe_is_copy(lock->client)) return FEMEM_FORKED;
  if (lock->capacity) return FEMEM_BAD_CALL;
  lock->adopted = lock->has_broken = false;
  femem_error error = fp_tried(lock->client, key, &done);
  if (error == FEMEM_OK) return take_again(lock, &done);
  return error == FEMEM_NOT_NOW ? acquire(lock, key, within, takeover_after) : error;
}

/* ---- what becomes of it ---- */

/* Finds what an earlier process of this session left held. FEMEM_NOT_OWNER if there is nothing. */
static femem_error find_left(femem_lock *lock) {
  uint64_t owner;
  femem_error error = find(lock, false);
  if (error == FEMEM_OK) error = read_owner(lock, &owner);
  if (error == FEMEM_NO_ARRAY || error == FEMEM_NOT_NOW) return FEMEM_NOT_OWNER;
  if (error) return error;
  bool is_left = owner == femem_session(lock->client) && !fp_is_held(lock->client, lock->array, owner_of(lock));
  lock->held = is_left ? lock->array : 0;
  lock->held_at = owner_of(lock);
  return is_left ? FEMEM_OK : FEMEM_NOT_OWNER;
}

/* Only a session's own process empties a word that has the session, and only it fills one. */
femem_error femem_lock_release(femem_lock *lock) {
  if (fe_is_copy(lock->client)) return FEMEM_FORKED;
  femem_error error = lock->held ? FEMEM_OK : find_left(lock);
  if (error) return error;
  const femem_request gives[] = {fp_take(lock->held, lock->held_at), fp_read(lock->held, lock->held_at + 1)};
  femem_answer answers[2];
  error = fp_batch(lock->client, gives, lock->capacity ? 2 : 1, answers);
  fp_let_go(lock->client, lock->held, lock->held_at);
  lock->held = 0;
  if (error) return error;
  bool is_dead = lock->capacity && answers[1].error == FEMEM_OK;
  return answers[0].error || is_dead ? FEMEM_NOT_OWNER : FEMEM_OK;
}

femem_error femem_lock_owner(femem_lock *lock, uint64_t *session, bool *is_there) {
  if (fe_is_copy(lock->client)) return FEMEM_FORKED;
  const char *report;
  if (!lock->held) lock->array = 0;
  femem_error error = find(lock, false);
  if (error == FEMEM_OK) error = read_owner(lock, session);
  if (error || !is_there) return error;
  error = femem_find(lock->client, "presence", &lock->client->presence, NULL);
  if (error == FEMEM_OK) error = femem_report(lock->client, &report);
  *is_there = error == FEMEM_OK && fp_is_there(lock->client, report, *session);
  return error == FEMEM_NO_ARRAY ? FEMEM_OK : error;
}

femem_error femem_lock_break(femem_lock *lock) {
  if (fe_is_copy(lock->client)) return FEMEM_FORKED;
  bool did;
  uint64_t owner;
  lock->array = 0;
  femem_error error = find(lock, false);
  if (error == FEMEM_OK && lock->capacity) error = read_owner(lock, &owner); /* follows places that are dead */
  if (error == FEMEM_NOT_NOW) return FEMEM_OK;
  return error ? error : free_it(lock, &did);
}

uint64_t femem_lock_generation(const femem_lock *lock) { return lock->generation; }
bool femem_lock_adopted(const femem_lock *lock) { return lock->adopted; }

bool femem_lock_broke(const femem_lock *lock, uint64_t *session) {
  if (lock->has_broken && session) *session = lock->broke;
  return lock->has_broken;
}
