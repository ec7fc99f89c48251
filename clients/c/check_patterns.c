/* Locks, locks of keys, semaphores, counters, barriers and femem_wait_any with a real server: check_patterns PROGRAM. First
   their calls; then programs in C and one in Python that share each of them, and are killed again and again, in turns with
   their server. It ends by itself, with status 0 if all is right. */
#define _GNU_SOURCE
#include "real.h"

enum { CLIENTS = 4, LEAST = 40, KILLS = 40, ROUNDS = 30, PARTIES = 3, STEPS = 60 };

static const femem_settings any_time = {.wait = 60000, .reconnect = 60000};

static void right_at(femem_error error, int line) {
  if (error) fprintf(stderr, "check_patterns.c:%d: %s\n", line, femem_error_text(error));
  if (error) _exit(2);
}

#define right(error) right_at(error, __LINE__)

/* ---- calls ---- */

static femem_lock *lock_of(femem *client, const char *key) {
  femem_lock *lock = NULL;
  ERROR(key ? femem_lock_open_in(&lock, client, "orders_of_calls", 8, key) : femem_lock_open(&lock, client, "lock"), FEMEM_OK);
  return lock;
}

/* Two clients, one lock: the second waits, is refused, and gets it. */
static void locks(const char *key) {
  femem *one = opened(11, &usual), *two = opened(12, &usual);
  femem_lock *first = lock_of(one, key), *second = lock_of(two, key);
  uint64_t session = 0;
  bool there = false;
  ERROR(femem_lock_owner(first, &session, &there), FEMEM_NO_ARRAY);
  ERROR(femem_lock_release(first), FEMEM_NOT_OWNER);
  ERROR(femem_lock_acquire(first, 0, FEMEM_NEVER), FEMEM_OK);
  CHECK(!femem_lock_adopted(first) && !femem_lock_broke(first, &session));
  ERROR(femem_lock_acquire(first, 0, FEMEM_NEVER), FEMEM_BAD_CALL);
  ERROR(femem_lock_acquire(second, 0, FEMEM_NEVER), FEMEM_WITHDRAWN);
  ERROR(femem_lock_acquire(second, 50, FEMEM_NEVER), FEMEM_WITHDRAWN);
  ERROR(femem_lock_acquire(second, 500, 100), FEMEM_WITHDRAWN); /* its owner is there */
  ERROR(femem_lock_owner(second, &session, &there), FEMEM_OK);
  CHECK(session == 11 && there);
  ERROR(femem_lock_release(second), FEMEM_NOT_OWNER);
  uint64_t generation = femem_lock_generation(first);
  ERROR(femem_lock_release(first), FEMEM_OK);
  ERROR(femem_lock_owner(second, &session, NULL), FEMEM_NOT_NOW);
  ERROR(femem_lock_release(first), FEMEM_NOT_OWNER);
  ERROR(femem_lock_acquire(second, 1000, 100), FEMEM_OK);
  CHECK(femem_lock_generation(second) > generation);
  /* Broken: its owner's release says so, and the next number is greater. */
  generation = femem_lock_generation(second);
  ERROR(femem_lock_break(first), FEMEM_OK);
  ERROR(femem_lock_acquire(first, 1000, FEMEM_NEVER), FEMEM_OK);
  CHECK(femem_lock_generation(first) > generation);
  ERROR(femem_lock_release(second), FEMEM_NOT_OWNER);
  /* A second handle of one client waits for the first one. */
  femem_lock *other = lock_of(one, key);
  ERROR(femem_lock_acquire(other, 50, FEMEM_NEVER), FEMEM_WITHDRAWN);
  ERROR(femem_lock_release(other), FEMEM_NOT_OWNER);
  femem_lock_close(other);
  /* An owner that is away loses it. */
  femem_lock_close(first);
  ERROR(femem_lock_acquire(second, 50, FEMEM_NEVER), FEMEM_WITHDRAWN);
  generation = femem_lock_generation(second);
  femem_close(one);
  ERROR(femem_lock_acquire(second, 20000, 200), FEMEM_OK);
  CHECK(femem_lock_broke(second, &session) && session == 11 && femem_lock_generation(second) > generation);
  ERROR(femem_lock_release(second), FEMEM_OK);
  femem_lock_close(second);
  ERROR(femem_bye_within(two, 60000), FEMEM_OK);
  femem_close(two);
}

/* What a handle held when it was closed is the session's: the next one adopts it, or gives it back. */
static void left_locks(void) {
  for (int gives = 0; gives < 2; gives++) {
    femem *client = opened(13, &usual);
    femem_lock *lock = lock_of(client, NULL);
    ERROR(femem_lock_acquire(lock, 0, FEMEM_NEVER), FEMEM_OK);
    femem_lock_close(lock);
    femem_close(client);
    client = opened(13, &usual);
    lock = lock_of(client, NULL);
    if (gives) ERROR(femem_lock_release(lock), FEMEM_OK);
    ERROR(femem_lock_acquire(lock, 0, FEMEM_NEVER), FEMEM_OK);
    CHECK(femem_lock_adopted(lock) == !gives);
    ERROR(femem_lock_release(lock), FEMEM_OK);
    femem_lock_close(lock);
    ERROR(femem_bye_within(client, 60000), FEMEM_OK);
    femem_close(client);
  }
}

/* Keys of one place wait for each other; those of others do not. All spares used: the array is made anew. */
static void keys(void) {
  femem *client = opened(14, &usual), *other = opened(15, &usual);
  femem_lock *held[8], *next;
  char key[20];
  unsigned places = 0;
  for (int i = 0; i < 8; i++) {
    snprintf(key, sizeof key, "key %d", i);
    ERROR(femem_lock_open_in(&held[i], client, "few", 2, key), FEMEM_OK);
    places += femem_lock_acquire(held[i], 0, FEMEM_NEVER) == FEMEM_OK;
  }
  CHECK(places == 2);
  /* Both are broken: the first takes the only spare place, the second the array. */
  uint64_t array, again;
  ERROR(femem_find(client, "few", &array, NULL), FEMEM_OK);
  for (int i = 0; i < 8; i++) {
    snprintf(key, sizeof key, "key %d", i);
    ERROR(femem_lock_open_in(&next, other, "few", 2, key), FEMEM_OK);
    ERROR(femem_lock_break(next), FEMEM_OK);
    ERROR(femem_lock_acquire(next, 0, FEMEM_NEVER), FEMEM_OK);
    ERROR(femem_lock_release(next), FEMEM_OK);
    femem_lock_close(next);
  }
  ERROR(femem_find(client, "few", &again, NULL), FEMEM_OK);
  CHECK(again > array);
  for (int i = 0; i < 8; i++) {
    ERROR(femem_lock_release(held[i]), FEMEM_NOT_OWNER);
    femem_lock_close(held[i]);
  }
  ERROR(femem_lock_open_in(&next, client, "few", 2, ""), FEMEM_BAD_CALL);
  ERROR(femem_lock_open_in(&next, client, "few", 40000, "key"), FEMEM_BAD_CALL);
  ERROR(femem_lock_open_in(&next, client, "few", 3, "key"), FEMEM_OK);
  ERROR(femem_lock_acquire(next, 0, FEMEM_NEVER), FEMEM_BAD_CALL); /* it has two places */
  femem_lock_close(next);
  femem_bye_within(client, 60000), femem_close(client);
  femem_bye_within(other, 60000), femem_close(other);
}

/* ---- under keys ---- */

/* A client of a session file, which has no client now. */
static femem *of_file(void) {
  char kept[100];
  femem *client = NULL;
  snprintf(kept, sizeof kept, "%s/keys", folder);
  ERROR(femem_open_file(&client, path, kept, &usual), FEMEM_OK);
  if (!client) give_up("no session file");
  return client;
}

/* Ends the client, as a kill does, and opens the next one. */
static femem *killed(femem *client, femem_lock *lock, femem_semaphore *semaphore) {
  femem_lock_close(lock);
  femem_semaphore_close(semaphore);
  femem_close(client);
  return of_file();
}

static void keyed_locks(void) {
  femem *client = of_file(), *other = opened(18, &usual);
  femem_lock *lock = lock_of(client, NULL), *others = lock_of(other, NULL), *of_key = lock_of(client, "a key");
  femem_answer answer;
  ERROR(femem_lock_acquire_once(others, "day 1", 0, FEMEM_NEVER), FEMEM_BAD_CALL); /* it has no file */
  ERROR(femem_lock_acquire_once(of_key, "day 1", 0, FEMEM_NEVER), FEMEM_BAD_CALL);
  femem_lock_close(of_key);
  ERROR(femem_lock_acquire_once(lock, "", 0, FEMEM_NEVER), FEMEM_BAD_CALL);
  ERROR(femem_lock_acquire_once(lock, "day 1", 0, FEMEM_NEVER), FEMEM_OK);
  uint64_t generation = femem_lock_generation(lock);
  ERROR(femem_lock_acquire_once(lock, "day 1", 0, FEMEM_NEVER), FEMEM_OK);
  CHECK(!femem_lock_adopted(lock) && femem_lock_generation(lock) == generation);
  ERROR(femem_lock_acquire_once(lock, "day 2", 0, FEMEM_NEVER), FEMEM_BAD_CALL);
  client = killed(client, lock, NULL);
  lock = lock_of(client, NULL);
  ERROR(femem_lock_acquire(lock, 50, FEMEM_NEVER), FEMEM_WITHDRAWN); /* it is left to its key */
  ERROR(femem_lock_acquire_once(lock, "day 1", 0, FEMEM_NEVER), FEMEM_OK);
  CHECK(femem_lock_adopted(lock) && femem_lock_generation(lock) > generation);
  ERROR(femem_lock_acquire(others, 50, FEMEM_NEVER), FEMEM_WITHDRAWN);
  ERROR(femem_lock_release(lock), FEMEM_OK);
  ERROR(femem_lock_acquire_once(lock, "day 1", 0, FEMEM_NEVER), FEMEM_NOT_OWNER);
  /* Another one has it: then the key is free again. */
  ERROR(femem_lock_acquire(others, 0, FEMEM_NEVER), FEMEM_OK);
  ERROR(femem_lock_acquire_once(lock, "day 2", 1000, FEMEM_NEVER), FEMEM_WITHDRAWN);
  ERROR(femem_forget(client, "day 2"), FEMEM_NOTHING_OUT);
  ERROR(femem_lock_acquire_once(lock, "day 2", 0, FEMEM_NEVER), FEMEM_WITHDRAWN);
  ERROR(femem_lock_acquire_once(lock, "day 1", 0, FEMEM_NEVER), FEMEM_NOT_OWNER);
  ERROR(femem_lock_release(others), FEMEM_OK);
  /* What was left without a key is given back before. */
  ERROR(femem_forget(client, "day 1"), FEMEM_OK);
  ERROR(femem_lock_acquire(lock, 0, FEMEM_NEVER), FEMEM_OK);
  client = killed(client, lock, NULL);
  lock = lock_of(client, NULL);
  ERROR(femem_lock_acquire_once(lock, "day 2", 0, FEMEM_NEVER), FEMEM_OK);
  CHECK(!femem_lock_adopted(lock));
  /* A release in the next life, without its key's call. */
  client = killed(client, lock, NULL);
  lock = lock_of(client, NULL);
  ERROR(femem_lock_release(lock), FEMEM_OK);
  ERROR(femem_lock_acquire(others, 0, FEMEM_NEVER), FEMEM_OK);
  ERROR(femem_lock_break(others), FEMEM_OK);
  ERROR(femem_lock_acquire_once(lock, "day 2", 0, FEMEM_NEVER), FEMEM_NOT_OWNER);
  femem_request create = {.operation = FEMEM_CREATE, .name = "more", .name_length = 4, .length = 1};
  ERROR(femem_once(client, "more", &create, &answer), FEMEM_OK);
  ERROR(femem_lock_acquire_once(lock, "more", 0, FEMEM_NEVER), FEMEM_OTHER_REQUEST);
  femem_lock_close(lock), femem_lock_close(others);
  femem_bye_within(client, 60000), femem_close(client);
  femem_bye_within(other, 60000), femem_close(other);
}

/* The last request that is out ends, and nobody takes its answer by number: femem_next has none. */
static void none_is_next(void) {
  femem *other = opened(19, &usual);
  uint64_t array;
  const char *report;
  char waits[40];
  femem_answer answer;
  ERROR(femem_create(other, "word_of_a_key", 1, false, &array), FEMEM_OK);
  snprintf(waits, sizeof waits, "\nword %llu 0 session ", (unsigned long long)array);
  femem_request take = {.operation = FEMEM_READFE, .array = array};
  pid_t child = fork();
  if (child == 0) _exit((int)femem_once(of_file(), "waits", &take, &answer));
  do ERROR(femem_report(other, &report), FEMEM_OK);
  while (!strstr(report, waits));
  kill(child, SIGKILL);
  waitpid(child, NULL, 0);
  femem *client = of_file();
  CHECK(femem_out(client) == 1);
  ERROR(femem_next(client, &answer, 100), FEMEM_TIMEOUT);
  ERROR(femem_writeef(other, array, 0, 42), FEMEM_OK);
  ERROR(femem_next(client, &answer, 60000), FEMEM_NOTHING_OUT);
  CHECK(femem_ready(client) == 0 && femem_out(client) == 0);
  client = killed(client, NULL, NULL);
  ERROR(femem_once(client, "waits", &take, &answer), FEMEM_OK);
  CHECK(answer.value == 42);
  femem_bye_within(client, 60000), femem_close(client);
  femem_bye_within(other, 60000), femem_close(other);
}

static void keyed_permits(void) {
  static const char *const keys[] = {"one", "two"};
  femem *client = of_file();
  femem_semaphore *two = NULL;
  size_t count;
  ERROR(femem_semaphore_open(&two, client, "of_keys", 2), FEMEM_OK);
  for (int life = 0; life < 2; life++) {
    for (int i = 0; i < 2; i++) {
      ERROR(femem_semaphore_acquire_once(two, keys[i], 1000), FEMEM_OK);
      CHECK(femem_semaphore_adopted(two) == (life == 1));
      ERROR(femem_semaphore_acquire_once(two, keys[i], 1000), FEMEM_OK);
      CHECK(!femem_semaphore_adopted(two));
    }
    ERROR(femem_semaphore_holders(two, NULL, 0, &count), FEMEM_OK);
    CHECK(count == 2);
    if (life == 1) break;
    client = killed(client, NULL, two);
    ERROR(femem_semaphore_open(&two, client, "of_keys", 2), FEMEM_OK);
    ERROR(femem_semaphore_acquire(two, 100), FEMEM_WITHDRAWN); /* they are left to their keys */
  }
  for (int i = 0; i < 2; i++) ERROR(femem_semaphore_release(two), FEMEM_OK);
  for (int i = 0; i < 2; i++) ERROR(femem_semaphore_acquire_once(two, keys[i], 1000), FEMEM_NOT_OWNER);
  ERROR(femem_forget(client, "one"), FEMEM_OK);
  ERROR(femem_forget(client, "two"), FEMEM_OK);
  /* Permits that were left without a key are given back before one under a key. */
  for (int i = 0; i < 2; i++) ERROR(femem_semaphore_acquire(two, 1000), FEMEM_OK);
  client = killed(client, NULL, two);
  ERROR(femem_semaphore_open(&two, client, "of_keys", 2), FEMEM_OK);
  ERROR(femem_semaphore_acquire_once(two, "one", 1000), FEMEM_OK);
  CHECK(!femem_semaphore_adopted(two));
  ERROR(femem_semaphore_holders(two, NULL, 0, &count), FEMEM_OK);
  CHECK(count == 1);
  ERROR(femem_semaphore_release(two), FEMEM_OK);
  ERROR(femem_semaphore_release(two), FEMEM_NOT_OWNER);
  femem_semaphore_close(two);
  femem_bye_within(client, 60000), femem_close(client);
}

static void semaphores(void) {
  femem *one = opened(16, &usual), *two = opened(17, &usual);
  femem_semaphore *first, *second, *wrong;
  uint64_t sessions[3] = {0};
  size_t count = 9;
  ERROR(femem_semaphore_open(&first, one, "three", 3), FEMEM_OK);
  ERROR(femem_semaphore_open(&second, two, "three", 3), FEMEM_OK);
  ERROR(femem_semaphore_open(&wrong, one, "three", 0), FEMEM_BAD_CALL);
  ERROR(femem_semaphore_open(&wrong, one, "", 1), FEMEM_BAD_NAME);
  ERROR(femem_semaphore_open(&wrong, one, "three", 2), FEMEM_OK);
  ERROR(femem_semaphore_release(first), FEMEM_NOT_OWNER);
  for (int i = 0; i < 2; i++) ERROR(femem_semaphore_acquire(first, 1000), FEMEM_OK);
  ERROR(femem_semaphore_acquire(wrong, 0), FEMEM_BAD_CALL);
  femem_semaphore_close(wrong);
  ERROR(femem_semaphore_acquire(second, 0), FEMEM_OK);
  ERROR(femem_semaphore_acquire(second, 0), FEMEM_WITHDRAWN);
  ERROR(femem_semaphore_acquire(second, 120), FEMEM_WITHDRAWN);
  ERROR(femem_semaphore_holders(second, sessions, 3, &count), FEMEM_OK);
  CHECK(count == 3 && sessions[0] + sessions[1] + sessions[2] == 16 + 16 + 17);
  ERROR(femem_semaphore_release(first), FEMEM_OK);
  ERROR(femem_semaphore_acquire(second, 1000), FEMEM_OK);
  /* A permit of a client that is gone. */
  femem_semaphore_close(first);
  femem_close(one);
  ERROR(femem_semaphore_release_of(second, 16), FEMEM_OK);
  ERROR(femem_semaphore_release_of(second, 16), FEMEM_NOT_OWNER);
  /* What is left: one is adopted, the others are given back. */
  ERROR(femem_semaphore_acquire(second, 1000), FEMEM_OK);
  ERROR(femem_semaphore_acquire(second, 1000), FEMEM_BAD_CALL);
  femem_semaphore_close(second);
  ERROR(femem_semaphore_open(&second, two, "three", 3), FEMEM_OK);
  ERROR(femem_semaphore_acquire(second, 0), FEMEM_OK);
  CHECK(femem_semaphore_adopted(second));
  ERROR(femem_semaphore_holders(second, sessions, 3, &count), FEMEM_OK);
  CHECK(count == 1 && sessions[0] == 17);
  for (int i = 0; i < 2; i++) ERROR(femem_semaphore_acquire(second, 1000), FEMEM_OK);
  for (int i = 0; i < 3; i++) ERROR(femem_semaphore_release(second), FEMEM_OK);
  ERROR(femem_semaphore_release(second), FEMEM_NOT_OWNER);
  femem_semaphore_close(second);
  ERROR(femem_bye_within(two, 60000), FEMEM_OK);
  femem_close(two);
}

static void counters_and_barriers(void) {
  femem *client = opened(18, &usual);
  femem_counter *counter;
  femem_barrier *barrier;
  uint64_t value = 9;
  uint32_t number = 9;
  ERROR(femem_counter_open(&counter, client, "calls_counted"), FEMEM_OK);
  ERROR(femem_counter_add(counter, 5, NULL, &value), FEMEM_OK);
  CHECK(value == 0);
  ERROR(femem_counter_add(counter, UINT64_MAX, NULL, NULL), FEMEM_OK);
  ERROR(femem_counter_value(counter, &value), FEMEM_OK);
  CHECK(value == 4);
  ERROR(femem_counter_add(counter, 1, "key", &value), FEMEM_BAD_CALL); /* it has no session file */
  femem_counter_close(counter);
  ERROR(femem_counter_open(&counter, client, "three"), FEMEM_BAD_CALL);
  ERROR(femem_barrier_open(&barrier, client, "a_name_of_thirty_one_bytes_is_x", 1), FEMEM_BAD_NAME);
  ERROR(femem_barrier_open(&barrier, client, "alone", 0), FEMEM_BAD_CALL);
  ERROR(femem_barrier_open(&barrier, client, "alone", 1), FEMEM_OK);
  for (int i = 0; i < 3; i++) ERROR(femem_barrier_wait(barrier, 0, &number), FEMEM_OK);
  CHECK(number == 0);
  femem_barrier_close(barrier);
  ERROR(femem_barrier_open(&barrier, client, "pair", 2), FEMEM_OK);
  ERROR(femem_barrier_wait(barrier, 50, NULL), FEMEM_WITHDRAWN);
  ERROR(femem_barrier_wait(barrier, 50, NULL), FEMEM_BROKEN);
  ERROR(femem_barrier_reset(barrier), FEMEM_OK);
  ERROR(femem_barrier_wait(barrier, 0, NULL), FEMEM_WITHDRAWN);
  ERROR(femem_barrier_reset(barrier), FEMEM_OK);
  femem_barrier_close(barrier);
  ERROR(femem_bye_within(client, 60000), FEMEM_OK);
  femem_close(client);
}

/* One that waits for seconds passes once the other one has arrived. */
static void late_partner(void) {
  fflush(stdout);
  pid_t first = fork();
  femem *client = opened(first == 0 ? 28 : 29, &usual);
  femem_barrier *barrier;
  right(femem_barrier_open(&barrier, client, "late", 2));
  if (first) pause_for(2500);
  right(femem_barrier_wait(barrier, 60000, NULL));
  femem_barrier_close(barrier);
  right(femem_bye_within(client, 60000));
  femem_close(client);
  if (first == 0) _exit(0);
  int status = 1;
  CHECK(waitpid(first, &status, 0) == first && status == 0);
}

/* The first of several words: one that is there already, one that comes, several, none in time, an error. */
static void first_of_several(void) {
  femem *client = opened(19, &usual), *other = opened(20, &usual);
  uint64_t array, value;
  ERROR(femem_create(client, "several", 3, false, &array), FEMEM_OK);
  femem_request asked[31];
  femem_answer got[31];
  for (uint32_t i = 0; i < 31; i++)
    asked[i] = (femem_request){.operation = i < 3 ? FEMEM_READFE : FEMEM_READFF, .array = array, .index = i % 3};
  ERROR(femem_wait_any(client, asked, 3, 100, got), FEMEM_WITHDRAWN);
  CHECK(femem_out(client) == 0 && got[0].error == FEMEM_WITHDRAWN && got[2].error == FEMEM_WITHDRAWN);
  ERROR(femem_writeef(other, array, 1, 7), FEMEM_OK);
  ERROR(femem_wait_any(client, asked, 31, 20000, got), FEMEM_OK);
  CHECK(got[0].error == FEMEM_WITHDRAWN && got[1].error == FEMEM_OK && got[1].value == 7 && got[2].error == FEMEM_WITHDRAWN);
  ERROR(femem_writeef(other, array, 0, 8), FEMEM_OK);
  ERROR(femem_writeef(other, array, 2, 9), FEMEM_OK);
  ERROR(femem_wait_any(client, asked, 3, FEMEM_FOREVER, got), FEMEM_OK);
  unsigned taken = (got[0].error == FEMEM_OK ? 1u : 0u) + (got[2].error == FEMEM_OK ? 2u : 0u);
  CHECK(taken > 0 && got[1].error == FEMEM_WITHDRAWN);
  /* What was taken back is still there. */
  femem_request look = {.operation = FEMEM_READFF, .array = array, .no_wait = true};
  ERROR(femem_call(other, &look, got), taken & 1 ? FEMEM_NOT_NOW : FEMEM_OK);
  look.index = 2;
  ERROR(femem_call(other, &look, got), taken & 2 ? FEMEM_NOT_NOW : FEMEM_OK);
  ERROR(femem_purge(other, array, 0), FEMEM_OK);
  ERROR(femem_purge(other, array, 2), FEMEM_OK);
  asked[1].index = 3;
  ERROR(femem_wait_any(client, asked, 2, FEMEM_FOREVER, got), FEMEM_OK);
  CHECK(got[0].error == FEMEM_WITHDRAWN && got[1].error == FEMEM_BAD_INDEX);
  ERROR(femem_wait_any(client, asked, 0, 0, got), FEMEM_BAD_CALL);
  ERROR(femem_wait_any(client, asked, 32, 0, got), FEMEM_BAD_CALL);
  ERROR(femem_readxx(client, array, 0, &value), FEMEM_OK);
  femem_bye_within(client, 60000), femem_close(client);
  femem_bye_within(other, 60000), femem_close(other);
}

/* A release whose answer did not come, and that is made again, frees no other client's lock. */
static void released_again(void) {
  femem *client = opened(23, &(femem_settings){.wait = 1000, .reconnect = 60000}), *other = opened(24, &usual);
  femem_lock *lock = NULL, *second = NULL;
  uint64_t array = 0, number, owner = 0;
  femem_answer answer;
  femem_error error;
  ERROR(femem_lock_open(&lock, client, "again"), FEMEM_OK);
  ERROR(femem_lock_open(&second, other, "again"), FEMEM_OK);
  while ((error = femem_lock_acquire(lock, 60000, FEMEM_NEVER)) == FEMEM_TIMEOUT) continue;
  ERROR(error, FEMEM_OK);
  ERROR(femem_find(other, "again", &array, NULL), FEMEM_OK);
  ERROR(femem_send_writeef(other, array, 0, femem_session(other), &number), FEMEM_OK); /* as one that waits for it */
  ERROR(femem_wait(other, number, &answer, 0), FEMEM_TIMEOUT);
  ERROR(femem_readxx(other, array, 1, NULL), FEMEM_OK);
  kill(server, SIGSTOP);
  waitpid(server, NULL, WUNTRACED); /* until all its threads have stopped */
  ERROR(femem_lock_release(lock), FEMEM_TIMEOUT);
  kill(server, SIGCONT);
  while ((error = femem_lock_release(lock)) == FEMEM_TIMEOUT) continue;
  ERROR(error, FEMEM_NOT_OWNER);
  ERROR(femem_wait(other, number, &answer, 60000), FEMEM_OK);
  ERROR(femem_lock_owner(second, &owner, NULL), FEMEM_OK);
  CHECK(owner == femem_session(other));
  femem_lock_close(lock), femem_lock_close(second);
  femem_bye_within(client, 60000), femem_close(client);
  femem_bye_within(other, 60000), femem_close(other);
}

/* While the server is away: several could not be asked for, and a handle that is closed shows nobody later. */
static void closed_while_away(void) {
  femem *client = opened(25, &(femem_settings){.wait = 300, .reconnect = 60000});
  femem_lock *lock = NULL;
  femem_answer got[3], answer;
  femem_error error;
  uint64_t number = 0;
  const femem_request asked[3] = {{.operation = FEMEM_READFE, .array = 1}, {.operation = FEMEM_READFE, .array = 1},
                                  {.operation = FEMEM_READFE, .array = 1}};
  ERROR(femem_lock_open(&lock, client, "away"), FEMEM_OK);
  while ((error = femem_lock_acquire(lock, 60000, FEMEM_NEVER)) == FEMEM_TIMEOUT) continue;
  ERROR(error, FEMEM_OK);
  stop_server();
  memset(got, 0xee, sizeof got);
  ERROR(femem_send_readxx(client, 1, 0, &number), FEMEM_OK);
  ERROR(femem_wait(client, number, &answer, 100), FEMEM_TIMEOUT); /* it knows then */
  ERROR(femem_wait_any(client, asked, 3, FEMEM_FOREVER, got), FEMEM_TIMEOUT);
  for (int i = 0; i < 3; i++) CHECK(got[i].error == FEMEM_WITHDRAWN);
  femem_lock_close(lock);
  start_server();
  ERROR(femem_wait(client, number, &answer, 60000), FEMEM_OK);
  CHECK(femem_out(client) == 0);
  femem_bye_within(client, 60000), femem_close(client);
}

/* A holder that makes no other call is absent after a restart of the server, until it says that it is present. */
static void present_again(void) {
  femem *one = opened(26, &usual), *two = opened(27, &usual);
  femem_lock *held = NULL, *other = NULL;
  uint64_t session = 0;
  bool there = true;
  ERROR(femem_lock_open(&held, one, "present"), FEMEM_OK);
  ERROR(femem_lock_open(&other, two, "present"), FEMEM_OK);
  ERROR(femem_present(one), FEMEM_OK);
  ERROR(femem_lock_acquire(held, 0, FEMEM_NEVER), FEMEM_OK);
  stop_server();
  start_server();
  ERROR(femem_lock_owner(other, &session, &there), FEMEM_OK);
  CHECK(session == 26 && !there);
  for (int tries = 0; !there && tries < 2000; tries++) {
    ERROR(femem_present(one), FEMEM_OK);
    pause_for(10);
    ERROR(femem_lock_owner(other, &session, &there), FEMEM_OK);
  }
  CHECK(session == 26 && there);
  femem_lock_close(held), femem_lock_close(other);
  femem_bye_within(one, 60000), femem_close(one);
  femem_bye_within(two, 60000), femem_close(two);
}

/* ---- over kills ---- */

static char files[CLIENTS][100];

static femem *with_file(int number) {
  femem *client;
  femem_error error = femem_open_file(&client, path, files[number], &any_time);
  right(error);
  return client;
}

static uint64_t word_called(femem *client, const char *which, const char *what, uint32_t length) {
  char name[40];
  uint64_t array;
  snprintf(name, sizeof name, "%s_%s", which, what);
  femem_error error = femem_create(client, name, length, true, &array);
  right(error == FEMEM_NAME_TAKEN ? femem_find(client, name, &array, NULL) : error);
  return array;
}

/* What is acquired and released again and again. */
typedef struct shared {
  const char *name;
  unsigned permits;
} shared;
static const shared all_shared[] = {{"lock", 1}, {"keyed", 1}, {"permits", 2}};

static femem_lock *lock;
static femem_semaphore *semaphore;

static void open_shared(const shared *what, femem *client) {
  if (what->permits > 1) right(femem_semaphore_open(&semaphore, client, "permits", what->permits));
  else if (strcmp(what->name, "lock") == 0) right(femem_lock_open(&lock, client, "shared"));
  else right(femem_lock_open_in(&lock, client, "orders", 64, "order 4711"));
}

static bool acquire(const shared *what) {
  right(what->permits > 1 ? femem_semaphore_acquire(semaphore, 120000) : femem_lock_acquire(lock, 120000, FEMEM_NEVER));
  return what->permits > 1 ? femem_semaphore_adopted(semaphore) : femem_lock_adopted(lock);
}

/* Byte `number` of the mask says that this program is inside. One that was killed there has it still. */
static void hold_on(const shared *what, int number) {
  femem *client = with_file(number);
  uint64_t mask = word_called(client, what->name, "in", 1), done = word_called(client, what->name, "done", 9);
  uint64_t own = UINT64_C(1) << (8 * number), before, count, ends = 0;
  open_shared(what, client);
  do {
    bool adopted = acquire(what);
    right(femem_readff(client, mask, 0, &before));
    if (!(before & own)) right(femem_int_fetch_add(client, mask, 0, own, &before));
    unsigned inside = 0;
    for (int i = 0; i < CLIENTS; i++) inside += i != number && (before >> (8 * i) & 255);
    if (inside >= what->permits || (before & own && !adopted)) _exit(3);
    right(femem_int_fetch_add(client, mask, 0, 0 - own, NULL));
    right(what->permits > 1 ? femem_semaphore_release(semaphore) : femem_lock_release(lock));
    right(femem_int_fetch_add(client, done, (uint32_t)number, 1, &count));
    right(femem_readff(client, done, 8, &ends));
  } while (count < LEAST || !ends);
  if (what->permits > 1) femem_semaphore_close(semaphore);
  else femem_lock_close(lock);
  right(femem_bye_within(client, 60000));
  femem_close(client);
  _exit(0);
}

/* The last client is the Python client's. */
static pid_t begin(const shared *what, int number) {
  fflush(stdout);
  pid_t worker = fork();
  if (worker) return worker;
  char text[12];
  snprintf(text, sizeof text, "%d", number);
  if (number == CLIENTS - 1) {
    execlp("python3", "python3", "-B", "partner.py", path, files[number], what->name, text, (char *)NULL);
    _exit(127);
  }
  hold_on(what, number);
  return 0;
}

static bool ended_well(pid_t worker) {
  int status = 0;
  waitpid(worker, &status, 0);
  if (WIFEXITED(status) && WEXITSTATUS(status)) printf("check_patterns: a program ended with %d\n", WEXITSTATUS(status));
  return WIFSIGNALED(status) ? WTERMSIG(status) == SIGKILL : WEXITSTATUS(status) == 0;
}

static void kills(const shared *what) {
  pid_t workers[CLIENTS];
  femem *client = opened(21, &usual);
  uint64_t done = word_called(client, what->name, "done", 9), mask = word_called(client, what->name, "in", 1), value;
  for (int i = 0; i < CLIENTS; i++) workers[i] = begin(what, i);
  for (unsigned drawn = 4711, count = 0; count < KILLS; count++) {
    drawn = drawn * 1103515245 + 12345;
    unsigned worker = drawn / 65536 % CLIENTS;
    pause_for((worker == CLIENTS - 1 ? 400 : 30) + drawn / 65536 % 100);
    kill(workers[worker], SIGKILL);
    CHECK(ended_well(workers[worker]));
    workers[worker] = begin(what, (int)worker);
    if (count % 8 != 7) continue;
    stop_server();
    start_server();
  }
  ERROR(femem_int_fetch_add(client, done, 8, 1, NULL), FEMEM_OK);
  for (int i = 0; i < CLIENTS; i++) CHECK(ended_well(workers[i]));
  ERROR(femem_readff(client, mask, 0, &value), FEMEM_OK);
  CHECK(value == 0);
  for (uint32_t i = 0; i < CLIENTS; i++) {
    ERROR(femem_readff(client, done, i, &value), FEMEM_OK);
    CHECK(value >= LEAST);
  }
  ERROR(femem_bye_within(client, 60000), FEMEM_OK);
  femem_close(client);
}

/* A barrier over kills of the server: none passes before all of its round have arrived. */
static void meet(int number) {
  femem *client = with_file(number);
  uint64_t count = 0, met;
  femem_barrier *barrier;
  femem_error error = femem_create(client, "met", 1, true, &count);
  right(error == FEMEM_NAME_TAKEN ? femem_find(client, "met", &count, NULL) : error);
  right(femem_barrier_open(&barrier, client, "meeting", PARTIES));
  for (unsigned round = 1; round <= ROUNDS; round++) {
    right(femem_int_fetch_add(client, count, 0, 1, NULL));
    right(femem_barrier_wait(barrier, 120000, NULL));
    right(femem_readff(client, count, 0, &met));
    if (met < PARTIES * round) _exit(4);
  }
  femem_barrier_close(barrier);
  right(femem_bye_within(client, 60000));
  femem_close(client);
  _exit(0);
}

static void meetings(void) {
  pid_t workers[PARTIES];
  for (int i = 0; i < PARTIES; i++) {
    fflush(stdout);
    workers[i] = fork();
    if (workers[i] == 0 && i < PARTIES - 1) meet(i);
    if (workers[i] == 0) {
      execlp("python3", "python3", "-B", "partner.py", path, files[CLIENTS - 1], "barrier", "3", (char *)NULL);
      _exit(127);
    }
  }
  for (int i = 0; i < 6; i++) {
    pause_for(150);
    stop_server();
    start_server();
  }
  for (int i = 0; i < PARTIES; i++) CHECK(ended_well(workers[i]));
}

/* Each step is counted once under its key, over kills of the program and of the server. */
static void count_steps(void) {
  femem *client = with_file(0);
  femem_counter *counter;
  uint64_t was;
  char key[20];
  right(femem_counter_open(&counter, client, "steps"));
  for (unsigned step = 0; step < STEPS; step++) {
    snprintf(key, sizeof key, "step %u", step);
    right(femem_counter_add(counter, 1, key, &was));
    if (was != step) _exit(5);
  }
  femem_counter_close(counter);
  femem_close(client);
  _exit(0);
}

static void counted_once(void) {
  for (unsigned round = 0, ended = 0; !ended; round++) {
    fflush(stdout);
    pid_t worker = fork();
    if (worker == 0) count_steps();
    pause_for(5 * (round + 1));
    if (round % 6 == 5) stop_server(), start_server();
    kill(worker, SIGKILL);
    int status = 0;
    waitpid(worker, &status, 0);
    CHECK(WIFSIGNALED(status) || WEXITSTATUS(status) == 0);
    ended = !WIFSIGNALED(status);
  }
  femem *client = opened(22, &usual);
  femem_counter *counter;
  uint64_t value = 0;
  ERROR(femem_counter_open(&counter, client, "steps"), FEMEM_OK);
  ERROR(femem_counter_value(counter, &value), FEMEM_OK);
  CHECK(value == STEPS);
  femem_counter_close(counter);
  ERROR(femem_bye_within(client, 60000), FEMEM_OK);
  femem_close(client);
}

int main(int count, char **words_given) {
  if (!begin_real("check_patterns", count, words_given)) return 2;
  for (int i = 0; i < CLIENTS; i++) snprintf(files[i], sizeof files[i], "%s/client%d", folder, i);
  locks(NULL);
  locks("order 4711");
  left_locks();
  keyed_locks();
  keyed_permits();
  none_is_next();
  keys();
  semaphores();
  counters_and_barriers();
  late_partner();
  first_of_several();
  released_again();
  closed_while_away();
  present_again();
  for (size_t i = 0; i < sizeof all_shared / sizeof *all_shared; i++) kills(&all_shared[i]);
  meetings();
  counted_once();
  for (int i = 0; i < CLIENTS; i++) unlink(files[i]);
  char kept[100];
  snprintf(kept, sizeof kept, "%s/keys", folder);
  unlink(kept);
  return end_real();
}
