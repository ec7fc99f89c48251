/* The client, its queue and channel, lock, semaphore and barrier, in all interleavings up to a price: two clients over a
   model of the line (model_line.c). It ends by itself, and prints what was tried and what failed.
   test_model few: with one delay at most. test_model SCENARIO [DECISIONS]: one scenario, or one of its schedules with
   its steps. */
#define _POSIX_C_SOURCE 200809L
#include "model_search.h"

#include <stdio.h>
#include <stdlib.h>
#include <string.h>
#include <sys/resource.h>

static const femem_settings patient = {.wait = FEMEM_FOREVER, .reconnect = FEMEM_FOREVER};

static void right(femem_error error, const char *what) {
  model_must(error == FEMEM_OK, "client %d: %s: %s", model_client(), what, femem_error_text(error));
}

/* A client of a session file, or of a session of its own number. An earlier life's bye may be late. */
static femem *with_file(void) {
  femem *client = NULL;
  femem_error error;
  do error = femem_open_file(&client, "/model", model_file(), &patient);
  while (error == FEMEM_TIMEOUT);
  right(error, "open");
  return client;
}

static femem *with_number(void) {
  femem *client = NULL;
  right(femem_open(&client, "/model", 70 + (uint64_t)model_client(), &patient), "open");
  return client;
}

/* Ends the session, once nothing is out: a queue's last messages may be, if the server was slow. */
static void part(femem *client) {
  femem_answer answer;
  for (int tries = 0; femem_out(client) > 0 && tries < 10; tries++) femem_next(client, &answer, 1000);
  right(femem_bye_within(client, FEMEM_FOREVER), "bye");
  femem_close(client);
}

/* What the programs have noted. */
static struct {
  bool done[MODEL_CLIENTS];                /* the program of that client has nothing left to do */
  bool withdrawn;
  uint64_t taken[4], counts[8], ended[8];
} told;

static bool is_done(int client) { return model_seen(told.done[client]); }

/* ---- a channel, with keys: each value that is put is taken once, whatever is killed ---- */

static void channel_puts(void) {
  femem *client = with_file();
  if (is_done(0)) {
    part(client);
    return;
  }
  femem_channel *channel = NULL;
  right(femem_channel_open(&channel, client, "results"), "open");
  right(femem_channel_put(channel, 10, "first", FEMEM_FOREVER), "put");
  right(femem_channel_put(channel, 11, "second", FEMEM_FOREVER), "put");
  told.done[0] = true;
  femem_channel_close(channel);
  part(client);
}

static void channel_takes(void) {
  femem *client = with_file();
  if (is_done(1)) {
    part(client);
    return;
  }
  femem_channel *channel = NULL;
  right(femem_channel_open(&channel, client, "results"), "open");
  right(femem_channel_take(channel, &told.taken[0], "first", FEMEM_FOREVER), "take");
  right(femem_channel_take(channel, &told.taken[1], "second", FEMEM_FOREVER), "take");
  told.done[1] = true;
  femem_channel_close(channel);
  part(client);
}

static void channel_ends(void) {
  uint64_t value;
  model_must(told.taken[0] == 10 && told.taken[1] == 11, "taken: %d, %d", (int)told.taken[0], (int)told.taken[1]);
  model_must(!server_word("results", 0, &value), "a value is left");
  model_must(server_sessions() == 0, "a session is left");
}

/* ---- a channel whose calls run out of time: what is told as withdrawn has not happened ---- */

static void brief_put(void) {
  femem *client = with_number();
  femem_channel *channel = NULL;
  right(femem_channel_open(&channel, client, "results"), "open");
  femem_error error;
  for (uint64_t value = 10; value < 12; value++) {
    do error = femem_channel_put(channel, value, NULL, 20);
    while (error == FEMEM_WITHDRAWN);
    right(error, "put");
  }
  femem_channel_close(channel);
  part(client);
}

static void brief_take(void) {
  femem *client = with_number();
  femem_channel *channel = NULL;
  right(femem_channel_open(&channel, client, "results"), "open");
  femem_error error;
  for (int i = 0; i < 2; i++) {
    do error = femem_channel_take(channel, &told.taken[i], NULL, 15);
    while (error == FEMEM_WITHDRAWN);
    right(error, "take");
  }
  femem_channel_close(channel);
  part(client);
}

/* The id of the array of that name, of one word. */
static uint64_t word_of(femem *client, const char *name) {
  uint64_t array = 0;
  if (femem_find(client, name, &array, NULL) == FEMEM_OK) return array;
  femem_error error = femem_create(client, name, 1, false, &array);
  right(error == FEMEM_NAME_TAKEN ? femem_find(client, name, &array, NULL) : error, "create");
  return array;
}

/* ---- a late request: what an earlier life asked is told as withdrawn, and then the server reads it ---- */

static void late_reader(void) {
  femem *client = with_file();
  femem_recovered left;
  femem_answer answer;
  uint64_t number;
  if (model_life() == 0) {
    right(femem_send_readfe(client, word_of(client, "word"), 0, &number), "send");
    right(femem_flush(client), "flush");
    model_die();
  }
  for (unsigned i = 0; femem_recovered_at(client, i, &left) == FEMEM_OK; i++) {
    femem_error error = femem_wait(client, left.number, &answer, 100);
    if (error == FEMEM_TIMEOUT) error = femem_cancel(client, left.number, &answer);
    if (left.request.operation != FEMEM_READFE) continue;
    model_must(error == FEMEM_OK || error == FEMEM_WITHDRAWN, "the cancel: %s", femem_error_text(error));
    told.withdrawn = error == FEMEM_WITHDRAWN;
  }
  told.done[0] = true;
  femem_close(client);
}

static void late_writer(void) {
  femem *client = with_file();
  uint64_t array = word_of(client, "word");
  for (int tries = 0; !is_done(0) && tries < 20; tries++) model_rest(1000);
  const femem_request write = {.operation = FEMEM_WRITEEF, .array = array, .operand = 77};
  femem_answer answer;
  right(femem_once(client, "write", &write, &answer), "write");
  femem_close(client);
}

static void late_ends(void) {
  uint64_t value;
  bool there = server_word("word", 0, &value) && value == 77;
  model_must(!told.withdrawn || there, "a request that was told as withdrawn has taken the value");
}

/* ---- a work queue: each job is given to a taker, and done once ---- */

enum { JOBS_PUT = 2 };

static femem_queue *queue_of(femem *client) {
  femem_queue *queue = NULL;
  right(femem_queue_open(&queue, client, "jobs", 2, 2, 0), "open");
  return queue;
}

static void queue_puts(void) {
  static const char *const keys[] = {"first", "second", "third", "fourth"};
  femem *client = with_file();
  if (is_done(0)) {
    part(client);
    return;
  }
  femem_queue *queue = queue_of(client);
  for (unsigned i = 0; i < JOBS_PUT; i++) right(femem_queue_put(queue, i, keys[i], FEMEM_FOREVER), "put");
  told.done[0] = true;
  femem_queue_close(queue);
  part(client);
}

/* Takes jobs until none comes though all have been put. */
static void queue_takes(void) {
  femem *client = with_number();
  femem_queue *queue = queue_of(client);
  unsigned done = 0;
  for (bool last = false; done < JOBS_PUT;) {
    femem_job job;
    bool all = is_done(0);
    femem_error error = femem_queue_take(queue, &job, 4000);
    if (error == FEMEM_WITHDRAWN && all && last) break;
    last = error == FEMEM_WITHDRAWN && all;
    if (error == FEMEM_WITHDRAWN) continue;
    right(error, "take");
    model_must(job.value < JOBS_PUT, "a job that nobody put");
    told.counts[job.value]++;
    error = femem_queue_done(queue, &job);
    model_must(error == FEMEM_OK || model_life() > 0, "done: %s", femem_error_text(error));
    if (error == FEMEM_OK) told.ended[job.value]++;
    done++;
  }
  femem_queue_close(queue);
  part(client);
}

static void queue_ends(void) {
  for (unsigned i = 0; i < JOBS_PUT; i++) {
    model_must(told.counts[i] > 0, "job %u was given to nobody", i);
    model_must(told.ended[i] < 2, "job %u was done twice", i);
  }
  model_must(server_sessions() == 0, "a session is left");
}

static void queue_both(void) {
  femem *client = with_number();
  femem_queue *queue = queue_of(client);
  femem_job job;
  uint64_t own = (uint64_t)model_client();
  right(femem_queue_put(queue, own, NULL, FEMEM_FOREVER), "put");
  right(femem_queue_take(queue, &job, FEMEM_FOREVER), "take");
  told.counts[job.value]++;
  right(femem_queue_done(queue, &job), "done");
  told.ended[job.value]++;
  femem_queue_close(queue);
  part(client);
}

/* ---- a lock, one of a key, and a semaphore: never more inside than may be, and each gets in ---- */

static void inside(void) {
  model_enter();
  model_rest(5);
  model_leave();
  told.counts[model_client()]++;
}

static void lock_with(const char *key, int64_t takeover_after) {
  femem *client = with_number();
  femem_lock *lock = NULL;
  right(key ? femem_lock_open_in(&lock, client, "night", 1, key) : femem_lock_open(&lock, client, "night"), "open");
  right(femem_lock_acquire(lock, FEMEM_FOREVER, takeover_after), "acquire");
  inside();
  right(femem_lock_release(lock), "release");
  femem_lock_close(lock);
  part(client);
}

static void locks(void) { lock_with(NULL, FEMEM_NEVER); }
static void takes_over(void) { lock_with(NULL, 4000); }
static void keys(void) { lock_with("a key", FEMEM_NEVER); }
static void takes_key_over(void) { lock_with("a key", 4000); }

static void permits(void) {
  femem *client = with_number();
  femem_semaphore *semaphore = NULL;
  right(femem_semaphore_open(&semaphore, client, "permit", 1), "open");
  right(femem_semaphore_acquire(semaphore, FEMEM_FOREVER), "acquire");
  inside();
  right(femem_semaphore_release(semaphore), "release");
  femem_semaphore_close(semaphore);
  part(client);
}

/* Under a key: one acquisition, whose lock or permit the next life has, unless it was given back. */
static bool is_begun(femem_error error) {
  if (error == FEMEM_NOT_OWNER && model_life() > 0) return false;
  right(error, "acquire under a key");
  return true;
}

static void locks_once(void) {
  femem *client = with_file();
  femem_lock *lock = NULL;
  if (!is_done(model_client())) {
    right(femem_lock_open(&lock, client, "night"), "open");
    if (is_begun(femem_lock_acquire_once(lock, "the night's", FEMEM_FOREVER, FEMEM_NEVER))) {
      model_must(femem_lock_generation(lock) > model_seen(told.ended[0]), "the generation does not rise");
      told.ended[0] = femem_lock_generation(lock);
      inside();
      right(femem_lock_release(lock), "release");
    }
    told.done[model_client()] = true;
    femem_lock_close(lock);
  }
  part(client);
}

static void permits_once(void) {
  femem *client = with_file();
  femem_semaphore *semaphore = NULL;
  if (!is_done(model_client())) {
    right(femem_semaphore_open(&semaphore, client, "permit", 1), "open");
    if (is_begun(femem_semaphore_acquire_once(semaphore, "the permit's", FEMEM_FOREVER))) {
      inside();
      right(femem_semaphore_release(semaphore), "release");
    }
    told.done[model_client()] = true;
    femem_semaphore_close(semaphore);
  }
  part(client);
}

static void permits_end(void) {
  uint64_t holder;
  model_must(!server_word("permit", 5, &holder), "the permit is held");
  model_must(told.counts[0] > 0 && told.counts[1] > 0, "a client was not inside");
}

static void keys_end(void) {
  uint64_t owner;
  model_must(!server_word("night", 3, &owner), "the lock is held");
  model_must(told.counts[0] > 0 && told.counts[1] > 0, "a client was not inside");
}

/* ---- a barrier: none passes before both have arrived ---- */

static void meets(void) {
  femem *client = with_number();
  femem_barrier *barrier = NULL;
  right(femem_barrier_open(&barrier, client, "both", 2), "open");
  for (unsigned round = 1; round <= 2; round++) {
    told.counts[model_client()] = round;
    right(femem_barrier_wait(barrier, FEMEM_FOREVER, NULL), "wait");
    model_must(told.counts[1 - model_client()] >= round, "one passes alone");
  }
  femem_barrier_close(barrier);
  part(client);
}

static void lock_ends(void) {
  uint64_t owner;
  model_must(!server_word("night", 0, &owner), "the lock is held");
  model_must(told.counts[0] > 0 && told.counts[1] > 0, "a client was not inside");
}

/* ---- all ---- */

static const scenario scenarios[] = {
  {"channel", 2, {channel_puts, channel_takes}, channel_ends, &told, sizeof told, true, {{2, 1, 0, 0}}, 60000},
  {"channel_stop", 2, {channel_puts, channel_takes}, channel_ends, &told, sizeof told, true, {{1, 1, 0, 1}}, 60000},
  {"brief", 2, {brief_put, brief_take}, NULL, &told, sizeof told, false, {{3, 0, 0, 0}}, 60000},
  {"brief_stop", 2, {brief_put, brief_take}, NULL, &told, sizeof told, false, {{2, 0, 0, 1}}, 60000},
  {"late", 2, {late_reader, late_writer}, late_ends, &told, sizeof told, false, {{2, 0, 1, 0}}, 60000},
  {"queue", 2, {queue_puts, queue_takes}, queue_ends, &told, sizeof told, true, {{1, 1, 0, 0}}, 120000},
  {"queue_both", 2, {queue_both, queue_both}, queue_ends, &told, sizeof told, true, {{2, 0, 0, 0}}, 120000},
  {"lock", 2, {locks, locks}, lock_ends, &told, sizeof told, true, {{1, 1, 0, 0}}, 60000},
  {"lock_stop", 2, {locks, locks}, lock_ends, &told, sizeof told, true, {{1, 0, 0, 1}}, 60000},
  {"lock_waits", 2, {locks, locks}, lock_ends, &told, sizeof told, false, {{3, 0, 0, 0}}, 60000},
  {"lock_takeover", 2, {takes_over, takes_over}, NULL, &told, sizeof told, true, {{1, 1, 0, 0}}, 60000},
  {"lock_once", 2, {locks_once, locks_once}, lock_ends, &told, sizeof told, true, {{1, 1, 0, 0}}, 60000},
  {"lock_once_stop", 2, {locks_once, locks_once}, lock_ends, &told, sizeof told, true, {{1, 0, 0, 1}}, 60000},
  {"key", 2, {keys, keys}, keys_end, &told, sizeof told, true, {{1, 1, 0, 0}}, 60000},
  {"key_takeover", 2, {takes_key_over, takes_key_over}, NULL, &told, sizeof told, true, {{1, 1, 0, 0}}, 60000},
  {"semaphore", 2, {permits, permits}, permits_end, &told, sizeof told, true, {{1, 1, 0, 0}}, 60000},
  {"semaphore_once", 2, {permits_once, permits_once}, permits_end, &told, sizeof told, true, {{1, 1, 0, 0}}, 60000},
  {"semaphore_waits", 2, {permits, permits}, permits_end, &told, sizeof told, false, {{2, 0, 0, 0}}, 60000},
  {"barrier", 2, {meets, meets}, NULL, &told, sizeof told, false, {{2, 0, 0, 0}}, 60000},
  {"barrier_stop", 2, {meets, meets}, NULL, &told, sizeof told, false, {{1, 0, 0, 1}}, 60000},
};

int main(int count, char **words) {
  setvbuf(stdout, NULL, _IOLBF, 0);
  setrlimit(RLIMIT_CPU, &(struct rlimit){300, 300}); /* seconds of processor: it waits for nothing */
  int failed = 0, found = 0;
  bool few = count == 2 && strcmp(words[1], "few") == 0;
  for (size_t i = 0; i < sizeof scenarios / sizeof *scenarios; i++) {
    scenario tried = scenarios[i];
    if (count > 1 && !few && strcmp(words[1], tried.name)) continue;
    if (few) tried.most.of[DELAYS] = tried.most.of[DELAYS] > 2 ? 1 : tried.most.of[DELAYS] - 1;
    found++;
    failed += !(count > 2 ? search_one(&tried, words[2]) : search_all(&tried));
  }
  printf("femem client, model of the line: %d scenarios, %d failed\n", found, failed);
  return failed || !found ? 1 : 0;
}
