/* A work queue with a real server: check_queue PROGRAM. First its calls, then four takers and two putters that are
   killed again and again, in turns with their server: each job that was put is done once. It ends within ten minutes,
   with status 0 if all is right. */
#define _GNU_SOURCE
#include "real.h"

#include <fcntl.h>
#include <sys/mman.h>

enum { TAKERS = 4, PUTTERS = 2, EACH = 600, JOBS = PUTTERS * EACH, CAPACITY = 20, WIDE = 64, ATTEMPTS = 16, KILLS = 80 };

/* A worker may begin while the server is restarted. */
static const femem_settings any_time = {.wait = 60000, .reconnect = 60000, .wait_for_server = true};

static femem_queue *queue_opened(femem *client, const char *name, uint32_t capacity, uint32_t attempts, int64_t away) {
  femem_queue *queue;
  femem_error error = femem_queue_open(&queue, client, name, capacity, attempts, away);
  if (error) give_up(femem_error_text(error));
  return queue;
}

/* ---- calls ---- */

static void put(femem_queue *queue, uint64_t value) { ERROR(femem_queue_put(queue, value, NULL, 20000), FEMEM_OK); }

static femem_job taken(femem_queue *queue, uint64_t value, uint32_t attempt) {
  femem_job job = {0};
  ERROR(femem_queue_take(queue, &job, 20000), FEMEM_OK);
  CHECK(job.value == value && job.attempt == attempt && job.number > 0);
  return job;
}

/* Jobs come in the order of their puts while no put runs out of time, and else each comes once; a full queue waits for
   room, an empty one for a job. A put that ran out of time has put nothing. */
static void orders(femem_queue *queue) {
  femem_job job;
  ERROR(femem_queue_take(queue, &job, 0), FEMEM_WITHDRAWN);
  for (uint64_t round = 0; round < 4; round++) {
    bool seen[CAPACITY] = {false};
    for (uint64_t i = 0; i < CAPACITY; i++) put(queue, 100 * round + i);
    if (round > 0) ERROR(femem_queue_put(queue, 99, NULL, 100 * (int64_t)(round - 1)), FEMEM_WITHDRAWN);
    for (uint64_t i = 0; i < CAPACITY; i++) {
      ERROR(femem_queue_take(queue, &job, 20000), FEMEM_OK);
      uint64_t at = job.value - 100 * round;
      CHECK(at < CAPACITY && !seen[at % CAPACITY] && job.attempt == 1 && (round > 1 || at == i));
      seen[at % CAPACITY] = true;
      ERROR(femem_queue_done(queue, &job), FEMEM_OK);
      ERROR(femem_queue_done(queue, &job), FEMEM_NOT_OWNER);
    }
    ERROR(femem_queue_take(queue, &job, 100), FEMEM_WITHDRAWN);
  }
}

/* A put waits only while as many jobs are open as the capacity says, wherever they are: a program that puts one for each
   that it takes never waits, and each job that is done makes room for one. */
static void room(femem *client) {
  femem_queue *queue = queue_opened(client, "room", WIDE, 3, 500);
  femem_job job, held[3];
  for (uint64_t i = 0; i < WIDE - 2; i++) put(queue, i);
  for (int i = 0; i < 4 * WIDE; i++) {
    ERROR(femem_queue_take(queue, &job, 5000), FEMEM_OK);
    ERROR(femem_queue_put(queue, 7, NULL, 5000), FEMEM_OK);
    ERROR(femem_queue_done(queue, &job), FEMEM_OK);
  }
  for (int i = 0; i < 3; i++) ERROR(femem_queue_take(queue, &held[i], 5000), FEMEM_OK);
  for (int i = 0; i < 2; i++) ERROR(femem_queue_put(queue, 7, NULL, 0), FEMEM_OK);
  for (int i = 0; i < 3; i++) {
    ERROR(femem_queue_put(queue, 7, NULL, 0), FEMEM_WITHDRAWN);
    ERROR(femem_queue_done(queue, &held[2 - i]), FEMEM_OK);
    ERROR(femem_queue_put(queue, 7, NULL, 0), FEMEM_OK);
  }
  femem_queue_close(queue);
}

/* Jobs that stay open hold up a page each. Once they do so in all eight, a put waits until one of them is done. */
static void old_jobs(femem *client) {
  enum { PAGES = 8, SLOTS = 12 };
  femem_queue *queue = queue_opened(client, "old", SLOTS, 3, 500);
  femem_job job, old[PAGES];
  for (int i = 0; i < PAGES * SLOTS; i++) {
    put(queue, 7);
    job = taken(queue, 7, 1);
    if (i % SLOTS == 0) old[i / SLOTS] = job;
    else ERROR(femem_queue_done(queue, &job), FEMEM_OK);
  }
  for (int i = 0; i < 2; i++) ERROR(femem_queue_put(queue, 8, NULL, 200 * i), FEMEM_WITHDRAWN);
  ERROR(femem_queue_done(queue, &old[3]), FEMEM_OK);
  put(queue, 8);
  job = taken(queue, 8, 1);
  ERROR(femem_queue_done(queue, &job), FEMEM_OK);
  for (int i = 0; i < PAGES; i++) ERROR(femem_queue_done(queue, &old[i]), i == 3 ? FEMEM_NOT_OWNER : FEMEM_OK);
  femem_queue_close(queue);
}

/* A job that fails is tried again, three times in all, and then set aside until it is dropped. */
static void failures_of_jobs(femem_queue *queue) {
  femem_job job = {0}, aside[2];
  size_t count = 9;
  put(queue, 7);
  for (uint32_t attempt = 1; attempt <= 3; attempt++) {
    job = taken(queue, 7, attempt);
    ERROR(femem_queue_aside(queue, aside, 2, &count), FEMEM_OK);
    CHECK(count == 0);
    ERROR(femem_queue_fail(queue, &job), FEMEM_OK);
  }
  femem_job none;
  ERROR(femem_queue_take(queue, &none, 1500), FEMEM_WITHDRAWN);
  ERROR(femem_queue_aside(queue, aside, 2, &count), FEMEM_OK);
  CHECK(count == 1 && aside[0].number == job.number && aside[0].value == 7 && aside[0].attempt == 3);
  ERROR(femem_queue_drop(queue, job.number), FEMEM_OK);
  ERROR(femem_queue_drop(queue, job.number), FEMEM_NOT_OWNER);
  ERROR(femem_queue_done(queue, &job), FEMEM_NOT_OWNER);
  ERROR(femem_queue_aside(queue, NULL, 0, &count), FEMEM_OK);
  CHECK(count == 0);
}

/* A job whose taker is away is given to another one, and the first one learns that it was too late. */
static void takers_away(femem_queue *queue) {
  femem *other = opened(8, &usual);
  femem_queue *second = queue_opened(other, "calls", CAPACITY, 3, 500);
  femem_job job, again;
  put(queue, 11);
  job = taken(second, 11, 1);
  ERROR(femem_queue_take(queue, &again, 1500), FEMEM_WITHDRAWN); /* its taker is there */
  femem_queue_close(second);
  again = taken(queue, 11, 2);
  CHECK(again.number == job.number);
  second = queue_opened(other, "calls", CAPACITY, 3, 500);
  ERROR(femem_queue_done(queue, &again), FEMEM_OK);
  ERROR(femem_queue_done(second, &job), FEMEM_NOT_OWNER);
  femem_queue_close(second);
  ERROR(femem_bye_within(other, 60000), FEMEM_OK);
  femem_close(other);
}

/* Two looks at which the taker was away, and none in between for long: it may have been there. */
static void takers_away_for_moments(femem *client) {
  femem *other = opened(9, &usual);
  femem_queue *queue = queue_opened(client, "calls", CAPACITY, 3, 2000);
  femem_queue *second = queue_opened(other, "calls", CAPACITY, 3, 2000);
  put(queue, 12);
  femem_job job = taken(second, 12, 1), again;
  femem_queue_close(second);
  ERROR(femem_queue_take(queue, &again, 0), FEMEM_WITHDRAWN);
  pause_for(5500);
  ERROR(femem_queue_take(queue, &again, 0), FEMEM_WITHDRAWN);
  again = taken(queue, 12, 2);
  CHECK(again.number == job.number);
  ERROR(femem_queue_done(queue, &again), FEMEM_OK);
  femem_queue_close(queue);
  ERROR(femem_bye_within(other, 60000), FEMEM_OK);
  femem_close(other);
}

/* A descriptor that is readable ends a wait for a job and one for room, as if the time were over. */
static void stops(femem *client) {
  femem_queue *queue = queue_opened(client, "stops", 4, 3, 0), *next = queue_opened(client, "next", 4, 3, 0);
  femem_job job;
  int ends[2];
  if (pipe(ends) || write(ends[1], "", 1) != 1) give_up("no pipe");
  for (int i = 0; i < 4; i++) put(queue, 7), put(next, 7);
  job = taken(queue, 7, 1);
  uint64_t before = femem_number(client);
  femem_stop_at(client, ends[0]);
  ERROR(femem_queue_put(queue, 7, NULL, 5000), FEMEM_WITHDRAWN);
  ERROR(femem_queue_move(queue, &job, next, 7, 5000), FEMEM_WITHDRAWN);
  for (int i = 0; i < 3; i++) ERROR(femem_queue_take(queue, &job, 5000), FEMEM_OK);
  ERROR(femem_queue_take(queue, &job, 5000), FEMEM_WITHDRAWN);
  CHECK(femem_number(client) - before < 200);
  femem_stop_at(client, -1);
  femem_queue_close(queue), femem_queue_close(next);
  close(ends[0]), close(ends[1]);
}

static void arguments(femem *client) {
  femem_queue *queue;
  femem_job job;
  ERROR(femem_queue_open(&queue, client, "calls", CAPACITY + 4, 3, 0), FEMEM_BAD_CALL);
  ERROR(femem_queue_open(&queue, client, "calls", CAPACITY, 4, 0), FEMEM_BAD_CALL);
  femem_queue_close(queue_opened(client, "empty", 7, 3, 0));
  ERROR(femem_queue_open(&queue, client, "empty", 8, 3, 0), FEMEM_BAD_CALL); /* its pages would be as long */
  ERROR(femem_queue_open(&queue, client, "empty", 7, 2, 0), FEMEM_BAD_CALL);
  ERROR(femem_queue_open(&queue, client, "", CAPACITY, 3, 0), FEMEM_BAD_CALL);
  ERROR(femem_queue_open(&queue, client, "a name of more than thirty bytes", CAPACITY, 3, 0), FEMEM_BAD_CALL);
  ERROR(femem_queue_open(&queue, client, "calls", 0, 3, 0), FEMEM_BAD_CALL);
  ERROR(femem_queue_open(&queue, client, "calls", 65533, 3, 0), FEMEM_BAD_CALL);
  ERROR(femem_queue_open(&queue, client, "calls", CAPACITY, 17, 0), FEMEM_BAD_CALL);
  CHECK(!queue);
  femem_queue_close(queue);
  queue = queue_opened(client, "calls", CAPACITY, 3, 0);
  ERROR(femem_queue_put(queue, UINT64_MAX, NULL, 0), FEMEM_BAD_CALL);
  ERROR(femem_queue_put(queue, 1, "key", 0), FEMEM_BAD_CALL); /* it has no session file */
  fflush(stdout);
  pid_t child = fork();
  if (child == 0) {
    size_t count;
    bool told = femem_queue_put(queue, 1, NULL, 0) == FEMEM_FORKED &&
                femem_queue_take(queue, &job, 0) == FEMEM_FORKED &&
                femem_queue_drop(queue, 1) == FEMEM_FORKED && femem_queue_aside(queue, NULL, 0, &count) == FEMEM_FORKED;
    femem_queue_close(queue);
    femem_close(client);
    _exit(told ? 0 : 1);
  }
  int status = 1;
  waitpid(child, &status, 0);
  CHECK(WIFEXITED(status) && WEXITSTATUS(status) == 0);
  femem_queue_close(queue);
}

static void calls(void) {
  femem *client = opened(7, &usual);
  femem_queue *queue = queue_opened(client, "calls", CAPACITY, 3, 500);
  orders(queue);
  failures_of_jobs(queue);
  takers_away(queue);
  femem_queue_close(queue);
  takers_away_for_moments(client);
  room(client);
  old_jobs(client);
  stops(client);
  arguments(client);
  ERROR(femem_bye_within(client, 60000), FEMEM_OK);
  femem_close(client);
}

/* ---- kills ---- */

/* What processes that are killed have told: how far each putter is, and how often each job was begun and done. */
static struct told {
  volatile uint32_t put[PUTTERS], begun[JOBS], done[JOBS], late[JOBS], robbed;
  volatile int stop;
} *told;

/* Ends a worker that got an error, and says which. */
static void end_by(const char *worker, femem_error error) {
  printf("check_queue: %s got '%s'\n", worker, femem_error_text(error));
  _exit(1);
}

/* Puts its jobs under keys, so that each is put once, whatever stops in between. */
static void put_all(int putter) {
  char session[100], key[32];
  snprintf(session, sizeof session, "%s/putter%d", folder, putter);
  femem *client;
  femem_error error = femem_open_file(&client, path, session, &any_time);
  if (error) end_by("a putter that began", error);
  femem_queue *queue;
  error = femem_queue_open(&queue, client, "kills", CAPACITY, ATTEMPTS, 500);
  if (error) end_by("a putter that began", error);
  while (told->put[putter] < EACH) {
    uint32_t next = told->put[putter];
    snprintf(key, sizeof key, "job %u", next);
    error = femem_queue_put(queue, (uint64_t)putter * EACH + next, key, 60000);
    if (error) end_by("a putter", error);
    told->put[putter] = next + 1;
    if (next > 0) snprintf(key, sizeof key, "job %u", next - 1);
    if (next > 0 && femem_forget(client, key) == FEMEM_MEMORY) end_by("a putter", FEMEM_MEMORY);
  }
  femem_queue_close(queue);
  femem_close(client);
  _exit(0);
}

/* Takes jobs until all are done. */
static femem_error take_jobs(femem_queue *queue) {
  while (!told->stop) {
    femem_job job;
    femem_error error = femem_queue_take(queue, &job, 300);
    if (error == FEMEM_WITHDRAWN) continue;
    if (error) return error;
    if (job.value >= JOBS) end_by("a taker, with a value that nobody put,", error);
    if (job.number % 7 == job.attempt - 1) {
      error = femem_queue_fail(queue, &job);
      if (error) return error;
      continue;
    }
    __atomic_add_fetch(&told->begun[job.value], 1, __ATOMIC_SEQ_CST);
    error = femem_queue_done(queue, &job);
    if (error == FEMEM_OK) __atomic_add_fetch(&told->done[job.value], 1, __ATOMIC_SEQ_CST);
    else if (error == FEMEM_NOT_OWNER) __atomic_add_fetch(&told->late[job.value], 1, __ATOMIC_SEQ_CST);
    else return error;
  }
  return FEMEM_OK;
}

/* A taker without a session file begins again if the attach of a killed one, which the server read late, took its
   session. It knows as little of its last job as one that was killed. */
static void take_all(int taker) {
  char session[100];
  snprintf(session, sizeof session, "%s/taker%d", folder, taker);
  while (!told->stop) {
    femem *client;
    femem_queue *queue = NULL;
    femem_error error = taker % 2 ? femem_open_file(&client, path, session, &any_time)
                                  : femem_open(&client, path, 100 + (uint64_t)taker, &any_time);
    if (error == FEMEM_OK) error = femem_queue_open(&queue, client, "kills", CAPACITY, ATTEMPTS, 500);
    if (error == FEMEM_OK) error = take_jobs(queue);
    bool robbed = error == FEMEM_REFUSED_NOT_ATTACHED && taker % 2 == 0;
    if (error && !robbed) end_by("a taker", error);
    if (robbed) __atomic_add_fetch(&told->robbed, 1, __ATOMIC_SEQ_CST);
    femem_queue_close(queue);
    femem_close(client);
  }
  _exit(0);
}

static pid_t begin_worker(int worker) {
  fflush(stdout);
  pid_t process = fork();
  if (process != 0) return process;
  alarm(300);
  if (worker < TAKERS) take_all(worker);
  put_all(worker - TAKERS);
  return 0;
}

/* Waits for a worker's end. Returns whether it was killed, or ended well. */
static bool ended_well(pid_t worker) {
  int status = 0;
  waitpid(worker, &status, 0);
  return WIFSIGNALED(status) ? WTERMSIG(status) == SIGKILL : WEXITSTATUS(status) == 0;
}

/* How many jobs were told as done once, not done though nobody was killed in its done, and done more than once. `kills`
   counts takers that began again too. */
static void check_jobs(unsigned kills) {
  unsigned once = 0, untold = 0, lost = 0, twice = 0, late = 0;
  for (int job = 0; job < JOBS; job++) {
    once += told->done[job] == 1;
    twice += told->done[job] > 1;
    untold += told->done[job] == 0 && told->begun[job] > told->late[job]; /* killed before it could tell */
    lost += told->done[job] == 0 && told->begun[job] <= told->late[job];
    late += told->late[job];
  }
  CHECK(twice == 0 && lost == 0 && once + untold == JOBS && untold <= kills);
  printf("%d jobs, %u kills of clients, %u late attaches: %u told as done, %u done and untold, %u twice, %u lost, "
         "%u late\n", JOBS, kills - told->robbed, told->robbed, once, untold, twice, lost, late);
}

static void kills(void) {
  pid_t workers[TAKERS + PUTTERS];
  for (int i = 0; i < TAKERS + PUTTERS; i++) workers[i] = begin_worker(i);
  unsigned count = 0;
  for (unsigned drawn = 12345; count < KILLS; count++) {
    drawn = drawn * 1103515245 + 12345;
    unsigned worker = drawn / 65536 % (TAKERS + PUTTERS);
    pause_for(20 + drawn / 65536 % 100);
    kill(workers[worker], SIGKILL);
    CHECK(ended_well(workers[worker]));
    workers[worker] = begin_worker((int)worker);
    if (count % 8 == 7) {
      stop_server();
      start_server();
    }
  }
  for (int i = TAKERS; i < TAKERS + PUTTERS; i++) CHECK(ended_well(workers[i]));
  femem *client = opened(7, &usual);
  femem_queue *queue = queue_opened(client, "kills", CAPACITY, ATTEMPTS, 500);
  pause_for(4000);
  told->stop = 1;
  for (int i = 0; i < TAKERS; i++) CHECK(ended_well(workers[i]));
  /* What the takers left, if they were killed last. */
  femem_job job;
  while (femem_queue_take(queue, &job, 3000) == FEMEM_OK) {
    told->begun[job.value]++;
    if (femem_queue_done(queue, &job) == FEMEM_OK) told->done[job.value]++;
  }
  size_t aside = 1;
  ERROR(femem_queue_aside(queue, NULL, 0, &aside), FEMEM_OK);
  CHECK(aside == 0 && told->put[0] == EACH && told->put[1] == EACH);
  check_jobs(count + told->robbed);
  femem_queue_close(queue);
  femem_close(client);
  char name[100];
  for (int i = 0; i < TAKERS + PUTTERS; i++) {
    snprintf(name, sizeof name, "%s/%s%d", folder, i < TAKERS ? "taker" : "putter", i < TAKERS ? i : i - TAKERS);
    unlink(name);
  }
}

int main(int count, char **words_given) {
  told = mmap(NULL, sizeof *told, PROT_READ | PROT_WRITE, MAP_SHARED | MAP_ANONYMOUS, -1, 0);
  if (told == MAP_FAILED || !begin_real("check_queue", count, words_given)) return 2;
  calls();
  kills();
  return end_real();
}
