/* Jobs that move through three queues, by workers in C and one in Python that are killed again and again, in turns with
   their server: check_moves PROGRAM. Each job comes out of the last queue once. It ends by itself, with status 0 if all is
   right. */
#define _GNU_SOURCE
#include "real.h"

enum { STAGES = 3, WORKERS = 3, JOBS = 300, KILLS = 50, FEW = 8, MANY = 400, ATTEMPTS = 16, AWAY = 500, STEP = 1000 };

static const femem_settings any_time = {.wait = 60000, .reconnect = 60000};
static char files[WORKERS + 1][100];

static void right(femem_error error) {
  if (error) fprintf(stderr, "check_moves: %s\n", femem_error_text(error));
  if (error) _exit(2);
}

static femem *with_file(int number) {
  femem *client;
  right(femem_open_file(&client, path, files[number], &any_time));
  return client;
}

static femem_queue *stage(femem *client, int number) {
  char name[20];
  femem_queue *queue;
  snprintf(name, sizeof name, "stage_%d", number);
  /* All workers may wait for room behind the first queue: then nobody would take there. */
  right(femem_queue_open(&queue, client, name, number == 0 ? FEW : MANY, ATTEMPTS, AWAY));
  return queue;
}

/* Calls: a job moves once, and is no job of the first queue then; a value is below 2^64 - 1. */
static void calls(void) {
  femem *client = opened(31, &usual);
  femem_queue *first, *second;
  femem_job job, next;
  ERROR(femem_queue_open(&first, client, "one", 2, 2, 200), FEMEM_OK);
  ERROR(femem_queue_open(&second, client, "two", 1, 2, 200), FEMEM_OK);
  ERROR(femem_queue_put(first, 5, NULL, 1000), FEMEM_OK);
  ERROR(femem_queue_take(first, &job, 1000), FEMEM_OK);
  ERROR(femem_queue_move(first, &job, second, UINT64_MAX, 0), FEMEM_BAD_CALL);
  ERROR(femem_queue_move(first, &job, second, 6, 1000), FEMEM_OK);
  ERROR(femem_queue_done(first, &job), FEMEM_NOT_OWNER);
  ERROR(femem_queue_move(first, &job, second, 7, 1000), FEMEM_WITHDRAWN); /* the next queue is full */
  ERROR(femem_queue_take(first, &next, 0), FEMEM_WITHDRAWN);
  ERROR(femem_queue_take(second, &next, 1000), FEMEM_OK);
  CHECK(next.value == 6 && next.attempt == 1);
  ERROR(femem_queue_done(second, &next), FEMEM_OK);
  ERROR(femem_queue_move(first, &job, second, 7, 1000), FEMEM_NOT_OWNER);
  ERROR(femem_queue_take(second, &next, 300), FEMEM_WITHDRAWN);
  femem_queue_close(first);
  femem_queue_close(second);
  ERROR(femem_bye_within(client, 60000), FEMEM_OK);
  femem_close(client);
}

static void work(int number) {
  femem *client = with_file(number);
  femem_queue *stages[STAGES];
  femem_request look = {.operation = FEMEM_READFF, .no_wait = true};
  femem_answer over = {0};
  for (int i = 0; i < STAGES; i++) stages[i] = stage(client, i);
  femem_error error = femem_create(client, "over", 1, false, &look.array);
  right(error == FEMEM_NAME_TAKEN ? femem_find(client, "over", &look.array, NULL) : error);
  for (int turn = 0; femem_call(client, &look, &over) == FEMEM_NOT_NOW; turn = !turn) {
    femem_job job;
    error = femem_queue_take(stages[turn], &job, 30);
    if (error == FEMEM_WITHDRAWN) continue;
    right(error);
    error = femem_queue_move(stages[turn], &job, stages[turn + 1], job.value + STEP, 60000);
    if (error != FEMEM_NOT_OWNER) right(error);
    pause_for(20); /* some are left for Python */
  }
  for (int i = 0; i < STAGES; i++) femem_queue_close(stages[i]);
  right(femem_bye_within(client, 60000));
  femem_close(client);
  _exit(0);
}

static pid_t begin(int number) {
  fflush(stdout);
  pid_t worker = fork();
  if (worker) return worker;
  if (number == WORKERS - 1) {
    execlp("python3", "python3", "-B", "mover.py", path, files[number], (char *)NULL);
    _exit(127);
  }
  work(number);
  return 0;
}

static bool ended_well(pid_t worker) {
  int status = 0;
  waitpid(worker, &status, 0);
  if (WIFEXITED(status) && WEXITSTATUS(status)) printf("check_moves: a worker ended with %d\n", WEXITSTATUS(status));
  return WIFSIGNALED(status) ? WTERMSIG(status) == SIGKILL : WEXITSTATUS(status) == 0;
}

/* Puts each job once, and takes them from the last queue. */
static pid_t begin_ends(void) {
  fflush(stdout);
  pid_t child = fork();
  if (child) return child;
  femem *client = with_file(WORKERS);
  femem_queue *first = stage(client, 0), *last = stage(client, STAGES - 1);
  unsigned times[JOBS] = {0}, got = 0, put = 0;
  for (int idle = 0; got < JOBS || idle < 8;) {
    if (put < JOBS) {
      femem_error error = femem_queue_put(first, put, NULL, 20);
      put += error == FEMEM_OK;
      if (error != FEMEM_WITHDRAWN) right(error);
      pause_for(40); /* the workers are killed meanwhile, however fast they are */
    }
    femem_job job;
    femem_error error = femem_queue_take(last, &job, got < JOBS ? 20 : 500);
    idle = error == FEMEM_WITHDRAWN ? idle + 1 : 0;
    if (error == FEMEM_WITHDRAWN) continue;
    right(error);
    if (job.value < (STAGES - 1) * STEP || job.value >= (STAGES - 1) * STEP + JOBS) _exit(3);
    times[job.value - (STAGES - 1) * STEP]++;
    got++;
    right(femem_queue_done(last, &job));
  }
  femem_queue_close(first);
  femem_queue_close(last);
  right(femem_bye_within(client, 60000));
  femem_close(client);
  for (unsigned i = 0; i < JOBS; i++)
    if (times[i] != 1) _exit(4);
  _exit(0);
}

/* Python takes its time to begin, on a busy machine longer than the others need for all jobs. */
static void await_python(void) {
  femem *client = opened(32, &usual);
  femem_counter *counter;
  uint64_t moved = 0;
  right(femem_counter_open(&counter, client, "moved_by_python"));
  for (; moved == 0; pause_for(20)) right(femem_counter_value(counter, &moved));
  femem_counter_close(counter);
  femem_close(client);
}

static void kills(void) {
  pid_t workers[WORKERS], ends = begin_ends();
  int status = 0;
  unsigned killed = 0;
  workers[WORKERS - 1] = begin(WORKERS - 1);
  await_python();
  for (int i = 0; i < WORKERS - 1; i++) workers[i] = begin(i);
  for (unsigned drawn = 815, count = 0; waitpid(ends, &status, WNOHANG) == 0; count++) {
    drawn = drawn * 1103515245 + 12345;
    unsigned worker = drawn / 65536 % 8 == 0 ? WORKERS - 1 : drawn / 65536 % (WORKERS - 1);
    pause_for((worker == WORKERS - 1 ? 2000 : 100) + drawn / 65536 % 150); /* Python takes its time to begin */
    if (killed >= KILLS) continue;
    kill(workers[worker], SIGKILL);
    killed++;
    CHECK(ended_well(workers[worker]));
    workers[worker] = begin((int)worker);
    if (count % 8 != 7) continue;
    stop_server();
    start_server();
  }
  CHECK(WIFEXITED(status) && WEXITSTATUS(status) == 0);
  if (WIFEXITED(status) && WEXITSTATUS(status)) printf("check_moves: the ends: %d\n", WEXITSTATUS(status));
  CHECK(killed >= KILLS / 3);
  femem *client = opened(32, &usual);
  uint64_t over = 0;
  ERROR(femem_find(client, "over", &over, NULL), FEMEM_OK);
  ERROR(femem_writexf(client, over, 0, 1), FEMEM_OK);
  for (int i = 0; i < WORKERS; i++) CHECK(ended_well(workers[i]));
  femem_counter *counter;
  uint64_t moved = 0;
  ERROR(femem_counter_open(&counter, client, "moved_by_python"), FEMEM_OK);
  ERROR(femem_counter_value(counter, &moved), FEMEM_OK);
  CHECK(moved > 0 && moved < (STAGES - 1) * JOBS);
  femem_counter_close(counter);
  femem_close(client);
  printf("%d jobs through %d queues, %u kills of workers: each once, %d moves by Python\n", JOBS, STAGES, killed, (int)moved);
}

int main(int count, char **words_given) {
  if (!begin_real("check_moves", count, words_given)) return 2;
  for (int i = 0; i <= WORKERS; i++) snprintf(files[i], sizeof files[i], "%s/worker%d", folder, i);
  calls();
  kills();
  for (int i = 0; i <= WORKERS; i++) unlink(files[i]);
  return end_real();
}
