/* A client with a session file is killed again and again, at each point of its work and at random moments, in turns
   with a real server: check_kills PROGRAM. Every step is counted once. It ends within ten minutes, with status 0 if all
   is right. */
#define _GNU_SOURCE
#include "real.h"

#include <fcntl.h>

enum { KILLS_AT_EACH = 20, KILLS_AT_ANY = 60, BATCH = 5, KEYS = 40, MOST_STEPS = 100000 };

/* ---- the worker: a process that is killed ---- */

static const char *last_point; /* NULL: the worker ends by itself after a few steps */
static int passes;

void kill_point(const char *name) {
  if (last_point && strcmp(name, last_point) == 0 && --passes == 0) raise(SIGKILL);
}

/* The worker's own notes, in a file that outlives a kill: this header, then each value that the counter had. */
typedef struct progress {
  uint64_t count, step, number; /* values; the next step with a key; the last number that was counted */
} progress;

static int notes;

static progress noted(void) {
  progress now_noted = {0};
  if (pread(notes, &now_noted, sizeof now_noted, 0) < 0) _exit(9);
  return now_noted;
}

static void note(progress *made, uint64_t value) {
  off_t at = (off_t)(sizeof *made + 8 * made->count);
  made->count++;
  if (pwrite(notes, &value, 8, at) != 8 || pwrite(notes, made, sizeof *made, 0) != sizeof *made) _exit(9);
}

static void expect(femem_error error, const char *what) {
  if (error == FEMEM_OK) return;
  printf("check_kills: %s: %s\n", what, femem_error_text(error));
  fflush(stdout);
  _exit(8);
}

/* Counts what the life before did not: at most its last requests. */
static void count_recovered(femem *client, progress *made) {
  femem_recovered recovered;
  femem_answer answer;
  for (unsigned i = 0; femem_recovered_at(client, i, &recovered) == FEMEM_OK; i++) {
    if (*recovered.key || recovered.number <= made->number) continue;
    expect(femem_wait(client, recovered.number, &answer, 60000), "a recovered request");
    expect(answer.error, "a recovered answer");
    made->number = recovered.number;
    note(made, answer.value);
  }
}

/* More steps than the window has numbers, each with a key. */
static void step_keys(femem *client, progress *made, const femem_request *add) {
  static char keys[KEYS][32];
  const char *named[KEYS];
  femem_request requests[KEYS];
  femem_answer answers[KEYS];
  for (int i = 0; i < KEYS; i++) {
    snprintf(keys[i], sizeof keys[i], "step %llu", (unsigned long long)made->step + (unsigned)i);
    named[i] = keys[i];
    requests[i] = *add;
  }
  expect(femem_batch_once(client, named, requests, KEYS, answers), "steps with keys");
  for (int i = 0; i < KEYS; i++) {
    expect(answers[i].error, "the answer of a key");
    made->step++;
    note(made, answers[i].value);
    femem_forget(client, keys[i]);
  }
}

static void step_once(femem *client, progress *made, const femem_request *add) {
  char key[32];
  femem_answer answer;
  snprintf(key, sizeof key, "step %llu", (unsigned long long)made->step);
  expect(femem_once(client, key, add, &answer), "a step with a key");
  made->step++;
  note(made, answer.value);
  /* The last few keys stay, so that the file has something to keep. */
  snprintf(key, sizeof key, "step %llu", (unsigned long long)(made->step < 8 ? 0 : made->step - 8));
  femem_forget(client, key);
}

/* Several requests in one send, counted in order. */
static void step_batch(femem *client, progress *made, const femem_request *add) {
  uint64_t numbers[BATCH];
  femem_answer answer;
  for (int i = 0; i < BATCH; i++) expect(femem_send(client, add, &numbers[i]), "a send");
  for (int i = 0; i < BATCH; i++) {
    expect(femem_wait(client, numbers[i], &answer, 60000), "a wait");
    expect(answer.error, "an answer");
    made->number = numbers[i];
    note(made, answer.value);
  }
}

static void work(const char *session, uint64_t array, uint32_t index) {
  femem *client;
  expect(femem_open_file(&client, path, session, &usual), "open");
  progress made = noted();
  count_recovered(client, &made);
  femem_request add = {.operation = FEMEM_INT_FETCH_ADD, .array = array, .index = index, .operand = 1};
  for (int i = 0; (last_point || i < 10) && made.count < MOST_STEPS; i++) {
    step_once(client, &made, &add);
    step_batch(client, &made, &add);
    step_keys(client, &made, &add);
  }
  femem_close(client);
  _exit(0);
}

/* ---- the driver ---- */

static uint64_t drawn = 0x2545f4914f6cdd1d;
static uint64_t draw(void) {
  drawn ^= drawn << 13;
  drawn ^= drawn >> 7;
  return drawn ^= drawn << 17;
}

/* Runs one life of the worker, which ends at the point, after some milliseconds if there is no such point, or by
   itself. Returns its status. */
static int life(const char *session, uint64_t array, uint32_t index, const char *at, int times, long milliseconds) {
  fflush(stdout);
  pid_t worker = fork();
  if (worker == 0) {
    last_point = at;
    passes = times;
    alarm(120);
    work(session, array, index);
  }
  if (milliseconds > 0) {
    pause_for(milliseconds);
    kill(worker, SIGKILL);
  }
  int status = 0;
  waitpid(worker, &status, 0);
  return status;
}

static int ascending(const void *one, const void *other) {
  uint64_t a = *(const uint64_t *)one, b = *(const uint64_t *)other;
  return (a > b) - (a < b);
}

/* The word was raised once for each count, and each value was counted once. */
static void check_exact(femem *observer, uint64_t array, uint32_t index, const char *what, unsigned kills) {
  static uint64_t values[MOST_STEPS];
  progress made = noted();
  uint64_t value = 0;
  ERROR(femem_readxx(observer, array, index, &value), FEMEM_OK);
  CHECK(value == made.count);
  if (made.count > MOST_STEPS || pread(notes, values, 8 * made.count, sizeof made) != (ssize_t)(8 * made.count)) return;
  qsort(values, made.count, sizeof *values, ascending);
  bool exact = true;
  for (uint64_t i = 0; i < made.count; i++) exact = exact && values[i] == i;
  CHECK(exact);
  printf("%s: %u kills of the client, %llu steps counted, the word is %llu\n", what, kills,
         (unsigned long long)made.count, (unsigned long long)value);
}

static void begin_again(void) {
  stop_server();
  start_server();
}

/* Twenty kills at one point, with kills of the server in between, and then a life that ends by itself. */
static void kills_at(femem *observer, uint64_t array, uint32_t index, const char *at) {
  char session[100], name[100];
  snprintf(session, sizeof session, "%s/session%u", folder, index);
  snprintf(name, sizeof name, "%s/notes%u", folder, index);
  notes = open(name, O_RDWR | O_CREAT, 0600);
  unsigned kills = 0, wanted = *at ? KILLS_AT_EACH : KILLS_AT_ANY;
  /* A compaction comes after some hundred steps. */
  unsigned passes_most = strstr(at, "compact") ? 2 : 4;
  for (unsigned i = 0; i < wanted; i++) {
    int status = *at ? life(session, array, index, at, 1 + (int)(draw() % passes_most), 0)
                     : life(session, array, index, "never", 0, 1 + (long)(draw() % 40));
    kills += WIFSIGNALED(status) && WTERMSIG(status) == SIGKILL;
    if (!WIFSIGNALED(status)) CHECK(WIFEXITED(status) && WEXITSTATUS(status) == 0);
    if (i % 5 == 4) begin_again();
  }
  CHECK(kills == wanted);
  int status = life(session, array, index, NULL, 0, 0);
  CHECK(WIFEXITED(status) && WEXITSTATUS(status) == 0);
  check_exact(observer, array, index, *at ? at : "at any moment", kills);
  femem *client;
  ERROR(femem_open_file(&client, path, session, &usual), FEMEM_OK);
  if (client) ERROR(femem_bye_within(client, 60000), FEMEM_OK);
  femem_close(client);
  close(notes);
  unlink(session);
  unlink(name);
  strcat(session, ".new");
  unlink(session);
}

int main(int count, char **words_given) {
  static const char *const points[] = {"before the write", "written", "synced", "sent", "answered",
                                       "before the compaction", "compacted, beside the file", "compacted", ""};
  enum { POINTS = sizeof points / sizeof *points };
  if (!begin_real("check_kills", count, words_given)) return 2;
  femem *observer = opened(1, &usual);
  uint64_t array = 0;
  ERROR(femem_create(observer, "kills", POINTS, true, &array), FEMEM_OK);
  for (uint32_t i = 0; i < POINTS; i++) kills_at(observer, array, i, points[i]);
  femem_close(observer);
  return end_real();
}
