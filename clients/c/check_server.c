/* The client against a real server that is killed and restarted: check_server PROGRAM. It ends within ten minutes,
   usually within ten seconds, with status 0 if all is right. */
#define _GNU_SOURCE
#include "real.h"

#include <sys/mman.h>

enum { RAISERS = 4, MOST_RAISES = 20000, KILLS = 4 };

/* ---- the answers of each call ---- */

static void words(void) {
  femem *client = opened(7, &usual);
  uint64_t cells = 0, found = 0, value = 0;
  uint32_t length = 0;
  ERROR(femem_create(client, "cells", 2, false, &cells), FEMEM_OK);
  ERROR(femem_create(client, "cells", 2, false, NULL), FEMEM_NAME_TAKEN);
  ERROR(femem_create(client, "Cells", 2, false, NULL), FEMEM_BAD_NAME);
  ERROR(femem_create(client, "none", 0, false, NULL), FEMEM_BAD_LENGTH);
  ERROR(femem_create(client, "many", 65536, false, NULL), FEMEM_WORD_LIMIT);
  ERROR(femem_create(client, "a_name_that_has_thirty_two_bytes", 1, true, &found), FEMEM_OK);
  ERROR(femem_remove(client, found), FEMEM_OK);
  ERROR(femem_find(client, "a_name_that_has_thirty_two_bytes", NULL, NULL), FEMEM_NO_ARRAY);
  ERROR(femem_find(client, "cells", &found, &length), FEMEM_OK);
  CHECK(found == cells && length == 2);
  ERROR(femem_writeef(client, cells, 0, 42), FEMEM_OK);
  ERROR(femem_readff(client, cells, 0, &value), FEMEM_OK);
  CHECK(value == 42);
  ERROR(femem_writeff(client, cells, 0, UINT64_MAX), FEMEM_OK);
  ERROR(femem_int_fetch_add(client, cells, 0, 2, &value), FEMEM_OK);
  CHECK(value == UINT64_MAX);
  ERROR(femem_readfe(client, cells, 0, &value), FEMEM_OK);
  CHECK(value == 1);
  femem_request request = {.operation = FEMEM_READFE, .array = cells, .no_wait = true};
  femem_answer answer;
  ERROR(femem_call(client, &request, &answer), FEMEM_NOT_NOW);
  ERROR(femem_writexf(client, cells, 0, 5), FEMEM_OK);
  ERROR(femem_purge(client, cells, 0), FEMEM_OK);
  ERROR(femem_readxx(client, cells, 0, &value), FEMEM_OK);
  CHECK(value == 0);
  ERROR(femem_readfe(client, cells, 2, &value), FEMEM_BAD_INDEX);
  ERROR(femem_readfe(client, 999, 0, &value), FEMEM_NO_ARRAY);
  ERROR(femem_bye_within(client, 60000), FEMEM_OK);
  femem_close(client);
}

/* Forty times a full window. A waiting request holds the floor, but no other request. */
static void pipelines(void) {
  femem *client = opened(7, &usual), *other = opened(8, &usual);
  uint64_t array = 0, value = 0, due = 0;
  femem_answer answer;
  ERROR(femem_create(client, "pipelines", 2, true, &array), FEMEM_OK);
  for (int round = 0; round < 40; round++) {
    while (femem_send_int_fetch_add(client, array, 0, 1, NULL) == FEMEM_OK) {}
    CHECK(femem_out(client) + femem_ready(client) == 32);
    while (femem_out(client) + femem_ready(client) > 0) {
      ERROR(femem_next(client, &answer, 60000), FEMEM_OK);
      CHECK(answer.error == FEMEM_OK && answer.value == due);
      due++;
    }
  }
  ERROR(femem_purge(client, array, 1), FEMEM_OK);
  ERROR(femem_send_readfe(client, array, 1, NULL), FEMEM_OK);
  ERROR(femem_next(client, &answer, 50), FEMEM_TIMEOUT);
  const char *text = "";
  ERROR(femem_report(other, &text), FEMEM_OK);
  CHECK(strstr(text, "session 7 waits 1\n") && strstr(text, "all-wait no\n"));
  ERROR(femem_writeef(other, array, 1, 9), FEMEM_OK);
  ERROR(femem_next(client, &answer, 60000), FEMEM_OK);
  CHECK(answer.value == 9);
  femem_request request = {.operation = FEMEM_READFF, .array = array, .index = 1};
  ERROR(femem_call_within(client, &request, 50, &answer), FEMEM_WITHDRAWN);
  ERROR(femem_settle(client), FEMEM_OK);
  /* A session has one connection: the last to attach. */
  femem *taker = opened(8, &usual);
  ERROR(femem_readxx(other, array, 1, &value), FEMEM_REFUSED_NOT_ATTACHED);
  ERROR(femem_readxx(taker, array, 1, &value), FEMEM_OK);
  ERROR(femem_bye_within(taker, 60000), FEMEM_OK);
  ERROR(femem_bye_within(client, 60000), FEMEM_OK);
  femem_close(taker);
  femem_close(other);
  femem_close(client);
}

/* A thousand requests in one call; and a waiting one among others, which is taken back when its time is over. */
static void batches(void) {
  enum { COUNT = 1000 };
  static femem_request requests[COUNT];
  static femem_answer answers[COUNT];
  femem *client = opened(7, &usual), *brief = opened(8, &(femem_settings){.wait = 1500, .reconnect = 60000});
  femem_request create = {.operation = FEMEM_CREATE, .name_length = 7, .name = "batches", .length = 2, .full = true};
  femem_answer made;
  ERROR(femem_call(client, &create, &made), FEMEM_OK);
  for (int i = 0; i < COUNT; i++)
    requests[i] = (femem_request){.operation = FEMEM_INT_FETCH_ADD, .array = made.array, .operand = 1};
  femem_error error = femem_batch(client, requests, COUNT, answers);
  ERROR(error, FEMEM_OK);
  unsigned right = 0;
  for (unsigned i = 0; i < COUNT; i++) right += answers[i].error == FEMEM_OK && answers[i].value == i;
  CHECK(right == COUNT);
  requests[0] = (femem_request){.operation = FEMEM_PURGE, .array = made.array, .index = 1};
  requests[1] = (femem_request){.operation = FEMEM_READFE, .array = made.array, .index = 1};
  ERROR(femem_batch(brief, requests, 20, answers), FEMEM_OK);
  ERROR(answers[1].error, FEMEM_WITHDRAWN);
  ERROR(answers[19].error, FEMEM_OK);
  CHECK(answers[19].value == COUNT + 17 && femem_out(brief) == 0 && femem_ready(brief) == 0);
  ERROR(femem_bye_within(brief, 60000), FEMEM_OK);
  femem_close(brief);
  femem_close(client);
}

/* ---- what waits ---- */

/* However many calls run out of time, they leave nothing behind. */
static void out_of_time(void) {
  femem *client = opened(7, &(femem_settings){.wait = 100, .reconnect = 60000}), *other = opened(8, &usual);
  uint64_t array = 0, value = 0;
  unsigned by_themselves = 0;
  femem_answer answer;
  ERROR(femem_create(other, "out_of_time", 1, false, &array), FEMEM_OK);
  for (int i = 0; i < 36; i++) {
    femem_error error = femem_readfe(client, array, 0, &value);
    by_themselves += error == FEMEM_WITHDRAWN;
    /* On a slow machine the cancel's reply may be late too. */
    while (error == FEMEM_TIMEOUT) error = femem_cancel(client, femem_number(client), &answer);
    ERROR(error, FEMEM_WITHDRAWN);
  }
  CHECK(by_themselves > 0 && femem_out(client) == 0 && femem_ready(client) == 0);
  ERROR(femem_writeef(other, array, 0, 100), FEMEM_OK);
  femem_request request = {.operation = FEMEM_READXX, .array = array};
  ERROR(femem_call_within(client, &request, 60000, &answer), FEMEM_OK);
  CHECK(answer.value == 100); /* none of the reads that were given up took it */
  request.operation = FEMEM_READFE;
  ERROR(femem_call_within(client, &request, 60000, &answer), FEMEM_OK);
  CHECK(answer.value == 100);
  femem_close(client);
  ERROR(femem_remove(other, array), FEMEM_OK);
  ERROR(femem_bye_within(other, 60000), FEMEM_OK);
  femem_close(other);
}

/* Waiting requests do not hold up other requests of their client, and each happens once. */
static void in_the_way(void) {
  enum { WAITING = 20 };
  femem *client = opened(7, &usual), *other = opened(8, &usual);
  uint64_t array = 0, value = 0, numbers[WAITING];
  femem_answer answer;
  ERROR(femem_create(other, "in_the_way", WAITING + 1, false, &array), FEMEM_OK);
  ERROR(femem_writeef(other, array, WAITING, 0), FEMEM_OK);
  for (uint32_t i = 0; i < WAITING; i++) ERROR(femem_send_readfe(client, array, i, &numbers[i]), FEMEM_OK);
  for (uint64_t due = 0; due < 200; due++) {
    ERROR(femem_int_fetch_add(client, array, WAITING, 1, &value), FEMEM_OK);
    CHECK(value == due);
  }
  CHECK(femem_out(client) == WAITING);
  for (uint32_t i = 0; i < WAITING; i++) ERROR(femem_writeef(other, array, i, 1000 + i), FEMEM_OK);
  for (uint32_t i = WAITING; i-- > 0;) {
    ERROR(femem_wait(client, numbers[i], &answer, 60000), FEMEM_OK);
    CHECK(answer.number == numbers[i] && answer.error == FEMEM_OK && answer.value == 1000 + i);
  }
  CHECK(femem_out(client) == 0 && femem_ready(client) == 0);
  /* Each word is empty again: no value was read twice, nor by a request that had moved away. */
  for (uint32_t i = 0; i < WAITING; i++) ERROR(femem_writeef(other, array, i, 0), FEMEM_OK);
  ERROR(femem_remove(other, array), FEMEM_OK);
  ERROR(femem_bye_within(client, 60000), FEMEM_OK);
  ERROR(femem_bye_within(other, 60000), FEMEM_OK);
  femem_close(client);
  femem_close(other);
}

/* A child's copy of the client can't disturb its parent's. */
static void forked(void) {
  femem *client = opened(7, &usual);
  uint64_t array = 0, value = 1, number = 0;
  femem_answer answer;
  ERROR(femem_create(client, "forked", 2, true, &array), FEMEM_OK);
  ERROR(femem_purge(client, array, 1), FEMEM_OK);
  ERROR(femem_send_readfe(client, array, 1, &number), FEMEM_OK);
  ERROR(femem_flush(client), FEMEM_OK);
  fflush(stdout);
  pid_t child = fork();
  if (child == 0) {
    const char *text;
    bool told = femem_int_fetch_add(client, array, 0, 1, &value) == FEMEM_FORKED &&
                femem_send_purge(client, array, 0, NULL) == FEMEM_FORKED && femem_flush(client) == FEMEM_FORKED &&
                femem_cancel(client, number, &answer) == FEMEM_FORKED &&
                femem_next(client, &answer, 0) == FEMEM_FORKED &&
                femem_report(client, &text) == FEMEM_FORKED && femem_settle(client) == FEMEM_FORKED &&
                femem_reconnect(client, 0) == FEMEM_FORKED;
    femem_close(client);
    _exit(told ? 0 : 1);
  }
  int status = 1;
  waitpid(child, &status, 0);
  CHECK(WIFEXITED(status) && WEXITSTATUS(status) == 0);
  ERROR(femem_int_fetch_add(client, array, 0, 1, &value), FEMEM_OK);
  CHECK(value == 0);
  ERROR(femem_writeef(client, array, 1, 5), FEMEM_OK);
  ERROR(femem_wait(client, number, &answer, 60000), FEMEM_OK);
  CHECK(answer.value == 5 && femem_reconnects(client) == 0);
  child = fork();
  if (child == 0) _exit(femem_bye(client) == FEMEM_FORKED ? 0 : 1);
  waitpid(child, &status, 0);
  CHECK(WIFEXITED(status) && WEXITSTATUS(status) == 0);
  ERROR(femem_remove(client, array), FEMEM_OK);
  ERROR(femem_bye_within(client, 60000), FEMEM_OK);
  femem_close(client);
}

/* ---- stops ---- */

static struct shared {
  volatile int stop;
  volatile uint64_t counts[RAISERS], reconnects[RAISERS];
  volatile femem_error errors[RAISERS];
  uint64_t values[RAISERS][MOST_RAISES];
} *shared;

static void raise_count(int raiser, uint64_t array) {
  femem *client = opened(100 + (uint64_t)raiser, &usual);
  uint64_t count = 0;
  femem_error error = FEMEM_OK;
  while (!shared->stop && count < MOST_RAISES && error == FEMEM_OK) {
    error = femem_int_fetch_add(client, array, 0, 1, &shared->values[raiser][count]);
    if (error == FEMEM_OK) shared->counts[raiser] = ++count;
  }
  shared->reconnects[raiser] = femem_reconnects(client);
  shared->errors[raiser] = error;
  femem_bye(client);
  femem_close(client);
  _exit(0);
}

static int ascending(const void *one, const void *other) {
  uint64_t a = *(const uint64_t *)one, b = *(const uint64_t *)other;
  return (a > b) - (a < b);
}

/* The values that the raisers got are 0 to one less than the end, each once. */
static void check_values(uint64_t end) {
  static uint64_t all[RAISERS * MOST_RAISES];
  uint64_t count = 0;
  for (int raiser = 0; raiser < RAISERS; raiser++)
    for (uint64_t i = 0; i < shared->counts[raiser]; i++) all[count++] = shared->values[raiser][i];
  qsort(all, count, sizeof *all, ascending);
  bool exact = count == end;
  for (uint64_t i = 0; i < count; i++) exact = exact && all[i] == i;
  CHECK(exact);
}

/* Four processes raise one counter while the server is killed and restarted. */
static void kills(void) {
  femem *client = opened(7, &usual);
  uint64_t array = 0, end = 0, reconnects = 0;
  ERROR(femem_create(client, "kills", 1, true, &array), FEMEM_OK);
  pid_t raisers[RAISERS];
  fflush(stdout);
  for (int raiser = 0; raiser < RAISERS; raiser++)
    if ((raisers[raiser] = fork()) == 0) raise_count(raiser, array);
  for (int round = 0; round < KILLS; round++) {
    pause_for(400);
    stop_server();
    start_server();
  }
  pause_for(400);
  shared->stop = 1;
  for (int raiser = 0; raiser < RAISERS; raiser++) {
    waitpid(raisers[raiser], NULL, 0);
    ERROR(shared->errors[raiser], FEMEM_OK);
    CHECK(shared->counts[raiser] > 0);
    reconnects += shared->reconnects[raiser];
  }
  CHECK(reconnects > 0);
  ERROR(femem_readxx(client, array, 0, &end), FEMEM_OK);
  check_values(end);
  printf("%llu raises by %d processes over %d kills, %llu connections made again\n", (unsigned long long)end, RAISERS,
         KILLS, (unsigned long long)reconnects);
  ERROR(femem_bye_within(client, 60000), FEMEM_OK);
  femem_close(client);
}

/* The server does not keep a waiting request over a stop: the client sends it again. */
static void waiting(void) {
  femem *client = opened(7, &usual), *other = opened(8, &usual);
  uint64_t array = 0, number = 0;
  femem_answer answer;
  ERROR(femem_create(client, "waiting", 1, false, &array), FEMEM_OK);
  ERROR(femem_send_readfe(client, array, 0, &number), FEMEM_OK);
  ERROR(femem_next(client, &answer, 100), FEMEM_TIMEOUT);
  stop_server();
  start_server();
  ERROR(femem_next(client, &answer, 300), FEMEM_TIMEOUT);
  ERROR(femem_writeef(other, array, 0, 77), FEMEM_OK);
  ERROR(femem_wait(client, number, &answer, 60000), FEMEM_OK);
  CHECK(answer.value == 77 && answer.number == number);
  CHECK(femem_reconnects(client) == 1 && femem_reconnects(other) == 1);
  ERROR(femem_bye_within(other, 60000), FEMEM_OK);
  femem_close(other);

  femem *brief = opened(9, &(femem_settings){.wait = 5000, .reconnect = 300});
  femem *plain = opened(10, &(femem_settings){.wait = 60000, .reconnect = FEMEM_NEVER});
  stop_server();
  uint64_t value;
  ERROR(femem_readxx(brief, array, 0, &value), FEMEM_UNREACHABLE);
  ERROR(femem_readxx(plain, array, 0, &value), FEMEM_DISCONNECTED);
  start_server();
  ERROR(femem_reconnect(plain, 60000), FEMEM_OK);
  ERROR(femem_wait(plain, femem_number(plain), &answer, 60000), FEMEM_OK);
  CHECK(answer.value == 77);
  femem_close(brief);
  femem_close(plain);
  femem_close(client);
}

int main(int count, char **words_given) {
  shared = mmap(NULL, sizeof *shared, PROT_READ | PROT_WRITE, MAP_SHARED | MAP_ANONYMOUS, -1, 0);
  if (shared == MAP_FAILED || !begin_real("check_server", count, words_given)) return 2;
  words();
  pipelines();
  batches();
  out_of_time();
  in_the_way();
  forked();
  kills();
  waiting();
  return end_real();
}
