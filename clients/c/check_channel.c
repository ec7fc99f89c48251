/* A channel with a real server: check_channel PROGRAM. First its calls, then two putters and two takers that are killed
   again and again, in turns with their server: each value that was put is taken once. It ends within five minutes, with
   status 0 if all is right. */
#define _GNU_SOURCE
#include "real.h"

#include <sys/mman.h>

enum { PUTTERS = 2, TAKERS = 2, WORKERS = PUTTERS + TAKERS, EACH = 1000, VALUES = PUTTERS * EACH, KILLS = 60 };

/* A worker may begin while the server is restarted. */
static const femem_settings any_time = {.wait = 60000, .reconnect = 60000, .wait_for_server = true};

static femem_channel *channel_opened(femem *client, const char *name) {
  femem_channel *channel;
  femem_error error = femem_channel_open(&channel, client, name);
  if (error) give_up(femem_error_text(error));
  return channel;
}

/* ---- calls ---- */

/* A put waits until the value before it was taken, a take until there is a value; late calls have not happened. */
static void waits(femem_channel *channel) {
  uint64_t value = 9;
  ERROR(femem_channel_take(channel, &value, NULL, 0), FEMEM_WITHDRAWN);
  ERROR(femem_channel_take(channel, &value, NULL, 50), FEMEM_WITHDRAWN);
  ERROR(femem_channel_put(channel, UINT64_MAX, NULL, 0), FEMEM_OK);
  ERROR(femem_channel_put(channel, 2, NULL, 0), FEMEM_WITHDRAWN);
  ERROR(femem_channel_put(channel, 3, NULL, 50), FEMEM_WITHDRAWN);
  CHECK(value == 9);
  ERROR(femem_channel_take(channel, &value, NULL, 0), FEMEM_OK);
  CHECK(value == UINT64_MAX);
  ERROR(femem_channel_take(channel, &value, NULL, 50), FEMEM_WITHDRAWN);
}

/* Another program's value ends a take's wait, and its take a put's; a restart of the server does neither. */
static void passes(femem *parents, femem_channel *channel) {
  fflush(stdout);
  pid_t child = fork();
  if (child == 0) {
    femem_channel_close(channel);
    femem_close(parents);
    femem *client = opened(8, &usual);
    femem_channel *other = channel_opened(client, "calls");
    uint64_t value = 0;
    bool right = femem_channel_take(other, &value, NULL, 20000) == FEMEM_OK && value == 11 &&
                 femem_channel_take(other, &value, NULL, 20000) == FEMEM_OK && value == 12;
    femem_channel_close(other);
    bool ended = femem_bye_within(client, 60000) == FEMEM_OK;
    femem_close(client);
    _exit(right && ended ? 0 : 1);
  }
  pause_for(300);
  stop_server();
  start_server();
  pause_for(300);
  int status = 1;
  CHECK(waitpid(child, &status, WNOHANG) == 0);
  ERROR(femem_channel_put(channel, 11, NULL, 20000), FEMEM_OK);
  ERROR(femem_channel_put(channel, 12, NULL, 20000), FEMEM_OK);
  waitpid(child, &status, 0);
  CHECK(WIFEXITED(status) && WEXITSTATUS(status) == 0);
}

static void arguments(femem *client, femem_channel *channel) {
  femem_channel *other;
  uint64_t array, value;
  ERROR(femem_create(client, "two", 2, false, &array), FEMEM_OK);
  ERROR(femem_channel_open(&other, client, "two"), FEMEM_BAD_CALL);
  ERROR(femem_channel_open(&other, client, "A"), FEMEM_BAD_NAME);
  ERROR(femem_channel_open(&other, client, ""), FEMEM_BAD_NAME);
  ERROR(femem_channel_open(&other, client, "a_name_of_more_than_thirty_two_bytes"), FEMEM_BAD_NAME);
  CHECK(!other);
  femem_channel_close(other);
  ERROR(femem_channel_put(channel, 1, "key", 0), FEMEM_BAD_CALL); /* it has no session file */
  ERROR(femem_channel_take(channel, &value, "key", 0), FEMEM_BAD_CALL);
  const femem_settings resuming = {.wait = 60000, .reconnect = 60000, .resume = true};
  femem *second = opened(9, &resuming);
  ERROR(femem_channel_open(&other, second, "calls"), FEMEM_BAD_CALL);
  ERROR(femem_bye_within(second, 60000), FEMEM_OK);
  femem_close(second);
  other = channel_opened(client, "gone");
  ERROR(femem_find(client, "gone", &array, NULL), FEMEM_OK);
  ERROR(femem_remove(client, array), FEMEM_OK);
  ERROR(femem_channel_put(other, 1, NULL, 20000), FEMEM_NO_ARRAY);
  ERROR(femem_channel_take(other, &value, NULL, 20000), FEMEM_NO_ARRAY);
  femem_channel_close(other);
}

/* A child's copy of the channel does nothing. */
static void forks(femem *client, femem_channel *channel) {
  fflush(stdout);
  pid_t child = fork();
  if (child == 0) {
    uint64_t value;
    femem_channel *other;
    bool told = femem_channel_put(channel, 1, NULL, 0) == FEMEM_FORKED &&
                femem_channel_take(channel, &value, NULL, 0) == FEMEM_FORKED &&
                femem_channel_open(&other, client, "calls") == FEMEM_FORKED && !other;
    femem_channel_close(channel);
    femem_close(client);
    _exit(told ? 0 : 1);
  }
  int status = 1;
  waitpid(child, &status, 0);
  CHECK(WIFEXITED(status) && WEXITSTATUS(status) == 0);
}

/* A key gives its put or its take once, in the program's next life too; without one a call ends with its process. */
static void keys(void) {
  char session[100];
  snprintf(session, sizeof session, "%s/keys", folder);
  for (int life = 0; life < 3; life++) {
    femem *client;
    ERROR(femem_open_file(&client, path, session, &any_time), FEMEM_OK);
    if (!client) return;
    femem_channel *channel = channel_opened(client, "keys");
    uint64_t value = 0;
    ERROR(femem_channel_put(channel, 5, "put", 20000), FEMEM_OK);
    ERROR(femem_channel_put(channel, 6, "put", 20000), FEMEM_OTHER_REQUEST);
    ERROR(femem_channel_take(channel, &value, "take", 20000), FEMEM_OK);
    CHECK(value == 5);
    ERROR(femem_channel_take(channel, &value, "late", 50), FEMEM_WITHDRAWN);
    ERROR(femem_channel_take(channel, &value, NULL, 50), FEMEM_WITHDRAWN);
    femem_channel_close(channel);
    if (life == 2) ERROR(femem_bye_within(client, 60000), FEMEM_OK);
    femem_close(client);
  }
  unlink(session);
}

static void calls(void) {
  femem *client = opened(7, &usual);
  femem_channel *channel = channel_opened(client, "calls");
  waits(channel);
  passes(client, channel);
  arguments(client, channel);
  forks(client, channel);
  femem_channel_close(channel);
  ERROR(femem_bye_within(client, 60000), FEMEM_OK);
  femem_close(client);
  keys();
}

/* ---- kills ---- */

/* What processes that are killed have told: how far each one is, and what each taker took. */
static struct told {
  volatile uint32_t at[WORKERS];
  volatile uint64_t taken[TAKERS][VALUES];
  volatile int stop;
} *told;

static femem_error step(femem_channel *channel, int worker, uint32_t at, const char *key) {
  if (worker < PUTTERS) return femem_channel_put(channel, (uint64_t)worker * EACH + at, key, 60000);
  uint64_t value = 0;
  femem_error error = femem_channel_take(channel, &value, key, 300);
  if (error == FEMEM_OK) told->taken[worker - PUTTERS][at] = value;
  return error;
}

/* Puts or takes under keys, so that each step happens once, whatever stops in between. */
static void work(int worker) {
  char session[100], key[32];
  snprintf(session, sizeof session, "%s/worker%d", folder, worker);
  femem *client;
  femem_channel *channel;
  if (femem_open_file(&client, path, session, &any_time)) _exit(1);
  if (femem_channel_open(&channel, client, "kills")) _exit(2);
  while (worker < PUTTERS ? told->at[worker] < EACH : !told->stop) {
    uint32_t at = told->at[worker];
    snprintf(key, sizeof key, "step %u", at);
    femem_error error = step(channel, worker, at, key);
    if (error == FEMEM_WITHDRAWN) continue;
    if (error) _exit(3);
    told->at[worker] = at + 1;
    if (at > 0) snprintf(key, sizeof key, "step %u", at - 1);
    if (at > 0 && femem_forget(client, key) == FEMEM_MEMORY) _exit(4);
  }
  femem_channel_close(channel);
  femem_close(client);
  _exit(0);
}

static pid_t begin_worker(int worker) {
  fflush(stdout);
  pid_t process = fork();
  if (process != 0) return process;
  alarm(300);
  work(worker);
  return 0;
}

/* How many workers were killed at work. */
static unsigned killed;

/* Waits for a worker's end. Returns whether it was killed, or ended well. */
static bool ended_well(pid_t worker) {
  int status = 0;
  waitpid(worker, &status, 0);
  if (WIFEXITED(status) && WEXITSTATUS(status)) printf("check_channel: a worker ended with %d\n", WEXITSTATUS(status));
  killed += WIFSIGNALED(status);
  return WIFSIGNALED(status) ? WTERMSIG(status) == SIGKILL : WEXITSTATUS(status) == 0;
}

static uint32_t taken_in_all(void) {
  uint32_t count = 0;
  for (int taker = 0; taker < TAKERS; taker++) count += told->at[PUTTERS + taker];
  return count;
}

/* How often each value was taken. */
static void check_values(void) {
  static unsigned times[VALUES];
  unsigned lost = 0, twice = 0;
  for (int taker = 0; taker < TAKERS; taker++)
    for (uint32_t i = 0; i < told->at[PUTTERS + taker] && i < VALUES; i++) {
      uint64_t value = told->taken[taker][i];
      CHECK(value < VALUES);
      if (value < VALUES) times[value]++;
    }
  for (int value = 0; value < VALUES; value++) {
    lost += times[value] == 0;
    twice += times[value] > 1;
  }
  CHECK(lost == 0 && twice == 0 && taken_in_all() == VALUES);
  printf("%d values, %u kills of clients: %u taken, %u lost, %u twice\n", VALUES, killed, taken_in_all(), lost, twice);
}

static void kills(void) {
  pid_t workers[WORKERS];
  for (int i = 0; i < WORKERS; i++) workers[i] = begin_worker(i);
  unsigned count = 0;
  for (unsigned drawn = 12345; count < KILLS; count++) {
    drawn = drawn * 1103515245 + 12345;
    unsigned worker = drawn / 65536 % WORKERS;
    pause_for(20 + drawn / 65536 % 100);
    kill(workers[worker], SIGKILL);
    CHECK(ended_well(workers[worker]));
    workers[worker] = begin_worker((int)worker);
    if (count % 8 != 7) continue;
    stop_server();
    start_server();
  }
  for (int i = 0; i < PUTTERS; i++) CHECK(ended_well(workers[i]));
  for (int tries = 0; tries < 600 && taken_in_all() < VALUES; tries++) pause_for(50);
  pause_for(500);
  told->stop = 1;
  for (int i = PUTTERS; i < WORKERS; i++) CHECK(ended_well(workers[i]));
  CHECK(killed >= KILLS / 3);
  check_values();
  char name[100];
  for (int i = 0; i < WORKERS; i++) {
    snprintf(name, sizeof name, "%s/worker%d", folder, i);
    unlink(name);
  }
}

int main(int count, char **words_given) {
  told = mmap(NULL, sizeof *told, PROT_READ | PROT_WRITE, MAP_SHARED | MAP_ANONYMOUS, -1, 0);
  if (told == MAP_FAILED || !begin_real("check_channel", count, words_given)) return 2;
  calls();
  kills();
  return end_real();
}
