/* The side of load.c for femem, with clients/c. The client settles by itself, after every 16 answers. */
#include "../../clients/c/femem.h"
#include "side.h"

#include <time.h>
#include <unistd.h>

const char *side_name = "femem";

static femem *clients[MOST_CLIENTS];
static int count;
static uint64_t array;

static bool is_ok(const char *what, femem_error error) {
  if (error) fail("%s: %s", what, femem_error_text(error));
  return error == FEMEM_OK;
}

bool side_open(const char *path, int wanted, bool counters) {
  struct timespec time;
  clock_gettime(CLOCK_REALTIME, &time);
  uint64_t session = ((uint64_t)time.tv_sec << 20 ^ (uint64_t)getpid()) << 20;
  femem_settings settings = {.wait = 10000};
  for (; count < wanted; count++)
    if (!is_ok("open", femem_open(&clients[count], path, session + (uint64_t)count, &settings))) return false;
  femem_error error = femem_create(clients[0], "load", MOST_CLIENTS, counters, &array);
  if (error != FEMEM_NAME_TAKEN) return is_ok("create", error);
  /* An interrupted load may have left it. */
  return is_ok("find", femem_find(clients[0], "load", &array, NULL)) &&
         is_ok("remove", femem_remove(clients[0], array)) &&
         is_ok("create", femem_create(clients[0], "load", MOST_CLIENTS, counters, &array));
}

int side_descriptor(int client) { return femem_descriptor(clients[client]); }

bool side_ask(int client, enum action action, uint32_t place, uint64_t value, uint64_t *id) {
  static const femem_operation operations[] = {FEMEM_INT_FETCH_ADD, FEMEM_WRITEEF, FEMEM_READFE};
  femem_request request = {.operation = operations[action], .array = array, .index = place, .operand = value};
  if (action == ADD) request.operand = 1;
  femem_error error = femem_send(clients[client], &request, id);
  return error != FEMEM_WINDOW_FULL && is_ok("send", error);
}

void side_flush(int client) { is_ok("flush", femem_flush(clients[client])); }

void side_receive(int client) {
  femem_answer answer;
  femem_error error = femem_next(clients[client], &answer, 0);
  if (error == FEMEM_TIMEOUT || error == FEMEM_NOTHING_OUT) return;
  if (!is_ok("next", error)) return;
  for (;;) {
    if (!is_ok("answer", answer.error)) return;
    answered(client, answer.number, answer.value);
    if (femem_ready(clients[client]) == 0) return;
    femem_next(clients[client], &answer, 0);
  }
}

uint64_t side_counter(uint32_t place) {
  uint64_t value = 0;
  is_ok("readxx", femem_readxx(clients[0], array, place, &value));
  return value;
}

void side_close(void) {
  is_ok("remove", femem_remove(clients[0], array));
  for (int i = 0; i < count; i++) {
    is_ok("bye", femem_bye(clients[i]));
    femem_close(clients[i]);
  }
}
