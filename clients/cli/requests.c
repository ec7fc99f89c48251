/* Requests that can be given up. */
#define _POSIX_C_SOURCE 200809L
#include "cli.h"

#include <poll.h>
#include <string.h>

/* Milliseconds after which a waiting client looks after its connection. The server may read the attach of a connection that
   was given up after that of the next one, and does not say so: then the library has to listen for QUIET to notice it, and
   the session is taken back within BACK, TAKEN_BACK times at most. */
enum { AGAIN = 1000, QUIET = 3200, BACK = 5000, TAKEN_BACK = 4 };

/* Waits until something has come from the server, it is time to give up, or the time is over. */
static void wait_for_bytes(command_line *cli, int64_t rest) {
  struct pollfd both[] = {{.fd = femem_descriptor(cli->client), .events = POLLIN}, {.fd = cli->stop, .events = POLLIN}};
  int time = rest < 0 || rest > AGAIN ? AGAIN : (int)rest;
  if (poll(both, 2, time) > 0 && both[1].revents) cli->stopped = true;
}

/* Whether the server may be back later. */
static bool is_passing(femem_error error) {
  return error == FEMEM_UNREACHABLE || error == FEMEM_TIMEOUT || error == FEMEM_DISCONNECTED;
}

static femem_error wait_for(command_line *cli, uint64_t number, int64_t end, femem_answer *answer) {
  int64_t lost = -1, listen = 0;
  for (int back = 0;;) {
    femem_error error = femem_wait(cli->client, number, answer, listen);
    listen = 0;
    if (error == FEMEM_REFUSED_NOT_ATTACHED && back-- > 0) {
      error = femem_reconnect(cli->client, BACK);
      listen = QUIET;
      if (error == FEMEM_OK) continue;
    }
    bool is_lost = is_passing(error) && femem_descriptor(cli->client) < 0;
    if (error != FEMEM_TIMEOUT && !is_lost) return error ? error : answer->error;
    bool connected = femem_descriptor(cli->client) >= 0;
    if (cli->stopped || left(end) == 0) break;
    if (connected) {
      lost = -1;
      wait_for_bytes(cli, left(end));
      continue;
    }
    if (lost < 0) lost = moment(cli->given.reconnect);
    int64_t rest = left(end);
    error = femem_reconnect(cli->client, rest < 0 || rest > AGAIN ? AGAIN : rest);
    if (error == FEMEM_TIMEOUT) back = TAKEN_BACK;
    if (error == FEMEM_OK && back > 0) listen = rest < 0 || rest > QUIET ? QUIET : rest;
    if (error && (!is_passing(error) || left(lost) == 0)) return error;
    if (nap(cli->stop, 0)) cli->stopped = true;
  }
  return femem_descriptor(cli->client) >= 0 ? femem_cancel(cli->client, number, answer) : FEMEM_UNREACHABLE;
}

femem_error make_request(command_line *cli, femem_request request, femem_answer *answer) {
  if (cli->given.key) return femem_once_within(cli->client, cli->given.key, &request, cli->given.timeout, answer);
  request.no_wait = cli->given.no_wait && request.operation >= FEMEM_READFE;
  int64_t end = moment(cli->given.timeout);
  uint64_t number;
  femem_error error = femem_send(cli->client, &request, &number);
  return error ? error : wait_for(cli, number, end, answer);
}

femem_request on_word(femem_operation operation, uint64_t array, uint32_t index, uint64_t operand, bool no_wait) {
  return (femem_request){.operation = operation, .array = array, .index = index, .operand = operand,
                         .no_wait = no_wait};
}

femem_error shared_array(command_line *cli, const char *name, uint32_t length, bool full, uint64_t *array) {
  for (;;) {
    uint32_t found;
    femem_error error = femem_find(cli->client, name, array, &found);
    if (error == FEMEM_OK) return found == length ? FEMEM_OK : FEMEM_BAD_CALL;
    if (error == FEMEM_NO_ARRAY) error = femem_create(cli->client, name, length, full, array);
    if (error != FEMEM_NAME_TAKEN) return error;
  }
}
