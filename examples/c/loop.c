/* Adds the numbers of a pipe to a sum that several programs share: `loop SOCKET SESSION < PIPE`, in pieces of eight bytes. One poll
   waits for the pipe and for the server, which may be away: no other call waits. A line for each number: it, and the sum before. */
#include <femem.h>
#include <inttypes.h>
#include <poll.h>
#include <stdio.h>
#include <stdlib.h>
#include <unistd.h>

enum { MOST = 32 };

static void say(void *context, const char *line) { fprintf(context, "loop: %s\n", line); }

static void fail(femem_error error) { exit((fprintf(stderr, "loop: %s\n", femem_error_text(error)), 1)); }

int main(int count, char **given) {
  femem *client;
  femem_settings settings = FEMEM_SETTINGS_DEFAULT;
  if (count != 3) return 2;
  femem_error error = femem_open_begin(&client, given[1], strtoull(given[2], NULL, 10), &settings);
  if (error) fail(error);
  femem_log(client, say, stderr);
  femem_request ask = {.operation = FEMEM_CREATE, .name = "sum", .name_length = 3, .length = 1, .full = true};
  uint64_t array = 0, added[MOST], next = 0; /* next: a number that was read and not sent */
  unsigned sent = 0, taken = 0;
  bool asks = true, has_next = false, ends = false;
  while (!ends || has_next || asks || femem_out(client) > 0) {
    bool reads = array && !has_next && !ends;
    struct pollfd both[] = {{femem_descriptor(client), POLLIN, 0}, {reads ? 0 : -1, POLLIN, 0}};
    if (femem_wants_write(client)) both[0].events |= POLLOUT;
    poll(both, 2, femem_poll_time(client));
    error = femem_poll(client);
    if (error && error != FEMEM_TIMEOUT) fail(error);
    if (reads && both[1].revents) {
      has_next = read(0, &next, sizeof next) == sizeof next;
      ends = !has_next;
    }
    for (femem_answer answer; femem_next(client, &answer, 0) == FEMEM_OK;) {
      if (array) printf("%" PRIu64 " %" PRIu64 "\n", added[taken++ % MOST], answer.value);
      else if (answer.error == FEMEM_NAME_TAKEN) ask.operation = FEMEM_FIND, asks = true;
      else if (answer.error) fail(answer.error);
      else array = answer.array;
    }
    if (asks) asks = femem_send(client, &ask, NULL) != FEMEM_OK;
    if (has_next && sent - taken < MOST && femem_send_int_fetch_add(client, array, 0, next, NULL) == FEMEM_OK) {
      added[sent++ % MOST] = next;
      has_next = false;
    }
    fflush(stdout);
  }
  femem_bye(client); /* waits for a second at most */
  femem_close(client);
}
