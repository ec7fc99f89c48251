/* What only looks: reports, which need no session, and what `femem look` shows of the store. */
#define _POSIX_C_SOURCE 200809L
#include "looks.h"

#include <errno.h>
#include <inttypes.h>
#include <stdlib.h>
#include <string.h>
#include <sys/socket.h>
#include <sys/time.h>
#include <sys/un.h>
#include <sys/wait.h>
#include <unistd.h>

/* ---- reports ---- */

enum { REPORT = 9, REPORTED = 71, LONGEST_REPORT = 262144 };

static bool read_all(int from, uint8_t *to, size_t size) {
  for (size_t at = 0; at < size;) {
    ssize_t count = recv(from, to + at, size - at, 0);
    if (count <= 0) return false;
    at += (size_t)count;
  }
  return true;
}

/* Reads a report's frame (docs/formats.md, "Frames"). NULL if there is none. */
static char *receive_report(int line) {
  const uint8_t ask[] = {0, 0, 0, 1, REPORT};
  uint8_t head[5];
  if (send(line, ask, sizeof ask, MSG_NOSIGNAL) != sizeof ask || !read_all(line, head, sizeof head)) return NULL;
  size_t length = (size_t)head[0] << 24 | (size_t)head[1] << 16 | (size_t)head[2] << 8 | head[3];
  if (head[4] != REPORTED || length < 2 || length > LONGEST_REPORT + 1) return NULL;
  char *text = calloc(1, length);
  if (text && read_all(line, (uint8_t *)text, length - 1)) return text;
  free(text);
  return NULL;
}

/* Connects to the server, if it is away until it is back. Its errno, or 0. */
static int connect_to(command_line *cli, int line, const struct sockaddr_un *address) {
  int64_t began = now();
  while (connect(line, (const struct sockaddr *)address, sizeof *address) != 0)
    if (!tries_again(cli, errno, began)) return errno;
  return 0;
}

int get_report(command_line *cli, char **text) {
  const char *path = cli->given.socket;
  struct sockaddr_un address = {.sun_family = AF_UNIX};
  if (strlen(path) >= sizeof address.sun_path) return fail(cli, USAGE, "%s is no path of a socket", path);
  memcpy(address.sun_path, path, strlen(path));
  int line = socket(AF_UNIX, SOCK_STREAM, 0);
  int64_t most = cli->given.reconnect > 0 ? cli->given.reconnect : 1000;
  struct timeval limit = {.tv_sec = (time_t)(most / 1000), .tv_usec = (suseconds_t)(most % 1000 * 1000)};
  *text = NULL;
  bool is_made = line >= 0 && setsockopt(line, SOL_SOCKET, SO_RCVTIMEO, &limit, sizeof limit) == 0;
  int why = is_made ? connect_to(cli, line, &address) : errno;
  if (why == 0) *text = receive_report(line);
  if (line >= 0) close(line);
  if (why) return fail_to_reach(cli, why);
  return *text ? DONE : fail(cli, NO_SERVER, "%s: no report came", path);
}

bool next_waiter(const char **at, waiter *found) {
  for (const char *line = *at; line && *line; line = *at) {
    const char *end = strchr(line, '\n');
    *at = end ? end + 1 : line + strlen(line);
    if (sscanf(line, "word %" SCNu64 " %" SCNu32 " session %" SCNu64 " number %" SCNu64 " %15[a-z_]", &found->array,
               &found->index, &found->session, &found->number, found->operation) == 5)
      return true;
  }
  return false;
}

int do_report(command_line *cli, char **words, int count) {
  (void)words, (void)count;
  char *text;
  int status = get_report(cli, &text);
  if (status) return status;
  if (!cli->given.json) {
    text[strlen(text) - 1] = 0;
    status = say_text(cli, text);
    free(text);
    return status;
  }
  const char *at = text, *between = "";
  waiter next;
  printf("{\"waiters\": [");
  for (; next_waiter(&at, &next); between = ", ")
    printf("%s{\"array\": %" PRIu64 ", \"index\": %" PRIu32 ", \"session\": %" PRIu64 ", \"number\": %" PRIu64
           ", \"operation\": \"%s\"}", between, next.array, next.index, next.session, next.number, next.operation);
  printf("], \"all_wait\": %s}", strstr(text, "\nall-wait yes\n") ? "true" : "false");
  free(text);
  return said(cli);
}

/* ---- the store ---- */

/* Runs `femem look`. Its output, or NULL. */
static FILE *begin_look(const command_line *cli, pid_t *process) {
  int ends[2];
  if (pipe(ends)) return NULL;
  fflush(NULL);
  *process = fork();
  if (*process == 0) {
    dup2(ends[1], 1);
    close(ends[0]);
    close(ends[1]);
    execlp(cli->given.program, cli->given.program, "look", "--store", cli->given.store, (char *)NULL);
    _exit(fail(cli, NOT_FOUND, "%s: %s (--program names another one)", cli->given.program, strerror(errno)));
  }
  close(ends[1]);
  FILE *output = *process < 0 ? NULL : fdopen(ends[0], "r");
  if (!output) close(ends[0]);
  return output;
}

static bool parse_line(look *seen, const char *line) {
  array found = {0};
  kept other = {0};
  if (sscanf(line, "place %" SCNu64, &seen->place) == 1) return true;
  if (sscanf(line, "array %" SCNu64 " %32[a-z0-9_] %" SCNu32, &found.id, found.name, &found.length) == 3) {
    if (seen->arrays < MOST) seen->array[seen->arrays++] = found;
    return true;
  }
  if (sscanf(line, "session %" SCNu64 " floor %*u kept %" SCNu64, &other.session, &other.answers) != 2) return false;
  if (seen->sessions < MOST) seen->session[seen->sessions++] = other;
  return true;
}

int get_look(command_line *cli, look *seen) {
  char line[200];
  pid_t process;
  int status = 0;
  *seen = (look){0};
  FILE *output = begin_look(cli, &process);
  if (!output) return fail(cli, FAULT, "%s", strerror(errno));
  while (fgets(line, sizeof line, output)) parse_line(seen, line);
  fclose(output);
  while (waitpid(process, &status, 0) < 0 && errno == EINTR) continue;
  if (WIFEXITED(status) && WEXITSTATUS(status) == 0) return DONE;
  return fail(cli, FAULT, "%s can't be read: its owner and root may do it, and --store names another one",
              cli->given.store);
}

int do_arrays(command_line *cli, char **words, int count) {
  (void)words, (void)count;
  look seen;
  int status = get_look(cli, &seen);
  const char *line = cli->given.json ? "{\"name\": \"%s\", \"array\": %" PRIu64 ", \"length\": %" PRIu32 "}"
                                     : "%s array %" PRIu64 " length %" PRIu32;
  for (int i = 0; i < seen.arrays && status == DONE; i++) {
    printf(line, seen.array[i].name, seen.array[i].id, seen.array[i].length);
    status = said(cli);
  }
  return status;
}

int do_sessions(command_line *cli, char **words, int count) {
  (void)words, (void)count;
  look seen;
  char *text;
  int status = get_look(cli, &seen);
  if (status == DONE) status = get_report(cli, &text);
  if (status) return status;
  const char *line = cli->given.json ? "{\"session\": %" PRIu64 ", \"kept\": %" PRIu64 ", \"waiting\": %" PRIu64 "}"
                                     : "session %" PRIu64 " kept %" PRIu64 " waiting %" PRIu64;
  for (int i = 0; i < seen.sessions && status == DONE; i++) {
    const char *at = text;
    uint64_t waiting = 0;
    for (waiter next; next_waiter(&at, &next);) waiting += next.session == seen.session[i].session;
    printf(line, seen.session[i].session, seen.session[i].answers, waiting);
    status = said(cli);
  }
  free(text);
  return status;
}
