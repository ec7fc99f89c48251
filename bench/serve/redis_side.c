/* The side of load.c for Redis: a counter is a key, a place is a list. Unlike in femem, a request that is sent again
   may take effect twice. Redis does not wait with a PUT, so load.c keeps producers from running away. */
#include "side.h"

#include <errno.h>
#include <fcntl.h>
#include <poll.h>
#include <stdio.h>
#include <stdlib.h>
#include <string.h>
#include <sys/socket.h>
#include <sys/un.h>
#include <unistd.h>

const char *side_name = "redis";

typedef struct line {
  int descriptor;
  uint64_t asked, told;  /* replies come in the order of the requests */
  enum action kinds[64];
  size_t input_end, output_begin, output_end;
  char input[16384], output[8192];
} line;

static line lines[MOST_CLIENTS];
static int count;

static bool write_all(line *to) {
  while (to->output_begin < to->output_end) {
    ssize_t size = send(to->descriptor, to->output + to->output_begin, to->output_end - to->output_begin, MSG_NOSIGNAL);
    if (size < 0 && (errno == EAGAIN || errno == EINTR)) {
      poll(&(struct pollfd){.fd = to->descriptor, .events = POLLOUT}, 1, 1000);
      continue;
    }
    if (size <= 0) {
      fail("redis: write: %s", strerror(errno));
      return false;
    }
    to->output_begin += (size_t)size;
  }
  to->output_begin = to->output_end = 0;
  return true;
}

static void put(line *to, const char *format, unsigned place, unsigned long long value) {
  if (sizeof to->output - to->output_end < 256) write_all(to);
  size_t room = sizeof to->output - to->output_end;
  to->output_end += (size_t)snprintf(to->output + to->output_end, room, format, place, value);
}

/* Reads a reply's number at the start of the bytes. Returns its size, 0 if more bytes must come, -1 for an error. */
static int read_reply(const char *bytes, size_t size, uint64_t *value) {
  const char *end = memchr(bytes, '\n', size);
  if (!end) return 0;
  int head = (int)(end - bytes) + 1;
  if (bytes[0] == '+') return head;
  if (bytes[0] == ':') {
    *value = strtoull(bytes + 1, NULL, 10);
    return head;
  }
  if (bytes[0] == '$') {
    long length = strtol(bytes + 1, NULL, 10);
    if (length < 0) return head;
    if (size < (size_t)head + (size_t)length + 2) return 0;
    *value = strtoull(bytes + head, NULL, 10);
    return head + (int)length + 2;
  }
  if (bytes[0] != '*') return -1;
  int at = head;
  for (long parts = strtol(bytes + 1, NULL, 10); parts > 0; parts--) {
    int part = at < (int)size ? read_reply(bytes + at, size - (size_t)at, value) : 0;
    if (part <= 0) return part;
    at += part;
  }
  return at;
}

static bool receive(line *from) {
  ssize_t size = recv(from->descriptor, from->input + from->input_end, sizeof from->input - from->input_end - 1, 0);
  if (size < 0 && (errno == EAGAIN || errno == EINTR)) return true;
  if (size <= 0) {
    fail("redis: the connection ended");
    return false;
  }
  from->input_end += (size_t)size;
  from->input[from->input_end] = 0;
  return true;
}

/* Sends one command and waits for its reply. */
static uint64_t call(line *with, const char *command) {
  uint64_t value = 0;
  put(with, command, 0, 0);
  if (!write_all(with)) return 0;
  for (;;) {
    poll(&(struct pollfd){.fd = with->descriptor, .events = POLLIN}, 1, 10000);
    if (!receive(with)) return 0;
    int size = read_reply(with->input, with->input_end, &value);
    if (size < 0) fail("redis: %.60s", with->input);
    if (size == 0) continue;
    with->input_end = 0;
    return value;
  }
}

bool side_open(const char *path, int wanted, bool counters) {
  (void)counters;
  struct sockaddr_un address = {.sun_family = AF_UNIX};
  snprintf(address.sun_path, sizeof address.sun_path, "%s", path);
  for (; count < wanted; count++) {
    int descriptor = lines[count].descriptor = socket(AF_UNIX, SOCK_STREAM, 0);
    if (descriptor < 0 || connect(descriptor, (struct sockaddr *)&address, sizeof address)) {
      fail("redis: connect: %s", strerror(errno));
      return false;
    }
    fcntl(descriptor, F_SETFL, O_NONBLOCK);
  }
  call(&lines[0], "*1\r\n$8\r\nFLUSHALL\r\n");
  return true;
}

int side_descriptor(int client) { return lines[client].descriptor; }

bool side_ask(int client, enum action action, uint32_t place, uint64_t value, uint64_t *id) {
  static const char *const commands[] = {
    "*2\r\n$4\r\nINCR\r\n$5\r\ncnt%02u\r\n",
    "*3\r\n$5\r\nLPUSH\r\n$5\r\nlst%02u\r\n$20\r\n%020llu\r\n",
    "*3\r\n$5\r\nBLPOP\r\n$5\r\nlst%02u\r\n$1\r\n0\r\n",
  };
  line *to = &lines[client];
  to->kinds[to->asked % 64] = action;
  *id = to->asked++;
  put(to, commands[action], place, (unsigned long long)value);
  return true;
}

void side_flush(int client) { write_all(&lines[client]); }

void side_receive(int client) {
  line *from = &lines[client];
  if (!receive(from)) return;
  size_t at = 0;
  while (at < from->input_end) {
    uint64_t value = 0;
    int size = read_reply(from->input + at, from->input_end - at, &value);
    if (size < 0) fail("redis: %.60s", from->input + at);
    if (size <= 0) break;
    at += (size_t)size;
    uint64_t id = from->told++;
    answered(client, id, from->kinds[id % 64] == ADD ? value - 1 : value);
  }
  memmove(from->input, from->input + at, from->input_end - at);
  from->input_end -= at;
}

uint64_t side_counter(uint32_t place) {
  char command[64];
  snprintf(command, sizeof command, "*2\r\n$3\r\nGET\r\n$5\r\ncnt%02u\r\n", (unsigned)place);
  return call(&lines[0], command);
}

void side_close(void) {
  for (int i = 0; i < count; i++) close(lines[i].descriptor);
}
