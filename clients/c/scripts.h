/* Scripted servers: each is its own process, which ends with status 1 if the client deviates from the script. */
#ifndef SCRIPTS_H
#define SCRIPTS_H

#include "testing.h"

#include <sys/resource.h>
#include <sys/socket.h>
#include <sys/un.h>
#include <sys/wait.h>
#include <time.h>
#include <unistd.h>

static char folder[] = "/tmp/femem_test_XXXXXX", path[64];

/* Microseconds. */
static inline int64_t moment_now(void) {
  struct timespec time;
  clock_gettime(CLOCK_MONOTONIC, &time);
  return (int64_t)time.tv_sec * 1000000 + time.tv_nsec / 1000;
}

static inline void rest(long microseconds) {
  nanosleep(&(struct timespec){microseconds / 1000000, microseconds % 1000000 * 1000}, NULL);
}

static inline void say_bytes(int line, const uint8_t *bytes, size_t count) {
  for (size_t at = 0; at < count;) {
    ssize_t size = send(line, bytes + at, count - at, MSG_NOSIGNAL);
    if (size <= 0) _exit(0); /* the client has hung up */
    at += (size_t)size;
  }
}

static inline void say(int line, const char *hex) {
  uint8_t bytes[512];
  say_bytes(line, bytes, bytes_of(hex, bytes));
}

static inline void hear(int line, const char *hex) {
  uint8_t due[4096], got[4096];
  size_t count = bytes_of(hex, due), at = 0;
  while (at < count) {
    ssize_t size = recv(line, got + at, count - at, 0);
    if (size <= 0) break;
    at += (size_t)size;
  }
  if (at == count && memcmp(due, got, count) == 0) return;
  printf("%s: heard", test);
  for (size_t i = 0; i < at; i++) printf(" %02x", got[i]);
  printf(" where this is due: %s\n", hex);
  fflush(stdout);
  _exit(1);
}

/* Nothing more comes before something is said. */
static inline void hear_nothing(int line) {
  uint8_t byte;
  rest(100000);
  if (recv(line, &byte, 1, MSG_DONTWAIT) >= 0) _exit(1);
}

static inline void hear_end(int line) {
  uint8_t byte;
  if (recv(line, &byte, 1, 0) != 0) _exit(1);
}

/* Welcomes a resuming client at floor 1, where its numbers begin. */
static inline void welcome(int line) {
  hear(line, ATTACH_7);
  say(line, WELCOME_7);
}

typedef void (*script)(int listener);

static inline int take_line(int listener) {
  int line = accept(listener, NULL, NULL);
  if (line < 0) _exit(1);
  return line;
}

/* Starts a script on the socket at `path`. Returns its process. */
static inline pid_t begin(script run) {
  unlink(path);
  int listener = socket(AF_UNIX, SOCK_STREAM, 0);
  struct sockaddr_un address = {.sun_family = AF_UNIX};
  strcpy(address.sun_path, path);
  if (bind(listener, (struct sockaddr *)&address, sizeof address) || listen(listener, 8)) abort();
  fflush(stdout);
  pid_t child = fork();
  if (child == 0) {
    alarm(100);
    run(listener);
    _exit(0);
  }
  close(listener);
  return child;
}

/* Checks that the script came to its end. */
static inline void end(pid_t child, int line) {
  int status = 0;
  waitpid(child, &status, 0);
  check(WIFEXITED(status) && WEXITSTATUS(status) == 0, "the server heard what was due", line);
}
#define END(child) end(child, __LINE__)

/* ---- frames with numbers ---- */

/* Scripts with these count from 1, as does a program that resumes. The numbers of other programs begin `below` higher,
   above the 32 that the session may have used. */
static unsigned below;

static inline void said(int line, const char *form, unsigned number) {
  char hex[200];
  snprintf(hex, sizeof hex, form, below + number, number);
  say(line, hex);
}

static inline void heard(int line, const char *form, unsigned number) {
  char hex[200];
  snprintf(hex, sizeof hex, form, below + number);
  hear(line, hex);
}

static const char read_of[] = "0000001e 05 %016x 10 0000000000000001 00000000 0000000000000000";
static const char add_of[] = "0000001e 05 %016x 17 0000000000000001 00000000 0000000000000001";
static const char cancel_of[] = "00000009 06 %016x";
static const char settle_of[] = "00000009 07 %016x";
static const char withdrawn_of[] = "00000009 43 %016x";
static const char not_waiting_of[] = "0000000a 46 %016x 0a";
static const char settled_of[] = "00000009 44 %016x";
static const char value_of[] = "00000016 42 %016x 01 %016x 00000000"; /* its value is the script's number */

/* Sends several in one piece, so that the client reads all of them or none. */
static inline void said_all(int line, const char *form, unsigned first, unsigned last) {
  uint8_t bytes[1024];
  size_t count = 0;
  for (unsigned number = first; number <= last; number++) {
    char hex[200];
    snprintf(hex, sizeof hex, form, below + number, number);
    count += bytes_of(hex, bytes + count);
  }
  say_bytes(line, bytes, count);
}

static inline pid_t begin_at(unsigned first, script run) {
  below = first;
  return begin(run);
}

static const femem_settings resuming = {.wait = 20000, .reconnect = FEMEM_NEVER, .resume = true};
static const femem_settings returning = {.wait = 20000, .reconnect = 20000, .resume = true};

static inline femem *opened(const femem_settings *settings) {
  femem *client;
  femem_error error = femem_open(&client, path, 7, settings);
  is_error(error, FEMEM_OK, __LINE__);
  if (!client) exit(1);
  return client;
}
#endif
