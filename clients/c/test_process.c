/* Tests of what a process and its machine do to a client: system calls that fail, paths that lead nowhere, forks, ends;
   and of the settings. The linker puts functions of this file in the place of some system calls. It ends by itself, and
   prints what failed. */
#define _DEFAULT_SOURCE
#include "scripts.h"

#include <errno.h>
#include <signal.h>
#include <sys/mman.h>
#include <sys/stat.h>

/* ---- system calls that fail ---- */

/* How many further calls fail, and with which errno. */
static int failing_sends, failing_sockets, failing_connects, failure, failed;

ssize_t __real_send(int line, const void *bytes, size_t count, int flags);
ssize_t __wrap_send(int line, const void *bytes, size_t count, int flags);
int __real_socket(int domain, int kind, int protocol);
int __wrap_socket(int domain, int kind, int protocol);
int __real_connect(int line, const struct sockaddr *address, socklen_t size);
int __wrap_connect(int line, const struct sockaddr *address, socklen_t size);

static bool fails(int *left) {
  if (*left == 0) return false;
  --*left;
  failed++;
  errno = failure;
  return true;
}

ssize_t __wrap_send(int line, const void *bytes, size_t count, int flags) {
  return fails(&failing_sends) ? -1 : __real_send(line, bytes, count, flags);
}

int __wrap_socket(int domain, int kind, int protocol) {
  return fails(&failing_sockets) ? -1 : __real_socket(domain, kind, protocol);
}

int __wrap_connect(int line, const struct sockaddr *address, socklen_t size) {
  return fails(&failing_connects) ? -1 : __real_connect(line, address, size);
}

static bool took_less(int64_t began, int64_t milliseconds) { return moment_now() - began < 1000 * milliseconds; }

/* The request is lost with the first connection, on which the client has read what was there. */
static void lost_send_server(int listener) {
  int line = take_line(listener);
  welcome(line);
  hear(line, READ("01"));
  say(line, VALUE("01", "05"));
  hear_end(line);
  line = take_line(listener);
  welcome(line);
  hear(line, READ("02"));
  say(line, VALUE("02", "06"));
  hear_end(line);
}

/* A send that fails on a connection that stands ends it, so that all is sent again. */
static void lost_send(void) {
  static const int errors[] = {ENOBUFS, ENOMEM, EPIPE};
  for (int i = 0; i < 3; i++) {
    test = "a send that fails";
    pid_t server = begin(lost_send_server);
    femem *client = opened(&returning);
    uint64_t value = 0;
    ERROR(femem_readfe(client, 1, 0, &value), FEMEM_OK);
    failing_sends = 1;
    failure = errors[i];
    int64_t began = moment_now();
    ERROR(femem_readfe(client, 1, 0, &value), FEMEM_OK);
    CHECK(value == 6 && femem_reconnects(client) == 1 && failing_sends == 0 && took_less(began, 10000));
    femem_close(client);
    END(server);
  }
}

static void told_send_server(int listener) {
  int line = take_line(listener);
  welcome(line);
  hear_end(line);
  line = take_line(listener);
  welcome(line);
  hear(line, READ("01"));
  say(line, VALUE("01", "05"));
  hear_end(line);
}

/* Without reconnecting it is an error, and the request is out. */
static void told_send(void) {
  test = "a send that fails, and no reconnecting";
  pid_t server = begin(told_send_server);
  femem *client = opened(&resuming);
  femem_answer answer = {0};
  failing_sends = 1;
  failure = ENOBUFS;
  ERROR(femem_readfe(client, 1, 0, NULL), FEMEM_DISCONNECTED);
  CHECK(femem_out(client) == 1);
  ERROR(femem_reconnect(client, 20000), FEMEM_OK);
  ERROR(femem_wait(client, 1, &answer, 20000), FEMEM_OK);
  CHECK(answer.value == 5);
  femem_close(client);
  END(server);
}

static void reopened_server(int listener) {
  int line = take_line(listener);
  welcome(line);
  close(line);
  line = take_line(listener);
  welcome(line);
  hear(line, ADD("01"));
  say(line, VALUE("01", "00"));
  hear_end(line);
}

/* No descriptor left, or no memory for one, may pass: it is tried again. So is a server that is not there for a while,
   once the client has reached one. */
static void short_of_descriptors(void) {
  static const struct { int error; bool connects; } short_of[] = {
    {EMFILE, false}, {ENFILE, false}, {ENOBUFS, false}, {ENOMEM, false}, {ENOENT, true}, {EACCES, true}};
  for (unsigned i = 0; i < sizeof short_of / sizeof *short_of; i++) {
    test = "no descriptor left";
    pid_t server = begin(reopened_server);
    femem *client = opened(&returning);
    uint64_t value = 1;
    failure = short_of[i].error;
    if (short_of[i].connects) failing_connects = 3;
    else failing_sockets = 3;
    ERROR(femem_int_fetch_add(client, 1, 0, 1, &value), FEMEM_OK);
    CHECK(value == 0 && failing_sockets == 0 && failing_connects == 0);
    femem_close(client);
    END(server);
  }
  test = "an error that does not pass";
  femem *client;
  failing_sockets = 1;
  failure = EAFNOSUPPORT;
  ERROR(femem_open(&client, path, 7, &returning), FEMEM_SYSTEM);
  CHECK(errno == EAFNOSUPPORT);
}

/* ---- paths ---- */

static void welcome_server(int listener) {
  int line = take_line(listener);
  welcome(line);
  hear_end(line);
}


/* A connection that fails, with that errno, in less than the time of `returning`. */
static void fails_soon(const char *at, femem_error error, int why) {
  femem *client;
  int64_t began = moment_now();
  errno = 0;
  ERROR(femem_open(&client, at, 7, &returning), error);
  CHECK(took_less(began, 5000) && !client && errno == why);
}

/* The first connection fails at once where the path can't lead to a socket, unless the settings say to wait. */
static void wrong_paths(void) {
  test = "paths that lead to no socket";
  fails_soon("/none/of/these", FEMEM_UNREACHABLE, ENOENT);
  fails_soon("/dev/null/socket", FEMEM_UNREACHABLE, ENOTDIR);
  fails_soon("/", FEMEM_UNREACHABLE, ENOTSOCK);
  fails_soon("/proc/self/cmdline", FEMEM_UNREACHABLE, ENOTSOCK);
  femem *none;
  ERROR(femem_open(&none, "", 7, &returning), FEMEM_BAD_CALL);
  static const int errors[] = {ENOTDIR, ELOOP, ENAMETOOLONG, EPROTOTYPE};
  for (int i = 0; i < 4; i++) {
    femem *client;
    int64_t began = moment_now();
    failing_connects = 1000;
    failed = 0;
    failure = errors[i];
    ERROR(femem_open(&client, path, 7, &returning), FEMEM_UNREACHABLE);
    CHECK(took_less(began, 5000) && failed == 1 && errno == errors[i]);
    failing_connects = 0;
  }
  /* Who names a time for it gets the time. */
  femem_settings waits = returning;
  waits.wait_for_server = true;
  for (int i = 0; i < 4; i++) {
    pid_t server = begin(welcome_server);
    failing_connects = 3;
    failure = errors[i];
    femem *client = opened(&waits);
    CHECK(failing_connects == 0);
    femem_close(client);
    END(server);
  }
  /* A server that does not listen yet is waited for in any case. */
  pid_t server = begin(welcome_server);
  failing_connects = 3;
  failure = ECONNREFUSED;
  femem *client = opened(&returning);
  CHECK(failing_connects == 0);
  femem_close(client);
  END(server);
}

/* A server that is away: its socket is missing, or its folder too, or it belongs to root for a moment. */
static void away(void) {
  test = "a server that is away";
  static const int errors[] = {ENOENT, EACCES, EPERM};
  for (int i = 0; i < 3; i++) {
    pid_t server = begin(welcome_server);
    failing_connects = 3;
    failure = errors[i];
    femem *client = opened(&returning);
    CHECK(failing_connects == 0);
    femem_close(client);
    END(server);
  }
  const femem_settings once = {.reconnect = FEMEM_NEVER}, shortly = {.reconnect = 200};
  const femem_settings *given[] = {&once, &shortly};
  for (int i = 0; i < 2; i++) {
    femem *client;
    int64_t began = moment_now();
    failed = 0;
    ERROR(femem_open(&client, "/tmp/femem_none/socket", 7, given[i]), FEMEM_UNREACHABLE);
    CHECK(took_less(began, 200) == (i == 0) && !client && errno == ENOENT);
  }
}

/* No right to the socket is an error of its own, a second after the first try. */
static void no_right(void) {
  test = "no right to the socket";
  femem *client;
  failing_connects = 100000;
  failure = EACCES;
  int64_t began = moment_now();
  ERROR(femem_open(&client, path, 7, &returning), FEMEM_NO_RIGHT);
  CHECK(!took_less(began, 1000) && took_less(began, 5000) && errno == EACCES);
  const femem_settings once = {.reconnect = FEMEM_NEVER}, waits = {.reconnect = 200, .wait_for_server = true};
  ERROR(femem_open(&client, path, 7, &once), FEMEM_NO_RIGHT);
  ERROR(femem_open(&client, path, 7, &waits), FEMEM_NO_RIGHT);
  failing_connects = 0;
}

/* ---- settings ---- */

static void slow_server(int listener) {
  for (int i = 0; i < 2; i++) {
    int line = take_line(listener);
    hear(line, ATTACH_7);
    say(line, WELCOME_7);
    hear(line, SETTLE_TO("21"));
    say(line, SETTLED_AT("21"));
    hear(line, READ("21"));
    rest(100000);
    say(line, VALUE("21", "05"));
    hear_end(line);
  }
}

/* A time of 0 is no limit. */
static void zeros(void) {
  test = "settings that are zero";
  pid_t server = begin(slow_server);
  const femem_settings named = {.reconnect = 3000}, none = {0};
  const femem_settings *given[] = {&named, &none};
  for (int i = 0; i < 2; i++) {
    femem *client = opened(given[i]);
    uint64_t value = 0;
    ERROR(femem_readfe(client, 1, 0, &value), FEMEM_OK);
    CHECK(value == 5);
    femem_close(client);
  }
  END(server);
}

static void sizes_server(int listener) {
  for (int i = 0; i < 3; i++) {
    int line = take_line(listener);
    if (i < 2) welcome(line);
    else hear(line, ATTACH_7);
    hear_end(line);
  }
}

/* Settings of older and newer versions: those that are not there are 0, and those that are not known must be. */
static void sizes(void) {
  test = "sizes of settings";
  const femem_settings standard = FEMEM_SETTINGS_DEFAULT;
  CHECK(standard.size == sizeof standard && standard.wait == FEMEM_FOREVER && standard.reconnect == 30000);
  CHECK(!standard.resume && !standard.wait_for_server);
  struct { femem_settings known; uint64_t newer; } longer = {returning, 0};
  longer.known.size = sizeof longer;
  pid_t server = begin(sizes_server);
  femem *client = opened(&longer.known);
  femem_close(client);
  longer.newer = 1;
  ERROR(femem_open(&client, path, 7, &longer.known), FEMEM_BAD_CALL);
  CHECK(!client);
  longer.known.size = sizeof longer.known;
  client = opened(&longer.known);
  femem_close(client);
  /* Without the field that says to resume: it is attached, and then settles. */
  femem_settings shorter = {.size = offsetof(femem_settings, resume), .wait = 300, .resume = true};
  shorter.reconnect = FEMEM_NEVER;
  ERROR(femem_open(&client, path, 7, &shorter), FEMEM_TIMEOUT);
  END(server);
}

/* ---- forks ---- */

static void forked_server(int listener) {
  int line = take_line(listener);
  welcome(line);
  hear(line, READ("01"));
  say(line, VALUE("01", "05"));
  hear(line, READ("02"));
  say(line, VALUE("02", "06"));
  hear_end(line);
}

/* How many of all calls with a client return something else than FEMEM_FORKED. */
static unsigned untold(femem *client) {
  const femem_request read = {.operation = FEMEM_READFE, .array = 1}, none = {.operation = (femem_operation)99};
  const char *text, *keys[] = {"key"}, longest[40] = "a name that is longer than 32 bytes ...";
  femem_answer answer;
  femem_recovered recovered;
  uint64_t value;
  uint32_t length;
  const femem_error told[] = {
    femem_reconnect(client, 0), femem_bye(client), femem_bye_within(client, 0),
    femem_create(client, "name", 1, true, &value), femem_create(client, longest, 1, true, &value),
    femem_find(client, "name", &value, &length), femem_find(client, longest, &value, &length),
    femem_remove(client, 1), femem_readfe(client, 1, 0, &value), femem_readff(client, 1, 0, &value),
    femem_readxx(client, 1, 0, &value), femem_writeef(client, 1, 0, 1), femem_writeff(client, 1, 0, 1),
    femem_writexf(client, 1, 0, 1), femem_purge(client, 1, 0), femem_int_fetch_add(client, 1, 0, 1, &value),
    femem_call(client, &read, &answer), femem_call(client, &none, &answer),
    femem_call_within(client, &read, 0, &answer), femem_batch(client, &read, 1, &answer),
    femem_batch(client, &read, 0, &answer), femem_send(client, &read, &value),
    femem_send_readfe(client, 1, 0, &value), femem_send_readff(client, 1, 0, &value),
    femem_send_readxx(client, 1, 0, &value), femem_send_writeef(client, 1, 0, 1, &value),
    femem_send_writeff(client, 1, 0, 1, &value), femem_send_writexf(client, 1, 0, 1, &value),
    femem_send_purge(client, 1, 0, &value), femem_send_int_fetch_add(client, 1, 0, 1, &value),
    femem_flush(client), femem_next(client, &answer, 0), femem_wait(client, 1, &answer, 0),
    femem_wait(client, 99, &answer, 0), femem_cancel(client, 1, &answer), femem_cancel(client, 99, &answer),
    femem_settle(client), femem_report(client, &text), femem_once(client, "key", &read, &answer),
    femem_once_within(client, "key", &read, 0, &answer), femem_batch_once(client, keys, &read, 1, &answer),
    femem_forget(client, "key"),
    femem_recovered_at(client, 0, &recovered)};
  unsigned count = 0;
  for (unsigned i = 0; i < sizeof told / sizeof *told; i++) {
    if (told[i] == FEMEM_FORKED) continue;
    printf("%s: call %u: %s\n", test, i, femem_error_text(told[i]));
    count++;
  }
  return count;
}

/* A child's calls all say so, whatever the client has: output that is not written, an answer that is ready, nothing. */
static void forks(void) {
  test = "a child's calls";
  pid_t server = begin(forked_server);
  femem *client = opened(&resuming);
  femem_answer answer = {0};
  for (int i = 0; i < 4; i++) {
    if (i == 1) ERROR(femem_send_readfe(client, 1, 0, NULL), FEMEM_OK);
    if (i == 2) {
      ERROR(femem_send_readfe(client, 1, 0, NULL), FEMEM_OK);
      ERROR(femem_wait(client, 2, &answer, 20000), FEMEM_OK);
      CHECK(answer.value == 6 && femem_ready(client) == 1);
    }
    if (i == 3) {
      ERROR(femem_next(client, &answer, 20000), FEMEM_OK);
      CHECK(answer.value == 5);
    }
    fflush(stdout);
    pid_t child = fork();
    if (child == 0) {
      /* Its own child, too. */
      unsigned count = untold(client);
      fflush(stdout);
      pid_t further = fork();
      if (further == 0) _exit(untold(client) > 0);
      int status = 1;
      waitpid(further, &status, 0);
      femem_close(client);
      fflush(stdout);
      _exit(count > 0 || status != 0);
    }
    END(child);
  }
  femem_close(client);
  END(server);
}

static void own_server(int listener) {
  int first = take_line(listener);
  welcome(first);
  lost_send_server(listener);
  hear(first, ADD("01"));
  say(first, VALUE("01", "00"));
  hear_end(first);
}

/* A child may open a client of its own, and its parent's goes on. */
static void own_client(void) {
  test = "a child's own client";
  pid_t server = begin(own_server);
  femem *client = opened(&returning);
  fflush(stdout);
  pid_t child = fork();
  if (child == 0) {
    femem *own = opened(&returning);
    uint64_t value = 0;
    ERROR(femem_readfe(own, 1, 0, &value), FEMEM_OK);
    CHECK(value == 5);
    ERROR(femem_reconnect(own, 20000), FEMEM_OK);
    ERROR(femem_readfe(own, 1, 0, &value), FEMEM_OK);
    CHECK(value == 6);
    ERROR(femem_readfe(client, 1, 0, &value), FEMEM_FORKED);
    femem_close(own);
    femem_close(client);
    fflush(stdout);
    _exit(failures > 0);
  }
  END(child);
  uint64_t value = 1;
  ERROR(femem_int_fetch_add(client, 1, 0, 1, &value), FEMEM_OK);
  CHECK(value == 0);
  femem_close(client);
  END(server);
}

/* ---- ends ---- */

static void gone_server(int listener) {
  int line = take_line(listener);
  welcome(line);
}

static void still_server(int listener) {
  int line = take_line(listener);
  welcome(line);
  hear(line, "00000001 08");
  rest(2500000);
  say(line, "00000009 45 0000000000000007");
  hear_end(line);
}

static const femem_settings endless = {.resume = true};

/* A bye takes a second at most, whatever the settings say, and may be said again. */
static void ends(void) {
  test = "an end while the server is away";
  pid_t server = begin(gone_server);
  femem *client = opened(&endless);
  END(server);
  int64_t began = moment_now();
  femem_error error = femem_bye(client);
  CHECK(error == FEMEM_UNREACHABLE || error == FEMEM_TIMEOUT);
  CHECK(took_less(began, 5000) && !took_less(began, 900));
  began = moment_now();
  femem_close(client);
  CHECK(took_less(began, 500));

  test = "an end while the server stands still";
  server = begin(still_server);
  client = opened(&endless);
  began = moment_now();
  ERROR(femem_bye(client), FEMEM_TIMEOUT);
  CHECK(took_less(began, 2400) && !took_less(began, 900));
  ERROR(femem_bye_within(client, 20000), FEMEM_OK);
  ERROR(femem_bye(client), FEMEM_ENDED);
  femem_close(client);
  END(server);
}

int main(void) {
  setvbuf(stdout, NULL, _IOLBF, 0);
  alarm(200);
  if (!mkdtemp(folder)) return 1;
  snprintf(path, sizeof path, "%s/socket", folder);
  void (*const tests[])(void) = {lost_send, told_send, short_of_descriptors, wrong_paths, away, no_right, zeros, sizes,
                                 forks, own_client, ends};
  for (size_t i = 0; i < sizeof tests / sizeof *tests; i++) tests[i]();
  unlink(path);
  rmdir(folder);
  printf("femem client, its process: %d checks, %d failed\n", checks, failures);
  return failures ? 1 : 0;
}
