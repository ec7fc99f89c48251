/* Programs with a loop of their own: opening, coming back and ending without waiting, and lines for a log. The linker puts
   functions of this file in the place of system calls: the clock stands still unless a test moves it, and each call that
   would wait is counted. It ends by itself, and prints what failed. */
#define _DEFAULT_SOURCE
#include "scripts.h"

#include <errno.h>
#include <fcntl.h>
#include <poll.h>

/* ---- system calls ---- */

int __real_poll(struct pollfd *lines, nfds_t count, int time);
int __wrap_poll(struct pollfd *lines, nfds_t count, int time);
int __real_nanosleep(const struct timespec *time, struct timespec *left);
int __wrap_nanosleep(const struct timespec *time, struct timespec *left);
int __real_connect(int line, const struct sockaddr *address, socklen_t size);
int __wrap_connect(int line, const struct sockaddr *address, socklen_t size);
ssize_t __real_send(int line, const void *bytes, size_t count, int flags);
ssize_t __wrap_send(int line, const void *bytes, size_t count, int flags);
int __wrap_clock_gettime(clockid_t clock, struct timespec *time);

static bool inside;          /* in a call that must not wait */
static unsigned waits, connects;
static bool is_full;         /* nothing can be sent */
static int64_t clock_now = 5000000;

int __wrap_poll(struct pollfd *lines, nfds_t count, int time) {
  waits += inside && time != 0;
  return __real_poll(lines, count, time);
}

int __wrap_nanosleep(const struct timespec *time, struct timespec *left) {
  waits += inside;
  return __real_nanosleep(time, left);
}

int __wrap_connect(int line, const struct sockaddr *address, socklen_t size) {
  connects++;
  waits += inside && !(fcntl(line, F_GETFL) & O_NONBLOCK);
  return __real_connect(line, address, size);
}

ssize_t __wrap_send(int line, const void *bytes, size_t count, int flags) {
  if (!is_full) return __real_send(line, bytes, count, flags);
  errno = EAGAIN;
  return -1;
}

int __wrap_clock_gettime(clockid_t clock, struct timespec *time) {
  (void)clock;
  *time = (struct timespec){clock_now / 1000000, clock_now % 1000000 * 1000};
  return 0;
}

static void pass(int64_t milliseconds) { clock_now += 1000 * milliseconds; }

/* ---- a loop ---- */

static femem_error outside(femem_error error) {
  inside = false;
  return error;
}
#define AT_ONCE(call) (inside = true, outside(call))

static femem_error polled(femem *client) {
  return AT_ONCE(femem_poll(client));
}

/* One turn, in which a millisecond passes on the clock. */
static femem_error turn(femem *client) {
  struct pollfd line = {.fd = femem_descriptor(client), .events = POLLIN};
  if (femem_wants_write(client)) line.events |= POLLOUT;
  __real_poll(&line, 1, 10);
  pass(1);
  return polled(client);
}

static femem_error turns_until(femem *client, femem_error due) {
  femem_error error = FEMEM_OK;
  for (int i = 0; i < 3000; i++)
    if ((error = turn(client)) == due) break;
  return error;
}

/* The next answer. */
static femem_error answered(femem *client, femem_answer *answer) {
  femem_error error = FEMEM_TIMEOUT;
  for (int i = 0; i < 3000 && error == FEMEM_TIMEOUT; i++) {
    turn(client);
    error = AT_ONCE(femem_next(client, answer, 0));
  }
  return error;
}

static char told[2000];

static void tell(void *context, const char *line) { strcat(strcat(context, line), "\n"); }

static const femem_settings settling = {.wait = 20000, .reconnect = 20000};

static femem *begun(const femem_settings *settings) {
  femem *client = NULL;
  ERROR(AT_ONCE(femem_open_begin(&client, path, 7, settings)), FEMEM_OK);
  if (!client) exit(1);
  told[0] = 0;
  connects = 0;
  femem_log(client, tell, told);
  return client;
}

/* Ends a test. */
static void closed(femem *client) {
  inside = true;
  femem_close(client);
  inside = false;
  CHECK(waits == 0);
  waits = 0;
}

/* ---- opening ---- */

static void one_add_server(int listener) {
  int line = take_line(listener);
  welcome(line);
  hear(line, SETTLE_TO("21"));
  say(line, SETTLED_AT("21"));
  hear(line, ADD("21"));
  say(line, VALUE("21", "05"));
  hear_end(line);
}

static void opens(void) {
  test = "an opening";
  pid_t server = begin(one_add_server);
  femem *client = begun(&settling);
  femem_answer answer = {0};
  ERROR(AT_ONCE(femem_send_int_fetch_add(client, 1, 0, 1, NULL)), FEMEM_BAD_CALL);
  ERROR(AT_ONCE(femem_next(client, &answer, 0)), FEMEM_BAD_CALL);
  ERROR(AT_ONCE(femem_wait(client, 1, &answer, 0)), FEMEM_BAD_CALL);
  ERROR(AT_ONCE(femem_flush(client)), FEMEM_BAD_CALL);
  ERROR(AT_ONCE(femem_reconnect(client, 0)), FEMEM_BAD_CALL);
  ERROR(AT_ONCE(femem_bye_within(client, 0)), FEMEM_BAD_CALL);
  ERROR(AT_ONCE(femem_find(client, "cells", NULL, NULL)), FEMEM_BAD_CALL);
  ERROR(AT_ONCE(femem_settle(client)), FEMEM_BAD_CALL);
  CHECK(femem_descriptor(client) == -1 && !femem_wants_write(client) && femem_poll_time(client) == 0);
  ERROR(turns_until(client, FEMEM_OK), FEMEM_OK);
  CHECK(femem_descriptor(client) >= 0 && !femem_wants_write(client) && femem_poll_time(client) == -1);
  ERROR(AT_ONCE(femem_send_int_fetch_add(client, 1, 0, 1, NULL)), FEMEM_OK);
  CHECK(femem_wants_write(client) && femem_poll_time(client) == 600000);
  ERROR(turn(client), FEMEM_OK);
  CHECK(!femem_wants_write(client));
  ERROR(answered(client, &answer), FEMEM_OK);
  CHECK(answer.value == 5 && answer.number == 0x21 && femem_reconnects(client) == 0);
  CHECK(!strcmp(told, "session 7: attached\n"));
  closed(client);
  END(server);
}

static void silent_server(int listener) {
  int line = take_line(listener);
  hear(line, ATTACH_7);
  hear(line, ATTACH_7 "00000009 06 8000000000000000");
  hear_end(line);
}

static void silent(void) {
  test = "an opening where the server says nothing";
  pid_t server = begin(silent_server);
  femem *client = begun(&(femem_settings){.wait = 20000, .reconnect = 700000});
  for (int i = 0; i < 5; i++) ERROR(turn(client), FEMEM_TIMEOUT);
  CHECK(femem_descriptor(client) >= 0 && femem_poll_time(client) == 599996);
  pass(600000);
  ERROR(polled(client), FEMEM_TIMEOUT);
  CHECK(femem_poll_time(client) == 700000 - 600004);
  pass(femem_poll_time(client) - 1);
  ERROR(polled(client), FEMEM_TIMEOUT);
  pass(1);
  ERROR(polled(client), FEMEM_UNREACHABLE);
  CHECK(femem_errno(client) == ETIMEDOUT && femem_descriptor(client) == -1 && femem_poll_time(client) == -1);
  ERROR(polled(client), FEMEM_UNREACHABLE);
  CHECK(!strcmp(told, "session 7: given up: no server was reached\n"));
  closed(client);
  END(server);
}

static void away(void) {
  test = "an opening where no server is";
  static const int pauses[] = {1, 2, 4, 8, 16, 32, 64, 64, 64};
  unlink(path);
  femem *client = begun(&(femem_settings){.wait = 20000, .reconnect = 1000});
  for (size_t i = 0; i < sizeof pauses / sizeof *pauses; i++) {
    ERROR(polled(client), FEMEM_TIMEOUT);
    ERROR(polled(client), FEMEM_TIMEOUT); /* too early */
    CHECK(connects == i + 1 && femem_poll_time(client) == pauses[i]);
    pass(pauses[i]);
  }
  pass(1000);
  ERROR(polled(client), FEMEM_UNREACHABLE);
  CHECK(femem_errno(client) == ENOENT && femem_poll_time(client) == -1);
  CHECK(!strcmp(told, "session 7: tried again: no server was reached: No such file or directory\n"
                      "session 7: given up: no server was reached\n"));
  closed(client);
  client = begun(&(femem_settings){.wait = 20000, .reconnect = FEMEM_NEVER});
  ERROR(polled(client), FEMEM_UNREACHABLE);
  CHECK(connects == 1 && femem_errno(client) == ENOENT);
  closed(client);
}

static void no_paths(void) {
  test = "an opening of a path that leads nowhere";
  femem *client = NULL;
  ERROR(AT_ONCE(femem_open_begin(&client, "/none/of/these", 7, NULL)), FEMEM_OK);
  ERROR(polled(client), FEMEM_UNREACHABLE);
  CHECK(femem_errno(client) == ENOENT);
  closed(client);
  ERROR(femem_open_begin(&client, "", 7, NULL), FEMEM_BAD_CALL);
  CHECK(!client);
  ERROR(femem_open_begin(NULL, path, 7, NULL), FEMEM_BAD_CALL);
  ERROR(femem_open_file_begin(&client, path, "/none/of/these", NULL), FEMEM_FILE_FAULT);
  CHECK(!client && errno == ENOENT);
  ERROR(femem_open_file_begin(&client, path, "/none", &(femem_settings){.resume = true}), FEMEM_BAD_CALL);
}

static void later(void) {
  test = "an opening before the server";
  unlink(path);
  femem *client = begun(&settling);
  for (int i = 0; i < 5; i++) ERROR(turn(client), FEMEM_TIMEOUT);
  pid_t server = begin(one_add_server);
  ERROR(turns_until(client, FEMEM_OK), FEMEM_OK);
  femem_answer answer = {0};
  ERROR(AT_ONCE(femem_send_int_fetch_add(client, 1, 0, 1, NULL)), FEMEM_OK);
  ERROR(answered(client, &answer), FEMEM_OK);
  CHECK(answer.value == 5);
  CHECK(!strcmp(told, "session 7: tried again: no server was reached: No such file or directory\nsession 7: attached\n"));
  closed(client);
  END(server);
}

/* ---- coming back ---- */

static void broken_server(int listener) {
  int line = take_line(listener);
  welcome(line);
  hear(line, ADD("01"));
}

static void next_server(int listener) {
  int line = take_line(listener);
  welcome(line);
  hear(line, ADD("01"));
  say(line, VALUE("01", "05"));
  hear_end(line);
}

/* What a client answers whose server is away, with one request out. */
static void none_waits(femem *client) {
  femem_answer answer;
  ERROR(turn(client), FEMEM_TIMEOUT);
  ERROR(AT_ONCE(femem_send_int_fetch_add(client, 1, 0, 1, NULL)), FEMEM_TIMEOUT);
  ERROR(AT_ONCE(femem_next(client, &answer, 0)), FEMEM_TIMEOUT);
  ERROR(AT_ONCE(femem_wait(client, 1, &answer, 0)), FEMEM_TIMEOUT);
  ERROR(AT_ONCE(femem_flush(client)), FEMEM_TIMEOUT);
  CHECK(femem_out(client) == 1 && !femem_wants_write(client));
}

/* Comes back, whoever opened it. */
static void comes_back(femem *client, pid_t server) {
  femem_answer answer = {0};
  ERROR(AT_ONCE(femem_send_int_fetch_add(client, 1, 0, 1, NULL)), FEMEM_OK);
  ERROR(turns_until(client, FEMEM_TIMEOUT), FEMEM_TIMEOUT);
  END(server);
  for (int i = 0; i < 20; i++) none_waits(client);
  server = begin(next_server);
  ERROR(turns_until(client, FEMEM_OK), FEMEM_OK);
  ERROR(answered(client, &answer), FEMEM_OK);
  CHECK(answer.value == 5 && femem_reconnects(client) == 1);
  closed(client);
  END(server);
}

static void two_servers(void) {
  test = "a server that comes back";
  pid_t server = begin(broken_server);
  femem *client = begun(&returning);
  ERROR(turns_until(client, FEMEM_OK), FEMEM_OK);
  comes_back(client, server);
  CHECK(!strcmp(told, "session 7: attached\n"
                      "session 7: the connection was lost: the server ended the connection\n"
                      "session 7: tried again: no server was reached: Connection refused\n"
                      "session 7: back; requests without an answer: 1\n"));
  test = "a client of femem_open that gets a loop";
  server = begin(broken_server);
  client = opened(&returning);
  ERROR(polled(client), FEMEM_OK);
  comes_back(client, server);
}

static void gives_up(void) {
  test = "a server that stays away";
  pid_t server = begin(broken_server);
  femem *client = begun(&returning);
  femem_answer answer = {0};
  ERROR(turns_until(client, FEMEM_OK), FEMEM_OK);
  ERROR(AT_ONCE(femem_send_int_fetch_add(client, 1, 0, 1, NULL)), FEMEM_OK);
  ERROR(turns_until(client, FEMEM_TIMEOUT), FEMEM_TIMEOUT);
  END(server);
  pass(19990);
  ERROR(polled(client), FEMEM_TIMEOUT);
  pass(20);
  ERROR(polled(client), FEMEM_UNREACHABLE);
  ERROR(AT_ONCE(femem_send_int_fetch_add(client, 1, 0, 1, NULL)), FEMEM_UNREACHABLE);
  CHECK(femem_errno(client) == ECONNREFUSED && femem_poll_time(client) == -1);
  ERROR(AT_ONCE(femem_reconnect(client, 0)), FEMEM_TIMEOUT);
  server = begin(next_server);
  ERROR(turns_until(client, FEMEM_OK), FEMEM_OK);
  ERROR(answered(client, &answer), FEMEM_OK);
  CHECK(answer.value == 5);
  closed(client);
  END(server);
}

static void never(void) {
  test = "a client that does not come back by itself";
  pid_t server = begin(broken_server);
  femem *client = begun(&resuming);
  femem_answer answer = {0};
  femem_error error;
  ERROR(turns_until(client, FEMEM_OK), FEMEM_OK);
  ERROR(AT_ONCE(femem_send_int_fetch_add(client, 1, 0, 1, NULL)), FEMEM_OK);
  ERROR(turns_until(client, FEMEM_DISCONNECTED), FEMEM_DISCONNECTED);
  END(server);
  CHECK(femem_poll_time(client) == -1);
  server = begin(next_server);
  error = AT_ONCE(femem_reconnect(client, 0));
  if (error == FEMEM_TIMEOUT) error = turns_until(client, FEMEM_OK);
  ERROR(error, FEMEM_OK);
  ERROR(answered(client, &answer), FEMEM_OK);
  CHECK(answer.value == 5);
  closed(client);
  END(server);
}

static void other_session_server(int listener) {
  int line = take_line(listener);
  hear(line, ATTACH_7);
  say(line, "00000011 41 0000000000000007 0000000000000064");
  hear_end(line);
}

static void session_lost(void) {
  test = "a session that is another one";
  pid_t server = begin(broken_server);
  femem *client = begun(&returning);
  ERROR(turns_until(client, FEMEM_OK), FEMEM_OK);
  ERROR(AT_ONCE(femem_send_int_fetch_add(client, 1, 0, 1, NULL)), FEMEM_OK);
  ERROR(turns_until(client, FEMEM_TIMEOUT), FEMEM_TIMEOUT);
  END(server);
  server = begin(other_session_server);
  ERROR(turns_until(client, FEMEM_SESSION_LOST), FEMEM_SESSION_LOST);
  ERROR(polled(client), FEMEM_SESSION_LOST);
  CHECK(strstr(told, "session 7: the session was lost: the session on the server is another one\n"));
  CHECK(femem_poll_time(client) == -1);
  closed(client);
  END(server);
}

/* ---- requests ---- */

static void withdrawing_server(int listener) {
  int line = take_line(listener);
  welcome(line);
  heard(line, read_of, 1);
  heard(line, cancel_of, 1);
  said(line, withdrawn_of, 1);
  hear_end(line);
}

static void taken_back(void) {
  test = "a request that is taken back";
  pid_t server = begin_at(0, withdrawing_server);
  femem *client = begun(&returning);
  femem_answer answer = {0};
  ERROR(turns_until(client, FEMEM_OK), FEMEM_OK);
  ERROR(AT_ONCE(femem_send_readfe(client, 1, 0, NULL)), FEMEM_OK);
  femem_error error = AT_ONCE(femem_cancel(client, 1, &answer)); /* a quick server answers within the call */
  CHECK(error == FEMEM_TIMEOUT || error == FEMEM_WITHDRAWN);
  ERROR(error == FEMEM_TIMEOUT ? answered(client, &answer) : FEMEM_OK, FEMEM_OK);
  ERROR(answer.error, FEMEM_WITHDRAWN);
  CHECK(!strcmp(told, "session 7: attached\nsession 7: request 1 was taken back, and has not happened\n"));
  femem_log(client, NULL, NULL);
  closed(client);
  END(server);
}

static void full_line(void) {
  test = "a connection that takes no more";
  pid_t server = begin(next_server);
  femem *client = begun(&returning);
  femem_answer answer = {0};
  ERROR(turns_until(client, FEMEM_OK), FEMEM_OK);
  ERROR(AT_ONCE(femem_send_int_fetch_add(client, 1, 0, 1, NULL)), FEMEM_OK);
  is_full = true;
  ERROR(turn(client), FEMEM_OK);
  ERROR(AT_ONCE(femem_flush(client)), FEMEM_TIMEOUT);
  CHECK(femem_wants_write(client));
  is_full = false;
  ERROR(turn(client), FEMEM_OK);
  CHECK(!femem_wants_write(client));
  ERROR(answered(client, &answer), FEMEM_OK);
  CHECK(answer.value == 5);
  closed(client);
  END(server);
}

static void quiet_server(int listener) {
  int line = take_line(listener);
  welcome(line);
  hear(line, ADD("01"));
  hear(line, "00000009 06 8000000000000000");
  say(line, "0000000a 46 8000000000000000 0a");
  say(line, VALUE("01", "05"));
  hear_end(line);
}

/* It asks after a silence, of which a program without requests knows nothing. */
static void silence(void) {
  test = "a silence";
  pid_t server = begin(quiet_server);
  femem *client = begun(&returning);
  femem_answer answer = {0};
  ERROR(turns_until(client, FEMEM_OK), FEMEM_OK);
  pass(3600000);
  ERROR(polled(client), FEMEM_OK);
  CHECK(!femem_wants_write(client));
  pass(3600000);
  ERROR(AT_ONCE(femem_send_int_fetch_add(client, 1, 0, 1, NULL)), FEMEM_OK);
  CHECK(femem_poll_time(client) == 600000);
  ERROR(polled(client), FEMEM_OK);
  CHECK(!femem_wants_write(client));
  pass(600001);
  CHECK(femem_poll_time(client) == 0);
  ERROR(polled(client), FEMEM_OK);
  CHECK(femem_wants_write(client) && femem_poll_time(client) == 600000);
  ERROR(answered(client, &answer), FEMEM_OK);
  CHECK(answer.value == 5);
  closed(client);
  END(server);
}

static void leaving_server(int listener) {
  int line = take_line(listener);
  welcome(line);
  hear(line, "00000001 08");
  rest(500000);
  say(line, "00000009 45 0000000000000007");
  hear_end(line);
}

static void ends(void) {
  test = "an end";
  pid_t server = begin(leaving_server);
  femem *client = begun(&returning);
  ERROR(turns_until(client, FEMEM_OK), FEMEM_OK);
  ERROR(AT_ONCE(femem_bye_within(client, 0)), FEMEM_TIMEOUT);
  ERROR(turns_until(client, FEMEM_ENDED), FEMEM_ENDED);
  ERROR(AT_ONCE(femem_bye_within(client, 0)), FEMEM_OK);
  ERROR(AT_ONCE(femem_bye_within(client, 0)), FEMEM_ENDED);
  ERROR(polled(client), FEMEM_ENDED);
  CHECK(femem_descriptor(client) == -1 && femem_poll_time(client) == -1 && !strcmp(told, "session 7: attached\n"));
  closed(client);
  END(server);
}

/* A call that may wait does so, and is counted here; in a child no call goes on. */
static void others_wait(void) {
  test = "calls that wait";
  pid_t server = begin(next_server);
  femem *client = begun(&returning);
  femem_answer answer = {0};
  ERROR(turns_until(client, FEMEM_OK), FEMEM_OK);
  femem_request request = {.operation = FEMEM_INT_FETCH_ADD, .array = 1, .operand = 1};
  ERROR(AT_ONCE(femem_call_within(client, &request, 5000, &answer)), FEMEM_OK);
  CHECK(waits > 0 && answer.value == 5);
  waits = 0;
  fflush(stdout);
  pid_t child = fork();
  if (child == 0) _exit(femem_poll(client) == FEMEM_FORKED && femem_poll_time(client) == -1 ? 0 : 1);
  END(child);
  closed(client);
  END(server);
}

int main(void) {
  setvbuf(stdout, NULL, _IOLBF, 0);
  alarm(200);
  if (!mkdtemp(folder)) return 1;
  snprintf(path, sizeof path, "%s/socket", folder);
  opens();
  silent();
  away();
  no_paths();
  later();
  two_servers();
  gives_up();
  never();
  session_lost();
  taken_back();
  full_line();
  silence();
  ends();
  others_wait();
  unlink(path);
  rmdir(folder);
  printf("femem client, loops: %d checks, %d failed\n", checks, failures);
  return failures ? 1 : 0;
}
