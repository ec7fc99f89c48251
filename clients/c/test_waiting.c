/* Waiting requests, against scripted servers: a call whose time is over takes its request back, and waiting requests
   move out of the way of others. It ends by itself, and prints what failed. */
#include "scripts.h"

#include <poll.h>

/* Welcomes a client that does not resume. */
static void meet(int line) {
  welcome(line);
  hear(line, SETTLE_TO("21"));
  say(line, SETTLED_AT("21"));
}

static const femem_settings patient = {.wait = 20000, .reconnect = FEMEM_NEVER};
static const femem_settings going_on = {.wait = 20000, .reconnect = 20000};

/* ---- taking back ---- */

static void patient_server(int listener) {
  int line = take_line(listener);
  welcome(line);
  for (unsigned number = 1; number <= 40; number++) {
    heard(line, read_of, number);
    if (number == 17 || number == 33) heard(line, settle_of, number);
    heard(line, cancel_of, number);
    if (number == 17 || number == 33) said(line, settled_of, number);
    said(line, withdrawn_of, number);
  }
  heard(line, add_of, 41);
  said(line, value_of, 41);
  hear_end(line);
}

/* Forty calls that run out of time leave nothing behind. */
static void out_of_time(void) {
  test = "calls that run out of time";
  pid_t server = begin_at(0, patient_server);
  femem *client = opened(&(femem_settings){.wait = 20, .reconnect = 20000, .resume = true});
  uint64_t value = 0;
  unsigned at_once = 0;
  for (int i = 0; i < 40; i++) {
    femem_error error = femem_readfe(client, 1, 0, &value);
    femem_answer answer;
    /* On a slow machine the cancel's reply may be late too, but not every one. */
    at_once += error == FEMEM_WITHDRAWN;
    while (error == FEMEM_TIMEOUT) error = femem_cancel(client, femem_number(client), &answer);
    ERROR(error, FEMEM_WITHDRAWN);
    CHECK(femem_out(client) == 0 && femem_ready(client) == 0);
  }
  CHECK(at_once > 0);
  femem_request request = {.operation = FEMEM_INT_FETCH_ADD, .array = 1, .operand = 1};
  femem_answer answer = {0};
  ERROR(femem_call_within(client, &request, 5000, &answer), FEMEM_OK);
  CHECK(answer.value == 41);
  femem_close(client);
  END(server);
}

static void late_server(int listener) {
  int line = take_line(listener);
  welcome(line);
  for (unsigned number = 1; number <= 32; number++) {
    heard(line, read_of, number);
    heard(line, cancel_of, number);
  }
  /* All in one piece, so that the client reads all or nothing. */
  char hex[4096] = "";
  snprintf(hex, sizeof hex, VALUE("01", "01") "0000000a 46 0000000000000001 0a");
  for (unsigned number = 2; number <= 32; number++)
    snprintf(hex + strlen(hex), sizeof hex - strlen(hex), withdrawn_of, number);
  uint8_t bytes[1024];
  say_bytes(line, bytes, bytes_of(hex, bytes));
  heard(line, settle_of, 33);
  heard(line, add_of, 33);
  said(line, value_of, 33);
  hear_end(line);
}

/* The cancel's reply is late too: the request is out until it comes, and a withdrawal then holds no slot. An answer
   does until it is taken. */
static void late_withdrawals(void) {
  test = "withdrawals that come late";
  pid_t server = begin_at(0, late_server);
  femem *client = opened(&(femem_settings){.wait = 5, .reconnect = 20000, .resume = true});
  uint64_t value = 0;
  for (unsigned due = 1; due <= 31; due++) {
    ERROR(femem_readfe(client, 1, 0, &value), FEMEM_TIMEOUT);
    CHECK(femem_out(client) == due);
  }
  femem_error last = femem_readfe(client, 1, 0, &value); /* the server replies now, and may be in time */
  CHECK(last == FEMEM_TIMEOUT || last == FEMEM_WITHDRAWN);
  femem_answer answer = {0};
  ERROR(femem_next(client, &answer, 20000), FEMEM_OK);
  CHECK(answer.number == 1 && answer.value == 1);
  femem_request request = {.operation = FEMEM_INT_FETCH_ADD, .array = 1, .operand = 1};
  femem_error error;
  /* Until every late reply has come. */
  do error = femem_call_within(client, &request, 5000, &answer);
  while (error == FEMEM_WINDOW_FULL || (error == FEMEM_TIMEOUT && femem_out(client) > 0 && femem_number(client) < 33));
  ERROR(error, FEMEM_OK);
  CHECK(answer.value == 33 && femem_out(client) == 0 && femem_ready(client) == 0);
  femem_close(client);
  END(server);
}

/* ---- moving on ---- */

static void moving_server(int listener) {
  int line = take_line(listener);
  meet(line);
  heard(line, read_of, 1);
  for (unsigned number = 2; number <= 32; number++) {
    heard(line, add_of, number);
    said(line, value_of, number);
  }
  heard(line, cancel_of, 1);
  said(line, withdrawn_of, 1);
  heard(line, settle_of, 33);
  heard(line, read_of, 33);
  said(line, settled_of, 33);
  for (unsigned number = 34; number <= 40; number++) {
    heard(line, add_of, number);
    said(line, value_of, number);
  }
  said(line, value_of, 33);
  hear_end(line);
}

/* One waiting request holds up no other, and keeps its number for the caller. */
static void moves_on(void) {
  test = "a request that waits moves on";
  pid_t server = begin_at(32, moving_server);
  femem *client = opened(&patient);
  uint64_t number = 0, value = 0;
  femem_answer answer = {0};
  ERROR(femem_send_readfe(client, 1, 0, &number), FEMEM_OK);
  for (unsigned due = 2; due <= 40; due++) {
    if (due == 33) continue;
    ERROR(femem_int_fetch_add(client, 1, 0, 1, &value), FEMEM_OK);
    CHECK(value == due);
  }
  ERROR(femem_wait(client, number, &answer, 20000), FEMEM_OK);
  CHECK(number == 33 && answer.number == 33 && answer.value == 33);
  CHECK(femem_out(client) == 0 && femem_ready(client) == 0);
  ERROR(femem_wait(client, number, &answer, 0), FEMEM_NOTHING_OUT);
  femem_close(client);
  END(server);
}

/* Of three waiting requests one happens before its cancel, and one is taken back by its caller; then the connection
   ends. */
static void several_server(int listener) {
  int line = take_line(listener);
  meet(line);
  for (unsigned number = 1; number <= 3; number++) heard(line, read_of, number);
  for (unsigned number = 4; number <= 32; number++) {
    heard(line, add_of, number);
    said(line, value_of, number);
  }
  for (unsigned number = 1; number <= 3; number++) heard(line, cancel_of, number);
  said(line, withdrawn_of, 1);
  said(line, value_of, 2);
  said(line, not_waiting_of, 2);
  said(line, withdrawn_of, 3);
  heard(line, settle_of, 2);
  heard(line, read_of, 33);
  heard(line, read_of, 3); /* the answer of 2, which was not taken, leaves no number for it */
  said(line, settled_of, 2);
  heard(line, settle_of, 3); /* 2 is taken */
  heard(line, add_of, 34);
  said(line, settled_of, 3);
  said(line, value_of, 34);
  heard(line, cancel_of, 3); /* by its caller */
  close(line);
  line = take_line(listener);
  hear(line, ATTACH_7);
  say(line, "00000011 41 0000000000000007 0000000000000023");
  heard(line, read_of, 3);
  heard(line, cancel_of, 3);
  heard(line, read_of, 33);
  said(line, withdrawn_of, 3);
  heard(line, settle_of, 33); /* the broken connection may still have a copy of it */
  said(line, settled_of, 33);
  said(line, value_of, 33);
  hear_end(line);
}

static void several_move(void) {
  test = "several that wait, and a stop";
  pid_t server = begin_at(32, several_server);
  femem *client = opened(&going_on);
  uint64_t numbers[3] = {0}, value = 0;
  femem_answer answer = {0};
  for (int i = 0; i < 3; i++) ERROR(femem_send_readfe(client, 1, 0, &numbers[i]), FEMEM_OK);
  for (unsigned due = 4; due <= 32; due++) ERROR(femem_int_fetch_add(client, 1, 0, 1, &value), FEMEM_OK);
  ERROR(femem_send_int_fetch_add(client, 1, 0, 1, NULL), FEMEM_WINDOW_FULL);
  ERROR(femem_wait(client, numbers[1], &answer, 20000), FEMEM_OK);
  CHECK(answer.value == 2);
  ERROR(femem_int_fetch_add(client, 1, 0, 1, &value), FEMEM_OK);
  CHECK(value == 34);
  ERROR(femem_cancel(client, numbers[2], &answer), FEMEM_WITHDRAWN);
  CHECK(femem_floor(client) > numbers[2]);
  ERROR(femem_wait(client, numbers[0], &answer, 20000), FEMEM_OK);
  CHECK(answer.value == 33 && answer.number == 33);
  femem_close(client);
  END(server);
}

/* A stop between a move's cancel and its reply: the request is sent again under its present number. */
static void stopped_server(int listener) {
  int line = take_line(listener);
  meet(line);
  for (unsigned number = 1; number <= 2; number++) heard(line, read_of, number);
  for (unsigned number = 3; number <= 32; number++) {
    heard(line, add_of, number);
    said(line, value_of, number);
  }
  for (unsigned number = 1; number <= 2; number++) heard(line, cancel_of, number);
  said(line, withdrawn_of, 1);
  close(line);
  line = take_line(listener);
  hear(line, ATTACH_7);
  say(line, "00000011 41 0000000000000007 0000000000000021");
  for (unsigned number = 1; number <= 2; number++) heard(line, read_of, number);
  for (unsigned number = 1; number <= 2; number++) heard(line, cancel_of, number);
  for (unsigned number = 1; number <= 2; number++) said(line, withdrawn_of, number);
  heard(line, settle_of, 33);
  heard(line, read_of, 33);
  heard(line, read_of, 34);
  heard(line, add_of, 35);
  said(line, settled_of, 33);
  for (unsigned number = 33; number <= 35; number++) said(line, value_of, number);
  hear_end(line);
}

static void stopped_move(void) {
  test = "a stop within a move";
  pid_t server = begin_at(32, stopped_server);
  femem *client = opened(&going_on);
  uint64_t value = 0;
  femem_answer answer = {0};
  for (int i = 0; i < 2; i++) ERROR(femem_send_readfe(client, 1, 0, NULL), FEMEM_OK);
  for (unsigned due = 3; due <= 32; due++) ERROR(femem_int_fetch_add(client, 1, 0, 1, &value), FEMEM_OK);
  ERROR(femem_int_fetch_add(client, 1, 0, 1, &value), FEMEM_OK);
  CHECK(value == 35 && femem_reconnects(client) == 1);
  for (unsigned due = 1; due <= 2; due++) {
    ERROR(femem_next(client, &answer, 20000), FEMEM_OK);
    CHECK(answer.number == below + due && answer.value == 32 + due);
  }
  femem_close(client);
  END(server);
}

/* A program that resumes relies on its numbers, so its requests do not move. */
static void resumed_server(int listener) {
  int line = take_line(listener);
  welcome(line);
  heard(line, read_of, 1);
  for (unsigned number = 2; number <= 32; number++) {
    heard(line, add_of, number);
    said(line, value_of, number);
  }
  said(line, value_of, 1);
  hear_end(line);
}

static void resumed_stays(void) {
  test = "nothing of a program that resumes moves";
  pid_t server = begin_at(0, resumed_server);
  femem *client = opened(&resuming);
  uint64_t value = 0;
  femem_answer answer = {0};
  ERROR(femem_send_readfe(client, 1, 0, NULL), FEMEM_OK);
  for (unsigned due = 2; due <= 32; due++) ERROR(femem_int_fetch_add(client, 1, 0, 1, &value), FEMEM_OK);
  ERROR(femem_int_fetch_add(client, 1, 0, 1, &value), FEMEM_WINDOW_FULL);
  ERROR(femem_next(client, &answer, 20000), FEMEM_OK);
  femem_close(client);
  END(server);
}

/* ---- nothing is out ---- */

static void settling_server(int listener) {
  int line = take_line(listener);
  welcome(line);
  for (unsigned number = 1; number <= 17; number++) {
    heard(line, add_of, number);
    if (number == 17) heard(line, settle_of, number);
    said(line, value_of, number);
  }
  rest(50000);
  said(line, settled_of, 17);
  heard(line, add_of, 18);
  said(line, value_of, 18);
}

static int readable(const femem *client, int within) {
  return poll(&(struct pollfd){.fd = femem_descriptor(client), .events = POLLIN}, 1, within);
}

/* A program that polls the descriptor and calls femem_next does not go round without end. */
static void quiet_descriptor(void) {
  test = "what comes while nothing is out";
  pid_t server = begin_at(0, settling_server);
  femem *client = opened(&resuming);
  uint64_t value = 0;
  femem_answer answer = {0};
  for (int i = 0; i < 17; i++) ERROR(femem_int_fetch_add(client, 1, 0, 1, &value), FEMEM_OK);
  CHECK(readable(client, 20000) == 1);
  ERROR(femem_next(client, &answer, 0), FEMEM_NOTHING_OUT);
  CHECK(readable(client, 0) == 0);
  ERROR(femem_int_fetch_add(client, 1, 0, 1, &value), FEMEM_OK);
  END(server);
  CHECK(readable(client, 20000) == 1);
  ERROR(femem_next(client, &answer, 0), FEMEM_NOTHING_OUT);
  CHECK(readable(client, 0) == 0);
  femem_close(client);
}

/* ---- coming back ---- */

static void breaking_server(int listener) {
  int line = take_line(listener);
  meet(line);
  for (unsigned number = 1; number <= 3; number++) heard(line, read_of, number);
  close(line);
  line = take_line(listener);
  hear(line, ATTACH_7);
  say(line, "00000011 41 0000000000000007 0000000000000021");
  for (unsigned number = 1; number <= 3; number++) heard(line, read_of, number);
  said(line, value_of, 1);
  heard(line, cancel_of, 3);
  said(line, withdrawn_of, 3);
  heard(line, cancel_of, 2); /* 1 is taken: what waits below 3 moves */
  said(line, withdrawn_of, 2);
  heard(line, settle_of, 4);
  heard(line, read_of, 4);
  close(line);
  line = take_line(listener);
  hear(line, ATTACH_7);
  say(line, "00000011 41 0000000000000007 0000000000000021");
  heard(line, read_of, 3); /* its copies were read meanwhile, perhaps */
  heard(line, cancel_of, 3);
  hear_nothing(line); /* behind a settle its answer would be dropped */
  said(line, not_waiting_of, 3);
  hear_nothing(line);
  said(line, value_of, 3);
  heard(line, settle_of, 4);
  heard(line, read_of, 4);
  said(line, settled_of, 4);
  said(line, value_of, 4);
  hear_end(line);
}

/* A request that two connections carried is told as withdrawn only once the floor is above it: what waits below it moves,
   but an answer has to be taken first. If the connection breaks before, it may have happened after all. */
static void breaks_while_taken_back(void) {
  test = "a request that two connections carried";
  pid_t server = begin_at(32, breaking_server);
  femem *client = opened(&going_on);
  uint64_t numbers[3] = {0};
  femem_answer answer = {0};
  for (int i = 0; i < 3; i++) ERROR(femem_send_readfe(client, 1, 0, &numbers[i]), FEMEM_OK);
  ERROR(femem_wait(client, numbers[0], &answer, 0), FEMEM_TIMEOUT);
  while (femem_ready(client) == 0) femem_wait(client, numbers[1], &answer, 10);
  ERROR(femem_cancel(client, numbers[2], &answer), FEMEM_TIMEOUT);
  CHECK(femem_out(client) == 2);
  ERROR(femem_wait(client, numbers[0], &answer, 20000), FEMEM_OK);
  ERROR(femem_wait(client, numbers[2], &answer, 20000), FEMEM_OK);
  CHECK(answer.value == 3 && answer.number == numbers[2]);
  ERROR(femem_wait(client, numbers[1], &answer, 20000), FEMEM_OK);
  CHECK(answer.value == 4 && answer.number == numbers[1] && femem_out(client) == 0);
  femem_close(client);
  END(server);
}

static void twice_server(int listener) {
  int line = take_line(listener);
  meet(line);
  for (unsigned number = 1; number <= 2; number++) heard(line, read_of, number);
  close(line);
  line = take_line(listener);
  hear(line, ATTACH_7);
  say(line, "00000011 41 0000000000000007 0000000000000021");
  for (unsigned number = 1; number <= 2; number++) heard(line, read_of, number);
  said(line, value_of, 1);
  heard(line, cancel_of, 2);
  said(line, withdrawn_of, 2);
  heard(line, add_of, 3);
  close(line);
  line = take_line(listener);
  hear(line, ATTACH_7);
  say(line, "00000011 41 0000000000000007 0000000000000021");
  heard(line, read_of, 2);
  heard(line, cancel_of, 2);
  heard(line, add_of, 3);
  said(line, withdrawn_of, 2);
  said(line, value_of, 3);
  heard(line, settle_of, 4);
  said(line, settled_of, 4);
  hear_end(line);
}

/* Sends requests that wait, and goes on until they were sent again and one is answered. */
static void sent_twice(femem *client, unsigned count, uint64_t *numbers) {
  femem_answer answer;
  for (unsigned i = 0; i < count; i++) ERROR(femem_send_readfe(client, 1, 0, &numbers[i]), FEMEM_OK);
  ERROR(femem_wait(client, numbers[0], &answer, 0), FEMEM_TIMEOUT);
  while (femem_ready(client) == 0) femem_wait(client, numbers[1], &answer, 10);
}

/* A request that was taken back, and waits for the floor, is asked again with its cancel at each return. */
static void taken_back_twice(void) {
  test = "a request that is taken back over two connections";
  pid_t server = begin_at(32, twice_server);
  femem *client = opened(&going_on);
  uint64_t numbers[2] = {0}, value = 0;
  femem_answer answer = {0};
  sent_twice(client, 2, numbers);
  ERROR(femem_cancel(client, numbers[1], &answer), FEMEM_TIMEOUT);
  ERROR(femem_int_fetch_add(client, 1, 0, 1, &value), FEMEM_OK);
  CHECK(value == 3 && femem_reconnects(client) == 2 && femem_out(client) == 1);
  ERROR(femem_wait(client, numbers[0], &answer, 20000), FEMEM_OK);
  ERROR(femem_wait(client, numbers[1], &answer, 20000), FEMEM_OK);
  CHECK(answer.error == FEMEM_WITHDRAWN && femem_out(client) == 0);
  femem_close(client);
  END(server);
}

static void answered_server(int listener) {
  int line = take_line(listener);
  meet(line);
  for (unsigned number = 1; number <= 3; number++) heard(line, read_of, number);
  close(line);
  line = take_line(listener);
  hear(line, ATTACH_7);
  say(line, "00000011 41 0000000000000007 0000000000000021");
  for (unsigned number = 1; number <= 3; number++) heard(line, read_of, number);
  said(line, value_of, 1);
  heard(line, cancel_of, 3);
  said(line, withdrawn_of, 3);
  heard(line, add_of, 4); /* 2 could not move below the answer, so it is not cancelled */
  said(line, value_of, 4);
  heard(line, cancel_of, 2);
  said(line, withdrawn_of, 2);
  heard(line, settle_of, 5);
  heard(line, read_of, 5);
  said(line, settled_of, 5);
  said(line, value_of, 5);
  hear_end(line);
}

/* What waits below a request that was taken back, and above an answer that was not taken, stays as it is. */
static void stays_above_an_answer(void) {
  test = "a request between an answer and one that is taken back";
  pid_t server = begin_at(32, answered_server);
  femem *client = opened(&going_on);
  uint64_t numbers[3] = {0}, value = 0;
  femem_answer answer = {0};
  sent_twice(client, 3, numbers);
  ERROR(femem_cancel(client, numbers[2], &answer), FEMEM_TIMEOUT);
  ERROR(femem_int_fetch_add(client, 1, 0, 1, &value), FEMEM_OK);
  ERROR(femem_wait(client, numbers[0], &answer, 20000), FEMEM_OK);
  ERROR(femem_wait(client, numbers[2], &answer, 20000), FEMEM_OK);
  CHECK(answer.error == FEMEM_WITHDRAWN);
  ERROR(femem_wait(client, numbers[1], &answer, 20000), FEMEM_OK);
  CHECK(answer.value == 5 && femem_out(client) == 0);
  femem_close(client);
  END(server);
}

/* A pipe that lets the next scripts' servers go on. */
static int go[2];

/* Takes requests that wait, over two connections, answers all others of a window, and hears of a cancel. */
static int fill(int listener, unsigned count, unsigned cancelled) {
  int line = take_line(listener);
  char byte;
  meet(line);
  for (unsigned number = 1; number <= count; number++) heard(line, read_of, number);
  close(line);
  line = take_line(listener);
  hear(line, ATTACH_7);
  say(line, "00000011 41 0000000000000007 0000000000000021");
  for (unsigned number = 1; number <= count; number++) heard(line, read_of, number);
  for (unsigned number = count + 1; number <= 32; number++) {
    heard(line, add_of, number);
    said(line, value_of, number);
  }
  heard(line, cancel_of, cancelled);
  if (read(go[0], &byte, 1) != 1) _exit(1);
  return line;
}

static void place_server(int listener) {
  int line = fill(listener, 1, 1);
  said(line, withdrawn_of, 1);
  heard(line, settle_of, 33);
  said(line, settled_of, 33);
  heard(line, add_of, 33);
  said(line, value_of, 33);
  hear_end(line);
}

static void turn_server(int listener) {
  int line = fill(listener, 3, 2);
  heard(line, cancel_of, 1);
  heard(line, cancel_of, 3);
  said(line, withdrawn_of, 2);
  said(line, withdrawn_of, 1);
  said(line, withdrawn_of, 3);
  heard(line, settle_of, 3); /* not above 3, which keeps its number: the place of the next is still that of 2 */
  heard(line, read_of, 33);
  heard(line, read_of, 3);
  said(line, settled_of, 3);
  heard(line, add_of, 34);
  said(line, value_of, 34);
  said(line, value_of, 33);
  said(line, value_of, 3);
  hear_end(line);
}

static void exchanging_server(int listener) {
  int line = fill(listener, 3, 1);
  said(line, withdrawn_of, 1);
  heard(line, settle_of, 2);
  said(line, settled_of, 2);
  heard(line, cancel_of, 3);
  said(line, withdrawn_of, 3);
  heard(line, cancel_of, 2);
  said(line, withdrawn_of, 2);
  heard(line, settle_of, 33);
  heard(line, read_of, 33); /* the place of 1, whose answer was not taken */
  said(line, settled_of, 33);
  said(line, value_of, 33);
  hear_end(line);
}

static pid_t begin_full(script run) {
  if (pipe(go)) abort();
  return begin_at(32, run);
}

/* A client that has sent `count` requests twice, has used all 32 numbers, and has cancelled one of those. */
static femem *full(unsigned count, unsigned cancelled, uint64_t *numbers) {
  femem_answer answer;
  uint64_t number = 0;
  femem *client = opened(&(femem_settings){.wait = 20, .reconnect = 20000});
  for (unsigned i = 0; i < count; i++) ERROR(femem_send_readfe(client, 1, 0, &numbers[i]), FEMEM_OK);
  while (femem_reconnects(client) == 0) femem_wait(client, numbers[0], &answer, 10);
  for (unsigned due = count + 1; due <= 32; due++) {
    ERROR(femem_send_int_fetch_add(client, 1, 0, 1, &number), FEMEM_OK);
    ERROR(femem_wait(client, number, &answer, 20000), FEMEM_OK);
  }
  ERROR(femem_cancel(client, numbers[cancelled - 1], &answer), FEMEM_TIMEOUT);
  return client;
}

/* Sends one more, for which there is a place once the answer to the request that was taken back is taken. */
static uint64_t sent_at_last(femem *client, uint64_t back) {
  femem_answer answer = {0};
  uint64_t number = 0;
  unsigned taken = 0;
  femem_error error;
  while ((error = femem_send_int_fetch_add(client, 1, 0, 1, &number)) == FEMEM_TIMEOUT || error == FEMEM_WINDOW_FULL) {
    if (error == FEMEM_TIMEOUT) continue;
    ERROR(femem_wait(client, back, &answer, 20000), FEMEM_OK);
    CHECK(answer.error == FEMEM_WITHDRAWN && answer.number == back);
    if (taken++ > 0) break;
  }
  ERROR(error, FEMEM_OK);
  CHECK(taken == 1);
  return number;
}

/* The place of a request that was taken back is used for the next only once that one's answer is taken. */
static void place_is_kept(void) {
  test = "the place of a request that is taken back";
  pid_t server = begin_full(place_server);
  uint64_t numbers[1] = {0};
  femem_answer answer = {0};
  femem *client = full(1, 1, numbers);
  CHECK(write(go[1], "", 1) == 1 && readable(client, 20000) == 1);
  uint64_t next = sent_at_last(client, numbers[0]);
  ERROR(femem_wait(client, next, &answer, 20000), FEMEM_OK);
  CHECK(answer.value == 33 && femem_out(client) == 0 && femem_ready(client) == 0);
  femem_close(client);
  END(server);
  close(go[0]);
  close(go[1]);
}

/* A request that moves, behind one that was taken back, keeps its number while that one's place is needed. */
static void waits_its_turn(void) {
  test = "a request that moves behind one that is taken back";
  pid_t server = begin_full(turn_server);
  uint64_t numbers[3] = {0};
  femem_answer answer = {0};
  femem *client = full(3, 2, numbers);
  CHECK(write(go[1], "", 1) == 1);
  uint64_t next = sent_at_last(client, numbers[1]);
  ERROR(femem_wait(client, next, &answer, 20000), FEMEM_OK);
  ERROR(femem_wait(client, numbers[0], &answer, 20000), FEMEM_OK);
  CHECK(answer.value == 33 && answer.number == numbers[0]);
  ERROR(femem_wait(client, numbers[2], &answer, 20000), FEMEM_OK);
  CHECK(answer.value == 3 && answer.number == numbers[2] && femem_out(client) == 0);
  femem_close(client);
  END(server);
  close(go[0]);
  close(go[1]);
}

/* Nor is it lost to a request that moves. */
static void answer_makes_room(void) {
  test = "a request that moves to the place of an answer";
  pid_t server = begin_full(exchanging_server);
  uint64_t numbers[3] = {0};
  femem_answer answer = {0};
  femem *client = full(3, 1, numbers);
  CHECK(write(go[1], "", 1) == 1);
  while (femem_ready(client) == 0) femem_wait(client, numbers[1], &answer, 10);
  if (femem_cancel(client, numbers[2], &answer) == FEMEM_TIMEOUT) femem_wait(client, numbers[2], &answer, 20000);
  CHECK(answer.error == FEMEM_WITHDRAWN && answer.number == numbers[2]);
  ERROR(femem_wait(client, numbers[1], &answer, 20000), FEMEM_OK);
  CHECK(answer.value == 33 && answer.number == numbers[1]);
  ERROR(femem_next(client, &answer, 0), FEMEM_OK);
  CHECK(answer.error == FEMEM_WITHDRAWN && answer.number == numbers[0] && femem_ready(client) == 0);
  femem_close(client);
  END(server);
  close(go[0]);
  close(go[1]);
}

static void slow_server(int listener) {
  int line = take_line(listener);
  welcome(line);
  heard(line, read_of, 1);
  close(line);
  line = take_line(listener);
  hear(line, ATTACH_7);
  rest(300000);
  say(line, WELCOME_7);
  heard(line, read_of, 1);
  said(line, value_of, 1);
  hear_end(line);
}

/* A client that waits for short times comes back over one connection. If it had closed that with its attach unread, the
   server might read this last, and take the session from the client's next connection. */
static void short_waits(void) {
  test = "short waits while a server comes back";
  for (int64_t within = 0; within <= 20; within += 20) {
    pid_t server = begin_at(0, slow_server);
    femem *client = opened(&(femem_settings){.wait = 20000, .reconnect = 20000, .resume = true});
    uint64_t number = 0;
    femem_answer answer = {0};
    ERROR(femem_send_readfe(client, 1, 0, &number), FEMEM_OK);
    ERROR(femem_flush(client), FEMEM_OK);
    femem_error error = FEMEM_TIMEOUT;
    for (int tries = 0; tries < 20000 && error == FEMEM_TIMEOUT; tries++, rest(1000))
      error = femem_wait(client, number, &answer, within);
    ERROR(error, FEMEM_OK);
    CHECK(answer.value == 1 && femem_reconnects(client) == 1);
    femem_close(client);
    END(server);
  }
}

int main(void) {
  setvbuf(stdout, NULL, _IOLBF, 0);
  alarm(200);
  if (!mkdtemp(folder)) return 1;
  snprintf(path, sizeof path, "%s/socket", folder);
  void (*const tests[])(void) = {out_of_time, late_withdrawals, moves_on, several_move, stopped_move, resumed_stays,
                               quiet_descriptor, short_waits, breaks_while_taken_back,
                               taken_back_twice, stays_above_an_answer, place_is_kept, waits_its_turn,
                               answer_makes_room};
  for (size_t i = 0; i < sizeof tests / sizeof *tests; i++) tests[i]();
  unlink(path);
  rmdir(folder);
  printf("femem client, requests that wait: %d checks, %d failed\n", checks, failures);
  return failures ? 1 : 0;
}
