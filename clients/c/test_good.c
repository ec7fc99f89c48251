/* The client against good servers: the worked exchange, opening, the window, and reconnecting after a stop. It ends by
   itself, and prints what failed. */
#include "scripts.h"

static void worked_server(int listener) {
  int line = take_line(listener);
  const char *replies[] = {
    WELCOME_7,
    "00000016 42 0000000000000001 03 0000000000000001 00000002",
    "00000016 42 0000000000000002 02 0000000000000000 00000000",
    "00000016 42 0000000000000003 01 000000000000002a 00000000",
    "00000016 42 0000000000000004 01 000000000000002a 00000000",
    "00000016 42 0000000000000005 0b 0000000000000000 00000000",
  };
  const char *messages[] = {ATTACH_7, WORKED_CREATE, WORKED_WRITE, WORKED_READ, WORKED_LOOK, WORKED_NOW};
  for (int i = 0; i < 6; i++) {
    hear(line, messages[i]);
    uint8_t bytes[64];
    size_t count = bytes_of(replies[i], bytes);
    for (size_t at = 0; at < count; at++) say_bytes(line, bytes + at, 1);
  }
  hear(line, "00000001 09");
  say(line, "0000000b 47 77616974696e6720300a");
  hear(line, "00000001 08");
  say(line, "00000009 45 0000000000000007");
  hear_end(line);
}

static void worked(void) {
  test = "worked exchange, replies byte by byte";
  pid_t server = begin(worked_server);
  femem *client = opened(&resuming);
  uint64_t array = 0, value = 0;
  femem_answer answer = {0};
  ERROR(femem_create(client, "cells", 2, false, &array), FEMEM_OK);
  CHECK(array == 1);
  ERROR(femem_writeef(client, 1, 0, 42), FEMEM_OK);
  ERROR(femem_readfe(client, 1, 0, &value), FEMEM_OK);
  CHECK(value == 42);
  value = 0;
  ERROR(femem_readxx(client, 1, 0, &value), FEMEM_OK);
  CHECK(value == 42);
  femem_request now_or_not = {.operation = FEMEM_READFE, .array = 1, .no_wait = true};
  ERROR(femem_call(client, &now_or_not, &answer), FEMEM_NOT_NOW);
  CHECK(answer.number == 5 && femem_number(client) == 5 && femem_out(client) == 0);
  const char *text = NULL;
  ERROR(femem_report(client, &text), FEMEM_OK);
  CHECK(text && strcmp(text, "waiting 0\n") == 0);
  ERROR(femem_bye_within(client, 60000), FEMEM_OK);
  ERROR(femem_readxx(client, 1, 0, &value), FEMEM_ENDED);
  ERROR(femem_reconnect(client, 10), FEMEM_ENDED);
  femem_close(client);
  END(server);
}

/* ---- opening, settling, the window ---- */

/* Another program had the session: an answer and a welcome to its connection come first, and one of its requests waits.
   */
static void opening_server(int listener) {
  int line = take_line(listener);
  hear(line, ATTACH_7);
  say(line, VALUE("09", "05") "00000011 41 0000000000000007 0000000000000003");
  hear(line, SETTLE_TO("23"));
  say(line, SETTLED_AT("05") "00000011 41 0000000000000007 0000000000000005" SETTLED_AT("23"));
  hear(line, SETTLE_TO("25"));
  say(line, "0000000a 46 0000000000000025 06");
  for (uint64_t number = 5; number < 37; number++) {
    char hex[40];
    snprintf(hex, sizeof hex, "00000009 06 %016llx", (unsigned long long)number);
    hear(line, hex);
    if (number == 9) snprintf(hex, sizeof hex, "00000009 43 %016llx", (unsigned long long)number);
    else snprintf(hex, sizeof hex, "0000000a 46 %016llx 0a", (unsigned long long)number);
    say(line, hex);
  }
  hear(line, SETTLE_TO("25"));
  say(line, SETTLED_AT("25"));
  hear(line, ADD("25"));
  say(line, VALUE("25", "00"));
  hear_end(line);
}

static void opening(void) {
  test = "a session that another program had";
  pid_t server = begin(opening_server);
  femem *client = opened(&(femem_settings){.wait = 20000, .reconnect = FEMEM_NEVER});
  uint64_t value = 1;
  ERROR(femem_int_fetch_add(client, 1, 0, 1, &value), FEMEM_OK);
  CHECK(value == 0 && femem_number(client) == 37 && femem_floor(client) == 37);
  femem_close(client);
  END(server);
}

/* The earlier program was stopped just after its attach: its welcome comes first, and has the same floor. A settle
   follows each of the two, and each settle is answered. Or the answer to the earlier program's settle comes in between.
   */
static void twice_welcome_server(int listener) {
  int line = take_line(listener);
  hear(line, ATTACH_7);
  say(line, WELCOME_7 WELCOME_7);
  hear(line, SETTLE_TO("21") SETTLE_TO("21"));
  say(line, SETTLED_AT("21"));
  hear(line, ADD("21"));
  say(line, SETTLED_AT("21") VALUE("21", "00"));
  hear_end(line);
  line = take_line(listener);
  hear(line, ATTACH_7);
  say(line, WELCOME_7);
  hear(line, SETTLE_TO("21"));
  say(line, SETTLED_AT("21") "00000011 41 0000000000000007 0000000000000021");
  hear(line, ADD("21"));
  say(line, SETTLED_AT("21") VALUE("21", "00"));
  hear_end(line);
}

static void twice_welcome(void) {
  test = "a session that another program attached just before";
  pid_t server = begin(twice_welcome_server);
  for (int i = 0; i < 2; i++) {
    femem *client = opened(&(femem_settings){.wait = 20000, .reconnect = FEMEM_NEVER});
    uint64_t value = 1;
    ERROR(femem_int_fetch_add(client, 1, 0, 1, &value), FEMEM_OK);
    CHECK(value == 0 && femem_floor(client) == 33);
    femem_close(client);
  }
  END(server);
}

static void refusing_server(int listener) {
  int line = take_line(listener);
  hear(line, ATTACH_7);
  say(line, "0000000a 46 0000000000000007 02");
  hear_end(line);
  line = take_line(listener);
  hear(line, ATTACH_7);
  say(line, "0000000a 46 0000000000000007 07");
  hear_end(line);
  line = take_line(listener);
  welcome(line);
  hear_end(line);
}

static void refused_attach(void) {
  test = "an attach that is refused";
  pid_t server = begin(refusing_server);
  femem *client;
  ERROR(femem_open(&client, path, 7, &resuming), FEMEM_REFUSED_SESSION_LIMIT);
  client = opened(&returning); /* tries again while the session is closing */
  femem_close(client);
  END(server);
}

static void window_server(int listener) {
  int line = take_line(listener);
  char hex[200];
  welcome(line);
  for (unsigned number = 1; number <= 32; number++) {
    snprintf(hex, sizeof hex, "0000001e 05 %016x 17 0000000000000001 00000000 0000000000000001", number);
    hear(line, hex);
  }
  for (unsigned number = 32; number >= 1; number--) { /* an order that no server uses, but that is allowed */
    snprintf(hex, sizeof hex, "00000016 42 %016x 01 %016x 00000000", number, number);
    say(line, hex);
  }
  hear(line, SETTLE_TO("21") ADD("21"));
  say(line, SETTLED_AT("21") VALUE("21", "21"));
  for (unsigned number = 34; number <= 50; number++) { /* a settle after the call with 16 answers below it */
    snprintf(hex, sizeof hex, "0000001e 05 %016x 17 0000000000000001 00000000 0000000000000001", number);
    hear(line, hex);
    if (number == 49) hear(line, SETTLE_TO("31"));
    snprintf(hex, sizeof hex, "00000016 42 %016x 01 %016x 00000000", number, number);
    say(line, hex);
  }
  say(line, SETTLED_AT("31"));
  hear(line, SETTLE_TO("33"));
  say(line, SETTLED_AT("33"));
  hear_end(line);
}

static void window(void) {
  test = "the window";
  pid_t server = begin(window_server);
  femem *client = opened(&resuming);
  uint64_t number = 0, value = 0;
  for (int i = 0; i < 32; i++) ERROR(femem_send_int_fetch_add(client, 1, 0, 1, &number), FEMEM_OK);
  CHECK(number == 32 && femem_out(client) == 32);
  ERROR(femem_send_int_fetch_add(client, 1, 0, 1, &number), FEMEM_WINDOW_FULL);
  femem_answer answer = {0};
  ERROR(femem_wait(client, 7, &answer, 20000), FEMEM_OK);
  CHECK(answer.number == 7 && answer.value == 7);
  ERROR(femem_wait(client, 7, &answer, 20000), FEMEM_NOTHING_OUT);
  ERROR(femem_wait(client, 33, &answer, 20000), FEMEM_NOTHING_OUT);
  for (uint64_t due = 32; due >= 1; due--) {
    if (due == 7) continue;
    ERROR(femem_send_purge(client, 1, 0, NULL), FEMEM_WINDOW_FULL);
    ERROR(femem_next(client, &answer, 20000), FEMEM_OK);
    CHECK(answer.number == due && answer.value == due);
  }
  ERROR(femem_next(client, &answer, 20000), FEMEM_NOTHING_OUT);
  for (unsigned due = 33; due <= 50; due++) {
    ERROR(femem_int_fetch_add(client, 1, 0, 1, &value), FEMEM_OK);
    CHECK(value == due);
  }
  ERROR(femem_settle(client), FEMEM_OK);
  CHECK(femem_floor(client) == 51);
  femem_close(client);
  END(server);
}

/* ---- reconnecting ---- */

/* After a stop, answers may come before this attach's welcome, as may the welcome of an interrupted attach. */
static void returning_server(int listener) {
  int line = take_line(listener);
  welcome(line);
  hear(line, ADD("01") ADD("02") ADD("03"));
  say(line, VALUE("01", "00"));
  close(line);
  line = take_line(listener);
  hear(line, ATTACH_7);
  close(line);
  line = take_line(listener);
  hear(line, ATTACH_7);
  say(line, VALUE("02", "01") WELCOME_7 WELCOME_7);
  hear(line, ADD("03"));
  say(line, VALUE("02", "01") VALUE("01", "00") VALUE("03", "02"));
  hear(line, ADD("04"));
  close(line); /* without a reply: the server's next life has it */
  line = take_line(listener);
  close(line);
  line = take_line(listener);
  hear(line, ATTACH_7);
  say(line, WELCOME_7);
  hear(line, ADD("04"));
  say(line, VALUE("04", "03"));
  hear_end(line);
}

static void comes_back(void) {
  test = "coming back";
  pid_t server = begin(returning_server);
  femem *client = opened(&returning);
  femem_answer answer = {0};
  for (int i = 0; i < 3; i++) ERROR(femem_send_int_fetch_add(client, 1, 0, 1, NULL), FEMEM_OK);
  for (uint64_t due = 1; due <= 3; due++) {
    ERROR(femem_next(client, &answer, 20000), FEMEM_OK);
    CHECK(answer.number == due && answer.value == due - 1);
  }
  uint64_t value = 0;
  ERROR(femem_int_fetch_add(client, 1, 0, 1, &value), FEMEM_OK);
  CHECK(value == 3 && femem_reconnects(client) == 2);
  femem_close(client);
  END(server);
}

/* Without `reconnect` the caller reconnects: the request stays out, and is sent again with its settle and its cancel.
   */
static void asked_back_server(int listener) {
  int line = take_line(listener);
  welcome(line);
  for (unsigned number = 1; number <= 17; number++) {
    char hex[200];
    snprintf(hex, sizeof hex, "0000001e 05 %016x 17 0000000000000001 00000000 0000000000000001", number);
    hear(line, hex);
    if (number == 17) break;
    snprintf(hex, sizeof hex, "00000016 42 %016x 01 %016x 00000000", number, number);
    say(line, hex);
  }
  hear(line, SETTLE_TO("11"));
  hear(line, "00000009 06 0000000000000011");
  close(line);
  line = take_line(listener);
  hear(line, ATTACH_7);
  say(line, WELCOME_7);
  hear(line, SETTLE_TO("11") ADD("11") "00000009 06 0000000000000011");
  say(line, SETTLED_AT("11") "00000009 43 0000000000000011");
  hear(line, SETTLE_TO("12")); /* the first connection may still have a copy of it */
  say(line, SETTLED_AT("12"));
  hear_end(line);
}

static void asked_back(void) {
  test = "coming back when asked";
  pid_t server = begin(asked_back_server);
  femem *client = opened(&resuming);
  uint64_t value = 0, number = 0;
  femem_answer answer = {0};
  for (int i = 0; i < 16; i++) ERROR(femem_int_fetch_add(client, 1, 0, 1, &value), FEMEM_OK);
  ERROR(femem_send_int_fetch_add(client, 1, 0, 1, &number), FEMEM_OK);
  ERROR(femem_cancel(client, number, &answer), FEMEM_DISCONNECTED);
  ERROR(femem_flush(client), FEMEM_DISCONNECTED);
  ERROR(femem_int_fetch_add(client, 1, 0, 1, &value), FEMEM_DISCONNECTED);
  ERROR(femem_reconnect(client, 20000), FEMEM_OK);
  ERROR(femem_wait(client, number, &answer, 20000), FEMEM_OK);
  CHECK(answer.error == FEMEM_WITHDRAWN && femem_floor(client) == 18);
  femem_close(client);
  END(server);
}

static void half_report_server(int listener) {
  int line = take_line(listener);
  welcome(line);
  hear(line, "00000001 09");
  say(line, "0000000b 47 77616974");
  close(line);
  line = take_line(listener);
  welcome(line);
  hear(line, "00000001 09");
  say(line, "0000000b 47 77616974696e6720300a");
  hear(line, "00000001 08");
  close(line);
  line = take_line(listener);
  hear(line, ATTACH_7);
  say(line, "00000011 41 0000000000000007 0000000000000001");
  hear(line, "00000001 08");
  say(line, "00000009 45 0000000000000007");
  hear_end(line);
}

/* Other messages are sent again too. */
static void half_report(void) {
  test = "a stop in a report and in a bye";
  pid_t server = begin(half_report_server);
  femem *client = opened(&returning);
  const char *text = "";
  ERROR(femem_report(client, &text), FEMEM_OK);
  CHECK(strcmp(text, "waiting 0\n") == 0);
  ERROR(femem_bye_within(client, 60000), FEMEM_OK);
  femem_close(client);
  END(server);
}

static void lost_server(int listener) {
  int line = take_line(listener);
  hear(line, ATTACH_7);
  say(line, "00000011 41 0000000000000007 0000000000000005");
  hear(line, ADD("05"));
  close(line);
  for (int i = 0; i < 2; i++) {
    line = take_line(listener);
    hear(line, ATTACH_7);
    say(line, i ? "00000011 41 0000000000000007 0000000000000006" : WELCOME_7);
    hear_end(line); /* nothing is sent again, since it might happen twice */
  }
}

static void session_lost(void) {
  test = "a session that was ended by another";
  pid_t server = begin(lost_server);
  femem *client = opened(&returning);
  uint64_t value;
  ERROR(femem_int_fetch_add(client, 1, 0, 1, &value), FEMEM_SESSION_LOST);
  ERROR(femem_reconnect(client, 20000), FEMEM_SESSION_LOST);
  CHECK(femem_out(client) == 1);
  femem_close(client);
  END(server);
}

static void taken_server(int listener) {
  int line = take_line(listener);
  welcome(line);
  hear(line, ADD("01"));
  say(line, "0000000a 46 0000000000000001 01");
  hear_end(line);
  line = take_line(listener);
  hear(line, ATTACH_7);
  say(line, WELCOME_7);
  hear(line, ADD("01"));
  say(line, VALUE("01", "00"));
  hear(line, READ("02") "00000009 06 0000000000000002");
  say(line, VALUE("02", "09") "0000000a 46 0000000000000002 0a");
  hear(line, READ("03"));
  rest(100000);
  hear(line, "00000009 06 0000000000000003");
  say(line, "00000009 43 0000000000000003");
  hear(line, READ("04"));
  say(line, "0000000a 46 0000000000000004 09");
  hear_end(line);
}

static void taken_over(void) {
  test = "a session taken over, cancels, a refusal";
  pid_t server = begin(taken_server);
  femem *client = opened(&returning);
  femem_answer answer = {0};
  uint64_t value = 1, number = 0;
  ERROR(femem_int_fetch_add(client, 1, 0, 1, &value), FEMEM_REFUSED_NOT_ATTACHED);
  ERROR(femem_reconnect(client, 20000), FEMEM_OK);
  ERROR(femem_wait(client, 1, &answer, 20000), FEMEM_OK);
  CHECK(answer.value == 0);
  ERROR(femem_send_readfe(client, 1, 0, &number), FEMEM_OK);
  ERROR(femem_cancel(client, number, &answer), FEMEM_OK);
  CHECK(answer.value == 9 && answer.number == 2);
  femem_request request = {.operation = FEMEM_READFE, .array = 1};
  ERROR(femem_call_within(client, &request, 50, &answer), FEMEM_WITHDRAWN);
  ERROR(femem_readfe(client, 1, 0, &value), FEMEM_REFUSED_SPENT);
  femem_close(client);
  END(server);
}

int main(void) {
  setvbuf(stdout, NULL, _IOLBF, 0);
  alarm(200);
  if (!mkdtemp(folder)) return 1;
  snprintf(path, sizeof path, "%s/socket", folder);
  void (*const tests[])(void) = {worked, opening, twice_welcome, refused_attach, window, comes_back,
                                 asked_back, half_report, session_lost, taken_over};
  for (size_t i = 0; i < sizeof tests / sizeof *tests; i++) tests[i]();
  unlink(path);
  rmdir(folder);
  printf("femem client, good servers: %d checks, %d failed\n", checks, failures);
  return failures ? 1 : 0;
}
