/* The client against malicious servers: bad frames, wrong numbers, replies without end, silence. Each is a named error
   in time, and memory does not grow. It ends by itself, and prints what failed. */
#include "scripts.h"

static const char *malice; /* the server's reply to the first call, number 1 */

static void malicious_server(int listener) {
  int line = take_line(listener);
  welcome(line);
  hear(line, READ("01"));
  say(line, malice);
  hear_end(line);
}

static void malicious(void) {
  static const struct { const char *hex; femem_error due; } table[] = {
    {"00000000", FEMEM_BAD_FRAME}, {"ffffffff", FEMEM_BAD_FRAME}, {"00040002 47", FEMEM_BAD_FRAME},
    {"48545450 2f312e31", FEMEM_BAD_FRAME},
    {"00000016 42 0000000000000001 0c 0000000000000000 00000000", FEMEM_BAD_FRAME},
    {"0000000a 46 0000000000000001 0b", FEMEM_BAD_FRAME},
    {VALUE("21", "05"), FEMEM_WRONG_NUMBER}, {VALUE("00", "05"), FEMEM_WRONG_NUMBER},
    {"00000016 42 ffffffffffffffff 01 0000000000000005 00000000", FEMEM_WRONG_NUMBER},
    {"00000009 43 0000000000000001", FEMEM_WRONG_NUMBER},
    {"00000009 43 0000000000000063", FEMEM_WRONG_NUMBER}, {"0000000a 46 0000000000000063 08", FEMEM_WRONG_NUMBER},
    {"0000000a 46 0000000000000001 0a", FEMEM_WRONG_NUMBER}, {DONE("01"), FEMEM_STRANGE_REPLY},
    {"00000016 42 0000000000000001 03 0000000000000001 00000002", FEMEM_STRANGE_REPLY},
    {"00000016 42 0000000000000001 06 0000000000000000 00000000", FEMEM_STRANGE_REPLY},
    {"00000016 42 0000000000000001 0b 0000000000000000 00000000", FEMEM_STRANGE_REPLY},
    {WELCOME_7 WELCOME_7 WELCOME_7, FEMEM_STRANGE_REPLY},
    {"00000011 41 0000000000000008 0000000000000001", FEMEM_STRANGE_REPLY},
    {SETTLED_AT("01"), FEMEM_STRANGE_REPLY}, {"00000009 45 0000000000000007", FEMEM_STRANGE_REPLY},
    {"00000002 47 61", FEMEM_STRANGE_REPLY},
    {"0000000a 46 0000000000000000 08", FEMEM_STRANGE_REPLY},
    {"0000000a 46 0000000000000001 01", FEMEM_REFUSED_NOT_ATTACHED},
  };
  for (size_t i = 0; i < sizeof table / sizeof *table; i++) {
    test = malice = table[i].hex;
    pid_t server = begin(malicious_server);
    femem *client = opened(&resuming);
    uint64_t value = 0;
    ERROR(femem_readfe(client, 1, 0, &value), table[i].due);
    /* The error stays, and nothing more is sent. */
    ERROR(femem_readfe(client, 1, 0, &value), table[i].due);
    CHECK(femem_descriptor(client) == -1);
    END(server);
    femem_close(client);
  }
}

static void answers_server(int listener) {
  int line = take_line(listener);
  welcome(line);
  hear(line, READ("01"));
  say(line, VALUE("01", "05"));
  hear(line, READ("02"));
  say(line, VALUE("01", "05") VALUE("01", "05") VALUE("02", "06"));
  hear(line, READ("03"));
  say(line, VALUE("01", "07"));
  hear_end(line);
}

static void answers_again(void) {
  test = "an answer comes again, and then another one";
  pid_t server = begin(answers_server);
  femem *client = opened(&resuming);
  uint64_t value = 0;
  ERROR(femem_readfe(client, 1, 0, &value), FEMEM_OK);
  ERROR(femem_readfe(client, 1, 0, &value), FEMEM_OK);
  CHECK(value == 6);
  ERROR(femem_readfe(client, 1, 0, &value), FEMEM_CHANGED_ANSWER);
  END(server);
  femem_close(client);
}

/* A server that never sends what is due, but something else without end. */
static uint8_t endless[65536];
static size_t endless_count;

static void endless_server(int listener) {
  int line = take_line(listener);
  welcome(line);
  hear(line, "00000001 09");
  for (;;) say_bytes(line, endless, endless_count);
}

static long peak(void) {
  struct rusage usage;
  getrusage(RUSAGE_SELF, &usage);
  return usage.ru_maxrss;
}

static void endless_report(const char *name, const char *head, size_t body, femem_error due, femem_error then) {
  test = name;
  memset(endless, 'x', sizeof endless);
  size_t count = bytes_of(head, endless) + body;
  for (endless_count = count; endless_count + count <= sizeof endless; endless_count += count)
    memcpy(endless + endless_count, endless, count);
  pid_t server = begin(endless_server);
  femem *client = opened(&(femem_settings){.wait = 1000, .reconnect = 20000, .resume = true});
  const char *text;
  long before = peak();
  int64_t began = moment_now();
  ERROR(femem_report(client, &text), due);
  ERROR(femem_report(client, &text), then);
  CHECK(moment_now() - began < 15000000);
  CHECK(peak() - before < 2048);
  femem_close(client);
  END(server);
}

static void trickling_server(int listener) {
  int line = take_line(listener);
  welcome(line);
  hear(line, "00000001 09");
  say(line, "00040001 47");
  for (;;) {
    say(line, "61");
    rest(20000);
  }
}

static void endless_reports(void) {
  endless_report("a report that is too long", "00040002 47", 1000, FEMEM_BAD_FRAME, FEMEM_BAD_FRAME);
  /* The first is the answer; the next call reports what follows it. */
  endless_report("reports without end", "00000401 47", 1024, FEMEM_OK, FEMEM_STRANGE_REPLY);
  endless_report("a report that is no text", "00000003 47 ff ff", 0, FEMEM_BAD_FRAME, FEMEM_BAD_FRAME);
  endless_report("settled without end", SETTLED_AT("01"), 0, FEMEM_STRANGE_REPLY, FEMEM_STRANGE_REPLY);
  test = "a report that trickles";
  pid_t server = begin(trickling_server);
  femem *client = opened(&(femem_settings){.wait = 300, .reconnect = 20000, .resume = true});
  const char *text;
  int64_t began = moment_now();
  ERROR(femem_report(client, &text), FEMEM_TIMEOUT);
  CHECK(moment_now() - began < 15000000);
  femem_close(client);
  END(server);
}

/* The same answer again and again, without end: it is ignored, but the time runs out. */
static void flooding_server(int listener) {
  int line = take_line(listener);
  welcome(line);
  hear(line, READ("01"));
  say(line, VALUE("01", "05"));
  hear(line, READ("02"));
  /* In large pieces, so that there is always something to read. */
  size_t count = bytes_of(VALUE("01", "05"), endless);
  for (endless_count = count; endless_count + count <= sizeof endless; endless_count += count)
    memcpy(endless + endless_count, endless, count);
  for (;;) say_bytes(line, endless, endless_count);
}

static void flood(void) {
  test = "an answer without end";
  pid_t server = begin(flooding_server);
  femem *client = opened(&(femem_settings){.wait = 400, .reconnect = 20000, .resume = true});
  uint64_t value;
  ERROR(femem_readfe(client, 1, 0, &value), FEMEM_OK);
  long before = peak();
  int64_t began = moment_now();
  ERROR(femem_readfe(client, 1, 0, &value), FEMEM_TIMEOUT);
  CHECK(moment_now() - began < 15000000);
  CHECK(peak() - before < 2048);
  femem_close(client);
  END(server);
}

static void silent_server(int listener) {
  int line = take_line(listener);
  hear(line, ATTACH_7);
  hear_end(line);
  line = take_line(listener);
  welcome(line);
  hear(line, READ("01") "00000009 06 0000000000000001");
  hear_end(line);
}

static void closing_server(int listener) {
  for (int i = 0; i < 3; i++) close(take_line(listener));
}

static void silence(void) {
  test = "a silent server";
  pid_t server = begin(silent_server);
  femem *client;
  femem_answer answer;
  int64_t began = moment_now();
  static const femem_settings brief = {.wait = 200, .reconnect = FEMEM_NEVER, .resume = true};
  ERROR(femem_open(&client, path, 7, &brief), FEMEM_TIMEOUT);
  CHECK(client == NULL);
  client = opened(&(femem_settings){.wait = 200, .reconnect = 20000, .resume = true});
  uint64_t value;
  ERROR(femem_readfe(client, 1, 0, &value), FEMEM_TIMEOUT);
  CHECK(femem_out(client) == 1);
  ERROR(femem_cancel(client, femem_number(client), &answer), FEMEM_TIMEOUT);
  ERROR(femem_next(client, &answer, 0), FEMEM_TIMEOUT);
  ERROR(femem_bye(client), FEMEM_BAD_CALL);
  CHECK(moment_now() - began < 15000000);
  femem_close(client);
  END(server);

  test = "no server";
  static const femem_settings once = {.reconnect = FEMEM_NEVER};
  server = begin(closing_server);
  ERROR(femem_open(&client, path, 7, &once), FEMEM_DISCONNECTED);
  ERROR(femem_open(&client, path, 7, &once), FEMEM_DISCONNECTED);
  ERROR(femem_open(&client, path, 7, &once), FEMEM_DISCONNECTED);
  END(server);
  ERROR(femem_open(&client, path, 7, &once), FEMEM_UNREACHABLE);
  began = moment_now();
  ERROR(femem_open(&client, path, 7, &(femem_settings){.wait = 100, .reconnect = 200}), FEMEM_UNREACHABLE);
  CHECK(moment_now() - began >= 200000 && moment_now() - began < 15000000);
  unlink(path);
  ERROR(femem_open(&client, path, 7, &once), FEMEM_UNREACHABLE);
  char longer[200];
  memset(longer, 'a', sizeof longer - 1);
  longer[sizeof longer - 1] = 0;
  ERROR(femem_open(&client, longer, 7, NULL), FEMEM_BAD_CALL);
}

int main(void) {
  setvbuf(stdout, NULL, _IOLBF, 0);
  alarm(200);
  if (!mkdtemp(folder)) return 1;
  snprintf(path, sizeof path, "%s/socket", folder);
  void (*const tests[])(void) = {malicious, answers_again, endless_reports, flood, silence};
  for (size_t i = 0; i < sizeof tests / sizeof *tests; i++) tests[i]();
  unlink(path);
  rmdir(folder);
  printf("femem client, malicious servers: %d checks, %d failed\n", checks, failures);
  return failures ? 1 : 0;
}
