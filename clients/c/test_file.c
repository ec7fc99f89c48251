/* Tests of a client with a session file, against scripted servers. It ends by itself, and prints what failed. */
#define _DEFAULT_SOURCE
#define _POSIX_C_SOURCE 200809L
#include "session_file.h"

#include "scripts.h"

#include <errno.h>
#include <poll.h>
#include <signal.h>
#include <sys/stat.h>

static char kept_at[100], kept_new[100]; /* the session file, and its name while it is rewritten */

/* Counts of points passed: syncs, all sends, and sends of something not synced. */
static unsigned syncs, sends, early, last_send;
static bool unsynced_write;

void kill_point(const char *name) {
  /* In a life that ends with its last send. */
  if (last_send > 0 && strcmp(name, "sent") == 0 && --last_send == 0) _exit(failures > 0);
  if (strcmp(name, "written") == 0) unsynced_write = true;
  if (strcmp(name, "synced") == 0) unsynced_write = false;
  syncs += strcmp(name, "synced") == 0;
  sends += strcmp(name, "sent") == 0;
  early += strcmp(name, "sent") == 0 && unsynced_write;
}

static void fresh(void) {
  unlink(kept_at);
  unlink(kept_new);
}

static const femem_request add_one = {.operation = FEMEM_INT_FETCH_ADD, .array = 1, .operand = 1};
static const femem_request read_one = {.operation = FEMEM_READFE, .array = 1};

static const femem_settings patient = {.wait = 20000, .reconnect = FEMEM_NEVER};
static const femem_settings going_on = {.wait = 20000, .reconnect = 20000};

static femem *client_opened(const femem_settings *settings, femem_error due, int line) {
  femem *client;
  is_error(femem_open_file(&client, path, kept_at, settings), due, line);
  if (!client && due == FEMEM_OK) exit(1);
  return client;
}
#define OPEN(settings, due) client_opened(settings, due, __LINE__)

/* Takes any session's attach, and welcomes it at a floor. Returns the session. */
static uint64_t welcome_any(int line, const char *floor) {
  uint8_t frame[13];
  size_t at = 0;
  while (at < sizeof frame) {
    ssize_t size = recv(line, frame + at, sizeof frame - at, 0);
    if (size <= 0) _exit(1);
    at += (size_t)size;
  }
  if (frame[4] != 1) _exit(1);
  uint8_t reply[21] = {0, 0, 0, 17, 65};
  memcpy(reply + 5, frame + 5, 8);
  bytes_of(floor, reply + 13);
  say_bytes(line, reply, sizeof reply);
  return session_get(frame + 5, 8);
}

static void meet_any(int line) {
  welcome_any(line, "0000000000000001");
  hear(line, SETTLE_TO("21"));
  say(line, SETTLED_AT("21"));
}

/* Starts a life of the program, which ends at its send of that number. Returns 0 in the new process. */
static pid_t life_of(unsigned last) {
  fflush(stdout);
  pid_t life = fork();
  if (life == 0) last_send = last;
  return life;
}

static void batch_server(int listener) {
  int line = take_line(listener);
  meet_any(line);
  for (unsigned number = 1; number <= 32; number++) heard(line, add_of, number);
  for (unsigned number = 1; number <= 32; number++) said(line, value_of, number);
  hear_end(line);
  line = take_line(listener);
  welcome_any(line, "0000000000000021");
  heard(line, settle_of, 33);
  said(line, settled_of, 33);
  heard(line, add_of, 33);
  said(line, value_of, 33);
  hear_end(line);
}

/* A batch has one sync, before its send. Taken requests are noted as ended when the client is closed. */
static void batch(void) {
  test = "a batch";
  fresh();
  pid_t server = begin_at(32, batch_server);
  femem *client = OPEN(&patient, FEMEM_OK);
  femem_recovered recovered;
  femem_answer answer;
  uint64_t session = femem_session(client);
  ERROR(femem_recovered_at(client, 0, &recovered), FEMEM_NOTHING_OUT);
  for (int i = 0; i < 32; i++) ERROR(femem_send_int_fetch_add(client, 1, 0, 1, NULL), FEMEM_OK);
  syncs = sends = early = 0;
  for (unsigned due = 1; due <= 32; due++) {
    ERROR(femem_next(client, &answer, 20000), FEMEM_OK);
    CHECK(answer.value == due);
  }
  CHECK(syncs == 1 && sends == 1 && early == 0);
  femem *second;
  ERROR(femem_open_file(&second, path, kept_at, &patient), FEMEM_FILE_IN_USE);
  femem_close(client);
  client = OPEN(&patient, FEMEM_OK);
  uint64_t value = 0;
  CHECK(femem_session(client) == session && femem_out(client) == 0);
  ERROR(femem_recovered_at(client, 0, &recovered), FEMEM_NOTHING_OUT);
  ERROR(femem_int_fetch_add(client, 1, 0, 1, &value), FEMEM_OK);
  CHECK(value == 33 && femem_number(client) == 65);
  femem_close(client);
  END(server);
}

static void many_server(int listener) {
  int line = take_line(listener);
  meet_any(line);
  for (unsigned number = 1; number <= 32; number++) heard(line, add_of, number);
  for (unsigned number = 1; number <= 32; number++) said(line, value_of, number);
  heard(line, settle_of, 17);
  for (unsigned number = 33; number <= 40; number++) heard(line, add_of, number);
  said(line, settled_of, 17);
  for (unsigned number = 33; number <= 40; number++) said(line, value_of, number);
  hear_end(line);
}

/* Forty requests in two sends, each with one sync. */
static void many(void) {
  test = "many requests in one call";
  fresh();
  pid_t server = begin_at(32, many_server);
  femem *client = OPEN(&patient, FEMEM_OK);
  femem_request requests[40];
  femem_answer answers[40];
  for (int i = 0; i < 40; i++) requests[i] = add_one;
  syncs = sends = early = 0;
  ERROR(femem_batch(client, requests, 40, answers), FEMEM_OK);
  CHECK(syncs == 2 && sends == 2 && early == 0);
  for (unsigned i = 0; i < 40; i++)
    CHECK(answers[i].error == FEMEM_OK && answers[i].value == i + 1 && answers[i].number == 33 + i);
  requests[3].operation = (femem_operation)9;
  ERROR(femem_batch(client, requests, 40, answers), FEMEM_BAD_CALL);
  femem_close(client);
  END(server);
}

static void many_keys_server(int listener) {
  int line = take_line(listener);
  meet_any(line);
  for (unsigned number = 1; number <= 32; number++) heard(line, add_of, number);
  for (unsigned number = 1; number <= 10; number++) said(line, value_of, number);
  heard(line, cancel_of, 11);
  hear_end(line);
  line = take_line(listener);
  welcome_any(line, "0000000000000021");
  heard(line, settle_of, 11);
  for (unsigned number = 11; number <= 32; number++) heard(line, add_of, number);
  said(line, settled_of, 11);
  said_all(line, value_of, 11, 32);
  heard(line, add_of, 33);
  heard(line, settle_of, 33);
  for (unsigned number = 34; number <= 40; number++) heard(line, add_of, number);
  said(line, settled_of, 33);
  said_all(line, value_of, 33, 40);
  hear_end(line);
}

/* An interrupted batch with keys: the next life makes the same requests, and gets each answer of the one time. */
static void many_keys(void) {
  test = "many requests with keys";
  fresh();
  pid_t server = begin_at(32, many_keys_server);
  static char texts[40][20];
  const char *names[40];
  femem_request requests[40];
  femem_answer answers[40];
  for (int i = 0; i < 40; i++) {
    snprintf(texts[i], sizeof texts[i], "step %d", i);
    names[i] = texts[i];
    requests[i] = add_one;
  }
  pid_t life = life_of(0);
  if (life == 0) {
    const femem_settings brief = {.wait = 1000, .reconnect = FEMEM_NEVER};
    femem *client = OPEN(&brief, FEMEM_OK);
    last_send = 2; /* the batch, and the cancel of a request without an answer in time */
    femem_batch_once(client, names, requests, 40, answers);
    _exit(1);
  }
  END(life);
  femem *client = OPEN(&patient, FEMEM_OK);
  ERROR(femem_batch_once(client, names, requests, 40, answers), FEMEM_OK);
  for (unsigned i = 0; i < 40; i++)
    CHECK(answers[i].error == FEMEM_OK && answers[i].value == i + 1 && answers[i].number == 33 + i);
  requests[7].operand = 2;
  ERROR(femem_batch_once(client, names, requests, 40, answers), FEMEM_OTHER_REQUEST);
  names[3] = "";
  ERROR(femem_batch_once(client, names, requests, 40, answers), FEMEM_BAD_CALL);
  femem_close(client);
  END(server);
}

static void earlier_server(int listener) {
  int line = take_line(listener);
  meet_any(line);
  heard(line, add_of, 1);
  said(line, value_of, 1);
  for (unsigned number = 2; number <= 3; number++) heard(line, read_of, number);
  heard(line, add_of, 4);
  said(line, value_of, 4);
  heard(line, add_of, 5);
  said(line, value_of, 5);
  hear_end(line);
  line = take_line(listener);
  welcome_any(line, "0000000000000021");
  hear(line, SETTLE_TO("22"));
  said(line, settled_of, 2);
  /* The earlier life's requests without an answer, and the last one that it took. */
  for (unsigned number = 2; number <= 3; number++) heard(line, read_of, number);
  heard(line, add_of, 5);
  said(line, value_of, 5);
  said(line, value_of, 2);
  heard(line, cancel_of, 3);
  said(line, withdrawn_of, 3);
  heard(line, settle_of, 6); /* the earlier life's connection may still have a copy of it */
  said(line, settled_of, 6);
  hear_end(line);
}

/* What a killed life left is sent again, byte for byte, and is listed. */
static void earlier(void) {
  test = "the requests of the earlier life";
  fresh();
  pid_t server = begin_at(32, earlier_server);
  pid_t life = fork();
  if (life == 0) {
    femem *client = OPEN(&patient, FEMEM_OK);
    femem_answer answer;
    uint64_t value;
    femem_int_fetch_add(client, 1, 0, 1, &value);
    femem_send_readfe(client, 1, 0, NULL);
    femem_send_readfe(client, 1, 0, NULL);
    ERROR(femem_once(client, "four", &add_one, &answer), FEMEM_OK);
    ERROR(femem_int_fetch_add(client, 1, 0, 1, &value), FEMEM_OK);
    _exit(failures > 0);
  }
  END(life);
  femem *client = OPEN(&patient, FEMEM_OK);
  femem_recovered recovered[4] = {{0}};
  femem_answer answer = {0};
  unsigned count = 0;
  while (count < 4 && femem_recovered_at(client, count, &recovered[count]) == FEMEM_OK) count++;
  CHECK(count == 3 && femem_out(client) + femem_ready(client) == 3);
  CHECK(recovered[0].number == 34 && recovered[1].number == 35 && recovered[2].number == 37);
  CHECK(recovered[0].request.operation == FEMEM_READFE && recovered[2].request.operand == 1 && !*recovered[2].key);
  ERROR(femem_wait(client, 37, &answer, 20000), FEMEM_OK);
  CHECK(answer.value == 5);
  ERROR(femem_wait(client, 34, &answer, 20000), FEMEM_OK);
  CHECK(answer.value == 2 && answer.number == 34);
  ERROR(femem_cancel(client, 35, &answer), FEMEM_WITHDRAWN);
  CHECK(femem_floor(client) == 38);
  /* The key's answer comes from the file: nothing is sent. */
  ERROR(femem_once(client, "four", &add_one, &answer), FEMEM_OK);
  CHECK(answer.value == 4 && answer.number == 36 && femem_out(client) == 0 && femem_ready(client) == 0);
  femem_close(client);
  END(server);
}

static void passing_server(int listener) {
  for (int life = 0; life < 2; life++) {
    int line = take_line(listener);
    welcome_any(line, "0000000000000021");
    heard(line, read_of, 1);
    heard(line, read_of, 2);
    heard(line, cancel_of, 2);
    if (life == 0) said(line, withdrawn_of, 2);
    if (life == 1) said_all(line, value_of, 2, 2);
    if (life == 1) said(line, not_waiting_of, 2);
    said(line, value_of, 1);
    hear_end(line);
  }
}

/* A request that ends with its process: the next life takes it back, and nobody gets its answer. */
static void ends_with_process(void) {
  test = "a request that ends with its process";
  pid_t server = begin_at(32, passing_server);
  for (int life = 0; life < 2; life++) {
    fresh();
    session_file *kept = NULL;
    femem_recovered recovered = {0};
    femem_answer answer = {0};
    ERROR(session_file_open(&kept, kept_at), FEMEM_OK);
    CHECK(session_file_ask(kept, 33, 33, &read_one, NULL, false));
    CHECK(session_file_ask(kept, 34, 34, &read_one, NULL, true));
    CHECK(session_file_sync(kept, 33, 33, 35));
    session_file_close(kept);
    femem *client = OPEN(&patient, FEMEM_OK);
    ERROR(femem_recovered_at(client, 0, &recovered), FEMEM_OK);
    CHECK(recovered.number == 33);
    ERROR(femem_recovered_at(client, 1, &recovered), FEMEM_NOTHING_OUT);
    ERROR(femem_wait(client, 33, &answer, 20000), FEMEM_OK);
    CHECK(answer.value == 1 && femem_out(client) == 0 && femem_ready(client) == 0);
    ERROR(femem_next(client, &answer, 0), FEMEM_NOTHING_OUT);
    femem_close(client);
  }
  END(server);
}

static void keys_server(int listener) {
  int line = take_line(listener);
  meet_any(line);
  heard(line, add_of, 1);
  said(line, value_of, 1);
  heard(line, read_of, 2);
  hear_end(line);
  line = take_line(listener);
  welcome_any(line, "0000000000000021");
  hear(line, SETTLE_TO("22"));
  said(line, settled_of, 2);
  heard(line, read_of, 2);
  heard(line, cancel_of, 2);
  said(line, withdrawn_of, 2);
  heard(line, settle_of, 3);
  said(line, settled_of, 3);
  heard(line, read_of, 3);
  said(line, value_of, 3);
  heard(line, add_of, 4);
  said(line, "0000000a 46 %016x 08", 4);
  heard(line, add_of, 5);
  said(line, value_of, 5);
  hear_end(line);
}

/* A key has one request and one answer, until it is forgotten or if the request has not happened. */
static void keys(void) {
  test = "keys";
  fresh();
  pid_t server = begin_at(32, keys_server);
  femem_answer answer = {0};
  pid_t life = life_of(4);
  if (life == 0) {
    femem *client = OPEN(&patient, FEMEM_OK);
    femem_once(client, "one", &add_one, &answer);
    femem_once(client, "two", &read_one, &answer);
    _exit(1);
  }
  END(life);
  femem *client = OPEN(&patient, FEMEM_OK);
  femem_recovered recovered = {0};
  ERROR(femem_recovered_at(client, 0, &recovered), FEMEM_OK);
  CHECK(recovered.number == 34 && strcmp(recovered.key, "two") == 0);
  ERROR(femem_recovered_at(client, 1, &recovered), FEMEM_NOTHING_OUT);
  ERROR(femem_once(client, "two", &add_one, &answer), FEMEM_OTHER_REQUEST);
  ERROR(femem_forget(client, "two"), FEMEM_BAD_CALL);
  ERROR(femem_cancel(client, 34, &answer), FEMEM_WITHDRAWN);
  CHECK(femem_floor(client) == 35);
  ERROR(femem_once(client, "two", &read_one, &answer), FEMEM_OK);
  CHECK(answer.value == 3 && answer.number == 35);
  ERROR(femem_once(client, "one", &read_one, &answer), FEMEM_OTHER_REQUEST);
  ERROR(femem_once(client, "one", &add_one, &answer), FEMEM_OK);
  CHECK(answer.value == 1 && answer.number == 33);
  ERROR(femem_forget(client, "one"), FEMEM_OK);
  ERROR(femem_forget(client, "one"), FEMEM_NOTHING_OUT);
  ERROR(femem_once(client, "one", &add_one, &answer), FEMEM_REFUSED_NO_MEMORY);
  ERROR(femem_once(client, "one", &add_one, &answer), FEMEM_OK);
  CHECK(answer.value == 5);
  char longer[FEMEM_KEY + 2] = "";
  ERROR(femem_once(client, longer, &add_one, &answer), FEMEM_BAD_CALL);
  memset(longer, 'k', FEMEM_KEY + 1);
  ERROR(femem_once(client, longer, &add_one, &answer), FEMEM_BAD_CALL);
  femem_close(client);
  END(server);
}

static void faulty_server(int listener) {
  int line = take_line(listener);
  meet_any(line);
  heard(line, add_of, 1);
  said(line, value_of, 1);
  hear_end(line);
  hear_end(take_line(listener)); /* it connects, but can't note the attach */
  line = take_line(listener);
  welcome_any(line, "0000000000000021");
  heard(line, add_of, 1);
  said(line, value_of, 1);
  hear_end(line);
}

/* If the file can't be written, nothing is sent. */
static void file_fault(void) {
  test = "a file that can't be written";
  fresh();
  signal(SIGXFSZ, SIG_IGN);
  pid_t server = begin_at(32, faulty_server);
  femem *client = OPEN(&patient, FEMEM_OK);
  uint64_t value = 0;
  ERROR(femem_int_fetch_add(client, 1, 0, 1, &value), FEMEM_OK);
  struct stat about = {0};
  stat(kept_at, &about);
  struct rlimit limit, usual;
  getrlimit(RLIMIT_FSIZE, &usual);
  limit = usual;
  limit.rlim_cur = (rlim_t)about.st_size + 10; /* a part of the write is done */
  setrlimit(RLIMIT_FSIZE, &limit);
  ERROR(femem_int_fetch_add(client, 1, 0, 1, &value), FEMEM_FILE_FAULT);
  CHECK(femem_errno(client) == EFBIG);
  ERROR(femem_int_fetch_add(client, 1, 0, 1, &value), FEMEM_FILE_FAULT);
  setrlimit(RLIMIT_FSIZE, &usual);
  ERROR(femem_reconnect(client, 20000), FEMEM_FILE_FAULT);
  femem_close(client);
  client = OPEN(&patient, FEMEM_OK);
  femem_answer answer = {0};
  ERROR(femem_wait(client, 33, &answer, 20000), FEMEM_OK);
  CHECK(answer.value == 1 && femem_out(client) == 0);
  femem_close(client);
  END(server);
  ERROR(femem_open_file(&client, path, "/none/of/these", &patient), FEMEM_FILE_FAULT);
  CHECK(errno == ENOENT);
}

static void leaving_server(int listener) {
  int line = take_line(listener);
  meet_any(line);
  heard(line, add_of, 1);
  said(line, value_of, 1);
  hear(line, "00000001 08");
  hear_end(line);
  line = take_line(listener);
  uint64_t session = welcome_any(line, "0000000000000001"); /* it was ended */
  hear(line, SETTLE_TO("21"));
  say(line, SETTLED_AT("21"));
  hear(line, "00000001 08");
  uint8_t goodbye[13] = {0, 0, 0, 9, 69};
  session_put(goodbye + 5, session, 8);
  say_bytes(line, goodbye, sizeof goodbye);
  hear_end(line);
  line = take_line(listener);
  if (welcome_any(line, "0000000000000001") == session) _exit(1);
  hear(line, SETTLE_TO("21"));
  say(line, SETTLED_AT("21"));
  heard(line, add_of, 1);
  said(line, value_of, 1);
  hear_end(line);
}

/* A life that is killed during its bye: the next one ends that session, and begins another. */
static void leaving(void) {
  test = "a bye that was broken off";
  fresh();
  pid_t server = begin_at(32, leaving_server);
  uint64_t value = 0;
  pid_t life = life_of(4);
  if (life == 0) {
    femem *client = OPEN(&patient, FEMEM_OK);
    femem_int_fetch_add(client, 1, 0, 1, &value);
    femem_bye(client);
    _exit(1);
  }
  END(life);
  femem *client = OPEN(&patient, FEMEM_OK);
  ERROR(femem_int_fetch_add(client, 1, 0, 1, &value), FEMEM_OK);
  CHECK(value == 1);
  femem_close(client);
  END(server);
}

static void strange_server(int listener) {
  int line = take_line(listener);
  meet_any(line);
  heard(line, add_of, 1);
  said(line, value_of, 1);
  hear_end(line);
  static const char *const floors[] = {"0000000000000001", "0000000000000022", "0000000000000023"};
  for (int i = 0; i < 3; i++) {
    line = take_line(listener);
    welcome_any(line, floors[i]);
    hear_end(line);
  }
}

/* A session that was begun again, or that another program used, is not the file's. */
static void strange_session(void) {
  test = "a session that is another one";
  fresh();
  pid_t server = begin_at(32, strange_server);
  femem *client = OPEN(&patient, FEMEM_OK);
  uint64_t value = 0;
  ERROR(femem_int_fetch_add(client, 1, 0, 1, &value), FEMEM_OK);
  femem_close(client);
  for (int i = 0; i < 3; i++) OPEN(&patient, FEMEM_SESSION_LOST);
  END(server);
}

static void left_server(int listener) {
  int line = take_line(listener);
  meet_any(line);
  for (unsigned number = 1; number <= 3; number++) heard(line, add_of, number);
  hear_end(line);
  line = take_line(listener);
  welcome_any(line, "0000000000000021");
  for (unsigned number = 1; number <= 3; number++) heard(line, add_of, number);
  for (unsigned number = 1; number <= 3; number++) said(line, value_of, number);
  for (unsigned number = 4; number <= 43; number++) {
    if (number >= 33 && number <= 35) {
      unsigned floor = number == 35 ? 35 : number - 31;
      heard(line, settle_of, floor);
      said(line, settled_of, floor);
    }
    heard(line, add_of, number);
    said(line, value_of, number);
  }
  hear_end(line);
}

/* Recovered answers that are not taken hold up nothing. */
static void left_answers(void) {
  test = "recovered answers that nobody takes";
  fresh();
  pid_t server = begin_at(32, left_server);
  uint64_t value = 0;
  pid_t life = life_of(3);
  if (life == 0) {
    femem *client = OPEN(&patient, FEMEM_OK);
    for (int i = 0; i < 3; i++) femem_send_int_fetch_add(client, 1, 0, 1, NULL);
    femem_flush(client);
    _exit(1);
  }
  END(life);
  femem *client = OPEN(&patient, FEMEM_OK);
  for (unsigned due = 4; due <= 43; due++) {
    ERROR(femem_int_fetch_add(client, 1, 0, 1, &value), FEMEM_OK);
    CHECK(value == due);
  }
  CHECK(femem_out(client) == 0 && femem_ready(client) == 0);
  femem_close(client);
  END(server);
}

static void held_server(int listener) {
  int line = take_line(listener);
  meet_any(line);
  heard(line, add_of, 1);
  hear_end(line);
  line = take_line(listener);
  welcome_any(line, "0000000000000021");
  heard(line, add_of, 1);
  said(line, value_of, 1);
  for (unsigned number = 2; number <= 3; number++) heard(line, read_of, number);
  close(line);
  line = take_line(listener);
  welcome_any(line, "0000000000000021");
  for (unsigned number = 2; number <= 3; number++) heard(line, read_of, number);
  said(line, value_of, 2);
  heard(line, cancel_of, 3);
  said(line, withdrawn_of, 3);
  heard(line, settle_of, 4);
  said(line, settled_of, 4);
  hear_end(line);
}

/* Nor do they hold up the end of a request that was sent again and is taken back, which needs the floor above it. */
static void left_answer_holds(void) {
  test = "a recovered answer below a request that is taken back";
  fresh();
  pid_t server = begin_at(32, held_server);
  pid_t life = life_of(3);
  if (life == 0) {
    femem *client = OPEN(&patient, FEMEM_OK);
    femem_send_int_fetch_add(client, 1, 0, 1, NULL);
    femem_flush(client);
    _exit(1);
  }
  END(life);
  femem *client = OPEN(&going_on, FEMEM_OK);
  const femem_request asked[] = {read_one, read_one};
  femem_answer got[2];
  ERROR(femem_wait_any(client, asked, 2, FEMEM_FOREVER, got), FEMEM_OK);
  CHECK(got[0].error == FEMEM_OK && got[0].value == 2 && got[1].error == FEMEM_WITHDRAWN);
  CHECK(femem_out(client) == 0 && femem_ready(client) == 0 && femem_reconnects(client) == 1);
  femem_close(client);
  END(server);
}

static void cancelled_server(int listener) {
  int line = take_line(listener);
  meet_any(line);
  heard(line, add_of, 1);
  hear_end(line);
  line = take_line(listener);
  welcome_any(line, "0000000000000021");
  heard(line, add_of, 1);
  said(line, value_of, 1);
  heard(line, read_of, 2);
  close(line);
  line = take_line(listener);
  welcome_any(line, "0000000000000021");
  heard(line, read_of, 2);
  heard(line, cancel_of, 2);
  said(line, withdrawn_of, 2);
  heard(line, settle_of, 3);
  said(line, settled_of, 3);
  hear_end(line);
}

/* Nor that of a cancel. */
static void left_answer_and_cancel(void) {
  test = "a recovered answer below a request that is cancelled";
  fresh();
  pid_t server = begin_at(32, cancelled_server);
  pid_t life = life_of(3);
  if (life == 0) {
    femem *client = OPEN(&patient, FEMEM_OK);
    femem_send_int_fetch_add(client, 1, 0, 1, NULL);
    femem_flush(client);
    _exit(1);
  }
  END(life);
  femem *client = OPEN(&going_on, FEMEM_OK);
  uint64_t number = 0;
  femem_answer answer = {0};
  ERROR(femem_send_readfe(client, 1, 0, &number), FEMEM_OK);
  while (femem_reconnects(client) == 0) femem_wait(client, number, &answer, 10);
  ERROR(femem_cancel(client, number, &answer), FEMEM_WITHDRAWN);
  CHECK(femem_out(client) == 0 && femem_ready(client) == 0);
  femem_close(client);
  END(server);
}

static void passed_server(int listener) {
  int line = take_line(listener);
  meet_any(line);
  heard(line, add_of, 1);
  said(line, value_of, 1);
  heard(line, read_of, 2);
  heard(line, cancel_of, 2);
  close(line);
  line = take_line(listener);
  welcome_any(line, "0000000000000021");
  heard(line, read_of, 2);
  heard(line, cancel_of, 2);
  said(line, withdrawn_of, 2);
  heard(line, settle_of, 3);
  close(line);
  line = take_line(listener);
  welcome_any(line, "0000000000000021");
  heard(line, read_of, 2);
  heard(line, cancel_of, 2);
  hear_nothing(line);
  said(line, value_of, 2); /* it happens after all */
  said(line, not_waiting_of, 2);
  heard(line, settle_of, 3);
  said(line, settled_of, 3);
  hear_end(line);
  line = take_line(listener);
  welcome_any(line, "0000000000000023");
  hear_end(line);
}

/* A key is free only once it is sure that its request does nothing. If the answer comes after all, though a settle was
   sent, the key has it, in a later process too. */
static void passed_key(void) {
  test = "a key whose request was taken back";
  fresh();
  pid_t server = begin_at(32, passed_server);
  pid_t life = life_of(0);
  if (life == 0) {
    femem *client = OPEN(&going_on, FEMEM_OK);
    uint64_t number = 0;
    femem_answer answer = {0};
    ERROR(femem_send_int_fetch_add(client, 1, 0, 1, &number), FEMEM_OK);
    ERROR(femem_once_within(client, "key", &read_one, 0, &answer), FEMEM_TIMEOUT);
    ERROR(femem_forget(client, "key"), FEMEM_BAD_CALL);
    ERROR(femem_once_within(client, "key", &read_one, 0, &answer), FEMEM_TIMEOUT);
    ERROR(femem_wait(client, number, &answer, 20000), FEMEM_OK);
    ERROR(femem_once(client, "key", &read_one, &answer), FEMEM_OK);
    CHECK(answer.value == 2 && femem_reconnects(client) == 2 && femem_out(client) == 0);
    ERROR(femem_settle(client), FEMEM_OK); /* reads what has come */
    _exit(failures > 0); /* as if it was killed */
  }
  END(life);
  femem *client = OPEN(&going_on, FEMEM_OK);
  femem_answer answer = {0};
  ERROR(femem_once(client, "key", &read_one, &answer), FEMEM_OK);
  CHECK(answer.value == 2 && femem_out(client) == 0);
  femem_close(client);
  END(server);
}

static void welcome_server(int listener) {
  int line = take_line(listener);
  welcome(line);
  hear_end(line);
}

static void crowded_server(int listener) {
  int line = take_line(listener);
  meet_any(line);
  for (unsigned number = 1; number <= 32; number++) heard(line, add_of, number);
  hear_end(line);
  line = take_line(listener);
  welcome_any(line, "0000000000000021");
  for (unsigned number = 1; number <= 32; number++) heard(line, add_of, number);
  rest(50000);
  said_all(line, value_of, 1, 32);
  heard(line, settle_of, 2); /* one answer that was not taken is dropped, since its place is needed */
  heard(line, add_of, 33);
  said(line, settled_of, 2);
  said(line, "0000000a 46 %016x 01", 33); /* not attached: the remains of another life have the session */
  hear_end(line);
  line = take_line(listener);
  welcome_any(line, "0000000000000022");
  heard(line, add_of, 33);
  said(line, value_of, 33);
  hear_end(line);
}

/* A window full of an earlier life's requests makes a call wait, not fail; nor does an attach of that life that the
   server reads late make it fail. */
static void crowded(void) {
  test = "a window full of recovered requests";
  fresh();
  pid_t server = begin_at(32, crowded_server);
  pid_t life = life_of(3);
  if (life == 0) {
    femem *client = OPEN(&patient, FEMEM_OK);
    for (int i = 0; i < 32; i++) femem_send_int_fetch_add(client, 1, 0, 1, NULL);
    femem_flush(client);
    _exit(1);
  }
  END(life);
  femem *client = OPEN(&going_on, FEMEM_OK);
  uint64_t value = 0;
  ERROR(femem_int_fetch_add(client, 1, 0, 1, &value), FEMEM_OK);
  CHECK(value == 33 && femem_reconnects(client) == 1);
  femem_close(client);
  END(server);
}

static void late_server(int listener) {
  int line = take_line(listener);
  meet_any(line);
  for (unsigned number = 1; number <= 32; number++) heard(line, add_of, number);
  for (unsigned number = 1; number <= 32; number++) said(line, value_of, number);
  hear_end(line);
  line = take_line(listener);
  welcome_any(line, "0000000000000021");
  heard(line, settle_of, 33);
  heard(line, add_of, 33);
  char hex[80]; /* the settle: a request below it waits; and the request: it is beyond the window. In one piece */
  snprintf(hex, sizeof hex, "0000000a 46 %016x 06 0000000a 46 %016x 04", 33, 33);
  say(line, hex);
  hear_end(line);
  line = take_line(listener);
  welcome_any(line, "0000000000000021");
  for (unsigned number = 1; number <= 32; number++) heard(line, cancel_of, number);
  heard(line, settle_of, 33);
  heard(line, add_of, 33);
  for (unsigned number = 1; number <= 32; number++)
    said(line, number == 5 ? withdrawn_of : not_waiting_of, number);
  said(line, settled_of, 33);
  said(line, value_of, 33);
  hear_end(line);
}

/* A request that the server reads late, from an earlier life's connection, may wait although it was taken back since. It
   is taken back again, since no settle passes it. */
static void late_request(void) {
  test = "an earlier life's request that comes late";
  fresh();
  pid_t server = begin_at(32, late_server);
  femem *client = OPEN(&patient, FEMEM_OK);
  femem_answer answer;
  for (int i = 0; i < 32; i++) ERROR(femem_send_int_fetch_add(client, 1, 0, 1, NULL), FEMEM_OK);
  for (int i = 0; i < 32; i++) ERROR(femem_next(client, &answer, 20000), FEMEM_OK);
  femem_close(client);
  client = OPEN(&going_on, FEMEM_OK);
  uint64_t value = 0;
  ERROR(femem_int_fetch_add(client, 1, 0, 1, &value), FEMEM_OK);
  CHECK(value == 33 && femem_reconnects(client) == 1);
  femem_close(client);
  END(server);
}

static void closing_server(int listener) {
  int line = take_line(listener);
  meet_any(line);
  heard(line, read_of, 1);
  hear_end(line);
  line = take_line(listener);
  welcome_any(line, "0000000000000021");
  heard(line, read_of, 1);
  for (unsigned number = 2; number <= 32; number++) heard(line, add_of, number);
  char hex[200]; /* the answer that makes room, and that an earlier life has the session: in one piece */
  snprintf(hex, sizeof hex, "00000016 42 %016x 01 %016x 00000000 0000000a 46 %016x 01", 33, 1, 34);
  say(line, hex);
  hear_end(line);
  line = take_line(listener);
  welcome_any(line, "0000000000000021");
  for (unsigned number = 2; number <= 32; number++) heard(line, add_of, number);
  said_all(line, value_of, 2, 32);
  heard(line, settle_of, 2);
  heard(line, add_of, 33);
  said(line, settled_of, 2);
  said(line, value_of, 33);
  hear_end(line);
}

/* A send reads what has come, to make room, and finds that the connection is gone. The attach goes out first. */
static void closed_by_a_send(void) {
  test = "a connection that a send finds closed";
  fresh();
  pid_t server = begin_at(32, closing_server);
  femem_answer answer = {0};
  pid_t life = life_of(3);
  if (life == 0) {
    femem *client = OPEN(&patient, FEMEM_OK);
    femem_once(client, "one", &read_one, &answer);
    _exit(1);
  }
  END(life);
  femem *client = OPEN(&going_on, FEMEM_OK);
  for (unsigned number = 2; number <= 32; number++) ERROR(femem_send_int_fetch_add(client, 1, 0, 1, NULL), FEMEM_OK);
  ERROR(femem_flush(client), FEMEM_OK);
  CHECK(poll(&(struct pollfd){.fd = femem_descriptor(client), .events = POLLIN}, 1, 20000) == 1);
  ERROR(femem_send_int_fetch_add(client, 1, 0, 1, NULL), FEMEM_OK);
  for (unsigned due = 2; due <= 33; due++) {
    ERROR(femem_next(client, &answer, 20000), FEMEM_OK);
    CHECK(answer.error == FEMEM_OK && answer.value == due);
  }
  CHECK(femem_reconnects(client) == 1);
  femem_close(client);
  END(server);
}

static void copied_server(int listener) {
  for (int i = 0; i < 2; i++) {
    int line = take_line(listener);
    meet_any(line);
    hear_end(line);
  }
}

/* A child of the program shares the lock and the connection until it closes them. It writes nothing. */
static void copied(void) {
  test = "a client that a fork copied";
  fresh();
  pid_t server = begin(copied_server);
  femem *client = OPEN(&patient, FEMEM_OK), *second;
  femem_answer answer;
  int go[2], gone[2];
  char byte = 0;
  if (pipe(go) || pipe(gone)) abort();
  pid_t child = fork();
  if (child == 0) {
    close(go[1]);
    ERROR(femem_once(client, "key", &add_one, &answer), FEMEM_FORKED);
    ERROR(femem_forget(client, "key"), FEMEM_FORKED);
    if (read(go[0], &byte, 1) != 1) _exit(1);
    femem_close(client);
    if (write(gone[1], &byte, 1) != 1 || read(go[0], &byte, 1) != 0) _exit(1);
    _exit(failures > 0);
  }
  femem_close(client);
  ERROR(femem_open_file(&second, path, kept_at, &patient), FEMEM_FILE_IN_USE);
  CHECK(write(go[1], &byte, 1) == 1 && read(gone[0], &byte, 1) == 1);
  second = OPEN(&patient, FEMEM_OK);
  femem_close(second);
  close(go[1]);
  END(child);
  END(server);
  close(go[0]);
  close(gone[0]);
  close(gone[1]);
}

static void arguments(void) {
  test = "arguments";
  femem *client;
  femem_answer answer;
  femem_recovered recovered;
  ERROR(femem_open_file(NULL, path, kept_at, &patient), FEMEM_BAD_CALL);
  ERROR(femem_open_file(&client, path, NULL, &patient), FEMEM_BAD_CALL);
  ERROR(femem_open_file(&client, path, kept_at, &resuming), FEMEM_BAD_CALL);
  fresh();
  ERROR(femem_open_file(&client, "/none/of/these", kept_at, NULL), FEMEM_UNREACHABLE);
  pid_t server = begin(welcome_server);
  client = opened(&resuming);
  ERROR(femem_once(client, "key", &add_one, &answer), FEMEM_BAD_CALL);
  ERROR(femem_forget(client, "key"), FEMEM_BAD_CALL);
  ERROR(femem_recovered_at(client, 0, &recovered), FEMEM_BAD_CALL);
  femem_close(client);
  END(server);
}

int main(void) {
  setvbuf(stdout, NULL, _IOLBF, 0);
  alarm(100);
  if (!mkdtemp(folder)) return 1;
  snprintf(path, sizeof path, "%s/socket", folder);
  snprintf(kept_at, sizeof kept_at, "%s/session", folder);
  snprintf(kept_new, sizeof kept_new, "%s/session.new", folder);
  void (*const tests[])(void) = {batch, many, many_keys, earlier, ends_with_process, keys, file_fault,
                                 leaving, strange_session, left_answers, left_answer_holds,
                                 left_answer_and_cancel, passed_key, crowded, late_request, closed_by_a_send, copied,
                                 arguments};
  for (size_t i = 0; i < sizeof tests / sizeof *tests; i++) tests[i]();
  unlink(path);
  fresh();
  rmdir(folder);
  printf("femem client with a session file: %d checks, %d failed\n", checks, failures);
  return failures ? 1 : 0;
}
