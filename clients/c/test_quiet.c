/* Silence, against scripted servers: an attach whose welcome went to another connection, and a session taken from a
   waiting client. The client is compiled to ask sooner than usual. It ends by itself, and prints what failed. */
#include "scripts.h"

#include <stdlib.h>

#define ASKED_AFTER "00000009 06 8000000000000000"
#define STILL_OWN "0000000a 46 8000000000000000 0a"
#define NOT_OWN "0000000a 46 8000000000000000 01"

static void unwelcome_server(int listener) {
  int line = take_line(listener);
  hear(line, ATTACH_7);
  hear(line, ATTACH_7 ASKED_AFTER);
  say(line, WELCOME_7);
  hear_nothing(line);
  say(line, STILL_OWN);
  hear(line, ADD("01"));
  say(line, WELCOME_7 VALUE("01", "05"));
  hear_end(line);
}

/* No welcome comes in time to the first attach. It may be that one's that comes then, and the second attach unread: so
   nothing is sent before the refusal of what followed the second one. */
static void attaches_again(void) {
  test = "an attach that is not answered";
  pid_t server = begin(unwelcome_server);
  femem *client = opened(&(femem_settings){.wait = 20000, .reconnect = FEMEM_NEVER, .resume = true});
  uint64_t value = 0;
  ERROR(femem_int_fetch_add(client, 1, 0, 1, &value), FEMEM_OK);
  CHECK(value == 5);
  femem_close(client);
  END(server);
}

static void taking_server(int listener) {
  int line = take_line(listener);
  welcome(line);
  hear(line, READ("01"));
  hear(line, ASKED_AFTER);
  say(line, STILL_OWN);
  hear(line, ASKED_AFTER);
  say(line, NOT_OWN);
  hear_end(line);
}

/* A call that waits for ever learns that another connection has its session. */
static void taken(void) {
  test = "a session that was taken from a client that waits";
  pid_t server = begin(taking_server);
  femem *client = opened(&(femem_settings){.wait = FEMEM_FOREVER, .reconnect = FEMEM_NEVER, .resume = true});
  uint64_t value = 0;
  ERROR(femem_readfe(client, 1, 0, &value), FEMEM_REFUSED_NOT_ATTACHED);
  CHECK(femem_out(client) == 1);
  femem_close(client);
  END(server);
}

/* Welcomes whatever session is attached. Returns the session. */
static uint64_t meet_any(int line) {
  uint8_t head[13];
  if (recv(line, head, sizeof head, MSG_WAITALL) != sizeof head || head[4] != 1) _exit(1);
  uint64_t session = 0;
  for (int i = 5; i < 13; i++) session = session << 8 | head[i];
  return session;
}

static void taking_file_server(int listener) {
  char hex[100];
  int line = take_line(listener);
  uint64_t session = meet_any(line);
  snprintf(hex, sizeof hex, "00000011 41 %016llx 0000000000000001", (unsigned long long)session);
  say(line, hex);
  hear(line, SETTLE_TO("21"));
  say(line, SETTLED_AT("21"));
  hear(line, READ("21"));
  hear(line, ASKED_AFTER);
  say(line, NOT_OWN);
  hear_end(line);
  line = take_line(listener);
  if (meet_any(line) != session) _exit(1);
  snprintf(hex, sizeof hex, "00000011 41 %016llx 0000000000000021", (unsigned long long)session);
  say(line, hex);
  hear(line, READ("21"));
  say(line, VALUE("21", "09"));
  hear_end(line);
}

/* A client with a session file takes its session back: the remains of an earlier life took it. */
static void taken_back(void) {
  test = "a session file's session that was taken";
  char file[100];
  snprintf(file, sizeof file, "%s/session", folder);
  pid_t server = begin(taking_file_server);
  femem *client = NULL;
  ERROR(femem_open_file(&client, path, file, &(femem_settings){.wait = FEMEM_FOREVER, .reconnect = 20000}), FEMEM_OK);
  uint64_t value = 0;
  if (client) ERROR(femem_readfe(client, 1, 0, &value), FEMEM_OK);
  CHECK(value == 9);
  femem_close(client);
  END(server);
  unlink(file);
}

int main(void) {
  setvbuf(stdout, NULL, _IOLBF, 0);
  alarm(200);
  if (!mkdtemp(folder)) return 1;
  snprintf(path, sizeof path, "%s/socket", folder);
  attaches_again();
  taken();
  taken_back();
  unlink(path);
  rmdir(folder);
  printf("femem client, silence: %d checks, %d failed\n", checks, failures);
  return failures ? 1 : 0;
}
