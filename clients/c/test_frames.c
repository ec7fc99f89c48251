/* Tests of the client's frames: the worked ones, the decoder, and any bytes. It ends by itself, and prints what failed.
   */
#define _POSIX_C_SOURCE 200809L
#include "testing.h"

#include "client.h"

#include <stdlib.h>

/* ---- encoding ---- */

static void spelled(uint64_t number, femem_request request, const char *hex, int line) {
  uint8_t due[64], got[LONGEST_REQUEST];
  size_t count = bytes_of(hex, due), size = fe_put_request(got, number, &request);
  check(size == count && memcmp(due, got, count) == 0, hex, line);
}

static void frames(void) {
  test = "frames";
  spelled(1, (femem_request){.operation = FEMEM_CREATE, .name_length = 5, .name = "cells", .length = 2},
          WORKED_CREATE, __LINE__);
  spelled(2, (femem_request){.operation = FEMEM_WRITEEF, .array = 1, .operand = 42}, WORKED_WRITE, __LINE__);
  spelled(3, (femem_request){.operation = FEMEM_READFE, .array = 1, .operand = 9}, WORKED_READ, __LINE__);
  spelled(4, (femem_request){.operation = FEMEM_READXX, .array = 1}, WORKED_LOOK, __LINE__);
  spelled(5, (femem_request){.operation = FEMEM_READFE, .array = 1, .no_wait = true}, WORKED_NOW, __LINE__);
  spelled(6, (femem_request){.operation = FEMEM_FIND, .name_length = 5, .name = "cells"},
          "0000001a 03 0000000000000006 05 63656c6c730000000000000000000000", __LINE__);
  spelled(7, (femem_request){.operation = FEMEM_REMOVE, .array = 258},
          "00000011 04 0000000000000007 0000000000000102", __LINE__);
  femem_request longer = {.operation = FEMEM_FIND, .name_length = 17, .name = "abcdefghijklmnopq", .length = 3};
  longer.full = true;
  spelled(8, longer,
          "0000002a 0d 0000000000000008 11 6162636465666768696a6b6c6d6e6f7071 000000000000000000000000000000",
          __LINE__);
  longer.operation = FEMEM_CREATE;
  spelled(9, longer,
          "0000002f 0c 0000000000000009 11 6162636465666768696a6b6c6d6e6f7071 000000000000000000000000000000"
          "00000003 01", __LINE__);
}

/* ---- the decoder ---- */

static void decoder(void) {
  test = "decoder";
  static const struct { const char *hex; int takes; } table[] = {
    {"", 0}, {"000000", 0}, {"00000000", -1}, {"00040002", -1}, {"ffffffff", -1}, {"00040001", 0}, {"00040001 47", 5},
    {"00000001 47", -1}, {"00000002 47", 5}, {"00000011 40", -1}, {"00000011 48", -1}, {"00000010 41", -1},
    {"00000011 41", 0},
    {"00000009 01", -1}, {WELCOME_7, 21}, {VALUE("01", "05"), 26}, {DONE("01"), 26},
    {"00000016 42 0000000000000001 00 0000000000000000 00000000", -1},
    {"00000016 42 0000000000000001 0c 0000000000000000 00000000", -1},
    {"00000016 42 0000000000000001 01 0000000000000005 00000001", -1},
    {"00000016 42 0000000000000001 02 0000000000000001 00000000", -1},
    {"00000016 42 0000000000000001 02 0000000000000000 00000001", -1},
    {"00000016 42 0000000000000001 04 0000000000000001 00000000", -1},
    {"00000016 42 0000000000000001 0b 0000000000000000 00000001", -1},
    {"00000016 42 0000000000000001 0b 0000000000000000 00000000", 26},
    {"0000000a 46 0000000000000001 00", -1}, {"0000000a 46 0000000000000001 0b", -1},
    {"0000000a 46 0000000000000001 0a", 14},
    {"00000009 43 0000000000000001", 13}, {"00000009 44 0000000000000001", 13}, {"00000009 45 00000000000000", 0},
  };
  for (size_t i = 0; i < sizeof table / sizeof *table; i++) {
    uint8_t *bytes = malloc(64), read[64];
    size_t count = bytes_of(table[i].hex, read);
    bytes = realloc(bytes, count ? count : 1); /* the sanitizers report any byte read beyond them */
    memcpy(bytes, read, count);
    reply told;
    check(fe_read_reply(bytes, count, &told) == table[i].takes, table[i].hex, __LINE__);
    free(bytes);
  }
  static const struct { const char *hex; bool text; } texts[] = {
    {"77 61 0a", true}, {"c3 a4", true}, {"e2 82 ac", true}, {"f0 9f 98 80", true}, {"c0 80", false}, {"c1 bf", false},
    {"80", false},
    {"e0 9f bf", false}, {"ed a0 80", false}, {"f0 8f bf bf", false}, {"f4 90 80 80", false}, {"f5 80 80 80", false},
    {"e2 82", false},
    {"c3 41", false}, {"ff", false},
  };
  for (size_t i = 0; i < sizeof texts / sizeof *texts; i++) {
    uint8_t bytes[16];
    check(fe_is_text(bytes, bytes_of(texts[i].hex, bytes)) == texts[i].text, texts[i].hex, __LINE__);
  }
}

static uint64_t drawn = 0x9e3779b97f4a7c15;
static uint64_t draw(void) {
  drawn ^= drawn << 13;
  drawn ^= drawn >> 7;
  return drawn ^= drawn << 17;
}

/* Makes a reply, mostly close to an expected one, sometimes with a changed byte. */
static size_t odd_reply(uint8_t *at) {
  static const char *hex[] = {
    WELCOME_7, VALUE("01", "05"), VALUE("02", "05"), DONE("03"), "00000009 43 0000000000000004",
    "00000009 43 0000000000000001", "00000009 43 0000000000000002", SETTLED_AT("01"),
    "0000000a 46 0000000000000005 0a", "0000000a 46 0000000000000006 08", "00000009 45 0000000000000007",
    "00000006 47 6162636465", "0000000a 46 0000000000000000 08",
  };
  size_t count = bytes_of(hex[draw() % (sizeof hex / sizeof *hex)], at);
  if (draw() % 4 == 0) at[draw() % count] = (uint8_t)draw();
  if (draw() % 8 == 0) at[12] = (uint8_t)(draw() % 40);
  return count;
}

/* A client in a random phase, with eight numbers out. */
static void begin_any(femem *client) {
  char *text = client->text;
  *client = (femem){.descriptor = -1, .session = 7, .text = text, .report = REPORT_ASKED, .attaches = 2};
  client->cancels = 3;
  client->moving = 2;
  client->phase = draw() % 8 == 0 ? OPENING : draw() % 8 == 0 ? RETURNING : SERVED;
  client->floor_told = client->floor_asked = client->low = client->next = 1;
  for (uint64_t number = 1; client->phase != OPENING && number <= 8; number++) {
    slot *place = fe_slot_of(client, number);
    *place = (slot){.state = OUT, .wire = number, .answer.number = number};
    place->cancelled = number == 4 ? TO_END : number < 3 ? TO_MOVE : NOT;
    place->request.operation = (femem_operation)(15 + number);
    client->out++;
    client->next++;
  }
}

static bool is_sound(const femem *client) {
  unsigned moving = 0;
  for (const slot *place = client->slots; place < client->slots + WINDOW; place++)
    moving += place->cancelled == TO_MOVE;
  bool counted = client->phase == OPENING || client->moving == moving;
  return counted && client->out <= 8 && client->out + client->ready <= 8 && client->low <= client->next &&
         client->input_end <= INPUT && client->output_end <= OUTPUT;
}

/* Whatever bytes come, the client's counts stay consistent, without undefined behaviour. */
static void fuzz(void) {
  test = "any bytes";
  femem *client = calloc(1, sizeof *client);
  client->text = malloc(LONGEST_REPORT + 1);
  unsigned broken = 0;
  bool sound = true;
  for (int round = 0; round < 20000; round++) {
    begin_any(client);
    femem_error error = FEMEM_OK;
    for (int piece = 0; piece < 12 && error == FEMEM_OK; piece++) {
      client->input_end += odd_reply(client->input + client->input_end);
      if (draw() % 3) error = fe_digest(client);
    }
    broken += error != FEMEM_OK;
    sound = sound && is_sound(client);
  }
  CHECK(sound);
  CHECK(broken > 1000);
  free(client->text);
  free(client);
}

/* ---- arguments ---- */

static void arguments(void) {
  test = "arguments";
  femem client = {.descriptor = -1, .phase = SERVED, .low = 1, .next = 1, .floor_told = 1, .floor_asked = 1};
  ERROR(femem_send(&client, &(femem_request){.operation = 15}, NULL), FEMEM_BAD_CALL);
  ERROR(femem_send(&client, &(femem_request){.operation = FEMEM_CREATE, .name_length = 33}, NULL), FEMEM_BAD_CALL);
  ERROR(femem_create(&client, "a_name_that_has_thirty_three_byte", 1, true, NULL), FEMEM_BAD_NAME);
  ERROR(femem_open(NULL, "socket", 7, NULL), FEMEM_BAD_CALL);
  femem_close(NULL);
  CHECK(sizeof(femem) < 22 * 1024);
  for (int error = -1; error < 400; error++) CHECK(femem_error_text((femem_error)error)[0] != 0);
}

int main(void) {
  frames();
  decoder();
  fuzz();
  arguments();
  printf("femem client, frames: %d checks, %d failed\n", checks, failures);
  return failures ? 1 : 0;
}
