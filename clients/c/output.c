/* The output: messages to be written to the server. */
#define _POSIX_C_SOURCE 200809L
#include "client.h"

#include <string.h>

uint8_t *fe_room(femem *client, size_t size) {
  if (client->output_begin == client->output_end) client->output_begin = client->output_end = 0;
  if (client->output_end + size > OUTPUT) {
    memmove(client->output, client->output + client->output_begin, client->output_end - client->output_begin);
    client->output_end -= client->output_begin;
    client->output_begin = 0;
  }
  if (client->output_end + size > OUTPUT) return NULL;
  uint8_t *at = client->output + client->output_end;
  client->output_end += size;
  return at;
}

bool fe_has_room(const femem *client, size_t size) {
  return client->output_end - client->output_begin + size <= OUTPUT;
}

void fe_put_short(femem *client, uint8_t kind, uint64_t number) {
  uint8_t *at = fe_room(client, 13);
  if (!at) return;
  fe_put4(at, 9);
  at[4] = kind;
  fe_put8(at + 5, number);
}

void fe_put_probe(femem *client) {
  client->probes++;
  fe_put_short(client, CANCEL, PROBE);
}

void fe_put_bare(femem *client, uint8_t kind) {
  uint8_t *at = fe_room(client, 5);
  if (!at) return;
  fe_put4(at, 1);
  at[4] = kind;
}

void fe_put_settle(femem *client, uint64_t floor) {
  client->floor_asked = floor;
  client->settles++;
  fe_note_passed(client, floor);
  fe_put_short(client, SETTLE, floor);
}

void fe_put_cancel(femem *client, uint64_t number) {
  client->cancels++;
  fe_put_short(client, CANCEL, number);
}

void fe_put_slot(femem *client, uint64_t number) {
  uint8_t spelled[LONGEST_REQUEST];
  size_t size = fe_put_request(spelled, number, &fe_slot_of(client, number)->request);
  uint8_t *at = fe_room(client, size);
  if (at) memcpy(at, spelled, size);
}

static void put_with_cancel(femem *client, uint64_t number) {
  fe_put_slot(client, number);
  fe_put_cancel(client, number);
}

bool fe_asks_back(femem *client) {
  bool asked = client->asks_back, expects = false;
  client->asks_back = true;
  for (uint64_t number = client->floor_told; number < client->floor_asked; number++) {
    slot *place = fe_slot_of(client, number);
    if (place->state != BACK || place->wire != number) continue;
    if (!asked) put_with_cancel(client, number);
    if (!asked) place->expected = true;
    expects = expects || place->expected;
  }
  return expects;
}

void fe_put_again(femem *client) {
  uint64_t floor = client->restored ? client->low : client->floor_asked;
  client->restored = false;
  for (uint64_t ended = client->floor_told; client->late && ended < client->low; ended++) fe_put_cancel(client, ended);
  client->late = false;
  uint64_t passed = client->floor_asked;
  if (floor > client->floor_told) fe_put_settle(client, floor);
  for (uint64_t number = passed; number < client->next; number++)
    if (fe_slot_of(client, number)->state == BACK) put_with_cancel(client, number);
  for (uint64_t number = client->low; number < client->next; number++) {
    slot *place = fe_slot_of(client, number);
    if (place->state != OUT) continue;
    place->again = true;
    if (place->cancelled == TO_END) put_with_cancel(client, number);
    else fe_put_slot(client, number);
  }
  fe_raise_floor(client);
  if (client->report == REPORT_ASKED) fe_put_bare(client, REPORT);
  if (client->bye) fe_put_bare(client, BYE);
}
