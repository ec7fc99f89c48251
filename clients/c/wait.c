/* Waiting for a condition of a client. */
#define _POSIX_C_SOURCE 200809L
#include "client.h"

bool fe_is_answered(femem *client, uint64_t number) {
  slot *place = fe_find(client, number);
  return !place || place->state == ANSWERED || fe_is_blocked(client, place);
}

bool fe_is_settled(femem *client, uint64_t floor) { return client->floor_told >= floor; }

bool fe_any_answered(femem *client, uint64_t unused) {
  (void)unused;
  return client->ready > 0 || client->out == 0;
}

bool fe_any_of(femem *client, uint64_t count) {
  for (uint64_t i = 0; i < count; i++)
    if (fe_is_answered(client, client->awaited[i])) return true;
  return false;
}

/* No request is moving, and the one that held the floor is not being cancelled. */
bool fe_is_moved(femem *client, uint64_t wire) {
  slot *place = fe_slot_of(client, wire);
  return client->moving == 0 && !(place->wire == wire && place->state == OUT && place->cancelled == TO_END);
}

bool fe_is_reported(femem *client, uint64_t unused) {
  (void)unused;
  return client->report == REPORT_HERE;
}

bool fe_is_ended(femem *client, uint64_t unused) {
  (void)unused;
  return client->ended;
}

/* It writes, since nothing else looks at the socket again while this is waited for. */
static bool is_written(femem *client, uint64_t unused) {
  (void)unused;
  if (client->phase != CLOSED) fe_write_some(client);
  return client->output_begin == client->output_end;
}

femem_error fe_wait_for(femem *client, condition holds, uint64_t number, int64_t end) {
  if (holds(client, number)) return FEMEM_OK;
  if (client->at_once) end = fe_now();
  else client->quiet_since = fe_now();
  for (bool first = true;; first = false) {
    if (!first && fe_is_past(end)) return FEMEM_TIMEOUT;
    bool returns = client->phase == RETURNING;
    femem_error error = returns ? fe_come_back(client, end) : fe_mend(client, fe_step(client, end), end);
    if (holds(client, number)) return FEMEM_OK;
    if (error) return error;
  }
}

femem_error fe_write_all(femem *client, int64_t end) {
  femem_error error = fe_wait_for(client, is_written, 0, end);
  return error == FEMEM_OK && client->phase == CLOSED ? client->broken : error;
}
