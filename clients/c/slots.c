/* The 32 slots of requests: which numbers are out, answered and taken, and how a request moves to a later number. */
#define _POSIX_C_SOURCE 200809L
#include "client.h"

#include <inttypes.h>

slot *fe_slot_of(femem *client, uint64_t number) { return &client->slots[number % WINDOW]; }

bool fe_is_known(femem *client, uint64_t wire) {
  slot *place = fe_slot_of(client, wire);
  return place->state != FREE && place->wire == wire;
}

static bool is_active(const slot *place) {
  return place->state != FREE && place->state != TAKEN;
}

slot *fe_find(femem *client, uint64_t number) {
  slot *place = fe_slot_of(client, number);
  if (is_active(place) && place->answer.number == number) return place;
  for (place = client->slots; place < client->slots + WINDOW; place++)
    if (is_active(place) && place->answer.number == number) return place;
  return NULL;
}

/* The least number that is BACK, or UINT64_MAX. */
static uint64_t first_back(const femem *client) {
  uint64_t first = UINT64_MAX;
  for (const slot *place = client->slots; place < client->slots + WINDOW; place++)
    if (place->state == BACK && place->wire < first) first = place->wire;
  return first;
}

/* Whether the floor may rise above the number. Of those that are BACK it passes one at a time, and of those that move
   only the ones before it, so that there is a number for each. */
static bool may_pass(femem *client, uint64_t wire) {
  const slot *place = fe_slot_of(client, wire);
  uint64_t back = first_back(client);
  return place->state == TAKEN || (place->state == PARKED && wire < back) || (place->state == BACK && wire == back);
}

void fe_advance(femem *client) {
  while (client->low < client->next && fe_slot_of(client, client->low)->state != PARKED && may_pass(client, client->low))
    client->low++;
}

void fe_note_passed(femem *client, uint64_t floor) {
  for (slot *place = client->slots; place < client->slots + WINDOW && client->file; place++) {
    if (place->state != BACK || place->wire >= floor || place->noted) continue;
    session_file_pass(client->file, place->wire);
    place->noted = true;
  }
}

/* The answer of a request that was BACK makes room for one that moves: it goes to that one's old place. */
static void exchange(femem *client, slot *place, const slot *answered) {
  for (unsigned i = 0; i < client->ready; i++) {
    uint64_t *number = &client->ready_numbers[(client->first_ready + i) % WINDOW];
    if (*number == answered->wire) *number = place->wire;
  }
  uint64_t wire = place->wire;
  *place = *answered;
  place->wire = wire;
}

/* Sends requests that were withdrawn to move, under the next numbers, which are free since the floor can rise above the
   old ones. If an answer that was not taken prevents that, a request keeps its old number. A new number is at most 32
   above the request's old one, so no slot in use is needed. */
static void move_parked(femem *client) {
  uint64_t first = client->low, end = client->next;
  while (client->low < end && may_pass(client, client->low)) client->low++;
  if (client->low > client->floor_asked) fe_put_settle(client, client->low);
  for (uint64_t wire = first; wire < end; wire++) {
    slot *place = fe_slot_of(client, wire);
    if (place->state != PARKED || place->wire != wire) continue;
    slot moved = *place;
    moved.state = OUT;
    bool moves = client->next < client->floor_asked + WINDOW && fe_slot_of(client, client->next)->state != BACK;
    if (moved.again && wire >= client->floor_asked) moves = false; /* its copy could still take effect */
    if (moves) moved.again = false;
    moved.wire = moves ? client->next++ : wire;
    place->state = TAKEN;
    place->answer.error = FEMEM_WITHDRAWN;
    slot *to = fe_slot_of(client, moved.wire);
    if (to->state == ANSWERED) exchange(client, place, to);
    *to = moved;
    if (client->file && moved.wire != wire) session_file_move(client->file, wire, moved.wire);
    fe_put_slot(client, moved.wire);
  }
}

void fe_end_move(femem *client) {
  if (--client->moving > 0) return;
  move_parked(client);
  fe_raise_floor(client);
}

/* Nothing is put into the output of a client that is not served: what it sends then includes this. */
void fe_raise_floor(femem *client) {
  uint64_t back = first_back(client);
  if (back == UINT64_MAX || back < client->floor_asked || client->phase != SERVED) return;
  fe_advance(client);
  for (uint64_t wire = client->low; wire < back && !client->settings.resume; wire++) {
    slot *place = fe_slot_of(client, wire);
    if (place->state == ANSWERED) break; /* the floor stays below it, so nothing above it could move */
    if (place->state != OUT || place->cancelled != NOT) continue;
    place->cancelled = TO_MOVE;
    client->moving++;
    fe_put_cancel(client, wire);
  }
  if (client->low > back) fe_put_settle(client, client->low);
}

bool fe_is_blocked(femem *client, const slot *place) {
  if (place->state != BACK || place->wire < client->floor_asked || client->phase != SERVED) return false;
  const slot *first = fe_slot_of(client, client->low);
  return first->state == ANSWERED || (client->settings.resume && first->state == OUT && first->cancelled == NOT);
}

void fe_ended(femem *client, slot *place, femem_error error) {
  bool moving = place->cancelled == TO_MOVE;
  if (!place->again || place->unwanted) {
    fe_answered(client, place, (femem_answer){.error = error});
    return;
  }
  place->state = BACK;
  place->cancelled = NOT;
  place->answer.error = error;
  if (moving) fe_end_move(client);
  else fe_raise_floor(client);
}

void fe_told_floor(femem *client, uint64_t floor) {
  client->floor_told = floor;
  for (slot *place = client->slots; place < client->slots + WINDOW; place++)
    if (place->state == BACK && place->wire < floor) fe_answered(client, place, place->answer);
}

/* A key's answer is in the file before the caller has it, since no later process asks for that request again. */
static void end_passed(femem *client, const slot *place) {
  if (session_file_passed(client->file, place->wire, &place->answer))
    session_file_sync(client->file, client->floor_told, client->floor_asked, client->next);
}

void fe_answered(femem *client, slot *place, femem_answer answer) {
  bool moving = place->cancelled == TO_MOVE;
  answer.number = place->answer.number;
  place->expected = false;
  place->answer = answer;
  if (answer.error == FEMEM_WITHDRAWN && !place->ends)
    fe_log(client, "request %" PRIu64 " was taken back, and has not happened", answer.number);
  place->cancelled = NOT;
  client->out--;
  bool wanted = !place->keyed && !place->unwanted && (!place->given_up || answer.error != FEMEM_WITHDRAWN);
  place->state = wanted ? ANSWERED : TAKEN;
  if (place->noted) end_passed(client, place);
  else if (!wanted && client->file) session_file_end(client->file, place->wire, &answer);
  if (wanted) client->ready_numbers[(client->first_ready + client->ready++) % WINDOW] = place->wire;
  else fe_advance(client);
  if (moving) fe_end_move(client);
  else fe_raise_floor(client);
}

void fe_hand_out(femem *client, slot *place, femem_answer *answer) {
  unsigned at = client->first_ready;
  while (client->ready_numbers[at] != place->wire) at = (at + 1) % WINDOW;
  for (; at != client->first_ready; at = (at + WINDOW - 1) % WINDOW)
    client->ready_numbers[at] = client->ready_numbers[(at + WINDOW - 1) % WINDOW];
  client->first_ready = (client->first_ready + 1) % WINDOW;
  client->ready--;
  place->state = TAKEN;
  if (client->file && !place->noted) session_file_end(client->file, place->wire, &place->answer);
  *answer = place->answer;
  fe_advance(client);
  fe_raise_floor(client);
}
