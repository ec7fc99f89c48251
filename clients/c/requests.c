/* Sending requests, waiting for them and taking them back. */
#define _POSIX_C_SOURCE 200809L
#include "client.h"

bool fe_is_spelled(const femem_request *request) {
  bool names = request->operation == FEMEM_CREATE || request->operation == FEMEM_FIND;
  if (names) return request->name_length <= sizeof request->name;
  return request->operation == FEMEM_REMOVE || fe_is_access(request->operation);
}

static bool is_full(const femem *client) { return client->next >= client->floor_asked + WINDOW; }
static bool is_stuck(const femem *client) { return is_full(client) && client->low == client->floor_asked; }

/* Cancels the requests that wait under the lower half of the window's numbers, to move them. */
static void begin_moves(femem *client) {
  for (uint64_t wire = client->low; wire < client->floor_asked + WINDOW / 2; wire++) {
    slot *place = fe_slot_of(client, wire);
    if (place->wire != wire || place->state != OUT || place->cancelled != NOT) continue;
    place->cancelled = TO_MOVE;
    client->moving++;
    fe_put_cancel(client, wire);
  }
}

/* Drops a recovered answer that was not taken. Returns whether there was one. */
bool fe_drop_recovered(femem *client) {
  for (uint64_t wire = client->low; wire < client->next; wire++) {
    slot *place = fe_slot_of(client, wire);
    if (place->wire != wire || place->state != ANSWERED || !place->recovered) continue;
    femem_answer unwanted;
    fe_hand_out(client, place, &unwanted);
    return true;
  }
  return false;
}

/* Its place is not that of a request that is BACK: the settle past that is under way. */
static bool is_left(femem *client, uint64_t number) { return fe_slot_of(client, number)->state != BACK; }

static bool is_free(femem *client, uint64_t number) {
  slot_state state = fe_slot_of(client, number)->state;
  return state == FREE || state == TAKEN;
}

/* Waits until the next number's place is no longer that of a request that is BACK, nor has that one's answer. */
static femem_error free_place(femem *client, int64_t end) {
  femem_error error = fe_wait_for(client, is_left, client->next, end);
  slot *place = fe_slot_of(client, client->next);
  if (error || place->state != ANSWERED || place->wire >= client->low) return error;
  if (!place->recovered) return FEMEM_WINDOW_FULL;
  femem_answer unwanted;
  fe_hand_out(client, place, &unwanted);
  return FEMEM_OK;
}

static bool is_crowded(const femem *client) { return client->out + client->ready >= WINDOW; }

/* One of 32 requests has ended, or the one that holds the floor has. */
static bool has_place(femem *client, uint64_t wire) {
  const slot *place = fe_slot_of(client, wire);
  return !is_crowded(client) || place->wire != wire || place->state != OUT;
}

/* Makes room for one more number, if the lowest number that is not taken holds the floor 32 below the next. It waits
   for requests that no caller waits for, and moves waiting ones. */
static femem_error make_room(femem *client) {
  int64_t end = fe_moment(client->settings.wait);
  femem_error freed = free_place(client, end);
  if (freed) return freed;
  if (is_stuck(client)) fe_step(client, 0); /* takes what has come; errors of the connection show below */
  for (bool first = true; is_stuck(client); first = false) {
    femem_error error = fe_usable(client);
    if (error) return error;
    slot *place = fe_slot_of(client, client->low);
    bool crowded = is_crowded(client), alone = place->keyed || place->recovered || place->given_up;
    if ((crowded || (place->state == ANSWERED && alone)) && fe_drop_recovered(client)) continue;
    if (place->state == ANSWERED || (crowded && !alone) || client->settings.resume) return FEMEM_WINDOW_FULL;
    if (!first && fe_is_past(end)) return FEMEM_TIMEOUT;
    error = fe_write_all(client, end);
    if (error) return error;
    if (!crowded && client->moving == 0 && client->phase == SERVED) begin_moves(client);
    error = fe_wait_for(client, crowded ? has_place : fe_is_moved, client->low, end);
    if (error) return error;
  }
  return FEMEM_OK;
}

/* Makes the client ready for one more request. Making room may find that the connection is gone: then nothing may be put
   into the output, since it would go out before the attach, or before the welcome. */
static femem_error make_ready(femem *client) {
  /* The first request of a write has checked this for the others. */
  bool found = client->phase == SERVED && !client->bye && client->output_begin < client->output_end;
  femem_error error = FEMEM_OK;
  do {
    if (!found) error = fe_usable(client);
    found = false;
    if (error == FEMEM_OK) error = make_room(client);
    if (error == FEMEM_OK && !fe_has_room(client, RESERVE)) error = fe_flush(client);
  } while (error == FEMEM_OK && (client->phase != SERVED || is_stuck(client) || !is_free(client, client->next)));
  return error;
}

/* `key` may be NULL. */
femem_error fe_send_request(femem *client, const femem_request *request, const char *key, unsigned how,
                            uint64_t *number) {
  if (fe_is_copy(client)) return FEMEM_FORKED;
  if (!fe_is_spelled(request)) return FEMEM_BAD_CALL;
  femem_error error = make_ready(client);
  if (error) return error;
  /* A settle goes in the same write as a request: after it, or before it if it must make room. */
  if (is_full(client)) fe_put_settle(client, client->low);
  uint64_t own = client->next;
  bool ends = how & SEND_ENDS;
  if (client->file && !session_file_ask(client->file, own, own, request, key, ends)) return FEMEM_MEMORY;
  client->last = client->next++;
  *fe_slot_of(client, own) =
      (slot){.state = OUT, .wire = own, .request = *request, .answer.number = own, .keyed = key != NULL,
             .unwanted = how & SEND_UNWANTED, .ends = ends};
  if (client->out++ == 0 && client->at_once) client->quiet_since = fe_now();
  fe_put_slot(client, own);
  if (client->low - client->floor_asked >= SETTLE_AFTER) fe_put_settle(client, client->low);
  if (number) *number = own;
  return FEMEM_OK;
}

femem_error femem_send(femem *client, const femem_request *request, uint64_t *number) {
  femem_error error = fe_enter(client, false);
  return error ? error : fe_leave(client, fe_send_request(client, request, NULL, 0, number));
}

femem_error femem_flush(femem *client) {
  femem_error error = fe_enter(client, false);
  return error ? error : fe_leave(client, fe_flush(client));
}

femem_error fe_flush(femem *client) {
  femem_error error = fe_come_back(client, fe_moment(client->settings.wait));
  return error ? error : fe_write_all(client, fe_moment(client->settings.wait));
}

static femem_error take_any(femem *client, femem_answer *answer, int64_t within) {
  if (client->ready == 0 && client->out == 0) {
    /* What settles, or ends the connection, comes then too: otherwise its descriptor would stay readable. */
    femem_error error = client->phase == SERVED ? fe_read_some(client) : FEMEM_OK;
    return error && error != FEMEM_DISCONNECTED ? error : FEMEM_NOTHING_OUT;
  }
  femem_error error = fe_wait_for(client, fe_any_answered, 0, fe_moment(within));
  /* The last one that was out may be nobody's, or have a key. */
  if (error == FEMEM_OK && client->ready == 0) return FEMEM_NOTHING_OUT;
  if (error == FEMEM_OK) fe_hand_out(client, fe_slot_of(client, client->ready_numbers[client->first_ready]), answer);
  return error;
}

femem_error femem_next(femem *client, femem_answer *answer, int64_t within) {
  femem_error error = fe_enter(client, within != 0);
  return error ? error : fe_leave(client, take_any(client, answer, within));
}

femem_answer fe_end_of(const femem *client, uint64_t number) {
  const slot *last = NULL;
  for (const slot *place = client->slots; place < client->slots + WINDOW; place++)
    if (place->state == TAKEN && place->answer.number == number && (!last || place->wire > last->wire)) last = place;
  return last ? last->answer : (femem_answer){.number = number, .error = FEMEM_WITHDRAWN};
}

femem_error fe_wait_for_answer(femem *client, uint64_t number, int64_t within) {
  femem_error error = fe_wait_for(client, fe_is_answered, number, fe_moment(within));
  slot *place = fe_find(client, number);
  return error == FEMEM_OK && place && place->state != ANSWERED ? FEMEM_TIMEOUT : error;
}

femem_error femem_wait(femem *client, uint64_t number, femem_answer *answer, int64_t within) {
  femem_error error = fe_enter(client, within != 0);
  return error ? error : fe_leave(client, fe_take(client, number, answer, within));
}

femem_error fe_take(femem *client, uint64_t number, femem_answer *answer, int64_t within) {
  slot *place = fe_find(client, number);
  if (!place) return FEMEM_NOTHING_OUT;
  place->given_up = false;
  femem_error error = fe_wait_for_answer(client, number, within);
  if (error) return error;
  place = fe_find(client, number);
  if (place) fe_hand_out(client, place, answer);
  else *answer = fe_end_of(client, number);
  return FEMEM_OK;
}

femem_error fe_ask_back(femem *client, uint64_t number) {
  /* A cancel of each request that is out has room in the reserve. */
  femem_error error = client->at_once || fe_has_room(client, RESERVE) ? FEMEM_OK : fe_flush(client);
  slot *place = fe_find(client, number);
  if (error || !place || place->state == ANSWERED || place->state == BACK || place->cancelled == TO_END) return error;
  if (place->state == PARKED) {
    fe_ended(client, place, FEMEM_WITHDRAWN);
    return FEMEM_OK;
  }
  bool moving = place->cancelled == TO_MOVE;
  place->cancelled = TO_END;
  /* A client that is not connected sends it when it reconnects. */
  if (!moving && client->phase == SERVED) fe_put_cancel(client, place->wire);
  if (moving) fe_end_move(client);
  return FEMEM_OK;
}

void fe_abandon(femem *client, uint64_t number) {
  slot *place = fe_find(client, number);
  femem_answer dropped;
  if (place && place->state == ANSWERED) fe_hand_out(client, place, &dropped);
  else if (place) place->unwanted = true;
}

femem_error femem_cancel(femem *client, uint64_t number, femem_answer *answer) {
  femem_error error = fe_enter(client, false);
  return error ? error : fe_leave(client, fe_take_back(client, number, answer));
}

femem_error fe_take_back(femem *client, uint64_t number, femem_answer *answer) {
  if (!fe_find(client, number)) return FEMEM_NOTHING_OUT;
  femem_error error = fe_ask_back(client, number);
  if (error == FEMEM_OK) error = fe_take_end(client, number, answer);
  return error ? error : answer->error;
}

femem_error fe_call(femem *client, const femem_request *request, unsigned how, int64_t within, femem_answer *answer) {
  uint64_t number;
  femem_error error = fe_send_request(client, request, NULL, how, &number);
  if (error) return error;
  error = fe_take(client, number, answer, within);
  if (error != FEMEM_TIMEOUT) return error ? error : answer->error;
  error = fe_take_back(client, number, answer);
  slot *place = fe_find(client, number);
  if (place) place->given_up = true;
  return error;
}

femem_error femem_call_within(femem *client, const femem_request *request, int64_t within, femem_answer *answer) {
  return fe_call(client, request, 0, within, answer);
}

femem_error femem_call(femem *client, const femem_request *request, femem_answer *answer) {
  return femem_call_within(client, request, client->settings.wait, answer);
}
