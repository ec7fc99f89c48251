/* What a reply does to a client. Replies that no correct server sends are errors. */
#define _POSIX_C_SOURCE 200809L
#include "client.h"

#include <string.h>

bool fe_fits(const femem_request *request, const reply *told) {
  femem_operation operation = request->operation;
  if (operation == FEMEM_CREATE) {
    if (told->code == ANSWER_ARRAY) return told->value > 0 && told->length == request->length;
    return told->code >= FEMEM_NAME_TAKEN && told->code <= FEMEM_BAD_LENGTH;
  }
  if (operation == FEMEM_FIND) {
    if (told->code == ANSWER_ARRAY) return told->value > 0 && told->length > 0 && told->length <= MOST_WORDS;
    return told->code == FEMEM_NO_ARRAY || told->code == FEMEM_BAD_NAME;
  }
  if (told->code == FEMEM_NO_ARRAY) return true;
  if (operation == FEMEM_REMOVE) return told->code == ANSWER_DONE;
  if (told->code == FEMEM_BAD_INDEX) return true;
  if (told->code == FEMEM_NOT_NOW) return request->no_wait;
  return told->code == (fe_tells(operation) ? ANSWER_VALUE : ANSWER_DONE);
}

femem_answer fe_answer_of(const reply *told) {
  femem_answer answer = {.length = told->length};
  if (told->code > ANSWER_ARRAY) answer.error = (femem_error)told->code;
  if (told->code == ANSWER_VALUE) answer.value = told->value;
  if (told->code == ANSWER_ARRAY) answer.array = told->value;
  return answer;
}

static bool is_same(const femem_answer *one, const femem_answer *other) {
  return one->error == other->error && one->value == other->value && one->array == other->array &&
         one->length == other->length;
}

static femem_error go_on(femem *client);

static femem_error take_answer(femem *client, const reply *told) {
  if (client->phase == OPENING) return FEMEM_OK; /* to a request of an earlier program with this session */
  /* A program that resumed a session may get replies to any number in its window at that time. */
  uint64_t end = client->next > client->resumed_end ? client->next : client->resumed_end;
  if (told->number < client->floor_told || told->number >= end) return FEMEM_WRONG_NUMBER;
  if (!fe_is_known(client, told->number)) return FEMEM_OK;
  slot *place = fe_slot_of(client, told->number);
  femem_answer answer = fe_answer_of(told);
  bool open = place->state == OUT || place->state == BACK;
  if (!open) return is_same(&place->answer, &answer) ? FEMEM_OK : FEMEM_CHANGED_ANSWER;
  if (!fe_fits(&place->request, told)) return FEMEM_STRANGE_REPLY;
  FEMEM_POINT("answered");
  fe_answered(client, place, answer);
  return go_on(client);
}

static femem_error take_withdrawn(femem *client, const reply *told) {
  if (client->phase == OPENING) return FEMEM_OK;
  slot *place = fe_slot_of(client, told->number);
  if (fe_is_known(client, told->number) && place->expected && client->cancels > 0) {
    client->cancels--;
    place->expected = false;
    return go_on(client);
  }
  if (client->cancels > 0 && told->number < client->low) return client->cancels--, FEMEM_OK; /* came late */
  if (!fe_is_known(client, told->number)) return FEMEM_WRONG_NUMBER;
  if (place->state == BACK && client->cancels > 0) return client->cancels--, FEMEM_OK; /* it was asked again */
  if (place->state != OUT || place->cancelled == NOT || client->cancels == 0) return FEMEM_WRONG_NUMBER;
  client->cancels--;
  if (place->cancelled == TO_END) return fe_ended(client, place, FEMEM_WITHDRAWN), FEMEM_OK;
  place->state = PARKED;
  place->cancelled = NOT;
  fe_end_move(client);
  return FEMEM_OK;
}

/* A welcome and as many settles as were sent may still get replies, since the reply so far may have been to another
   connection's settle. With a session file several earlier lives may have left some. */
static void serve(femem *client, uint64_t floor) {
  client->floor_told = client->floor_asked = client->low = client->next = floor;
  client->cancels = 0;
  if (client->file) client->settles = client->attaches = WINDOW;
  client->phase = SERVED;
  client->opened = true;
  client->trying = false;
  fe_log(client, "attached");
}

/* The first welcome may be for another connection that had the session until now. This one's follows, and the settles
   sent for each are answered in the same order. */
static femem_error begin_opening(femem *client) {
  uint64_t floor = client->floor_told;
  if (client->settings.resume) {
    serve(client, floor);
    client->resumed_end = floor + WINDOW;
    return FEMEM_OK;
  }
  if (floor > GREATEST_FLOOR - WINDOW) return FEMEM_REFUSED_SPENT;
  fe_put_settle(client, floor + WINDOW);
  return FEMEM_OK;
}

/* Goes on once a welcome has come, and the refusals of all probes: each follows an attach that was repeated. Then once
   what is BACK has its replies. */
static femem_error go_on(femem *client) {
  if (!client->welcomed || client->probes > 0) return FEMEM_OK;
  if (client->phase == OPENING) return begin_opening(client);
  if (client->phase != RETURNING || fe_asks_back(client)) return FEMEM_OK;
  client->phase = SERVED;
  client->trying = false;
  client->returns++;
  fe_log(client, "%s; requests without an answer: %u", client->restored ? "attached" : "back", client->out);
  fe_put_again(client);
  return FEMEM_OK;
}

static femem_error take_welcome(femem *client, const reply *told) {
  if (told->number != client->session || told->value < 1 || told->value > GREATEST_FLOOR) return FEMEM_STRANGE_REPLY;
  client->welcomed = true;
  if (client->phase == OPENING) {
    if (told->value < client->floor_told) return FEMEM_STRANGE_REPLY;
    client->floor_told = told->value;
    return go_on(client);
  }
  if (client->attaches == 0) return FEMEM_STRANGE_REPLY;
  client->attaches--;
  bool same = told->value >= client->floor_told && told->value <= client->floor_asked &&
              client->floor_asked - told->value <= WINDOW;
  if (!same && !client->bye) return FEMEM_SESSION_LOST;
  if (same) fe_told_floor(client, told->value);
  return client->phase == RETURNING ? go_on(client) : FEMEM_OK;
}

static femem_error take_settled(femem *client, const reply *told) {
  uint64_t floor = told->number;
  if (client->phase == OPENING) {
    if (client->welcomed && floor == client->floor_asked) serve(client, floor);
    return FEMEM_OK;
  }
  if (client->settles == 0 || floor < client->floor_told || floor > client->floor_asked) return FEMEM_STRANGE_REPLY;
  client->settles--;
  fe_told_floor(client, floor);
  return FEMEM_OK;
}

/* While a session is opened, requests of its former program may still wait, since the server has not yet seen that
   their connection is gone. They are taken back, and then the settle is sent again. */
static femem_error take_opening_refusal(femem *client, const reply *told, femem_error refusal) {
  if (!client->welcomed) return told->number == client->session ? refusal : FEMEM_STRANGE_REPLY;
  if (refusal == FEMEM_REFUSED_NOT_WAITING || refusal == FEMEM_REFUSED_BELOW_FLOOR) return FEMEM_OK;
  if (refusal != FEMEM_REFUSED_STILL_WAITING || client->opening_tries++ > 3) return refusal;
  for (uint64_t back = WINDOW; back > 0; back--) fe_put_cancel(client, client->floor_asked - back);
  fe_put_settle(client, client->floor_asked);
  return FEMEM_OK;
}

static femem_error take_refused_report(femem *client, femem_error refusal) {
  if (client->report != REPORT_ASKED) return client->bye ? refusal : FEMEM_STRANGE_REPLY;
  client->report = REPORT_HERE;
  client->report_error = refusal;
  return FEMEM_OK;
}

/* The request has happened: its answer will come, has come, or was taken long ago. */
static femem_error take_not_waiting(femem *client, const reply *told) {
  if (client->cancels == 0 || told->number >= client->next) return FEMEM_WRONG_NUMBER;
  client->cancels--;
  if (!fe_is_known(client, told->number)) return FEMEM_OK;
  slot *place = fe_slot_of(client, told->number);
  bool moving = place->cancelled == TO_MOVE;
  place->cancelled = NOT;
  if (moving) fe_end_move(client);
  return FEMEM_OK;
}

static femem_error take_refused(femem *client, const reply *told) {
  femem_error refusal = (femem_error)(100 + told->code);
  /* No other program has a session file's session: it was taken by an earlier life, whose attach was read later than
     this one's. */
  bool own = client->file && client->retaken < WINDOW;
  if (refusal == FEMEM_REFUSED_NOT_ATTACHED && own) return client->retaken++, FEMEM_DISCONNECTED;
  /* Of its late requests one may wait that was taken back since, so that a settle is refused, and what needs it is
     beyond the window. */
  bool late = refusal == FEMEM_REFUSED_STILL_WAITING && client->phase == SERVED && !client->bye;
  if (late && own) return client->retaken++, client->late = true, FEMEM_DISCONNECTED;
  bool asked = told->number == PROBE && client->probes > 0;
  if (asked && refusal != FEMEM_REFUSED_NOT_ATTACHED) return client->probes--, go_on(client);
  if (client->phase == OPENING && !asked) return take_opening_refusal(client, told, refusal);
  bool back = client->phase == RETURNING && client->asks_back && refusal == FEMEM_REFUSED_NOT_WAITING;
  if (client->phase == RETURNING && !asked && !back) return told->number == client->session ? refusal : FEMEM_STRANGE_REPLY;
  if (refusal == FEMEM_REFUSED_NOT_ATTACHED) return refusal;
  if (refusal == FEMEM_REFUSED_NOT_WAITING) return take_not_waiting(client, told);
  if (told->number == 0) return take_refused_report(client, refusal);
  if (fe_is_known(client, told->number) && fe_slot_of(client, told->number)->state == OUT) {
    fe_ended(client, fe_slot_of(client, told->number), refusal);
    return FEMEM_OK;
  }
  bool settle = client->settles > 0 && told->number <= client->floor_asked && told->number >= client->floor_told;
  return settle ? refusal : FEMEM_WRONG_NUMBER;
}

static femem_error take_goodbye(femem *client, const reply *told) {
  if (!client->bye || told->number != client->session) return FEMEM_STRANGE_REPLY;
  client->ended = true;
  return FEMEM_OK;
}

static femem_error take_report(femem *client, const reply *told) {
  if (client->report != REPORT_ASKED) return FEMEM_STRANGE_REPLY;
  client->report = REPORT_COMING;
  client->report_error = FEMEM_OK;
  client->text_at = 0;
  client->text_length = told->length;
  return FEMEM_OK;
}

static femem_error take(femem *client, const reply *told) {
  switch (told->kind) {
    case WELCOME: return take_welcome(client, told);
    case ANSWER: return take_answer(client, told);
    case WITHDRAWN: return take_withdrawn(client, told);
    case SETTLED: return take_settled(client, told);
    case GOODBYE: return take_goodbye(client, told);
    case REFUSED: return take_refused(client, told);
    default: return take_report(client, told);
  }
}

/* Takes the part of a report's text that has come. Returns its size. */
static size_t take_text(femem *client, const uint8_t *bytes, size_t count) {
  size_t left = client->text_length - client->text_at;
  size_t size = count < left ? count : left;
  memcpy(client->text + client->text_at, bytes, size);
  client->text_at += size;
  if (size == left) {
    client->text[client->text_length] = 0;
    client->report = REPORT_HERE;
  }
  return size;
}

femem_error fe_digest(femem *client) {
  size_t at = 0;
  femem_error error = FEMEM_OK;
  while (error == FEMEM_OK && at < client->input_end) {
    const uint8_t *bytes = client->input + at;
    size_t count = client->input_end - at;
    if (client->report == REPORT_COMING) {
      at += take_text(client, bytes, count);
      if (client->report != REPORT_HERE || fe_is_text((uint8_t *)client->text, client->text_length)) continue;
      client->report = REPORT_ASKED;
      error = FEMEM_BAD_FRAME;
      break;
    }
    reply told;
    int size = fe_read_reply(bytes, count, &told);
    if (size == 0) break;
    error = size < 0 ? FEMEM_BAD_FRAME : take(client, &told);
    at += size < 0 ? 0 : (size_t)size;
  }
  memmove(client->input, client->input + at, client->input_end - at);
  client->input_end -= at;
  if (error) fe_lose_line(client, error);
  return error;
}
