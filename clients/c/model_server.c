/* A model of the server: what messages do to arrays, sessions and waiting requests (docs/formats.md, docs/model.md). Each
   message is carried out and stored at once. Which of several waiting requests is served first, the schedule decides. */
#define _POSIX_C_SOURCE 200809L
#include "model.h"
#include "client.h"

#include <inttypes.h>
#include <stdio.h>
#include <string.h>

enum { ARRAYS = 12, WORDS = 64, SESSIONS = 6, WAITING = 64 };

typedef struct word {
  bool full;
  uint64_t value;
} word;
typedef struct array {
  uint64_t id;
  uint32_t length;
  uint8_t name_length;
  char name[32];
  word words[WORDS];
} array;
typedef struct kept {
  uint64_t number;  /* 0: none */
  femem_request request;
  femem_answer answer;
} kept;
typedef struct session {
  uint64_t id, floor;
  int line;         /* the connection that has it, or -1 */
  kept kept[WINDOW];
} session;
typedef struct waiting {
  uint64_t session, number;
  femem_request request;
} waiting;

static array arrays[ARRAYS];
static session sessions[SESSIONS];
static waiting waits[WAITING];
static unsigned array_count, session_count, wait_count;
static uint64_t next_id;

void server_begin(void) {
  array_count = session_count = wait_count = 0;
  next_id = 1;
}

/* ---- replies ---- */

static void reply_with(int line, uint8_t kind, uint64_t number, const uint8_t *rest, size_t count) {
  uint8_t bytes[64];
  fe_put4(bytes, (uint32_t)(9 + count));
  bytes[4] = kind;
  fe_put8(bytes + 5, number);
  if (count > 0) memcpy(bytes + 13, rest, count);
  if (line >= 0) model_reply(line, bytes, 13 + count);
}

static void refuse(int line, uint64_t number, uint8_t refusal) { reply_with(line, REFUSED, number, &refusal, 1); }

static void answer_with(int line, const femem_answer *answer, bool tells) {
  uint8_t rest[13] = {0};
  rest[0] = answer->error ? (uint8_t)answer->error : answer->array ? ANSWER_ARRAY : tells ? ANSWER_VALUE : ANSWER_DONE;
  fe_put8(rest + 1, answer->array ? answer->array : answer->value);
  fe_put4(rest + 9, answer->length);
  reply_with(line, ANSWER, answer->number, rest, sizeof rest);
}

/* ---- sessions ---- */

static session *find_session(uint64_t id) {
  for (session *at = sessions; at < sessions + session_count; at++)
    if (at->id == id) return at;
  return NULL;
}

static session *session_on(int line) {
  for (session *at = sessions; at < sessions + session_count; at++)
    if (at->line == line) return at;
  return NULL;
}

static void drop_wait(unsigned at) {
  wait_count--;
  memmove(waits + at, waits + at + 1, (wait_count - at) * sizeof *waits);
}

static bool is_waiting(const session *own, uint64_t number, unsigned *at) {
  for (*at = 0; *at < wait_count; ++*at)
    if (waits[*at].session == own->id && waits[*at].number == number) return true;
  return false;
}

static void drop_waits(const session *own) {
  for (unsigned at = wait_count; at-- > 0;)
    if (waits[at].session == own->id) drop_wait(at);
}

void server_hears_end(int line) {
  session *own = session_on(line);
  if (!own) return;
  own->line = -1;
  drop_waits(own);
}

void server_stops(void) {
  wait_count = 0;
  for (session *at = sessions; at < sessions + session_count; at++) at->line = -1;
}

/* ---- requests ---- */

static array *find_array(uint64_t id) {
  for (array *at = arrays; at < arrays + array_count; at++)
    if (at->id == id) return at;
  return NULL;
}

static array *find_name(const char *name, size_t length) {
  for (array *at = arrays; at < arrays + array_count; at++)
    if (at->name_length == length && memcmp(at->name, name, length) == 0) return at;
  return NULL;
}

bool server_word(const char *name, uint32_t index, uint64_t *value) {
  const array *found = find_name(name, strlen(name));
  if (!found || index >= found->length || !found->words[index].full) return false;
  *value = found->words[index].value;
  return true;
}

unsigned server_sessions(void) { return session_count; }

static bool is_ready(const femem_request *request, const word *at) {
  switch (request->operation) {
    case FEMEM_WRITEEF: return !at->full;
    case FEMEM_READFE: case FEMEM_READFF: case FEMEM_WRITEFF: case FEMEM_INT_FETCH_ADD: return at->full;
    default: return true;
  }
}

static void change(const femem_request *request, word *at, femem_answer *answer) {
  uint64_t was = at->value;
  if (fe_tells(request->operation)) answer->value = was;
  switch (request->operation) {
    case FEMEM_READFE: at->full = false; break;
    case FEMEM_WRITEEF: case FEMEM_WRITEFF: case FEMEM_WRITEXF: *at = (word){true, request->operand}; break;
    case FEMEM_PURGE: *at = (word){false, 0}; break;
    case FEMEM_INT_FETCH_ADD: at->value += request->operand; break;
    default: break;
  }
}

/* Carries out a request on a word. False if it has to wait. */
static bool access_word(const femem_request *request, femem_answer *answer) {
  array *found = find_array(request->array);
  if (!found || request->index >= found->length) {
    answer->error = found ? FEMEM_BAD_INDEX : FEMEM_NO_ARRAY;
    return true;
  }
  word *at = &found->words[request->index];
  if (is_ready(request, at)) change(request, at, answer);
  else if (request->no_wait) answer->error = FEMEM_NOT_NOW;
  else return false;
  return true;
}

static void create(const femem_request *request, femem_answer *answer) {
  if (find_name(request->name, request->name_length)) {
    answer->error = FEMEM_NAME_TAKEN;
    return;
  }
  if (array_count == ARRAYS || request->length > WORDS) {
    answer->error = FEMEM_WORD_LIMIT;
    return;
  }
  array *made = &arrays[array_count++];
  *made = (array){.id = next_id++, .length = request->length, .name_length = request->name_length};
  memcpy(made->name, request->name, request->name_length);
  for (uint32_t i = 0; i < request->length; i++) made->words[i].full = request->full;
  answer->array = made->id;
  answer->length = made->length;
}

static void find(const femem_request *request, femem_answer *answer) {
  const array *found = find_name(request->name, request->name_length);
  if (!found) answer->error = FEMEM_NO_ARRAY;
  if (found) answer->array = found->id;
  if (found) answer->length = found->length;
}

static void complete(const session *of, uint64_t number, const femem_request *request, femem_answer answer) {
  session *own = find_session(of->id);
  answer.number = number;
  own->kept[number % WINDOW] = (kept){number, *request, answer};
  answer_with(own->line, &answer, fe_tells(request->operation));
}

/* Serves what waits and can go on: at one word after the other, whichever of those there the schedule says. */
static void serve_waits(void) {
  for (;;) {
    unsigned ready[WAITING], count = 0;
    for (unsigned at = 0; at < wait_count; at++) {
      const femem_request *asked = &waits[at].request;
      const array *there = find_array(asked->array);
      bool same = count == 0 || (asked->array == waits[ready[0]].request.array &&
                                 asked->index == waits[ready[0]].request.index);
      if (same && (!there || is_ready(asked, &there->words[asked->index]))) ready[count++] = at;
    }
    if (count == 0) return;
    unsigned at = ready[model_choose(count)];
    waiting served = waits[at];
    femem_answer answer = {0};
    drop_wait(at);
    access_word(&served.request, &answer);
    complete(find_session(served.session), served.number, &served.request, answer);
  }
}

static void take_away(const femem_request *request, femem_answer *answer) {
  array *found = find_array(request->array);
  if (!found) {
    answer->error = FEMEM_NO_ARRAY;
    return;
  }
  array_count--;
  memmove(found, found + 1, (size_t)(arrays + array_count - found) * sizeof *found);
}

static void carry_out(session *own, uint64_t number, const femem_request *request) {
  femem_answer answer = {0};
  if (request->operation == FEMEM_CREATE) create(request, &answer);
  else if (request->operation == FEMEM_FIND) find(request, &answer);
  else if (request->operation == FEMEM_REMOVE) take_away(request, &answer);
  else if (!access_word(request, &answer)) {
    model_has_room(wait_count < WAITING, "what waits");
    waits[wait_count++] = (waiting){own->id, number, *request};
    return;
  }
  complete(own, number, request, answer);
  serve_waits();
}

static bool is_same(const femem_request *one, const femem_request *other) {
  uint8_t spelled[2][LONGEST_REQUEST];
  size_t size = fe_put_request(spelled[0], 0, one);
  return fe_put_request(spelled[1], 0, other) == size && memcmp(spelled[0], spelled[1], size) == 0;
}

/* Takes a request. Returns its refusal, or 0, like the next ones. */
static uint8_t take_request(int line, session *own, uint64_t number, const femem_request *request) {
  unsigned at;
  if (number < own->floor) return 3;
  if (number >= own->floor + WINDOW) return 4;
  const kept *place = &own->kept[number % WINDOW];
  bool waited = is_waiting(own, number, &at), answered = place->number == number;
  if ((waited && !is_same(&waits[at].request, request)) || (answered && !is_same(&place->request, request))) return 5;
  if (answered) answer_with(line, &place->answer, fe_tells(request->operation));
  else if (!waited) carry_out(own, number, request);
  return 0;
}

/* ---- other messages ---- */

static void attach(int line, uint64_t id) {
  session *own = find_session(id), *other = session_on(line);
  if (other) server_hears_end(line);
  if (!own) {
    model_has_room(session_count < SESSIONS, "sessions");
    own = &sessions[session_count++];
    *own = (session){.id = id, .floor = 1};
  }
  own->line = line;
  uint8_t floor[8];
  fe_put8(floor, own->floor);
  reply_with(line, WELCOME, id, floor, sizeof floor);
}

static uint8_t settle(int line, session *own, uint64_t floor) {
  if (floor < own->floor) return 3;
  if (floor > own->floor + WINDOW) return 4;
  for (unsigned at = 0; at < wait_count; at++)
    if (waits[at].session == own->id && waits[at].number < floor) return 6;
  for (kept *at = own->kept; at < own->kept + WINDOW; at++)
    if (at->number < floor) *at = (kept){0};
  own->floor = floor;
  reply_with(line, SETTLED, floor, NULL, 0);
  return 0;
}

static uint8_t cancel(int line, const session *own, uint64_t number) {
  unsigned at;
  if (!is_waiting(own, number, &at)) return 10;
  drop_wait(at);
  reply_with(line, WITHDRAWN, number, NULL, 0);
  return 0;
}

static void report(int line) {
  static char text[4096];
  size_t size = (size_t)snprintf(text, sizeof text, "waiting %u\n", wait_count);
  for (unsigned at = 0; at < wait_count; at++)
    size += (size_t)snprintf(text + size, sizeof text - size, "word %" PRIu64 " %" PRIu32 " session %" PRIu64 " number %"
                             PRIu64 " op\n", waits[at].request.array, waits[at].request.index, waits[at].session,
                             waits[at].number);
  uint8_t head[5];
  fe_put4(head, (uint32_t)(size + 1));
  head[4] = REPORTED;
  model_reply(line, head, sizeof head);
  model_reply(line, (const uint8_t *)text, size);
}

static void say_bye(int line, session *own) {
  uint64_t id = own->id;
  drop_waits(own);
  session_count--;
  memmove(own, own + 1, (size_t)(sessions + session_count - own) * sizeof *own);
  reply_with(line, GOODBYE, id, NULL, 0);
}

static uint64_t number_in(const uint8_t *at) {
  uint64_t number = 0;
  for (int i = 0; i < 8; i++) number = number << 8 | at[i];
  return number;
}

/* Takes a message of a session. */
static uint8_t take(int line, session *own, const uint8_t *frame, uint64_t number, size_t size) {
  uint8_t unnumbered[LONGEST_REQUEST];
  femem_request request;
  switch (frame[4]) {
    case SETTLE: return settle(line, own, number);
    case CANCEL: return cancel(line, own, number);
    case BYE: say_bye(line, own); return 0;
    default: break;
  }
  model_has_room(size <= sizeof unnumbered, "a bad frame");
  memcpy(unnumbered, frame, size);
  memset(unnumbered + 5, 0, 8);
  bool good = fe_get_request(unnumbered, size, &request) == size;
  model_must(good, "a bad frame");
  return good ? take_request(line, own, number, &request) : 0;
}

void server_takes(int line, const uint8_t *frame) {
  size_t size = 4 + ((size_t)frame[2] << 8 | frame[3]);
  uint64_t number = size >= 13 ? number_in(frame + 5) : 0;
  session *own = session_on(line);
  uint8_t refusal = 0;
  if (frame[4] == ATTACH) attach(line, number);
  else if (frame[4] == REPORT) report(line);
  else refusal = own ? take(line, own, frame, number, size) : 1;
  if (refusal) refuse(line, number, refusal);
}

uint64_t server_sum(uint64_t before) {
  uint64_t sum = model_sum(before, &next_id, sizeof next_id);
  for (const array *at = arrays; at < arrays + array_count; at++) {
    sum = model_sum(sum, &at->id, sizeof at->id);
    for (uint32_t i = 0; i < at->length; i++) {
      uint64_t told[2] = {at->words[i].full, at->words[i].value};
      sum = model_sum(sum, told, sizeof told);
    }
  }
  for (const session *at = sessions; at < sessions + session_count; at++) {
    uint64_t told[3] = {at->id, at->floor, (uint64_t)at->line};
    sum = model_sum(sum, told, sizeof told);
    for (const kept *one = at->kept; one < at->kept + WINDOW; one++) {
      uint64_t answer[4] = {one->number, one->answer.error, one->answer.value, one->answer.array};
      if (one->number) sum = model_sum(sum, answer, sizeof answer);
    }
  }
  for (const waiting *at = waits; at < waits + wait_count; at++) {
    uint64_t told[4] = {at->session, at->number, at->request.array, at->request.index};
    sum = model_sum(sum, told, sizeof told);
  }
  return sum;
}
