/* Requests of patterns, who is there, and what is held. */
#define _POSIX_C_SOURCE 200809L
#include "pattern.h"

#include <inttypes.h>
#include <stdio.h>
#include <stdlib.h>
#include <string.h>

/* ---- requests ---- */

static femem_request now_or_never(femem_operation operation, uint64_t array, uint64_t index, uint64_t operand) {
  return (femem_request){.operation = operation, .array = array, .index = (uint32_t)index, .operand = operand,
                         .no_wait = true};
}

femem_request fp_read(uint64_t array, uint64_t index) { return now_or_never(FEMEM_READFF, array, index, 0); }
femem_request fp_take(uint64_t array, uint64_t index) { return now_or_never(FEMEM_READFE, array, index, 0); }
femem_request fp_empty(uint64_t array, uint64_t index) { return now_or_never(FEMEM_PURGE, array, index, 0); }

femem_request fp_fill(uint64_t array, uint64_t index, uint64_t value) {
  return now_or_never(FEMEM_WRITEEF, array, index, value);
}

femem_request fp_add(uint64_t array, uint64_t index, uint64_t value) {
  return now_or_never(FEMEM_INT_FETCH_ADD, array, index, value);
}

femem_request fp_named(femem_operation operation, const char *name, uint32_t length) {
  femem_request request = {.operation = operation, .length = length, .name_length = (uint8_t)strlen(name)};
  memcpy(request.name, name, request.name_length);
  return request;
}

static bool is_usual(femem_error error) {
  return error == FEMEM_OK || error == FEMEM_NO_ARRAY || error == FEMEM_NOT_NOW || error == FEMEM_NAME_TAKEN;
}

femem_error fp_batch(femem *client, const femem_request *requests, size_t count, femem_answer *answers) {
  femem_error error = fe_batch(client, SEND_ENDS, requests, count, answers);
  for (size_t i = 0; i < count; i++) {
    if (error && answers[i].error == FEMEM_TIMEOUT) fe_abandon(client, answers[i].number);
    if (!error && !is_usual(answers[i].error)) error = answers[i].error;
  }
  return error;
}

femem_error fp_wait(femem *client, femem_request request, int64_t within, femem_answer *answer) {
  uint64_t number;
  request.no_wait = within == 0;
  femem_error error = fe_send_request(client, &request, NULL, SEND_ENDS, &number);
  if (error) return error;
  client->may_stop = true;
  error = fe_take(client, number, answer, within);
  client->may_stop = false;
  if (error == FEMEM_OK) error = answer->error;
  else if (error == FEMEM_TIMEOUT) {
    error = fe_ask_back(client, number);
    if (error == FEMEM_OK) error = fe_take_end(client, number, answer);
    if (error == FEMEM_OK) error = answer->error;
  }
  if (error == FEMEM_NOT_NOW) return FEMEM_WITHDRAWN;
  if (error != FEMEM_OK && error != FEMEM_WITHDRAWN && error != FEMEM_NO_ARRAY) fe_abandon(client, number);
  return error;
}

/* ---- tries under a key ---- */

static femem_error forget(femem *client, const char *key) {
  femem_error error = femem_forget(client, key);
  return error == FEMEM_NOTHING_OUT ? FEMEM_OK : error;
}

femem_error fp_tried(femem *client, const char *key, femem_request *done) {
  if (!client->file || !fe_is_key(key)) return FEMEM_BAD_CALL;
  const kept_key *kept = fe_find_key(client, key);
  if (!kept) return FEMEM_NOT_NOW;
  *done = kept->request;
  if (done->operation != FEMEM_WRITEEF || done->operand != client->session) return FEMEM_OTHER_REQUEST;
  femem_answer answer;
  /* One of an earlier process may wait: it is taken back. */
  femem_error error = femem_once_within(client, key, done, 0, &answer);
  if (error == FEMEM_OK || !(is_usual(error) || error == FEMEM_WITHDRAWN || error == FEMEM_BAD_INDEX)) return error;
  error = forget(client, key);
  return error ? error : FEMEM_NOT_NOW;
}

femem_error fp_batch_under(femem *client, const char *key, const femem_request *requests, size_t count, femem_answer *answers) {
  uint64_t number;
  if (!key) return fp_batch(client, requests, count, answers);
  femem_error error = forget(client, key);
  if (error == FEMEM_OK) error = fe_send_request(client, requests, key, 0, &number);
  if (error == FEMEM_OK && count > 1) error = fp_batch(client, requests + 1, count - 1, answers + 1);
  if (error) return error;
  error = femem_once_within(client, key, requests, client->settings.wait, answers);
  return is_usual(error) ? FEMEM_OK : error;
}

femem_error fp_wait_under(femem *client, const char *key, femem_request request, int64_t within, femem_answer *answer) {
  uint64_t number;
  if (!key) return fp_wait(client, request, within, answer);
  request.no_wait = within == 0;
  femem_error error = forget(client, key);
  if (error == FEMEM_OK) error = fe_send_request(client, &request, key, 0, &number);
  if (error) return error;
  client->may_stop = true;
  error = fe_wait_for_answer(client, number, within);
  client->may_stop = false;
  if (error == FEMEM_OK || error == FEMEM_TIMEOUT) error = femem_once_within(client, key, &request, 0, answer);
  return error == FEMEM_NOT_NOW ? FEMEM_WITHDRAWN : error;
}

void femem_stop_at(femem *client, int descriptor) { client->stop = descriptor; }

int64_t fp_begin(femem *client, int64_t within) {
  client->stopped = false;
  return fe_moment(within);
}

bool fp_is_over(const femem *client, int64_t end) { return client->stopped || fe_is_past(end); }

int64_t fp_left(int64_t end) {
  int64_t most = (end - fe_now() + 999) / 1000;
  return end < 0 ? FEMEM_FOREVER : most > 0 ? most : 0;
}

int64_t fp_least(int64_t end, int64_t most) {
  int64_t rest = fp_left(end);
  return rest >= 0 && rest < most ? rest : most;
}

bool fp_set_name(char *to, const char *name, size_t most) {
  size_t length = strlen(name);
  if (length < 1 || length > most) return false;
  memcpy(to, name, length + 1);
  return true;
}

femem_error fp_mark(femem *client, uint64_t array, const char *mark) {
  uint64_t number = session_get((const uint8_t *)mark, 8);
  const femem_request asked[] = {fp_fill(array, 0, number), fp_read(array, 0)};
  femem_answer answers[2];
  femem_error error = fp_batch(client, asked, 2, answers);
  if (error || answers[1].error == FEMEM_NO_ARRAY) return error ? error : FEMEM_NO_ARRAY;
  return answers[1].error || answers[1].value != number ? FEMEM_BAD_CALL : FEMEM_OK;
}

/* ---- who is there ---- */

static femem_error show(femem *client) {
  if (client->present && fe_find(client, client->present)) return FEMEM_OK;
  femem_error error = fe_shared_array(client, "presence", 1, &client->presence);
  if (error) return error;
  /* Whoever fills the word ends what waits there, and all would look absent. */
  femem_request purge = {.operation = FEMEM_PURGE, .array = client->presence};
  femem_request show = {.operation = FEMEM_READFF, .array = client->presence};
  error = fe_send_request(client, &purge, NULL, SEND_ENDS | SEND_UNWANTED, NULL);
  return error ? error : fe_send_request(client, &show, NULL, SEND_ENDS | SEND_UNWANTED, &client->present);
}

femem_error fp_show(femem *client, bool *shows) {
  if (!*shows) client->showing++;
  *shows = true;
  return show(client);
}

femem_error femem_present(femem *client) {
  femem_error error = fe_usable(client);
  /* Only a read tells a client with nothing to send that its server is gone. */
  if (error == FEMEM_OK && client->phase == SERVED) error = fe_read_some(client);
  if (error) error = fe_mend(client, error, fe_moment(client->settings.wait));
  if (error == FEMEM_OK && client->showing > 0) error = show(client);
  return error ? error : fe_flush(client);
}

/* No request is out whose answer nobody needs. */
static bool is_quiet(femem *client, uint64_t unused) {
  (void)unused;
  for (const slot *place = client->slots; place < client->slots + WINDOW; place++)
    if (place->unwanted && (place->state == OUT || place->state == PARKED) && place->answer.number != client->present)
      return false;
  return true;
}

void fp_hide(femem *client, bool shows) {
  if (shows) client->showing--;
  if (fe_is_copy(client)) return;
  uint64_t shown = client->present;
  if (client->showing == 0 && shown) fe_ask_back(client, shown);
  if (client->showing == 0) client->present = 0;
  if (client->phase == SERVED) fe_wait_for(client, is_quiet, 0, fe_moment(LAST_LOOK));
}

bool fp_is_there(const femem *client, const char *report, uint64_t session) {
  char line[80];
  snprintf(line, sizeof line, "\nword %" PRIu64 " 0 session %" PRIu64 " number ", client->presence, session);
  return strstr(report, line) != NULL;
}

/* ---- what this process has filled with its session ---- */

femem_error fp_reserve(femem *client) {
  if (client->held_count < client->held_room) return FEMEM_OK;
  size_t room = 2 * client->held_room + 8;
  held_word *held = realloc(client->held, room * sizeof *held);
  if (!held) return FEMEM_MEMORY;
  client->held = held;
  client->held_room = room;
  return FEMEM_OK;
}

void fp_hold(femem *client, uint64_t array, uint64_t index) {
  client->held[client->held_count++] = (held_word){array, (uint32_t)index};
}

void fp_let_go(femem *client, uint64_t array, uint64_t index) {
  for (size_t i = 0; i < client->held_count; i++)
    if (client->held[i].array == array && client->held[i].index == index)
      client->held[i--] = client->held[--client->held_count];
}

/* Whether a key of the session file has the word, or may get it. */
static bool is_keyed(const femem *client, uint64_t array, uint64_t index) {
  for (size_t i = 0; client->file && i < SESSION_BUCKETS; i++)
    for (const kept_key *kept = client->file->keys[i]; kept; kept = kept->next)
      if (fe_is_access(kept->request.operation) && kept->request.array == array && kept->request.index == index &&
          (!kept->is_answered || kept->answer.error == FEMEM_OK))
        return true;
  return false;
}

bool fp_is_held(const femem *client, uint64_t array, uint64_t index) {
  for (size_t i = 0; i < client->held_count; i++)
    if (client->held[i].array == array && client->held[i].index == index) return true;
  return false;
}

bool fp_is_left(const femem *client, uint64_t array, uint64_t index) {
  return !fp_is_held(client, array, index) && !is_keyed(client, array, index);
}
