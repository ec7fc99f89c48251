/* Requests under keys, made once over the client's own restarts, and batches. */
#define _POSIX_C_SOURCE 200809L
#include "client.h"

#include <string.h>

bool fe_is_key(const char *key) { return key && *key && strnlen(key, FEMEM_KEY + 1) <= FEMEM_KEY; }

static bool is_same_request(const femem_request *one, const femem_request *other) {
  uint8_t spelled[2][LONGEST_REQUEST];
  size_t size = fe_put_request(spelled[0], 0, one);
  return fe_put_request(spelled[1], 0, other) == size && memcmp(spelled[0], spelled[1], size) == 0;
}

const kept_key *fe_find_key(const femem *client, const char *key) {
  return session_find(client->file, key, strlen(key));
}

/* Makes a request under a key, unless that was done before. */
static femem_error begin_once(femem *client, const char *key, const femem_request *request, uint64_t *number) {
  const kept_key *kept = fe_find_key(client, key);
  if (!kept) return fe_send_request(client, request, key, 0, number);
  if (!is_same_request(&kept->request, request)) return FEMEM_OTHER_REQUEST;
  *number = kept->number;
  return FEMEM_OK;
}

/* Drops a recovered answer that nobody has taken, if it holds the floor below this request, which was taken back and would
   not end. */
static bool unblock(femem *client, uint64_t number) {
  const slot *place = fe_find(client, number);
  bool drops = place && fe_is_blocked(client, place) && fe_slot_of(client, client->low)->recovered;
  return drops && fe_drop_recovered(client);
}

femem_error fe_take_end(femem *client, uint64_t number, femem_answer *answer) {
  femem_error error;
  do error = fe_take(client, number, answer, client->settings.wait);
  while (error == FEMEM_TIMEOUT && unblock(client, number));
  return error;
}

/* Waits for a key's answer. Takes the request back when its time is over. */
static femem_error end_once(femem *client, const char *key, int64_t within, femem_answer *answer) {
  uint64_t number = answer->number;
  femem_error error = fe_wait_for_answer(client, number, within);
  if (error == FEMEM_TIMEOUT) error = fe_ask_back(client, number);
  if (error == FEMEM_OK && fe_find(client, number)) error = fe_take_end(client, number, answer);
  if (error) return error;
  const kept_key *kept = fe_find_key(client, key);
  *answer = kept ? kept->answer : fe_end_of(client, number);
  return FEMEM_OK;
}

femem_error femem_once_within(femem *client, const char *key, const femem_request *request, int64_t within,
                              femem_answer *answer) {
  if (fe_is_copy(client)) return FEMEM_FORKED;
  if (!client->file || !fe_is_key(key) || !fe_is_spelled(request)) return FEMEM_BAD_CALL;
  femem_error error = begin_once(client, key, request, &answer->number);
  if (error == FEMEM_OK) error = end_once(client, key, within, answer);
  return error ? error : answer->error;
}

femem_error femem_once(femem *client, const char *key, const femem_request *request, femem_answer *answer) {
  return femem_once_within(client, key, request, client->settings.wait, answer);
}

femem_error femem_forget(femem *client, const char *key) {
  if (fe_is_copy(client)) return FEMEM_FORKED;
  if (!client->file || !fe_is_key(key)) return FEMEM_BAD_CALL;
  const kept_key *kept = fe_find_key(client, key);
  if (!kept) return FEMEM_NOTHING_OUT;
  if (!kept->is_answered) return FEMEM_BAD_CALL;
  return session_file_forget(client->file, key) ? FEMEM_OK : FEMEM_MEMORY;
}

femem_error femem_recovered_at(const femem *client, unsigned index, femem_recovered *recovered) {
  if (fe_is_copy(client)) return FEMEM_FORKED;
  if (!client->file) return FEMEM_BAD_CALL;
  if (index >= client->recovered_count) return FEMEM_NOTHING_OUT;
  *recovered = client->recovered[index];
  return FEMEM_OK;
}

/* A batch. `keys` may be NULL. */
typedef struct batch {
  unsigned how;
  const char *const *keys;
  const femem_request *requests;
  femem_answer *answers;
  size_t count, sent, taken;
} batch;

/* Sends as many requests as there are numbers, or returns why not. No slot is used again before its answer is taken. */
static femem_error send_more(femem *client, batch *many) {
  while (many->sent < many->count && many->sent - many->taken < WINDOW) {
    const femem_request *request = &many->requests[many->sent];
    femem_answer *answer = &many->answers[many->sent];
    femem_error error = many->keys ? begin_once(client, many->keys[many->sent], request, &answer->number)
                                   : fe_send_request(client, request, NULL, many->how, &answer->number);
    if (error) return error;
    answer->error = FEMEM_TIMEOUT;
    many->sent++;
  }
  return FEMEM_OK;
}

/* Takes the next answer. Takes its request back when its time is over. */
static femem_error take_next(femem *client, batch *many) {
  femem_answer *answer = &many->answers[many->taken];
  uint64_t number = answer->number;
  if (many->keys) return end_once(client, many->keys[many->taken], client->settings.wait, answer);
  femem_error error = fe_take(client, number, answer, client->settings.wait);
  if (error != FEMEM_TIMEOUT) return error;
  error = fe_take_back(client, number, answer);
  return fe_find(client, number) ? error : FEMEM_OK;
}

static femem_error run_batch(femem *client, batch many) {
  for (size_t i = 0; i < many.count; i++) many.answers[i] = (femem_answer){.error = FEMEM_NOTHING_OUT};
  if (fe_is_copy(client)) return FEMEM_FORKED;
  for (size_t i = 0; i < many.count; i++)
    if (!fe_is_spelled(&many.requests[i]) || (many.keys && !fe_is_key(many.keys[i]))) return FEMEM_BAD_CALL;
  while (many.taken < many.count) {
    femem_error error = send_more(client, &many);
    if (error && (error != FEMEM_WINDOW_FULL || many.sent == many.taken)) return error;
    /* Half a window, so that the server works on the other half meanwhile. */
    size_t end = many.sent - many.taken > WINDOW / 2 ? many.taken + WINDOW / 2 : many.sent;
    for (; many.taken < end; many.taken++)
      if ((error = take_next(client, &many)) != FEMEM_OK) return error;
  }
  return FEMEM_OK;
}

femem_error fe_batch(femem *client, unsigned how, const femem_request *requests, size_t count, femem_answer *answers) {
  return run_batch(client, (batch){.how = how, .requests = requests, .answers = answers, .count = count});
}

femem_error femem_batch(femem *client, const femem_request *requests, size_t count, femem_answer *answers) {
  return fe_batch(client, 0, requests, count, answers);
}

femem_error femem_batch_once(femem *client, const char *const *keys, const femem_request *requests, size_t count,
                             femem_answer *answers) {
  if (fe_is_copy(client)) return FEMEM_FORKED;
  if (!client->file || !keys) return FEMEM_BAD_CALL;
  return run_batch(client, (batch){.keys = keys, .requests = requests, .answers = answers, .count = count});
}

/* ---- the first of several ---- */

/* Takes back those that have no answer, and takes all answers. How many have happened is in *happened. */
static femem_error end_others(femem *client, size_t count, femem_answer *answers, size_t *happened) {
  femem_error error = FEMEM_OK;
  *happened = 0;
  for (size_t i = 0; i < count && error == FEMEM_OK; i++) error = fe_ask_back(client, answers[i].number);
  for (size_t i = 0; i < count; i++) {
    uint64_t number = answers[i].number;
    if (error == FEMEM_OK) error = fe_take_end(client, number, &answers[i]);
    if (error) fe_abandon(client, number);
    else if (answers[i].error != FEMEM_WITHDRAWN) ++*happened;
  }
  return error;
}

femem_error femem_wait_any(femem *client, const femem_request *requests, size_t count, int64_t within,
                           femem_answer *answers) {
  uint64_t numbers[WINDOW];
  size_t sent = 0, happened;
  if (fe_is_copy(client)) return FEMEM_FORKED;
  if (count == 0 || count >= WINDOW || client->settings.resume) return FEMEM_BAD_CALL;
  for (size_t i = 0; i < count; i++)
    if (!fe_is_spelled(&requests[i])) return FEMEM_BAD_CALL;
  femem_error error = FEMEM_OK;
  for (size_t i = 0; i < count; i++) answers[i] = (femem_answer){.error = FEMEM_WITHDRAWN};
  for (; sent < count && error == FEMEM_OK; sent += error == FEMEM_OK) {
    error = fe_send_request(client, &requests[sent], NULL, SEND_ENDS, &numbers[sent]);
    if (error == FEMEM_OK) answers[sent].number = numbers[sent];
  }
  client->awaited = numbers;
  client->may_stop = true;
  if (error == FEMEM_OK) error = fe_wait_for(client, fe_any_of, count, fe_moment(within));
  client->awaited = NULL;
  client->may_stop = false;
  femem_error ended = end_others(client, sent, answers, &happened);
  if (ended || (error && error != FEMEM_TIMEOUT)) return ended ? ended : error;
  if (happened > 0) return FEMEM_OK;
  return sent < count ? error : FEMEM_WITHDRAWN;
}
