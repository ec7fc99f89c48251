/* Taking from a ring, and leaving a value there. */
#define _POSIX_C_SOURCE 200809L
#include "ring.h"

/* Milliseconds that a client waits for one that has a ticket and may be late; microseconds for which tickets are trusted
   by one that does not wait. */
enum { SOON = 5, TRUST = 1000000 };

/* The signal says that there may be values in several slots; otherwise it has the word of one. */
#define ALL UINT64_C(0)

static uint64_t slot_of(const ring *of, uint64_t ticket) { return RING_SLOTS + ticket % of->slots; }

static femem_error new_ticket(ring *of, uint64_t *ticket) {
  const femem_request draw = fp_add(of->array, RING_HEAD, 1);
  femem_answer answer;
  femem_error error = fp_batch(of->client, &draw, 1, &answer);
  if (error) return error;
  *ticket = answer.value;
  return answer.error;
}

/* Makes one that waits for a value look at this word, or at all if another signal is there. */
static femem_error tell(ring *of, uint64_t word) {
  femem_request told = fp_fill(of->array, RING_SIGNAL, word);
  femem_answer answer;
  femem_error error = fp_batch(of->client, &told, 1, &answer);
  if (error || answer.error != FEMEM_NOT_NOW) return error;
  told = (femem_request){.operation = FEMEM_WRITEXF, .array = of->array, .index = RING_SIGNAL, .operand = ALL};
  return fp_batch(of->client, &told, 1, &answer);
}

femem_error fr_leave(ring *of, uint64_t ticket, uint64_t value) {
  uint64_t word = slot_of(of, ticket);
  const femem_request requests[] = {fp_fill(of->array, word, value), fp_read(of->array, word),
                                    fp_read(of->array, RING_HEAD), fp_read(of->array, RING_SIGNAL)};
  femem_answer answers[4];
  femem_error error = fp_batch(of->client, requests, 4, answers);
  if (error || answers[0].error == FEMEM_NO_ARRAY) return error;
  if (answers[0].error) return tell(of, ALL);
  bool tells_all = answers[3].error == FEMEM_OK && answers[3].value == ALL;
  bool is_left = answers[1].error == FEMEM_OK && answers[2].value > ticket;
  return is_left && !tells_all ? tell(of, word) : FEMEM_OK;
}

/* Takes a value from any word, that of the ticket first. FEMEM_NOT_NOW: there is none. The signal is purged before: what
   is put later fills it again. */
static femem_error get_anywhere(ring *of, uint64_t ticket, uint64_t *value) {
  of->requests[0] = fp_empty(of->array, RING_SIGNAL);
  for (uint32_t i = 0; i < of->slots; i++) of->requests[1 + i] = fp_read(of->array, slot_of(of, ticket + i));
  femem_error error = fp_batch(of->client, of->requests, 1 + (size_t)of->slots, of->answers);
  of->looked_at = fe_now();
  uint32_t left = 0;
  for (uint32_t i = 0; i < of->slots; i++) left += of->answers[1 + i].error == FEMEM_OK;
  for (uint32_t i = 0; i < of->slots && error == FEMEM_OK; i++) {
    if (of->answers[1 + i].error) continue;
    const femem_request requests[] = {
      fp_take(of->array, slot_of(of, ticket + i)),
      {.operation = FEMEM_WRITEXF, .array = of->array, .index = RING_SIGNAL, .operand = ALL}}; /* for another one */
    femem_answer answers[2];
    error = fp_batch(of->client, requests, --left > 0 ? 2 : 1, answers);
    *value = answers[0].value;
    if (error == FEMEM_OK && answers[0].error == FEMEM_OK) return FEMEM_OK;
  }
  return error ? error : FEMEM_NOT_NOW;
}

/* When one that waits looks at all slots. */
typedef struct watch {
  int64_t end, look_at, pause;
} watch;

static bool is_due(watch *clock) {
  if (fe_now() < clock->look_at) return false;
  clock->pause = 2 * clock->pause < LAST_LOOK ? 2 * clock->pause : LAST_LOOK;
  clock->look_at = fe_moment(clock->pause);
  return true;
}

/* Waits for the slot's value: for a putter that is late that alone, otherwise for the signal too. FEMEM_NOT_NOW: there is
   none; *told is then the word of a signal, or UINT64_MAX. */
static femem_error wait_for(ring *of, uint64_t word, bool is_late, const watch *clock, uint64_t *value, uint64_t *told) {
  const femem_request requests[] = {
    {.operation = FEMEM_READFE, .array = of->array, .index = (uint32_t)word},
    {.operation = FEMEM_READFE, .array = of->array, .index = RING_SIGNAL}};
  femem_answer answers[2] = {{0}, {.error = FEMEM_WITHDRAWN}};
  int64_t most = is_late ? SOON : fp_left(clock->look_at);
  femem_error error = femem_wait_any(of->client, requests, is_late ? 1 : 2, fp_least(clock->end, most), answers);
  if (error && error != FEMEM_WITHDRAWN) return error;
  bool is_told = answers[1].error == FEMEM_OK;
  if (answers[0].error && answers[0].error != FEMEM_WITHDRAWN) return answers[0].error;
  *value = answers[0].value;
  *told = is_told ? answers[1].value : UINT64_MAX;
  if (answers[0].error == FEMEM_OK && is_told) return tell(of, answers[1].value); /* for another one that waits */
  return answers[0].error ? FEMEM_NOT_NOW : FEMEM_OK;
}

/* The signal of one that does not wait. */
static femem_error take_signal(ring *of, uint64_t *told) {
  const femem_request take = fp_take(of->array, RING_SIGNAL);
  femem_answer answer;
  femem_error error = fp_batch(of->client, &take, 1, &answer);
  *told = error == FEMEM_OK && answer.error == FEMEM_OK ? answer.value : UINT64_MAX;
  return error;
}

/* Takes the value of a signal, if it is there, or any value. FEMEM_NOT_NOW: there is none. */
static femem_error get_told(ring *of, uint64_t ticket, uint64_t told, bool looks, uint64_t *value) {
  if (told != ALL && told >= RING_SLOTS && told < RING_SLOTS + (uint64_t)of->slots) {
    const femem_request take = fp_take(of->array, told);
    femem_answer answer;
    femem_error error = fp_batch(of->client, &take, 1, &answer);
    *value = answer.value;
    if (error || answer.error == FEMEM_OK) return error;
  }
  return looks || told == ALL ? get_anywhere(of, ticket, value) : FEMEM_NOT_NOW;
}

/* One round of a get. FEMEM_NOT_NOW: there was none. *is_late: the putter of the ticket's value has its ticket. */
static femem_error get_once(ring *of, uint64_t ticket, bool waits, watch *clock, bool *is_late, uint64_t *value) {
  uint64_t word = slot_of(of, ticket), told = UINT64_MAX;
  const femem_request requests[] = {fp_take(of->array, word), fp_read(of->array, RING_TAIL)};
  femem_answer answers[2];
  femem_error error = fp_batch(of->client, requests, 2, answers);
  if (error || answers[0].error != FEMEM_NOT_NOW) {
    *value = answers[0].value;
    *is_late = true; /* the ticket is used */
    return error ? error : answers[0].error;
  }
  *is_late = answers[1].value > ticket;
  error = waits ? wait_for(of, word, *is_late, clock, value, &told) : take_signal(of, &told);
  if (waits && error != FEMEM_NOT_NOW) {
    *is_late = true;
    return error;
  }
  bool looks = waits ? is_due(clock) || fp_is_over(of->client, clock->end) : *is_late || fe_now() - of->looked_at > TRUST;
  return error && error != FEMEM_NOT_NOW ? error : get_told(of, ticket, told, looks, value);
}

femem_error fr_get(ring *of, int64_t end, uint64_t *value) {
  watch clock = {.end = end, .look_at = fe_moment(FIRST_LOOK), .pause = FIRST_LOOK};
  bool waits = !fp_is_over(of->client, end);
  for (;;) {
    bool is_kept = of->has_ticket, is_late = false;
    uint64_t ticket = of->ticket;
    femem_error error = is_kept ? FEMEM_OK : new_ticket(of, &ticket);
    of->has_ticket = false;
    if (error) return error;
    error = get_once(of, ticket, waits, &clock, &is_late, value);
    /* A ticket whose putter is late, or that was used, is not kept. */
    of->has_ticket = !is_late;
    of->ticket = ticket;
    if (error != FEMEM_NOT_NOW) return error;
    if (!waits || fp_is_over(of->client, end)) return FEMEM_WITHDRAWN;
  }
}
