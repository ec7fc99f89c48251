/* Work queues: opening, putting, taking, and what becomes of a job. */
#define _POSIX_C_SOURCE 200809L
#include "queue.h"

#include <stdlib.h>
#include <string.h>

enum { SLOW = 50, SLOWEST = 1000 }; /* milliseconds */
enum { FIND_AFTER = 30000000 };     /* microseconds, after which pages are found again in any case */
enum { UNCOUNTED_AFTER = 3 };       /* waits of a put, after which it looks for pages that have ended */

/* ---- opening ---- */

/* The slots of a page: a quarter of the capacity, more in a small queue, and no more than fit well into a server. */
static uint32_t slots_of(uint32_t capacity, uint32_t attempts) {
  uint32_t quarter = (capacity + 3) / 4, most = PAGE_WORDS / (SLOT_WORDS + attempts);
  uint32_t least = capacity < LEAST_SLOTS ? capacity : LEAST_SLOTS, wanted = quarter > least ? quarter : least;
  return wanted < most ? wanted : most;
}

femem_error femem_queue_open(femem_queue **queue, femem *client, const char *name, uint32_t capacity,
                             uint32_t attempts, int64_t away_after) {
  *queue = NULL;
  if (fe_is_copy(client)) return FEMEM_FORKED;
  size_t length = strlen(name);
  bool right = length >= 1 && length <= 30 && capacity >= 1 && capacity <= 65532 && attempts >= 1 &&
               attempts <= MOST_ATTEMPTS && away_after >= 0 && away_after < 1000000000;
  if (!right || client->settings.resume) return FEMEM_BAD_CALL;
  femem_queue *made = calloc(1, sizeof *made);
  if (!made) return FEMEM_MEMORY;
  made->client = client;
  memcpy(made->name, name, length);
  made->capacity = capacity;
  made->attempts = attempts;
  made->slots = slots_of(capacity, attempts);
  made->away_after = 1000 * (away_after ? away_after : 5000);
  size_t bytes = made->slots / 8 + 1;
  made->bits = calloc(PAGES, bytes);
  for (size_t i = 0; made->bits && i < PAGES; i++) made->pages[i].is_ended = made->bits + i * bytes;
  femem_error error = made->bits ? fe_shared_array(client, name, ROOT_LENGTH, &made->root) : FEMEM_MEMORY;
  if (error == FEMEM_OK) error = fq_begin_root(made);
  if (error == FEMEM_OK) error = fq_find_pages(made);
  if (error) femem_queue_close(made);
  else *queue = made;
  return error;
}

void femem_queue_close(femem_queue *queue) {
  if (!queue) return;
  fp_hide(queue->client, queue->shows);
  free(queue->held);
  free(queue->bits);
  free(queue);
}

/* ---- putting ---- */

/* Waits until a word is full, for some milliseconds. */
static femem_error wait_for(femem_queue *queue, femem_operation operation, uint64_t array, uint64_t index,
                            int64_t within, femem_answer *answer) {
  queue->asked++;
  femem_request request = {.operation = operation, .array = array, .index = (uint32_t)index};
  return fp_wait(queue->client, request, within, answer);
}

/* Waits for a signal of room. FEMEM_WITHDRAWN at the end of the time. */
static femem_error wait_for_room(femem_queue *queue, int64_t pause, int64_t end) {
  int64_t most = fp_left(end);
  femem_answer answer;
  if (most == 0 || queue->client->stopped) return FEMEM_WITHDRAWN;
  femem_error error = wait_for(queue, FEMEM_READFF, queue->root, ROOM, most > 0 && most < pause ? most : pause, &answer);
  return error == FEMEM_WITHDRAWN ? FEMEM_OK : error;
}

/* Whether no name is free for a page. */
static bool has_all_names(const femem_queue *queue) {
  for (const queue_page *at = queue->pages; at < queue->pages + PAGES; at++)
    if (at->id == 0) return false;
  return true;
}

/* Finds a page to put into, where `full` has no more tickets. Makes one if there is a name, and otherwise waits. */
static femem_error find_room(femem_queue *queue, uint64_t full, int64_t end) {
  for (int64_t pause = SLOW;; pause = 2 * pause < SLOWEST ? 2 * pause : SLOWEST) {
    femem_error error = fq_find_pages(queue);
    bool is_new = error == FEMEM_OK && fq_newest(queue) > full;
    if (error == FEMEM_OK && !is_new) error = fq_remove_finished(queue);
    if (error == FEMEM_OK && !is_new) error = fq_make_page(queue);
    queue->putting = fq_newest(queue);
    if (error || queue->putting > full) return error;
    if (fq_page_above(queue, 0) == 0) continue;
    error = femem_purge(queue->client, queue->root, ROOM);
    if (error == FEMEM_OK) error = fq_remove_ended(queue);
    bool holds_all = (uint64_t)PAGES * queue->slots >= queue->capacity; /* or a server has no room for so many */
    if (error == FEMEM_OK && has_all_names(queue))
      error = holds_all ? wait_for_room(queue, pause, end) : FEMEM_WORD_LIMIT;
    if (error) return error;
  }
}

/* Draws a ticket, unless the last put has kept one. *ticket is that of the page queue->putting. */
femem_error fq_draw(femem_queue *queue, uint64_t *ticket, int64_t end) {
  *ticket = queue->ticket;
  if (queue->has_ticket) return FEMEM_OK;
  for (uint64_t full = 0;;) {
    if (queue->putting == 0) {
      femem_error error = find_room(queue, full, end);
      if (error) return error;
    }
    uint64_t page = queue->putting;
    femem_request add = fq_add(page, TAIL, 1);
    femem_answer answer;
    femem_error error = fq_together(queue, &add, 1, &answer);
    if (error) return error;
    *ticket = answer.value;
    if (answer.error == FEMEM_OK && *ticket < queue->slots) return FEMEM_OK;
    if (answer.error == FEMEM_NO_ARRAY) fq_forget_page(queue, page);
    if (answer.error == FEMEM_OK && page > full) full = page;
    queue->putting = 0;
  }
}

/* Raises the limit of the page to put into: with all tickets before them, as many jobs are open then as the capacity says.
   Without `fresh` counts a page before it may have all its tickets drawn. */
static void raise_limit(femem_queue *queue, bool fresh) {
  queue_page *of = fq_page(queue, queue->putting);
  uint64_t open = 0;
  for (const queue_page *at = queue->pages; at < queue->pages + PAGES; at++) {
    uint64_t tickets = fresh ? fq_capped(queue, at->tail) : queue->slots;
    if (at->id > 0 && at->id < queue->putting && tickets > at->finished) open += tickets - at->finished;
  }
  if (of && queue->capacity + of->finished > open + of->limit) of->limit = queue->capacity + of->finished - open;
}

/* Reads how many slots have ended: of the oldest page, since jobs are done in about their order, or of all up to the one
   to put into. They are read before tickets are counted, so that what is found is never too high. */
static femem_error read_counts(femem_queue *queue, bool all, bool purges) {
  femem_request asked[1 + 2 * PAGES] = {{.operation = FEMEM_PURGE, .array = queue->root, .index = ROOM}};
  femem_answer words[1 + 2 * PAGES];
  uint64_t ids[PAGES], pages = 0;
  for (uint64_t id = 0; (id = fq_page_above(queue, id)) > 0 && id <= queue->putting && (all || pages == 0); pages++) {
    ids[pages] = id;
    asked[1 + 2 * pages] = fq_read(id, FINISHED, true);
    asked[2 + 2 * pages] = fq_read(id, TAIL, true);
  }
  size_t skipped = purges ? 0 : 1, count = 1 + (all ? 2 * pages : pages);
  femem_error error = fq_together(queue, asked + skipped, count - skipped, words + skipped);
  for (uint64_t i = 0; i < pages && error == FEMEM_OK; i++) {
    const femem_answer *finished = &words[1 + 2 * i], *tail = finished + 1;
    queue_page *of = fq_page(queue, ids[i]);
    if (finished->error == FEMEM_NO_ARRAY) fq_forget_page(queue, ids[i]);
    if (finished->error) continue;
    of->finished = finished->value;
    if (all && tail->error == FEMEM_OK) of->tail = tail->value;
  }
  if (error == FEMEM_OK) raise_limit(queue, all);
  return error;
}

/* Whether the ticket may be used; also if its page is gone, since the put finds that out. */
static bool is_allowed(femem_queue *queue, uint64_t ticket) {
  const queue_page *of = fq_page(queue, queue->putting);
  return !of || ticket < of->limit;
}

/* Waits until the ticket may be used. If the time is over, the next put goes on with it. */
femem_error fq_wait_for_turn(femem_queue *queue, uint64_t ticket, int64_t end) {
  int64_t pause = SLOW;
  raise_limit(queue, false);
  for (int tries = 0; !is_allowed(queue, ticket); tries++) {
    femem_error error = read_counts(queue, tries > 0, tries > 1);
    /* A page may have ended though it was not counted so. */
    if (error == FEMEM_OK && tries > UNCOUNTED_AFTER && !is_allowed(queue, ticket)) error = fq_remove_ended(queue);
    if (error == FEMEM_OK && tries > 1 && !is_allowed(queue, ticket)) {
      error = wait_for_room(queue, pause, end);
      pause = 2 * pause < SLOWEST ? 2 * pause : SLOWEST;
    }
    queue->has_ticket = error == FEMEM_WITHDRAWN;
    queue->ticket = ticket;
    if (error) return error;
  }
  queue->has_ticket = false;
  return FEMEM_OK;
}

/* Signals a job to takers. */
static femem_error signal_job(femem_queue *queue, uint64_t number) {
  femem_request signal = fq_fill(queue->root, JOBS, number);
  femem_answer answer;
  femem_error error = fq_together(queue, &signal, 1, &answer);
  if (error == FEMEM_OK && answer.error == FEMEM_NOT_NOW)
    error = fq_tell(queue, FEMEM_WRITEXF, queue->root, JOBS, NOTHING);
  return error ? error : fe_flush(queue->client);
}

/* Puts the value into a slot, with its signal. *in says whether it is in. */
static femem_error put_into(femem_queue *queue, uint64_t ticket, uint64_t value, const char *key, bool *in) {
  uint64_t page = queue->putting, number;
  femem_request put = fq_fill(page, fq_value(queue, ticket), value), rest[] = {
    fq_fill(queue->root, JOBS, fq_number(page, ticket)), fq_read(page, HEAD, true)};
  femem_answer answer = {0}, answers[2];
  femem_error error = fe_send_request(queue->client, &put, key, key ? 0 : SEND_ENDS, &number);
  if (error) return error;
  error = fq_together(queue, rest, 2, answers);
  if (error && !key) fe_abandon(queue->client, number);
  if (error) return error;
  error = key ? femem_once(queue->client, key, &put, &answer)
              : fe_take(queue->client, number, &answer, queue->client->settings.wait);
  *in = error == FEMEM_OK && answer.error == FEMEM_OK;
  if (*in && answers[0].error == FEMEM_NOT_NOW && answers[1].error == FEMEM_OK && answers[1].value > ticket)
    error = fq_tell(queue, FEMEM_WRITEXF, queue->root, JOBS, NOTHING);
  if (error == FEMEM_NOT_NOW || error == FEMEM_NO_ARRAY) error = FEMEM_OK;
  if (answer.error && answer.error != FEMEM_NOT_NOW && answer.error != FEMEM_NO_ARRAY && !error) error = answer.error;
  if (!*in && answer.error == FEMEM_NO_ARRAY) fq_forget_page(queue, page);
  return error ? error : fe_flush(queue->client);
}

/* Whether the value is in under the key, by an earlier try of this process or an earlier one. */
static femem_error is_in(femem_queue *queue, uint64_t value, const char *key, bool *in) {
  const kept_key *kept = fe_find_key(queue->client, key);
  femem_answer answer = {0};
  *in = false;
  if (!kept) return FEMEM_OK;
  if (kept->request.operation != FEMEM_WRITEEF || kept->request.operand != value) return FEMEM_OTHER_REQUEST;
  femem_request put = kept->request;
  femem_error error = femem_once(queue->client, key, &put, &answer);
  *in = error == FEMEM_OK;
  if (error == FEMEM_NOT_NOW || error == FEMEM_NO_ARRAY) error = femem_forget(queue->client, key);
  return error == FEMEM_WITHDRAWN ? FEMEM_OK : error;
}

femem_error femem_queue_put(femem_queue *queue, uint64_t value, const char *key, int64_t within) {
  femem *client = queue->client;
  int64_t end = fp_begin(client, within);
  if (fe_is_copy(client)) return FEMEM_FORKED;
  if (value == NOTHING || (key && (!client->file || !fe_is_key(key)))) return FEMEM_BAD_CALL;
  for (;;) {
    bool in = false;
    uint64_t ticket;
    femem_error error = key ? is_in(queue, value, key, &in) : FEMEM_OK;
    if (error || in) return error;
    error = fq_draw(queue, &ticket, end);
    if (error == FEMEM_OK) error = fq_wait_for_turn(queue, ticket, end);
    if (error == FEMEM_OK) error = put_into(queue, ticket, value, key, &in);
    if (error || in) return error;
  }
}

/* ---- taking ---- */

/* The oldest known page with a job that no ticket was drawn for, or 0. */
static femem_error find_work(femem_queue *queue, uint64_t *found) {
  femem_request reads[2 * PAGES];
  femem_answer words[2 * PAGES];
  uint64_t ids[PAGES], count = 0;
  for (uint64_t id = 0; (id = fq_page_above(queue, id)) > 0; count++) {
    ids[count] = id;
    reads[2 * count] = fq_read(id, TAIL, true);
    reads[2 * count + 1] = fq_read(id, HEAD, true);
  }
  *found = 0;
  femem_error error = fq_together(queue, reads, 2 * count, words);
  for (uint64_t i = 0; i < count && error == FEMEM_OK; i++) {
    queue_page *of = fq_page(queue, ids[i]);
    if (words[2 * i].error == FEMEM_NO_ARRAY) fq_forget_page(queue, ids[i]);
    if (words[2 * i].error || words[2 * i + 1].error) continue;
    of->tail = words[2 * i].value;
    of->head = words[2 * i + 1].value;
    if (*found == 0 && of->head < fq_capped(queue, of->tail)) *found = ids[i];
  }
  return error;
}

/* Whether there may be a page that is not known: one is made once the newest has no more tickets. */
static bool may_find(femem_queue *queue) {
  const queue_page *newest = fq_page(queue, fq_newest(queue));
  int64_t since = fe_now() - queue->found_at;
  return since > FIND_AFTER || ((!newest || newest->tail >= queue->slots) && (queue->has_taken || since > 1000 * SLOWEST));
}

/* Takes the job of a slot whose ticket this client has. One that was claimed before was signalled; if its taker was killed
   since, no look below HEAD has seen it yet. */
static femem_error take_slot(femem_queue *queue, uint64_t page, uint64_t ticket, femem_job *job) {
  femem_request requests[] = {fq_fill(page, fq_claim(queue, ticket, 0), femem_session(queue->client)),
                              fq_read(page, fq_value(queue, ticket), true), fq_read(page, fq_source(queue, ticket), true)};
  femem_answer answers[3], late;
  femem_error error = fq_together(queue, requests, 3, answers);
  if (error == FEMEM_OK && answers[0].error == FEMEM_NOT_NOW) {
    queue->report = NULL;
    return fq_look_at(queue, fq_number(page, ticket), true, job);
  }
  if (error || answers[0].error) return error;
  uint64_t value = answers[1].value;
  if (answers[1].error == FEMEM_NOT_NOW) {
    error = wait_for(queue, FEMEM_READFF, page, fq_value(queue, ticket), SLOW, &late);
    if (error == FEMEM_OK) value = late.value;
    if (error == FEMEM_WITHDRAWN) error = fq_void(queue, page, ticket, &value);
    if (error == FEMEM_OK) error = fq_together(queue, requests + 2, 1, answers + 2);
    if (error) return error == FEMEM_NO_ARRAY ? FEMEM_OK : error;
  }
  if (value == NOTHING) return FEMEM_OK;
  return fq_hold_if_counts(queue, fq_number(page, ticket), value, 0, &answers[2], job);
}

/* Draws a ticket of a page, and takes its job. *drawn says whether the page had a ticket with a slot. TAIL is read if the
   ticket may be above what was seen of it. */
static femem_error take_from(femem_queue *queue, uint64_t id, femem_job *job, bool *drawn) {
  queue_page *of = fq_page(queue, id);
  femem_request requests[] = {fq_add(id, HEAD, 1), fq_read(id, TAIL, true)};
  femem_answer words[2] = {{0}};
  bool near = !of || of->head + 1 >= of->tail;
  femem_error error = fq_together(queue, requests, near ? 2 : 1, words);
  if (error == FEMEM_OK && !near && words[0].value >= of->tail) {
    near = true;
    error = fq_together(queue, requests + 1, 1, words + 1);
  }
  bool here = error == FEMEM_OK && words[0].error == FEMEM_OK && words[1].error == FEMEM_OK && of;
  if (here && near) of->tail = words[1].value;
  if (here) of->head = words[0].value + 1;
  *drawn = here && words[0].value < fq_capped(queue, of->tail);
  queue->taking = *drawn ? id : 0;
  if (error == FEMEM_OK && words[0].error == FEMEM_NO_ARRAY) fq_forget_page(queue, id);
  return *drawn ? take_slot(queue, id, words[0].value, job) : error;
}

/* Takes a job for which no ticket was drawn. *more says whether there may be another one. */
static femem_error take_next(femem_queue *queue, femem_job *job, bool *more) {
  uint64_t page = queue->taking;
  if (page) {
    femem_error error = take_from(queue, page, job, more);
    if (error || *more) return error;
  }
  femem_error error = find_work(queue, &page);
  if (error == FEMEM_OK && page == 0 && may_find(queue)) {
    error = fq_find_pages(queue);
    if (error == FEMEM_OK) error = find_work(queue, &page);
  }
  *more = error == FEMEM_OK && page > 0;
  if (!*more) return error;
  bool drawn;
  return take_from(queue, page, job, &drawn);
}

/* Takes the job of a signal if it is new. *is_new is false if it was claimed before. */
static femem_error take_new(femem_queue *queue, uint64_t number, femem_job *job, bool *is_new) {
  uint64_t page = fq_page_of(number), ticket = fq_slot_of(number);
  femem_request requests[] = {fq_fill(page, fq_claim(queue, ticket, 0), femem_session(queue->client)),
                              fq_read(page, fq_value(queue, ticket), true), fq_read(page, fq_end(queue, ticket), true),
                              fq_read(page, fq_source(queue, ticket), true)};
  femem_answer answers[4];
  femem_error error = fq_together(queue, requests, 4, answers);
  *is_new = error == FEMEM_OK && answers[0].error == FEMEM_OK;
  bool there = *is_new && answers[1].error == FEMEM_OK && answers[1].value != NOTHING;
  if (!there || answers[2].error != FEMEM_NOT_NOW) return error;
  return fq_hold_if_counts(queue, number, answers[1].value, 0, &answers[3], job);
}

/* Looks at the job of a signal. */
static femem_error look_at_signal(femem_queue *queue, uint64_t number, femem_job *job) {
  if (number == NOTHING) return fq_rescue(queue, job);
  uint64_t page = fq_page_of(number), ticket = fq_slot_of(number);
  queue->report = NULL;
  if (!fq_is_known(queue, page)) {
    femem_error error = fq_find_pages(queue);
    if (error) return error;
  }
  if (!fq_is_known(queue, page) || ticket >= queue->slots) return FEMEM_OK;
  bool is_new;
  femem_error error = take_new(queue, number, job, &is_new);
  return error || is_new ? error : fq_look_at(queue, number, false, job);
}

femem_error femem_queue_take(femem_queue *queue, femem_job *job, int64_t within) {
  int64_t end = fp_begin(queue->client, within);
  *job = (femem_job){0};
  if (fe_is_copy(queue->client)) return FEMEM_FORKED;
  femem_error error = fp_show(queue->client, &queue->shows);
  for (bool last = false; error == FEMEM_OK;) {
    bool more = true;
    femem_answer signal;
    if (fe_now() >= (last ? queue->look_from : queue->rescue_at)) error = fq_rescue(queue, job);
    while (error == FEMEM_OK && job->number == 0 && more) error = take_next(queue, job, &more);
    if (error || job->number) return error;
    if (last) return FEMEM_WITHDRAWN;
    int64_t pause = fp_left(queue->rescue_at), most = fp_left(end);
    error = wait_for(queue, FEMEM_READFE, queue->root, JOBS, most >= 0 && most < pause ? most : pause, &signal);
    last = fp_is_over(queue->client, end);
    if (error == FEMEM_OK) error = look_at_signal(queue, signal.value, job);
    if (error == FEMEM_WITHDRAWN || error == FEMEM_NOT_NOW) error = FEMEM_OK;
    if (error == FEMEM_OK && job->number) return FEMEM_OK;
  }
  return error;
}

/* ---- what becomes of a job ---- */

void fq_let_go(femem_queue *queue, uint64_t number) {
  for (size_t i = 0; i < queue->held_count; i++)
    if (queue->held[i].number == number) queue->held[i--] = queue->held[--queue->held_count];
}

/* Once END is filled the job has ended, whatever becomes of its count. */
static femem_error end_job(femem_queue *queue, uint64_t number, uint64_t how) {
  uint64_t page = fq_page_of(number), ticket = fq_slot_of(number);
  femem_request end = fq_fill(page, fq_end(queue, ticket), how);
  femem_answer answer;
  femem_error error = fq_together(queue, &end, 1, &answer);
  if (error) return error;
  if (answer.error) return FEMEM_NOT_OWNER;
  fq_finished(queue, page, ticket);
  return FEMEM_OK;
}

femem_error femem_queue_done(femem_queue *queue, const femem_job *job) {
  femem_error error = end_job(queue, job->number, ENDED_DONE);
  if (error == FEMEM_OK || error == FEMEM_NOT_OWNER) fq_let_go(queue, job->number);
  return error;
}

femem_error femem_queue_fail(femem_queue *queue, const femem_job *job) {
  uint64_t page = fq_page_of(job->number), ticket = fq_slot_of(job->number);
  if (job->attempt == 0 || job->attempt > queue->attempts) return FEMEM_BAD_CALL;
  femem_request give_up = fq_fill(page, fq_claim(queue, ticket, job->attempt - 1), NOTHING);
  give_up.operation = FEMEM_WRITEXF;
  give_up.no_wait = false;
  femem_answer answer;
  femem_error error = fq_together(queue, &give_up, 1, &answer);
  if (error) return error;
  fq_let_go(queue, job->number);
  return answer.error ? FEMEM_NOT_OWNER : signal_job(queue, job->number);
}

femem_error femem_queue_drop(femem_queue *queue, uint64_t number) { return end_job(queue, number, ENDED_DROPPED); }
