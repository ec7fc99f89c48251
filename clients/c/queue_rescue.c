/* Jobs that nobody has: those of takers that are away, of putters that were stopped, and those that were not seen. */
#define _POSIX_C_SOURCE 200809L
#include "queue.h"

#include <stdlib.h>
#include <string.h>

/* Microseconds: after which a slot that has a ticket and no value is ended; between looks, for each request. */
enum { A_SECOND = 1000000, EMPTY_FOR = A_SECOND, A_REQUEST = 600000 };

femem_error fq_finished(femem_queue *queue, uint64_t page, uint64_t ticket) {
  femem_request told[] = {fq_add(page, FINISHED, 1), fq_fill(queue->root, ROOM, 0)};
  femem_answer answers[2];
  fq_note_end(queue, page, ticket);
  femem_error error = fq_together(queue, told, 2, answers);
  bool last = error == FEMEM_OK && answers[0].error == FEMEM_OK && answers[0].value + 1 >= queue->slots;
  return last ? fq_remove_page(queue, page) : error;
}

femem_error fq_end_slot(femem_queue *queue, uint64_t page, uint64_t ticket, uint64_t how) {
  femem_request end = fq_fill(page, fq_end(queue, ticket), how);
  femem_answer answer;
  femem_error error = fq_together(queue, &end, 1, &answer);
  return error == FEMEM_OK && answer.error == FEMEM_OK ? fq_finished(queue, page, ticket) : error;
}

femem_error fq_void(femem_queue *queue, uint64_t page, uint64_t ticket, uint64_t *value) {
  uint64_t at = fq_value(queue, ticket);
  femem_request requests[] = {fq_fill(page, at, NOTHING), fq_read(page, at, true)};
  femem_answer answers[2];
  *value = NOTHING;
  femem_error error = fq_together(queue, requests, 2, answers);
  if (error || answers[1].error) return error;
  *value = answers[1].value;
  return *value == NOTHING ? fq_end_slot(queue, page, ticket, ENDED_VOID) : FEMEM_OK;
}

femem_error fq_hold(femem_queue *queue, uint64_t number, uint64_t value, uint32_t attempt, femem_job *job) {
  *job = (femem_job){.number = number, .value = value, .attempt = attempt + 1};
  queue->has_taken = true;
  queue->idle_from = queue->asked;
  if (queue->held_count == queue->held_room) {
    size_t room = 2 * queue->held_room + 8;
    femem_job *held = realloc(queue->held, room * sizeof *held);
    if (!held) return FEMEM_MEMORY;
    queue->held = held;
    queue->held_room = room;
  }
  queue->held[queue->held_count++] = *job;
  return FEMEM_OK;
}

static bool is_held(const femem_queue *queue, uint64_t number) {
  for (size_t i = 0; i < queue->held_count; i++)
    if (queue->held[i].number == number) return true;
  return false;
}

/* Reads who is there, once in a look. Absent is who is so in each report, if no report came long after the one before. */
static femem_error read_report(femem_queue *queue) {
  femem_error error = femem_report(queue->client, &queue->report);
  if (error) return error;
  bool is_late = fe_now() - queue->reported_at > 2 * queue->away_after + A_SECOND;
  for (seen *at = queue->absent; at < queue->absent + SEEN; at++)
    if (at->what != 0 && (is_late || fp_is_there(queue->client, queue->report, at->what))) *at = (seen){0};
  queue->reported_at = fe_now();
  queue->asked++;
  return FEMEM_OK;
}

/* Whether a request of the session waits at the presence array. */
static femem_error is_present(femem_queue *queue, uint64_t session, bool *present) {
  femem_error error = queue->report ? FEMEM_OK : read_report(queue);
  if (error == FEMEM_OK) *present = fp_is_there(queue->client, queue->report, session);
  return error;
}

static bool any_absent(const femem_queue *queue) {
  for (const seen *at = queue->absent; at < queue->absent + SEEN; at++)
    if (at->what != 0) return true;
  return false;
}

/* Whether it has been seen for that time. If not, the next look is when it has. */
static bool has_lasted(femem_queue *queue, seen *all, uint64_t what, int64_t time) {
  int64_t end = fq_since(all, what) + time;
  if (fe_now() >= end) return true;
  if (end < queue->seen_until) queue->seen_until = end;
  return false;
}

/* Whether the attempt of a session may be taken over. */
static femem_error is_over(femem_queue *queue, uint64_t number, uint64_t session, bool *over) {
  *over = session == NOTHING;
  if (*over) return FEMEM_OK;
  if (session == femem_session(queue->client)) {
    *over = !is_held(queue, number);
    return FEMEM_OK;
  }
  bool present = true;
  femem_error error = is_present(queue, session, &present);
  if (error == FEMEM_OK && !present) *over = has_lasted(queue, queue->absent, session, queue->away_after);
  return error;
}

static femem_error claim(femem_queue *queue, uint64_t number, uint64_t value, uint32_t attempt, femem_job *job) {
  uint64_t page = fq_page_of(number), ticket = fq_slot_of(number);
  femem_request requests[] = {fq_fill(page, fq_claim(queue, ticket, attempt), femem_session(queue->client)),
                              fq_read(page, fq_end(queue, ticket), true)};
  femem_answer answers[2];
  femem_error error = fq_together(queue, requests, 2, answers);
  if (error || answers[0].error || answers[1].error != FEMEM_NOT_NOW) return error;
  return fq_hold(queue, number, value, attempt, job);
}

/* What is done with an open slot: `words` answer reads of its value, its claims and its source. */
typedef struct visit visit;
struct visit {
  femem_error (*act)(femem_queue *queue, visit *with, uint64_t number, const femem_answer *words);
  uint64_t head, open;   /* open: how many slots were found that have not ended */
  uint64_t sought, left; /* how many of those there are at most; how many slots may be looked at */
  bool more;             /* a job was found, and there is another one */
  femem_job *job, *jobs; /* the job that was found; room for those that are set aside */
  size_t most, count;
};

static uint32_t claims_of(const femem_queue *queue, const femem_answer *words) {
  uint32_t claims = 0;
  while (claims < queue->attempts && words[1 + claims].error == FEMEM_OK) claims++;
  return claims;
}

/* Takes the job if nobody has it. */
static femem_error take_over(femem_queue *queue, visit *with, uint64_t number, const femem_answer *words) {
  uint64_t page = fq_page_of(number), ticket = fq_slot_of(number), value;
  if (words[0].error == FEMEM_NO_ARRAY) return FEMEM_OK;
  if (words[0].error == FEMEM_NOT_NOW && !has_lasted(queue, queue->empty, number, EMPTY_FOR)) return FEMEM_OK;
  if (words[0].error || words[0].value == NOTHING) {
    fq_not_so(queue->empty, number);
    return fq_void(queue, page, ticket, &value);
  }
  uint32_t claims = claims_of(queue, words);
  bool over = claims == 0 && ticket < with->head;
  femem_error error = claims > 0 ? is_over(queue, number, words[claims].value, &over) : FEMEM_OK;
  if (error || !over || claims == queue->attempts) return error;
  if (with->job->number) return with->more = true, FEMEM_OK;
  bool counts;
  error = fq_settle(queue, page, ticket, &words[1 + queue->attempts], &counts);
  if (error || !counts) return error;
  return claim(queue, number, words[0].value, claims, with->job);
}

/* Lists the job if it is set aside. */
static femem_error list_aside(femem_queue *queue, visit *with, uint64_t number, const femem_answer *words) {
  bool over = false;
  if (words[0].error || words[0].value == NOTHING || claims_of(queue, words) < queue->attempts) return FEMEM_OK;
  femem_error error = is_over(queue, number, words[queue->attempts].value, &over);
  if (error || !over) return error;
  bool counts;
  error = fq_settle(queue, fq_page_of(number), fq_slot_of(number), &words[1 + queue->attempts], &counts);
  if (error || !counts) return error;
  femem_job job = {.number = number, .value = words[0].value, .attempt = queue->attempts};
  if (with->count < with->most) with->jobs[with->count] = job;
  with->count++;
  return FEMEM_OK;
}

/* Reads END of up to CHUNK slots, and visits those that are open. */
static femem_error visit_some(femem_queue *queue, uint64_t page, const uint64_t *tickets, uint64_t count, visit *with) {
  enum { MOST = CHUNK * (2 + MOST_ATTEMPTS) };
  femem_request reads[MOST] = {{0}};
  femem_answer ends[CHUNK], words[MOST];
  uint64_t each = 2 + (uint64_t)queue->attempts, open[CHUNK], found = 0;
  for (uint64_t i = 0; i < count; i++) reads[i] = fq_read(page, fq_end(queue, tickets[i]), true);
  femem_error error = fq_together(queue, reads, count, ends);
  if (error == FEMEM_OK) error = fq_confirm(queue, ends, count);
  for (uint64_t i = 0; i < count && error == FEMEM_OK; i++) {
    if (ends[i].error == FEMEM_OK) fq_note_end(queue, page, tickets[i]);
    if (ends[i].error != FEMEM_NOT_NOW) continue;
    reads[found * each] = fq_read(page, fq_value(queue, tickets[i]), true);
    for (uint32_t a = 0; a < queue->attempts; a++)
      reads[found * each + 1 + a] = fq_read(page, fq_claim(queue, tickets[i], a), true);
    reads[found * each + 1 + queue->attempts] = fq_read(page, fq_source(queue, tickets[i]), true);
    open[found++] = tickets[i];
  }
  with->open += found;
  if (error || !with->act) return error;
  error = fq_together(queue, reads, found * each, words);
  for (uint64_t i = 0; i < found && error == FEMEM_OK; i++)
    error = with->act(queue, with, fq_number(page, open[i]), words + i * each);
  return error;
}

/* Visits the slots below `end` that are not known to have ended, the highest first, until all that are open were found, or
   a job was. If the look is over before, the next one goes on below. */
static femem_error visit_below(femem_queue *queue, uint64_t id, uint64_t end, visit *with) {
  queue_page *of = fq_page(queue, id);
  uint64_t at = of && of->below > 0 && of->below < end ? of->below : end;
  while (of && at > 0 && with->open < with->sought && with->left > 0 && !(with->job && with->job->number)) {
    uint64_t tickets[CHUNK], count = 0;
    for (; at > 0 && count < CHUNK; at--)
      if (!fq_has_ended(of, at - 1)) tickets[count++] = at - 1;
    femem_error error = visit_some(queue, id, tickets, count, with);
    if (error) return error;
    with->left -= count < with->left ? count : with->left;
    of = fq_page(queue, id);
  }
  if (of) of->below = with->left == 0 ? at : 0;
  return of && of->ended >= queue->slots ? fq_remove_page(queue, id) : FEMEM_OK;
}

femem_error fq_look_at(femem_queue *queue, uint64_t number, bool drawn, femem_job *job) {
  uint64_t page = fq_page_of(number), ticket = fq_slot_of(number);
  femem_request read = fq_read(page, HEAD, true);
  femem_answer head = {.value = ticket + 1};
  femem_error error = drawn ? FEMEM_OK : fq_together(queue, &read, 1, &head);
  if (error || head.error) return error;
  visit with = {.act = take_over, .head = head.value, .job = job};
  return visit_some(queue, page, &ticket, 1, &with);
}

femem_error femem_queue_aside(femem_queue *queue, femem_job *jobs, size_t most, size_t *count) {
  visit with = {.act = list_aside, .jobs = jobs, .most = most, .sought = UINT64_MAX, .left = UINT64_MAX};
  *count = 0;
  if (fe_is_copy(queue->client)) return FEMEM_FORKED;
  queue->report = NULL;
  femem_error error = fq_find_pages(queue);
  for (uint64_t id = 0; error == FEMEM_OK && (id = fq_page_above(queue, id)) > 0;) {
    femem_request read = fq_read(id, TAIL, true);
    femem_answer tail;
    error = fq_together(queue, &read, 1, &tail);
    if (error || tail.error) continue;
    fq_page(queue, id)->below = 0;
    error = visit_below(queue, id, fq_capped(queue, tail.value), &with);
  }
  *count = with.count;
  return error;
}

femem_error fq_remove_ended(femem_queue *queue) {
  femem_error error = FEMEM_OK;
  for (uint64_t id = 0; error == FEMEM_OK && (id = fq_page_above(queue, id)) > 0;) {
    visit with = {.sought = UINT64_MAX, .left = LOOKS};
    error = visit_below(queue, id, queue->slots, &with);
  }
  return error;
}

/* Ends the slots of a page that is not the newest and has tickets left: no putter draws them. */
static femem_error end_tickets(femem_queue *queue, uint64_t page, uint64_t tail) {
  femem_request rest = fq_add(page, TAIL, queue->slots - tail);
  femem_answer answer;
  uint64_t value;
  femem_error error = fq_together(queue, &rest, 1, &answer);
  if (error || answer.error) return error;
  for (uint64_t ticket = answer.value; ticket < queue->slots && error == FEMEM_OK; ticket++)
    error = fq_void(queue, page, ticket, &value);
  return error;
}

/* Looks for a job in the slots of a page below HEAD. `with` has what is the same for all pages. */
static femem_error rescue_page(femem_queue *queue, uint64_t id, visit *with) {
  femem_request reads[PAGE_HEAD];
  femem_answer words[PAGE_HEAD];
  for (unsigned i = 0; i < PAGE_HEAD; i++) reads[i] = fq_read(id, i, true);
  femem_error error = fq_together(queue, reads, PAGE_HEAD, words);
  if (words[TAIL].error == FEMEM_NO_ARRAY) fq_forget_page(queue, id);
  if (error || words[TAIL].error || words[HEAD].error || words[FINISHED].error) return error;
  if (words[FINISHED].value >= queue->slots) return fq_remove_page(queue, id);
  uint64_t tail = fq_capped(queue, words[TAIL].value);
  if (tail < queue->slots && id != fq_newest(queue)) {
    error = end_tickets(queue, id, tail);
    tail = queue->slots;
  }
  with->head = words[HEAD].value < tail ? words[HEAD].value : tail;
  with->open = 0;
  with->sought = with->head > words[FINISHED].value ? with->head - words[FINISHED].value : 0;
  return error ? error : visit_below(queue, id, with->head, with);
}

/* The next look is due the later the more requests this one took, and those since the last one if no job was taken. */
static void plan_look(femem_queue *queue, bool any_open) {
  int64_t least = queue->away_after / 4, now = fe_now();
  if (least > A_SECOND) least = A_SECOND;
  int64_t pause = (int64_t)(queue->asked - queue->idle_from + 2) * A_REQUEST;
  if (any_open && pause > queue->away_after) pause = queue->away_after;
  if (queue->seen_until < now + pause) pause = queue->seen_until - now;
  queue->look_from = now + least;
  queue->rescue_at = now + (pause > least ? pause : least);
  queue->idle_from = queue->asked;
}

/* The first look of a process finds all that an earlier one of its session has left. */
femem_error fq_rescue(femem_queue *queue, femem_job *job) {
  visit with = {.act = take_over, .job = job, .left = queue->has_looked ? LOOKS : UINT64_MAX};
  bool any_open = false;
  queue->report = NULL;
  queue->seen_until = INT64_MAX;
  femem_error error = any_absent(queue) ? read_report(queue) : FEMEM_OK; /* it may not come to a job of theirs */
  for (uint64_t id = 0; error == FEMEM_OK && job->number == 0 && (id = fq_page_above(queue, id)) > 0;) {
    error = rescue_page(queue, id, &with);
    any_open = any_open || with.open > 0;
  }
  queue->has_looked = queue->has_looked || (error == FEMEM_OK && job->number == 0);
  plan_look(queue, any_open);
  if (!any_open) memset(queue->absent, 0, sizeof queue->absent);
  if (error == FEMEM_OK && with.more) error = fq_tell(queue, FEMEM_WRITEXF, queue->root, JOBS, NOTHING);
  return error;
}
