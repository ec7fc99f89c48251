/* A job that moves from one work queue to the next, once. The new job is put first, with the address of the word END of the
   job from which it comes. Whoever fills that END with the address of the new job's word SOURCE ends the one and lets the
   other count, in one step. docs/work-queue.md has the steps. */
#define _POSIX_C_SOURCE 200809L
#include "queue.h"

static uint64_t array_of(uint64_t address) { return address >> 16; }
static uint64_t index_of(uint64_t address) { return address & 0xffff; }

/* Says of the slot at that SOURCE that it counts. */
static femem_request confirms(uint64_t source) {
  return (femem_request){.operation = FEMEM_WRITEXF, .array = array_of(source), .index = (uint32_t)index_of(source)};
}

femem_error fq_confirm(femem_queue *queue, const femem_answer *ends, uint64_t count) {
  femem_request tells[CHUNK];
  femem_answer answers[CHUNK];
  size_t found = 0;
  for (uint64_t i = 0; i < count; i++)
    if (ends[i].error == FEMEM_OK && ends[i].value >= LEAST_ADDRESS) tells[found++] = confirms(ends[i].value);
  return found ? fq_together(queue, tells, found, answers) : FEMEM_OK;
}

femem_error fq_settle(femem_queue *queue, uint64_t page, uint64_t ticket, const femem_answer *source, bool *counts) {
  *counts = true;
  if (source->error || source->value == 0) return FEMEM_OK;
  uint64_t mine = fq_address(page, fq_source(queue, ticket)), old = array_of(source->value), end = index_of(source->value);
  const femem_request asked[] = {fq_fill(old, end, mine), fq_read(old, end, true),
                                 fq_read(page, fq_source(queue, ticket), true)}; /* 0 if the old page is gone, and it counted */
  femem_answer answers[3];
  femem_error error = fq_together(queue, asked, 3, answers);
  if (error) return error;
  bool moved = answers[1].error == FEMEM_OK && answers[1].value == mine;
  *counts = moved || (answers[2].error == FEMEM_OK && answers[2].value == 0);
  if (!*counts) return fq_end_slot(queue, page, ticket, ENDED_VOID);
  const femem_request tells[] = {confirms(mine), fq_add(old, FINISHED, 1)};
  return fq_together(queue, tells, answers[0].error == FEMEM_OK ? 2 : 1, answers);
}

femem_error fq_hold_if_counts(femem_queue *queue, uint64_t number, uint64_t value, uint32_t attempt,
                              const femem_answer *source, femem_job *job) {
  bool counts;
  femem_error error = fq_settle(queue, fq_page_of(number), fq_slot_of(number), source, &counts);
  return error || !counts ? error : fq_hold(queue, number, value, attempt, job);
}

/* Lets the new job count, and signals it to takers. */
static femem_error offer(femem_queue *next, uint64_t page, uint64_t ticket) {
  const femem_request asked[] = {confirms(fq_address(page, fq_source(next, ticket))),
                                 fq_fill(next->root, JOBS, fq_number(page, ticket)), fq_read(page, HEAD, true)};
  femem_answer answers[3];
  femem_error error = fq_together(next, asked, 3, answers);
  bool is_missed = answers[1].error == FEMEM_NOT_NOW && answers[2].error == FEMEM_OK && answers[2].value > ticket;
  return error == FEMEM_OK && is_missed ? fq_tell(next, FEMEM_WRITEXF, next->root, JOBS, NOTHING) : error;
}

/* Moves a job to a slot whose ticket this client has. *moved is false if the slot was voided. */
static femem_error move_into(femem_queue *from, const femem_job *job, femem_queue *next, uint64_t ticket, uint64_t value,
                             bool *moved) {
  uint64_t page = next->putting, old = fq_page_of(job->number), slot_of_old = fq_slot_of(job->number);
  uint64_t mine = fq_address(page, fq_source(next, ticket)), end = fq_end(from, slot_of_old);
  const femem_request puts[] = {fq_fill(page, fq_source(next, ticket), fq_address(old, end)),
                                fq_fill(page, fq_value(next, ticket), value)};
  const femem_request ends[] = {fq_fill(old, end, mine), fq_read(old, end, true)};
  femem_answer answers[2];
  femem_error error = fq_together(next, puts, 2, answers);
  if (error == FEMEM_OK && answers[1].error == FEMEM_NO_ARRAY) fq_forget_page(next, page);
  if (error || answers[1].error) return error;
  error = fq_together(from, ends, 2, answers);
  if (error) return error;
  bool filled = answers[0].error == FEMEM_OK;
  if (answers[1].error || answers[1].value != mine) {
    error = fq_end_slot(next, page, ticket, ENDED_VOID);
    return error ? error : FEMEM_NOT_OWNER;
  }
  *moved = true;
  error = offer(next, page, ticket);
  if (error) return error;
  if (filled) return fq_finished(from, old, slot_of_old);
  fq_note_end(from, old, slot_of_old);
  return FEMEM_OK;
}

femem_error femem_queue_move(femem_queue *from, const femem_job *job, femem_queue *next, uint64_t value, int64_t within) {
  int64_t end = fp_begin(next->client, within);
  if (fe_is_copy(from->client) || fe_is_copy(next->client)) return FEMEM_FORKED;
  if (value == NOTHING) return FEMEM_BAD_CALL;
  for (;;) {
    bool moved = false;
    uint64_t ticket;
    femem_error error = fq_draw(next, &ticket, end);
    if (error == FEMEM_OK) error = fq_wait_for_turn(next, ticket, end);
    if (error == FEMEM_OK) error = move_into(from, job, next, ticket, value, &moved);
    if (moved || error == FEMEM_NOT_OWNER) fq_let_go(from, job->number);
    /* The job has moved, whatever becomes of its signal and its count. */
    if (moved) return fe_flush(next->client);
    if (error) return error;
  }
}
