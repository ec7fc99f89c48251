/* The words of a work queue, its pages, and what it has seen. */
#define _POSIX_C_SOURCE 200809L
#include "queue.h"

#include <string.h>

/* ---- requests ---- */

femem_request fq_read(uint64_t array, uint64_t index, bool no_wait) {
  return (femem_request){.operation = FEMEM_READFF, .array = array, .index = (uint32_t)index, .no_wait = no_wait};
}

femem_request fq_fill(uint64_t array, uint64_t index, uint64_t value) {
  return (femem_request){.operation = FEMEM_WRITEEF, .array = array, .index = (uint32_t)index, .operand = value,
                         .no_wait = true};
}

femem_request fq_add(uint64_t array, uint64_t index, uint64_t value) {
  return (femem_request){.operation = FEMEM_INT_FETCH_ADD, .array = array, .index = (uint32_t)index, .operand = value};
}

uint64_t fq_value(const femem_queue *queue, uint64_t ticket) {
  return PAGE_HEAD + ticket * (SLOT_WORDS + (uint64_t)queue->attempts);
}

uint64_t fq_end(const femem_queue *queue, uint64_t ticket) { return fq_value(queue, ticket) + 1; }

uint64_t fq_claim(const femem_queue *queue, uint64_t ticket, uint32_t attempt) {
  return fq_value(queue, ticket) + 2 + attempt;
}

uint64_t fq_source(const femem_queue *queue, uint64_t ticket) { return fq_value(queue, ticket) + 2 + queue->attempts; }

uint64_t fq_address(uint64_t array, uint64_t index) { return array << 16 | index; }

femem_error fq_together(femem_queue *queue, const femem_request *requests, size_t count, femem_answer *answers) {
  queue->asked += count;
  return fp_batch(queue->client, requests, count, answers);
}

femem_error fq_tell(femem_queue *queue, femem_operation operation, uint64_t array, uint64_t index, uint64_t value) {
  femem_request request = fq_fill(array, index, value);
  request.operation = operation;
  return fe_send_request(queue->client, &request, NULL, SEND_ENDS | SEND_UNWANTED, NULL);
}

uint64_t fq_number(uint64_t page, uint64_t ticket) { return page << 16 | ticket; }
uint64_t fq_page_of(uint64_t number) { return number >> 16; }
uint64_t fq_slot_of(uint64_t number) { return number & 0xffff; }

/* ---- root ---- */

femem_error fq_begin_root(femem_queue *queue) {
  enum { GIVEN = ROOT_LENGTH - CAPACITY_GIVEN };
  const uint64_t given[GIVEN] = {queue->capacity, queue->attempts, LAYOUT};
  femem_request asked[2 * GIVEN];
  femem_answer answers[2 * GIVEN];
  for (unsigned i = 0; i < GIVEN; i++) asked[i] = fq_fill(queue->root, CAPACITY_GIVEN + i, given[i]);
  for (unsigned i = 0; i < GIVEN; i++) asked[GIVEN + i] = fq_read(queue->root, CAPACITY_GIVEN + i, true);
  femem_error error = fq_together(queue, asked, 2 * GIVEN, answers);
  for (unsigned i = 0; i < GIVEN && error == FEMEM_OK; i++)
    if (answers[GIVEN + i].value != given[i]) error = FEMEM_BAD_CALL;
  return error;
}

/* ---- pages ---- */

static uint32_t page_length(const femem_queue *queue) { return PAGE_HEAD + queue->slots * (SLOT_WORDS + queue->attempts); }

static femem_request named(const femem_queue *queue, femem_operation operation, int page) {
  femem_request request = {.operation = operation, .length = page_length(queue)};
  size_t length = strlen(queue->name);
  memcpy(request.name, queue->name, length);
  request.name[length] = '_';
  request.name[length + 1] = (char)('0' + page);
  request.name_length = (uint8_t)(length + 2);
  return request;
}

/* Fills the first words of a page, in case its maker did not. */
static femem_error begin_page(femem_queue *queue, uint64_t page) {
  femem_request first[PAGE_HEAD];
  femem_answer answers[PAGE_HEAD];
  for (unsigned i = 0; i < PAGE_HEAD; i++) first[i] = fq_fill(page, i, 0);
  return fq_together(queue, first, PAGE_HEAD, answers);
}

queue_page *fq_page(femem_queue *queue, uint64_t id) {
  for (queue_page *at = queue->pages; at < queue->pages + PAGES; at++)
    if (id > 0 && at->id == id) return at;
  return NULL;
}

bool fq_is_known(femem_queue *queue, uint64_t id) { return fq_page(queue, id) != NULL; }

bool fq_has_ended(const queue_page *of, uint64_t ticket) { return of->is_ended[ticket / 8] >> ticket % 8 & 1; }

void fq_note_end(femem_queue *queue, uint64_t id, uint64_t ticket) {
  queue_page *of = fq_page(queue, id);
  if (!of || fq_has_ended(of, ticket)) return;
  of->is_ended[ticket / 8] |= (uint8_t)(1 << ticket % 8);
  of->ended++;
}

uint64_t fq_capped(const femem_queue *queue, uint64_t tickets) {
  return tickets < queue->slots ? tickets : queue->slots;
}

/* Notes the page of a name, of which nothing is known yet; 0: there is none. */
static void set_page(femem_queue *queue, queue_page *of, uint64_t id) {
  uint8_t *bits = of->is_ended;
  memset(bits, 0, queue->slots / 8 + 1);
  *of = (queue_page){.id = id, .is_ended = bits};
}

femem_error fq_find_pages(femem_queue *queue) {
  femem_request finds[PAGES];
  femem_answer answers[PAGES];
  for (int i = 0; i < PAGES; i++) finds[i] = named(queue, FEMEM_FIND, i);
  femem_error error = fq_together(queue, finds, PAGES, answers);
  for (int i = 0; i < PAGES && error == FEMEM_OK; i++) {
    if (answers[i].error == FEMEM_OK && answers[i].length != page_length(queue)) return FEMEM_BAD_CALL;
    uint64_t id = answers[i].error == FEMEM_OK ? answers[i].array : 0;
    if (queue->pages[i].id == id) continue;
    fq_forget_page(queue, queue->pages[i].id);
    set_page(queue, &queue->pages[i], id);
    if (id > 0) error = begin_page(queue, id);
  }
  queue->found_at = fe_now();
  queue->has_taken = false;
  return error;
}

uint64_t fq_page_above(const femem_queue *queue, uint64_t page) {
  uint64_t found = 0;
  for (int i = 0; i < PAGES; i++)
    if (queue->pages[i].id > page && (found == 0 || queue->pages[i].id < found)) found = queue->pages[i].id;
  return found;
}

uint64_t fq_newest(const femem_queue *queue) {
  uint64_t found = 0;
  for (int i = 0; i < PAGES; i++)
    if (queue->pages[i].id > found) found = queue->pages[i].id;
  return found;
}

femem_error fq_make_page(femem_queue *queue) {
  int name = 0;
  while (name < PAGES && queue->pages[name].id) name++;
  if (name == PAGES) return FEMEM_OK;
  femem_request create = named(queue, FEMEM_CREATE, name);
  femem_answer answer;
  femem_error error = femem_call(queue->client, &create, &answer);
  if (error == FEMEM_NAME_TAKEN) return fq_find_pages(queue);
  if (error) return error;
  set_page(queue, &queue->pages[name], answer.array);
  return begin_page(queue, answer.array);
}

void fq_forget_page(femem_queue *queue, uint64_t id) {
  queue_page *of = fq_page(queue, id);
  if (of) set_page(queue, of, 0);
  if (queue->putting == id) queue->has_ticket = false;
  if (queue->putting == id) queue->putting = 0;
  if (queue->taking == id) queue->taking = 0;
}

femem_error fq_remove_page(femem_queue *queue, uint64_t id) {
  femem_error error = femem_remove(queue->client, id);
  if (error && error != FEMEM_NO_ARRAY) return error;
  fq_forget_page(queue, id);
  femem_request room = fq_fill(queue->root, ROOM, 0);
  femem_answer answer;
  return fq_together(queue, &room, 1, &answer);
}

femem_error fq_remove_finished(femem_queue *queue) {
  femem_request reads[PAGES];
  femem_answer counts[PAGES];
  uint64_t ids[PAGES], found = 0;
  for (uint64_t id = 0; (id = fq_page_above(queue, id)) > 0; found++) {
    ids[found] = id;
    reads[found] = fq_read(id, FINISHED, true);
  }
  femem_error error = fq_together(queue, reads, found, counts);
  for (uint64_t i = 0; i < found && error == FEMEM_OK; i++) {
    if (counts[i].error == FEMEM_NO_ARRAY) fq_forget_page(queue, ids[i]);
    else if (counts[i].error == FEMEM_OK && counts[i].value >= queue->slots) error = fq_remove_page(queue, ids[i]);
  }
  return error;
}

/* ---- what was seen ---- */

/* Without a free place the oldest note is dropped: what it was about is only noticed later. */
int64_t fq_since(seen *all, uint64_t what) {
  seen *place = all;
  for (seen *at = all; at < all + SEEN; at++) {
    if (at->what == what) return at->since;
    if (place->what != 0 && (at->what == 0 || at->since < place->since)) place = at;
  }
  *place = (seen){.what = what, .since = fe_now()};
  return place->since;
}

void fq_not_so(seen *all, uint64_t what) {
  for (seen *at = all; at < all + SEEN; at++)
    if (at->what == what) *at = (seen){0};
}
