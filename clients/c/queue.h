/* What the files of a work queue share. docs/work-queue.md has the words and the steps. */
#ifndef QUEUE_H
#define QUEUE_H

#include "pattern.h"

enum {
  PAGES = 8,
  PAGE_HEAD = 3,              /* words of a page before its slots */
  SLOT_WORDS = 3,             /* of a slot, beside its claims */
  LEAST_SLOTS = 64,           /* of a page, unless it is the capacity that is less */
  PAGE_WORDS = 8000,          /* in the slots of a page, at most */
  MOST_ATTEMPTS = 16,
  CHUNK = 32,                 /* slots that are looked at together */
  LOOKS = 256,                /* slots of which one look reads END, at most, unless it is a process's first */
  LAYOUT = 3,                 /* of the words */
  SEEN = 64
};
enum { JOBS, ROOM, CAPACITY_GIVEN, ATTEMPTS_GIVEN, LAYOUT_GIVEN, ROOT_LENGTH }; /* words of the root */
enum { TAIL, HEAD, FINISHED };        /* words of a page */
enum { ENDED_DONE, ENDED_VOID, ENDED_DROPPED };

enum { LEAST_ADDRESS = 65536 };

/* In VALUE: nothing was put here. In CLAIM: the attempt failed. In JOBS: look at all slots. */
#define NOTHING UINT64_MAX

/* Something, and since when it is so; 0 is a free place. */
typedef struct seen {
  uint64_t what;
  int64_t since;
} seen;

/* A page, and what was seen of it. Its words TAIL, HEAD and FINISHED only grow, so these are bounds for good. */
typedef struct queue_page {
  uint64_t id;                          /* of the array; 0: none */
  uint64_t tail, head, finished;
  uint64_t limit;                       /* a ticket below it may be used */
  uint64_t below;                       /* the next look goes on below this slot; 0: it begins anew */
  uint64_t ended;                       /* how many slots are known to have ended */
  uint8_t *is_ended;                    /* a bit for each of them */
} queue_page;

struct femem_queue {
  femem *client;
  char name[sizeof((femem_request){0}.name) + 1];
  uint32_t capacity, slots, attempts;   /* slots: of a page */
  uint64_t root;                        /* array */
  bool shows;                           /* this client */
  queue_page pages[PAGES];              /* by their names */
  uint8_t *bits;                        /* their is_ended */
  uint64_t putting, taking;             /* the pages of the last ticket; 0: none is known */
  bool has_ticket;                      /* of `putting`: the last put ran out of time and kept it */
  uint64_t ticket;
  int64_t away_after, found_at;         /* microseconds; found_at: when pages were found last */
  int64_t rescue_at, look_from;         /* when a look is due; from when on one may be made at the end of a take's time */
  int64_t seen_until;                   /* when what the last look saw is to be looked at again */
  uint64_t asked, idle_from;            /* how many requests were made, and that at the last look or job */
  bool has_taken;                       /* a job, since pages were found */
  bool has_looked;                      /* this process has looked for what an earlier one left */
  femem_job *held;                      /* the jobs that this process has */
  size_t held_count, held_room;
  const char *report;                   /* of this rescue, or NULL */
  int64_t reported_at;                  /* when the last one was read */
  seen absent[SEEN], empty[SEEN];       /* sessions, and slots that have a ticket and no value */
};

/* ---- queue_words.c ---- */

/* A request for a word. */
femem_request fq_read(uint64_t array, uint64_t index, bool no_wait);
femem_request fq_fill(uint64_t array, uint64_t index, uint64_t value);
femem_request fq_add(uint64_t array, uint64_t index, uint64_t value);
/* The words of a slot. */
uint64_t fq_value(const femem_queue *queue, uint64_t ticket);
uint64_t fq_end(const femem_queue *queue, uint64_t ticket);
uint64_t fq_claim(const femem_queue *queue, uint64_t ticket, uint32_t attempt);
uint64_t fq_source(const femem_queue *queue, uint64_t ticket);
/* The address of a word. Those of arrays are LEAST_ADDRESS or more. */
uint64_t fq_address(uint64_t array, uint64_t index);
/* Makes requests together. Answers may be FEMEM_OK, FEMEM_NO_ARRAY and FEMEM_NOT_NOW. */
femem_error fq_together(femem_queue *queue, const femem_request *requests, size_t count, femem_answer *answers);
/* Sends a request whose answer nobody needs. */
femem_error fq_tell(femem_queue *queue, femem_operation operation, uint64_t array, uint64_t index, uint64_t value);
/* The number of a job, and its page and slot. */
uint64_t fq_number(uint64_t page, uint64_t ticket);
uint64_t fq_page_of(uint64_t number);
uint64_t fq_slot_of(uint64_t number);
/* Fills the root's last words, or compares them with what other clients gave: FEMEM_BAD_CALL. */
femem_error fq_begin_root(femem_queue *queue);
/* Finds the pages. */
femem_error fq_find_pages(femem_queue *queue);
/* What is known of a page; NULL if it is not known. */
queue_page *fq_page(femem_queue *queue, uint64_t id);
bool fq_is_known(femem_queue *queue, uint64_t id);
/* Notes that a slot has ended. */
void fq_note_end(femem_queue *queue, uint64_t id, uint64_t ticket);
bool fq_has_ended(const queue_page *of, uint64_t ticket);
/* A count of tickets, as far as there are slots. */
uint64_t fq_capped(const femem_queue *queue, uint64_t tickets);
/* The oldest page above that id, and the newest page; 0 if there is none. */
uint64_t fq_page_above(const femem_queue *queue, uint64_t page);
uint64_t fq_newest(const femem_queue *queue);
femem_error fq_make_page(femem_queue *queue);
/* Removes a page all of whose slots have ended. */
femem_error fq_remove_page(femem_queue *queue, uint64_t id);
/* Removes the pages that are finished by their counts. */
femem_error fq_remove_finished(femem_queue *queue);
/* Notes that a page is gone. */
void fq_forget_page(femem_queue *queue, uint64_t id);
/* Since when this is so, which is noted if it is new. */
int64_t fq_since(seen *all, uint64_t what);
void fq_not_so(seen *all, uint64_t what);

/* ---- queue.c ---- */

/* Draws a ticket, unless the last put has kept one. *ticket is that of the page queue->putting. */
femem_error fq_draw(femem_queue *queue, uint64_t *ticket, int64_t end);
/* Waits until the ticket may be used. If the time is over, the next put goes on with it. */
femem_error fq_wait_for_turn(femem_queue *queue, uint64_t ticket, int64_t end);
/* This process has the job no more. */
void fq_let_go(femem_queue *queue, uint64_t number);

/* ---- queue_move.c ---- */

/* Whether the job of a slot counts, by its word SOURCE: one that a move put there is moved, unless its job has ended. */
femem_error fq_settle(femem_queue *queue, uint64_t page, uint64_t ticket, const femem_answer *source, bool *counts);
/* fq_hold, if the job counts. Otherwise job->number stays 0. */
femem_error fq_hold_if_counts(femem_queue *queue, uint64_t number, uint64_t value, uint32_t attempt,
                              const femem_answer *source, femem_job *job);
/* Of these words END, up to CHUNK: each slot to which a job has moved counts, before END goes. */
femem_error fq_confirm(femem_queue *queue, const femem_answer *ends, uint64_t count);

/* ---- queue_rescue.c ---- */

/* Ends a slot in that way, unless it has ended, and counts it then. */
femem_error fq_end_slot(femem_queue *queue, uint64_t page, uint64_t ticket, uint64_t how);

/* Notes that the slot has ended, counts it, and removes its page if it was the last one. */
femem_error fq_finished(femem_queue *queue, uint64_t page, uint64_t ticket);
/* Ends a slot without a value. *value is the value if there is one after all, otherwise NOTHING. */
femem_error fq_void(femem_queue *queue, uint64_t page, uint64_t ticket, uint64_t *value);
/* Notes that this process has a job by that attempt, from 0 on. */
femem_error fq_hold(femem_queue *queue, uint64_t number, uint64_t value, uint32_t attempt, femem_job *job);
/* Removes each page all of whose slots have ended, also if they were not all counted. */
femem_error fq_remove_ended(femem_queue *queue);
/* Takes the job of a slot if nobody has it. job->number is 0 if not. `drawn`: a taker has drawn its ticket. */
femem_error fq_look_at(femem_queue *queue, uint64_t number, bool drawn, femem_job *job);
/* Looks for a job that nobody has, in the slots below HEAD: one above is found by its ticket. */
femem_error fq_rescue(femem_queue *queue, femem_job *job);

#endif
