/* The search over schedules, and what a run asks it. */
#ifndef MODEL_SEARCH_H
#define MODEL_SEARCH_H

#include "model.h"

/* Decides the next step: one of `count`, the first of which is the usual one. The others cost one of cost[i]. -1: the
   run ends, since its state is known. */
int search_step(uint64_t (*state)(void), unsigned count, const uint8_t *cost);
/* Decides within a step: one of `count`; each other than the first costs one of `cost`. */
unsigned search_choose(unsigned count, uint8_t cost);
/* Notes that the run shows a fault. */
void search_fault(const char *text);
bool search_has_fault(void);
/* Whether the run has come to a state that is known. */
bool search_is_known(void);

/* ---- model_line.c ---- */

void model_begin(const scenario *given, bool tells_all);
void model_run(void);

/* ---- model_files.c ---- */

void files_begin(void);
/* Closes what a client has open, or one file. False if it is none. */
void files_end(int client);
bool files_close(int descriptor);
bool files_are_closed(int client);

/* ---- for test_model.c ---- */

/* Tries all schedules of a scenario up to its budget, and prints how many. Returns whether none shows a fault. */
bool search_all(const scenario *given);
/* Runs one schedule, printing its steps. */
bool search_one(const scenario *given, const char *decisions);

#endif
