/* What a model of the line shares: clients that run unchanged, each on its own stack, over a model of the server. The
   system calls of line.c are the model's (model_line.c), the messages too (model_server.c), and test_model.c has the
   programs that the clients run. A search tries their interleavings. */
#ifndef MODEL_H
#define MODEL_H

#include "femem.h"

enum { MODEL_CLIENTS = 3, MODEL_LINES = 12 };  /* lines: connections of one client in one run */

/* What a schedule may cost: how often the running client stands still though it could go on, a kill, a connection whose
   last messages are read late, and a stop of the server. Each that is not the usual one of a decision costs one. */
enum { DELAYS, KILLS, LATES, STOPS, COSTS };
typedef struct budget { uint8_t of[COSTS]; } budget;

/* A scenario: what each client runs, again from the start after a kill, and what must hold at the end. */
typedef struct scenario {
  const char *name;
  int clients;
  void (*programs[MODEL_CLIENTS])(void);
  void (*end)(void);        /* once all programs have ended; may be NULL */
  void *shared;             /* what the programs have noted; all zeros at the begin of a run */
  size_t shared_size;
  bool is_coarse;           /* the server takes all that a client has sent in one step */
  budget most;
  int64_t within;           /* milliseconds of the model's time in which every program ends */
} scenario;

/* ---- for programs ---- */

/* Which client runs, and how often it was begun again. */
int model_client(void);
int model_life(void);
/* The path of the running client's session file. */
const char *model_file(void);
/* Ends the run as one that shows a fault, if it does not hold. */
void model_must(bool holds, const char *form, ...) __attribute__((format(printf, 2, 3)));
/* The running client is where only one may be, until it leaves or is killed. */
void model_enter(void);
void model_leave(void);
/* Kills the running client here. */
void model_die(void) __attribute__((noreturn));
/* Sleeps. Milliseconds. */
void model_rest(int64_t milliseconds);
/* A number that other clients may have written, which the running one has now read. */
uint64_t model_seen(uint64_t number);
/* How many messages of a client the server has taken in this run. */
unsigned model_sent(int client);

/* ---- between the line and the server ---- */

/* Ends the process: a table of the model is too small for the scenario. */
void model_has_room(bool holds, const char *what);

/* Chooses one of `count`, for which the schedule decides. */
unsigned model_choose(unsigned count);
/* Hands bytes to whoever reads a connection. */
void model_reply(int line, const uint8_t *bytes, size_t count);
void server_begin(void);
void server_takes(int line, const uint8_t *frame);
/* The connection has ended. */
void server_hears_end(int line);
/* All connections have ended, and what waits is forgotten. */
void server_stops(void);
uint64_t server_sum(uint64_t before);
uint64_t model_sum(uint64_t before, const void *bytes, size_t count);
/* The value of a word of the first array of that name. False if it is empty or missing. */
bool server_word(const char *name, uint32_t index, uint64_t *value);
/* How many sessions there are. */
unsigned server_sessions(void);

#endif
