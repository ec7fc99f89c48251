/* What waits at a server as a graph: from sessions to the words that they wait at, and from locks to their owners. So
   sessions that wait for each other's locks are a cycle. */
#ifndef PICTURE_H
#define PICTURE_H

#include "looks.h"

enum { MOST_WAITS = 2048, MOST_PARTIES = 2 * MOST, MOST_PLACES = MOST_WAITS + MOST };

typedef struct party { uint64_t session; bool cycle; } party;

/* A word. A lock's is its word 0; `owner` is then a party, or -1. */
typedef struct place {
  uint64_t array, generation;
  uint32_t index;
  int owner;
  bool cycle;
} place;

/* A request that waits. */
typedef struct wait { int party, place; uint64_t number; bool cycle; char operation[16]; } wait;

typedef struct picture {
  char *report;                 /* the caller frees it */
  look seen;                    /* empty if the store may not be read */
  uint64_t presence;            /* the array where clients that are there wait, or 0 */
  bool all_wait;
  int parties, places, waits;
  party party[MOST_PARTIES];
  place place[MOST_PLACES];
  wait wait[MOST_WAITS];
} picture;

/* Takes the picture: a report, and names if the store may be read. A status. */
int take_picture(command_line *cli, picture *taken);
/* Leaves out those that wait only to show that they are there. */
void leave_out_presence(picture *taken);
/* Finds who has the locks: those that are waited for, and with `all` also others that the store has. Of what waits it keeps
   only what waits both before and after that: a lock that is handed on meanwhile is no deadlock. This needs a session. A
   status. */
int find_owners(command_line *cli, picture *taken, bool all);
/* Marks what is in a cycle. */
void mark_cycles(picture *taken);
/* The name of an array, or `array N`. */
const char *name_of(const picture *taken, uint64_t id);
/* The tag that a waiting operation needs. */
const char *needs(const char *operation);

/* Draws it as SVG. */
void draw_svg(const picture *drawn, FILE *to);
#endif
