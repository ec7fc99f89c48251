/* What is seen of a server, for looks.c and graph.c. */
#ifndef LOOKS_H
#define LOOKS_H

#include "cli.h"

enum { MOST = 64 }; /* arrays, and sessions */

typedef struct array { uint64_t id; uint32_t length; char name[LONGEST_NAME + 1]; } array;
typedef struct kept { uint64_t session, answers; } kept;
typedef struct look { uint64_t place; int arrays, sessions; array array[MOST]; kept session[MOST]; } look;
typedef struct waiter { uint64_t array, session, number; uint32_t index; char operation[16]; } waiter;

/* The server's report, which the caller frees. A status. */
int get_report(command_line *cli, char **text);
/* The next waiting request of a report, from `*at` on. */
bool next_waiter(const char **at, waiter *found);
/* What `femem look` shows of the store. A status. */
int get_look(command_line *cli, look *seen);
#endif
