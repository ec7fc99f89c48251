/* load.c's interface to a server: femem_side.c is for femem, redis_side.c for Redis. The loop, the workloads, the
   checks and the clock are the same for both. */
#ifndef SIDE_H
#define SIDE_H

#include <stdbool.h>
#include <stdint.h>

enum { MOST_CLIENTS = 64, MOST_WINDOW = 32 };

/* ADD raises a counter by one and returns its old value. PUT puts a value into a place; TAKE waits for a value and
   takes it. In femem a place is a word, and a PUT waits until it is empty; in Redis a place is a list. */
enum action { ADD, PUT, TAKE };

extern const char *side_name;

/* Connects that many clients. With `counters` the places are counters at 0; otherwise they are empty. */
bool side_open(const char *path, int clients, bool counters);
int side_descriptor(int client);
/* Puts a request into the client's output. False if the window has no free number. `id` is the answer's id; those of a
   client's open requests differ modulo 64. */
bool side_ask(int client, enum action action, uint32_t place, uint64_t value, uint64_t *id);
/* Writes the output. */
void side_flush(int client);
/* Reads once, and calls `answered` for each answer. */
void side_receive(int client);
/* The current value of a counter. Waits for the reply. */
uint64_t side_counter(uint32_t place);
/* Removes the places, and ends the clients. */
void side_close(void);

/* Defined in load.c. */
void answered(int client, uint64_t id, uint64_t value);
void fail(const char *format, ...) __attribute__((format(printf, 1, 2)));
#endif
