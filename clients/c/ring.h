/* The words of an array that hand on values, each put once and taken once: what a semaphore hands its free permits on with.
   docs/patterns.md, "BoundedQueue", has the steps. A ticket says where to look, and obliges nobody. */
#ifndef RING_H
#define RING_H

#include "pattern.h"

enum { RING_MARK, RING_HEAD, RING_TAIL, RING_SIGNAL, RING_SLOTS };

typedef struct ring {
  femem *client;
  uint64_t array;
  uint32_t slots;
  femem_request *requests;      /* room for a purge and a request for each slot, and for their answers */
  femem_answer *answers;
  bool has_ticket;              /* one that was not used */
  uint64_t ticket;
  int64_t looked_at;            /* microseconds: when all slots were looked at last */
} ring;

/* Takes a value. FEMEM_WITHDRAWN at the end of the time; with `end` past nothing waits. */
femem_error fr_get(ring *of, int64_t end, uint64_t *value);
/* Puts the value into the ticket's slot, or drops it if that is full. One that waits is told if it has to look. */
femem_error fr_leave(ring *of, uint64_t ticket, uint64_t value);

#endif
