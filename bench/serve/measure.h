/* A clock, and latencies counted in buckets that are 1.6 % wide. */
#ifndef MEASURE_H
#define MEASURE_H

#include <stdint.h>
#include <time.h>

enum { BUCKETS = 64 };

typedef struct latencies {
  uint64_t counts[64 * BUCKETS], count;
} latencies;

static inline uint64_t now_ns(void) {
  struct timespec time;
  clock_gettime(CLOCK_MONOTONIC, &time);
  return (uint64_t)time.tv_sec * 1000000000 + (uint64_t)time.tv_nsec;
}

static inline unsigned bucket_of(uint64_t nanoseconds) {
  if (nanoseconds < BUCKETS) return (unsigned)nanoseconds;
  unsigned exponent = 63 - (unsigned)__builtin_clzll(nanoseconds);
  return (exponent - 5) * BUCKETS + (unsigned)((nanoseconds >> (exponent - 6)) - BUCKETS);
}

static inline void note_latency(latencies *noted, uint64_t nanoseconds) {
  noted->counts[bucket_of(nanoseconds)]++;
  noted->count++;
}

/* The latency at a share (0 to 1) of all latencies: the middle of its bucket, in microseconds; 0 if there are none. */
static inline double latency_us(const latencies *noted, double share) {
  if (noted->count == 0) return 0;
  uint64_t due = (uint64_t)(share * (double)(noted->count - 1)) + 1, seen = 0;
  unsigned bucket = 0;
  while ((seen += noted->counts[bucket]) < due) bucket++;
  if (bucket < BUCKETS) return bucket / 1000.0;
  unsigned exponent = bucket / BUCKETS + 5;
  uint64_t low = ((uint64_t)(bucket % BUCKETS) + BUCKETS) << (exponent - 6);
  return ((double)low + (double)(UINT64_C(1) << (exponent - 6)) / 2) / 1000.0;
}
#endif
