/* The stand-in's store: the writes and syncs of docs/store.md, of records that are never read back. Only the committing
   thread uses it. */
#ifndef STAND_IN_STORE_H
#define STAND_IN_STORE_H

#include <fcntl.h>
#include <stdbool.h>
#include <stdint.h>
#include <stdio.h>
#include <stdlib.h>
#include <string.h>
#include <unistd.h>

enum {
  SLOT = 2101248, HEADER = 4096, AREA = 1048576, DEVICE = 2 * SLOT, RECORD = 80, SLICE = 65536, CHECK_AFTER = 524288
};

static void give_up(const char *what) {
  perror(what);
  exit(3);
}

static void *memory(void *old, size_t size) {
  void *got = realloc(old, size);
  if (!got) give_up("stand_in: memory");
  return got;
}

static void put4(uint8_t *at, uint32_t number) {
  number = __builtin_bswap32(number);
  memcpy(at, &number, 4);
}

static void put8(uint8_t *at, uint64_t number) {
  number = __builtin_bswap64(number);
  memcpy(at, &number, 8);
}

static uint32_t get4(const uint8_t *at) {
  uint32_t number;
  memcpy(&number, at, 4);
  return __builtin_bswap32(number);
}

static uint64_t get8(const uint8_t *at) {
  uint64_t number;
  memcpy(&number, at, 8);
  return __builtin_bswap64(number);
}

static int file;
static int slot;
static uint32_t used;               /* of the slot's journal area */
static uint64_t generation = 1;
static bool checking;               /* a checkpoint is under way in the other slot */
static uint32_t image, sliced;      /* its image's length, and how much of it is written */
static uint8_t *catch_up;           /* the groups since the checkpoint's beginning, as one group */
static uint32_t caught;
static uint8_t blank[SLICE];

static void put(const void *bytes, size_t count, long at) {
  if (pwrite(file, bytes, count, at) != (ssize_t)count) give_up("stand_in: store");
}

static void sync_file(void) {
  if (fdatasync(file)) give_up("stand_in: sync");
}

static long journal_of(int which) { return (long)which * SLOT + HEADER + AREA; }

static void begin_check(uint32_t length) {
  uint8_t header[20] = "FEMEMST2", closed = 0;
  long other = (long)!slot * SLOT;
  put(&closed, 1, other + HEADER - 1);
  sync_file();
  put8(header + 8, ++generation);
  put4(header + 16, length);
  put(header, sizeof header, other);
  checking = true;
  image = length;
  sliced = caught = 0;
}

static void finish_check(void) {
  uint8_t open = 1;
  catch_up[0] = caught > 0;
  put4(catch_up + 1, caught);
  catch_up[5 + caught] = 0;
  put(catch_up, caught > 0 ? caught + 6 : 1, journal_of(!slot));
  sync_file();
  put(&open, 1, (long)!slot * SLOT + HEADER - 1);
  sync_file();
  slot = !slot;
  used = caught > 0 ? caught + 5 : 0;
  checking = false;
}

static void check_on(uint32_t length) {
  if (!checking && used > CHECK_AFTER) begin_check(length);
  else if (checking && sliced < image) {
    uint32_t size = image - sliced < SLICE ? image - sliced : SLICE;
    put(blank, size, (long)!slot * SLOT + HEADER + sliced);
    sliced += size;
  } else if (checking) finish_check();
}

/* `group` has 4 bytes before its records and 1 after them. */
static void append(uint8_t *group, uint32_t records) {
  uint32_t payload = RECORD * records;
  uint8_t open = 1;
  if (used + 6 + payload > AREA && checking) finish_check();
  if (used + 6 + payload > AREA) used = 0;
  put4(group, payload);
  group[4 + payload] = 0;
  put(group, payload + 5, journal_of(slot) + used + 1);
  sync_file();
  put(&open, 1, journal_of(slot) + used);
  sync_file();
  used += 5 + payload;
  if (!checking || caught + payload > AREA - 8) return;
  memcpy(catch_up + 5 + caught, group + 4, payload);
  caught += payload;
}

static void make_store(const char *path) {
  file = open(path, O_RDWR | O_CREAT, 0600);
  catch_up = memory(NULL, AREA);
  if (file < 0) give_up("stand_in: store");
  for (long at = 0; at < DEVICE; at += SLICE) put(blank, (size_t)(DEVICE - at < SLICE ? DEVICE - at : SLICE), at);
  if (fsync(file)) give_up("stand_in: sync");
}
#endif
