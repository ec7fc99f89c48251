/* What the tests share: checks, bytes in hex, and the worked frames of docs/formats.md. */
#ifndef TESTING_H
#define TESTING_H

#define _POSIX_C_SOURCE 200809L
#include "femem.h"

#include <stdio.h>
#include <stdlib.h>
#include <string.h>

static int failures, checks;
static const char *test;

static inline void check(bool holds, const char *what, int line) {
  checks++;
  if (holds) return;
  failures++;
  printf("line %d: %s: %s\n", line, test, what);
}
#define CHECK(holds) check(holds, #holds, __LINE__)

static inline void is_error(femem_error got, femem_error due, int line) {
  char what[200];
  snprintf(what, sizeof what, "'%s' where '%s' is due", femem_error_text(got), femem_error_text(due));
  check(got == due, what, line);
}
#define ERROR(got, due) is_error(got, due, __LINE__)

/* ---- bytes in hex, with blanks ---- */

static inline size_t bytes_of(const char *hex, uint8_t *bytes) {
  size_t count = 0;
  for (; *hex; hex++) {
    if (*hex == ' ') continue;
    unsigned byte;
    if (sscanf(hex, "%2x", &byte) != 1) abort();
    bytes[count++] = (uint8_t)byte;
    hex++;
  }
  return count;
}

/* ---- frames: of session 7, of word 0 of array 1 ---- */

#define ATTACH_7 "00000009 01 0000000000000007"
#define WELCOME_7 "00000011 41 0000000000000007 0000000000000001"
#define CALL(number, code, operand) "0000001e 05 00000000000000" number code "0000000000000001 00000000 " operand
#define READ(number) CALL(number, "10", "0000000000000000")
#define ADD(number) CALL(number, "17", "0000000000000001")
#define VALUE(number, value) "00000016 42 00000000000000" number "01 00000000000000" value "00000000"
#define DONE(number) "00000016 42 00000000000000" number "02 0000000000000000 00000000"
#define SETTLE_TO(floor) "00000009 07 00000000000000" floor
#define SETTLED_AT(floor) "00000009 44 00000000000000" floor

#define WORKED_CREATE "0000001f 02 0000000000000001 05 63656c6c730000000000000000000000 00000002 00"
#define WORKED_WRITE "0000001e 05 0000000000000002 13 0000000000000001 00000000 000000000000002a"
#define WORKED_READ "0000001e 05 0000000000000003 10 0000000000000001 00000000 0000000000000000"
#define WORKED_LOOK "0000001e 05 0000000000000004 12 0000000000000001 00000000 0000000000000000"
#define WORKED_NOW "0000001e 0b 0000000000000005 10 0000000000000001 00000000 0000000000000000"
#endif
