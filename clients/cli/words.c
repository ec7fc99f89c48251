/* Words of the command line, and time. */
#define _POSIX_C_SOURCE 200809L
#include "cli.h"

#include <ctype.h>
#include <errno.h>
#include <limits.h>
#include <poll.h>
#include <stdlib.h>
#include <string.h>
#include <time.h>

bool read_number(const char *word, uint64_t most, uint64_t *number) {
  if (!isdigit((unsigned char)*word)) return false;
  char *end;
  errno = 0;
  unsigned long long found = strtoull(word, &end, 10);
  *number = found;
  return *end == 0 && errno == 0 && found <= most;
}

bool read_amount(const char *word, uint64_t *amount) {
  bool negative = *word == '-';
  if (!read_number(word + (negative || *word == '+'), UINT64_MAX, amount)) return false;
  if (negative) *amount = 0 - *amount;
  return true;
}

bool read_time(const char *word, int64_t *milliseconds) {
  if (!isdigit((unsigned char)*word) && *word != '.') return false;
  char *end;
  double seconds = strtod(word, &end);
  if (end == word || *end || !(seconds >= 0 && seconds < 1e9)) return false;
  *milliseconds = (int64_t)(seconds * 1000 + 0.5);
  return true;
}

bool is_name(const char *word) {
  size_t length = strlen(word);
  return length >= 1 && length <= LONGEST_NAME && strspn(word, "abcdefghijklmnopqrstuvwxyz0123456789_") == length;
}

int64_t now(void) {
  struct timespec time;
  clock_gettime(CLOCK_MONOTONIC, &time);
  return (int64_t)time.tv_sec * 1000 + time.tv_nsec / 1000000;
}

int64_t moment(int64_t within) { return within < 0 ? -1 : now() + within; }

int64_t left(int64_t end) {
  if (end < 0) return -1;
  int64_t rest = end - now();
  return rest > 0 ? rest : 0;
}

bool nap(int descriptor, int64_t milliseconds) {
  struct pollfd wait = {.fd = descriptor, .events = POLLIN};
  int time = milliseconds < 0 ? -1 : milliseconds > INT_MAX ? INT_MAX : (int)milliseconds;
  return poll(&wait, 1, time) > 0 && wait.revents;
}
