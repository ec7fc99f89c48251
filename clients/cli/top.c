/* `top`: who holds which lock, what waits on what, how many entries a second are stored, and how long that takes. */
#define _POSIX_C_SOURCE 200809L
#include "picture.h"

#include <errno.h>
#include <inttypes.h>
#include <stdlib.h>
#include <string.h>
#include <time.h>
#include <unistd.h>

enum { SOONEST = 100, SOON = 1000 }; /* milliseconds: between two pictures; until a live view says that the server is away */

/* What one picture is compared with. */
typedef struct pace {
  uint64_t place;              /* the number of entries at the last picture, or 0 */
  int64_t at, took, slowest;   /* microseconds */
} pace;

static int64_t microseconds(void) {
  struct timespec time;
  clock_gettime(CLOCK_MONOTONIC, &time);
  return (int64_t)time.tv_sec * 1000000 + time.tv_nsec / 1000;
}

static void show_pace(const command_line *cli, const picture *seen, pace *now) {
  time_t clock = time(NULL);
  char hour[20] = "";
  struct tm parts;
  if (localtime_r(&clock, &parts)) strftime(hour, sizeof hour, "%H:%M:%S", &parts);
  printf("%s  %s\n", hour, cli->given.socket);
  int64_t at = microseconds(), passed = at - now->at;
  if (now->place && seen->seen.place >= now->place && passed > 0)
    printf("entries a second %.0f, ", (double)(seen->seen.place - now->place) * 1e6 / (double)passed);
  printf("stored in %.1f ms, slowest %.1f ms, waiting %d%s\n", (double)now->took / 1000, (double)now->slowest / 1000,
         seen->waits, seen->all_wait ? ", every attached session waits" : "");
  now->place = seen->seen.place;
  now->at = at;
}

static int waiters_of(const picture *seen, int where) {
  int count = 0;
  for (int i = 0; i < seen->waits; i++) count += seen->wait[i].place == where;
  return count;
}

/* Whether the session's client shows that it is there. */
static bool is_there(const char *report, uint64_t presence, uint64_t session) {
  char line[80];
  snprintf(line, sizeof line, "\nword %" PRIu64 " 0 session %" PRIu64 " number ", presence, session);
  return strstr(report, line) != NULL;
}

static void show_locks(const picture *seen) {
  bool begun = false;
  for (int i = 0; i < seen->places; i++) {
    const place *it = &seen->place[i];
    if (it->owner < 0) continue;
    if (!begun) printf("\n%-32s %-20s %-5s %10s %7s\n", "LOCK", "SESSION", "", "COUNT", "WAITING");
    begun = true;
    uint64_t session = seen->party[it->owner].session;
    printf("%-32s %-20" PRIu64 " %-5s %10" PRIu64 " %7d%s\n", name_of(seen, it->array), session,
           is_there(seen->report, seen->presence, session) ? "" : "away", it->generation, waiters_of(seen, i),
           it->cycle ? "  in a cycle" : "");
  }
}

static void show_waits(const picture *seen) {
  if (seen->waits) printf("\n%-38s %-20s %s\n", "WORD", "SESSION", "WAITS FOR");
  for (int i = 0; i < seen->waits; i++) {
    const wait *it = &seen->wait[i];
    const place *at = &seen->place[it->place];
    char word[60];
    snprintf(word, sizeof word, "%s %" PRIu32, name_of(seen, at->array), at->index);
    printf("%-38s %-20" PRIu64 " %s, %s%s\n", word, seen->party[it->party].session, needs(it->operation), it->operation,
           it->cycle ? "  in a cycle" : "");
  }
}

/* One picture. The find of `presence`, a request that is stored, is what is timed. */
static int show_once(command_line *cli, pace *now, bool clears) {
  static picture seen;
  uint64_t presence;
  int status = open_client(cli);
  if (status) return status;
  femem_error error = come_back(cli);
  if (error) return fail_for(cli, error, NULL);
  int64_t begun = microseconds();
  error = femem_find(cli->client, "presence", &presence, NULL);
  if (error && error != FEMEM_NO_ARRAY) return fail_for(cli, error, NULL);
  now->took = microseconds() - begun;
  if (now->took > now->slowest) now->slowest = now->took;
  status = take_picture(cli, &seen);
  if (status) return status;
  status = find_owners(cli, &seen, true);
  if (status == DONE) {
    mark_cycles(&seen);
    if (clears) fputs("\033[H\033[2J", stdout);
    show_pace(cli, &seen, now);
    show_locks(&seen);
    show_waits(&seen);
  }
  free(seen.report);
  return status == DONE ? said(cli) : status;
}

int do_top(command_line *cli, char **words, int count) {
  (void)words, (void)count;
  pace now = {0};
  bool clears = !cli->given.once && isatty(STDOUT_FILENO);
  if (!cli->given.once && cli->given.reconnect > SOON) cli->given.reconnect = SOON;
  for (;;) {
    int status = show_once(cli, &now, clears);
    /* (a server that is away is tried again) */
    if (cli->given.once || (status && status != NO_SERVER)) return status;
    if (nap(cli->stop, cli->given.every < SOONEST ? SOONEST : cli->given.every)) return DONE;
  }
}
