/* What waits at a server as a graph. */
#define _POSIX_C_SOURCE 200809L
#include "picture.h"

#include <inttypes.h>
#include <stdlib.h>
#include <string.h>
#include <unistd.h>

const char *name_of(const picture *taken, uint64_t id) {
  static char number[40];
  for (int i = 0; i < taken->seen.arrays; i++)
    if (taken->seen.array[i].id == id) return taken->seen.array[i].name;
  snprintf(number, sizeof number, "array %" PRIu64, id);
  return number;
}

const char *needs(const char *operation) { return strcmp(operation, "writeef") ? "full" : "empty"; }

static int party_of(picture *taken, uint64_t session) {
  for (int i = 0; i < taken->parties; i++)
    if (taken->party[i].session == session) return i;
  if (taken->parties == MOST_PARTIES) return -1;
  taken->party[taken->parties] = (party){.session = session};
  return taken->parties++;
}

static int place_of(picture *taken, uint64_t id, uint32_t index) {
  for (int i = 0; i < taken->places; i++)
    if (taken->place[i].array == id && taken->place[i].index == index) return i;
  if (taken->places == MOST_PLACES) return -1;
  taken->place[taken->places] = (place){.array = id, .index = index, .owner = -1};
  return taken->places++;
}

/* Names of arrays, if the store may be read. */
static void find_names(command_line *cli, picture *taken) {
  if (access(cli->given.store, R_OK) != 0 || get_look(cli, &taken->seen) != DONE) taken->seen = (look){0};
  for (int i = 0; i < taken->seen.arrays; i++)
    if (strcmp(taken->seen.array[i].name, "presence") == 0) taken->presence = taken->seen.array[i].id;
}

int take_picture(command_line *cli, picture *taken) {
  taken->parties = taken->places = taken->waits = 0;
  taken->presence = 0;
  int status = get_report(cli, &taken->report);
  if (status) return status;
  find_names(cli, taken);
  taken->all_wait = strstr(taken->report, "\nall-wait yes\n") != NULL;
  const char *at = taken->report;
  for (waiter next; taken->waits < MOST_WAITS && next_waiter(&at, &next);) {
    wait found = {.party = party_of(taken, next.session), .place = place_of(taken, next.array, next.index),
                  .number = next.number};
    memcpy(found.operation, next.operation, sizeof found.operation);
    if (found.party >= 0 && found.place >= 0) taken->wait[taken->waits++] = found;
  }
  return DONE;
}

/* Whether the report has this request too. */
static bool waits_in(const char *report, const picture *taken, const wait *it) {
  const place *at = &taken->place[it->place];
  for (waiter next; next_waiter(&report, &next);)
    if (next.array == at->array && next.index == at->index && next.number == it->number &&
        next.session == taken->party[it->party].session)
      return true;
  return false;
}

/* Adds what `all` has to a picture that has nothing: locks with their owners, and what waits, also in the report if one is
   given, but at no presence. */
static void keep(picture *taken, const picture *all, const char *report) {
  for (int i = 0; i < all->waits; i++) {
    const place *at = &all->place[all->wait[i].place];
    if (at->array == all->presence || (report && !waits_in(report, all, &all->wait[i]))) continue;
    wait *found = &taken->wait[taken->waits++];
    *found = all->wait[i];
    found->party = party_of(taken, all->party[all->wait[i].party].session);
    found->place = place_of(taken, at->array, at->index);
  }
  for (int i = 0; i < all->places; i++) {
    if (all->place[i].owner < 0) continue;
    int at = place_of(taken, all->place[i].array, all->place[i].index);
    taken->place[at].owner = party_of(taken, all->party[all->place[i].owner].session);
    taken->place[at].generation = all->place[i].generation;
  }
}

/* Whether there was memory for it. */
static bool keep_only(picture *taken, const char *report) {
  picture *all = malloc(sizeof *all);
  if (!all) return false;
  *all = *taken;
  taken->parties = taken->places = taken->waits = 0;
  keep(taken, all, report);
  free(all);
  return true;
}

void leave_out_presence(picture *taken) {
  if (taken->presence) keep_only(taken, NULL);
}

static bool is_session(const look *seen, uint64_t value) {
  for (int i = 0; i < seen->sessions; i++)
    if (seen->session[i].session == value) return true;
  return false;
}

/* Reads a word that may be a lock's, and its count; a status. What is no lock, or a free one, has no owner. If nobody
   waits for it, its owner must be a session that the store has. */
static int read_lock(command_line *cli, picture *taken, uint64_t id, bool waited_for) {
  const femem_request reads[] = {on_word(FEMEM_READFF, id, 0, 0, true), on_word(FEMEM_READFF, id, 1, 0, true)};
  femem_answer answers[2];
  femem_error error = femem_batch(cli->client, reads, 2, answers);
  if (error) return fail_for(cli, error, NULL);
  if (answers[0].error || answers[1].error) return DONE;
  if (!waited_for && !is_session(&taken->seen, answers[0].value)) return DONE;
  int at = place_of(taken, id, 0), owner = party_of(taken, answers[0].value);
  if (at < 0 || owner < 0) return DONE;
  taken->place[at].owner = owner;
  taken->place[at].generation = answers[1].value;
  return DONE;
}

static bool is_waited_for(const picture *taken, int at) {
  for (int i = 0; i < taken->waits; i++)
    if (taken->wait[i].place == at && strcmp(taken->wait[i].operation, "writeef") == 0) return true;
  return false;
}

/* Locks that nobody waits for: arrays of two words, of which the first has a session. */
static int find_others(command_line *cli, picture *taken) {
  int status = DONE;
  for (int i = 0; i < taken->seen.arrays && status == DONE; i++)
    if (taken->seen.array[i].length == 2) status = read_lock(cli, taken, taken->seen.array[i].id, false);
  return status;
}

/* Keeps what still waits. */
static int look_again(command_line *cli, picture *taken) {
  char *report;
  int status = get_report(cli, &report);
  if (status) return status;
  bool done = keep_only(taken, report);
  free(report);
  return done ? DONE : fail_for(cli, FEMEM_MEMORY, NULL);
}

int find_owners(command_line *cli, picture *taken, bool all) {
  int status = open_client(cli);
  if (status) return status;
  femem_error error = femem_find(cli->client, "presence", &taken->presence, NULL);
  if (error && error != FEMEM_NO_ARRAY) return fail_for(cli, error, NULL);
  leave_out_presence(taken);
  int waited_for = taken->places;
  for (int i = 0; i < waited_for && status == DONE; i++)
    if (taken->place[i].index == 0 && is_waited_for(taken, i))
      status = read_lock(cli, taken, taken->place[i].array, true);
  if (status == DONE && all) status = find_others(cli, taken);
  return status == DONE ? look_again(cli, taken) : status;
}

/* ---- cycles ---- */

static bool waits_at(const picture *taken, int who, int where) {
  for (int i = 0; i < taken->waits; i++)
    if (taken->wait[i].party == who && taken->wait[i].place == where) return true;
  return false;
}

/* reach[a][b]: a chain leads from lock a to lock b, each of whose owners waits at the next one. */
void mark_cycles(picture *taken) {
  static bool reach[MOST][MOST];
  int locks[MOST], count = 0;
  for (int i = 0; i < taken->places && count < MOST; i++)
    if (taken->place[i].owner >= 0) locks[count++] = i;
  for (int a = 0; a < count; a++)
    for (int b = 0; b < count; b++) reach[a][b] = waits_at(taken, taken->place[locks[a]].owner, locks[b]);
  for (int over = 0; over < count; over++)
    for (int a = 0; a < count; a++)
      for (int b = 0; b < count; b++) reach[a][b] = reach[a][b] || (reach[a][over] && reach[over][b]);
  for (int a = 0; a < count; a++) {
    place *lock = &taken->place[locks[a]];
    lock->cycle = reach[a][a];
    if (lock->cycle) taken->party[lock->owner].cycle = true;
    for (int i = 0; i < taken->waits; i++)
      for (int b = 0; b < count; b++)
        if (taken->wait[i].party == lock->owner && taken->wait[i].place == locks[b] && (a == b || reach[b][a]))
          taken->wait[i].cycle = true;
  }
}
