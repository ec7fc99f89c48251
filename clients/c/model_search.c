/* The search: all schedules of a scenario, the cheapest first. A schedule is named by the decisions in which it leaves the
   usual way. One that comes to a state that was reached for the same price ends there. */
#define _POSIX_C_SOURCE 200809L
#include "model_search.h"

#include <stdio.h>
#include <stdlib.h>
#include <string.h>
#include <time.h>

enum { MOST_TURNS = 8, TABLE = 1 << 22, LONGEST = 4096 };

typedef struct turn { uint16_t at; uint8_t choice; } turn;
typedef struct schedule {
  uint8_t count;
  budget price;
  turn turns[MOST_TURNS];
} schedule;

/* Schedules to try, by what they cost in all. */
static struct list { schedule *all; size_t count, room; } lists[MOST_TURNS + 1];
/* States by their sums; `prices` has a bit for each price at which one was reached. */
static struct known { uint64_t sum, prices; } *table;
static size_t known_count;

static const scenario *given;
static schedule now;
static unsigned decisions;
static char fault[200];
static bool is_known, replays;
static size_t runs, steps;

static int total(const budget *price) {
  int sum = 0;
  for (int i = 0; i < COSTS; i++) sum += price->of[i];
  return sum;
}

static bool may_cost(const budget *price) {
  for (int i = 0; i < COSTS; i++)
    if (price->of[i] > given->most.of[i]) return false;
  return true;
}

static void later(uint8_t choice, uint8_t cost) {
  schedule next = now;
  next.price.of[cost]++;
  if (!may_cost(&next.price) || now.count == MOST_TURNS) return;
  next.turns[next.count++] = (turn){(uint16_t)decisions, choice};
  struct list *list = &lists[total(&next.price)];
  if (list->count == list->room) {
    list->room = 2 * list->room + 1024;
    list->all = realloc(list->all, list->room * sizeof *list->all);
    if (!list->all) abort();
  }
  list->all[list->count++] = next;
}

static unsigned bit_of(const budget *price) {
  return ((price->of[DELAYS] * 3u + price->of[KILLS]) * 2u + price->of[LATES]) * 2u + price->of[STOPS];
}

/* The bits of all prices that are not above. */
static uint64_t bits_below(const budget *price) {
  uint64_t bits = 0;
  budget at = {{0}};
  for (at.of[DELAYS] = 0; at.of[DELAYS] <= price->of[DELAYS]; at.of[DELAYS]++)
    for (at.of[KILLS] = 0; at.of[KILLS] <= price->of[KILLS]; at.of[KILLS]++)
      for (at.of[LATES] = 0; at.of[LATES] <= price->of[LATES]; at.of[LATES]++)
        for (at.of[STOPS] = 0; at.of[STOPS] <= price->of[STOPS]; at.of[STOPS]++) bits |= UINT64_C(1) << bit_of(&at);
  return bits;
}

/* Whether the state was reached before for no higher price; notes it. */
static bool was_reached(uint64_t sum) {
  size_t at = sum % TABLE;
  for (sum |= 1; table[at].sum && table[at].sum != sum; at = (at + 1) % TABLE) continue;
  bool known = table[at].prices & bits_below(&now.price);
  if (!table[at].sum && known_count >= TABLE / 8 * 7) return false;
  if (!table[at].sum) known_count++;
  table[at].sum = sum;
  table[at].prices |= UINT64_C(1) << bit_of(&now.price);
  return known;
}

/* The schedule's choice here, or 0; *is_new: it says nothing of this and what follows. */
static unsigned planned(bool *is_new) {
  *is_new = now.count == 0 || decisions > now.turns[now.count - 1].at;
  for (int i = 0; i < now.count; i++)
    if (now.turns[i].at == decisions) return now.turns[i].choice;
  return 0;
}

int search_step(uint64_t (*state)(void), unsigned count, const uint8_t *cost) {
  bool is_new;
  unsigned choice = planned(&is_new);
  steps++;
  if (is_new && !replays) {
    is_known = was_reached(state());
    if (is_known) return -1;
    for (unsigned i = 1; i < count; i++) later((uint8_t)i, cost[i]);
  }
  if (replays && choice > 0) printf("%u:%u\n", decisions, choice);
  decisions++;
  return choice < count ? (int)choice : 0;
}

unsigned search_choose(unsigned count, uint8_t cost) {
  bool is_new;
  unsigned choice = planned(&is_new);
  if (is_new && !replays)
    for (unsigned i = 1; i < count; i++) later((uint8_t)i, cost);
  if (replays && choice > 0) printf("%u:%u of %u\n", decisions, choice, count);
  decisions++;
  return choice < count ? choice : 0;
}

void search_fault(const char *text) {
  if (!*fault) snprintf(fault, sizeof fault, "%s", text);
}

bool search_has_fault(void) { return *fault; }
bool search_is_known(void) { return is_known; }

static void run(schedule next) {
  now = next;
  decisions = 0;
  is_known = false;
  *fault = 0;
  runs++;
  model_run();
}

static void say_fault(void) {
  printf("%s: %s: after ", given->name, fault);
  for (int i = 0; i < now.count; i++) printf("%s%u:%u", i ? "," : "", now.turns[i].at, now.turns[i].choice);
  printf("%s, %zu schedules\n", now.count ? "" : "no turn", runs);
}

static double processor_time(void) { return (double)clock() / CLOCKS_PER_SEC; }

bool search_all(const scenario *wanted) {
  given = wanted;
  replays = false;
  if (!table) table = malloc(TABLE * sizeof *table);
  if (!table) abort();
  memset(table, 0, TABLE * sizeof *table);
  known_count = runs = steps = 0;
  for (int i = 0; i <= MOST_TURNS; i++) lists[i].count = 0;
  double begun = processor_time();
  model_begin(given, false);
  run((schedule){0});
  for (int price = 1; price <= MOST_TURNS && !*fault; price++)
    for (size_t i = 0; i < lists[price].count && !*fault; i++) run(lists[price].all[i]);
  const uint8_t *most = given->most.of;
  if (*fault) say_fault();
  else printf("%s: all schedules of at most %u delays, %u kills, %u late connections, %u stops: %zu, %zu states, %zu steps, "
              "%.1f s\n", given->name, most[DELAYS], most[KILLS], most[LATES], most[STOPS], runs, known_count, steps,
              processor_time() - begun);
  return !*fault;
}

bool search_one(const scenario *wanted, const char *told) {
  given = wanted;
  replays = true;
  schedule next = {0};
  unsigned at, choice;
  for (int size = 0; next.count < MOST_TURNS && sscanf(told, "%u:%u%n", &at, &choice, &size) == 2;) {
    next.turns[next.count++] = (turn){(uint16_t)at, (uint8_t)choice};
    told += size + (told[size] == ',');
  }
  model_begin(given, true);
  run(next);
  if (*fault) say_fault();
  return !*fault;
}
