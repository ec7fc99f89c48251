/* A load and its checks: load SOCKET WORKLOAD CLIENTS WINDOW SECONDS [WARM SECONDS]

   own       each client raises a counter of its own           an operation: one raise
   shared    all clients raise one counter                     an operation: one raise
   lock      one word handed round all clients                 an operation: one hand-over, from the sending of
                                                               the freeing write to the next holder's answer
   items     pairs, a producer and a consumer, one word each   an operation: one item, from the sending of its
                                                               write to the answer of its read
   hand-off  pairs, two words: to the other and back           an operation: one round

   It prints one line of JSON. `valid` is true only if every answer was checked and is right: the values of a client's
   own counter rise by one; those of the shared counter come once each, from 0 to the end that is read last; a lock's
   value rises by one; each item comes once; a round comes back as it went. Anything else, a refusal, and 10 seconds
   without an answer end it with status 1. */
#define _GNU_SOURCE
#include "measure.h"
#include "side.h"

#include <stdarg.h>
#include <stdio.h>
#include <stdlib.h>
#include <string.h>
#include <sys/epoll.h>
#include <sys/resource.h>

typedef enum work { OWN, SHARED, LOCK, ITEMS, HAND_OFF, WORKS } work;
static const char *const names[WORKS] = {"own", "shared", "lock", "items", "hand-off"};

enum { AHEAD = 1024 };  /* how many items a producer may be ahead of its consumer */

typedef struct asked {
  enum action action;
  uint64_t sent;
} asked;

typedef struct seat {
  asked asked[64];
  int out;
  bool dirty, any;
  uint64_t count, last, began;
} seat;

/* A set of values, which are not much greater than their number. */
typedef struct values {
  uint8_t *bits;
  uint64_t end;
} values;

typedef struct pair {
  uint64_t made, wanted, got;
  uint64_t sent[AHEAD];
  values came;
} pair;

static work kind;
static int clients, window;
static uint64_t begin, until;
static seat seats[MOST_CLIENTS];
static pair pairs[MOST_CLIENTS / 2];
static latencies noted;
static uint64_t operations, checked, freed, holders;
static uint64_t raised;
static values counted; /* the shared counter's old values */
static bool failed;
static char why[200];

void fail(const char *format, ...) {
  if (failed) return;
  va_list words;
  va_start(words, format);
  vsnprintf(why, sizeof why, format, words);
  va_end(words);
  for (char *at = why; *at; at++)
    if (*at < ' ' || *at == '"' || *at == '\\') *at = ' ';
  failed = true;
}

static void differs(const char *of, uint64_t is, uint64_t due) {
  fail("%s: %llu where %llu is due", of, (unsigned long long)is, (unsigned long long)due);
}

static bool is_over(void) { return now_ns() >= until; }

static void note(uint64_t sent, uint64_t got) {
  checked++;
  if (got < begin || got >= until) return;
  operations++;
  note_latency(&noted, got - sent);
}

static bool ask(int client, enum action action, uint32_t place, uint64_t value) {
  uint64_t id;
  if (!side_ask(client, action, place, value, &id)) return false;
  seats[client].asked[id % 64] = (asked){action, now_ns()};
  seats[client].out++;
  seats[client].dirty = true;
  return true;
}

/* ---- workloads ---- */

static void fill_producer(int client, pair *line) {
  while (seats[client].out < window && line->made < line->got + AHEAD) {
    if (is_over() && line->made >= line->wanted) return;
    uint64_t item = line->made;
    line->sent[item % AHEAD] = now_ns();
    if (!ask(client, PUT, (uint32_t)client / 2, item)) return;
    line->made++;
  }
}

static void fill_consumer(int client, pair *line) {
  while (seats[client].out < window) {
    if (is_over() && line->wanted >= line->made) return;
    if (!ask(client, TAKE, (uint32_t)client / 2, 0)) return;
    line->wanted++;
  }
}

/* Sends as many requests as the window allows. */
static void fill(int client) {
  if (kind == ITEMS && client % 2 == 0) fill_producer(client, &pairs[client / 2]);
  if (kind == ITEMS && client % 2 == 1) fill_consumer(client, &pairs[client / 2]);
  if (kind != OWN && kind != SHARED) return;
  while (seats[client].out < window && !is_over())
    if (!ask(client, ADD, kind == OWN ? (uint32_t)client : 0, 0)) return;
}

static void start(int client) {
  seat *own = &seats[client];
  if (kind == LOCK) {
    if (client == 0) ask(client, PUT, 0, 0);
    ask(client, TAKE, 0, 0);
  } else if (kind == HAND_OFF) {
    own->began = now_ns();
    if (client % 2 == 0) ask(client, PUT, (uint32_t)client, 0);
    ask(client, TAKE, (uint32_t)client ^ 1, 0);
  } else {
    fill(client);
  }
}

static bool has_come(const values *in, uint64_t value) {
  return value / 8 < in->end && (in->bits[value / 8] >> value % 8 & 1);
}

/* Takes a value that must not have come before. */
static void take_once(values *in, uint64_t value) {
  if (has_come(in, value)) fail("%llu came twice", (unsigned long long)value);
  while (value / 8 >= in->end) {
    uint64_t more = in->end ? in->end : 8192;
    uint8_t *grown = in->end < UINT64_C(1) << 30 ? realloc(in->bits, in->end + more) : NULL;
    if (!grown) {
      fail("%llu came", (unsigned long long)value);
      return;
    }
    memset(grown + in->end, 0, more);
    *in = (values){grown, in->end + more};
  }
  in->bits[value / 8] |= (uint8_t)(1 << value % 8);
}

static void raised_to(seat *own, uint64_t value) {
  raised++;
  if (kind == SHARED) take_once(&counted, value);
  if (kind == OWN && value != own->count) differs("counter", value, own->count);
  if (own->any && value <= own->last) fail("a counter fell back to %llu", (unsigned long long)value);
  own->any = true;
  own->last = value;
  own->count++;
}

static void locked(int client, uint64_t value, uint64_t got) {
  if (value != holders) differs("holders of the lock", value, holders);
  holders++;
  if (freed) note(freed, got);
  freed = now_ns();
  ask(client, PUT, 0, value + 1);
  if (!is_over()) ask(client, TAKE, 0, 0);
}

static void consumed(int client, uint64_t item, uint64_t got) {
  pair *line = &pairs[client / 2];
  /* Any of several waiting writes may be served, so items come in any order. */
  if (item >= line->made) fail("item %llu was not made", (unsigned long long)item);
  take_once(&line->came, item);
  note(line->sent[item % AHEAD], got);
  line->got++;
}

static void handed(int client, uint64_t value, uint64_t got) {
  seat *own = &seats[client];
  bool last = value == UINT64_MAX;
  if (!last && value != own->count) differs("round", value, own->count);
  own->count++;
  if (client % 2 == 1) {
    if (last) return;
    ask(client, PUT, (uint32_t)client, value);
    ask(client, TAKE, (uint32_t)client ^ 1, 0);
    return;
  }
  note(own->began, got);
  own->began = now_ns();
  bool more = !is_over();
  ask(client, PUT, (uint32_t)client, more ? own->count : UINT64_MAX); /* the last one is not sent back */
  if (more) ask(client, TAKE, (uint32_t)client ^ 1, 0);
}

void answered(int client, uint64_t id, uint64_t value) {
  seat *own = &seats[client];
  asked was = own->asked[id % 64];
  uint64_t got = now_ns();
  own->out--;
  if (was.action == ADD) {
    raised_to(own, value);
    note(was.sent, got);
  }
  if (was.action != TAKE) return;
  if (kind == LOCK) locked(client, value, got);
  if (kind == ITEMS) consumed(client, value, got);
  if (kind == HAND_OFF) handed(client, value, got);
}

/* ---- the loop ---- */

/* Writes each client's output. Returns how many requests are out. */
static int flush_all(void) {
  int out = 0;
  for (int i = 0; i < clients; i++) {
    if (kind == ITEMS) fill(i); /* a pair's client may go on because time is up or its partner acted */
    if (seats[i].dirty) side_flush(i);
    seats[i].dirty = false;
    out += seats[i].out;
  }
  return out;
}

static void run(int epoll) {
  uint64_t last = now_ns();
  for (int i = 0; i < clients; i++) start(i);
  for (;;) {
    if (flush_all() == 0 || failed) return;
    struct epoll_event events[MOST_CLIENTS];
    int count = epoll_wait(epoll, events, MOST_CLIENTS, 1000);
    for (int i = 0; i < count && !failed; i++) {
      int client = (int)events[i].data.u32;
      side_receive(client);
      fill(client);
    }
    if (count > 0) last = now_ns();
    else if (now_ns() - last > 10000000000) fail("no answer for 10 seconds");
  }
}

/* Checks that the counters' final values are exact. */
static void check_ends(void) {
  if (kind == OWN)
    for (int i = 0; i < clients && !failed; i++)
      if (side_counter((uint32_t)i) != seats[i].count) fail("counter %d does not end with what was counted", i);
  if (kind == SHARED && side_counter(0) != raised) fail("the counter does not end with what was counted");
  for (uint64_t value = 0; kind == SHARED && value < raised && !failed; value++)
    if (!has_come(&counted, value)) fail("the counter never was %llu", (unsigned long long)value);
  for (int i = 0; kind == ITEMS && i < clients / 2; i++)
    if (pairs[i].got != pairs[i].made) fail("not every item came");
  if (operations == 0) fail("nothing was done in the measured time");
}

static void print(double seconds) {
  struct rusage usage;
  getrusage(RUSAGE_SELF, &usage);
  double busy = (double)(usage.ru_utime.tv_sec + usage.ru_stime.tv_sec) * 1e6 +
                (double)(usage.ru_utime.tv_usec + usage.ru_stime.tv_usec);
  printf("{\"side\": \"%s\", \"work\": \"%s\", \"clients\": %d, \"window\": %d, \"ops_per_s\": %.1f, \"p50_us\": %.2f, "
         "\"p99_us\": %.2f, \"p999_us\": %.2f, \"checked\": %llu, \"load_us_per_op\": %.3f, \"valid\": %s, "
         "\"why\": \"%s\"}\n",
         side_name, names[kind], clients, window, (double)operations / seconds, latency_us(&noted, 0.5),
         latency_us(&noted, 0.99), latency_us(&noted, 0.999), (unsigned long long)checked,
         checked ? busy / (double)checked : 0, failed ? "false" : "true", why);
}

int main(int count, char **words) {
  for (kind = OWN; count > 2 && kind < WORKS && strcmp(words[2], names[kind]); kind++) {}
  clients = count > 3 ? atoi(words[3]) : 0;
  window = count > 4 ? atoi(words[4]) : 0;
  double seconds = count > 5 ? atof(words[5]) : 0, warm = count > 6 ? atof(words[6]) : 0.3;
  bool paired = kind == ITEMS || kind == HAND_OFF;
  if (count < 6 || kind == WORKS || clients < 1 || clients > MOST_CLIENTS || window < 1 || window > MOST_WINDOW ||
      !(seconds > 0) || (paired && clients % 2)) {
    fprintf(stderr, "usage: %s SOCKET own|shared|lock|items|hand-off CLIENTS WINDOW SECONDS [WARM]\n", words[0]);
    return 2;
  }
  int epoll = epoll_create1(0);
  if (side_open(words[1], clients, kind == OWN || kind == SHARED)) {
    for (int i = 0; i < clients; i++) {
      struct epoll_event event = {.events = EPOLLIN, .data.u32 = (uint32_t)i};
      epoll_ctl(epoll, EPOLL_CTL_ADD, side_descriptor(i), &event);
    }
    begin = now_ns() + (uint64_t)(warm * 1e9);
    until = begin + (uint64_t)(seconds * 1e9);
    run(epoll);
    if (!failed) check_ends();
    if (!failed) side_close();
  }
  print(seconds);
  return failed ? 1 : 0;
}
