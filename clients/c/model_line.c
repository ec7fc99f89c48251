/* A model of the line: each client runs on its own stack until it would wait, and a schedule says who goes next, whose
   message the server takes, whose time ends, and who is killed. Functions of this file stand in the place of system calls
   (`--wrap` of the linker). A search tries all schedules up to a price; one is replayed by its decisions. */
#define _DEFAULT_SOURCE
#define _POSIX_C_SOURCE 200809L
#include "model_search.h"

#include <errno.h>
#include <poll.h>
#include <stdarg.h>
#include <stdio.h>
#include <stdlib.h>
#include <string.h>
#include <sys/mman.h>
#include <sys/socket.h>
#include <time.h>
#include <ucontext.h>

#ifdef __SANITIZE_ADDRESS__
#include <sanitizer/asan_interface.h>
#include <sanitizer/common_interface_defs.h>
#else
#define __sanitizer_start_switch_fiber(kept, bottom, size) ((void)(kept), (void)(bottom), (void)(size))
#define __sanitizer_finish_switch_fiber(kept, bottom, size) ((void)(kept), (void)(bottom), (void)(size))
#define ASAN_UNPOISON_MEMORY_REGION(at, size) ((void)(at), (void)(size))
#endif

enum { AWAY = 6000000 }; /* microseconds for which a client stays away */
enum { FIRST_LINE = 100000, LINE_BYTES = 32768, STACK = 1 << 20, MOST_STEPS = 20000, BLOCKS = 64 };

/* ---- what there is in a run ---- */

typedef struct line {
  bool is_open;            /* at the client */
  bool has_ended;          /* the server has closed it */
  bool is_late;            /* its client is gone, and the server has not read all */
  size_t out_begin, out_end, in_begin, in_end;
  uint8_t out[LINE_BYTES], in[LINE_BYTES];
} line;

typedef enum state { GOES_ON, ENDED, KILLED } state;
typedef struct client {
  state state;
  bool is_inside;
  bool stays_away;         /* killed, and begun again at `until` */
  int life;
  unsigned lines, sent;
  uint64_t told;           /* a sum of all that it was told */
  ucontext_t context;
  void *kept_stack;        /* of the sanitizer */
  struct pollfd *waits_for;
  nfds_t waits_for_count;
  int64_t until;           /* microseconds, or -1: for ever */
  void *blocks[BLOCKS];
  unsigned block_count;
} client;

static const scenario *tried;
static client clients[MODEL_CLIENTS];
static uint8_t *stacks;
static line lines[MODEL_CLIENTS * MODEL_LINES];
static int running = -1, current;
static int64_t clock_now;
static ucontext_t scheduler;
static void *scheduler_stack;
static const void *scheduler_bottom;
static size_t scheduler_size;
static bool traces;

uint64_t model_sum(uint64_t before, const void *bytes, size_t count) {
  const uint8_t *at = bytes;
  for (; count >= 8; count -= 8, at += 8) {
    uint64_t part;
    memcpy(&part, at, 8);
    before = (before ^ part) * UINT64_C(0x9e3779b97f4a7c15);
    before ^= before >> 29;
  }
  for (; count > 0; count--, at++) before = (before ^ *at) * UINT64_C(0x100000001b3);
  return before;
}

static void tell(uint64_t what) { clients[running].told = model_sum(clients[running].told, &what, sizeof what); }

int model_client(void) { return running; }
int model_life(void) { return clients[running].life; }
const char *model_file(void) { return "/session"; }
unsigned model_sent(int of) { return clients[of].sent; }
uint64_t model_seen(uint64_t number) { return tell(number), number; }

/* ---- stacks ---- */

static uint8_t *stack_of(int who) { return stacks + (size_t)who * STACK; }

static void to_scheduler(bool for_good) {
  client *own = &clients[running];
  __sanitizer_start_switch_fiber(for_good ? NULL : &own->kept_stack, scheduler_bottom, scheduler_size);
  swapcontext(&own->context, &scheduler);
  __sanitizer_finish_switch_fiber(own->kept_stack, &scheduler_bottom, &scheduler_size);
}

static void enter(void) {
  __sanitizer_finish_switch_fiber(NULL, &scheduler_bottom, &scheduler_size);
  tried->programs[running]();
  clients[running].state = ENDED;
  to_scheduler(true);
}

static void begin_client(int who) {
  client *own = &clients[who];
  ASAN_UNPOISON_MEMORY_REGION(stack_of(who), STACK);
  own->state = GOES_ON;
  own->stays_away = false;
  own->waits_for_count = 0;
  own->until = 0;
  getcontext(&own->context);
  own->context.uc_stack.ss_sp = stack_of(who);
  own->context.uc_stack.ss_size = STACK;
  own->context.uc_link = NULL;
  makecontext(&own->context, enter, 0);
}

static void run_client(int who) {
  running = who;
  __sanitizer_start_switch_fiber(&scheduler_stack, stack_of(who), STACK);
  swapcontext(&scheduler, &clients[who].context);
  __sanitizer_finish_switch_fiber(scheduler_stack, NULL, NULL);
  running = -1;
}

void model_must(bool holds, const char *form, ...) {
  if (holds || search_has_fault()) return;
  char text[200];
  va_list rest;
  va_start(rest, form);
  vsnprintf(text, sizeof text, form, rest);
  va_end(rest);
  search_fault(text);
  if (running >= 0) to_scheduler(false);
}

void model_has_room(bool holds, const char *what) {
  if (holds) return;
  fprintf(stderr, "%s: the model has no room for %s\n", tried->name, what);
  abort();
}

void model_enter(void) {
  for (int who = 0; who < tried->clients; who++)
    model_must(!clients[who].is_inside, "clients %d and %d are inside", who, running);
  clients[running].is_inside = true;
}

void model_leave(void) { clients[running].is_inside = false; }

/* ---- time and waiting, in the place of system calls ---- */

int __real_clock_gettime(clockid_t id, struct timespec *time);
int __wrap_clock_gettime(clockid_t id, struct timespec *time);
int __wrap_clock_gettime(clockid_t id, struct timespec *time) {
  if (running < 0) return __real_clock_gettime(id, time);
  tell((uint64_t)clock_now);
  *time = (struct timespec){clock_now / 1000000, clock_now % 1000000 * 1000};
  return 0;
}

static line *line_of(int descriptor) {
  int at = descriptor - FIRST_LINE;
  return at >= 0 && at < MODEL_CLIENTS * MODEL_LINES ? &lines[at] : NULL;
}

static bool is_readable(const line *at) { return at->in_begin < at->in_end || at->has_ended; }

static int events_of(client *own) {
  int events = 0;
  for (nfds_t i = 0; i < own->waits_for_count; i++) {
    struct pollfd *one = &own->waits_for[i];
    const line *at = line_of(one->fd);
    one->revents = at && (one->events & POLLIN) && is_readable(at) ? POLLIN : 0;
    if (at && at->has_ended) one->revents |= POLLHUP;
    events += one->revents != 0;
  }
  return events;
}

int __wrap_poll(struct pollfd *waits_for, nfds_t count, int time);
int __wrap_poll(struct pollfd *waits_for, nfds_t count, int time) {
  client *own = &clients[running];
  own->waits_for = waits_for;
  own->waits_for_count = count;
  own->until = time < 0 ? -1 : clock_now + time * INT64_C(1000);
  to_scheduler(false);
  int events = events_of(own);
  own->waits_for_count = 0;
  tell((uint64_t)events);
  return events;
}

int __wrap_nanosleep(const struct timespec *time, struct timespec *left);
int __wrap_nanosleep(const struct timespec *time, struct timespec *left) {
  (void)left;
  client *own = &clients[running];
  own->waits_for_count = 0;
  own->until = clock_now + time->tv_sec * INT64_C(1000000) + time->tv_nsec / 1000;
  to_scheduler(false);
  return 0;
}

void model_rest(int64_t milliseconds) {
  __wrap_nanosleep(&(struct timespec){milliseconds / 1000, milliseconds % 1000 * 1000000}, NULL);
}

/* ---- bytes ---- */

int __real_socket(int domain, int type, int protocol);
int __wrap_socket(int domain, int type, int protocol);
int __wrap_socket(int domain, int type, int protocol) {
  (void)domain, (void)type, (void)protocol;
  client *own = &clients[running];
  model_has_room(own->lines < MODEL_LINES, "connections");
  int at = running * MODEL_LINES + (int)own->lines++;
  lines[at].is_open = true;
  return FIRST_LINE + at;
}

int __wrap_fcntl(int descriptor, int what, ...);
int __wrap_fcntl(int descriptor, int what, ...) { return (void)descriptor, (void)what, 0; }
int __wrap_connect(int descriptor, const struct sockaddr *to, socklen_t size);
int __wrap_connect(int descriptor, const struct sockaddr *to, socklen_t size) {
  return (void)descriptor, (void)to, (void)size, 0;
}

ssize_t __wrap_send(int descriptor, const void *bytes, size_t count, int flags);
ssize_t __wrap_send(int descriptor, const void *bytes, size_t count, int flags) {
  (void)flags;
  line *at = line_of(descriptor);
  if (at->has_ended) return errno = EPIPE, -1;
  model_has_room(at->out_end + count <= LINE_BYTES, "messages");
  memcpy(at->out + at->out_end, bytes, count);
  at->out_end += count;
  return (ssize_t)count;
}

ssize_t __wrap_recv(int descriptor, void *bytes, size_t count, int flags);
ssize_t __wrap_recv(int descriptor, void *bytes, size_t count, int flags) {
  (void)flags;
  line *at = line_of(descriptor);
  size_t there = at->in_end - at->in_begin, size = there < count ? there : count;
  memcpy(bytes, at->in + at->in_begin, size);
  clients[running].told = model_sum(clients[running].told, bytes, size);
  at->in_begin += size;
  if (at->in_begin == at->in_end) at->in_begin = at->in_end = 0;
  if (size > 0) return (ssize_t)size;
  tell(at->has_ended);
  return at->has_ended ? 0 : (errno = EAGAIN, -1);
}

void model_reply(int to, const uint8_t *bytes, size_t count) {
  line *at = &lines[to];
  if (!at->is_open) return;
  model_has_room(at->in_end + count <= LINE_BYTES, "replies");
  memcpy(at->in + at->in_end, bytes, count);
  at->in_end += count;
}

static bool is_unread(const line *at) { return at->out_begin < at->out_end; }

static void deliver(line *at) {
  const uint8_t *frame = at->out + at->out_begin;
  at->out_begin += 4 + ((size_t)frame[2] << 8 | frame[3]);
  if (at->out_begin == at->out_end) at->out_begin = at->out_end = 0;
  int which = (int)(at - lines);
  clients[which / MODEL_LINES].sent++;
  server_takes(which, frame);
}

static void end_line(line *at) {
  while (is_unread(at)) deliver(at);
  at->is_late = false;
  server_hears_end((int)(at - lines));
}

int __wrap_shutdown(int descriptor, int how);
int __wrap_shutdown(int descriptor, int how) { return (void)how, line_of(descriptor)->has_ended = true, 0; }

int __wrap_close(int descriptor);
int __wrap_close(int descriptor) {
  line *at = line_of(descriptor);
  if (at) {
    at->is_open = false;
    at->is_late = is_unread(at) && search_choose(2, LATES) == 1;
    if (!at->is_late) end_line(at);
    return 0;
  }
  return files_close(descriptor) ? 0 : -1;
}

unsigned model_choose(unsigned count) { return count > 1 ? search_choose(count, DELAYS) : 0; }

/* ---- memory, which ends with a client ---- */

static void *noted(void *made) {
  if (running < 0 || !made) return made;
  model_has_room(clients[running].block_count < BLOCKS, "what a client allocates");
  return clients[running].blocks[clients[running].block_count++] = made;
}

static void forgotten(const void *block) {
  client *own = running < 0 ? NULL : &clients[running];
  for (unsigned i = 0; block && own && i < own->block_count; i++)
    if (own->blocks[i] == block) own->blocks[i--] = own->blocks[--own->block_count];
}

void *__real_malloc(size_t size);
void *__wrap_malloc(size_t size);
void *__wrap_malloc(size_t size) { return noted(__real_malloc(size)); }
void *__real_calloc(size_t count, size_t size);
void *__wrap_calloc(size_t count, size_t size);
void *__wrap_calloc(size_t count, size_t size) { return noted(__real_calloc(count, size)); }
void *__real_realloc(void *block, size_t size);
void *__wrap_realloc(void *block, size_t size);
void *__wrap_realloc(void *block, size_t size) {
  forgotten(block);
  return noted(__real_realloc(block, size));
}
void __real_free(void *block);
void __wrap_free(void *block);
void __wrap_free(void *block) {
  forgotten(block);
  __real_free(block);
}

/* ---- kills ---- */

static void kill_client(int who, bool late) {
  client *own = &clients[who];
  own->state = KILLED;
  own->until = -1;
  own->is_inside = false;
  own->life++;
  own->told = model_sum(own->told, "killed", 6);
  files_end(who);
  for (unsigned i = 0; i < own->block_count; i++) __real_free(own->blocks[i]);
  own->block_count = 0;
  for (line *at = &lines[who * MODEL_LINES]; at < &lines[who * MODEL_LINES] + own->lines; at++) {
    if (!at->is_open) continue;
    at->is_open = false;
    at->is_late = late && is_unread(at);
    if (at->is_late) continue;
    at->out_begin = at->out_end = 0;
    end_line(at);
  }
}

void model_die(void) {
  kill_client(running, false);
  to_scheduler(true);
  abort();
}

static void stop_server(void) {
  server_stops();
  for (line *at = lines; at < lines + MODEL_CLIENTS * MODEL_LINES; at++) {
    at->out_begin = at->out_end = 0;
    at->is_late = false;
    if (at->is_open) at->has_ended = true;
  }
}

/* ---- steps ---- */

typedef enum event { DELIVERS, RUNS, TIME_ENDS, BEGINS_AGAIN, DIES, DIES_LATE, STAYS_AWAY, SERVER_STOPS, LATE_COMES } event;
typedef struct step {
  event what;
  int who;
} step;

static line *unread_of(int who) {
  for (line *at = &lines[who * MODEL_LINES]; at < &lines[(who + 1) * MODEL_LINES]; at++)
    if (at->is_open && is_unread(at)) return at;
  return NULL;
}

static bool is_ready(int who) { return events_of(&clients[who]) > 0 || (clients[who].until >= 0 && clients[who].until <= clock_now); }

/* The usual step of a client: the server takes what it sent, then it goes on. False if it waits, or has ended. */
static bool usual(int who, step *found) {
  if (clients[who].state != GOES_ON) return false;
  *found = (step){unread_of(who) ? DELIVERS : RUNS, who};
  return found->what == DELIVERS || is_ready(who);
}

static bool has_late(int who) {
  for (line *at = &lines[who * MODEL_LINES]; at < &lines[(who + 1) * MODEL_LINES]; at++)
    if (at->is_late) return true;
  return false;
}

static int first_late(void) {
  for (int who = 0; who < tried->clients; who++)
    if (has_late(who)) return who;
  return -1;
}

/* Whose time ends first, of those who wait or stay away; -1 if nobody's does. */
static int earliest(void) {
  int found = -1;
  for (int who = 0; who < tried->clients; who++) {
    const client *own = &clients[who];
    if ((own->state != GOES_ON && !own->stays_away) || own->until < 0) continue;
    if (found < 0 || own->until < clients[found].until) found = who;
  }
  return found;
}

static int first_killed(void) {
  for (int who = 0; who < tried->clients; who++)
    if (clients[who].state == KILLED && !clients[who].stays_away) return who;
  return -1;
}

/* What happens if the schedule says nothing else: whoever ran goes on, then the next one; then who was killed begins
   again; then time passes; and at the end the server reads what is late. */
static bool usual_step(step *found) {
  for (int i = 0; i < tried->clients; i++)
    if (usual((current + i) % tried->clients, found)) return true;
  int who = first_killed(), next = earliest();
  if (who >= 0) return *found = (step){BEGINS_AGAIN, who}, true;
  if (next >= 0) return *found = (step){clients[next].stays_away ? BEGINS_AGAIN : TIME_ENDS, next}, true;
  return first_late() >= 0 ? *found = (step){LATE_COMES, first_late()}, true : false;
}

enum { MOST_CHOICES = 32 };
typedef struct choices {
  unsigned count;
  step steps[MOST_CHOICES];
  uint8_t cost[MOST_CHOICES];
} choices;

static void add(choices *all, event what, int who, uint8_t cost) {
  for (unsigned i = 0; i < all->count; i++)
    if (all->steps[i].what == what && all->steps[i].who == who) return;
  all->steps[all->count] = (step){what, who};
  all->cost[all->count++] = cost;
}

static void list_others(choices *all) {
  for (int who = 0; who < tried->clients; who++) {
    const client *own = &clients[who];
    step found;
    if (usual(who, &found)) add(all, found.what, who, DELAYS);
    if (own->state == GOES_ON && unread_of(who) && is_ready(who)) add(all, RUNS, who, DELAYS);
    if (own->state == GOES_ON && own->until > clock_now) add(all, TIME_ENDS, who, DELAYS);
    if (own->state == KILLED && !own->stays_away) add(all, BEGINS_AGAIN, who, DELAYS);
    if (own->state == KILLED && !own->stays_away) add(all, STAYS_AWAY, who, DELAYS);
    if (has_late(who)) add(all, LATE_COMES, who, DELAYS);
    if (own->state == GOES_ON) add(all, DIES, who, KILLS);
    if (own->state == GOES_ON && unread_of(who)) add(all, DIES_LATE, who, LATES);
  }
  add(all, SERVER_STOPS, 0, STOPS);
}

static void pass_time(const client *own) {
  if (own->until > clock_now) clock_now = own->until;
}

static void stay_away(client *own) {
  own->stays_away = true;
  own->until = clock_now + AWAY;
}

static void take(step next) {
  static const char *const names[] = {"delivers", "runs", "time ends", "begins again", "dies", "dies late", "stays away",
                                      "server stops", "late messages come"};
  if (traces) printf("%10.3f client %d %s\n", (double)clock_now / 1000, next.who, names[next.what]);
  bool of_client = next.what <= BEGINS_AGAIN;
  if (of_client) current = next.who;
  switch (next.what) {
    case DELIVERS:
      do deliver(unread_of(next.who));
      while (tried->is_coarse && unread_of(next.who));
      break;
    case TIME_ENDS: pass_time(&clients[next.who]); /* and it runs */ /* fall through */
    case RUNS: run_client(next.who); break;
    case BEGINS_AGAIN: pass_time(&clients[next.who]); begin_client(next.who); break;
    case DIES: kill_client(next.who, false); break;
    case DIES_LATE: kill_client(next.who, true); break;
    case STAYS_AWAY: stay_away(&clients[next.who]); break;
    case SERVER_STOPS: stop_server(); break;
    case LATE_COMES:
      for (line *at = &lines[next.who * MODEL_LINES]; at < &lines[(next.who + 1) * MODEL_LINES]; at++)
        if (at->is_late) end_line(at);
  }
}

/* ---- a run ---- */

static uint64_t sum_of_state(void) {
  uint64_t sum = server_sum((uint64_t)clock_now * 31 + (uint64_t)current);
  for (int who = 0; who < tried->clients; who++) {
    const client *own = &clients[who];
    uint64_t told[5] = {own->told, own->state, own->stays_away + 2u * own->is_inside, (uint64_t)own->until, own->lines};
    sum = model_sum(sum, told, sizeof told);
    for (const line *at = &lines[who * MODEL_LINES]; at < &lines[who * MODEL_LINES] + own->lines; at++) {
      uint64_t flags[3] = {at->is_open, at->has_ended, at->is_late};
      sum = model_sum(sum, flags, sizeof flags);
      sum = model_sum(sum, at->out + at->out_begin, at->out_end - at->out_begin);
      sum = model_sum(sum, at->in + at->in_begin, at->in_end - at->in_begin);
    }
  }
  return tried->shared ? model_sum(sum, tried->shared, tried->shared_size) : sum;
}

static void begin_run(void) {
  server_begin();
  files_begin();
  clock_now = 1000000;
  current = 0;
  for (int who = 0; who < tried->clients; who++) {
    client *own = &clients[who];
    for (unsigned i = 0; i < own->lines; i++) {
      line *at = &lines[who * MODEL_LINES + (int)i];
      at->is_open = at->has_ended = at->is_late = false;
      at->out_begin = at->out_end = at->in_begin = at->in_end = 0;
    }
    own->life = 0;
    own->lines = own->sent = 0;
    own->told = (uint64_t)who;
    begin_client(who);
  }
  if (tried->shared) memset(tried->shared, 0, tried->shared_size);
}

/* What a run that was cut off has left. */
static void end_run(void) {
  for (int who = 0; who < tried->clients; who++)
    if (clients[who].state != ENDED) kill_client(who, false);
    else model_must(clients[who].block_count == 0 && files_are_closed(who), "client %d has left memory", who);
}

/* Runs the scenario as the search decides. */
void model_run(void) {
  begin_run();
  for (unsigned steps = 0; !search_has_fault(); steps++) {
    choices all = {0};
    if (!usual_step(&all.steps[0])) break;
    all.count = 1;
    list_others(&all);
    if (steps > MOST_STEPS || clock_now > 1000000 + tried->within * 1000) {
      search_fault("a client does not end");
      break;
    }
    int chosen = search_step(sum_of_state, all.count, all.cost);
    if (chosen < 0) break;
    take(all.steps[chosen]);
    if (all.steps[chosen].what == LATE_COMES && first_late() < 0 && !usual_step(&all.steps[0])) break;
  }
  bool whole = !search_has_fault() && !search_is_known();
  for (int who = 0; who < tried->clients; who++) whole = whole && clients[who].state == ENDED;
  if (whole && tried->end) tried->end();
  end_run();
}

void model_begin(const scenario *given, bool tells_all) {
  tried = given;
  traces = tells_all;
  if (stacks) return;
  stacks = mmap(NULL, (size_t)STACK * MODEL_CLIENTS, PROT_READ | PROT_WRITE, MAP_PRIVATE | MAP_ANONYMOUS, -1, 0);
  if (stacks == MAP_FAILED) abort();
}
