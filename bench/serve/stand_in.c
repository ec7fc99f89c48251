/* A stand-in for the server, to compare it with: the same frames, the same two threads for each connection and one that
   commits, the same writes and syncs of the same bytes, and no proofs. It shows what C achieves with this design.

   It is no replacement: it does not recover, keeps no answers, sends nothing twice, takes no cancel and no report, and
   trusts its clients. Nothing is promised of it.

     stand_in serve --settings FILE     reads `socket` and `store`, each on a line of its own, and nothing else
     STAND_IN_WRONG=N                   every Nth value answered is wrong, to test the checks of a load */
#define _GNU_SOURCE
#include "stand_in_store.h"

#include <poll.h>
#include <pthread.h>
#include <signal.h>
#include <stdbool.h>
#include <stdint.h>
#include <stdio.h>
#include <stdlib.h>
#include <string.h>
#include <sys/socket.h>
#include <sys/un.h>
#include <unistd.h>

enum { CONNECTIONS = 256, ARRAYS = 64, WORDS = 65536, WINDOW = 32 };

/* ---- the front: under the lock ---- */

typedef struct waiter {
  struct waiter *next;
  uint64_t session, number, operand;
  int connection;
  uint8_t operation;
} waiter;

typedef struct word {
  uint64_t value;
  bool full;
  waiter *first, *last;
} word;

typedef struct array {
  uint64_t id;
  uint32_t length;
  uint8_t name[17]; /* the frame's length, then its bytes */
  word *words;
} array;

typedef struct connection {
  int descriptor;
  bool used, gone, mailed;
  uint64_t session, floor;
  uint8_t *output;
  size_t size, room;
  pthread_cond_t mail;
} connection;

/* What is pending: records, and the replies to send once they are stored. */
typedef struct batch {
  uint8_t *records;
  uint32_t count, room;
  struct letter {
    int connection, size;
    uint8_t bytes[26];
  } *letters;
  uint32_t letter_count, letter_room;
} batch;

static pthread_mutex_t lock = PTHREAD_MUTEX_INITIALIZER;
static pthread_cond_t work = PTHREAD_COND_INITIALIZER;
static connection connections[CONNECTIONS];
static array arrays[ARRAYS];
static uint64_t next_id = 1, wrong, told;
static uint32_t words, sessions;
static batch pending;

static uint8_t *new_record(uint8_t kind, uint64_t session, uint64_t number) {
  if (pending.count == pending.room) {
    pending.room = pending.room ? 2 * pending.room : 256;
    pending.records = memory(pending.records, RECORD * (size_t)pending.room + 8);
  }
  uint8_t *record = pending.records + 4 + RECORD * (size_t)pending.count++;
  memset(record, 0, RECORD);
  record[0] = kind;
  put8(record + 8, session);
  put8(record + 16, number);
  return record;
}

static uint8_t *new_letter(int to, uint8_t kind, int size) {
  if (pending.letter_count == pending.letter_room) {
    pending.letter_room = pending.letter_room ? 2 * pending.letter_room : 256;
    pending.letters = memory(pending.letters, sizeof *pending.letters * pending.letter_room);
  }
  struct letter *letter = &pending.letters[pending.letter_count++];
  *letter = (struct letter){.connection = to, .size = size};
  put4(letter->bytes, (uint32_t)size - 4);
  letter->bytes[4] = kind;
  return letter->bytes + 5;
}

typedef struct call {
  int connection;
  uint64_t session, number, array, operand;
  uint32_t index;
  uint8_t request;
} call;

static void finish(const call *of, uint8_t answer, uint64_t value, uint32_t length) {
  uint8_t *record = new_record(4, of->session, of->number);
  record[1] = of->request;
  record[2] = answer;
  put8(record + 24, of->array);
  put8(record + 32, of->operand);
  put4(record + 56, of->index);
  put4(record + 60, length);
  put8(record + 64, value);
  if (answer == 1 && wrong && ++told % wrong == 0) value++;
  uint8_t *body = new_letter(of->connection, 66, 26);
  put8(body, of->number);
  body[8] = answer;
  put8(body + 9, value);
  put4(body + 17, length);
}

/* The answer's code, or 0 where the operation waits. */
static uint8_t operate(word *at, uint8_t operation, uint64_t operand, uint64_t *value) {
  bool needs_full = operation != 18 && operation != 19 && operation != 21 && operation != 22;
  if ((needs_full && !at->full) || (operation == 19 && at->full)) return 0;
  *value = at->value;
  if (operation == 16) at->full = false;
  if (operation >= 19 && operation <= 21) at->value = operand;
  if (operation == 19 || operation == 21) at->full = true;
  if (operation == 22) *at = (word){.first = at->first, .last = at->last};
  if (operation == 23) at->value += operand;
  return operation <= 18 || operation == 23 ? 1 : 2;
}

static call call_of(const waiter *from, uint64_t of, uint32_t index) {
  return (call){from->connection, from->session, from->number, of, from->operand, index, from->operation};
}

/* Serves the requests that wait on a word, until none can be served. */
static void cascade(word *at, uint64_t of, uint32_t index) {
  for (bool again = true; again;) {
    again = false;
    waiter *last = NULL;
    for (waiter **here = &at->first; *here;) {
      waiter *next = *here;
      uint64_t value = 0;
      uint8_t answer = operate(at, next->operation, next->operand, &value);
      if (answer == 0) {
        last = next;
        here = &next->next;
        continue;
      }
      call done = call_of(next, of, index);
      finish(&done, answer, answer == 1 ? value : 0, 0);
      *here = next->next;
      free(next);
      again = true;
    }
    at->last = last;
  }
}

static array *array_of(uint64_t id) {
  for (int i = 0; i < ARRAYS; i++)
    if (arrays[i].id == id && id != 0) return &arrays[i];
  return NULL;
}

static void access_word(const call *with) {
  array *in = array_of(with->array);
  uint64_t value = 0;
  if (!in || with->index >= in->length) {
    finish(with, in ? 5 : 4, 0, 0);
    return;
  }
  word *at = &in->words[with->index];
  uint8_t answer = operate(at, with->request, with->operand, &value);
  if (answer != 0) {
    finish(with, answer, answer == 1 ? value : 0, 0);
    if (at->first) cascade(at, with->array, with->index);
    return;
  }
  waiter *waits = memory(NULL, sizeof *waits);
  *waits = (waiter){NULL, with->session, with->number, with->operand, with->connection, with->request};
  if (at->first) at->last->next = waits;
  else at->first = waits;
  at->last = waits;
}

static void create(const call *with, const uint8_t *name, uint32_t length, bool full) {
  array *free_one = NULL;
  uint8_t answer = name[0] < 1 || name[0] > 16 ? 9 : length < 1 || length > WORDS ? 10 : 0;
  for (int i = 0; i < ARRAYS && answer == 0; i++) {
    if (arrays[i].id == 0) free_one = free_one ? free_one : &arrays[i];
    else if (memcmp(arrays[i].name, name, 17) == 0) answer = 6;
  }
  if (answer == 0) answer = !free_one ? 7 : words + length > WORDS ? 8 : 3;
  if (answer != 3) {
    finish(with, answer, 0, 0);
    return;
  }
  *free_one = (array){.id = next_id++, .length = length, .words = memory(NULL, length * sizeof(word))};
  memcpy(free_one->name, name, 17);
  for (uint32_t i = 0; i < length; i++) free_one->words[i] = (word){.full = full};
  words += length;
  finish(with, 3, free_one->id, length);
}

static void find(const call *with, const uint8_t *name) {
  for (int i = 0; i < ARRAYS; i++) {
    if (arrays[i].id == 0 || memcmp(arrays[i].name, name, 17) != 0) continue;
    finish(with, 3, arrays[i].id, arrays[i].length);
    return;
  }
  finish(with, 4, 0, 0);
}

static void remove_array(const call *with) {
  array *old = array_of(with->array);
  finish(with, old ? 2 : 4, 0, 0);
  for (uint32_t index = 0; old && index < old->length; index++)
    for (waiter *next = old->words[index].first, *then; next; next = then) {
      call told_so = call_of(next, old->id, index);
      finish(&told_so, 4, 0, 0);
      then = next->next;
      free(next);
    }
  if (!old) return;
  words -= old->length;
  free(old->words);
  *old = (array){0};
}

/* Handles a session's messages. False for those that the stand-in does not take. */
static bool handle_session(int from, uint8_t kind, uint64_t number) {
  connection *line = &connections[from];
  if (kind == 1) {
    line->session = number;
    line->floor = 1;
    sessions++;
    new_record(1, number, 1);
    uint8_t *body = new_letter(from, 65, 21);
    put8(body, number);
    put8(body + 8, 1);
  } else if (kind == 7 && number >= line->floor && number <= line->floor + WINDOW) {
    line->floor = number;
    new_record(3, line->session, number);
    put8(new_letter(from, 68, 13), number);
  } else if (kind == 8) {
    sessions--;
    new_record(2, line->session, 0);
    put8(new_letter(from, 69, 13), line->session);
  } else {
    return false;
  }
  return true;
}

/* `frame` is a kind and its body. */
static bool handle(int from, const uint8_t *frame, uint32_t length) {
  uint8_t kind = frame[0];
  uint64_t number = length >= 9 ? get8(frame + 1) : 0;
  connection *line = &connections[from];
  call with = {.connection = from, .session = line->session, .number = number, .request = kind};
  if (kind < 2 || kind > 5) return handle_session(from, kind, number);
  if (number < line->floor || number >= line->floor + WINDOW) return false;
  if (kind == 2) create(&with, frame + 9, get4(frame + 26), frame[30]);
  if (kind == 3) find(&with, frame + 9);
  if (kind == 4) with.array = get8(frame + 9);
  if (kind == 4) remove_array(&with);
  if (kind != 5) return true;
  with.request = frame[9];
  with.array = get8(frame + 10);
  with.index = get4(frame + 18);
  with.operand = get8(frame + 22);
  access_word(&with);
  return true;
}

/* Withdraws a connection's waiting requests. */
static void withdraw(int of) {
  for (int i = 0; i < ARRAYS; i++)
    for (uint32_t index = 0; arrays[i].id != 0 && index < arrays[i].length; index++) {
      word *at = &arrays[i].words[index];
      waiter *last = NULL;
      for (waiter **here = &at->first; *here;) {
        waiter *next = *here;
        if (next->connection != of) {
          last = next;
          here = &next->next;
          continue;
        }
        *here = next->next;
        free(next);
      }
      at->last = last;
    }
}

static uint32_t image_length(void) {
  uint32_t length = 24 + sessions * (20 + 16 * 88);
  for (int i = 0; i < ARRAYS; i++)
    if (arrays[i].id != 0) length += 45 + 9 * arrays[i].length;
  return length;
}

/* ---- the threads ---- */

/* Handles the whole frames in the input, taking the lock for each. Returns their size in bytes, or -1. */
static ssize_t handle_all(int from, const uint8_t *bytes, size_t count) {
  size_t at = 0;
  while (count - at >= 5) {
    uint32_t length = get4(bytes + at);
    if (length < 1 || length > 31) return -1;
    if (count - at < length + 4) break;
    pthread_mutex_lock(&lock);
    bool good = handle(from, bytes + at + 4, length);
    pthread_mutex_unlock(&lock);
    pthread_cond_signal(&work);
    if (!good) return -1;
    at += length + 4;
  }
  return (ssize_t)at;
}

static void *reading(void *given) {
  int own = (int)(intptr_t)given;
  connection *line = &connections[own];
  uint8_t bytes[8192];
  size_t count = 0;
  struct pollfd waited = {.fd = line->descriptor, .events = POLLIN};
  for (;;) {
    poll(&waited, 1, -1); /* unlike a wait in recv, this does not end when the client takes a reply */
    ssize_t size = recv(line->descriptor, bytes + count, sizeof bytes - count, 0);
    if (size <= 0) break;
    count += (size_t)size;
    ssize_t taken = handle_all(own, bytes, count);
    if (taken < 0) break;
    memmove(bytes, bytes + taken, count - (size_t)taken);
    count -= (size_t)taken;
  }
  pthread_mutex_lock(&lock);
  withdraw(own);
  line->gone = true;
  pthread_mutex_unlock(&lock);
  pthread_cond_signal(&line->mail);
  return NULL;
}

static void write_all(int to, const uint8_t *bytes, size_t count) {
  while (count > 0) {
    ssize_t size = send(to, bytes, count, MSG_NOSIGNAL);
    if (size <= 0) return;
    bytes += size;
    count -= (size_t)size;
  }
}

static void *writing(void *given) {
  connection *line = &connections[(intptr_t)given];
  uint8_t *own = NULL;
  size_t room = 0;
  for (;;) {
    pthread_mutex_lock(&lock);
    while (line->size == 0 && !line->gone) pthread_cond_wait(&line->mail, &lock);
    if (line->gone) break;
    uint8_t *bytes = line->output;
    size_t size = line->size, held = line->room;
    line->output = own;
    line->size = 0;
    line->room = room;
    own = bytes;
    room = held;
    pthread_mutex_unlock(&lock);
    write_all(line->descriptor, own, size);
  }
  close(line->descriptor);
  line->used = line->gone = false;
  line->size = 0;
  pthread_mutex_unlock(&lock);
  free(own);
  return NULL;
}

/* Puts the replies of a stored batch into the connections' output. */
static void post(const batch *stored) {
  for (uint32_t i = 0; i < stored->letter_count; i++) {
    const struct letter *letter = &stored->letters[i];
    connection *to = &connections[letter->connection];
    if (!to->used || to->gone) continue;
    if (to->size + (size_t)letter->size > to->room) {
      to->room = to->room ? 2 * to->room : 4096;
      to->output = memory(to->output, to->room);
    }
    memcpy(to->output + to->size, letter->bytes, (size_t)letter->size);
    to->size += (size_t)letter->size;
    to->mailed = true;
  }
}

static void *committing(void *unused) {
  batch out = {0};
  for (;;) {
    pthread_mutex_lock(&lock);
    while (pending.count == 0) pthread_cond_wait(&work, &lock);
    batch next = pending;
    pending = out;
    pending.count = pending.letter_count = 0;
    out = next;
    uint32_t length = image_length();
    pthread_mutex_unlock(&lock);
    append(out.records, out.count);
    int wake[CONNECTIONS], count = 0;
    pthread_mutex_lock(&lock);
    post(&out);
    for (int i = 0; i < CONNECTIONS; i++) {
      if (connections[i].mailed) wake[count++] = i;
      connections[i].mailed = false;
    }
    pthread_mutex_unlock(&lock);
    for (int i = 0; i < count; i++) pthread_cond_signal(&connections[wake[i]].mail);
    check_on(length);
  }
  return unused;
}

static void start(void *(*thread)(void *), intptr_t given) {
  pthread_attr_t attributes;
  pthread_t made;
  pthread_attr_init(&attributes);
  pthread_attr_setstacksize(&attributes, 262144);
  pthread_attr_setdetachstate(&attributes, PTHREAD_CREATE_DETACHED);
  if (pthread_create(&made, &attributes, thread, (void *)given)) give_up("stand_in: thread");
}

static void welcome_all(int listener) {
  for (;;) {
    int descriptor = accept(listener, NULL, NULL), own = 0;
    if (descriptor < 0) continue;
    pthread_mutex_lock(&lock);
    while (own < CONNECTIONS && connections[own].used) own++;
    if (own < CONNECTIONS) {
      connections[own].descriptor = descriptor;
      connections[own].used = true;
    }
    pthread_mutex_unlock(&lock);
    if (own == CONNECTIONS) {
      close(descriptor);
      continue;
    }
    start(reading, own);
    start(writing, own);
  }
}

static int listen_on(const char *path) {
  struct sockaddr_un address = {.sun_family = AF_UNIX};
  snprintf(address.sun_path, sizeof address.sun_path, "%s", path);
  int listener = socket(AF_UNIX, SOCK_STREAM, 0);
  if (bind(listener, (struct sockaddr *)&address, sizeof address) || listen(listener, 128)) give_up("stand_in: socket");
  return listener;
}

int main(int count, char **given) {
  char line[600], key[40], value[500], path[500] = "", store[500] = "";
  bool named = count == 4 && !strcmp(given[1], "serve") && !strcmp(given[2], "--settings");
  FILE *settings = named ? fopen(given[3], "r") : NULL;
  if (!settings) {
    fprintf(stderr, "usage: stand_in serve --settings FILE\n");
    return 2;
  }
  while (fgets(line, sizeof line, settings)) {
    if (sscanf(line, " %39[a-z] = \"%499[^\"]\"", key, value) != 2) continue;
    if (!strcmp(key, "socket")) strcpy(path, value);
    if (!strcmp(key, "store")) strcpy(store, value);
  }
  fclose(settings);
  wrong = getenv("STAND_IN_WRONG") ? strtoull(getenv("STAND_IN_WRONG"), NULL, 10) : 0;
  for (int i = 0; i < CONNECTIONS; i++) pthread_cond_init(&connections[i].mail, NULL);
  make_store(store);
  start(committing, 0);
  welcome_all(listen_on(path));
  return 0;
}
