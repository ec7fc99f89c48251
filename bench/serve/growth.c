/* What growth does on a server besides a load:
     growth sessions SOCKET COUNT        COUNT sessions come, make a call each, and leave
     growth words SOCKET                 creates arrays until only 64 words are left
     growth waiting SOCKET COUNT         63 sessions attach, and COUNT of their requests wait until standard input ends
     growth check SOCKET STORE SECONDS   makes calls one by one, and separates those during a checkpoint from the others:
                                         one line of JSON */
#define _GNU_SOURCE
#include "../../clients/c/femem.h"
#include "measure.h"

#include <fcntl.h>
#include <stdio.h>
#include <stdlib.h>
#include <string.h>
#include <unistd.h>

enum { SLOT = 2101248, GATE = 4095, WINDOW = 32, WORDS_LEFT = 64, MOST_SESSIONS = 63 };

static const femem_settings settings = {.wait = 20000};

static void must(femem_error error, const char *what) {
  if (error == FEMEM_OK) return;
  fprintf(stderr, "growth: %s: %s\n", what, femem_error_text(error));
  exit(1);
}

static femem *opened(const char *path, uint64_t session) {
  femem *client;
  must(femem_open(&client, path, session, &settings), "open");
  return client;
}

static uint64_t made(femem *client, const char *name, uint32_t length, bool full) {
  uint64_t array = 0;
  femem_error error = femem_create(client, name, length, full, &array);
  if (error == FEMEM_NAME_TAKEN) error = femem_find(client, name, &array, NULL);
  must(error, "create");
  return array;
}

static void sessions(const char *path, long count) {
  uint64_t value, array = 0;
  for (long i = 0; i < count; i++) {
    femem *client = opened(path, 1000000 + (uint64_t)i);
    if (i == 0) array = made(client, "come_and_gone", 1, true);
    must(femem_int_fetch_add(client, array, 0, 1, &value), "call");
    if (i + 1 == count) must(femem_remove(client, array), "remove");
    must(femem_bye(client), "bye");
    femem_close(client);
  }
}

static void words(const char *path) {
  femem *client = opened(path, 1);
  made(client, "many_words", 65536 - WORDS_LEFT, true);
  must(femem_bye(client), "bye");
  femem_close(client);
}

static void waiting(const char *path, long count) {
  femem *clients[MOST_SESSIONS];
  uint64_t array = 0;
  long left = count;
  for (int i = 0; i < MOST_SESSIONS; i++) {
    clients[i] = opened(path, 2000 + (uint64_t)i);
    if (i == 0) array = made(clients[i], "waiting", WINDOW, false);
    for (uint32_t word = 0; word < WINDOW && left > 0; word++, left--)
      must(femem_send_readfe(clients[i], array, word, NULL), "send");
    must(femem_flush(clients[i]), "flush");
  }
  printf("waiting\n");
  fflush(stdout);
  while (getchar() != EOF) {}
}

static uint64_t get8(const uint8_t *at) {
  uint64_t number;
  memcpy(&number, at, 8);
  return __builtin_bswap64(number);
}

/* A slot with the next generation that is not open yet belongs to a checkpoint. */
static bool is_checking(int store) {
  uint8_t head[2][16], gate[2];
  for (int slot = 0; slot < 2; slot++) {
    if (pread(store, head[slot], 16, slot * SLOT) != 16) exit(1);
    if (pread(store, &gate[slot], 1, slot * SLOT + GATE) != 1) exit(1);
  }
  for (int slot = 0; slot < 2; slot++)
    if (gate[slot] != 1 && memcmp(head[slot], "FEMEMST", 7) == 0 && get8(head[slot] + 8) == get8(head[!slot] + 8) + 1)
      return true;
  return false;
}

static void check(const char *path, const char *file, double seconds) {
  static latencies during, without;
  int store = open(file, O_RDONLY);
  if (store < 0) exit(1);
  femem *client = opened(path, 3);
  uint64_t array = made(client, "check", 1, true), value, end = now_ns() + (uint64_t)(seconds * 1e9);
  while (now_ns() < end) {
    bool before = is_checking(store);
    uint64_t began = now_ns();
    must(femem_int_fetch_add(client, array, 0, 1, &value), "call");
    uint64_t took = now_ns() - began;
    note_latency(before || is_checking(store) ? &during : &without, took);
  }
  must(femem_remove(client, array), "remove");
  must(femem_bye(client), "bye");
  printf("{\"during\": {\"count\": %llu, \"p50_us\": %.1f, \"p99_us\": %.1f}, "
         "\"without\": {\"count\": %llu, \"p50_us\": %.1f, \"p99_us\": %.1f}}\n",
         (unsigned long long)during.count, latency_us(&during, 0.5), latency_us(&during, 0.99),
         (unsigned long long)without.count, latency_us(&without, 0.5), latency_us(&without, 0.99));
}

int main(int count, char **given) {
  const char *what = count > 2 ? given[1] : "";
  if (count == 4 && !strcmp(what, "sessions")) sessions(given[2], atol(given[3]));
  else if (count == 3 && !strcmp(what, "words")) words(given[2]);
  else if (count == 4 && !strcmp(what, "waiting")) waiting(given[2], atol(given[3]));
  else if (count == 5 && !strcmp(what, "check")) check(given[2], given[3], atof(given[4]));
  else {
    fprintf(stderr, "usage: growth sessions|words|waiting|check SOCKET ..\n");
    return 2;
  }
  return 0;
}
