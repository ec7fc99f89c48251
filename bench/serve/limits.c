/* Limits on the speed of any server of this design, in one line of JSON:
     limits group FILE RECORDS SECONDS    a group of the journal: a write, fdatasync, its gate's write, fdatasync
     limits sync FILE RECORDS SECONDS     one write and one fdatasync
     limits watch FILE SECONDS            the processor time of the checks after each sync: an open file's size and path
     limits relay SOCKET SECONDS          a frame from a client through a reading, a committing and a writing thread,
                                          and back, with nothing in between */
#define _GNU_SOURCE
#include "measure.h"

#include <fcntl.h>
#include <pthread.h>
#include <signal.h>
#include <stdbool.h>
#include <stdio.h>
#include <stdlib.h>
#include <string.h>
#include <sys/socket.h>
#include <sys/stat.h>
#include <sys/un.h>
#include <sys/wait.h>
#include <unistd.h>

enum { DEVICE = 4202496, JOURNAL = 1052672, AREA = 1048576, RECORD = 80, FRAME = 34, REPLY = 26 };

static latencies noted;

static void give_up(const char *what) {
  perror(what);
  exit(1);
}

static void print(const char *what, long records) {
  printf("{\"limit\": \"%s\", \"records\": %ld, \"p50_us\": %.2f, \"p99_us\": %.2f, \"count\": %llu}\n", what, records,
         latency_us(&noted, 0.5), latency_us(&noted, 0.99), (unsigned long long)noted.count);
}

/* ---- the disk ---- */

static void write_at(int file, const void *bytes, size_t count, long at) {
  if (pwrite(file, bytes, count, at) != (ssize_t)count || fdatasync(file)) give_up("write");
}

/* Makes a file of a store's size, written and synced, so that a later fdatasync has no metadata to write. */
static int make_file(const char *path) {
  static char zeros[65536];
  int file = open(path, O_RDWR | O_CREAT | O_TRUNC, 0600);
  if (file < 0) give_up("open");
  for (long at = 0; at < DEVICE; at += (long)sizeof zeros) {
    size_t size = DEVICE - at < (long)sizeof zeros ? (size_t)(DEVICE - at) : sizeof zeros;
    if (pwrite(file, zeros, size, at) != (ssize_t)size) give_up("write");
  }
  if (fsync(file)) give_up("sync");
  return file;
}

static void disk(const char *path, long records, uint64_t end, bool two) {
  int file = make_file(path);
  size_t payload = (size_t)(records * RECORD);
  char *bytes = calloc(1, payload + 5), gate = 1;
  long at = 0;
  for (uint64_t time = now_ns(), next; time < end; time = next) {
    if (at + 6 + (long)payload > AREA) at = 0;
    write_at(file, bytes, payload + 5, JOURNAL + at + 1);
    if (two) write_at(file, &gate, 1, JOURNAL + at);
    at += (long)payload + 5;
    next = now_ns();
    note_latency(&noted, next - time);
  }
  close(file);
  unlink(path);
  print(two ? "group" : "sync", records);
}

static uint64_t processor_ns(void) {
  struct timespec time;
  clock_gettime(CLOCK_THREAD_CPUTIME_ID, &time);
  return (uint64_t)time.tv_sec * 1000000000u + (uint64_t)time.tv_nsec;
}

static void watch(const char *path, uint64_t end) {
  enum { ROUND = 1000 };
  int file = make_file(path);
  char link[32], found[4096];
  snprintf(link, sizeof link, "/proc/self/fd/%d", file);
  while (now_ns() < end) {
    uint64_t began = processor_ns();
    for (int k = 0; k < ROUND; k++) {
      if (lseek(file, 0, SEEK_END) != DEVICE) give_up("lseek");
      if (readlink(link, found, sizeof found) < 0) give_up("readlink");
    }
    note_latency(&noted, (processor_ns() - began) / ROUND);
  }
  close(file);
  unlink(path);
  print("watch", 0);
}

/* ---- the threads ---- */

static pthread_mutex_t lock = PTHREAD_MUTEX_INITIALIZER;
static pthread_cond_t work = PTHREAD_COND_INITIALIZER, mail = PTHREAD_COND_INITIALIZER;
static int to_commit, to_write, line;

static bool read_all(int from, char *bytes, size_t count) {
  while (count > 0) {
    ssize_t size = read(from, bytes, count);
    if (size <= 0) return false;
    bytes += size;
    count -= (size_t)size;
  }
  return true;
}

static void *reading(void *unused) {
  char frame[FRAME];
  while (read_all(line, frame, FRAME)) {
    pthread_mutex_lock(&lock);
    to_commit++;
    pthread_mutex_unlock(&lock);
    pthread_cond_signal(&work);
  }
  _exit(0);
  return unused;
}

static void *committing(void *unused) {
  for (;;) {
    pthread_mutex_lock(&lock);
    while (to_commit == 0) pthread_cond_wait(&work, &lock);
    int batch = to_commit;
    to_commit = 0;
    pthread_mutex_unlock(&lock); /* the group would be stored here */
    pthread_mutex_lock(&lock);
    to_write += batch;
    pthread_mutex_unlock(&lock);
    pthread_cond_signal(&mail);
  }
  return unused;
}

static void serve(int listener) {
  char reply[REPLY] = {0};
  pthread_t threads[2];
  line = accept(listener, NULL, NULL);
  bool made = line >= 0 && pthread_create(&threads[0], NULL, reading, NULL) == 0;
  if (!made || pthread_create(&threads[1], NULL, committing, NULL)) give_up("relay");
  for (;;) {
    pthread_mutex_lock(&lock);
    while (to_write == 0) pthread_cond_wait(&mail, &lock);
    to_write--;
    pthread_mutex_unlock(&lock);
    if (write(line, reply, REPLY) != REPLY) _exit(0);
  }
}

static void relay(const char *path, uint64_t end) {
  struct sockaddr_un address = {.sun_family = AF_UNIX};
  snprintf(address.sun_path, sizeof address.sun_path, "%s", path);
  unlink(path);
  int listener = socket(AF_UNIX, SOCK_STREAM, 0), client = socket(AF_UNIX, SOCK_STREAM, 0);
  if (bind(listener, (struct sockaddr *)&address, sizeof address) || listen(listener, 1)) give_up("socket");
  pid_t server = fork();
  if (server == 0) serve(listener);
  if (connect(client, (struct sockaddr *)&address, sizeof address)) give_up("connect");
  char bytes[FRAME] = {0};
  for (uint64_t time = now_ns(), next; time < end; time = next) {
    if (write(client, bytes, FRAME) != FRAME || !read_all(client, bytes, REPLY)) give_up("relay");
    next = now_ns();
    note_latency(&noted, next - time);
  }
  kill(server, SIGTERM);
  waitpid(server, NULL, 0);
  unlink(path);
  print("relay", 1);
}

int main(int count, char **words) {
  double seconds = count > 3 ? atof(words[count - 1]) : 0;
  uint64_t end = now_ns() + (uint64_t)(seconds * 1e9);
  signal(SIGPIPE, SIG_IGN);
  if (count == 5 && !strcmp(words[1], "group")) disk(words[2], atol(words[3]), end, true);
  else if (count == 5 && !strcmp(words[1], "sync")) disk(words[2], atol(words[3]), end, false);
  else if (count == 4 && !strcmp(words[1], "watch")) watch(words[2], end);
  else if (count == 4 && !strcmp(words[1], "relay")) relay(words[2], end);
  else {
    fprintf(stderr, "usage: limits group|sync FILE RECORDS SECONDS, limits watch FILE SECONDS, or limits relay SOCKET SECONDS\n");
    return 2;
  }
  return 0;
}
