/* A preload that acts like Linux's page cache when a sync of its device fails: fdatasync number FAIL_SYNC, counted from 1,
   fails with EIO; the pages written since the sync before are not on the device, yet count as written. Reads return them
   until the system drops its pages (POSIX_FADV_DONTNEED): then the old bytes come back. A page that is written again is
   whole on the device after the next sync.

   STORE is the path of the file. The file LOST keeps what the device has in place of the lost pages, for the next process:
   the number of each page in 8 bytes, and its bytes. */
#define _GNU_SOURCE
#include <dlfcn.h>
#include <errno.h>
#include <fcntl.h>
#include <pthread.h>
#include <stdarg.h>
#include <stdint.h>
#include <stdlib.h>
#include <string.h>
#include <sys/types.h>
#include <unistd.h>

#define PAGE 4096
#define PAGES 1026

/* Of each page that may not be on the device, `olds` has the device's bytes. */
enum state { ON_DEVICE, DIRTY, LOST };

static pthread_mutex_t lock = PTHREAD_MUTEX_INITIALIZER;
static enum state states[PAGES];
static unsigned char olds[PAGES][PAGE];
static const char *store, *kept;
static int store_file = -1;
static long syncs;

#define REAL(call) \
  static __typeof__(&call) real; \
  if (!real) real = (__typeof__(&call))dlsym(RTLD_NEXT, #call)

static void fail(void) {
  static const char text[] = "lose.c: no file of pages\n";
  if (write(2, text, sizeof text - 1)) abort();
  abort();
}

__attribute__((constructor)) static void begin(void) {
  const char *number = getenv("FAIL_SYNC");
  store = getenv("STORE");
  kept = getenv("LOST");
  syncs = number ? atol(number) : 0;
  if (!store || !kept) return;
  int file = open(kept, O_RDONLY | O_CLOEXEC | O_CREAT, 0644);
  uint64_t page;
  while (read(file, &page, 8) == 8) {
    if (page >= PAGES || read(file, olds[page], PAGE) != PAGE) fail();
    states[page] = LOST;
  }
  close(file);
}

static void keep(void) {
  int file = open(kept, O_WRONLY | O_CREAT | O_TRUNC | O_CLOEXEC, 0644);
  for (uint64_t page = 0; page < PAGES; page++) {
    if (states[page] == LOST && (write(file, &page, 8) != 8 || write(file, olds[page], PAGE) != PAGE)) fail();
  }
  close(file);
}

int open(const char *path, int flags, ...) {
  REAL(open);
  va_list more;
  va_start(more, flags);
  mode_t mode = flags & O_CREAT ? va_arg(more, mode_t) : 0;
  va_end(more);
  int file = real(path, flags, mode);
  if (file >= 0 && store && strcmp(path, store) == 0) store_file = file;
  return file;
}

ssize_t pwrite(int file, const void *bytes, size_t size, off_t at) {
  REAL(pwrite);
  if (file != store_file || !size) return real(file, bytes, size, at);
  pthread_mutex_lock(&lock);
  int had_lost = 0;
  for (off_t page = at / PAGE; page <= (at + (off_t)size - 1) / PAGE && page < PAGES; page++) {
    if (states[page] == ON_DEVICE && pread(file, olds[page], PAGE, page * PAGE) != PAGE) fail();
    had_lost |= states[page] == LOST;
    states[page] = DIRTY;
  }
  if (had_lost) keep();
  ssize_t wrote = real(file, bytes, size, at);
  pthread_mutex_unlock(&lock);
  return wrote;
}

/* (an offset has 64 bits on this machine whatever the name) */
ssize_t pwrite64(int file, const void *bytes, size_t size, off_t at) __attribute__((alias("pwrite")));

int fdatasync(int file) {
  REAL(fdatasync);
  if (file != store_file) return real(file);
  pthread_mutex_lock(&lock);
  int fails = syncs && --syncs == 0;
  int result = fails ? -1 : real(file);
  for (int page = 0; page < PAGES; page++) {
    if (states[page] == DIRTY && (fails || result == 0)) states[page] = fails ? LOST : ON_DEVICE;
  }
  if (fails) keep();
  pthread_mutex_unlock(&lock);
  if (fails) errno = EIO;
  return result;
}

int posix_fadvise(int file, off_t at, off_t size, int advice) {
  REAL(posix_fadvise);
  static __typeof__(&pwrite) put;
  if (!put) put = (__typeof__(&pwrite))dlsym(RTLD_NEXT, "pwrite");
  if (file == store_file && advice == POSIX_FADV_DONTNEED) {
    pthread_mutex_lock(&lock);
    for (off_t page = at / PAGE; page < PAGES && (!size || (page + 1) * PAGE <= at + size); page++) {
      if (states[page] != LOST) continue;
      if (put(file, olds[page], PAGE, page * PAGE) != PAGE) fail();
      states[page] = ON_DEVICE;
    }
    keep();
    pthread_mutex_unlock(&lock);
  }
  return real(file, at, size, advice);
}
