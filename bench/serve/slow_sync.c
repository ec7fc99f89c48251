/* A preload: each fsync and fdatasync takes SLOW_SYNC_US microseconds longer, as on a disk whose flush is slow. */
#define _GNU_SOURCE
#include <dlfcn.h>
#include <stdlib.h>
#include <sys/prctl.h>
#include <time.h>

static long slower;
static int (*real_fsync)(int), (*real_fdatasync)(int);

__attribute__((constructor)) static void begin(void) {
  const char *text = getenv("SLOW_SYNC_US");
  slower = text ? atol(text) : 0;
  *(void **)&real_fsync = dlsym(RTLD_NEXT, "fsync");
  *(void **)&real_fdatasync = dlsym(RTLD_NEXT, "fdatasync");
  prctl(PR_SET_TIMERSLACK, 1000, 0, 0, 0); /* for all threads: makes a short sleep as short as requested */
}

static int slowly(int (*real)(int), int descriptor) {
  int result = real(descriptor);
  struct timespec time = {slower / 1000000, slower % 1000000 * 1000};
  if (slower > 0) nanosleep(&time, NULL);
  return result;
}

int fsync(int descriptor) { return slowly(real_fsync, descriptor); }
int fdatasync(int descriptor) { return slowly(real_fdatasync, descriptor); }
