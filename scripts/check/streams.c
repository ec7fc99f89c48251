/* A preload for one kind of call, named by CALL: read (of stream 0), write (to stream 1), recv, send, listen, flock or
   fdatasync (of any file). SHORT is the maximum number of bytes for each call; with BREAK every second call is interrupted. The call of
   number FAIL, counted from 1, fails with EIO. The next call after the file HOLD is created is held: a recv after its bytes
   came, the others before they begin. The file MARK is created when a call fails or is held; a held call goes on once MARK
   is removed. */
#define _GNU_SOURCE
#include <dlfcn.h>
#include <errno.h>
#include <fcntl.h>
#include <stdatomic.h>
#include <stdlib.h>
#include <string.h>
#include <sys/socket.h>
#include <sys/types.h>
#include <unistd.h>

static const char *call = "", *mark, *hold;
static size_t most;
static long fail, breaks;
static atomic_long count;

static long number(const char *name) {
  const char *text = getenv(name);
  return text ? atol(text) : 0;
}

__attribute__((constructor)) static void begin(void) {
  if (getenv("CALL")) call = getenv("CALL");
  mark = getenv("MARK");
  most = (size_t)number("SHORT");
  fail = number("FAIL");
  breaks = number("BREAK");
  hold = getenv("HOLD");
}

static void make_mark(void) { close(open(mark, O_CREAT | O_WRONLY, 0644)); }

static int is_broken(const char *kind) {
  static atomic_long calls;
  if (!breaks || strcmp(kind, call) != 0 || ++calls % 2 == 0) return 0;
  errno = EINTR;
  return 1;
}

/* Whether this call fails. Holds the call if asked, for a minute at most. */
static int fails(const char *kind) {
  if (strcmp(kind, call) != 0) return 0;
  if (++count == fail) {
    make_mark();
    errno = EIO;
    return 1;
  }
  if (hold && access(hold, F_OK) == 0 && unlink(hold) == 0) {
    make_mark();
    for (int turn = 0; turn < 60000 && access(mark, F_OK) == 0; turn++) usleep(1000);
  }
  return 0;
}

static size_t shorter(const char *kind, size_t size) {
  return most && size > most && strcmp(kind, call) == 0 ? most : size;
}

#define REAL(call) \
  static __typeof__(&call) real; \
  if (!real) real = (__typeof__(&call))dlsym(RTLD_NEXT, #call)

ssize_t read(int file, void *bytes, size_t size) {
  REAL(read);
  if (file != 0) return real(file, bytes, size);
  return is_broken("read") || fails("read") ? -1 : real(file, bytes, shorter("read", size));
}

ssize_t write(int file, const void *bytes, size_t size) {
  REAL(write);
  if (file != 1) return real(file, bytes, size);
  return is_broken("write") || fails("write") ? -1 : real(file, bytes, shorter("write", size));
}

ssize_t recv(int file, void *bytes, size_t size, int flags) {
  REAL(recv);
  if (is_broken("recv")) return -1;
  ssize_t got = real(file, bytes, shorter("recv", size), flags);
  return got >= 0 && fails("recv") ? -1 : got;
}

ssize_t send(int file, const void *bytes, size_t size, int flags) {
  REAL(send);
  return is_broken("send") || fails("send") ? -1 : real(file, bytes, shorter("send", size), flags);
}

/* A call that is only held or failed. */
#define HELD(call, parameters, given) \
  int call parameters { \
    REAL(call); \
    return fails(#call) ? -1 : real given; \
  }

HELD(fdatasync, (int file), (file))
HELD(flock, (int file, int how), (file, how))
HELD(listen, (int file, int waiting), (file, waiting))
