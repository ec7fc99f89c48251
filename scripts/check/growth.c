/* A preload that holds a thread of a server in which a table grows: the next realloc, after the file GROWTH_HOLD is created, of
   a thread that has sent something. The file GROWTH_MARK is created then; the thread goes on once it is removed, after a minute
   at the latest. */
#define _GNU_SOURCE
#include <dlfcn.h>
#include <fcntl.h>
#include <stddef.h>
#include <stdlib.h>
#include <sys/socket.h>
#include <sys/types.h>
#include <unistd.h>

extern void *__libc_realloc(void *, size_t);

static const char *hold, *mark;
static _Thread_local int has_sent;

__attribute__((constructor)) static void begin(void) {
  hold = getenv("GROWTH_HOLD");
  mark = getenv("GROWTH_MARK");
}

ssize_t send(int file, const void *bytes, size_t size, int flags) {
  typedef ssize_t (*sender)(int, const void *, size_t, int);
  static sender real;
  if (!real) real = (sender)dlsym(RTLD_NEXT, "send");
  has_sent = 1;
  return real(file, bytes, size, flags);
}

void *realloc(void *old, size_t size) {
  if (has_sent && hold && unlink(hold) == 0) {
    close(open(mark, O_CREAT | O_WRONLY, 0644));
    for (int turn = 0; turn < 60000 && access(mark, F_OK) == 0; turn++) usleep(1000);
  }
  return __libc_realloc(old, size);
}
