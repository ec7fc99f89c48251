/* A preload that refuses the allocation of number REFUSE, counted from 1 over malloc, calloc, realloc and the aligned
   ones. It then creates the file REFUSED. */
#include <errno.h>
#include <fcntl.h>
#include <stddef.h>
#include <stdlib.h>
#include <unistd.h>

extern void *__libc_malloc(size_t);
extern void *__libc_calloc(size_t, size_t);
extern void *__libc_realloc(void *, size_t);
extern void *__libc_memalign(size_t, size_t);

static long left;
static const char *mark;

__attribute__((constructor)) static void begin(void) {
  const char *number = getenv("REFUSE");
  mark = getenv("REFUSED");
  left = number ? atol(number) : 0;
}

static int refused(void) {
  if (left == 0 || --left > 0) return 0;
  if (mark) close(open(mark, O_CREAT | O_WRONLY, 0644));
  errno = ENOMEM;
  return 1;
}

void *malloc(size_t size) { return refused() ? NULL : __libc_malloc(size); }
void *calloc(size_t count, size_t size) { return refused() ? NULL : __libc_calloc(count, size); }
void *realloc(void *old, size_t size) { return refused() ? NULL : __libc_realloc(old, size); }
void *memalign(size_t align, size_t size) { return refused() ? NULL : __libc_memalign(align, size); }
void *aligned_alloc(size_t align, size_t size) { return refused() ? NULL : __libc_memalign(align, size); }
int posix_memalign(void **at, size_t align, size_t size) {
  void *got = refused() ? NULL : __libc_memalign(align, size);
  if (!got) return ENOMEM;
  *at = got;
  return 0;
}
