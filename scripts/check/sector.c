/* A preload for a file with a bad sector: a read of the file BAD_FILE that begins in the bytes from BAD_BEGIN up to BAD_END fails with
   EIO, and one that begins before them gives those before them, as the kernel's reads of a disk that can't read some do. */
#define _GNU_SOURCE
#include <dlfcn.h>
#include <errno.h>
#include <limits.h>
#include <stdio.h>
#include <stdlib.h>
#include <string.h>
#include <sys/types.h>
#include <sys/uio.h>
#include <unistd.h>

/* How many of these bytes can be read, or -1 if the first can't. */
static ssize_t readable(int file, off_t at, size_t count) {
  char link[64], path[PATH_MAX];
  const char *bad = getenv("BAD_FILE");
  snprintf(link, sizeof link, "/proc/self/fd/%d", file);
  ssize_t length = bad ? readlink(link, path, sizeof path - 1) : -1;
  if (length < 0) return (ssize_t)count;
  path[length] = 0;
  off_t begin = atol(getenv("BAD_BEGIN")), end = atol(getenv("BAD_END"));
  if (strcmp(path, bad) != 0 || at >= end || at + (off_t)count <= begin) return (ssize_t)count;
  if (at < begin) return begin - at;
  errno = EIO;
  return -1;
}

ssize_t pread64(int file, void *to, size_t count, off64_t at) {
  ssize_t (*real)(int, void *, size_t, off64_t) = dlsym(RTLD_NEXT, "pread64");
  ssize_t found = readable(file, at, count);
  return found < 0 ? -1 : real(file, to, (size_t)found, at);
}

ssize_t pread(int file, void *to, size_t count, off_t at) { return pread64(file, to, count, at); }

ssize_t read(int file, void *to, size_t count) {
  ssize_t (*real)(int, void *, size_t) = dlsym(RTLD_NEXT, "read");
  ssize_t found = readable(file, lseek(file, 0, SEEK_CUR), count);
  return found < 0 ? -1 : real(file, to, (size_t)found);
}

ssize_t preadv64(int file, const struct iovec *to, int count, off64_t at) {
  ssize_t (*real)(int, const struct iovec *, int, off64_t) = dlsym(RTLD_NEXT, "preadv64");
  ssize_t found = readable(file, at, to[0].iov_len);
  struct iovec part = {to[0].iov_base, found < 0 ? 0 : (size_t)found};
  return found < 0 ? -1 : real(file, count == 1 ? &part : to, count, at);
}
