/* A preload that records what a program does to the files of one folder, and to the connections that it accepts.

   The file that RECORD names gets a line for each call, `CALL FILE NUMBER..`, with `= ERROR` where it failed, and the file
   RECORD.bytes gets what was written, received and sent, in order. The folder is RECORD's; its files are named by their paths
   within it, the folder itself is `.`, and connections are `1`, `2` and so on. A line is written once its call has returned,
   but a send's line before the call, since the receiver may act at once.

   With TURN, HOW decides the call of that number, counted from 1 over the calls that change a file: the process is killed
   `before` it, at `half` of its bytes or `after` it; or the call fails with EIO, at once (`fails`) or after half of its
   bytes (`short`). */
#define _GNU_SOURCE
#include <dlfcn.h>
#include <errno.h>
#include <fcntl.h>
#include <pthread.h>
#include <signal.h>
#include <stdarg.h>
#include <stdio.h>
#include <stdlib.h>
#include <string.h>
#include <sys/socket.h>
#include <sys/stat.h>
#include <sys/syscall.h>
#include <sys/types.h>
#include <unistd.h>

#define FILES 1024

static pthread_mutex_t lock = PTHREAD_MUTEX_INITIALIZER;
static char names[FILES][256];
static char folder[256];
static size_t folder_length;
static int lines = -1, bytes = -1, accepted;
static long turn, changes;
static char how;

#define REAL(call) \
  static __typeof__(&call) real; \
  if (!real) real = (__typeof__(&call))dlsym(RTLD_NEXT, #call)
/* (an offset has 64 bits on this machine whatever the name) */
#define SAME_AS(name) __attribute__((alias(name)))

typedef long (*caller)(long, ...);
static caller raw;

__attribute__((constructor)) static void begin(void) {
  const char *path = getenv("RECORD");
  raw = (caller)dlsym(RTLD_NEXT, "syscall");
  if (!path) return;
  char more[512];
  snprintf(folder, sizeof folder, "%s", path);
  *strrchr(folder, '/') = 0;
  folder_length = strlen(folder);
  snprintf(more, sizeof more, "%s.bytes", path);
  /* (far above the program's own descriptors) */
  int line_file = open(path, O_CREAT | O_WRONLY | O_APPEND | O_CLOEXEC, 0644);
  int byte_file = open(more, O_CREAT | O_WRONLY | O_APPEND | O_CLOEXEC, 0644);
  lines = fcntl(line_file, F_DUPFD_CLOEXEC, FILES - 2);
  bytes = fcntl(byte_file, F_DUPFD_CLOEXEC, FILES - 1);
  raw(SYS_close, line_file);
  raw(SYS_close, byte_file);
  if (getenv("TURN")) turn = atol(getenv("TURN"));
  if (getenv("HOW")) how = *getenv("HOW");
}

/* The name of a path within the folder, or NULL. */
static const char *within(const char *path) {
  if (lines < 0 || strncmp(path, folder, folder_length) != 0) return NULL;
  if (path[folder_length] == 0) return ".";
  return path[folder_length] == '/' ? path + folder_length + 1 : NULL;
}

static const char *named(int file) { return file >= 0 && file < FILES && names[file][0] ? names[file] : NULL; }

static void name(int file, const char *given) {
  if (file >= 0 && file < FILES) strncpy(names[file], given, sizeof names[file] - 1);
}

static void put(int file, const void *from, size_t size) {
  for (const char *at = from; size;) {
    long wrote = raw(SYS_write, file, at, size);
    if (wrote <= 0) abort();
    at += wrote;
    size -= (size_t)wrote;
  }
}

/* Records a call, with its bytes, if any, and how it ended. Keeps errno for the program. */
static void note(const void *from, size_t size, long result, const char *form, ...) {
  int error = errno;
  char line[512];
  va_list more;
  va_start(more, form);
  int length = vsnprintf(line, sizeof line - 32, form, more);
  va_end(more);
  length += snprintf(line + length, 32, result < 0 ? " = %d\n" : "\n", error);
  pthread_mutex_lock(&lock);
  if (size) put(bytes, from, size);
  put(lines, line, (size_t)length);
  pthread_mutex_unlock(&lock);
  errno = error;
}

static void end(void) {
  kill(getpid(), SIGKILL);
  for (;;) pause();
}

/* Counts a call that changes a file. Returns what happens to it, as the first letter of HOW, or 0 for nothing special. */
static char next(void) {
  pthread_mutex_lock(&lock);
  int found = ++changes == turn;
  pthread_mutex_unlock(&lock);
  if (found && how == 'b') end();
  return found ? how : 0;
}

/* Called after such a call. */
static void over(char way) {
  if (way == 'a' || way == 'h') end();
}

static int refused(void) {
  errno = EIO;
  return -1;
}

/* The result of such a call, if it is not a write. */
#define CAME(way, call) (way == 'f' || way == 's' ? refused() : (call))

int open(const char *path, int flags, ...) {
  REAL(open);
  va_list more;
  va_start(more, flags);
  mode_t mode = flags & O_CREAT ? va_arg(more, mode_t) : 0;
  va_end(more);
  const char *found = within(path);
  if (!found) return real(path, flags, mode);
  char way = flags & O_CREAT ? next() : 0;
  int file = CAME(way, real(path, flags, mode));
  name(file, found);
  note(NULL, 0, file, "open %s %d %o", found, flags & (O_ACCMODE | O_CREAT | O_EXCL | O_TRUNC | O_APPEND), flags & O_CREAT ? mode : 0);
  over(way);
  return file;
}

int open64(const char *path, int flags, ...) SAME_AS("open");

int close(int file) {
  REAL(close);
  if (file >= 0 && file < FILES) {
    if (lines >= 0 && file >= FILES - 2) return 0;
    names[file][0] = 0;
  }
  return real(file);
}

/* A call that changes what is in the folder, if `mine` holds: it is counted, and noted in that form. */
#define CHANGE(call, parameters, given, mine, ...) \
  int call parameters { \
    REAL(call); \
    if (!(mine)) return real given; \
    char way = next(); \
    int result = CAME(way, real given); \
    note(NULL, 0, result, __VA_ARGS__); \
    over(way); \
    return result; \
  }

CHANGE(fsync, (int file), (file), named(file), "fsync %s", named(file))
CHANGE(fdatasync, (int file), (file), named(file), "fdatasync %s", named(file))
CHANGE(ftruncate, (int file, off_t size), (file, size), named(file), "ftruncate %s %ld", named(file), (long)size)
CHANGE(fchmod, (int file, mode_t mode), (file, mode), named(file), "fchmod %s %o", named(file), mode)
CHANGE(link, (const char *old, const char *made), (old, made),
       within(old) && within(made), "link %s %s", within(old), within(made))
CHANGE(linkat, (int at, const char *old, int to_at, const char *made, int flags), (at, old, to_at, made, flags),
       within(old) && within(made), "link %s %s", within(old), within(made))
CHANGE(rename, (const char *old, const char *made), (old, made),
       within(old) && within(made), "rename %s %s", within(old), within(made))
CHANGE(unlink, (const char *path), (path), within(path), "unlink %s", within(path))

/* How many bytes such a write writes. */
static size_t of(char way, size_t size) { return way == 'h' || way == 's' ? size / 2 : size; }

#define WRITES(call, parameters, given, ...) \
  ssize_t call parameters { \
    REAL(call); \
    char way = named(file) ? next() : 0; \
    ssize_t wrote = way == 'f' ? 0 : real given, count = wrote > 0 ? wrote : 0; \
    ssize_t result = way == 'f' || way == 's' ? refused() : wrote; \
    if (named(file)) note(from, (size_t)count, result, __VA_ARGS__, count); \
    over(way); \
    return result; \
  }

WRITES(write, (int file, const void *from, size_t size), (file, from, of(way, size)), "write %s %zd", named(file))
WRITES(pwrite, (int file, const void *from, size_t size, off_t at), (file, from, of(way, size), at),
       "pwrite %s %ld %zd", named(file), (long)at)
ssize_t pwrite64(int file, const void *from, size_t size, off_t at) SAME_AS("pwrite");

/* A call that changes nothing, noted in that form if `mine` holds. */
#define NOTED(kind, call, parameters, given, mine, ...) \
  kind call parameters { \
    REAL(call); \
    kind result = real given; \
    if (mine) note(NULL, 0, (long)result, __VA_ARGS__); \
    return result; \
  }

/* (the end of an open file is its size) */
NOTED(off_t, lseek, (int file, off_t to, int from), (file, to, from), named(file), "lseek %s", named(file))
NOTED(int, flock, (int file, int kind), (file, kind), named(file), "flock %s %d", named(file), kind)
NOTED(ssize_t, pread, (int file, void *to, size_t size, off_t at), (file, to, size, at),
      named(file), "pread %s %ld %zu", named(file), (long)at, size)
NOTED(int, statx, (int at, const char *path, int flags, unsigned mask, struct statx *to), (at, path, flags, mask, to),
      *path ? within(path) : named(at), "%s %s", *path ? "stat" : "fstat", *path ? within(path) : named(at))
ssize_t pread64(int file, void *to, size_t size, off_t at) SAME_AS("pread");

int posix_fadvise(int file, off_t at, off_t size, int advice) {
  REAL(posix_fadvise);
  const char *found = named(file);
  if (!found) return real(file, at, size, advice);
  char way = next();
  int result = way == 'f' || way == 's' ? EIO : real(file, at, size, advice);
  int before = errno;
  errno = result;
  note(NULL, 0, result ? -1 : 0, "fadvise %s %ld %ld %d", found, (long)at, (long)size, advice);
  errno = before;
  over(way);
  return result;
}

int fcntl(int file, int what, ...) {
  REAL(fcntl);
  va_list more;
  va_start(more, what);
  void *given = va_arg(more, void *);
  va_end(more);
  const char *found = named(file);
  int result = real(file, what, given);
  if (found && result > file && (what == F_DUPFD || what == F_DUPFD_CLOEXEC)) name(result, found);
  return result;
}

/* The path of an open file is the target of its descriptor's link. */
ssize_t readlink(const char *path, char *to, size_t size) {
  REAL(readlink);
  int file;
  const char *found = sscanf(path, "/proc/self/fd/%d", &file) == 1 ? named(file) : NULL;
  ssize_t count = real(path, to, size);
  if (found) note(NULL, 0, count, "readlink %s", found);
  return count;
}

int accept4(int file, struct sockaddr *from, socklen_t *size, int flags) {
  REAL(accept4);
  int made = real(file, from, size, flags);
  if (made >= 0 && lines >= 0) {
    char number[16];
    snprintf(number, sizeof number, "%d", __atomic_add_fetch(&accepted, 1, __ATOMIC_SEQ_CST));
    name(made, number);
  }
  return made;
}

ssize_t send(int file, const void *from, size_t size, int flags) {
  REAL(send);
  const char *found = named(file);
  if (found) note(from, size, 0, "send %s %zu", found, size);
  return real(file, from, size, flags);
}

ssize_t recv(int file, void *to, size_t size, int flags) {
  REAL(recv);
  char found[128] = "";
  if (named(file)) snprintf(found, sizeof found, "%s", named(file));
  ssize_t got = real(file, to, size, flags);
  if (*found) note(to, got > 0 ? (size_t)got : 0, 0, "recv %s %zd", found, got > 0 ? got : 0);
  return got;
}

/* A system call made by its number: all are recorded except futex waits. */
long syscall(long number, ...) {
  if (!raw) raw = (caller)dlsym(RTLD_NEXT, "syscall");
  long given[6];
  va_list more;
  va_start(more, number);
  for (int at = 0; at < 6; at++) given[at] = va_arg(more, long);
  va_end(more);
  long result = raw(number, given[0], given[1], given[2], given[3], given[4], given[5]);
  if (lines >= 0 && number != SYS_futex) note(NULL, 0, result, "syscall - %ld", number);
  return result;
}
