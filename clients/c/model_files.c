/* The session files of the model's clients: in memory, since a search opens millions. Each client has two names, of its
   file and of the one that is to replace it. What was written is there after a kill. */
#define _DEFAULT_SOURCE
#define _POSIX_C_SOURCE 200809L
#include "model_search.h"

#include <errno.h>
#include <fcntl.h>
#include <stdlib.h>
#include <string.h>
#include <sys/stat.h>

enum { FIRST_FILE = 200000, FILES = 4, FILE_BYTES = 65536, NOTHING_MUCH = 199999 }; /* the last: a folder, or a source of numbers */

typedef struct stored {
  bool is_open;
  size_t size;
  uint8_t bytes[FILE_BYTES];
} stored;
static struct own {
  int names[2];            /* which file has them; -1: none */
  unsigned drawn;
  stored files[FILES];
} all[MODEL_CLIENTS];

void files_begin(void) {
  for (struct own *at = all; at < all + MODEL_CLIENTS; at++) {
    at->names[0] = at->names[1] = -1;
    at->drawn = 0;
    for (int i = 0; i < FILES; i++) at->files[i].is_open = false;
  }
}

void files_end(int client) {
  for (int i = 0; i < FILES; i++) all[client].files[i].is_open = false;
}

bool files_are_closed(int client) {
  for (int i = 0; i < FILES; i++)
    if (all[client].files[i].is_open) return false;
  return true;
}

static struct own *own(void) { return &all[model_client()]; }

static stored *file_of(int descriptor) {
  int at = descriptor - FIRST_FILE;
  return at >= 0 && at < FILES ? &own()->files[at] : NULL;
}

bool files_close(int descriptor) {
  stored *file = file_of(descriptor);
  if (file) file->is_open = false;
  return file || descriptor == NOTHING_MUCH;
}

/* Which of its names a client means; -1 for another path. */
static int name_of(const char *path) {
  const char *name = model_file();
  size_t length = strlen(name);
  if (strncmp(path, name, length)) return -1;
  return path[length] ? 1 : 0;
}

int __wrap_open(const char *path, int flags, ...);
int __wrap_open(const char *path, int flags, ...) {
  int name = name_of(path), at = 0;
  if (name < 0) return NOTHING_MUCH;
  if (own()->names[name] >= 0) return own()->files[own()->names[name]].is_open = true, FIRST_FILE + own()->names[name];
  if (!(flags & O_CREAT)) return errno = ENOENT, -1;
  while (own()->files[at].is_open || at == own()->names[0] || at == own()->names[1]) at++;
  model_has_room(at < FILES, "files");
  own()->names[name] = at;
  own()->files[at].is_open = true;
  own()->files[at].size = 0;
  return FIRST_FILE + at;
}

ssize_t __wrap_write(int descriptor, const void *bytes, size_t count);
ssize_t __wrap_write(int descriptor, const void *bytes, size_t count) {
  stored *file = file_of(descriptor);
  model_has_room(file->size + count <= FILE_BYTES, "a session file");
  memcpy(file->bytes + file->size, bytes, count);
  file->size += count;
  return (ssize_t)count;
}

ssize_t __wrap_pread(int descriptor, void *bytes, size_t count, off_t at);
ssize_t __wrap_pread(int descriptor, void *bytes, size_t count, off_t at) {
  const stored *file = file_of(descriptor);
  size_t left = file->size - (size_t)at, size = count < left ? count : left;
  memcpy(bytes, file->bytes + at, size);
  return (ssize_t)size;
}

/* Only a new session's number is read so. */
ssize_t __wrap_read(int descriptor, void *bytes, size_t count);
ssize_t __wrap_read(int descriptor, void *bytes, size_t count) {
  (void)descriptor;
  memset(bytes, 0, count);
  ((uint8_t *)bytes)[count - 1] = (uint8_t)(16u * (unsigned)model_client() + ++own()->drawn);
  return (ssize_t)count;
}

static int tell_about(const stored *file, struct stat *about) {
  *about = (struct stat){.st_mode = S_IFREG, .st_nlink = 1, .st_size = (off_t)file->size};
  about->st_ino = (ino_t)(file - own()->files) + 1;
  return 0;
}

int __wrap_fstat(int descriptor, struct stat *about);
int __wrap_fstat(int descriptor, struct stat *about) { return tell_about(file_of(descriptor), about); }
int __wrap_stat(const char *path, struct stat *about);
int __wrap_stat(const char *path, struct stat *about) {
  return tell_about(&own()->files[own()->names[name_of(path)]], about);
}

int __wrap_rename(const char *from, const char *to);
int __wrap_rename(const char *from, const char *to) {
  own()->names[name_of(to)] = own()->names[name_of(from)];
  own()->names[name_of(from)] = -1;
  return 0;
}

int __wrap_unlink(const char *path);
int __wrap_unlink(const char *path) { return own()->names[name_of(path)] = -1, 0; }
int __wrap_ftruncate(int descriptor, off_t size);
int __wrap_ftruncate(int descriptor, off_t size) { return file_of(descriptor)->size = (size_t)size, 0; }
off_t __wrap_lseek(int descriptor, off_t at, int whence);
off_t __wrap_lseek(int descriptor, off_t at, int whence) { return (void)descriptor, (void)whence, at; }
int __wrap_flock(int descriptor, int what);
int __wrap_flock(int descriptor, int what) { return (void)descriptor, (void)what, 0; }
int __wrap_fsync(int descriptor);
int __wrap_fsync(int descriptor) { return (void)descriptor, 0; }
int __wrap_fdatasync(int descriptor);
int __wrap_fdatasync(int descriptor) { return (void)descriptor, 0; }
char *__wrap_realpath(const char *path, char *found);
char *__wrap_realpath(const char *path, char *found) {
  (void)found;
  char *copy = malloc(strlen(path) + 1);
  return copy ? strcpy(copy, path) : NULL;
}
