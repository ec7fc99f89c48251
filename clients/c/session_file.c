/* The session file: opening and locking it, and what is written to it. Blocks are appended; once the file has grown it
   is rewritten under another name and renamed. */
#define _DEFAULT_SOURCE
#define _POSIX_C_SOURCE 200809L
#include "client.h"

#include <errno.h>
#include <fcntl.h>
#include <stdio.h>
#include <stdlib.h>
#include <string.h>
#include <sys/file.h>
#include <sys/stat.h>
#include <unistd.h>

/* A smaller file is never rewritten. */
#ifndef FEMEM_COMPACT_FROM
#define FEMEM_COMPACT_FROM 65536
#endif

/* The blocks of a rewritten file have about as many bytes. */
enum { BLOCK = 16384 };

/* ---- writing ---- */

static bool write_bytes(session_file *file, const uint8_t *bytes, size_t count) {
  file->size += count;
  while (count > 0) {
    ssize_t size = write(file->descriptor, bytes, count);
    if (size < 0 && errno == EINTR) continue;
    if (size < 0) return false;
    bytes += size;
    count -= (size_t)size;
  }
  return true;
}

static bool write_block(session_file *file) {
  size_t count = session_end_block(file, file->floor, file->asked, file->next);
  return write_bytes(file, file->block, count);
}

/* Ends a block of a rewritten file once it is long enough, and makes room for the next record. */
static bool next_record(session_file *file, const kept_key *key) {
  return (file->payload < BLOCK || write_block(file)) && session_room(file, key ? key->length : 0);
}

/* Writes the whole content to the file's new descriptor. */
static bool write_image(session_file *file) {
  uint8_t header[SESSION_HEADER];
  session_put_header(file, header);
  file->size = file->payload = 0;
  if (!write_bytes(file, header, sizeof header)) return false;
  for (unsigned bucket = 0; bucket < SESSION_BUCKETS; bucket++)
    for (const kept_key *kept = file->keys[bucket]; kept; kept = kept->next) {
      if (!kept->is_answered) continue;
      if (!next_record(file, kept)) return false;
      session_put_kept(file, kept);
    }
  for (uint64_t wire = file->asked; wire < file->next; wire++) {
    const kept_request *kept = session_place(file, wire);
    if (kept->wire != wire) continue;
    if (!next_record(file, kept->key)) return false;
    session_put_asked(file, kept);
  }
  if (!next_record(file, NULL)) return false;
  if (file->leaving) session_put_leaving(file);
  return write_block(file);
}

static bool sync_folder(const char *path) {
  char *folder = strdup(path);
  if (!folder) return false;
  char *slash = strrchr(folder, '/');
  if (slash) slash[slash == folder] = 0;
  int descriptor = open(slash ? folder : ".", O_RDONLY | O_CLOEXEC);
  bool synced = descriptor >= 0 && fsync(descriptor) == 0;
  if (descriptor >= 0) close(descriptor);
  free(folder);
  return synced;
}

/* Makes FILE.new, in place of what is there: a link is not followed. */
static int make_new(const char *path) {
  if (unlink(path) != 0 && errno != ENOENT) return -1;
  return open(path, O_RDWR | O_CREAT | O_EXCL | O_NOFOLLOW | O_CLOEXEC, 0600);
}

/* Rewrites the file. A process that opened the old one meanwhile finds another file at the path. */
static bool write_anew(session_file *file) {
  FEMEM_POINT("before the compaction");
  size_t length = strlen(file->path);
  char *path = malloc(length + 5);
  if (!path) return false;
  memcpy(path, file->path, length);
  memcpy(path + length, ".new", 5);
  int old = file->descriptor, made = make_new(path);
  bool done = made >= 0 && flock(made, LOCK_EX | LOCK_NB) == 0;
  if (made >= 0) file->descriptor = made;
  done = done && write_image(file) && fsync(made) == 0;
  if (done) FEMEM_POINT("compacted, beside the file");
  done = done && rename(path, file->path) == 0;
  if (made >= 0) close(done ? old : made);
  if (!done) file->descriptor = old;
  if (done) FEMEM_POINT("compacted");
  done = done && sync_folder(file->path);
  free(path);
  file->compacted = file->size;
  file->failed = !done;
  return done;
}

static bool append(session_file *file) {
  FEMEM_POINT("before the write");
  if (!write_block(file)) return false;
  FEMEM_POINT("written");
  return fdatasync(file->descriptor) == 0;
}

/* Whether it got a hard link since it was opened. In a new file's place, that would be a copy that nobody locks. */
static bool has_other_name(const session_file *file) {
  struct stat own;
  return fstat(file->descriptor, &own) == 0 && own.st_nlink > 1;
}

bool session_file_sync(session_file *file, uint64_t floor, uint64_t asked, uint64_t next) {
  if (file->failed) return errno = EIO, false;
  /* A settle needs a block of its own if nothing else does. */
  if (file->payload == 0 && (file->next == 0 || asked <= file->asked)) return true;
  file->floor = floor;
  file->asked = asked;
  file->next = next;
  bool grown = file->size + file->payload > FEMEM_COMPACT_FROM && file->size > 3 * file->compacted;
  file->failed = !(grown && !has_other_name(file) ? write_anew(file) : append(file));
  file->payload = 0;
  if (!file->failed) FEMEM_POINT("synced");
  return !file->failed;
}

/* ---- adding records ---- */

bool session_file_ask(session_file *file, uint64_t wire, uint64_t number, const femem_request *request,
                      const char *key, bool ends) {
  size_t length = key ? strlen(key) : 0;
  kept_request asked = {.wire = wire, .number = number, .ends_with_process = ends};
  uint8_t frame[LONGEST_REQUEST];
  fe_get_request(frame, fe_put_request(frame, 0, request), &asked.request);
  if (!session_room(file, length) || session_asked(file, &asked, key, length) != FEMEM_OK) return false;
  session_put_asked(file, session_place(file, wire));
  return true;
}

void session_file_move(session_file *file, uint64_t wire, uint64_t to) {
  session_moved(file, wire, to);
  session_put_moved(file, wire, to);
}

static bool has_happened(const femem_answer *answer) {
  return answer->error == FEMEM_OK || (answer->error >= FEMEM_NO_ARRAY && answer->error <= FEMEM_NOT_NOW);
}

void session_file_end(session_file *file, uint64_t wire, const femem_answer *answer) {
  const kept_key *key = session_place(file, wire)->key;
  if (key && has_happened(answer)) {
    session_answered(file, wire, answer);
    session_put_answered(file, wire, key);
  } else {
    session_ended(file, wire);
    session_put_ended(file, wire);
  }
}

void session_file_pass(session_file *file, uint64_t wire) { session_put_ended(file, wire); }

bool session_file_passed(session_file *file, uint64_t wire, const femem_answer *answer) {
  const kept_key *key = session_place(file, wire)->key;
  if (!key || !has_happened(answer)) return session_ended(file, wire), false;
  session_answered(file, wire, answer);
  bool fits = session_room(file, key->length);
  if (fits) session_put_kept(file, key);
  return fits;
}

bool session_file_forget(session_file *file, const char *key) {
  size_t length = strlen(key);
  if (!session_room(file, length)) return false;
  session_put_forgotten(file, key, length);
  session_forgotten(file, key, length);
  return true;
}

void session_file_leave(session_file *file) {
  file->leaving = true;
  session_put_leaving(file);
}

/* ---- opening ---- */

/* Takes the file's content, and cuts off what an interrupted write left. File and folder are synced, since a former
   process may have ended before a sync of its last block, or of the file's new name. */
static femem_error take_all(session_file *file, const uint8_t *bytes) {
  size_t end = file->size;
  femem_error error = session_read(file, bytes, file->size, &end);
  if (error) return error;
  bool cut = end == file->size || ftruncate(file->descriptor, (off_t)end) == 0;
  file->size = end; /* `compacted` is not known, so a large file is rewritten once */
  bool is_synced = cut && fsync(file->descriptor) == 0 && sync_folder(file->path);
  return is_synced && lseek(file->descriptor, (off_t)end, SEEK_SET) >= 0 ? FEMEM_OK : FEMEM_FILE_FAULT;
}

static femem_error read_all(session_file *file) {
  struct stat about;
  if (fstat(file->descriptor, &about) != 0) return FEMEM_FILE_FAULT;
  file->size = (size_t)about.st_size;
  if (file->size == 0) return session_file_begin(file) ? FEMEM_OK : FEMEM_FILE_FAULT;
  uint8_t *bytes = malloc(file->size);
  if (!bytes) return FEMEM_MEMORY;
  femem_error error = FEMEM_OK;
  for (size_t at = 0; at < file->size && error == FEMEM_OK;) {
    ssize_t count = pread(file->descriptor, bytes + at, file->size - at, (off_t)at);
    if (count < 0 && errno == EINTR) continue;
    if (count <= 0) error = FEMEM_FILE_FAULT;
    else at += (size_t)count;
  }
  if (error == FEMEM_OK) error = take_all(file, bytes);
  free(bytes);
  return error;
}

bool session_file_begin(session_file *file) {
  uint8_t drawn[8];
  int source = open("/dev/urandom", O_RDONLY | O_CLOEXEC);
  if (source < 0) return false;
  ssize_t count = read(source, drawn, sizeof drawn);
  close(source);
  if (count != sizeof drawn) return false;
  session_forget_all(file);
  /* Greater than the numbers that people choose. */
  file->session = session_get(drawn, 8) | UINT64_C(1) << 63;
  return write_anew(file);
}

/* Opens and locks the file at the path, and tries again if another process replaced it meanwhile. */
static femem_error open_locked(session_file *file, const char *path) {
  for (int tries = 0; tries < 100; tries++) {
    file->descriptor = open(path, O_RDWR | O_CREAT | O_CLOEXEC | O_NOCTTY, 0600);
    if (file->descriptor < 0) return FEMEM_FILE_FAULT;
    struct stat own, there;
    if (fstat(file->descriptor, &own) != 0) return FEMEM_FILE_FAULT;
    if (!S_ISREG(own.st_mode)) return errno = EINVAL, FEMEM_FILE_FAULT;
    if (flock(file->descriptor, LOCK_EX | LOCK_NB) != 0)
      return errno == EWOULDBLOCK ? FEMEM_FILE_IN_USE : FEMEM_FILE_FAULT;
    if (stat(path, &there) == 0 && own.st_dev == there.st_dev && own.st_ino == there.st_ino)
      return own.st_nlink == 1 ? FEMEM_OK : (errno = EMLINK, FEMEM_FILE_FAULT); /* its other name would become a copy */
    close(file->descriptor);
    file->descriptor = -1;
  }
  return FEMEM_FILE_IN_USE;
}

femem_error session_file_open(session_file **file, const char *path) {
  *file = NULL;
  session_file *made = calloc(1, sizeof *made);
  if (!made) return FEMEM_MEMORY;
  made->descriptor = -1;
  femem_error error = session_room(made, 0) ? open_locked(made, path) : FEMEM_MEMORY;
  /* An absolute path, since the program may change its folder; and a link's target, since a rename would replace the
     link. */
  if (error == FEMEM_OK && !(made->path = realpath(path, NULL))) error = FEMEM_FILE_FAULT;
  if (error == FEMEM_OK) error = read_all(made);
  int why = errno;
  if (error) session_file_close(made);
  else *file = made;
  errno = why;
  return error;
}

void session_file_close(session_file *file) {
  if (!file) return;
  if (file->descriptor >= 0) close(file->descriptor);
  session_forget_all(file);
  free(file->path);
  free(file->block);
  free(file);
}
