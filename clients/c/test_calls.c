/* Tests of the order of a client's system calls: whatever it sends, the synced bytes of its session file have the note
   of it. The linker puts functions of this file in the place of the calls. What was synced is read here, by
   docs/session-file.md, not by the client's own reader. It ends by itself, and prints what failed. */
#define _DEFAULT_SOURCE
#define _POSIX_C_SOURCE 200809L
#include "scripts.h"

#include <errno.h>
#include <fcntl.h>
#include <poll.h>
#include <sys/stat.h>

static char kept_at[100], kept_new[100];

/* ---- what is on the disk ---- */

/* The bytes of a file at its last sync. A renamed file has its name once the folder is synced. One that is opened may
   have been left before both syncs. */
enum { MOST = 1 << 20, FILES = 64 };
typedef struct synced {
  ino_t file;
  size_t count;
  uint8_t *bytes;
} synced;

static synced files[FILES];
static bool is_renamed, is_left;
static unsigned renames, unsynced_writes;

static uint64_t number_of(const uint8_t *at, int bytes) {
  uint64_t number = 0;
  while (bytes-- > 0) number = number << 8 | *at++;
  return number;
}

static synced *synced_of(ino_t file) {
  synced *last = files;
  while (last->file && last->file != file) last++;
  if (last == files + FILES - 1) abort();
  return last;
}

static void note_sync(int descriptor) {
  struct stat about;
  if (fstat(descriptor, &about) != 0) abort();
  if (S_ISDIR(about.st_mode)) is_renamed = false;
  if (!S_ISREG(about.st_mode)) return;
  synced *to = synced_of(about.st_ino);
  to->file = about.st_ino;
  if (!to->bytes) to->bytes = malloc(MOST);
  to->count = (size_t)pread(descriptor, to->bytes, MOST, 0);
  unsynced_writes = 0;
  is_left = false;
}

int __real_fsync(int descriptor);
int __wrap_fsync(int descriptor);
int __real_fdatasync(int descriptor);
int __wrap_fdatasync(int descriptor);
int __real_rename(const char *from, const char *to);
int __wrap_rename(const char *from, const char *to);
ssize_t __real_write(int descriptor, const void *bytes, size_t count);
ssize_t __wrap_write(int descriptor, const void *bytes, size_t count);
ssize_t __real_send(int line, const void *bytes, size_t count, int flags);
ssize_t __wrap_send(int line, const void *bytes, size_t count, int flags);

int __wrap_fsync(int descriptor) {
  int result = __real_fsync(descriptor);
  if (result == 0) note_sync(descriptor);
  return result;
}

int __wrap_fdatasync(int descriptor) {
  int result = __real_fdatasync(descriptor);
  if (result == 0) note_sync(descriptor);
  return result;
}

int __wrap_rename(const char *from, const char *to) {
  is_renamed = true;
  renames++;
  return __real_rename(from, to);
}

/* At most one block is not synced, so a stop can tear only the last. (A new file is synced before it is renamed.) */
ssize_t __wrap_write(int descriptor, const void *bytes, size_t count) {
  struct stat about, file;
  bool is_file = fstat(descriptor, &about) == 0 && stat(kept_at, &file) == 0 && about.st_ino == file.st_ino;
  if (is_file && about.st_size > 0) CHECK(unsynced_writes++ == 0);
  return __real_write(descriptor, bytes, count);
}

/* ---- what it notes ---- */

typedef struct noted {
  uint64_t unanswered[64], floor, asked, next;
  unsigned count;
  bool leaving;
} noted;

static void drop(noted *all, uint64_t number) {
  for (unsigned i = 0; i < all->count; i++)
    if (all->unanswered[i] == number) all->unanswered[i] = all->unanswered[--all->count];
}

static bool is_noted(const noted *all, uint64_t number) {
  for (unsigned i = 0; i < all->count; i++)
    if (all->unanswered[i] == number) return true;
  return false;
}

/* Takes a record. Returns where it ends. */
static const uint8_t *take_record(noted *all, const uint8_t *at) {
  uint8_t kind = *at++;
  uint64_t number = kind == 5 || kind == 7 ? 0 : number_of(at, 8);
  const uint8_t *key = at + (kind == 1 ? 17 : kind == 6 ? 8 : 0);
  const uint8_t *behind = key + 2 + number_of(key, 2); /* the key, if it has one */
  if (kind == 2 || kind == 3 || kind == 4) drop(all, number);
  if (kind == 1 || kind == 4) all->unanswered[all->count++] = kind == 1 ? number : number_of(at + 8, 8);
  if (kind == 7) all->leaving = true;
  if (kind == 1 || kind == 6) behind += 4 + number_of(behind, 4);
  if (kind == 1 || kind == 5) return behind;
  if (kind == 6) return behind + 13;
  return at + (kind == 7 ? 0 : kind == 2 ? 8 : kind == 3 ? 21 : 16);
}

static noted notes(void) {
  noted all = {0};
  struct stat about = {0};
  if (stat(kept_at, &about) != 0) return all;
  const synced *file = synced_of(about.st_ino);
  for (size_t at = 20; at < file->count;) {
    const uint8_t *block = file->bytes + at, *record = block + 28;
    at += 32 + number_of(block, 4);
    all.floor = number_of(block + 4, 8);
    all.asked = number_of(block + 12, 8);
    all.next = number_of(block + 20, 8);
    while (record < file->bytes + at - 4) record = take_record(&all, record);
  }
  return all;
}

/* ---- what is sent ---- */

static uint8_t stream[65536];
static size_t streamed;
static unsigned requests, settles, byes;

static void check_frame(const uint8_t *frame, const noted *all) {
  uint8_t kind = frame[4];
  uint64_t number = kind == 8 || kind == 9 ? 0 : number_of(frame + 5, 8);
  if ((kind >= 2 && kind <= 5) || kind >= 11) {
    requests++;
    CHECK(is_noted(all, number) && number < all->next);
  }
  /* The first settle of a new session is about no request. */
  if (kind == 7 && all->next > 0) {
    settles++;
    CHECK(number <= all->asked);
    for (unsigned i = 0; i < all->count; i++) CHECK(all->unanswered[i] >= number);
  }
  if (kind == 8) {
    byes++;
    CHECK(all->leaving);
  }
}

static pid_t watched;

ssize_t __wrap_send(int line, const void *bytes, size_t count, int flags) {
  if (getpid() != watched) return __real_send(line, bytes, count, flags);
  CHECK(!is_renamed && !is_left);
  const noted all = notes();
  ssize_t sent = __real_send(line, bytes, count, flags);
  if (sent <= 0) return sent;
  memcpy(stream + streamed, bytes, (size_t)sent);
  streamed += (size_t)sent;
  size_t at = 0;
  for (; streamed - at >= 4 && streamed - at >= 4 + number_of(stream + at, 4); at += 4 + number_of(stream + at, 4))
    check_frame(stream + at, &all);
  memmove(stream, stream + at, streamed - at);
  streamed -= at;
  return sent;
}

/* ---- a server that answers everything ---- */

/* A readfe waits until it is cancelled; any other request is answered with its number. */
static void serve(int line, uint64_t *floor) {
  uint8_t frame[64];
  unsigned long long session = 0, waiting[32] = {0};
  for (;;) {
    if (recv(line, frame, 4, MSG_WAITALL) != 4) return;
    size_t size = number_of(frame, 4);
    if (recv(line, frame + 4, size, MSG_WAITALL) != (ssize_t)size) return;
    unsigned long long number = size > 8 ? number_of(frame + 5, 8) : 0;
    char hex[100] = "";
    uint8_t kind = frame[4];
    bool waits = kind == 6 && waiting[number % 32] == number;
    if (kind == 1) session = number;
    if (kind == 5) waiting[number % 32] = frame[13] == 16 ? number : 0;
    if (kind == 1) snprintf(hex, sizeof hex, "00000011 41 %016llx %016llx", number, (unsigned long long)*floor);
    if (kind == 5 && frame[13] != 16)
      snprintf(hex, sizeof hex, "00000016 42 %016llx 01 %016llx 00000000", number, number);
    if (kind == 6 && !waits) snprintf(hex, sizeof hex, "0000000a 46 %016llx 0a", number);
    if (kind == 6 && waits) snprintf(hex, sizeof hex, "00000009 43 %016llx", number);
    if (kind == 7) snprintf(hex, sizeof hex, "00000009 44 %016llx", (unsigned long long)(*floor = number));
    if (kind == 8) snprintf(hex, sizeof hex, "00000009 45 %016llx", session);
    uint8_t reply[64];
    size = bytes_of(hex, reply);
    if (__real_send(line, reply, size, MSG_NOSIGNAL) != (ssize_t)size) return; /* the client has hung up */
  }
}

static void server_of_all(int listener) {
  uint64_t floor = 1;
  for (int i = 0; i < 3; i++) {
    int line = take_line(listener);
    serve(line, &floor);
    close(line);
  }
}

static const femem_settings going_on = {.wait = 20000, .reconnect = 20000};
static const femem_request add_one = {.operation = FEMEM_INT_FETCH_ADD, .array = 1, .operand = 1};

static femem *file_opened(void) {
  femem *client;
  ERROR(femem_open_file(&client, path, kept_at, &going_on), FEMEM_OK);
  if (!client) exit(1);
  return client;
}

/* Keys, a wait that moves, answers that nobody takes, settles, and rewritings. */
static void work(femem *client, unsigned from) {
  char text[32];
  femem_answer answer;
  uint64_t waits;
  ERROR(femem_send_readfe(client, 1, 0, &waits), FEMEM_OK);
  for (unsigned i = from; i < from + 120; i++) {
    snprintf(text, sizeof text, "step %u", i);
    ERROR(femem_once(client, text, &add_one, &answer), FEMEM_OK);
    if (i % 3) ERROR(femem_forget(client, text), FEMEM_OK);
    ERROR(femem_int_fetch_add(client, 1, 0, 1, NULL), FEMEM_OK);
    if (i % 7 == 0) ERROR(femem_settle(client), FEMEM_OK);
  }
  femem_request many[50];
  femem_answer answers[50];
  for (int i = 0; i < 50; i++) many[i] = add_one;
  ERROR(femem_batch(client, many, 50, answers), FEMEM_OK);
  ERROR(femem_cancel(client, waits, &answer), FEMEM_WITHDRAWN);
}

static void nothing_early(void) {
  test = "what is sent is noted";
  pid_t server = begin(server_of_all);
  watched = getpid();
  femem *client = file_opened();
  work(client, 0);
  uint64_t last = 0;
  for (int i = 0; i < 5; i++) ERROR(femem_send_readfe(client, 1, 0, &last), FEMEM_OK);
  ERROR(femem_flush(client), FEMEM_OK);
  femem_close(client); /* five requests are out: the next client sends them again */
  is_renamed = is_left = true;
  client = file_opened();
  work(client, 200);
  ERROR(femem_reconnect(client, 20000), FEMEM_OK);
  femem_answer answer;
  for (uint64_t number = last - 4; number <= last; number++)
    ERROR(femem_cancel(client, number, &answer), FEMEM_WITHDRAWN);
  /* A settle whose answers were noted with an earlier send. */
  ERROR(femem_int_fetch_add(client, 1, 0, 1, NULL), FEMEM_OK);
  ERROR(femem_send_readfe(client, 1, 0, &last), FEMEM_OK);
  ERROR(femem_flush(client), FEMEM_OK);
  ERROR(femem_settle(client), FEMEM_OK);
  ERROR(femem_cancel(client, last, &answer), FEMEM_WITHDRAWN);
  ERROR(femem_bye_within(client, 20000), FEMEM_OK);
  CHECK(requests > 580 && settles > 20 && renames > 2 && byes == 1);
  femem_close(client);
  END(server);
}

int main(void) {
  setvbuf(stdout, NULL, _IOLBF, 0);
  alarm(200);
  if (!mkdtemp(folder)) return 1;
  snprintf(path, sizeof path, "%s/socket", folder);
  snprintf(kept_at, sizeof kept_at, "%s/session", folder);
  snprintf(kept_new, sizeof kept_new, "%s/session.new", folder);
  nothing_early();
  unlink(path);
  unlink(kept_at);
  rmdir(folder);
  printf("femem client, order of calls: %d checks, %d failed\n", checks, failures);
  return failures ? 1 : 0;
}
