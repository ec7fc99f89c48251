/* Tests of the session file alone: what it keeps, its bytes, what damage does to it, and what is refused. The bytes are
   made here, by docs/session-file.md, not by the client. It ends by itself, and prints what failed. */
#define _DEFAULT_SOURCE
#define _POSIX_C_SOURCE 200809L
#include "session_file.c"

#include "testing.h"

static char folder[] = "/tmp/femem_test_XXXXXX", kept_at[100], kept_new[100], victim[100];

void kill_point(const char *name) { (void)name; }

/* Thousands of files are opened here, and none outlives the machine; test_calls.c is about syncs. */
int __wrap_fsync(int descriptor);
int __wrap_fdatasync(int descriptor);
int __wrap_fsync(int descriptor) { return descriptor < 0 ? -1 : 0; }
int __wrap_fdatasync(int descriptor) { return descriptor < 0 ? -1 : 0; }

static void fresh(void) {
  unlink(kept_at);
  unlink(kept_new);
}

static const femem_request add_one = {.operation = FEMEM_INT_FETCH_ADD, .array = 1, .operand = 1};
static const femem_request read_one = {.operation = FEMEM_READFE, .array = 1};

static session_file *file_opened(femem_error due, int line) {
  session_file *kept = NULL;
  is_error(session_file_open(&kept, kept_at), due, line);
  check((kept != NULL) == (due == FEMEM_OK), "a file where there is no error", line);
  if (!kept && due == FEMEM_OK) exit(1);
  return kept;
}
#define OPEN_FILE(due) file_opened(due, __LINE__)

static const kept_key *found(const session_file *kept, const char *key) { return session_find(kept, key, strlen(key)); }

static size_t read_kept(uint8_t *bytes, size_t most) {
  FILE *from = fopen(kept_at, "rb");
  size_t count = from ? fread(bytes, 1, most, from) : 0;
  if (from) fclose(from);
  return count;
}

static void write_kept(const uint8_t *bytes, size_t count) {
  FILE *to = fopen(kept_at, "wb");
  if (!to || fwrite(bytes, 1, count, to) != count || fclose(to) != 0) abort();
}

/* ---- what it keeps ---- */

/* Makes a file with records of most kinds, in several blocks: those of the example in docs/session-file.md. */
static void fill(session_file *kept) {
  CHECK(session_file_ask(kept, 33, 33, &add_one, "first", false));
  CHECK(session_file_ask(kept, 34, 34, &read_one, NULL, false));
  CHECK(session_file_ask(kept, 35, 35, &read_one, "waits", false));
  CHECK(session_file_sync(kept, 33, 33, 36));
  session_file_end(kept, 33, &(femem_answer){.number = 33, .value = 41});
  CHECK(session_file_ask(kept, 36, 36, &add_one, "gone", false));
  CHECK(session_file_sync(kept, 33, 33, 37));
  session_file_end(kept, 36, &(femem_answer){.number = 36, .error = FEMEM_WITHDRAWN});
  session_file_move(kept, 34, 37);
  CHECK(session_file_ask(kept, 38, 38, &add_one, "late", false));
  CHECK(session_file_sync(kept, 33, 34, 39));
  session_file_end(kept, 38, &(femem_answer){.number = 38, .error = FEMEM_BAD_INDEX});
  CHECK(session_file_ask(kept, 39, 39, &add_one, NULL, true));
  CHECK(session_file_forget(kept, "late"));
  CHECK(session_file_sync(kept, 34, 34, 40));
}

static void is_filled(session_file *kept) {
  CHECK(kept->floor == 34 && kept->asked == 34 && kept->next == 40 && !kept->leaving);
  CHECK(kept->requests[33 % 32].wire == 0 && kept->requests[34 % 32].wire == 0 && kept->requests[36 % 32].wire == 0);
  CHECK(kept->requests[37 % 32].wire == 37 && kept->requests[37 % 32].number == 34);
  CHECK(kept->requests[37 % 32].request.operation == FEMEM_READFE && !kept->requests[37 % 32].key);
  CHECK(kept->requests[39 % 32].wire == 39 && kept->requests[39 % 32].request.operand == 1);
  CHECK(kept->requests[39 % 32].ends_with_process && !kept->requests[35 % 32].ends_with_process);
  const kept_key *first = found(kept, "first"), *waits = found(kept, "waits");
  CHECK(first && first->is_answered && first->answer.value == 41 && first->answer.number == 33);
  CHECK(waits && !waits->is_answered && kept->requests[35 % 32].key == waits);
  CHECK(!found(kept, "gone") && !found(kept, "late"));
}

static void keeps(void) {
  test = "what a file keeps";
  fresh();
  session_file *kept = OPEN_FILE(FEMEM_OK);
  uint64_t session = kept->session;
  CHECK(session >> 63 == 1 && kept->next == 0);
  CHECK(OPEN_FILE(FEMEM_FILE_IN_USE) == NULL); /* one client at a time, even within one process */
  fill(kept);
  is_filled(kept);
  session_file_close(kept);
  kept = OPEN_FILE(FEMEM_OK);
  CHECK(kept->session == session);
  is_filled(kept);
  /* Once rewritten it has the same content. */
  CHECK(write_anew(kept));
  CHECK(OPEN_FILE(FEMEM_FILE_IN_USE) == NULL);
  session_file_close(kept);
  kept = OPEN_FILE(FEMEM_OK);
  CHECK(kept->session == session);
  is_filled(kept);
  session_file_leave(kept);
  CHECK(session_file_sync(kept, 34, 34, 40));
  session_file_close(kept);
  kept = OPEN_FILE(FEMEM_OK);
  CHECK(kept->leaving && session_file_begin(kept) && kept->session != session);
  CHECK(!found(kept, "first"));
  session_file_close(kept);
  kept = OPEN_FILE(FEMEM_OK);
  CHECK(!kept->leaving && kept->next == 0 && !found(kept, "first"));
  session_file_close(kept);
}

/* A settle alone makes a block, since its floor must be in the file; and nothing makes none. */
static void settles(void) {
  test = "a settle alone";
  fresh();
  session_file *kept = OPEN_FILE(FEMEM_OK);
  fill(kept);
  size_t size = kept->size;
  CHECK(session_file_sync(kept, 34, 34, 40) && kept->size == size);
  CHECK(session_file_sync(kept, 34, 35, 40) && kept->size == size + 32);
  session_file_close(kept);
  kept = OPEN_FILE(FEMEM_OK);
  CHECK(kept->floor == 34 && kept->asked == 35 && kept->next == 40);
  session_file_close(kept);
}

/* Anything but a plain file is refused, and stays as it is. */
static void no_plain_file(void) {
  test = "no plain file";
  fresh();
  struct stat there;
  CHECK(mkfifo(kept_at, 0600) == 0);
  CHECK(OPEN_FILE(FEMEM_FILE_FAULT) == NULL && errno == EINVAL);
  CHECK(stat(kept_at, &there) == 0 && S_ISFIFO(there.st_mode));
  fresh();
  CHECK(mkdir(kept_at, 0700) == 0);
  CHECK(OPEN_FILE(FEMEM_FILE_FAULT) == NULL && errno == EISDIR);
  CHECK(rmdir(kept_at) == 0);
  session_file_close(OPEN_FILE(FEMEM_OK));
  CHECK(link(kept_at, victim) == 0);
  CHECK(OPEN_FILE(FEMEM_FILE_FAULT) == NULL && errno == EMLINK);
  CHECK(unlink(victim) == 0);
  session_file_close(OPEN_FILE(FEMEM_OK));
  fresh();
}

/* What stands at FILE.new is replaced; a link there is not followed. */
static void a_link_beside_it(void) {
  test = "a link beside the file";
  struct stat there;
  char text[20] = "";
  fresh();
  FILE *file = fopen(victim, "w");
  CHECK(file && fputs("precious", file) >= 0 && fclose(file) == 0);
  CHECK(symlink(victim, kept_new) == 0);
  session_file_close(OPEN_FILE(FEMEM_OK));
  CHECK(lstat(kept_at, &there) == 0 && S_ISREG(there.st_mode) && there.st_size == 52);
  file = fopen(victim, "r");
  CHECK(file && fgets(text, sizeof text, file) && strcmp(text, "precious") == 0 && fclose(file) == 0);
  unlink(victim);
  /* What can't be removed is an error. */
  fresh();
  CHECK(mkdir(kept_new, 0700) == 0);
  CHECK(OPEN_FILE(FEMEM_FILE_FAULT) == NULL);
  CHECK(rmdir(kept_new) == 0);
}

/* A file does not grow with requests that have ended. */
static void compaction(void) {
  test = "a file that is written anew";
  fresh();
  session_file *kept = OPEN_FILE(FEMEM_OK);
  size_t most = 0;
  char key[20];
  for (uint64_t wire = 33; wire < 333; wire++) {
    snprintf(key, sizeof key, "key %u", (unsigned)(wire % 50));
    if (found(kept, key)) CHECK(session_file_forget(kept, key));
    CHECK(session_file_ask(kept, wire, wire, &add_one, key, false) && session_file_sync(kept, wire, wire, wire + 1));
    session_file_end(kept, wire, &(femem_answer){.number = wire, .value = wire});
    most = kept->size > most ? kept->size : most;
  }
  CHECK(session_file_sync(kept, 333, 333, 333));
  CHECK(most < 40000);
  /* Nor with restarts. */
  for (uint64_t life = 0; life < 40; life++) {
    session_file_close(kept);
    kept = OPEN_FILE(FEMEM_OK);
    uint64_t first = kept->next;
    for (uint64_t wire = first; wire < first + 16; wire++) {
      CHECK(session_file_ask(kept, wire, wire, &add_one, "again", false));
      session_file_end(kept, wire, &(femem_answer){.number = wire});
      CHECK(session_file_forget(kept, "again"));
    }
    CHECK(session_file_sync(kept, first, first, first + 16));
    most = kept->size > most ? kept->size : most;
  }
  CHECK(most < 40000);
  session_file_close(kept);
  kept = OPEN_FILE(FEMEM_OK);
  for (uint64_t wire = 283; wire < 333; wire++) {
    snprintf(key, sizeof key, "key %u", (unsigned)(wire % 50));
    const kept_key *keyed = found(kept, key);
    CHECK(keyed && keyed->is_answered && keyed->answer.value == wire);
  }
  session_file_close(kept);
}

/* A file that gets a hard link while it is open is not rewritten until that is gone: a copy would be locked by nobody. */
static void another_name(void) {
  test = "a file that gets another name";
  fresh();
  session_file *kept = OPEN_FILE(FEMEM_OK), *second;
  struct stat there, other;
  CHECK(link(kept_at, victim) == 0);
  uint64_t wire = 33;
  for (; wire < 1233; wire++) {
    CHECK(session_file_ask(kept, wire, wire, &add_one, NULL, false) && session_file_sync(kept, wire, wire, wire + 1));
    session_file_end(kept, wire, &(femem_answer){.number = wire});
  }
  CHECK(stat(kept_at, &there) == 0 && stat(victim, &other) == 0 && there.st_ino == other.st_ino && kept->size > 100000);
  CHECK(session_file_open(&second, victim) == FEMEM_FILE_IN_USE);
  CHECK(unlink(victim) == 0);
  CHECK(session_file_sync(kept, wire, wire, wire) && kept->size < 1000);
  session_file_close(kept);
  kept = OPEN_FILE(FEMEM_OK);
  CHECK(kept->next == wire);
  session_file_close(kept);
}

/* What is buffered is one block, however much it is: a process that ends before its sync leaves nothing of it. */
static void one_block(void) {
  test = "much between two syncs";
  fresh();
  session_file *kept = OPEN_FILE(FEMEM_OK);
  char key[FEMEM_KEY + 1];
  memset(key, 'k', sizeof key);
  key[FEMEM_KEY] = 0;
  uint64_t wire = 33;
  for (; wire < 333; wire++) {
    snprintf(key, 30, "%029u", (unsigned)wire);
    key[29] = 'k';
    CHECK(session_file_ask(kept, wire, wire, &add_one, key, false) && session_file_sync(kept, wire, wire, wire + 1));
    session_file_end(kept, wire, &(femem_answer){.number = wire, .value = 5});
  }
  CHECK(session_file_sync(kept, 333, 333, 333));
  for (unsigned i = 33; i < 333; i++) {
    snprintf(key, 30, "%029u", i);
    key[29] = 'k';
    CHECK(session_file_forget(kept, key));
  }
  for (; wire < 365; wire++) {
    snprintf(key, sizeof key, "later %u", (unsigned)wire);
    CHECK(session_file_ask(kept, wire, wire, &add_one, key, false));
  }
  session_file_close(kept);
  kept = OPEN_FILE(FEMEM_OK);
  CHECK(kept->next == 333 && !found(kept, "later 333"));
  snprintf(key, 30, "%029u", 33);
  memset(key + 29, 'k', FEMEM_KEY - 29);
  CHECK(found(kept, key) && found(kept, key)->answer.value == 5);
  session_file_close(kept);
}

/* Whatever the fields that an operation does not use have, the file opens again. */
static void unused_fields(void) {
  test = "unused fields";
  fresh();
  session_file *kept = OPEN_FILE(FEMEM_OK);
  femem_request odd;
  memset(&odd, 0x7f, sizeof odd);
  odd.no_wait = odd.full = true;
  static const femem_operation operations[] = {FEMEM_CREATE, FEMEM_FIND, FEMEM_REMOVE, FEMEM_READFE, FEMEM_PURGE};
  enum { COUNT = sizeof operations / sizeof *operations };
  for (unsigned i = 0; i < COUNT; i++) {
    odd.operation = operations[i];
    odd.name_length = i < 2 ? 20 : 200;
    CHECK(session_file_ask(kept, 33 + i, 33 + i, &odd, NULL, false));
  }
  CHECK(session_file_sync(kept, 33, 33, 33 + COUNT));
  session_file_close(kept);
  kept = OPEN_FILE(FEMEM_OK);
  for (unsigned i = 0; i < COUNT; i++) CHECK(kept->requests[33 + i - 32].request.operation == operations[i]);
  CHECK(kept->requests[1].request.name_length == 20 && kept->requests[4].request.name_length == 0);
  CHECK(kept->requests[4].request.no_wait && kept->requests[4].request.operand == 0);
  session_file_close(kept);
}

/* ---- bytes ---- */

enum { MOST = 65536 };
typedef struct bytes {
  size_t count;
  uint8_t at[MOST];
} bytes;

static void add(bytes *to, uint64_t number, int size) {
  for (int i = size - 1; i >= 0; i--) to->at[to->count++] = (uint8_t)(number >> (8 * i));
}

static void add_text(bytes *to, const void *text, size_t size) {
  memcpy(to->at + to->count, text, size);
  to->count += size;
}

static const uint64_t session = UINT64_C(0x8000000000000007);

/* CRC-32, bit by bit. */
static uint32_t crc(uint32_t before, const uint8_t *at, size_t count) {
  uint32_t sum = ~before;
  while (count-- > 0) {
    sum ^= *at++;
    for (int bit = 0; bit < 8; bit++) sum = sum >> 1 ^ (sum & 1 ? 0xedb88320 : 0);
  }
  return ~sum;
}

static void add_header(bytes *to) {
  add_text(to, "FEMEMSF2", 8);
  add(to, session, 8);
  add(to, crc(0, to->at, 16), 4);
}

static void add_block(bytes *to, const bytes *payload, uint64_t floor, uint64_t asked, uint64_t next) {
  bytes name = {0};
  size_t begin = to->count;
  add(&name, session, 8);
  add(to, payload->count, 4);
  add(to, floor, 8);
  add(to, asked, 8);
  add(to, next, 8);
  add_text(to, payload->at, payload->count);
  add(to, crc(crc(0, name.at, 8), to->at + begin, to->count - begin), 4);
}

static void add_key_of(bytes *to, const char *key) {
  add(to, strlen(key), 2);
  add_text(to, key, strlen(key));
}

static void add_access(bytes *to, unsigned kind, unsigned operation, uint64_t operand) {
  add(to, 30, 4);
  add(to, kind, 1);
  add(to, 0, 8);
  add(to, operation, 1);
  add(to, 1, 8);
  add(to, 0, 4);
  add(to, operand, 8);
}

static void add_asked(bytes *to, uint64_t wire, uint64_t number, const char *key) {
  add(to, 1, 1);
  add(to, wire, 8);
  add(to, number, 8);
  add(to, 0, 1);
  add_key_of(to, key);
  add_access(to, 5, 23, 1);
}

static void add_find(bytes *to, uint64_t wire) {
  static const uint8_t zeros[16];
  add(to, 1, 1), add(to, wire, 8), add(to, wire, 8), add(to, 0, 1);
  add_key_of(to, "");
  add(to, 26, 4), add(to, 3, 1), add(to, 0, 8), add(to, 5, 1), add_text(to, "cells", 5), add_text(to, zeros, 11);
}

static void add_number(bytes *to, unsigned kind, uint64_t wire) {
  add(to, kind, 1);
  add(to, wire, 8);
}

static void add_answer(bytes *to, unsigned code, uint64_t value, uint32_t length) {
  add(to, code, 1);
  add(to, value, 8);
  add(to, length, 4);
}

static void add_moved(bytes *to, uint64_t wire, uint64_t other) {
  add_number(to, 4, wire);
  add(to, other, 8);
}

static void add_forgotten(bytes *to, const char *key) {
  add(to, 5, 1);
  add_key_of(to, key);
}

static void add_kept(bytes *to, const char *key) {
  add_number(to, 6, 0);
  add_key_of(to, key);
  add_access(to, 5, 23, 1);
  add_answer(to, 1, 9, 0);
}

/* The example of docs/session-file.md. */
static const char *const example[] = {
  "46454d454d534632 8000000000000007 2f65365e"
  "00000000 0000000000000000 0000000000000000 0000000000000000 ff1fb08c",
  "000000ac 0000000000000021 0000000000000021 0000000000000024"
  "01 0000000000000021 0000000000000021 00 0005 6669727374"
  "0000001e 05 0000000000000000 17 0000000000000001 00000000 0000000000000001"
  "01 0000000000000022 0000000000000022 00 0000"
  "0000001e 05 0000000000000000 10 0000000000000001 00000000 0000000000000000"
  "01 0000000000000023 0000000000000023 00 0005 7761697473"
  "0000001e 05 0000000000000000 10 0000000000000001 00000000 0000000000000000"
  "0b46cca4",
  "00000050 0000000000000021 0000000000000021 0000000000000025"
  "03 0000000000000021 01 0000000000000029 00000000"
  "01 0000000000000024 0000000000000024 00 0004 676f6e65"
  "0000001e 05 0000000000000000 17 0000000000000001 00000000 0000000000000001"
  "e9c37000",
  "00000054 0000000000000021 0000000000000022 0000000000000027"
  "02 0000000000000024"
  "04 0000000000000022 0000000000000025"
  "01 0000000000000026 0000000000000026 00 0004 6c617465"
  "0000001e 05 0000000000000000 17 0000000000000001 00000000 0000000000000001"
  "00e0990f",
  "00000053 0000000000000022 0000000000000022 0000000000000028"
  "03 0000000000000026 05 0000000000000000 00000000"
  "01 0000000000000027 0000000000000027 01 0000"
  "0000001e 05 0000000000000000 17 0000000000000001 00000000 0000000000000001"
  "05 0004 6c617465"
  "3f7ed99a",
};

/* The page's example is read as it says, and is what the client writes. */
static void worked_example(void) {
  test = "the example of the page";
  fresh();
  bytes all = {0}, written = {0};
  for (int i = 0; i < 5; i++) all.count += bytes_of(example[i], all.at + all.count);
  CHECK(all.count == 599 && session_sum(0, (const uint8_t *)"123456789", 9) == 0xcbf43926);
  write_kept(all.at, all.count);
  session_file *kept = OPEN_FILE(FEMEM_OK);
  CHECK(kept->session == session);
  is_filled(kept);
  session_file_close(kept);

  fresh();
  kept = OPEN_FILE(FEMEM_OK);
  kept->session = session;
  CHECK(write_anew(kept));
  fill(kept);
  session_file_close(kept);
  written.count = read_kept(written.at, MOST);
  CHECK(written.count == 599 && memcmp(written.at, all.at, 599) == 0);
}

/* A file cut anywhere is as before the write that was cut; a byte changed before the last write is damage. */
static void damage(void) {
  test = "damage";
  fresh();
  static uint8_t whole[8192], turned[8192];
  session_file *kept = OPEN_FILE(FEMEM_OK);
  size_t ends[8] = {0}, blocks = 0;
  fill(kept);
  uint64_t own = kept->session;
  session_file_close(kept);
  size_t count = read_kept(whole, sizeof whole);
  for (size_t at = 20; at < count; blocks++) ends[blocks] = at += 32 + (size_t)session_get(whole + at, 4);
  CHECK(blocks == 5 && ends[4] == count);
  for (size_t cut = 1; cut < count; cut++) {
    write_kept(whole, cut);
    kept = OPEN_FILE(cut < 20 ? FEMEM_FILE_DAMAGED : FEMEM_OK);
    if (!kept) continue;
    size_t left = 0;
    while (left < blocks && ends[left] <= cut) left++;
    size_t due = left ? ends[left - 1] : 20;
    CHECK(kept->session == own && kept->size == due);
    session_file_close(kept);
    CHECK(read_kept(turned, sizeof turned) == due);
  }
  for (size_t at = 0; at < count; at++) {
    memcpy(turned, whole, count);
    turned[at] ^= 0x10;
    write_kept(turned, count);
    kept = OPEN_FILE(at < ends[3] ? FEMEM_FILE_DAMAGED : FEMEM_OK);
    session_file_close(kept);
  }
  write_kept((const uint8_t *)"something else that stands in a file", 36);
  CHECK(OPEN_FILE(FEMEM_FILE_DAMAGED) == NULL);
  write_kept((const uint8_t *)"FEMEMSF1\0\0\0\1", 12); /* another version */
  CHECK(OPEN_FILE(FEMEM_FILE_DAMAGED) == NULL);
}

/* Opens a file with one block. It stays as it is if it is damaged. */
static void one(const bytes *payload, uint64_t floor, uint64_t asked, uint64_t next, femem_error due, int line) {
  static bytes all, after;
  all.count = 0;
  add_header(&all);
  add_block(&all, payload, floor, asked, next);
  write_kept(all.at, all.count);
  session_file *kept = file_opened(due, line);
  session_file_close(kept);
  after.count = read_kept(after.at, MOST);
  check(after.count == all.count && memcmp(after.at, all.at, all.count) == 0, "the file stays as it is", line);
}
#define ONE(floor, asked, next, due) one(&p, floor, asked, next, due, __LINE__); p.count = 0
#define REFUSED ONE(1, 1, 5, FEMEM_FILE_DAMAGED)
#define TAKEN_AS(floor, asked, next) ONE(floor, asked, next, FEMEM_OK)

/* Requests that have not ended, and keys. */
static void refused_records(void) {
  test = "records that contradict others";
  fresh();
  static bytes p;
  add_asked(&p, 1, 1, "a"), add_asked(&p, 2, 1, ""); TAKEN_AS(1, 1, 5);
  add_asked(&p, 0, 1, ""); REFUSED;
  add_asked(&p, 1, 0, ""); REFUSED;
  add_asked(&p, 1, 2, ""); REFUSED;
  add_asked(&p, 5, 5, ""); REFUSED; /* not below the next number */
  add_asked(&p, 2, 2, ""), add_asked(&p, 1, 1, ""); REFUSED;
  add_asked(&p, 1, 1, ""), add_number(&p, 2, 1), add_asked(&p, 1, 1, ""); REFUSED;
  add_asked(&p, 1, 1, "a"), add_asked(&p, 2, 2, "a"); REFUSED;
  add_asked(&p, 1, 1, "a"), add_asked(&p, 33, 33, "b"); ONE(1, 1, 34, FEMEM_FILE_DAMAGED);
  add_asked(&p, 1, 1, "a"), add_asked(&p, 33, 33, "b"); ONE(1, 2, 34, FEMEM_FILE_DAMAGED);
  add_asked(&p, 1, 1, ""), add_number(&p, 2, 1); TAKEN_AS(1, 1, 5);
  add_asked(&p, 1, 1, ""), add_number(&p, 2, 2); REFUSED;
  add_number(&p, 2, 0); REFUSED;
  add_asked(&p, 1, 1, ""), add_number(&p, 3, 1), add_answer(&p, 1, 7, 0); TAKEN_AS(1, 2, 5);
  add_number(&p, 3, 1), add_answer(&p, 1, 7, 0); REFUSED;
  add_asked(&p, 1, 1, ""), add_number(&p, 2, 1), add_number(&p, 3, 1), add_answer(&p, 1, 7, 0); REFUSED;
  add_asked(&p, 1, 1, "a"), add_moved(&p, 1, 2); TAKEN_AS(1, 2, 5);
  add_asked(&p, 1, 1, "a"), add_moved(&p, 1, 33); TAKEN_AS(1, 2, 34);
  add_asked(&p, 1, 1, "a"), add_moved(&p, 1, 1); REFUSED;
  add_asked(&p, 1, 1, "a"), add_moved(&p, 1, 0); REFUSED;
  add_asked(&p, 1, 1, "a"), add_asked(&p, 2, 2, "b"), add_moved(&p, 1, 2); REFUSED;
  add_asked(&p, 1, 1, "a"), add_asked(&p, 2, 2, "b"), add_moved(&p, 1, 34); ONE(1, 2, 35, FEMEM_FILE_DAMAGED);
  add_asked(&p, 1, 1, "a"), add_asked(&p, 2, 2, "b"), add_moved(&p, 1, 34); ONE(1, 3, 35, FEMEM_FILE_DAMAGED);
  add_asked(&p, 1, 1, "a"), add_moved(&p, 2, 3); REFUSED;
  /* Numbers without an answer are in one window, also within a block. */
  add_asked(&p, 1, 1, "a"), add_asked(&p, 32, 32, "b"), add_number(&p, 2, 1); TAKEN_AS(1, 32, 33);
  add_asked(&p, 1, 1, "a"), add_asked(&p, 33, 33, "b"), add_number(&p, 2, 1); ONE(1, 33, 34, FEMEM_FILE_DAMAGED);
  add_asked(&p, 1, 1, "a"), add_asked(&p, 34, 34, "b"), add_number(&p, 2, 1); ONE(1, 34, 35, FEMEM_FILE_DAMAGED);
  add_asked(&p, 1, 1, "a"), add_number(&p, 2, 1), add_asked(&p, 34, 34, "b"); TAKEN_AS(1, 34, 35);
  add_asked(&p, 1, 1, "a"), add_asked(&p, 2, 2, "b"), add_moved(&p, 2, 34), add_number(&p, 2, 1); ONE(1, 34, 35, FEMEM_FILE_DAMAGED);
  add_asked(&p, 1, 1, "a"), add_asked(&p, 2, 2, "b"), add_moved(&p, 2, 32), add_number(&p, 2, 1); TAKEN_AS(1, 32, 33);
  add_asked(&p, 1, 1, "a"), add_forgotten(&p, "a"); REFUSED;
  add_asked(&p, 1, 1, "a"), add_forgotten(&p, "a"), add_number(&p, 2, 1); REFUSED;
  add_asked(&p, 1, 1, "a"), add_number(&p, 2, 1), add_forgotten(&p, "a"); REFUSED;
  add_asked(&p, 1, 1, "a"), add_number(&p, 3, 1), add_answer(&p, 1, 7, 0), add_forgotten(&p, "a"); TAKEN_AS(2, 2, 5);
  add_forgotten(&p, "a"); REFUSED;
  add_kept(&p, "a"), add_kept(&p, "b"), add_forgotten(&p, "a"); TAKEN_AS(1, 5, 5);
  add_kept(&p, "a"), add_kept(&p, "a"); REFUSED;
  add_kept(&p, ""); REFUSED;
  add_kept(&p, "a"), add_asked(&p, 1, 1, "a"); REFUSED;
  add(&p, 7, 1); TAKEN_AS(0, 0, 0);
  add(&p, 0, 1); REFUSED;
  add(&p, 8, 1); REFUSED;
  add_asked(&p, 1, 1, "a"), p.count--; REFUSED;
  add_number(&p, 2, 1), p.count -= 3; REFUSED;
}

static void refused_numbers(void) {
  test = "numbers that contradict each other";
  fresh();
  static bytes p;
  const uint64_t greatest = (UINT64_C(1) << 63) - 32;
  TAKEN_AS(0, 0, 0);
  TAKEN_AS(1, 1, 1);
  TAKEN_AS(33, 65, 97);
  ONE(0, 0, 1, FEMEM_FILE_DAMAGED);
  ONE(0, 1, 1, FEMEM_FILE_DAMAGED);
  ONE(2, 1, 2, FEMEM_FILE_DAMAGED);
  ONE(1, 3, 2, FEMEM_FILE_DAMAGED);
  ONE(1, 1, 34, FEMEM_FILE_DAMAGED);
  TAKEN_AS(greatest, greatest, greatest + 32);
  ONE(greatest, greatest + 1, greatest + 2, FEMEM_FILE_DAMAGED);
  ONE(UINT64_MAX, UINT64_MAX, UINT64_MAX, FEMEM_FILE_DAMAGED);
  add_asked(&p, 1, 1, ""); ONE(0, 0, 0, FEMEM_FILE_DAMAGED);
  add_asked(&p, 1, 1, ""); ONE(1, 2, 2, FEMEM_FILE_DAMAGED); /* below the floor that was asked for */
  add_asked(&p, UINT64_MAX, 1, ""); ONE(1, 1, 5, FEMEM_FILE_DAMAGED);
  /* None of them falls from block to block. */
  static const uint64_t falls[][3] = {{32, 40, 50}, {33, 39, 50}, {33, 40, 49}, {0, 0, 0}};
  for (int i = 0; i < 4; i++) {
    static bytes all;
    all.count = p.count = 0;
    add_header(&all);
    add_block(&all, &p, 33, 40, 50);
    add_block(&all, &p, falls[i][0], falls[i][1], falls[i][2]);
    write_kept(all.at, all.count);
    CHECK(OPEN_FILE(FEMEM_FILE_DAMAGED) == NULL);
  }
}

/* A request under number 1, of these bytes. */
static void one_request(const char *hex, femem_error due, int line) {
  static bytes p;
  p.count = 0;
  add(&p, 1, 1), add(&p, 1, 8), add(&p, 1, 8), add(&p, 0, 3);
  p.count += bytes_of(hex, p.at + p.count);
  one(&p, 1, 1, 5, due, line);
}
#define REQUEST(hex, due) one_request(hex, due, __LINE__)
#define ZEROS16 "00000000000000000000000000000000"

static void refused_requests(void) {
  test = "requests and answers that are none";
  fresh();
  REQUEST("0000001f 02 0000000000000000 05 63656c6c730000000000000000000000 00000002 01", FEMEM_OK);
  REQUEST("0000001f 02 0000000000000000 05 63656c6c730000000000000000000000 00000002 02", FEMEM_FILE_DAMAGED);
  REQUEST("0000001f 02 0000000000000000 11 63656c6c730000000000000000000000 00000002 01", FEMEM_FILE_DAMAGED);
  REQUEST("0000001f 02 0000000000000000 04 63656c6c730000000000000000000000 00000002 01", FEMEM_FILE_DAMAGED);
  REQUEST("0000002f 0c 0000000000000000 11" ZEROS16 ZEROS16 "00000002 00", FEMEM_OK);
  REQUEST("0000002f 0c 0000000000000000 10" ZEROS16 ZEROS16 "00000002 00", FEMEM_FILE_DAMAGED);
  REQUEST("0000002f 0c 0000000000000000 21" ZEROS16 ZEROS16 "00000002 00", FEMEM_FILE_DAMAGED);
  REQUEST("0000001a 03 0000000000000000 00" ZEROS16, FEMEM_OK);
  REQUEST("0000002a 0d 0000000000000000 20" ZEROS16 ZEROS16, FEMEM_OK);
  REQUEST("0000002a 0d 0000000000000000 ff" ZEROS16 ZEROS16, FEMEM_FILE_DAMAGED);
  REQUEST("00000011 04 0000000000000000 0000000000000001", FEMEM_OK);
  REQUEST("00000011 04 0000000000000001 0000000000000001", FEMEM_FILE_DAMAGED); /* under another number than 0 */
  REQUEST("00000012 04 0000000000000000 000000000000000100", FEMEM_FILE_DAMAGED);
  REQUEST("0000001e 0b 0000000000000000 12 0000000000000001 00000000 0000000000000000", FEMEM_OK);
  REQUEST("0000001e 05 0000000000000000 12 0000000000000001 00000000 0000000000000001", FEMEM_FILE_DAMAGED);
  REQUEST("0000001e 05 0000000000000000 18 0000000000000001 00000000 0000000000000000", FEMEM_FILE_DAMAGED);
  REQUEST("0000001e 05 0000000000000000 0f 0000000000000001 00000000 0000000000000000", FEMEM_FILE_DAMAGED);
  REQUEST("00000009 06 0000000000000001", FEMEM_FILE_DAMAGED);
  REQUEST("00000001 08", FEMEM_FILE_DAMAGED);
  REQUEST("00", FEMEM_FILE_DAMAGED);
  static bytes p;
  /* Flags, and the longest key. */
  add_asked(&p, 1, 1, ""), p.at[17] = 1; TAKEN_AS(1, 1, 5);
  add_asked(&p, 1, 1, ""), p.at[17] = 2; REFUSED;
  char key[FEMEM_KEY + 2];
  memset(key, 'k', sizeof key);
  key[FEMEM_KEY + 1] = 0;
  add_asked(&p, 1, 1, key); REFUSED;
  key[FEMEM_KEY] = 0;
  add_asked(&p, 1, 1, key); TAKEN_AS(1, 1, 5);
  add_asked(&p, 1, 1, "a\nb"), p.at[21] = 0; TAKEN_AS(1, 1, 5); /* a key of Python's may have a zero byte */
  /* Answers to an int_fetch_add. */
  static const struct { unsigned code; uint64_t value; uint32_t length; bool right; } answers[] = {
    {1, 7, 0, true}, {4, 0, 0, true}, {5, 0, 0, true}, {0, 0, 0, false}, {2, 0, 0, false}, {3, 1, 1, false},
    {6, 0, 0, false}, {11, 0, 0, false}, {12, 0, 0, false}, {255, 0, 0, false}, {1, 7, 1, false}, {4, 1, 0, false}};
  for (unsigned i = 0; i < sizeof answers / sizeof *answers; i++) {
    add_asked(&p, 1, 1, "a"), add_number(&p, 3, 1);
    add_answer(&p, answers[i].code, answers[i].value, answers[i].length);
    ONE(1, 2, 5, answers[i].right ? FEMEM_OK : FEMEM_FILE_DAMAGED);
  }
  /* Answers to a find: an array has at most 65,536 words. */
  for (uint32_t words = 0; words <= 65537; words += words == 1 ? 65535 : 1) {
    add_find(&p, 1), add_number(&p, 3, 1), add_answer(&p, 3, 1, words);
    ONE(1, 2, 5, words >= 1 && words <= 65536 ? FEMEM_OK : FEMEM_FILE_DAMAGED);
  }
}

/* ---- any content ---- */

static uint64_t drawn = 0x9e3779b97f4a7c15;
static unsigned draw(unsigned count) {
  drawn ^= drawn << 13;
  drawn ^= drawn >> 7;
  drawn ^= drawn << 17;
  return (unsigned)((drawn >> 11) % count);
}

/* A record of any kind, about few numbers and keys, so that some follow from others. */
static void add_any(bytes *to) {
  static const char *const keys[] = {"", "a", "b", "cc"};
  const char *key = keys[draw(4)];
  uint64_t wire = draw(8) == 0 ? draw(3) : 1 + draw(4) + (draw(4) == 0 ? 32 : 0);
  switch (1 + draw(7)) {
    case 1: add_asked(to, wire, wire, key); break;
    case 2: add_number(to, 2, wire); break;
    case 3: add_number(to, 3, wire), add_answer(to, draw(4) ? 1 : draw(13), draw(2), draw(9) == 0); break;
    case 4: add_moved(to, wire, 1 + draw(40)); break;
    case 5: add_forgotten(to, key); break;
    case 6: add_kept(to, key); break;
    default: add(to, 7, 1);
  }
}

/* Uses what a file holds, as a client does. */
static void use(session_file *kept) {
  static const char *const keys[] = {"a", "b", "cc"};
  for (int i = 0; i < 12; i++) {
    const kept_request *place = &kept->requests[draw(32)];
    const char *key = keys[draw(3)];
    const kept_key *keyed = found(kept, key);
    bool room = kept->next > 0 && kept->next < kept->asked + 32;
    if (place->wire && draw(2)) {
      session_file_end(kept, place->wire, &(femem_answer){.error = draw(2) ? FEMEM_OK : FEMEM_WITHDRAWN, .value = 3});
    } else if (keyed && keyed->is_answered) {
      session_file_forget(kept, key);
    } else if (place->wire && room && !session_place(kept, kept->next)->wire) {
      session_file_move(kept, place->wire, kept->next++);
    } else if (!keyed && room && !session_place(kept, kept->next)->wire) {
      if (session_file_ask(kept, kept->next, kept->next, &read_one, key, false)) kept->next++;
    }
  }
}

/* With any records under a right sum a file opens or is damaged, without undefined behaviour. */
static void any_records(void) {
  test = "any records";
  static bytes all, payload;
  unsigned opened = 0, damaged = 0;
  for (int round = 0; round < 20000; round++) {
    all.count = 0;
    add_header(&all);
    for (unsigned blocks = 1 + draw(2); blocks > 0; blocks--) {
      payload.count = 0;
      for (unsigned records = 1 + draw(6); records > 0; records--) add_any(&payload);
      if (draw(6) == 0) payload.at[draw((unsigned)payload.count)] = (uint8_t)draw(256);
      uint64_t floor = 1 + draw(2), asked = floor + draw(2);
      add_block(&all, &payload, floor, asked, asked + draw(33));
    }
    uint8_t *exact = malloc(all.count); /* the sanitizers report any byte read beyond them */
    memcpy(exact, all.at, all.count);
    session_file *kept = calloc(1, sizeof *kept);
    kept->descriptor = -1;
    CHECK(session_room(kept, 0));
    size_t end = 0;
    femem_error error = session_read(kept, exact, all.count, &end);
    free(exact);
    opened += error == FEMEM_OK && end == all.count;
    damaged += error == FEMEM_FILE_DAMAGED;
    if (error == FEMEM_OK) use(kept);
    session_file_close(kept);
  }
  CHECK(opened > 300 && opened + damaged == 20000);
}

int main(void) {
  setvbuf(stdout, NULL, _IOLBF, 0);
  alarm(200);
  if (!mkdtemp(folder)) return 1;
  snprintf(kept_at, sizeof kept_at, "%s/session", folder);
  snprintf(kept_new, sizeof kept_new, "%s/session.new", folder);
  snprintf(victim, sizeof victim, "%s/victim", folder);
  void (*const tests[])(void) = {keeps, settles, no_plain_file, a_link_beside_it, another_name, compaction, one_block,
                                 unused_fields, worked_example, damage, refused_records, refused_numbers,
                                 refused_requests, any_records};
  for (size_t i = 0; i < sizeof tests / sizeof *tests; i++) tests[i]();
  fresh();
  rmdir(folder);
  printf("femem client, session file: %d checks, %d failed\n", checks, failures);
  return failures ? 1 : 0;
}
