/* Arrays, the eight operations, counters and channels. */
#define _POSIX_C_SOURCE 200809L
#include "cli.h"

#include <inttypes.h>
#include <string.h>

static int bad_number(const command_line *cli, const char *word, uint64_t most) {
  return fail(cli, USAGE, "%s is no number from 0 to %" PRIu64, word, most);
}

/* Finds an array; a status. */
static int find(command_line *cli, const char *name, uint64_t *array, uint32_t *length) {
  if (!is_name(name)) return fail_for(cli, FEMEM_BAD_NAME, name);
  int status = open_client(cli);
  if (status) return status;
  femem_error error = femem_find(cli->client, name, array, length);
  return error ? fail_for(cli, error, name) : DONE;
}

static int say_array(command_line *cli, uint64_t array, uint32_t length) {
  printf(cli->given.json ? "{\"array\": %" PRIu64 ", \"length\": %" PRIu32 "}" : "array %" PRIu64 " length %" PRIu32,
         array, length);
  return said(cli);
}

int do_create(command_line *cli, char **words, int count) {
  uint64_t length, array;
  bool full = count == 4 && strcmp(words[3], "full") == 0;
  if (count == 4 && !full && strcmp(words[3], "empty")) return fail(cli, USAGE, "words are made full or empty");
  if (!is_name(words[1])) return fail_for(cli, FEMEM_BAD_NAME, words[1]);
  if (!read_number(words[2], UINT32_MAX, &length)) return bad_number(cli, words[2], UINT32_MAX);
  int status = open_client(cli);
  if (status) return status;
  femem_error error = femem_create(cli->client, words[1], (uint32_t)length, full, &array);
  return error ? fail_for(cli, error, words[1]) : say_done(cli);
}

int do_find(command_line *cli, char **words, int count) {
  (void)count;
  uint64_t array;
  uint32_t length;
  int status = find(cli, words[1], &array, &length);
  return status ? status : say_array(cli, array, length);
}

int do_remove(command_line *cli, char **words, int count) {
  (void)count;
  uint64_t array;
  int status = find(cli, words[1], &array, NULL);
  if (status) return status;
  femem_error error = femem_remove(cli->client, array);
  return error ? fail_for(cli, error, words[1]) : say_done(cli);
}

static const struct { const char *name; femem_operation code; bool writes, reads; } operations[] = {
  {"readfe", FEMEM_READFE, false, true},   {"readff", FEMEM_READFF, false, true},
  {"readxx", FEMEM_READXX, false, true},   {"writeef", FEMEM_WRITEEF, true, false},
  {"writeff", FEMEM_WRITEFF, true, false}, {"writexf", FEMEM_WRITEXF, true, false},
  {"purge", FEMEM_PURGE, false, false},    {"int_fetch_add", FEMEM_INT_FETCH_ADD, true, true},
};

int do_word(command_line *cli, char **words, int count) {
  size_t at = 0;
  while (strcmp(operations[at].name, words[0])) at++;
  bool writes = operations[at].writes, adds = operations[at].code == FEMEM_INT_FETCH_ADD;
  uint64_t array, index, operand = 0;
  uint32_t length;
  if (count != 3 + writes) return fail(cli, USAGE, "%s NAME INDEX%s", words[0], writes ? " VALUE" : "");
  if (!read_number(words[2], UINT32_MAX, &index)) return bad_number(cli, words[2], UINT32_MAX);
  bool right = !writes || (adds ? read_amount(words[3], &operand) : read_number(words[3], UINT64_MAX, &operand));
  if (!right) return bad_number(cli, words[3], UINT64_MAX);
  int status = find(cli, words[1], &array, &length);
  if (status) return status;
  if (index >= length) return fail(cli, REFUSED, "%s has the words 0 to %" PRIu32, words[1], length - 1);
  femem_answer answer;
  femem_error error =
      make_request(cli, on_word(operations[at].code, array, (uint32_t)index, operand, false), &answer);
  if (error) return fail_for(cli, error, words[1]);
  return operations[at].reads ? say_value(cli, answer.value) : say_done(cli);
}

/* ---- the first of several words ---- */

enum { MOST_OF_FIRST = 31 };

/* Reads pairs of a name and an index; a status. */
static int take_pairs(command_line *cli, char **words, size_t pairs, femem_operation operation, femem_request *asked) {
  for (size_t i = 0; i < pairs; i++) {
    uint64_t array, index;
    uint32_t length;
    const char *name = words[2 * i], *word = words[2 * i + 1];
    if (!read_number(word, UINT32_MAX, &index)) return bad_number(cli, word, UINT32_MAX);
    int status = find(cli, name, &array, &length);
    if (status) return status;
    if (index >= length) return fail(cli, REFUSED, "%s has the words 0 to %" PRIu32, name, length - 1);
    asked[i] = on_word(operation, array, (uint32_t)index, 0, false);
  }
  return DONE;
}

/* Each word that was full: its name, index and value. Several may have been at once. */
int do_first(command_line *cli, char **words, int count) {
  femem_request asked[MOST_OF_FIRST];
  femem_answer got[MOST_OF_FIRST];
  bool empties = strcmp(words[1], "readfe") == 0;
  size_t pairs = (size_t)(count - 2) / 2;
  if (!(empties || strcmp(words[1], "readff") == 0) || count % 2 || pairs > MOST_OF_FIRST)
    return fail(cli, USAGE, "first readfe|readff NAME INDEX [NAME INDEX ..], at most %d words", MOST_OF_FIRST);
  int status = take_pairs(cli, words + 2, pairs, empties ? FEMEM_READFE : FEMEM_READFF, asked);
  if (status) return status;
  int64_t within = cli->given.no_wait ? 0 : cli->given.timeout < 0 ? FEMEM_FOREVER : cli->given.timeout;
  femem_error error = femem_wait_any(cli->client, asked, pairs, within, got);
  cli->stopped = error == FEMEM_WITHDRAWN && nap(cli->stop, 0);
  if (error) return fail_for(cli, error, "first");
  const char *line = cli->given.json ? "{\"name\": \"%s\", \"index\": %s, \"value\": %" PRIu64 "}" : "%s %s %" PRIu64;
  for (size_t i = 0; i < pairs && status == DONE; i++) {
    if (got[i].error == FEMEM_WITHDRAWN) continue;
    if (got[i].error) return fail_for(cli, got[i].error, words[2 + 2 * i]);
    printf(line, words[2 + 2 * i], words[3 + 2 * i], got[i].value);
    status = said(cli);
  }
  return status;
}

/* ---- counters and channels ---- */

/* Finds or makes an array of one word; a status. */
static int one_word(command_line *cli, const char *name, bool full, const char *what, uint64_t *array) {
  if (!is_name(name)) return fail_for(cli, FEMEM_BAD_NAME, name);
  int status = open_client(cli);
  if (status) return status;
  femem_error error = shared_array(cli, name, 1, full, array);
  if (error == FEMEM_BAD_CALL) return fail(cli, REFUSED, "%s is an array of several words, and no %s", name, what);
  return error ? fail_for(cli, error, name) : DONE;
}

int do_counter(command_line *cli, char **words, int count) {
  uint64_t array, amount = 0;
  if (count == 3 && !read_amount(words[2], &amount)) return fail(cli, USAGE, "%s is no amount, as +1 is", words[2]);
  int status = one_word(cli, words[1], true, "counter", &array);
  if (status) return status;
  femem_answer answer;
  femem_operation operation = count == 3 ? FEMEM_INT_FETCH_ADD : FEMEM_READFF;
  femem_error error = make_request(cli, on_word(operation, array, 0, amount, false), &answer);
  return error ? fail_for(cli, error, words[1]) : say_value(cli, answer.value + amount);
}

int do_channel(command_line *cli, char **words, int count) {
  uint64_t array, value = 0;
  bool puts = count == 4 && strcmp(words[2], "put") == 0;
  if (!puts && !(count == 3 && strcmp(words[2], "take") == 0))
    return fail(cli, USAGE, "channel NAME put VALUE, or channel NAME take");
  if (puts && !read_number(words[3], UINT64_MAX, &value)) return bad_number(cli, words[3], UINT64_MAX);
  int status = one_word(cli, words[1], false, "channel", &array);
  if (status) return status;
  femem_answer answer;
  femem_error error = make_request(cli, on_word(puts ? FEMEM_WRITEEF : FEMEM_READFE, array, 0, value, false), &answer);
  if (error) return fail_for(cli, error, words[1]);
  return puts ? say_done(cli) : say_value(cli, answer.value);
}

int do_forget(command_line *cli, char **words, int count) {
  (void)count;
  if (!cli->given.file) return fail(cli, USAGE, "keys are in a session file: --session-file FILE");
  int status = open_client(cli);
  if (status) return status;
  femem_error error = femem_forget(cli->client, words[1]);
  if (error == FEMEM_NOTHING_OUT) return fail(cli, REFUSED, "there is no such key");
  return error ? fail_for(cli, error, words[1]) : say_done(cli);
}
