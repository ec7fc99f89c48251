/* Locks and semaphores around a command, and barriers, by libfemem. */
#define _POSIX_C_SOURCE 200809L
#include "cli.h"

#include <inttypes.h>
#include <stdlib.h>
#include <string.h>

/* Milliseconds for which a session is taken back that another connection has, and how often. */
enum { BACK = 5000, TAKEN_BACK = 4 };

/* Makes a call that waits, until it is time to give up. The server may read the attach of a connection that was given up
   after that of the next one: then the session is taken back. */
static femem_error wait_on(holding *held, femem_error (*call)(holding *held, int64_t within)) {
  command_line *cli = held->cli;
  int64_t end = cli->given.no_wait ? now() : moment(cli->given.timeout);
  femem_error error = call(held, left(end));
  for (int back = 0; error == FEMEM_REFUSED_NOT_ATTACHED && back < TAKEN_BACK; back++) {
    error = femem_reconnect(cli->client, BACK);
    if (error == FEMEM_OK) error = call(held, left(end));
  }
  cli->stopped = error == FEMEM_WITHDRAWN && nap(cli->stop, 0);
  return error;
}

/* ---- locks ---- */

static bool is_lock_name(const command_line *cli, const char *word) {
  return cli->given.in ? *word && is_name(cli->given.in) : is_name(word);
}

static int bad_lock_name(const command_line *cli, const char *word) {
  return *word ? fail_for(cli, FEMEM_BAD_NAME, cli->given.in ? cli->given.in : word) : fail(cli, USAGE, "a key is a text");
}

static femem_error open_lock(command_line *cli, const char *name, femem_lock **lock) {
  const char *in = cli->given.in;
  return in ? femem_lock_open_in(lock, cli->client, in, cli->given.capacity, name) : femem_lock_open(lock, cli->client, name);
}

static int say_lock(const command_line *cli, const char *name, femem_error error) {
  const char *in = cli->given.in;
  if (error == FEMEM_BAD_CALL && in)
    return fail(cli, REFUSED, "%s has no locks of keys with that capacity: --capacity is the same for all", in);
  if (error == FEMEM_BAD_CALL) return fail(cli, REFUSED, "%s is an array, and no lock", name);
  if (error == FEMEM_NO_ARRAY) return fail(cli, REFUSED, "%s: there is no such lock", name);
  return fail_for(cli, error, name);
}

static femem_error acquire_lock(holding *held, int64_t within) {
  int64_t after = held->cli->given.takeover_after;
  return femem_lock_acquire(held->lock, within, after < 0 ? FEMEM_NEVER : after);
}

static int begin_lock(holding *held) {
  command_line *cli = held->cli;
  uint64_t broke;
  int status = open_client(cli);
  if (status) return status;
  femem_error error = open_lock(cli, held->name, &held->lock);
  if (error == FEMEM_OK) error = wait_on(held, acquire_lock);
  if (error) femem_lock_close(held->lock);
  if (error) return say_lock(cli, held->name, error);
  held->told[0].value = femem_lock_generation(held->lock);
  if (femem_lock_broke(held->lock, &broke))
    fail(cli, DONE, "%s: taken over from session %" PRIu64 ", which was away", held->name, broke);
  return DONE;
}

static int end_lock(holding *held, int status) {
  (void)status;
  command_line *cli = held->cli;
  femem_error error = femem_lock_release(held->lock);
  femem_lock_close(held->lock);
  if (error == FEMEM_NOT_OWNER || error == FEMEM_REFUSED_NOT_ATTACHED)
    return fail(cli, FAULT, "%s: the lock was taken over while the command ran", held->name);
  if (error) fail(cli, DONE, "%s: session %" PRIu64 " still holds it", held->name, femem_session(cli->client));
  return error ? fail_for(cli, error, held->name) : DONE;
}

int do_lock(command_line *cli, char **words, int count) {
  if (count < 4 || strcmp(words[2], "--")) return fail(cli, USAGE, "lock NAME -- COMMAND ..");
  if (!is_lock_name(cli, words[1])) return bad_lock_name(cli, words[1]);
  holding held = {.cli = cli, .name = words[1], .begin = begin_lock, .end = end_lock, .goes_on = true, .shows = true,
                  .told = {{.name = "FEMEM_GENERATION"}}};
  return run_holding(&held, words + 3);
}

/* Opens a lock without making it; a status. */
static int open_made(command_line *cli, const char *name, femem_lock **lock) {
  if (!is_lock_name(cli, name)) return bad_lock_name(cli, name);
  int status = open_client(cli);
  if (status) return status;
  femem_error error = open_lock(cli, name, lock);
  return error ? say_lock(cli, name, error) : DONE;
}

int do_owner(command_line *cli, char **words, int count) {
  (void)count;
  uint64_t owner = 0;
  bool there = false;
  femem_lock *lock;
  int status = open_made(cli, words[1], &lock);
  if (status) return status;
  femem_error error = femem_lock_owner(lock, &owner, &there);
  femem_lock_close(lock);
  if (error && error != FEMEM_NOT_NOW) return say_lock(cli, words[1], error);
  if (error) return say_text(cli, cli->given.json ? "{\"owner\": null}" : "free");
  if (cli->given.json) printf("{\"owner\": %" PRIu64 ", \"away\": %s}", owner, there ? "false" : "true");
  else printf("session %" PRIu64 "%s", owner, there ? "" : " away");
  return said(cli);
}

int do_break(command_line *cli, char **words, int count) {
  (void)count;
  femem_lock *lock;
  int status = open_made(cli, words[1], &lock);
  if (status) return status;
  femem_error error = femem_lock_break(lock);
  femem_lock_close(lock);
  return error ? say_lock(cli, words[1], error) : say_done(cli);
}

/* ---- semaphores ---- */

static int open_semaphore(command_line *cli, const char *name, femem_semaphore **semaphore) {
  if (!is_name(name)) return fail_for(cli, FEMEM_BAD_NAME, name);
  int status = open_client(cli);
  if (status) return status;
  femem_error error = femem_semaphore_open(semaphore, cli->client, name, cli->given.parties);
  return error ? fail_for(cli, error, name) : DONE;
}

static int say_semaphore(const command_line *cli, const char *name, femem_error error) {
  if (error == FEMEM_BAD_CALL)
    return fail(cli, REFUSED, "%s is no semaphore of %" PRIu32 " permits: -n is the same for all", name, cli->given.parties);
  return fail_for(cli, error, name);
}

static femem_error acquire_permit(holding *held, int64_t within) { return femem_semaphore_acquire(held->semaphore, within); }

static int begin_permit(holding *held) {
  int status = open_semaphore(held->cli, held->name, &held->semaphore);
  if (status) return status;
  femem_error error = wait_on(held, acquire_permit);
  if (error) femem_semaphore_close(held->semaphore);
  return error ? say_semaphore(held->cli, held->name, error) : DONE;
}

static int end_permit(holding *held, int status) {
  (void)status;
  femem_error error = femem_semaphore_release(held->semaphore);
  femem_semaphore_close(held->semaphore);
  if (error == FEMEM_NOT_OWNER)
    return fail(held->cli, FAULT, "%s: the permit was given back while the command ran", held->name);
  return error ? fail_for(held->cli, error, held->name) : DONE;
}

/* Each session that holds a permit, once for each. */
static int list_holders(command_line *cli, femem_semaphore *semaphore, const char *name) {
  size_t count, most = cli->given.parties;
  uint64_t *sessions = calloc(most, sizeof *sessions);
  if (!sessions) return fail_for(cli, FEMEM_MEMORY, name);
  femem_error error = femem_semaphore_holders(semaphore, sessions, most, &count);
  int status = error ? say_semaphore(cli, name, error) : DONE;
  for (size_t i = 0; status == DONE && i < count; i++) {
    printf(cli->given.json ? "{\"session\": %" PRIu64 "}" : "session %" PRIu64, sessions[i]);
    status = said(cli);
  }
  free(sessions);
  return status;
}

static int free_permit(command_line *cli, femem_semaphore *semaphore, const char *name, const char *word) {
  uint64_t session;
  if (!read_number(word, UINT64_MAX, &session)) return fail(cli, USAGE, "%s is no number of a session", word);
  femem_error error = femem_semaphore_release_of(semaphore, session);
  if (error == FEMEM_NOT_OWNER) return fail(cli, REFUSED, "%s: session %s has no permit", name, word);
  return error ? say_semaphore(cli, name, error) : say_done(cli);
}

int do_semaphore(command_line *cli, char **words, int count) {
  bool runs = count > 3 && strcmp(words[2], "--") == 0, frees = count == 4 && strcmp(words[2], "free") == 0;
  if (cli->given.parties == 0 || !(runs || frees || count == 2))
    return fail(cli, USAGE, "semaphore NAME -n PERMITS [-- COMMAND .. | free SESSION]");
  if (runs) {
    holding held = {.cli = cli, .name = words[1], .begin = begin_permit, .end = end_permit, .goes_on = true};
    return is_name(words[1]) ? run_holding(&held, words + 3) : fail_for(cli, FEMEM_BAD_NAME, words[1]);
  }
  femem_semaphore *semaphore;
  int status = open_semaphore(cli, words[1], &semaphore);
  if (status) return status;
  status = frees ? free_permit(cli, semaphore, words[1], words[3]) : list_holders(cli, semaphore, words[1]);
  femem_semaphore_close(semaphore);
  return status;
}

/* ---- barriers ---- */

/* A signal ends the wait, and so breaks the round. */
int do_barrier(command_line *cli, char **words, int count) {
  bool resets = count == 3 && strcmp(words[2], "reset") == 0;
  if (cli->given.parties == 0 || !(resets || count == 2)) return fail(cli, USAGE, "barrier NAME -n PARTIES [reset]");
  if (!is_name(words[1]) || strlen(words[1]) > LONGEST_NAME - 2)
    return fail(cli, REFUSED, "%s: names of barriers have a to z, 0 to 9 and _, and 1 to 30 of these", words[1]);
  int status = open_client(cli);
  if (status) return status;
  uint32_t number = 0;
  femem_barrier *barrier = NULL;
  femem_error error = femem_barrier_open(&barrier, cli->client, words[1], cli->given.parties);
  int64_t within = cli->given.no_wait ? 0 : cli->given.timeout < 0 ? FEMEM_FOREVER : cli->given.timeout;
  if (error == FEMEM_OK)
    error = resets ? femem_barrier_reset(barrier) : femem_barrier_wait(barrier, within, &number);
  femem_barrier_close(barrier);
  cli->stopped = error == FEMEM_WITHDRAWN && nap(cli->stop, 0);
  if (error == FEMEM_BAD_CALL) return fail(cli, REFUSED, "%s is no barrier", words[1]);
  if (error == FEMEM_BROKEN)
    return fail(cli, REFUSED, "%s: a wait was too long, and broke the round: 'barrier %s -n %" PRIu32 " reset' begins a new one",
                words[1], words[1], cli->given.parties);
  if (error) return fail_for(cli, error, words[1]);
  return resets ? say_done(cli) : say_value(cli, number);
}
