/* What femem-cli prints. */
#define _POSIX_C_SOURCE 200809L
#include "cli.h"

#include <errno.h>
#include <inttypes.h>
#include <stdarg.h>
#include <string.h>

int said(command_line *cli) {
  putchar('\n');
  return fflush(stdout) == 0 ? DONE : fail(cli, FAULT, "standard output: %s", strerror(errno));
}

int say_text(command_line *cli, const char *text) {
  fputs(text, stdout);
  return said(cli);
}

/* In a list and at the prompt each line has an answer, which is otherwise the status alone. */
int say_done(command_line *cli) {
  if (cli->given.json) return say_text(cli, "{\"done\": true}");
  return cli->line || cli->prompts ? say_text(cli, "done") : DONE;
}

int say_value(command_line *cli, uint64_t value) {
  printf(cli->given.json ? "{\"value\": %" PRIu64 "}" : "%" PRIu64, value);
  return said(cli);
}

int fail(const command_line *cli, int status, const char *format, ...) {
  va_list values;
  if (status == LATE && cli->given.quiet) return status;
  va_start(values, format);
  fputs("femem-cli: ", stderr);
  if (cli->line) fprintf(stderr, "line %u: ", cli->line);
  vfprintf(stderr, format, values);
  fputc('\n', stderr);
  va_end(values);
  return status;
}

int status_of(femem_error error) {
  switch ((int)error) {
    case FEMEM_OK: return DONE;
    case FEMEM_NOT_NOW: case FEMEM_WITHDRAWN: case FEMEM_FILE_IN_USE: return LATE;
    case FEMEM_TIMEOUT: case FEMEM_DISCONNECTED: case FEMEM_UNREACHABLE: return NO_SERVER;
    case FEMEM_NO_RIGHT: return NO_RIGHT;
    case FEMEM_OTHER_REQUEST: case FEMEM_NOT_OWNER: return REFUSED;
    default: return error < FEMEM_TIMEOUT ? REFUSED : FAULT;
  }
}

const char *text_of(femem_error error) {
  switch ((int)error) {
    case FEMEM_NO_ARRAY: return "there is no such array: 'create' makes one";
    case FEMEM_BAD_INDEX: return "the array has fewer words; the first one has the index 0";
    case FEMEM_NAME_TAKEN: return "there is an array of that name: 'find' finds it";
    case FEMEM_ARRAY_LIMIT: return "the server has 64 arrays, which is the most: 'remove' removes one";
    case FEMEM_WORD_LIMIT: return "the arrays would have more than 65536 words in all: 'remove' removes one";
    case FEMEM_BAD_NAME: return "names have a to z, 0 to 9 and _, and 1 to 32 of these";
    case FEMEM_BAD_LENGTH: return "a length is 1 to 65536";
    case FEMEM_NOT_NOW: return "not now: without 'nowait' it waits";
    case FEMEM_WITHDRAWN: return "not in time";
    case FEMEM_REFUSED_NOT_ATTACHED:
      return "each client needs a session of its own, and another client has taken this one";
    case FEMEM_REFUSED_SESSION_LIMIT:
      return "the server has 64 sessions, which is the most: 'femem-cli sessions' lists them";
    case FEMEM_REFUSED_BELOW_FLOOR: case FEMEM_REFUSED_BEYOND_WINDOW: case FEMEM_REFUSED_NUMBER_USED:
      return "each client needs a session of its own, and another client uses this one";
    case FEMEM_REFUSED_STILL_WAITING: return "a request has no answer yet: wait for it, or take it back";
    case FEMEM_REFUSED_CLOSING: return "the session is being ended: use another one";
    case FEMEM_REFUSED_NO_MEMORY: return "the server has no memory for this now: try again later";
    case FEMEM_REFUSED_SPENT: return "the store has no place for further entries, ever: make a new one";
    case FEMEM_REFUSED_NOT_WAITING: return "nothing waits under that number";
    case FEMEM_NOT_OWNER: return "it is not this session's any more";
    case FEMEM_OTHER_REQUEST: return "the key was used with another request: 'forget KEY' frees it";
    case FEMEM_FILE_IN_USE: return "another process uses the session file";
    case FEMEM_TIMEOUT: case FEMEM_DISCONNECTED: case FEMEM_UNREACHABLE: return "the server does not answer";
    default: return femem_error_text(error);
  }
}

int fail_for(const command_line *cli, femem_error error, const char *what) {
  if (cli->stopped) return status_of(error); /* a signal ends it */
  if (error == FEMEM_WITHDRAWN && cli->given.no_wait) error = FEMEM_NOT_NOW;
  return what ? fail(cli, status_of(error), "%s: %s", what, text_of(error))
              : fail(cli, status_of(error), "%s", text_of(error));
}
