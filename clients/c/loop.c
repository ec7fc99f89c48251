/* Programs with a loop of their own: opening and coming back without waiting; and lines for a log. */
#define _POSIX_C_SOURCE 200809L
#include "client.h"

#include <errno.h>
#include <inttypes.h>
#include <limits.h>
#include <stdarg.h>
#include <stdio.h>
#include <string.h>

/* Microseconds: between two tries at first and at most; between two lines that say so. */
enum { FIRST_PAUSE = 1000, LONGEST_PAUSE = 50000, BETWEEN_LINES = 5000000 };

/* ---- lines for a log ---- */

void femem_log(femem *client, femem_log_function function, void *context) {
  client->log = function;
  client->log_context = context;
}

void fe_log(const femem *client, const char *form, ...) {
  char line[200];
  if (!client->log) return;
  int size = snprintf(line, sizeof line, "session %" PRIu64 ": ", client->session);
  va_list words;
  va_start(words, form);
  vsnprintf(line + size, sizeof line - (size_t)size, form, words);
  va_end(words);
  client->log(client->log_context, line);
}

void fe_log_try(femem *client, femem_error error) {
  char why[80];
  if (!client->log || (client->tried_at && fe_now() - client->tried_at < BETWEEN_LINES)) return;
  client->tried_at = fe_now();
  if (error != FEMEM_UNREACHABLE || strerror_r(client->system, why, sizeof why)) why[0] = 0;
  fe_log(client, "tried again: %s%s%s", femem_error_text(error), why[0] ? ": " : "", why);
}

/* ---- calls that do not wait ---- */

femem_error fe_enter(femem *client, bool may_wait) {
  if (fe_is_copy(client)) return FEMEM_FORKED;
  if (client->opening) return FEMEM_BAD_CALL;
  client->at_once = client->loops && !may_wait;
  return FEMEM_OK;
}

femem_error fe_leave(femem *client, femem_error error) {
  client->at_once = false;
  return error;
}

int fe_poll_time(int64_t end) {
  if (end < 0) return -1;
  int64_t left = end - fe_now();
  if (left <= 0) return 0;
  int64_t rounded = (left + 999) / 1000;
  return rounded > INT_MAX ? INT_MAX : (int)rounded;
}

static void begin_tries(femem *client) {
  const femem_settings *settings = &client->settings;
  int64_t limit = settings->reconnect > 0 ? settings->reconnect : client->opening ? settings->wait : FEMEM_FOREVER;
  client->trying = true;
  client->give_up_at = fe_moment(limit);
  client->pause = FIRST_PAUSE;
  /* A server that hangs up at each welcome is not asked without a pause. */
  client->try_at = fe_now() + (client->opened ? FIRST_PAUSE : 0);
}

static femem_error give_up(femem *client, femem_error error) {
  client->trying = false;
  fe_close_line(client, error);
  client->failed = error;
  fe_log(client, "given up: %s", femem_error_text(error));
  return error;
}

femem_error fe_reach_at_once(femem *client) {
  if (!client->trying) begin_tries(client);
  bool over = fe_is_past(client->give_up_at), again = client->settings.reconnect != FEMEM_NEVER;
  femem_error error = FEMEM_TIMEOUT;
  if (client->phase != CLOSED || fe_is_past(client->try_at)) error = fe_attach(client, fe_now());
  if (error == FEMEM_OK || (error == FEMEM_TIMEOUT && !over)) return error;
  if (error == FEMEM_TIMEOUT && client->phase != CLOSED) client->system = ETIMEDOUT;
  bool passes = error == FEMEM_TIMEOUT || fe_is_passing(client, error);
  if (error == FEMEM_UNREACHABLE || (passes && over)) error = fe_not_reached(client);
  if (!passes || !again || over) return give_up(client, error);
  fe_log_try(client, error);
  client->broken = FEMEM_DISCONNECTED;
  client->try_at = fe_now() + client->pause;
  if (client->pause < LONGEST_PAUSE) client->pause *= 2;
  return FEMEM_TIMEOUT;
}

/* ---- opening ---- */

static void begin(femem *client) {
  client->loops = client->opening = true;
  client->broken = FEMEM_DISCONNECTED;
}

femem_error femem_open_begin(femem **client, const char *path, uint64_t session, const femem_settings *settings) {
  if (!client) return FEMEM_BAD_CALL;
  *client = NULL;
  femem_error error = fe_make(client, path, session, settings);
  if (error == FEMEM_OK) begin(*client);
  return error;
}

femem_error femem_open_file_begin(femem **client, const char *path, const char *file, const femem_settings *settings) {
  if (!client) return FEMEM_BAD_CALL;
  *client = NULL;
  femem *made = NULL;
  femem_error error = fe_make_file(&made, path, file, settings);
  bool leaves = error == FEMEM_OK && made->file->leaving;
  if (leaves) {
    made->left = made->file;
    made->file = NULL;
    made->session = made->left->session;
  }
  if (error == FEMEM_OK && !leaves) error = fe_restore(made);
  if (error == FEMEM_OK) {
    begin(made);
    *client = made;
    return FEMEM_OK;
  }
  int why = errno;
  femem_close(made);
  errno = why;
  return error;
}

/* Ends the session that an earlier life was about to end. FEMEM_OK: it has ended, and the file has a new one. */
static femem_error end_left(femem *client) {
  if (!client->bye) fe_put_bare(client, BYE);
  client->bye = true;
  fe_step(client, fe_now());
  if (!client->ended && fe_is_past(client->give_up_at)) {
    client->system = ETIMEDOUT;
    return give_up(client, FEMEM_UNREACHABLE);
  }
  if (!client->ended) return FEMEM_TIMEOUT;
  fe_close_line(client, FEMEM_DISCONNECTED);
  client->file = client->left;
  client->left = NULL;
  client->opened = client->ended = client->bye = false;
  if (!session_file_begin(client->file)) {
    client->system = errno;
    return give_up(client, FEMEM_FILE_FAULT);
  }
  femem_error error = fe_restore(client);
  return error ? give_up(client, error) : FEMEM_OK;
}

/* ---- the loop ---- */

/* Whether a client that is not connected tries to be. */
static bool comes_back(const femem *client) {
  bool may = client->opening || client->trying || client->settings.reconnect != FEMEM_NEVER;
  return may && !client->failed && client->broken == FEMEM_DISCONNECTED;
}

static femem_error run(femem *client) {
  if (client->phase == SERVED) {
    if (client->out == 0) client->quiet_since = fe_now();
    femem_error error = fe_step(client, fe_now());
    if (client->phase == SERVED) return error == FEMEM_TIMEOUT ? FEMEM_OK : error;
  }
  if (client->phase == CLOSED && !comes_back(client)) return client->broken;
  return fe_reach_at_once(client);
}

femem_error femem_poll(femem *client) {
  if (fe_is_copy(client)) return FEMEM_FORKED;
  if (client->ended && !client->left) return FEMEM_ENDED;
  client->loops = client->at_once = true;
  femem_error error = client->ended ? FEMEM_OK : run(client);
  if (error == FEMEM_OK && client->left) {
    error = end_left(client);
    if (error == FEMEM_OK) error = run(client);
  }
  if (error == FEMEM_OK && client->opening) {
    client->opening = false;
    client->returns = 0;
  }
  return fe_leave(client, error);
}

bool femem_wants_write(const femem *client) {
  return client->descriptor >= 0 && client->output_begin < client->output_end;
}

int femem_poll_time(const femem *client) {
  int64_t at = -1;
  if (fe_is_copy(client) || (client->ended && !client->left)) return -1;
  if (client->phase == CLOSED && !comes_back(client)) return -1;
  if (client->phase == CLOSED) at = client->trying ? client->try_at : 0;
  else if (client->phase != SERVED && !client->welcomed) at = client->attach_at;
  else if (client->phase == SERVED && client->out > 0 && !client->bye) at = client->quiet_since + INT64_C(1000) * FEMEM_QUIET;
  bool limited = (client->trying || client->left) && client->give_up_at >= 0;
  return fe_poll_time(limited && (at < 0 || client->give_up_at < at) ? client->give_up_at : at);
}
