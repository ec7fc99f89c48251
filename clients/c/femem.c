/* Calls on the session, and what a client knows about itself. */
#define _POSIX_C_SOURCE 200809L
#include "client.h"

#include <stdlib.h>

/* Milliseconds. */
enum { LONGEST_BYE = 1000 };

femem_error femem_settle(femem *client) {
  femem_error error = fe_usable(client);
  if (error) return error;
  if (client->low > client->floor_asked) fe_put_settle(client, client->low);
  return fe_wait_for(client, fe_is_settled, client->floor_asked, fe_moment(client->settings.wait));
}

femem_error femem_report(femem *client, const char **text) {
  femem_error error = fe_usable(client);
  if (error) return error;
  if (!client->text) client->text = malloc(LONGEST_REPORT + 1);
  if (!client->text) return FEMEM_MEMORY;
  /* If an earlier report was requested and its wait ended early, that report is the answer. */
  if (client->report == REPORT_NONE) {
    client->report = REPORT_ASKED;
    fe_put_bare(client, REPORT);
  }
  error = fe_wait_for(client, fe_is_reported, 0, fe_moment(client->settings.wait));
  if (error) return error;
  client->report = REPORT_NONE;
  *text = client->text;
  return client->report_error;
}

static femem_error say_bye(femem *client, int64_t end) {
  if (client->out > 0) return FEMEM_BAD_CALL;
  femem_error error = client->bye && client->broken != FEMEM_ENDED ? FEMEM_OK : fe_usable_until(client, end);
  if (error) return error;
  if (!client->bye && client->file) session_file_leave(client->file);
  if (!client->bye) fe_put_bare(client, BYE);
  client->bye = true;
  error = fe_wait_for(client, fe_is_ended, 0, end);
  if (error) return error;
  fe_close_line(client, FEMEM_ENDED);
  /* If this fails, the next life ends the session once more. */
  if (client->file) session_file_begin(client->file);
  return FEMEM_OK;
}

femem_error femem_bye(femem *client) { return femem_bye_within(client, LONGEST_BYE); }

femem_error femem_bye_within(femem *client, int64_t within) {
  femem_error error = fe_enter(client, within != 0);
  return error ? error : fe_leave(client, say_bye(client, fe_moment(within)));
}

int femem_descriptor(const femem *client) { return client->descriptor; }
unsigned femem_out(const femem *client) { return client->out; }
unsigned femem_ready(const femem *client) { return client->ready; }
uint64_t femem_session(const femem *client) { return client->session; }
uint64_t femem_number(const femem *client) { return client->last; }
uint64_t femem_floor(const femem *client) { return client->floor_told; }
uint64_t femem_reconnects(const femem *client) { return client->returns; }
int femem_errno(const femem *client) { return client->system; }

/* A name in plain words for each error. */
static const struct {
  femem_error error;
  const char *text;
} texts[] = {
  {FEMEM_OK, "ok"},
  {FEMEM_NO_ARRAY, "no-array"},
  {FEMEM_BAD_INDEX, "bad-index"},
  {FEMEM_NAME_TAKEN, "name-taken"},
  {FEMEM_ARRAY_LIMIT, "array-limit"},
  {FEMEM_WORD_LIMIT, "word-limit"},
  {FEMEM_BAD_NAME, "bad-name"},
  {FEMEM_BAD_LENGTH, "bad-length"},
  {FEMEM_NOT_NOW, "not-now"},
  {FEMEM_REFUSED_NOT_ATTACHED, "refused: not-attached"},
  {FEMEM_REFUSED_SESSION_LIMIT, "refused: session-limit"},
  {FEMEM_REFUSED_BELOW_FLOOR, "refused: below-floor"},
  {FEMEM_REFUSED_BEYOND_WINDOW, "refused: beyond-window"},
  {FEMEM_REFUSED_NUMBER_USED, "refused: number-used"},
  {FEMEM_REFUSED_STILL_WAITING, "refused: still-waiting"},
  {FEMEM_REFUSED_CLOSING, "refused: closing"},
  {FEMEM_REFUSED_NO_MEMORY, "refused: no-memory"},
  {FEMEM_REFUSED_SPENT, "refused: spent"},
  {FEMEM_REFUSED_NOT_WAITING, "refused: not-waiting"},
  {FEMEM_TIMEOUT, "no answer in time"},
  {FEMEM_DISCONNECTED, "the server ended the connection"},
  {FEMEM_UNREACHABLE, "no server was reached"},
  {FEMEM_SYSTEM, "a call of the system failed"},
  {FEMEM_WITHDRAWN, "withdrawn"},
  {FEMEM_WINDOW_FULL, "the window is full"},
  {FEMEM_NOTHING_OUT, "nothing is out under that number"},
  {FEMEM_BAD_CALL, "an argument is not allowed"},
  {FEMEM_ENDED, "the session has ended"},
  {FEMEM_MEMORY, "no memory"},
  {FEMEM_FORKED, "the client is another process's"},
  {FEMEM_FILE_FAULT, "the session file could not be read, written or synced"},
  {FEMEM_FILE_IN_USE, "another client has the session file"},
  {FEMEM_FILE_DAMAGED, "the session file is damaged"},
  {FEMEM_OTHER_REQUEST, "the key was asked with another request"},
  {FEMEM_NOT_OWNER, "it is not held here: it was released, ended or taken over"},
  {FEMEM_NO_RIGHT, "this process may not use the socket"},
  {FEMEM_BROKEN, "the barrier's round was broken"},
  {FEMEM_BAD_FRAME, "the server sent a bad frame"},
  {FEMEM_WRONG_NUMBER, "the server replied to a number that is not out"},
  {FEMEM_STRANGE_REPLY, "the server sent a reply to nothing that was asked"},
  {FEMEM_CHANGED_ANSWER, "the server changed an answer"},
  {FEMEM_SESSION_LOST, "the session on the server is another one"},
};

const char *femem_error_text(femem_error error) {
  for (size_t i = 0; i < sizeof texts / sizeof *texts; i++)
    if (texts[i].error == error) return texts[i].text;
  return "unknown error";
}

const char *femem_version(void) { return FEMEM_VERSION; }
