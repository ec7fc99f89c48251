/* Making, opening and closing clients. */
#define _POSIX_C_SOURCE 200809L
#include "client.h"

#include <errno.h>
#include <stdlib.h>
#include <string.h>
#include <unistd.h>

/* Settings with no limit as FEMEM_FOREVER. Those of a newer version may have more fields, which must be 0. */
static bool take_settings(femem_settings *taken, const femem_settings *given) {
  *taken = (femem_settings)FEMEM_SETTINGS_DEFAULT;
  if (!given) return true;
  size_t size = given->size ? given->size : sizeof *taken;
  for (size_t at = sizeof *taken; at < size; at++)
    if (((const char *)given)[at]) return false;
  *taken = (femem_settings){0};
  memcpy(taken, given, size < sizeof *taken ? size : sizeof *taken);
  if (taken->wait <= 0) taken->wait = FEMEM_FOREVER;
  if (taken->reconnect == 0) taken->reconnect = FEMEM_FOREVER;
  if (taken->reconnect < FEMEM_NEVER) taken->reconnect = FEMEM_NEVER;
  return true;
}

femem_error fe_make(femem **client, const char *path, uint64_t session, const femem_settings *settings) {
  struct sockaddr_un address = {.sun_family = AF_UNIX};
  femem_settings taken;
  if (!path || !*path || strlen(path) >= sizeof address.sun_path) return FEMEM_BAD_CALL;
  if (!take_settings(&taken, settings)) return FEMEM_BAD_CALL;
  memcpy(address.sun_path, path, strlen(path));
  femem *made = *client = calloc(1, sizeof *made);
  if (!made) return FEMEM_MEMORY;
  made->forks = fe_forks();
  made->descriptor = made->stop = -1;
  made->address = address;
  made->session = session;
  made->settings = taken;
  return FEMEM_OK;
}

static femem_error reach_first(femem *client) {
  const femem_settings *settings = &client->settings;
  return fe_reach(client, fe_moment(settings->reconnect > 0 ? settings->reconnect : settings->wait),
                  settings->reconnect != FEMEM_NEVER);
}

femem_error femem_open(femem **client, const char *path, uint64_t session, const femem_settings *settings) {
  if (!client) return FEMEM_BAD_CALL;
  *client = NULL;
  femem_error error = fe_make(client, path, session, settings);
  if (error == FEMEM_OK) error = reach_first(*client);
  if (error == FEMEM_OK) return FEMEM_OK;
  int why = *client ? (*client)->system : errno;
  femem_close(*client);
  *client = NULL;
  errno = why;
  return error;
}

/* Ends the session that an earlier life was about to end. */
static femem_error end_left(session_file *file, const char *path, const femem_settings *settings) {
  femem *left;
  femem_error error = femem_open(&left, path, file->session, settings);
  if (error) return error;
  error = femem_bye(left);
  femem_close(left);
  if (error) return error;
  return session_file_begin(file) ? FEMEM_OK : FEMEM_FILE_FAULT;
}

static void recover(femem *client, uint64_t wire) {
  const kept_request *kept = &client->file->requests[wire % WINDOW];
  slot *place = fe_slot_of(client, wire);
  *place = (slot){.state = TAKEN}; /* ended; its answer is not known here */
  if (kept->wire != wire) return;
  *place = (slot){.state = OUT, .wire = wire, .request = kept->request, .answer.number = kept->number,
                  .keyed = kept->key, .recovered = true, .again = true, .unwanted = kept->ends_with_process,
                  .cancelled = kept->ends_with_process ? TO_END : NOT};
  client->out++;
  if (place->unwanted) return;
  femem_recovered *listed = &client->recovered[client->recovered_count++];
  *listed = (femem_recovered){.number = kept->number, .request = kept->request};
  if (!kept->key) return;
  listed->key_length = kept->key->length;
  memcpy(listed->key, kept->key->key, kept->key->length);
}

/* How many of its settles and attaches are still under way is not known. */
femem_error fe_restore(femem *client) {
  const session_file *file = client->file;
  client->recovered = calloc(WINDOW, sizeof *client->recovered);
  if (!client->recovered) return FEMEM_MEMORY;
  client->session = file->session;
  if (file->next == 0) return FEMEM_OK;
  client->opened = client->restored = true;
  client->settles = client->attaches = WINDOW;
  client->floor_told = file->floor;
  client->next = file->next;
  client->low = file->asked;
  for (uint64_t wire = client->low; wire < client->next; wire++) recover(client, wire);
  fe_advance(client);
  client->floor_asked = file->asked;
  return FEMEM_OK;
}

femem_error fe_make_file(femem **client, const char *path, const char *file, const femem_settings *settings) {
  if (!file || (settings && settings->resume)) return FEMEM_BAD_CALL;
  femem_error error = fe_make(client, path, 0, settings);
  return error ? error : session_file_open(&(*client)->file, file);
}

femem_error femem_open_file(femem **client, const char *path, const char *file, const femem_settings *settings) {
  if (!client) return FEMEM_BAD_CALL;
  *client = NULL;
  femem *made = NULL;
  femem_error error = fe_make_file(&made, path, file, settings);
  if (error == FEMEM_OK && made->file->leaving) error = end_left(made->file, path, settings);
  if (error == FEMEM_OK) error = fe_restore(made);
  if (error == FEMEM_OK) error = reach_first(made);
  if (error == FEMEM_OK) {
    made->returns = 0;
    *client = made;
    return FEMEM_OK;
  }
  int why = made && made->system ? made->system : errno;
  femem_close(made);
  errno = why;
  return error;
}

void femem_close(femem *client) {
  if (!client) return;
  /* Notes the answers taken since the last send. If this fails, the next life gets them once more. */
  if (client->file && client->opened && !fe_is_copy(client))
    session_file_sync(client->file, client->floor_told, client->floor_asked, client->next);
  fe_close_line(client, FEMEM_DISCONNECTED);
  session_file_close(client->file);
  session_file_close(client->left);
  free(client->recovered);
  free(client->held);
  free(client->text);
  free(client);
}

femem_error femem_reconnect(femem *client, int64_t within) {
  if (fe_is_copy(client)) return FEMEM_FORKED;
  if (client->ended) return FEMEM_ENDED;
  femem_error error = fe_enter(client, within != 0);
  if (error) return error;
  if (client->phase != RETURNING) fe_close_line(client, FEMEM_DISCONNECTED);
  client->trying = false;
  client->failed = FEMEM_OK;
  return fe_leave(client, fe_reach(client, fe_moment(within), true));
}
