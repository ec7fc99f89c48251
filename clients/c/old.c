/* What a program gets that was built with version 1.0.0: the functions whose structs have grown since. Only the shared
   library has them, under the names that libfemem.map gives. */
#include "client.h"

#include <string.h>

/* The structs of the first builds of 1.0.0. The later ones had today's, whose settings begin with their size. */
typedef struct first_settings {
  int64_t wait, reconnect;  /* 0: not at all */
  bool resume;
} first_settings;

enum { FIRST_KEY = 64, SIZE_IN_1_0 = 32 };
typedef struct first_recovered {
  uint64_t number;
  femem_request request;
  char key[FIRST_KEY + 1];
} first_recovered;

/* Whether settings begin with their size: SIZE_IN_1_0, or 0 for it. So a `wait` of 0 or 32 ms of the first builds is not seen. */
static bool have_size(const void *given) {
  int64_t first;
  memcpy(&first, given, sizeof first);
  return first == 0 || first == SIZE_IN_1_0;
}

/* Settings as they are today. */
static const femem_settings *of_today(const void *given, femem_settings *made) {
  if (!given || have_size(given)) return given;
  first_settings first;
  memcpy(&first, given, sizeof first);
  *made = (femem_settings)FEMEM_SETTINGS_DEFAULT;
  made->wait = first.wait;
  made->reconnect = first.reconnect > 0 ? first.reconnect : FEMEM_NEVER;
  made->resume = first.resume;
  return made;
}

static femem_error opened(femem_error error, femem **client, const void *given) {
  if (error == FEMEM_OK) (*client)->short_recovered = !given || !have_size(given);
  return error;
}

#pragma GCC visibility push(default)
femem_error fe_open_1_0(femem **client, const char *path, uint64_t session, const void *given);
femem_error fe_open_file_1_0(femem **client, const char *path, const char *file, const void *given);
femem_error fe_recovered_at_1_0(const femem *client, unsigned index, void *recovered);
#pragma GCC visibility pop
__asm__(".symver fe_open_1_0, femem_open@FEMEM_1.0");
__asm__(".symver fe_open_file_1_0, femem_open_file@FEMEM_1.0");
__asm__(".symver fe_recovered_at_1_0, femem_recovered_at@FEMEM_1.0");

femem_error fe_open_1_0(femem **client, const char *path, uint64_t session, const void *given) {
  femem_settings made;
  return opened(femem_open(client, path, session, of_today(given, &made)), client, given);
}

femem_error fe_open_file_1_0(femem **client, const char *path, const char *file, const void *given) {
  femem_settings made;
  return opened(femem_open_file(client, path, file, of_today(given, &made)), client, given);
}

/* Never writes more than the program has room for: without settings that is what the first builds had. */
femem_error fe_recovered_at_1_0(const femem *client, unsigned index, void *recovered) {
  if (!client->short_recovered) return femem_recovered_at(client, index, recovered);
  femem_recovered found;
  femem_error error = femem_recovered_at(client, index, &found);
  if (error) return error;
  first_recovered given = {.number = found.number, .request = found.request};
  memcpy(given.key, found.key, found.key_length < FIRST_KEY ? found.key_length : FIRST_KEY);
  memcpy(recovered, &given, sizeof given);
  return FEMEM_OK;
}
