/* Raises the first word of the array `counter` by one, and prints what it was: `counter SOCKET SESSION [TIMES]`. Run it
   as often as you like, and kill and restart the server in between: no count is lost or made twice. */
#include "femem.h"

#include <stdio.h>
#include <stdlib.h>

static int fail(const char *what, femem_error error) {
  fprintf(stderr, "counter: %s: %s\n", what, femem_error_text(error));
  return 1;
}

int main(int count, char **words) {
  if (count < 3) return fail("usage: counter SOCKET SESSION [TIMES]", FEMEM_BAD_CALL);
  femem *client;
  femem_settings settings = {.wait = 30000, .reconnect = 30000};
  femem_error error = femem_open(&client, words[1], strtoull(words[2], NULL, 10), &settings);
  if (error) return fail("open", error);
  uint64_t array, value;
  error = femem_create(client, "counter", 1, true, &array);
  if (error == FEMEM_NAME_TAKEN) error = femem_find(client, "counter", &array, NULL);
  if (error) return fail("create", error);
  for (long times = count > 3 ? atol(words[3]) : 1; times > 0; times--) {
    error = femem_int_fetch_add(client, array, 0, 1, &value);
    if (error) return fail("int_fetch_add", error);
    printf("%llu\n", (unsigned long long)value);
  }
  femem_bye(client);
  femem_close(client);
  return 0;
}
