/* A program as one was built with an earlier version's header, for scripts/check/abi.py: `program SOCKET SESSION_FILE leave` is
   killed while it waits under a key; `.. look` prints what it left, and whether the library wrote past the struct that it was given. */
#include "femem.h"

#include <inttypes.h>
#include <stdio.h>
#include <string.h>

static int fail(const char *what, femem_error error) {
  printf("%s: %s\n", what, femem_error_text(error));
  return 1;
}

int main(int count, char **words) {
  if (count != 4) return 2;
  femem *client;
  femem_settings settings = {.wait = 5000, .reconnect = 30000};
  femem_error error = femem_open_file(&client, words[1], words[2], &settings);
  if (error) return fail("open", error);
  femem_request request = {.operation = FEMEM_READFE};
  femem_answer answer;
  uint32_t length;
  error = femem_create(client, "slot", 2, false, &request.array);
  if (error == FEMEM_NAME_TAKEN) error = femem_find(client, "slot", &request.array, &length);
  if (error) return fail("find", error);
  if (!strcmp(words[3], "leave")) {
    printf("waits\n");
    fflush(stdout);
    return fail("once", femem_once(client, "the key", &request, &answer));
  }
  struct { femem_recovered one; unsigned char guard[4096]; } given;
  memset(&given, 0xa5, sizeof given);
  error = femem_recovered_at(client, 0, &given.one);
  if (error) return fail("recovered", error);
  size_t whole = 0;
  while (whole < sizeof given.guard && given.guard[whole] == 0xa5) whole++;
  printf("%d %" PRIu32 " %s %s\n", (int)given.one.request.operation, given.one.request.index, given.one.key,
         whole == sizeof given.guard ? "whole" : "overwritten");
  error = femem_writeef(client, request.array, 0, 42);
  if (error) return fail("writeef", error);
  error = femem_once(client, "the key", &request, &answer);
  if (error) return fail("once", error);
  printf("%" PRIu64 "\n", answer.value);
  femem_close(client);
  return 0;
}
