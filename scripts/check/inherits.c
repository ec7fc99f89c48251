/* A client with a session file: prints which of its open files a child would inherit, and after a line of input, by which the server
   is gone, tries for a second to reach it. Usage: inherits SOCKET FILE. */
#define _POSIX_C_SOURCE 200809L
#include "femem.h"

#include <fcntl.h>
#include <stdio.h>

int main(int count, char **words) {
  femem *client;
  femem_settings settings = FEMEM_SETTINGS_DEFAULT;
  settings.reconnect = 1000;
  uint64_t array, value;
  if (count != 3 || femem_open_file(&client, words[1], words[2], &settings)) return 1;
  if (femem_create(client, "of_c", 1, true, &array)) return 2;
  for (int file = 3; file < 100; file++) {
    int flags = fcntl(file, F_GETFD);
    if (flags >= 0) puts(flags & FD_CLOEXEC ? "closed" : "inherited");
  }
  puts("ready");
  fflush(stdout);
  getchar();
  femem_error error = femem_int_fetch_add(client, array, 0, 1, &value);
  femem_close(client);
  return error ? 0 : 3;
}
