/* One work queue from C: `two_clients SOCKET put COUNT` puts 0 to COUNT - 1, `take COUNT` prints the jobs that it has done,
   and `hold` takes one and is killed. `two_clients FILE open 0` opens a session file, and ends with 3 if it is refused. */
#include "femem.h"
#include "session_file.h"

#include <signal.h>
#include <stdio.h>
#include <stdlib.h>
#include <string.h>

static femem_error work(femem_queue *queue, const char *what, uint64_t count) {
  femem_error error = FEMEM_OK;
  for (uint64_t k = 0; k < count && error == FEMEM_OK; k++) {
    femem_job job;
    if (strcmp(what, "put") == 0) {
      error = femem_queue_put(queue, k, NULL, 30000);
      continue;
    }
    error = femem_queue_take(queue, &job, 30000);
    if (error == FEMEM_OK && strcmp(what, "hold") == 0) raise(SIGKILL);
    if (error == FEMEM_OK) error = femem_queue_done(queue, &job);
    if (error == FEMEM_OK) printf("%llu %u\n", (unsigned long long)job.value, job.attempt);
  }
  return error;
}

static int open_file(const char *path) {
  session_file *file;
  femem_error error = session_file_open(&file, path);
  session_file_close(file);
  return error == FEMEM_FILE_DAMAGED ? 3 : error != FEMEM_OK;
}

int main(int count, char **words) {
  if (count != 4) return 2;
  if (strcmp(words[2], "open") == 0) return open_file(words[1]);
  femem *client;
  femem_queue *queue;
  femem_settings settings = {.wait = 30000, .reconnect = 30000};
  femem_error error = femem_open(&client, words[1], 77, &settings);
  if (error == FEMEM_OK) error = femem_queue_open(&queue, client, "jobs", 16, 3, 1000);
  if (error == FEMEM_OK) {
    error = work(queue, words[2], strtoull(words[3], NULL, 10));
    femem_queue_close(queue);
  }
  if (error) fprintf(stderr, "%s\n", femem_error_text(error));
  femem_close(client);
  return error != FEMEM_OK;
}
