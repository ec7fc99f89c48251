/* A real server for a check, which starts, kills and restarts it; and what the checks share. */
#ifndef REAL_H
#define REAL_H

#include "femem.h"

#include <signal.h>
#include <stdio.h>
#include <stdlib.h>
#include <string.h>
#include <sys/stat.h>
#include <sys/wait.h>
#include <time.h>
#include <unistd.h>

static const char *check_name;
static const char *program;
static char folder[] = "/tmp/femem_check_XXXXXX", path[64], store[64], file[64];
static pid_t server;
static int checks, failures;
static const femem_settings usual = {.wait = 60000, .reconnect = 60000};

static void check(bool holds, const char *what, int line) {
  checks++;
  if (holds) return;
  failures++;
  printf("%s.c:%d: %s\n", check_name, line, what);
}
#define CHECK(holds) check(holds, #holds, __LINE__)

static void is_error(femem_error got, femem_error due, int line) {
  char what[200];
  snprintf(what, sizeof what, "'%s' where '%s' is due", femem_error_text(got), femem_error_text(due));
  check(got == due, what, line);
}
#define ERROR(got, due) is_error(got, due, __LINE__)

static void pause_for(long milliseconds) {
  nanosleep(&(struct timespec){milliseconds / 1000, milliseconds % 1000 * 1000000}, NULL);
}

/* ---- the server ---- */

static void stop_server(void) {
  if (server <= 0) return;
  kill(server, SIGKILL);
  waitpid(server, NULL, 0);
  server = 0;
  unlink(path); /* a stopped server leaves its socket, and its operator must remove it */
}

static void clean_up(void) {
  stop_server();
  unlink(store);
  unlink(file);
  rmdir(folder);
}

static void give_up(const char *what) {
  printf("%s: %s\n", check_name, what);
  clean_up();
  exit(1);
}

static void too_long(int signal) {
  (void)signal;
  static const char text[] = "not done in time\n";
  if (write(1, text, sizeof text - 1) < 0) _exit(1);
  if (server > 0) kill(server, SIGKILL);
  _exit(1);
}

/* Once the socket's file exists the server is ready. */
static void start_server(void) {
  server = fork();
  if (server == 0) {
    execl(program, program, "serve", "--settings", file, (char *)NULL);
    _exit(127);
  }
  struct stat there;
  for (int tries = 0; tries < 1000 && stat(path, &there); tries++) {
    if (waitpid(server, NULL, WNOHANG) == server) give_up("the server ended at its start");
    pause_for(10);
  }
}

/* On a busy machine an attach may take longer than a client with brief settings tries: then it is made again. */
static femem *opened(uint64_t session, const femem_settings *settings) {
  femem *client;
  femem_error error;
  do error = femem_open(&client, path, session, settings);
  while (error == FEMEM_TIMEOUT && settings->reconnect > 0 && settings->reconnect < usual.reconnect);
  if (error) give_up(femem_error_text(error));
  return client;
}

/* ---- the begin and end of a check ---- */

/* Whether a program was named. Its server then runs. */
static bool begin_real(const char *name, int count, char **words_given) {
  check_name = name;
  if (count != 2) {
    fprintf(stderr, "usage: %s PROGRAM\n", name);
    return false;
  }
  program = words_given[1];
  setvbuf(stdout, NULL, _IOLBF, 0);
  signal(SIGALRM, too_long);
  alarm(580);
  if (!mkdtemp(folder)) return false;
  snprintf(path, sizeof path, "%s/socket", folder);
  snprintf(store, sizeof store, "%s/store", folder);
  snprintf(file, sizeof file, "%s/settings.toml", folder);
  FILE *settings = fopen(file, "w");
  if (!settings) return false;
  fprintf(settings, "socket = \"%s\"\nstore = \"%s\"\nformat = true\n", path, store);
  fclose(settings);
  start_server();
  return true;
}

/* The status of the check. */
static int end_real(void) {
  clean_up();
  printf("%s against %s: %d checks, %d failed\n", check_name, program, checks, failures);
  return failures ? 1 : 0;
}
#endif
