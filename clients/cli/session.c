/* The client's session: a temporary one, one of a number, or that of a session file. */
#define _XOPEN_SOURCE 700
#include "cli.h"

#include <dirent.h>
#include <errno.h>
#include <fcntl.h>
#include <inttypes.h>
#include <signal.h>
#include <stddef.h>
#include <stdlib.h>
#include <string.h>
#include <sys/file.h>
#include <sys/socket.h>
#include <sys/stat.h>
#include <sys/un.h>
#include <unistd.h>

enum { TRY_AGAIN = 200 }; /* milliseconds */

/* ---- signals ---- */

static volatile sig_atomic_t seen;
static int signals[2] = {-1, -1};

/* Ctrl-C begins another line at the prompt, so it takes the place of no signal that ends this. */
static void note(int number) {
  int before = errno;
  if (number != SIGINT || seen == 0) seen = number;
  if (write(signals[1], "", 1) < 0) errno = before;
  errno = before;
}

int signal_seen(void) { return seen; }

/* A second signal of a kind ends the process at once. */
static void watch(int number) {
  struct sigaction before, action = {.sa_handler = note, .sa_flags = (int)SA_RESETHAND};
  sigfillset(&action.sa_mask);
  if (sigaction(number, NULL, &before) == 0 && before.sa_handler != SIG_IGN) sigaction(number, &action, NULL);
}

static const int watched[] = {SIGINT, SIGTERM, SIGHUP};
enum { WATCHED = sizeof watched / sizeof *watched };

bool watch_signals(command_line *cli) {
  if (pipe(signals)) return false;
  for (int i = 0; i < 2; i++)
    if (fcntl(signals[i], F_SETFD, FD_CLOEXEC) || fcntl(signals[i], F_SETFL, O_NONBLOCK)) return false;
  for (int i = 0; i < WATCHED; i++) watch(watched[i]);
  cli->stop = signals[0];
  return true;
}

bool take_interrupt(command_line *cli) {
  sigset_t held, before;
  char noted[8];
  sigemptyset(&held);
  for (int i = 0; i < WATCHED; i++) sigaddset(&held, watched[i]);
  sigprocmask(SIG_BLOCK, &held, &before); /* what comes now is noted after this */
  bool interrupted = seen == SIGINT;
  if (interrupted) {
    while (read(signals[0], noted, sizeof noted) > 0) continue;
    seen = 0;
    cli->stopped = false;
    watch(SIGINT);
  }
  sigprocmask(SIG_SETMASK, &before, NULL);
  return interrupted;
}

/* ---- temporary sessions ---- */

/* Each has a file in the folder SOCKET.clients, if that exists, which its client keeps locked: who comes next ends the
   sessions of clients that were killed. The Python client does the same. */
static int entry_at(const command_line *cli, const char *name, int flags, char *path, size_t room) {
  if ((size_t)snprintf(path, room, "%s.clients/%s", cli->given.socket, name) >= room) return -1;
  int entry = open(path, flags | O_RDWR | O_CLOEXEC | O_NOFOLLOW | O_NOCTTY | O_NONBLOCK, 0660);
  if (entry < 0 || flock(entry, LOCK_EX | LOCK_NB) == 0) return entry;
  close(entry);
  return -1;
}

static void enter(command_line *cli, uint64_t session) {
  char name[24];
  snprintf(name, sizeof name, "%" PRIu64, session);
  cli->entry = entry_at(cli, name, O_CREAT, cli->entry_path, sizeof cli->entry_path);
  if (cli->entry >= 0 && (ftruncate(cli->entry, 0) || pwrite(cli->entry, "1\n", 2, 0) != 2)) {
    close(cli->entry);
    cli->entry = -1;
  }
}

/* Ends the session of a client that was killed. False if that can't be done now. A client of several sessions is left
   to the Python client. */
static bool end_left(const command_line *cli, const char *name) {
  char path[sizeof cli->entry_path], text[4] = "";
  uint64_t session;
  struct stat there;
  if (!read_number(name, UINT64_MAX, &session)) return true;
  int entry = entry_at(cli, name, 0, path, sizeof path);
  if (entry < 0) return true;
  bool right = fstat(entry, &there) == 0 && there.st_nlink > 0 && pread(entry, text, 3, 0) == 2 && text[0] == '1';
  femem *client = NULL;
  const femem_settings settings = {.wait = 1000, .reconnect = FEMEM_NEVER};
  bool ended = right && femem_open(&client, cli->given.socket, session, &settings) == FEMEM_OK &&
               femem_bye(client) == FEMEM_OK;
  femem_close(client);
  if (ended) unlink(path);
  close(entry);
  return ended || !right;
}

static void sweep(const command_line *cli) {
  char path[sizeof cli->entry_path];
  if ((size_t)snprintf(path, sizeof path, "%s.clients", cli->given.socket) >= sizeof path) return;
  DIR *folder = opendir(path);
  if (!folder) return;
  for (const struct dirent *next = readdir(folder); next; next = readdir(folder))
    if (!end_left(cli, next->d_name)) break;
  closedir(folder);
}

static bool draw_session(uint64_t *session) {
  int file = open("/dev/urandom", O_RDONLY | O_CLOEXEC);
  bool drawn = file >= 0 && read(file, session, sizeof *session) == sizeof *session;
  if (file >= 0) close(file);
  *session >>= 1;
  return drawn;
}

/* ---- sessions of a number ---- */

/* A name that only one process can have, for as long as it or a command that it runs is there. */
static bool guard_name(const command_line *cli, struct sockaddr_un *name, socklen_t *size) {
  uint64_t sum = UINT64_C(14695981039346656037);
  char *path = realpath(cli->given.socket, NULL);
  for (const char *at = path ? path : cli->given.socket; *at; at++) sum = (sum ^ (unsigned char)*at) * 1099511628211u;
  free(path);
  *name = (struct sockaddr_un){.sun_family = AF_UNIX};
  int length = snprintf(name->sun_path + 1, sizeof name->sun_path - 1, "femem-cli-%016" PRIx64 "-%" PRIu64, sum,
                        cli->given.session);
  *size = (socklen_t)(offsetof(struct sockaddr_un, sun_path) + 1 + (size_t)length);
  return length > 0;
}

int guard_session(command_line *cli) {
  struct sockaddr_un name;
  socklen_t size;
  int64_t end = moment(cli->given.timeout);
  bool told = false;
  if (!cli->given.has_session) return DONE;
  wait_for_path(cli); /* the name is made of where the path leads */
  if (cli->stopped) return NO_SERVER;
  if (!guard_name(cli, &name, &size)) return DONE;
  int guard = socket(AF_UNIX, SOCK_STREAM, 0);
  if (guard < 0) return fail(cli, FAULT, "%s", strerror(errno));
  while (bind(guard, (struct sockaddr *)&name, size) != 0) {
    if (errno != EADDRINUSE) return DONE; /* this system has no such names */
    if (cli->given.no_wait || left(end) == 0)
      return fail(cli, LATE, "another process uses session %" PRIu64, cli->given.session);
    if (!told) fail(cli, DONE, "waits for another process, which uses session %" PRIu64, cli->given.session);
    told = true;
    if (nap(cli->stop, TRY_AGAIN)) return LATE;
  }
  return DONE;
}

/* ---- the client ---- */

static femem_error open_file(command_line *cli, const femem_settings *settings) {
  int64_t end = moment(cli->given.timeout);
  femem_error error;
  for (;;) {
    error = femem_open_file(&cli->client, cli->given.socket, cli->given.file, settings);
    if (error != FEMEM_FILE_IN_USE || cli->given.no_wait || left(end) == 0 || nap(cli->stop, TRY_AGAIN)) break;
  }
  /* What an earlier process asked for without a key is taken back: nobody gets its answer. */
  femem_recovered recovered;
  femem_answer answer;
  for (unsigned i = 0; !error && femem_recovered_at(cli->client, i, &recovered) == FEMEM_OK; i++)
    if (recovered.key_length == 0) femem_cancel(cli->client, recovered.number, &answer);
  return error;
}

femem_error come_back(command_line *cli) {
  femem_answer answer;
  int64_t within = cli->given.reconnect;
  femem_error error = femem_descriptor(cli->client) < 0 ? femem_reconnect(cli->client, within) : FEMEM_OK;
  while (error == FEMEM_OK) error = femem_next(cli->client, &answer, within);
  return error == FEMEM_NOTHING_OUT ? FEMEM_OK : error;
}

static bool is_temporary(const command_line *cli) {
  return (!cli->given.has_session || cli->given.adopted) && !cli->given.file;
}

int open_client(command_line *cli) {
  if (cli->client) {
    femem_error error = cli->prompts ? come_back(cli) : FEMEM_OK;
    return error ? fail_for(cli, error, NULL) : DONE;
  }
  int64_t most = cli->given.reconnect;
  const femem_settings settings = {.wait = most > 0 ? most : 1000, .reconnect = most > 0 ? most : FEMEM_NEVER};
  uint64_t session = cli->given.session;
  femem_error error;
  wait_for_path(cli);
  if (cli->stopped) return NO_SERVER;
  if (cli->given.file) {
    error = open_file(cli, &settings);
  } else {
    bool draws = !cli->given.has_session && !cli->left;
    if (draws) sweep(cli);
    if (draws && !draw_session(&session)) return fail(cli, FAULT, "/dev/urandom: %s", strerror(errno));
    if (cli->left) session = cli->left;
    else if (is_temporary(cli)) enter(cli, session);
    error = femem_open(&cli->client, cli->given.socket, session, &settings);
    if (error == FEMEM_OK) cli->left = 0;
  }
  int why = errno;
  if (error == FEMEM_UNREACHABLE || error == FEMEM_NO_RIGHT) return fail_to_reach(cli, why);
  if (error == FEMEM_BAD_CALL) return fail(cli, USAGE, "%s is no path of a socket", cli->given.socket);
  if (error == FEMEM_FILE_FAULT) return fail(cli, FAULT, "%s: %s", cli->given.file, strerror(why));
  if (error == FEMEM_OK) femem_stop_at(cli->client, cli->stop);
  return error ? fail_for(cli, error, NULL) : DONE;
}

void drop_client(command_line *cli) {
  if (is_temporary(cli)) cli->left = femem_session(cli->client);
  femem_close(cli->client);
  cli->client = NULL;
}

void close_client(command_line *cli) {
  const femem_settings brief = {.wait = 1000, .reconnect = FEMEM_NEVER};
  bool ended = !cli->client && !cli->left;
  if (!ended && !cli->client) femem_open(&cli->client, cli->given.socket, cli->left, &brief);
  if (cli->client && is_temporary(cli)) ended = femem_bye(cli->client) == FEMEM_OK;
  femem_close(cli->client);
  cli->client = NULL;
  if (cli->entry < 0) return;
  if (ended) unlink(cli->entry_path);
  close(cli->entry);
  cli->entry = -1;
}
