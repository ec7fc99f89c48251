/* A command that runs while something is held.

   Two processes share the work. This one starts the command, passes signals on to it, and has its status. The holder,
   its child, has the session; it waits for the end of a pipe whose other end this process, the command and what that
   starts have open. So what is held is given back when all of them have ended, even if this process was killed. */
#define _XOPEN_SOURCE 700
#include "cli.h"

#include <errno.h>
#include <fcntl.h>
#include <inttypes.h>
#include <poll.h>
#include <signal.h>
#include <stdlib.h>
#include <string.h>
#include <sys/select.h>
#include <sys/socket.h>
#include <sys/wait.h>
#include <unistd.h>

/* What the holder says at its begin and its end. */
typedef struct message {
  int status;
  uint64_t session, values[3];
} message;

static bool send_all(int to, const void *from, size_t size) {
  return send(to, from, size, MSG_NOSIGNAL) == (ssize_t)size;
}

/* ---- the holder ---- */

/* Keeps the connection until the pipe ends. What waits to show this client is sent again with each connection. A
   connection that has ended is made again with time for the welcome: the server might read the attach of one that is
   given up too soon after that of the next one. */
static void hold(holding *held, int pipe) {
  femem *client = held->cli->client;
  for (;;) {
    bool connected = femem_descriptor(client) >= 0;
    struct pollfd both[] = {{.fd = pipe, .events = POLLIN}, {.fd = femem_descriptor(client), .events = POLLIN}};
    if (poll(both, 2, connected ? -1 : 200) < 0 && errno != EINTR) return;
    if (both[0].revents) return;
    femem_answer answer;
    femem_error error = FEMEM_OK;
    if (!connected || both[1].revents & (POLLHUP | POLLERR)) error = femem_reconnect(client, 5000);
    else if (both[1].revents) error = femem_next(client, &answer, 0);
    if (error == FEMEM_NOTHING_OUT) femem_settle(client);
    if (error == FEMEM_REFUSED_NOT_ATTACHED) femem_reconnect(client, 5000);
    if (held->shows && femem_out(client) == 0) femem_present(client);
    if (femem_descriptor(client) >= 0) femem_flush(client); /* what a new connection has still to send */
  }
}

static void begin_holder(command_line *cli, int pipe) {
  const int ignored[] = {SIGHUP, SIGINT, SIGQUIT, SIGTERM, SIGUSR1, SIGUSR2, SIGPIPE};
  setsid();
  for (size_t i = 0; i < sizeof ignored / sizeof *ignored; i++) signal(ignored[i], SIG_IGN);
  int null = open("/dev/null", O_RDWR);
  if (null >= 0) {
    dup2(null, 0);
    dup2(null, 1);
    if (null > 1) close(null);
  }
  cli->stop = pipe;
}

static void be_holder(holding *held, int pipe, int line) {
  command_line *cli = held->cli;
  begin_holder(cli, pipe);
  message told = {.status = held->begin(held)};
  if (told.status == DONE) told.session = femem_session(cli->client);
  for (int i = 0; i < 3; i++) told.values[i] = held->told[i].value;
  send_all(line, &told, sizeof told);
  if (told.status == DONE) {
    int status = -1;
    hold(held, pipe);
    if (recv(line, &status, sizeof status, MSG_DONTWAIT) != sizeof status) status = -1;
    cli->stop = -1;
    cli->stopped = false;
    femem_stop_at(cli->client, -1);
    told.status = held->end(held, status);
    send_all(line, &told, sizeof told);
  }
  cli->stop = -1;
  close_client(cli);
}

/* ---- signals ---- */

static const int passed[] = {SIGHUP, SIGINT, SIGQUIT, SIGTERM, SIGUSR1, SIGUSR2};
enum { PASSED = sizeof passed / sizeof *passed };
static struct sigaction before[PASSED];
static volatile sig_atomic_t command, last;
static bool by_signal; /* the command, or this process before it */

/* The terminal sends its signals to the command as well. */
static void pass(int number, siginfo_t *from, void *context) {
  (void)context;
  int kept = errno;
  last = number;
  if (command > 0 && from->si_code <= 0) kill(command, number);
  errno = kept;
}

static void pass_signals(void) {
  for (int i = 0; i < PASSED; i++) {
    struct sigaction action = {.sa_sigaction = pass, .sa_flags = SA_SIGINFO};
    sigaction(passed[i], NULL, &before[i]);
    if (before[i].sa_handler != SIG_IGN) sigaction(passed[i], &action, NULL);
  }
}

static void pass_no_signals(void) {
  for (int i = 0; i < PASSED; i++) sigaction(passed[i], &before[i], NULL);
}

/* ---- this process ---- */

/* The holder, and what this process shares with it: the pipe, and a line for messages. */
typedef struct running {
  holding *held;
  pid_t holder;                /* 0 if there is none */
  int pipe[2], line;
} running;

/* Waits for the holder's message. False if it has ended, or a signal came: also one that comes just before the wait,
   since signals are let in by pselect alone. */
static bool hear(int line, message *told) {
  sigset_t all, kept;
  sigfillset(&all);
  sigprocmask(SIG_BLOCK, &all, &kept);
  bool readable = false;
  while (!last && !readable) {
    fd_set lines;
    FD_ZERO(&lines);
    FD_SET(line, &lines);
    readable = pselect(line + 1, &lines, NULL, NULL, NULL, &kept) > 0;
  }
  bool heard = readable && recv(line, told, sizeof *told, MSG_WAITALL) == sizeof *told;
  sigprocmask(SIG_SETMASK, &kept, NULL);
  return heard;
}

static bool start_holder(running *run) {
  int line[2];
  if (socketpair(AF_UNIX, SOCK_STREAM, 0, line)) return false;
  fcntl(line[0], F_SETFD, FD_CLOEXEC);
  fflush(NULL);
  pid_t holder = fork();
  if (holder == 0) {
    close(run->pipe[1]);
    close(line[0]);
    be_holder(run->held, run->pipe[0], line[1]);
    _exit(0);
  }
  close(line[1]);
  run->line = line[0];
  run->holder = holder > 0 ? holder : 0;
  return holder > 0;
}

/* The holder was killed while the command runs. A lock is still its session's, so another holder goes on with it. */
static void replace_holder(running *run, uint64_t session) {
  options *given = &run->held->cli->given;
  message told = {.status = FAULT};
  close(run->line);
  run->line = -1;
  run->holder = 0;
  if (!run->held->goes_on) return;
  given->adopted = given->adopted || (!given->has_session && !given->file);
  given->has_session = !given->file;
  given->session = session;
  given->no_wait = true;
  last = 0;
  if (!start_holder(run)) return;
  while (!hear(run->line, &told) && last) last = 0;
  if (told.status != DONE) run->holder = 0;
}

static void set_variables(holding *held, const message *told) {
  char value[24], *path = realpath(held->cli->given.socket, NULL);
  for (int i = 0; i < 3 && held->told[i].name; i++) {
    snprintf(value, sizeof value, "%" PRIu64, told->values[i]);
    setenv(held->told[i].name, value, 1);
  }
  setenv("FEMEM_SOCKET", path ? path : held->cli->given.socket, 1);
  free(path);
}

static void run_command(holding *held, const message *told, char **words) {
  set_variables(held, told);
  signal(SIGPIPE, SIG_DFL);
  execvp(words[0], words);
  int status = errno == ENOENT ? NOT_FOUND : NOT_RUNNABLE;
  _exit(fail(held->cli, status, "%s: %s", words[0], strerror(errno)));
}

/* Starts the command, unless a signal has come. No later one is lost. */
static bool start_command(holding *held, const message *told, char **words) {
  sigset_t all, kept;
  sigfillset(&all);
  sigprocmask(SIG_BLOCK, &all, &kept);
  fflush(NULL);
  pid_t process = last ? -1 : fork();
  command = process;
  if (process == 0) {
    pass_no_signals();
    sigprocmask(SIG_SETMASK, &kept, NULL);
    run_command(held, told, words);
  }
  sigprocmask(SIG_SETMASK, &kept, NULL);
  return process > 0;
}

static int wait_for_command(running *run, uint64_t session) {
  int status = 0;
  pid_t ended;
  do {
    ended = waitpid(-1, &status, 0);
    if (ended > 0 && ended == run->holder) replace_holder(run, session);
  } while (ended < 0 ? errno == EINTR : ended != command);
  command = 0;
  by_signal = WIFSIGNALED(status);
  return by_signal ? BY_SIGNAL + WTERMSIG(status) : WEXITSTATUS(status);
}

/* Waits for the command and what it started, and then for the holder. */
static int finish(running *run, message *told) {
  int status = wait_for_command(run, told->session);
  last = 0;
  if (run->holder) send_all(run->line, &status, sizeof status);
  close(run->pipe[1]);
  if (run->holder && hear(run->line, told)) return status ? status : told->status;
  if (run->holder && last) {
    by_signal = true;
    return BY_SIGNAL + last; /* the holder stays until all have ended */
  }
  fail(run->held->cli, FAULT, "%s: the process that held it was killed", run->held->name);
  return status ? status : FAULT;
}

/* Runs the command, once the holder says so. */
static int converse(running *run, char **words) {
  message told;
  bool heard = hear(run->line, &told);
  int status = heard ? told.status : FAULT;
  if (heard && status == DONE && start_command(run->held, &told, words)) {
    status = finish(run, &told);
  } else {
    close(run->pipe[1]);
    by_signal = last && (!heard || status == DONE);
    if (by_signal) return BY_SIGNAL + last;
    if (!heard) fail(run->held->cli, FAULT, "%s: the process that waits for it was killed", run->held->name);
    if (heard && status == DONE) status = fail(run->held->cli, FAULT, "%s", strerror(errno));
    if (status == LATE) status = run->held->cli->given.conflict;
  }
  if (run->holder && !last) waitpid(run->holder, NULL, 0);
  return status;
}

/* Ends as the command did, if that was by a signal that asks to end. */
static int end_by(int status) {
  int number = status - BY_SIGNAL;
  bool asks = number == SIGINT || number == SIGTERM || number == SIGHUP;
  if (!asks || !by_signal) return status;
  signal(number, SIG_DFL);
  raise(number);
  return status;
}

int run_holding(holding *held, char **words) {
  running run = {.held = held, .line = -1};
  held->cli->stop = -1;
  int status = guard_session(held->cli);
  if (status) return status == LATE ? held->cli->given.conflict : status;
  if (pipe(run.pipe)) return fail(held->cli, FAULT, "%s", strerror(errno));
  fcntl(run.pipe[0], F_SETFD, FD_CLOEXEC);
  pass_signals();
  if (!start_holder(&run)) return fail(held->cli, FAULT, "%s", strerror(errno));
  return end_by(converse(&run, words));
}
