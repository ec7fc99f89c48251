/* The connection: moving bytes, attaching, and coming back. */
#define _POSIX_C_SOURCE 200809L
#include "client.h"

#include <errno.h>
#include <fcntl.h>
#include <libgen.h>
#include <poll.h>
#include <pthread.h>
#include <string.h>
#include <sys/socket.h>
#include <sys/stat.h>
#include <time.h>
#include <unistd.h>

void fe_close_line(femem *client, femem_error why) {
  if (client->descriptor >= 0) close(client->descriptor);
  client->descriptor = -1;
  client->phase = CLOSED;
  client->broken = why;
  client->input_end = client->output_begin = client->output_end = 0;
  client->probes = 0;
  if (client->report == REPORT_COMING) client->report = REPORT_ASKED;
  /* A request that was to move is sent again under its number. */
  client->moving = 0;
  client->asks_back = false;
  for (slot *place = client->slots; place < client->slots + WINDOW; place++) {
    place->expected = false;
    if (place->state == PARKED) place->state = OUT;
    if (place->cancelled == TO_MOVE) place->cancelled = NOT;
  }
}

void fe_lose_line(femem *client, femem_error why) {
  bool tells = client->phase == SERVED || (client->phase == RETURNING && why != FEMEM_DISCONNECTED);
  bool is_other = why == FEMEM_SESSION_LOST;
  if (tells) client->tried_at = 0;
  if (tells && !client->ended)
    fe_log(client, "%s was lost: %s", is_other ? "the session" : "the connection", femem_error_text(why));
  fe_close_line(client, why);
}

int64_t fe_now(void) {
  struct timespec time;
  clock_gettime(CLOCK_MONOTONIC, &time);
  return (int64_t)time.tv_sec * 1000000 + time.tv_nsec / 1000;
}

/* A moment in microseconds, -1 for none. */
int64_t fe_moment(int64_t within) {
  if (within < 0) return -1;
  return within > INT64_MAX / 4000 ? -1 : fe_now() + within * 1000;
}

bool fe_is_past(int64_t end) { return end >= 0 && fe_now() >= end; }

static femem_error system_fault(femem *client, femem_error error) {
  client->system = errno;
  fe_lose_line(client, error);
  return error;
}

/* The session file gets everything before it is sent. */
static bool is_kept(femem *client) {
  uint64_t floor = client->floor_told, asked = client->floor_asked;
  if (!client->file || session_file_sync(client->file, floor, asked, client->next)) return true;
  system_fault(client, FEMEM_FILE_FAULT);
  return false;
}

void fe_write_some(femem *client) {
  if (client->output_begin < client->output_end && !is_kept(client)) return;
  while (client->output_begin < client->output_end) {
    size_t size = client->output_end - client->output_begin;
    ssize_t count = send(client->descriptor, client->output + client->output_begin, size, MSG_NOSIGNAL);
    if (count < 0 && errno == EINTR) continue;
    if (count < 0 && (errno == EAGAIN || errno == EWOULDBLOCK)) return;
    /* The bytes are lost, so the connection must end, even if only the memory for them was missing (ENOBUFS). What the
       server has replied is read first; the read then reports the end. */
    if (count < 0) shutdown(client->descriptor, SHUT_RDWR);
    client->output_begin += count < 0 ? size : (size_t)count;
    FEMEM_POINT("sent");
  }
}

femem_error fe_read_some(femem *client) {
  ssize_t count;
  do count = recv(client->descriptor, client->input + client->input_end, INPUT - client->input_end, 0);
  while (count < 0 && errno == EINTR);
  if (count < 0 && (errno == EAGAIN || errno == EWOULDBLOCK)) return FEMEM_OK;
  if (count <= 0) return system_fault(client, FEMEM_DISCONNECTED);
  client->input_end += (size_t)count;
  client->quiet_since = fe_now();
  return fe_digest(client);
}

static unsigned forks;
static void count_fork(void) { forks++; }
static void watch_forks(void) { pthread_atfork(NULL, NULL, count_fork); }

unsigned fe_forks(void) {
  static pthread_once_t once = PTHREAD_ONCE_INIT;
  pthread_once(&once, watch_forks);
  return forks;
}

bool fe_is_copy(const femem *client) { return client->forks != forks; }

/* Asks whether this connection still has the session. The server does not tell a waiting client: an earlier life's late
   attach, or another client, may have taken the session, and its answers then go there. */
static void probe(femem *client) {
  client->quiet_since = fe_now();
  if (fe_has_room(client, SETTLE_FRAME)) fe_put_probe(client);
}

femem_error fe_step(femem *client, int64_t end) {
  if (fe_is_copy(client)) return FEMEM_FORKED;
  if (client->phase == CLOSED) return client->broken;
  fe_write_some(client);
  if (client->phase == CLOSED) return client->broken;
  int64_t probe_at = client->quiet_since + INT64_C(1000) * FEMEM_QUIET;
  bool probes = client->phase == SERVED && !client->bye && (end < 0 || probe_at < end);
  struct pollfd lines[] = {{.fd = client->descriptor, .events = POLLIN}, {.fd = client->stop, .events = POLLIN}};
  if (client->output_begin < client->output_end) lines[0].events |= POLLOUT;
  bool may_stop = client->may_stop && client->stop >= 0 && client->phase == SERVED;
  int events = poll(lines, may_stop ? 2 : 1, fe_poll_time(probes ? probe_at : end));
  if (events < 0 && errno != EINTR) return system_fault(client, FEMEM_SYSTEM);
  if (events == 0 && !probes) return FEMEM_TIMEOUT;
  if (events == 0) probe(client);
  if (events > 0 && may_stop && lines[1].revents) {
    client->stopped = true;
    return FEMEM_TIMEOUT;
  }
  return events > 0 && (lines[0].revents & ~POLLOUT) ? fe_read_some(client) : FEMEM_OK;
}

static void nap(int64_t microseconds) {
  struct timespec time = {microseconds / 1000000, microseconds % 1000000 * 1000};
  nanosleep(&time, NULL);
}

/* Whether what was missing may be there later. */
static bool is_short(int error) { return error == EMFILE || error == ENFILE || error == ENOBUFS || error == ENOMEM; }

static femem_error dial(femem *client) {
  int line = socket(AF_UNIX, SOCK_STREAM, 0);
  if (line < 0) return system_fault(client, is_short(errno) ? FEMEM_UNREACHABLE : FEMEM_SYSTEM);
  client->descriptor = line;
  if (fcntl(line, F_SETFD, FD_CLOEXEC) || fcntl(line, F_SETFL, O_NONBLOCK)) return system_fault(client, FEMEM_SYSTEM);
  if (connect(line, (struct sockaddr *)&client->address, sizeof client->address) != 0)
    return system_fault(client, FEMEM_UNREACHABLE);
  client->reached = true;
  return FEMEM_OK;
}

/* A server's folder goes with it, and belongs to root for a moment while it is made again. */
static bool is_denied(int error) { return error == EACCES || error == EPERM; }

/* Whether the folder of what is missing may be made again: the one above it is there. */
static bool may_be_away(const femem *client) {
  char path[sizeof client->address.sun_path];
  struct stat above;
  memcpy(path, client->address.sun_path, sizeof path);
  return stat(dirname(dirname(path)), &above) == 0;
}

/* Whether there is something else than a socket. A call to connect says only that nobody listens there. */
static bool is_no_socket(femem *client) {
  struct stat there;
  if (stat(client->address.sun_path, &there) != 0 || S_ISSOCK(there.st_mode)) return false;
  client->system = ENOTSOCK;
  return true;
}

/* Whether the path can't lead to a server's socket, or this process has had no right to it for DENIED milliseconds. */
static bool is_wrong_path(femem *client) {
  int why = client->system;
  if (client->reached || client->settings.wait_for_server) return false;
  if (!is_denied(why)) client->denied_until = 0;
  else if (client->denied_until == 0) client->denied_until = fe_moment(DENIED);
  if (is_denied(why)) return fe_is_past(client->denied_until);
  if (why == ENOENT) return !may_be_away(client);
  if (why == ECONNREFUSED) return is_no_socket(client);
  return why == ENOTDIR || why == ELOOP || why == ENAMETOOLONG || why == EPROTOTYPE || why == ENOTSOCK;
}

femem_error fe_not_reached(const femem *client) {
  return !client->reached && is_denied(client->system) ? FEMEM_NO_RIGHT : FEMEM_UNREACHABLE;
}

/* One that is repeated is followed by a probe: its refusal shows that the server has read this attach. */
static void put_attach(femem *client, bool repeats) {
  client->attach_at = fe_moment(FEMEM_QUIET);
  if (!fe_has_room(client, 2 * SETTLE_FRAME)) return;
  client->attaches++;
  fe_put_short(client, ATTACH, client->session);
  if (repeats) fe_put_probe(client);
}

static femem_error begin_attach(femem *client) {
  femem_error error = dial(client);
  if (error) return error;
  client->phase = client->opened ? RETURNING : OPENING;
  client->broken = FEMEM_OK;
  client->welcomed = false;
  if (!client->opened) client->floor_told = client->settles = client->opening_tries = 0;
  put_attach(client, false);
  return FEMEM_OK;
}

/* Connects and attaches, until the session is served. The attach is repeated if no welcome comes: the server may have
   read an earlier life's attach later than this one, and then the welcome went there. If its time is over, a client
   that returns keeps the connection, and goes on there the next time: the server may read what was sent over a closed
   connection last, and would then take the session from the client's next one. */
femem_error fe_attach(femem *client, int64_t end) {
  femem_error error = client->phase == CLOSED ? begin_attach(client) : FEMEM_OK;
  while (error == FEMEM_OK && client->phase != SERVED) {
    bool repeats = !client->welcomed && (end < 0 || client->attach_at < end);
    error = fe_step(client, repeats ? client->attach_at : end);
    if (error == FEMEM_TIMEOUT && repeats) {
      error = FEMEM_OK;
      put_attach(client, true);
    }
    if (error == FEMEM_OK && client->phase != SERVED && fe_is_past(end)) error = FEMEM_TIMEOUT;
  }
  if (error == FEMEM_TIMEOUT && client->phase == OPENING && !client->at_once) fe_close_line(client, FEMEM_TIMEOUT);
  return error;
}

bool fe_is_passing(femem *client, femem_error error) {
  if (error == FEMEM_UNREACHABLE) return !is_wrong_path(client);
  return error == FEMEM_DISCONNECTED || error == FEMEM_REFUSED_CLOSING;
}

femem_error fe_reach(femem *client, int64_t end, bool again) {
  if (client->at_once) return fe_reach_at_once(client);
  for (int64_t pause = 1000;; pause = pause < 50000 ? pause * 2 : pause) {
    /* Before the first try too, so that a server that hangs up at each welcome is not asked without a pause. */
    if (client->opened || pause > 1000) nap(pause);
    femem_error error = fe_attach(client, end);
    if (!again || !fe_is_passing(client, error)) return error == FEMEM_UNREACHABLE ? fe_not_reached(client) : error;
    fe_log_try(client, error);
    if (fe_is_past(end)) {
      fe_close_line(client, FEMEM_UNREACHABLE);
      return fe_not_reached(client);
    }
  }
}

femem_error fe_mend(femem *client, femem_error error, int64_t end) {
  bool is_asked = client->at_once && client->trying; /* by femem_reconnect */
  bool comes_back = client->settings.reconnect != FEMEM_NEVER || is_asked;
  if (error != FEMEM_DISCONNECTED || !comes_back || client->ended) return error;
  if (client->at_once) return fe_reach_at_once(client);
  int64_t last = fe_moment(client->settings.reconnect);
  bool earlier = end >= 0 && (last < 0 || end < last);
  error = fe_reach(client, earlier ? end : last, true);
  if (error != FEMEM_UNREACHABLE && error != FEMEM_TIMEOUT) return error;
  if (!earlier) {
    fe_close_line(client, error);
    return error;
  }
  if (client->phase != RETURNING) fe_close_line(client, FEMEM_DISCONNECTED);
  return FEMEM_TIMEOUT;
}

femem_error fe_come_back(femem *client, int64_t end) {
  if (client->phase == RETURNING) return fe_mend(client, FEMEM_DISCONNECTED, end);
  return client->phase == CLOSED ? fe_mend(client, client->broken, end) : FEMEM_OK;
}

femem_error fe_usable(femem *client) { return fe_usable_until(client, fe_moment(client->settings.wait)); }

femem_error fe_usable_until(femem *client, int64_t end) {
  if (fe_is_copy(client)) return FEMEM_FORKED;
  if (client->opening) return FEMEM_BAD_CALL;
  if (client->ended || client->bye) return FEMEM_ENDED;
  return fe_come_back(client, end);
}
