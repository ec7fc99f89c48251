/* What the files of femem-cli share. femem-cli.1 says what the commands do. */
#ifndef CLI_H
#define CLI_H

#include "femem.h"

#include <stdio.h>

#define DEFAULT_SOCKET "/run/femem/femem.socket"
#define DEFAULT_STORE "/var/lib/femem/femem.store"

/* Exit statuses. */
enum { DONE, LATE, USAGE, REFUSED, NO_SERVER, FAULT, NO_RIGHT, NOT_RUNNABLE = 126, NOT_FOUND = 127, BY_SIGNAL = 128 };

enum { LONGEST_NAME = 32, MOST_WORDS = 64 };

/* What the command line says. Times are in milliseconds, and negative ones are no limit. */
typedef struct options {
  const char *socket, *store, *program, *file, *key, *in;
  uint64_t session;
  bool adopted;                /* a temporary session that this process goes on with */
  bool has_session, no_wait, quiet, json, ends, owners, svg, once, help, version;
  int64_t every, timeout, reconnect, takeover_after, away_after;
  int conflict;                /* the status of `lock` and `queue take` that are late */
  uint32_t capacity, attempts; /* capacity: 0 if it is not given */
  uint32_t parties;            /* of a barrier; permits of a semaphore; 0 if it is not given */
} options;

/* The program. A process that holds a lock for another one has its own. */
typedef struct command_line {
  options given;
  femem *client;               /* NULL before the first request */
  uint64_t left;               /* the temporary session of a client that was dropped, or 0 */
  int entry;                   /* the locked file that shows this temporary session, or -1 */
  char entry_path[200];
  int stop;                    /* a descriptor that becomes readable when it is time to give up, or -1 */
  bool stopped;
  unsigned line;               /* of standard input, or 0 */
  bool prompts;                /* somebody types the lines */
} command_line;

/* ---- say.c ---- */

/* Each prints one answer, as JSON if that is asked for. Returns DONE, or FAULT if standard output fails. */
int say_done(command_line *cli);
int say_value(command_line *cli, uint64_t value);
int say_text(command_line *cli, const char *text);
/* Ends a line of output. */
int said(command_line *cli);
/* Prints why the command ends, and returns the status. LATE is not printed if the options say so. */
int fail(const command_line *cli, int status, const char *format, ...) __attribute__((format(printf, 3, 4)));
/* What an error means, with the limit and the way out. Those of the server are in ../errors.txt, word for word. */
const char *text_of(femem_error error);
/* The status of an error, and the same with a text for it. `what` is the array, or NULL. */
int status_of(femem_error error);
int fail_for(const command_line *cli, femem_error error, const char *what);

/* ---- words.c ---- */

/* Reads a number up to `most`, times in seconds, and an amount with a sign, modulo 2^64. */
bool read_number(const char *word, uint64_t most, uint64_t *number);
bool read_time(const char *word, int64_t *milliseconds);
bool read_amount(const char *word, uint64_t *amount);
bool is_name(const char *word);
int64_t now(void);
/* The moment `within` milliseconds from now, and what is left until it; -1 is no limit. */
int64_t moment(int64_t within);
int64_t left(int64_t end);
/* Sleeps, until the descriptor is readable; -1 is none. Returns whether it is. */
bool nap(int descriptor, int64_t milliseconds);

/* ---- reach.c ---- */

/* Whether to try again, after a pause: `why` is the errno of a server that may be away since `began`. */
bool tries_again(command_line *cli, int why, int64_t began);
/* Waits while the path is missing and may come. */
void wait_for_path(command_line *cli);
/* Prints why no server was reached; a status. */
int fail_to_reach(const command_line *cli, int why);

/* ---- session.c ---- */

/* Opens the client, unless it is open; at a prompt it comes back. Returns a status, and says what was wrong. */
int open_client(command_line *cli);
/* Comes back to a server that was away, and takes the answers that were due then. */
femem_error come_back(command_line *cli);
/* Closes a client that has requests out. The next one begins its session anew, which takes back what waits. */
void drop_client(command_line *cli);
/* Ends the session, if it is a temporary one, and closes the client. */
void close_client(command_line *cli);
/* Keeps a second process from using the session of the options. Waits for `timeout`. A status. */
int guard_session(command_line *cli);
/* Notes that signals end this process; `cli->stop` is readable then. Returns the signal, or 0. */
bool watch_signals(command_line *cli);
int signal_seen(void);
/* Whether the signal was Ctrl-C, at a prompt: it is over then, and signals are watched as before. */
bool take_interrupt(command_line *cli);

/* ---- requests.c ---- */

/* Makes a request, as the options say: in time, without waiting, or under a key. */
femem_error make_request(command_line *cli, femem_request request, femem_answer *answer);
/* The array of that name and length, which is made if it is missing. FEMEM_BAD_CALL if it has another length. */
femem_error shared_array(command_line *cli, const char *name, uint32_t length, bool full, uint64_t *array);
femem_request on_word(femem_operation operation, uint64_t array, uint32_t index, uint64_t operand, bool no_wait);

/* ---- holding.c ---- */

/* Something that is held while a command runs. */
typedef struct holding holding;
struct holding {
  command_line *cli;
  const char *name;
  /* Gets it; a status. `told` are then variables of the command's environment. */
  int (*begin)(holding *held);
  /* Gives it back. `status` is the command's, or -1 if it is not known. A status. */
  int (*end)(holding *held, int status);
  struct { const char *name; uint64_t value; } told[3];
  bool goes_on;                        /* another process can go on with it in the same session */
  bool shows;                          /* others look whether its client is there */
  femem_lock *lock;
  femem_semaphore *semaphore;
  femem_queue *queue;
  femem_job job;
};

/* Runs a command, which ends with NULL, while it is held. Returns the status. */
int run_holding(holding *held, char **command);

/* ---- lock.c ---- */

int do_lock(command_line *cli, char **words, int count);
int do_owner(command_line *cli, char **words, int count);
int do_break(command_line *cli, char **words, int count);
int do_semaphore(command_line *cli, char **words, int count);
int do_barrier(command_line *cli, char **words, int count);

/* ---- queues.c, words.c and looks.c ---- */

int do_queue(command_line *cli, char **words, int count);
int do_create(command_line *cli, char **words, int count);
int do_find(command_line *cli, char **words, int count);
int do_remove(command_line *cli, char **words, int count);
int do_word(command_line *cli, char **words, int count);
int do_first(command_line *cli, char **words, int count);
int do_counter(command_line *cli, char **words, int count);
int do_channel(command_line *cli, char **words, int count);
int do_forget(command_line *cli, char **words, int count);
int do_arrays(command_line *cli, char **words, int count);
int do_sessions(command_line *cli, char **words, int count);
int do_report(command_line *cli, char **words, int count);
int do_graph(command_line *cli, char **words, int count);
int do_top(command_line *cli, char **words, int count);
#endif
