/* A client of femem, the recoverable full/empty memory server: one session over one Unix socket, with frames of
   version 2 (docs/formats.md, "Frames"). C11 and POSIX, nothing else. README.md next to this file says for each call
   what it answers, when it waits, and what a stop of the server does to it.

   A client is used by one thread at a time. No call raises a signal. Only femem_open, the first femem_report and the
   calls that say so take memory. In a child made by fork each call that takes a client and returns an error returns
   FEMEM_FORKED, and sends nothing. */
#ifndef FEMEM_H
#define FEMEM_H

#include <stdbool.h>
#include <stddef.h>
#include <stdint.h>

#ifdef __cplusplus
extern "C" {
#endif

/* The version of this header. */
#define FEMEM_VERSION_MAJOR 1
#define FEMEM_VERSION_MINOR 2
#define FEMEM_VERSION_PATCH 0
#define FEMEM_VERSION "1.2.0~git"

#ifdef __GNUC__
#pragma GCC visibility push(default)
#endif

/* A client: one session and its connection. */
typedef struct femem femem;

/* The result of a call. Answers have the codes of docs/formats.md; refusals have 100 plus their number. */
typedef enum femem_error {
  FEMEM_OK = 0,

  /* Answers of the server that are errors. They are kept like any other. */
  FEMEM_NO_ARRAY = 4,
  FEMEM_BAD_INDEX = 5,
  FEMEM_NAME_TAKEN = 6,
  FEMEM_ARRAY_LIMIT = 7,
  FEMEM_WORD_LIMIT = 8,
  FEMEM_BAD_NAME = 9,
  FEMEM_BAD_LENGTH = 10,
  FEMEM_NOT_NOW = 11,

  /* Refusals of the server: the message changed nothing. */
  FEMEM_REFUSED_NOT_ATTACHED = 101,
  FEMEM_REFUSED_SESSION_LIMIT = 102,
  FEMEM_REFUSED_BELOW_FLOOR = 103,
  FEMEM_REFUSED_BEYOND_WINDOW = 104,
  FEMEM_REFUSED_NUMBER_USED = 105,
  FEMEM_REFUSED_STILL_WAITING = 106,
  FEMEM_REFUSED_CLOSING = 107,
  FEMEM_REFUSED_NO_MEMORY = 108,
  FEMEM_REFUSED_SPENT = 109,
  FEMEM_REFUSED_NOT_WAITING = 110,

  /* What the client itself reports. After the first four the request, if there is one, is still out. */
  FEMEM_TIMEOUT = 201,        /* no answer in time */
  FEMEM_DISCONNECTED = 202,   /* the server closed the connection, or is gone */
  FEMEM_UNREACHABLE = 203,    /* no server was reached: femem_errno, or errno at opening */
  FEMEM_SYSTEM = 204,         /* a system call failed: femem_errno */
  FEMEM_WITHDRAWN = 205,      /* the request was taken back, and has not happened */
  FEMEM_WINDOW_FULL = 206,    /* no number is free: take answers first */
  FEMEM_NOTHING_OUT = 207,    /* no answer can come */
  FEMEM_BAD_CALL = 208,       /* an argument is not as femem.h says */
  FEMEM_ENDED = 209,          /* the session has said bye */
  FEMEM_MEMORY = 210,         /* no memory here */
  FEMEM_FORKED = 211,         /* the client belongs to the parent process */
  FEMEM_FILE_FAULT = 212,     /* the session file can't be read, written or synced: femem_errno, or errno at opening */
  FEMEM_FILE_IN_USE = 213,    /* another client has the session file */
  FEMEM_FILE_DAMAGED = 214,   /* the session file has content that no client writes */
  FEMEM_OTHER_REQUEST = 215,  /* the key was used with another request */
  FEMEM_NOT_OWNER = 216,      /* the job was ended, or another client has it */
  FEMEM_NO_RIGHT = 217,       /* this process may not use the socket: its group may, or its owner alone */
  FEMEM_BROKEN = 218,         /* the barrier's round was broken */

  /* The server, or whatever answers in its place, breaks the formats. The connection is closed. */
  FEMEM_BAD_FRAME = 301,      /* bytes that are not a reply */
  FEMEM_WRONG_NUMBER = 302,   /* a reply under a number that is not out */
  FEMEM_STRANGE_REPLY = 303,  /* a reply to nothing that was asked, or of the wrong kind */
  FEMEM_CHANGED_ANSWER = 304, /* an answer came again and is different */
  FEMEM_SESSION_LOST = 305    /* the session was ended and begun again, or is an older one: nothing was sent again */
} femem_error;

/* The codes of requests in docs/formats.md. */
typedef enum femem_operation {
  FEMEM_CREATE = 1,
  FEMEM_FIND = 2,
  FEMEM_REMOVE = 3,
  FEMEM_READFE = 16,
  FEMEM_READFF = 17,
  FEMEM_READXX = 18,
  FEMEM_WRITEEF = 19,
  FEMEM_WRITEFF = 20,
  FEMEM_WRITEXF = 21,
  FEMEM_PURGE = 22,
  FEMEM_INT_FETCH_ADD = 23
} femem_operation;

/* A request for femem_send and femem_call. Fields that the operation does not use are not read. */
typedef struct femem_request {
  femem_operation operation;
  bool no_wait;         /* eight operations: FEMEM_NOT_NOW if it would wait */
  bool full;            /* create: the tag of the new words */
  uint8_t name_length;  /* create, find: 0 to 32 */
  char name[32];        /* create, find */
  uint32_t length;      /* create */
  uint32_t index;       /* eight operations */
  uint64_t array;       /* eight operations, remove */
  uint64_t operand;     /* writeef, writeff, writexf, int_fetch_add */
} femem_request;

/* An answer: `error` is FEMEM_OK or says why there is no value. */
typedef struct femem_answer {
  uint64_t number;
  femem_error error;
  uint32_t length;      /* create, find */
  uint64_t array;       /* create, find */
  uint64_t value;       /* readfe, readff, readxx, int_fetch_add */
} femem_answer;

/* Times are in milliseconds. FEMEM_FOREVER is no limit; FEMEM_NEVER, in `reconnect`, is not at all. */
#define FEMEM_FOREVER ((int64_t)-1)
#define FEMEM_NEVER ((int64_t)-2)

/* Begin with FEMEM_SETTINGS_DEFAULT and change fields, or name the fields that are not 0. */
typedef struct femem_settings {
  size_t size;          /* sizeof (femem_settings); 0 is the size in version 1.0 */
  int64_t wait;         /* how long a call waits before it takes its request back; 0: no limit */
  int64_t reconnect;    /* how long a client tries to reach a lost server; 0: no limit */
  bool resume;          /* numbers continue at the session's floor; otherwise what the session kept is settled first */
  bool wait_for_server; /* the first connection is tried again, too, where the path can't lead to a server */
} femem_settings;

/* No limit for `wait`, 30 seconds for `reconnect`. NULL for settings means these. */
#define FEMEM_SETTINGS_DEFAULT {sizeof(femem_settings), FEMEM_FOREVER, 30000, false, false}

/* ---- opening and closing ---- */

/* Opens a client of the session on the socket at `path`, and attaches it. `settings` may be NULL. If it fails,
   *client is NULL. A server that is away is tried again for `reconnect`, or for `wait` if `reconnect` has no limit: it
   does not listen, or its socket is missing, perhaps with the folder. A path that can't be a socket's fails at once: the
   folder above its folder is missing, something else is there, or it has no right form. Where this process may not use
   the path it fails after a second, FEMEM_NO_RIGHT. With `wait_for_server` such paths are tried again, too. Errors:
   FEMEM_UNREACHABLE (errno says why), FEMEM_NO_RIGHT, FEMEM_TIMEOUT, FEMEM_REFUSED_SESSION_LIMIT,
   FEMEM_REFUSED_CLOSING, FEMEM_MEMORY, FEMEM_BAD_CALL if the path is empty or too long for a socket, or if settings of
   a newer version have a field that this one does not know. */
femem_error femem_open(femem **client, const char *path, uint64_t session, const femem_settings *settings);

/* Opens a client of the session in the file at `file`, which is created if it is missing. The file holds the session's
   number and every unanswered request, and is written and synced before anything is sent; so the requests of an earlier
   life of the program are sent again, and each happens once. A lock on the file keeps a second client out. The file
   may be the Python client's. `resume` must be false. This takes the memory for the file. Errors: those of femem_open,
   FEMEM_FILE_FAULT (errno says why), FEMEM_FILE_IN_USE, FEMEM_FILE_DAMAGED. */
femem_error femem_open_file(femem **client, const char *path, const char *file, const femem_settings *settings);

/* Closes the connection and frees the client. The session stays on the server. Never waits. NULL is allowed. */
void femem_close(femem *client);

/* Reconnects, within `within` milliseconds, and sends again what is out, under the same numbers. */
femem_error femem_reconnect(femem *client, int64_t within);

/* Ends the session. FEMEM_BAD_CALL while something is out. A session file begins a new session with the next client. It
   waits for the server for a second at most: after FEMEM_TIMEOUT or FEMEM_UNREACHABLE it may be called again, and with
   a session file the next client ends the session in any case. */
femem_error femem_bye(femem *client);

/* Like femem_bye, with its own time in milliseconds. */
femem_error femem_bye_within(femem *client, int64_t within);

/* ---- one request and its answer ----

   A name ends with a zero byte. Each call waits for its answer. A request that is not answered within the `wait` of the
   settings is taken back: FEMEM_WITHDRAWN, or its answer if it had happened. A pointer for a result may be NULL. Each
   call may also return an error of the connection: FEMEM_DISCONNECTED, FEMEM_UNREACHABLE, FEMEM_TIMEOUT, and those from
   FEMEM_BAD_FRAME on. */

/* Creates an array of `length` words of value 0, all full or all empty. Never waits for others. Answers the array's id.
   Errors: FEMEM_BAD_NAME, FEMEM_BAD_LENGTH, FEMEM_NAME_TAKEN, FEMEM_ARRAY_LIMIT, FEMEM_WORD_LIMIT. */
femem_error femem_create(femem *client, const char *name, uint32_t length, bool full, uint64_t *array);

/* Finds an array by its name: its id and its length. Errors: FEMEM_BAD_NAME, FEMEM_NO_ARRAY. */
femem_error femem_find(femem *client, const char *name, uint64_t *array, uint32_t *length);

/* Removes an array; what waits on it is answered FEMEM_NO_ARRAY. Errors: FEMEM_NO_ARRAY. */
femem_error femem_remove(femem *client, uint64_t array);

/* Waits until the word is full, empties it, and answers its value. Errors, as for all
   operations on words: FEMEM_NO_ARRAY, FEMEM_BAD_INDEX. */
femem_error femem_readfe(femem *client, uint64_t array, uint32_t index, uint64_t *value);

/* Waits until the word is full, leaves it so, and answers its value. */
femem_error femem_readff(femem *client, uint64_t array, uint32_t index, uint64_t *value);

/* Answers the value, whether the word is full or empty. */
femem_error femem_readxx(femem *client, uint64_t array, uint32_t index, uint64_t *value);

/* Waits until the word is empty, and fills it with the operand. */
femem_error femem_writeef(femem *client, uint64_t array, uint32_t index, uint64_t operand);

/* Waits until the word is full, and replaces its value. */
femem_error femem_writeff(femem *client, uint64_t array, uint32_t index, uint64_t operand);

/* Fills the word with the operand, whether it is full or empty. */
femem_error femem_writexf(femem *client, uint64_t array, uint32_t index, uint64_t operand);

/* Empties the word and sets its value to 0. */
femem_error femem_purge(femem *client, uint64_t array, uint32_t index);

/* Waits until the word is full, adds the operand modulo 2^64, and answers the old value. The word stays full. */
femem_error femem_int_fetch_add(femem *client, uint64_t array, uint32_t index, uint64_t operand, uint64_t *value);

/* Any request; with `no_wait` also one that must not wait. */
femem_error femem_call(femem *client, const femem_request *request, femem_answer *answer);

/* Like femem_call, with its own time in milliseconds. */
femem_error femem_call_within(femem *client, const femem_request *request, int64_t within, femem_answer *answer);

/* Any number of requests, in as few sends as the window allows: 32 in the first, 16 in each further one; with a session
   file each send has one sync. answers[i] is that of requests[i]. FEMEM_OK if each has been answered, whatever its
   error; otherwise why the batch stopped. Then the error of an answer is FEMEM_TIMEOUT if its request is still out
   under its number, and FEMEM_NOTHING_OUT if it was not sent. A program that is killed within a batch learns in its
   next life only of the requests that were out at that moment; with femem_batch_once it learns of all. */
femem_error femem_batch(femem *client, const femem_request *requests, size_t count, femem_answer *answers);

/* ---- requests without waiting ---- */

/* Sends a request. `number`, which may be NULL, gets the number that its answer will have. At most 32 requests are out
   or have an answer that was not taken; then it is FEMEM_WINDOW_FULL. A request that waits long does not keep others
   from being sent: it is taken back and sent again under a later number, but keeps its number for the caller. */
femem_error femem_send(femem *client, const femem_request *request, uint64_t *number);

/* Sends femem_readfe. */
femem_error femem_send_readfe(femem *client, uint64_t array, uint32_t index, uint64_t *number);

/* Sends femem_readff. */
femem_error femem_send_readff(femem *client, uint64_t array, uint32_t index, uint64_t *number);

/* Sends femem_readxx. */
femem_error femem_send_readxx(femem *client, uint64_t array, uint32_t index, uint64_t *number);

/* Sends femem_writeef. */
femem_error femem_send_writeef(femem *client, uint64_t array, uint32_t index, uint64_t operand, uint64_t *number);

/* Sends femem_writeff. */
femem_error femem_send_writeff(femem *client, uint64_t array, uint32_t index, uint64_t operand, uint64_t *number);

/* Sends femem_writexf. */
femem_error femem_send_writexf(femem *client, uint64_t array, uint32_t index, uint64_t operand, uint64_t *number);

/* Sends femem_purge. */
femem_error femem_send_purge(femem *client, uint64_t array, uint32_t index, uint64_t *number);

/* Sends femem_int_fetch_add. */
femem_error femem_send_int_fetch_add(femem *client, uint64_t array, uint32_t index, uint64_t operand,
                                     uint64_t *number);

/* Writes what was sent but not yet written. The calls that wait do this by themselves. */
femem_error femem_flush(femem *client);

/* The next answer, in order of arrival, within `within` milliseconds. FEMEM_OK if there is one, whatever its error;
   FEMEM_NOTHING_OUT if none can come; FEMEM_TIMEOUT. It reads what has come in each case. */
femem_error femem_next(femem *client, femem_answer *answer, int64_t within);

/* The answer of that number, within `within` milliseconds. */
femem_error femem_wait(femem *client, uint64_t number, femem_answer *answer, int64_t within);

/* Takes a request back: FEMEM_WITHDRAWN, or FEMEM_OK with the answer of a request that had happened. */
femem_error femem_cancel(femem *client, uint64_t number, femem_answer *answer);

/* Settles everything answered and taken, and waits for the server's reply. The other calls settle by themselves. */
femem_error femem_settle(femem *client);

/* What waits on the server, as a text that ends with a zero byte. The client owns it, and keeps it until its next
   report. */
femem_error femem_report(femem *client, const char **text);

/* ---- programs with a loop of their own ----

   Such a program opens a client with femem_open_begin, and then asks poll, or the like, about it:

     struct pollfd line = {femem_descriptor(client), POLLIN, 0};
     if (femem_wants_write(client)) line.events |= POLLOUT;
     poll(&line, 1, femem_poll_time(client));
     error = femem_poll(client);

   all four again each time, since the descriptor changes. femem_poll opens the client, comes back when the server was
   away, writes and reads. Once it is FEMEM_OK, femem_next with a time of 0 takes the answers that have come.

   These calls never wait, for a client of femem_open_begin, or of femem_open from its first femem_poll on: femem_poll,
   femem_send and the others of its name, femem_flush, femem_cancel, femem_next, femem_wait, femem_reconnect and
   femem_bye_within with a time of 0, femem_close, and what tells of a client. FEMEM_TIMEOUT: it would wait. Then
   femem_send has sent nothing, femem_cancel's answer comes later, and the others are called again after femem_poll.
   With a session file they wait for the disk, as each sends only what is synced. Every other call that asks the server
   waits for it, as with any client. The calls of queues, channels, locks and the like do so, too. */

/* Makes a client of the session, as femem_open does, and does not connect: femem_poll does. Until that is FEMEM_OK, only
   femem_poll, what tells of a client, femem_log, femem_stop_at and femem_close are for it: others that ask the server are
   FEMEM_BAD_CALL. Errors: FEMEM_MEMORY, and FEMEM_BAD_CALL as in femem_open. Never waits. */
femem_error femem_open_begin(femem **client, const char *path, uint64_t session, const femem_settings *settings);

/* The same for a session file, as femem_open_file has it. Waits for the disk. Errors: also FEMEM_FILE_FAULT (errno says
   why), FEMEM_FILE_IN_USE, FEMEM_FILE_DAMAGED. */
femem_error femem_open_file_begin(femem **client, const char *path, const char *file, const femem_settings *settings);

/* Does what can be done at once: connects if it is time, writes what is out, reads what has come. FEMEM_OK: the client
   is open. FEMEM_TIMEOUT: it is not yet, or not again; what is out is sent when it is back. Otherwise it failed, with an
   error of femem_open, and femem_errno: a client that never was open can only be closed, and another one comes back by
   femem_reconnect. FEMEM_UNREACHABLE with ETIMEDOUT is a server that took the connection and did not answer. It tries
   for as long as femem_open, and then as `reconnect` says; FEMEM_NEVER is once, and not at all. FEMEM_ENDED after
   femem_bye. It reads some of what has come, so a poller that tells only of changes needs it until nothing comes. */
femem_error femem_poll(femem *client);

/* Whether output is left, so that a loop asks for POLLOUT. It asks for POLLIN in any case. */
bool femem_wants_write(const femem *client);

/* In how many milliseconds femem_poll is due even if the descriptor is not ready: to try again, to give up, or to ask
   after a long silence. -1: not at all. As the time of poll. */
int femem_poll_time(const femem *client);

/* Gets a line without its end, such as "session 7: back; requests without an answer: 2". It makes no call with the client. */
typedef void (*femem_log_function)(void *context, const char *line);

/* From now on the function gets a line when the client is attached, its connection is lost, the server is tried again (at
   first, and every five seconds), it is back, the session is lost, the client is given up, and when a request of the
   program was taken back. It runs within the call that finds this. Without it, and with NULL, nothing is told. */
void femem_log(femem *client, femem_log_function function, void *context);

/* ---- over the client's own restarts: only with a session file, otherwise FEMEM_BAD_CALL ---- */

/* The longest key, in bytes. */
enum { FEMEM_KEY = 1024 };

/* Makes the request once under that key (1 to FEMEM_KEY bytes and a zero byte), whatever stops in between and however
   often the program is restarted. The answer is that of the one time; it comes from the file if it is there. If the
   request has not happened (FEMEM_WITHDRAWN as in femem_call, or a refusal), the key is free again.
   FEMEM_OTHER_REQUEST if the key has another request. Takes memory for a new key. */
femem_error femem_once(femem *client, const char *key, const femem_request *request, femem_answer *answer);

/* The same with its own time in milliseconds, in place of `wait`, as femem_call_within has. An answer of a recovered request that
   was not taken is dropped if nothing could be said of a request that was taken back before. */
femem_error femem_once_within(femem *client, const char *key, const femem_request *request, int64_t within,
                              femem_answer *answer);

/* femem_batch under keys, one for each request. Called again it gives the same answers. */
femem_error femem_batch_once(femem *client, const char *const *keys, const femem_request *requests, size_t count,
                             femem_answer *answers);

/* Forgets a key and its answer. FEMEM_NOTHING_OUT if there is none, FEMEM_BAD_CALL while its request is out. May take
   memory; FEMEM_MEMORY changes nothing. */
femem_error femem_forget(femem *client, const char *key);

/* A request of the earlier life. femem_wait has its answer, by `number`; if it has a key, femem_once has. Without one
   `key` is "". A key of the Python client may have any bytes, so its length is told too. */
typedef struct femem_recovered {
  uint64_t number;
  femem_request request;
  size_t key_length;
  char key[FEMEM_KEY + 1];
} femem_recovered;

/* The requests of the earlier life that had no answer, or whose answer it took after its last send: at most 32, in
   order of their numbers. They are out like any others, but an answer that is not taken is dropped when its place is
   needed. FEMEM_NOTHING_OUT from the end of the list on. */
femem_error femem_recovered_at(const femem *client, unsigned index, femem_recovered *recovered);

/* ---- work queues ----

   A queue of jobs that several programs put and take, in C or with the Python client's WorkQueue. A job is a value.
   Each is given to one taker at a time until it is done; if its taker is away or says that it has failed, it is given
   to another one, and one whose last attempt has failed is set aside. README.md says what this promises.

   A queue uses a client, whose other calls may be used in between. Takers have a request out (femem_out) until the
   queue is closed, so femem_bye comes after that. Queue calls may use femem_report. */

/* A queue, opened by one client. */
typedef struct femem_queue femem_queue;

/* A job. `number` names it for ever. `attempt` counts from 1. */
typedef struct femem_job {
  uint64_t number;
  uint64_t value;
  uint32_t attempt;
} femem_job;

/* Opens the queue of that name (1 to 30 bytes) with room for `capacity` jobs (1 to 65,532), each of which is tried
   `attempts` times (1 to 16). All programs must give the same numbers: FEMEM_BAD_CALL. A job whose taker is away is
   given to another taker after `away_after` milliseconds, 5,000 if it is 0. FEMEM_BAD_CALL with the setting `resume`.
   Takes memory. If it fails, *queue is NULL. */
femem_error femem_queue_open(femem_queue **queue, femem *client, const char *name, uint32_t capacity,
                             uint32_t attempts, int64_t away_after);

/* Frees the queue, before its client is closed. It waits a second at most. Jobs that were taken and not ended are given
   to others. NULL is allowed. */
void femem_queue_close(femem_queue *queue);

/* Puts a job. Waits for room, `within` milliseconds at most: FEMEM_WITHDRAWN. The value is below 2^64 - 1. With a key,
   which needs a session file, it is put once, however often the program is restarted and calls this; femem_forget
   forgets the key. `key` may be NULL. */
femem_error femem_queue_put(femem_queue *queue, uint64_t value, const char *key, int64_t within);

/* Takes a job. Waits for one, `within` milliseconds at most: FEMEM_WITHDRAWN; then nothing was taken. Takes memory. */
femem_error femem_queue_take(femem_queue *queue, femem_job *job, int64_t within);

/* The job is done. FEMEM_NOT_OWNER: it was ended by another attempt, since this client was away. */
femem_error femem_queue_done(femem_queue *queue, const femem_job *job);

/* The attempt has failed: the job is given to another taker, or set aside if this was its last attempt. */
femem_error femem_queue_fail(femem_queue *queue, const femem_job *job);

/* The jobs that are set aside, `most` at most; *count gets how many there are. `jobs` may be NULL if `most` is 0. One whose
   last taker was killed is among them in a look from away_after to twice that after the first: its taker may come back. */
femem_error femem_queue_aside(femem_queue *queue, femem_job *jobs, size_t most, size_t *count);

/* Ends a job that is set aside. FEMEM_NOT_OWNER: it has ended. */
femem_error femem_queue_drop(femem_queue *queue, uint64_t number);

/* ---- channels ----

   A channel hands values from those who put them to those who take them, one at a time: it is an array of one word, of
   the channel's name, which a put fills and a take empties. So a put waits until the value before it was taken, and
   each value is taken once. The Python client's Channel is the same.

   A program that is killed in a put or a take leaves it done or not done, and does not know which; with a session file
   and a key it does. A call that ends with FEMEM_TIMEOUT, FEMEM_DISCONNECTED or FEMEM_UNREACHABLE has its request still
   out, under femem_number. */

/* A channel, opened by one client. */
typedef struct femem_channel femem_channel;

/* Opens the channel of that name, which is made if it is missing. FEMEM_BAD_NAME; FEMEM_BAD_CALL if the array of that
   name has another length, or with the setting `resume`. Takes memory. If it fails, *channel is NULL. */
femem_error femem_channel_open(femem_channel **channel, femem *client, const char *name);

/* Frees the channel, before or after its client is closed. Never waits. NULL is allowed. */
void femem_channel_close(femem_channel *channel);

/* Puts a value. Waits until the one before it was taken, `within` milliseconds at most: FEMEM_WITHDRAWN; then it was
   not put. FEMEM_NO_ARRAY if the array was removed. With a key, which needs a session file, it is put once, however
   often the program is restarted and calls this; femem_forget forgets the key. `key` may be NULL. */
femem_error femem_channel_put(femem_channel *channel, uint64_t value, const char *key, int64_t within);

/* Takes a value. Waits for one, `within` milliseconds at most: FEMEM_WITHDRAWN; then nothing was taken. With a key it
   takes one value, and gives the same one however often the program is restarted and calls this. */
femem_error femem_channel_take(femem_channel *channel, uint64_t *value, const char *key, int64_t within);

/* ---- what a client knows about itself ---- */

/* The connection's descriptor, for poll and the like; -1 if not connected. It changes with each connection. */
int femem_descriptor(const femem *client);

/* How many requests are out, without an answer. */
unsigned femem_out(const femem *client);

/* How many answers have come and are not taken. */
unsigned femem_ready(const femem *client);

/* The session's number. */
uint64_t femem_session(const femem *client);

/* The number of the last request; 0 before the first. */
uint64_t femem_number(const femem *client);

/* The last floor that the server reported. */
uint64_t femem_floor(const femem *client);

/* How often the client has reconnected. */
uint64_t femem_reconnects(const femem *client);

/* The errno of the last FEMEM_SYSTEM, FEMEM_UNREACHABLE or FEMEM_FILE_FAULT. */
int femem_errno(const femem *client);

/* The error's name in plain words, never NULL. */
const char *femem_error_text(femem_error error);

/* The version of the running library; FEMEM_VERSION is that of this header. */
const char *femem_version(void);

/* ---- the first of several ---- */

/* Makes requests, 1 to 31, until one of them is answered, and takes the others back. FEMEM_OK: answers[i] is that of
   requests[i], FEMEM_WITHDRAWN for one that has not happened; several may have. FEMEM_WITHDRAWN: none was answered within
   `within` milliseconds, and none has happened. FEMEM_BAD_CALL with the setting `resume`. */
femem_error femem_wait_any(femem *client, const femem_request *requests, size_t count, int64_t within,
                           femem_answer *answers);

/* From now on femem_wait_any, femem_queue_put, femem_queue_take, femem_queue_move, and the calls below that wait, end as
   if their time were over once that descriptor is readable; -1: none. It may be the end of a pipe to which a signal
   handler writes. Not while the server is away. */
void femem_stop_at(femem *client, int descriptor);

/* ---- locks, semaphores, counters and barriers ----

   Each has a name, and clients in C and Python that give the same name and size share it; docs/patterns.md has the words
   and steps. A handle is of one client, whose other calls may be used in between, and is closed before its client. What it
   holds when it is closed, or when its process is killed, stays held by the session: the next process of the session
   adopts it, or gives it back. FEMEM_BAD_CALL if the array of that name is another pattern's, or of another size, or with
   the setting `resume`. Each call may also return an error of the connection; what it then has done, the next call finds.

   Handles of locks, and of queues that take, have a request out (femem_out) until they are closed, so femem_bye comes
   after that. By it others see that this client is there. A program that does something else for long while it holds a
   lock calls femem_present now and then, and so comes back when the server was restarted: otherwise others may find it
   absent. */

/* Comes back if the server was restarted, and shows that this client is there. Waits only for the server. */
femem_error femem_present(femem *client);

/* A lock, held by one client at a time. */
typedef struct femem_lock femem_lock;

/* Opens the lock of that name (1 to 32 bytes), an array of its own. It is made when it is first acquired. Takes memory. If
   it fails, *lock is NULL. FEMEM_BAD_NAME. */
femem_error femem_lock_open(femem_lock **lock, femem *client, const char *name);

/* Opens the lock of a key, of at least one byte, in the array of that name. Such an array has `capacity` places, 4,096 if
   it is 0, and all who share it give the same number; with 1/8 more it takes two words each of the server's 65,536. Two
   keys may have one place, and then wait for each other: one key has that of any of n others with a chance of n / capacity.
   Who holds one of two such keys and acquires the other one waits for itself. */
femem_error femem_lock_open_in(femem_lock **lock, femem *client, const char *name, uint32_t capacity, const char *key);

/* Frees the handle. It waits a second at most. NULL is allowed. */
void femem_lock_close(femem_lock *lock);

/* Waits for the lock, `within` milliseconds at most: FEMEM_WITHDRAWN; then it is not held. An owner that was not connected
   for `takeover_after` milliseconds loses it; FEMEM_NEVER: none does. It may come back and go on: femem_lock_generation
   tells the two apart. FEMEM_BAD_CALL if this handle holds it. Takes memory. */
femem_error femem_lock_acquire(femem_lock *lock, int64_t within, int64_t takeover_after);

/* The same under a key, which needs a session file: one acquisition, however often the program is restarted and calls this,
   until femem_forget forgets the key. If it has happened, by this process or an earlier one, it gives FEMEM_OK, or
   FEMEM_NOT_OWNER if it is over: the lock was given back, broken or taken over. What an earlier process left without a key
   is given back first. FEMEM_OTHER_REQUEST if the key has another request. FEMEM_BAD_CALL for a lock of
   femem_lock_open_in. */
femem_error femem_lock_acquire_once(femem_lock *lock, const char *key, int64_t within, int64_t takeover_after);

/* Gives the lock back, also one that an earlier process of this session left. FEMEM_NOT_OWNER: it is free, another
   session's, or was taken over. */
femem_error femem_lock_release(femem_lock *lock);

/* The session that holds the lock, and whether its client is connected; `is_there` may be NULL. FEMEM_NOT_NOW: it is free.
   FEMEM_NO_ARRAY: there is no such lock. */
femem_error femem_lock_owner(femem_lock *lock, uint64_t *session, bool *is_there);

/* Frees the lock, whoever holds it. The owner's release is FEMEM_NOT_OWNER. FEMEM_NO_ARRAY: there is no such lock. */
femem_error femem_lock_break(femem_lock *lock);

/* A number of the last acquisition, greater than that of each acquisition before it, by whatever client. What the lock
   protects can refuse a smaller one than it has seen. */
uint64_t femem_lock_generation(const femem_lock *lock);

/* Whether the last acquisition found the lock held by an earlier process of this session. */
bool femem_lock_adopted(const femem_lock *lock);

/* Whether the last acquisition took the lock from an owner that was away; *session is then that owner's. */
bool femem_lock_broke(const femem_lock *lock, uint64_t *session);

/* A semaphore: a number of permits, each held by one client at a time. */
typedef struct femem_semaphore femem_semaphore;

/* Opens the semaphore of that name with so many permits, 1 to 32,766. Takes memory. If it fails, *semaphore is NULL.
   FEMEM_BAD_NAME. */
femem_error femem_semaphore_open(femem_semaphore **semaphore, femem *client, const char *name, uint32_t permits);

/* Frees the handle. Never waits. NULL is allowed. */
void femem_semaphore_close(femem_semaphore *semaphore);

/* Waits for a permit, `within` milliseconds at most: FEMEM_WITHDRAWN. Of the permits that an earlier process of this session
   left, the first call adopts one and gives back the others. FEMEM_BAD_CALL if this handle holds all permits. Takes
   memory. */
femem_error femem_semaphore_acquire(femem_semaphore *semaphore, int64_t within);

/* The same under a key, which needs a session file: one acquisition, however often the program is restarted and calls this,
   until femem_forget forgets the key. FEMEM_NOT_OWNER: its permit was given back. All permits that an earlier process left
   without a key are given back first. FEMEM_OTHER_REQUEST if the key has another request. */
femem_error femem_semaphore_acquire_once(femem_semaphore *semaphore, const char *key, int64_t within);

/* Gives back a permit of this handle, or one that an earlier process of this session left. FEMEM_NOT_OWNER: there is none. */
femem_error femem_semaphore_release(femem_semaphore *semaphore);

/* Gives back a permit of a session whose client is gone for good. FEMEM_NOT_OWNER: it has none. */
femem_error femem_semaphore_release_of(femem_semaphore *semaphore, uint64_t session);

/* The sessions that hold permits, `most` at most, each once for each permit; *count gets how many there are. `sessions` may
   be NULL if `most` is 0. */
femem_error femem_semaphore_holders(femem_semaphore *semaphore, uint64_t *sessions, size_t most, size_t *count);

/* Whether an earlier process of this session had left the permit of the last acquisition. */
bool femem_semaphore_adopted(const femem_semaphore *semaphore);

/* A counter: a number modulo 2^64. */
typedef struct femem_counter femem_counter;

/* Opens the counter of that name, which is made, with 0, if it is missing. FEMEM_BAD_NAME. Takes memory. If it fails,
   *counter is NULL. */
femem_error femem_counter_open(femem_counter **counter, femem *client, const char *name);

/* Frees the handle. Never waits. NULL is allowed. */
void femem_counter_close(femem_counter *counter);

/* Adds, modulo 2^64; *was, which may be NULL, is the number before. With a key, which needs a session file, it is added
   once, however often the program is restarted and calls this; `key` may be NULL. FEMEM_NO_ARRAY if the array was
   removed. Without a key it never waits for others; with one it waits if a request of one's own has emptied the word. */
femem_error femem_counter_add(femem_counter *counter, uint64_t amount, const char *key, uint64_t *was);

/* The number. FEMEM_NO_ARRAY if the array was removed. */
femem_error femem_counter_value(femem_counter *counter, uint64_t *value);

/* A barrier, at which a number of parties wait for each other, again and again. */
typedef struct femem_barrier femem_barrier;

/* Opens the barrier of that name (1 to 30 bytes) for so many parties, at least 1. Takes memory. If it fails, *barrier is
   NULL. FEMEM_BAD_NAME. */
femem_error femem_barrier_open(femem_barrier **barrier, femem *client, const char *name, uint32_t parties);

/* Frees the handle. Never waits. NULL is allowed. */
void femem_barrier_close(femem_barrier *barrier);

/* Waits until all have arrived. *number, which may be NULL, is that of this arrival, from 0 on. FEMEM_WITHDRAWN: not all
   arrived within `within` milliseconds, and the round is broken. FEMEM_BROKEN: the round was broken, until somebody resets
   it. After another error this arrival counts. */
femem_error femem_barrier_wait(femem_barrier *barrier, int64_t within, uint32_t *number);

/* Breaks the round, if it is not decided, and begins a new one. */
femem_error femem_barrier_reset(femem_barrier *barrier);

/* ---- a job that moves on ---- */

/* Ends a job that was taken from one queue, and puts one with that value into the next, in one step: for each job at most
   once, whoever takes it and however often. Waits for room in the next queue, `within` milliseconds at most:
   FEMEM_WITHDRAWN; then the job is still this taker's. FEMEM_NOT_OWNER: the job was ended before, by another attempt or by
   a move of this process whose answer did not come. The value is below 2^64 - 1. The two may be of one client. */
femem_error femem_queue_move(femem_queue *from, const femem_job *job, femem_queue *next, uint64_t value, int64_t within);

#ifdef __GNUC__
#pragma GCC visibility pop
#endif

#ifdef __cplusplus
}
#endif
#endif
