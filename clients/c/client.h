/* What the client's files share: its state and internal functions. Whatever the server sends, what the client keeps has
   a fixed size. Programs include femem.h, not this. */
#ifndef CLIENT_H
#define CLIENT_H

#include "femem.h"
#include "session_file.h"

#include <sys/socket.h>
#include <sys/types.h>
#include <sys/un.h>

/* Where a test may stop the process. */
#ifndef FEMEM_POINT
#define FEMEM_POINT(name) ((void)0)
#endif

/* Milliseconds of silence before a client asks whether it still has the session. */
#ifndef FEMEM_QUIET
#define FEMEM_QUIET 3000
#endif

enum {
  WINDOW = 32,              /* how many numbers from the floor on may be used */
  SETTLE_AFTER = 16,        /* the floor is raised once this many answers above it are taken */
  LONGEST_REQUEST = 51,     /* a create with a long name */
  SETTLE_FRAME = 13,
  LONGEST_REPORT = 262144,
  INPUT = 8192,
  OUTPUT = 8192,
  MOST_WORDS = 65536,       /* in all arrays of a server */
  RESERVE = 4096,           /* of the output: more than a whole window, its cancels and other messages */
  DENIED = 1000             /* milliseconds for which a process may have no right to a socket while its server starts */
};

/* The greatest floor; numbers are below 2^63. */
#define GREATEST_FLOOR ((UINT64_C(1) << 63) - WINDOW)

/* A cancel of this number is refused at once, and the refusal shows whether this connection has the session. */
#define PROBE (UINT64_C(1) << 63)

/* Kinds of frames that are not an operation's. */
enum {
  ATTACH = 1, CREATE, FIND, REMOVE, ACCESS, CANCEL, SETTLE, BYE, REPORT, ACCESS_NOW = 11, CREATE_LONG, FIND_LONG,
  WELCOME = 65, ANSWER, WITHDRAWN, SETTLED, GOODBYE, REFUSED, REPORTED
};
enum { ANSWER_VALUE = 1, ANSWER_DONE, ANSWER_ARRAY, LAST_ANSWER = 11 };

typedef struct reply {
  uint8_t kind, code;       /* code of an answer, number of a refusal */
  uint32_t length;          /* of an array, of a report's text */
  uint64_t number;          /* session of a welcome and a goodbye, floor of a settled */
  uint64_t value;           /* value or id of an answer, floor of a welcome */
} reply;

/* The request and the answer of a number, until the number 32 higher takes the place. A request has two numbers: its
   caller's, which never changes and is in `answer`, and `wire`, which the server knows. They differ once the request
   has moved: it was cancelled because it waited in the way of others, and sent again under a later number. PARKED is
   between the two. BACK: it has ended without effect, which is told once the floor is above its number. */
typedef enum slot_state { FREE, OUT, PARKED, BACK, ANSWERED, TAKEN } slot_state;
typedef enum cancelled { NOT, TO_MOVE, TO_END } cancelled;
typedef struct slot {
  slot_state state;
  cancelled cancelled;      /* why a cancel was sent */
  bool given_up;            /* its call ran out of time, so no caller waits for the withdrawal */
  bool keyed;               /* the session file keeps the answer */
  bool recovered;           /* from an earlier life: its answer may never be taken */
  bool unwanted;            /* it ended with its process: nobody gets its answer */
  bool again;               /* an earlier connection carried it too, and the server may not have read that copy yet */
  bool noted;               /* BACK: a settle passes it, and the session file has its end */
  bool expected;            /* BACK: asked again over this connection, and without a reply */
  bool ends;                /* it ends with its process: a step of a pattern */
  uint64_t wire;
  femem_request request;
  femem_answer answer;
} slot;

/* OPENING: attached for the first time, and what the session kept is being settled.
   RETURNING: attached again. In both nothing is sent before a welcome has come and the server has read the last attach:
   one that is unread when the client ends would take the session later, for what was sent behind it. */
typedef enum phase { CLOSED, OPENING, RETURNING, SERVED } phase;
typedef enum report_state { REPORT_NONE, REPORT_ASKED, REPORT_COMING, REPORT_HERE } report_state;

/* A word that this process has filled with its session. */
typedef struct held_word {
  uint64_t array;
  uint32_t index;
} held_word;

struct femem {
  unsigned forks;           /* how often the process was forked before it opened the client */
  int descriptor, system;
  phase phase;
  femem_error broken;       /* why it is CLOSED */
  femem_settings settings;
  struct sockaddr_un address;
  uint64_t session;
  bool opened, reached, welcomed, ended, bye; /* reached: this process has connected */
  bool restored;            /* from a session file, and not attached since */
  bool asks_back;           /* RETURNING: what is BACK below the floor that was asked for is asked again */
  int64_t denied_until;     /* microseconds: no right to the path since DENIED before; 0: it was not denied */
  unsigned opening_tries;
  uint64_t attaches, settles, cancels, probes;  /* sent and without a reply */
  int64_t quiet_since;      /* microseconds: when bytes last came, or waiting began */
  int64_t attach_at;        /* when it attaches again if no welcome has come */
  uint64_t floor_told, floor_asked, low, next;  /* low: the least number that is not taken; next: the next to use */
  uint64_t resumed_end;     /* the end of a resumed window, or 0 */
  uint64_t last, returns;
  slot slots[WINDOW];       /* by their numbers on the wire */
  unsigned out, ready, first_ready, moving; /* moving: requests being cancelled to move */
  uint64_t ready_numbers[WINDOW];           /* on the wire */
  session_file *file;       /* may be NULL, like the next */
  femem_recovered *recovered;
  bool short_recovered;     /* old.c: its program has a smaller femem_recovered */
  unsigned recovered_count, retaken; /* retaken: how often it was attached again after an earlier life's late messages */
  bool late; /* whether such a message waits below the floor that was asked for */
  uint64_t presence, present;   /* the array, and the number of the request that shows this client; 0: none */
  unsigned showing;             /* how many handles show it */
  held_word *held;
  size_t held_count, held_room;
  const uint64_t *awaited;      /* numbers of requests, for fe_any_of */
  int stop;                     /* ends waits once it is readable, or -1 */
  bool may_stop, stopped;       /* may_stop: in a wait that it ends */
  bool loops, at_once;          /* loops: of a program with its own loop; at_once: in a call that never waits */
  bool opening, trying;         /* opening: femem_poll has not said that it is open; trying: it has the next three */
  int64_t give_up_at, try_at, pause;
  femem_error failed;           /* why femem_poll gave up */
  session_file *left;           /* its session is ended first; only then it is `file` */
  femem_log_function log;
  void *log_context;
  int64_t tried_at;             /* when a line said that the server is tried again, since it was lost; or 0 */
  report_state report;
  femem_error report_error;
  char *text;
  size_t text_at, text_length;
  size_t input_end, output_begin, output_end;
  uint8_t input[INPUT], output[OUTPUT];
};

/* ---- wire.c ---- */

/* Numbers are big-endian on the wire. */
void fe_put4(uint8_t *at, uint32_t number);
void fe_put8(uint8_t *at, uint64_t number);
/* Whether it is one of the eight operations on words. */
bool fe_is_access(femem_operation operation);
/* Whether the answer to one of these is a value. */
bool fe_tells(femem_operation operation);
/* Encodes a request. Returns its size in bytes, at most LONGEST_REQUEST. */
size_t fe_put_request(uint8_t *at, uint64_t number, const femem_request *request);
/* Reads the frame of a request under number 0. Fields that the operation does not use become 0. Returns the frame's
   size, or 0 if there is no such frame. */
size_t fe_get_request(const uint8_t *frame, size_t count, femem_request *request);
/* Reads the reply at the start of the bytes. Returns its size, 0 if more bytes must come, -1 if no reply begins like
   this. Of a report it reads only the head. */
int fe_read_reply(const uint8_t *bytes, size_t count, reply *read);
/* Whether the bytes are UTF-8: no overlong form, no surrogate, nothing above U+10FFFF. */
bool fe_is_text(const uint8_t *bytes, size_t count);

/* ---- output.c ---- */

/* Room for `size` bytes at the end of the output, or NULL. */
uint8_t *fe_room(femem *client, size_t size);
/* Whether there is room for `size` bytes. */
bool fe_has_room(const femem *client, size_t size);
/* Puts a message of a kind and a number, such as an attach. */
void fe_put_short(femem *client, uint8_t kind, uint64_t number);
/* Puts a cancel that is always refused, at once: with `not-attached` if the connection has not, or no longer, the session. */
void fe_put_probe(femem *client);
/* Puts a message that is only a kind. */
void fe_put_bare(femem *client, uint8_t kind);
/* Puts a settle of that floor. */
void fe_put_settle(femem *client, uint64_t floor);
/* Puts a cancel of that number. */
void fe_put_cancel(femem *client, uint64_t number);
/* Puts the request that has this number on the wire. */
void fe_put_slot(femem *client, uint64_t number);
/* After a welcome that is not the first: puts the settle, the requests without an answer, and other open messages. */
void fe_put_again(femem *client);

/* Asks again what is BACK below the floor that was asked for, once over each connection: its answer shows whether it has
   happened meanwhile. It may also happen now. So the settle, behind which its answer is dropped, follows only once each
   has a reply. Whether one has none yet. */
bool fe_asks_back(femem *client);

/* ---- slots.c ---- */

/* The slot of a number on the wire. */
slot *fe_slot_of(femem *client, uint64_t number);
/* Whether the slot has the request of that number. */
bool fe_is_known(femem *client, uint64_t wire);
/* The request with that number for its caller, unless its answer was taken. */
slot *fe_find(femem *client, uint64_t number);
/* Moves `low` past taken answers. */
void fe_advance(femem *client);
/* A settle of this floor follows: notes in the session file that what is BACK below it has ended. */
void fe_note_passed(femem *client, uint64_t floor);
/* A cancel sent to move a request has ended, or got another purpose. */
void fe_end_move(femem *client);
/* A request has ended. */
void fe_answered(femem *client, slot *place, femem_answer answer);
/* A request has ended without effect: withdrawn or refused. If a copy of it may still be unread, this is told once the
   floor is above its number, since a number below the floor never takes effect. */
void fe_ended(femem *client, slot *place, femem_error error);
/* Notes the floor that the server reported. */
void fe_told_floor(femem *client, uint64_t floor);
/* Settles past what is BACK, and moves what waits in the way. */
void fe_raise_floor(femem *client);
/* Whether the floor can't rise above the request before its caller takes an answer or, with `resume`, a request. */
bool fe_is_blocked(femem *client, const slot *place);
/* Gives the caller an answer that has come. */
void fe_hand_out(femem *client, slot *place, femem_answer *answer);

/* ---- replies.c ---- */

/* Whether this is a possible answer to a request. */
bool fe_fits(const femem_request *request, const reply *told);
/* The answer in a reply, without its number. */
femem_answer fe_answer_of(const reply *told);
/* Handles every whole reply in the input. If it fails, the connection is closed. */
femem_error fe_digest(femem *client);

/* ---- line.c ---- */

/* How often this process is a child of a fork, for fe_is_copy. */
unsigned fe_forks(void);
/* Closes the connection, and notes why. */
void fe_close_line(femem *client, femem_error why);
/* The same, if it was not the program that ended it. */
void fe_lose_line(femem *client, femem_error why);
/* Microseconds of a monotonic clock. */
int64_t fe_now(void);
/* The moment `within` milliseconds from now, in microseconds; -1 for none. */
int64_t fe_moment(int64_t within);
/* Whether the moment has passed. */
bool fe_is_past(int64_t end);
/* Writes as much as the socket accepts. */
void fe_write_some(femem *client);
/* Reads once what has come, without waiting. */
femem_error fe_read_some(femem *client);
/* Whether this is a forked child's copy of the client, which must not use the connection. */
bool fe_is_copy(const femem *client);
/* Writes the output, and waits for bytes once. FEMEM_TIMEOUT if none come before the end. */
femem_error fe_step(femem *client, int64_t end);
/* Connects and attaches. With `again` it tries until the end, since a server may be restarting, or have no free
   connection or session for the moment. The first connection ends at once if the path can't lead to a socket, unless
   the settings say to wait. */
femem_error fe_reach(femem *client, int64_t end, bool again);
/* Connects and attaches, or goes on with that, once. */
femem_error fe_attach(femem *client, int64_t end);
/* Whether a try that ended so is made again. */
bool fe_is_passing(femem *client, femem_error error);
/* Why no server was reached. */
femem_error fe_not_reached(const femem *client);
/* Handles a lost connection: reconnects if the settings say so. */
femem_error fe_mend(femem *client, femem_error error, int64_t end);
/* Reconnects, or goes on with that, if the client is not connected. */
femem_error fe_come_back(femem *client, int64_t end);
/* FEMEM_OK if requests may be sent, or why not. The second has its own end. */
femem_error fe_usable(femem *client);
femem_error fe_usable_until(femem *client, int64_t end);

/* ---- loop.c ---- */

/* Milliseconds until a moment, rounded up and at most INT_MAX, for poll; -1 for none. */
int fe_poll_time(int64_t end);
/* Begins a public call that does not wait if the client is one of a loop; and ends it. */
femem_error fe_enter(femem *client, bool may_wait);
femem_error fe_leave(femem *client, femem_error error);
/* Goes on with connecting, as far as that is possible at once. FEMEM_TIMEOUT: it is not there yet. */
femem_error fe_reach_at_once(femem *client);
/* Tells the program a line. */
void fe_log(const femem *client, const char *form, ...) __attribute__((format(printf, 2, 3)));
/* Tells it that the server is tried again, at first and then now and then. */
void fe_log_try(femem *client, femem_error error);

/* ---- opening.c ---- */

/* A client that is not connected yet. */
femem_error fe_make(femem **client, const char *path, uint64_t session, const femem_settings *settings);
/* The same of the session in a file. */
femem_error fe_make_file(femem **client, const char *path, const char *file, const femem_settings *settings);
/* Restores the earlier life's state from the session file. */
femem_error fe_restore(femem *client);

/* ---- wait.c ---- */

typedef bool (*condition)(femem *, uint64_t);

/* Conditions. Their number is a request's, a floor, or one on the wire; some use none. */
bool fe_is_answered(femem *client, uint64_t number);
bool fe_is_settled(femem *client, uint64_t floor);
bool fe_any_answered(femem *client, uint64_t unused);
bool fe_any_of(femem *client, uint64_t count); /* of client->awaited */
bool fe_is_moved(femem *client, uint64_t wire);
bool fe_is_reported(femem *client, uint64_t unused);
bool fe_is_ended(femem *client, uint64_t unused);
/* Runs the connection until the condition holds. */
femem_error fe_wait_for(femem *client, condition holds, uint64_t number, int64_t end);
/* Runs the connection until all output is written. */
femem_error fe_write_all(femem *client, int64_t end);

/* ---- names.c ---- */

/* Finds an array of that name and length, or makes it, with empty words. */
femem_error fe_shared_array(femem *client, const char *name, uint32_t length, uint64_t *array);

/* ---- requests.c ---- */

/* Whether the request can be encoded. */
bool fe_is_spelled(const femem_request *request);
/* How a request is sent: it ends with its process; nobody gets its answer. */
enum { SEND_ENDS = 1, SEND_UNWANTED = 2 };

/* Gives a request the next number and adds it to the output. `key` may be NULL. */
femem_error fe_send_request(femem *client, const femem_request *request, const char *key, unsigned how,
                            uint64_t *number);
/* femem_call_within with a request that is sent in that way. */
femem_error fe_call(femem *client, const femem_request *request, unsigned how, int64_t within, femem_answer *answer);
/* How a request with a key has ended. (Its answer is not taken by number.) */
femem_answer fe_end_of(const femem *client, uint64_t number);
/* Waits for a request's answer. FEMEM_TIMEOUT also if fe_is_blocked. */
femem_error fe_wait_for_answer(femem *client, uint64_t number, int64_t within);
/* Cancels a request, if it has no answer. */
femem_error fe_ask_back(femem *client, uint64_t number);
/* femem_flush, femem_wait and femem_cancel as the other calls use them, also if the client is one of a loop. */
femem_error fe_flush(femem *client);
femem_error fe_take(femem *client, uint64_t number, femem_answer *answer, int64_t within);
femem_error fe_take_back(femem *client, uint64_t number, femem_answer *answer);
bool fe_drop_recovered(femem *client);
/* Drops a request's answer, whether it has come or not. */
void fe_abandon(femem *client, uint64_t number);

/* ---- many.c ---- */

/* The key's request and answer, as far as the session file has them; NULL if the key is free. */
const kept_key *fe_find_key(const femem *client, const char *key);
/* Whether it is a key. */
bool fe_is_key(const char *key);
/* Takes the answer of a request that was taken back. Recovered answers that nobody has taken, and that hold the floor
   below it, are dropped. */
femem_error fe_take_end(femem *client, uint64_t number, femem_answer *answer);
/* femem_batch with requests that are sent in that way. */
femem_error fe_batch(femem *client, unsigned how, const femem_request *requests, size_t count, femem_answer *answers);

#endif
