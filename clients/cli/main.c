/* femem-cli: the command line, lists of commands from standard input, and a prompt. */
#define _POSIX_C_SOURCE 200809L
#include "cli.h"

#include <ctype.h>
#include <errno.h>
#include <inttypes.h>
#include <poll.h>
#include <signal.h>
#include <stdlib.h>
#include <string.h>
#include <unistd.h>

enum { MOST_PARTIES = 32766 }; /* permits of a semaphore, or parties of a barrier */

typedef int (*command)(command_line *cli, char **words, int count);
static int do_help(command_line *cli, char **words, int count);

/* Each command, and how many words it has, itself counted. One that runs another command is not for lists and the prompt. */
static const struct { const char *name, *words; int least, most; command run; } commands[] = {
  {"create", "NAME LENGTH [full|empty]", 3, 4, do_create},
  {"find", "NAME", 2, 2, do_find},
  {"remove", "NAME", 2, 2, do_remove},
  {"arrays", "", 1, 1, do_arrays},
  {"readfe", "NAME INDEX", 3, 3, do_word},
  {"readff", "NAME INDEX", 3, 3, do_word},
  {"readxx", "NAME INDEX", 3, 3, do_word},
  {"writeef", "NAME INDEX VALUE", 4, 4, do_word},
  {"writeff", "NAME INDEX VALUE", 4, 4, do_word},
  {"writexf", "NAME INDEX VALUE", 4, 4, do_word},
  {"purge", "NAME INDEX", 3, 3, do_word},
  {"int_fetch_add", "NAME INDEX VALUE", 4, 4, do_word},
  {"first", "readfe|readff NAME INDEX [NAME INDEX ..]", 4, 0, do_first},
  {"counter", "NAME [+N]", 2, 3, do_counter},
  {"channel", "NAME put VALUE | take", 3, 4, do_channel},
  {"queue", "NAME put VALUE | take [-- COMMAND ..] | aside | drop JOB", 3, 0, do_queue},
  {"lock", "NAME -- COMMAND ..", 4, 0, do_lock},
  {"owner", "NAME", 2, 2, do_owner},
  {"break", "NAME", 2, 2, do_break},
  {"semaphore", "NAME -n PERMITS [-- COMMAND .. | free SESSION]", 2, 0, do_semaphore},
  {"barrier", "NAME -n PARTIES [reset]", 2, 3, do_barrier},
  {"forget", "KEY", 2, 2, do_forget},
  {"sessions", "", 1, 1, do_sessions},
  {"report", "", 1, 1, do_report},
  {"graph", "", 1, 1, do_graph},
  {"top", "", 1, 1, do_top},
  {"help", "", 1, 1, do_help},
};
enum { COMMANDS = sizeof commands / sizeof *commands };

static int help(command_line *cli) {
  puts("femem-cli [OPTION ..] COMMAND ..     one command; without one, a prompt on a terminal, otherwise a list of them\n"
       "                                     from standard input\n");
  for (int i = 0; i < COMMANDS; i++) printf("  %s %s\n", commands[i].name, commands[i].words);
  fputs("\n  --socket PATH  --session N  --session-file FILE  --key KEY  --timeout SECONDS  --nowait\n"
        "  --reconnect-timeout SECONDS  --takeover-after SECONDS  -E STATUS  --in NAME  --capacity N  --attempts N\n"
        "  --away-after SECONDS  --store PATH  --program PATH  --json  -e  --quiet  --owners  --svg\n"
        "  --once  --every SECONDS  --help  --version\n\n"
        "Status: 0 done, 1 not in time, 2 usage, 3 refused, 4 no server, 5 another fault, 6 no right to the socket.\n"
        "'man femem-cli' says more.",
        stdout);
  return said(cli);
}

static int do_help(command_line *cli, char **words, int count) {
  (void)words, (void)count;
  return help(cli);
}

/* ---- options ---- */

typedef enum option_kind { FLAG, TEXT, SECONDS, SESSION, NUMBER, STATUS } option_kind;

static const struct { const char *name; option_kind kind; size_t at; uint64_t most; } options_known[] = {
#define OPTION(name, kind, field, most) {name, kind, offsetof(options, field), most}
  OPTION("--socket", TEXT, socket, 0), OPTION("-s", TEXT, socket, 0),
  OPTION("--store", TEXT, store, 0), OPTION("--program", TEXT, program, 0),
  OPTION("--session-file", TEXT, file, 0), OPTION("--key", TEXT, key, 0), OPTION("--in", TEXT, in, 0),
  OPTION("--session", SESSION, session, UINT64_MAX),
  OPTION("--timeout", SECONDS, timeout, 0), OPTION("-t", SECONDS, timeout, 0),
  OPTION("--reconnect-timeout", SECONDS, reconnect, 0),
  OPTION("--takeover-after", SECONDS, takeover_after, 0), OPTION("--away-after", SECONDS, away_after, 0),
  OPTION("--every", SECONDS, every, 0), OPTION("--once", FLAG, once, 0),
  OPTION("--capacity", NUMBER, capacity, 65532), OPTION("--attempts", NUMBER, attempts, 16),
  OPTION("-E", STATUS, conflict, 255),
  OPTION("--nowait", FLAG, no_wait, 0), OPTION("-n", FLAG, no_wait, 0),
  OPTION("--quiet", FLAG, quiet, 0), OPTION("-q", FLAG, quiet, 0), OPTION("--json", FLAG, json, 0),
  OPTION("--help", FLAG, help, 0), OPTION("-h", FLAG, help, 0), OPTION("--version", FLAG, version, 0),
  OPTION("-V", FLAG, version, 0), OPTION("-e", FLAG, ends, 0),
  OPTION("--owners", FLAG, owners, 0), OPTION("--svg", FLAG, svg, 0),
#undef OPTION
};

/* Takes an option's value; a status. */
static int take_value(command_line *cli, size_t at, const char *word) {
  void *field = (char *)&cli->given + options_known[at].at;
  const char *name = options_known[at].name;
  uint64_t number = 0;
  option_kind kind = options_known[at].kind;
  if (kind == TEXT) *(const char **)field = word;
  if (kind == TEXT) return *word ? DONE : fail(cli, USAGE, "%s needs a text", name);
  if (kind == SECONDS && !read_time(word, field)) return fail(cli, USAGE, "%s: %s is no time in seconds", name, word);
  if (kind == SECONDS) return DONE;
  uint64_t most = options_known[at].most, least = kind == NUMBER;
  if (!read_number(word, most, &number) || number < least)
    return fail(cli, USAGE, "%s: %s is no number from %" PRIu64 " to %" PRIu64, name, word, least, most);
  if (kind == SESSION) *(uint64_t *)field = number;
  if (kind == SESSION) cli->given.has_session = true;
  if (kind == NUMBER) *(uint32_t *)field = (uint32_t)number;
  if (kind == STATUS) *(int *)field = (int)number;
  return DONE;
}

static bool is_option(const char *name, const char *word, size_t length) {
  return strlen(name) == length && strncmp(name, word, length) == 0;
}

/* Takes one option, `--name value` or `--name=value`; a status. *used says how many words it is. */
static int take_option(command_line *cli, char **words, int *used) {
  char *value = strchr(words[0], '=');
  size_t length = value ? (size_t)(value - words[0]) : strlen(words[0]), at = 0, count;
  count = sizeof options_known / sizeof *options_known;
  while (at < count && !is_option(options_known[at].name, words[0], length)) at++;
  if (at == count) return fail(cli, USAGE, "there is no option %s ('femem-cli --help' lists them)", words[0]);
  *used = 1;
  if (options_known[at].kind == FLAG) {
    *(bool *)((char *)&cli->given + options_known[at].at) = true;
    return value ? fail(cli, USAGE, "%s has no value", options_known[at].name) : DONE;
  }
  if (!value) *used = 2;
  value = value ? value + 1 : words[1];
  return value ? take_value(cli, at, value) : fail(cli, USAGE, "%s needs a value", words[0]);
}

/* Takes `-n N` behind the name of a command that has it; a status. */
static int take_parties(command_line *cli, char **words, int *used) {
  uint64_t number;
  *used = 2;
  if (!words[1]) return fail(cli, USAGE, "-n needs a value");
  if (!read_number(words[1], MOST_PARTIES, &number) || number == 0)
    return fail(cli, USAGE, "-n: %s is no number from 1 to %d", words[1], MOST_PARTIES);
  cli->given.parties = (uint32_t)number;
  return DONE;
}

static bool has_parties(const char *name) { return strcmp(name, "semaphore") == 0 || strcmp(name, "barrier") == 0; }

/* Takes the options before `--`, which may be between other words; a status. The other words are moved together. */
static int take_options(command_line *cli, char **words, int *count) {
  int kept = 0, at = 0;
  while (words[at] && strcmp(words[at], "--")) {
    bool option = words[at][0] == '-' && words[at][1] && !isdigit((unsigned char)words[at][1]);
    bool parties = kept > 0 && has_parties(words[0]) && strcmp(words[at], "-n") == 0;
    int used = 1, status = parties ? take_parties(cli, words + at, &used) : option ? take_option(cli, words + at, &used) : DONE;
    if (status) return status;
    if (!option) words[kept++] = words[at];
    at += used;
  }
  while (words[at]) words[kept++] = words[at++];
  words[kept] = NULL;
  *count = kept;
  if (cli->given.file && cli->given.has_session)
    return fail(cli, USAGE, "--session-file has a session of its own, so --session is not for it");
  if (cli->given.key && !cli->given.file) return fail(cli, USAGE, "--key needs --session-file");
  if (cli->given.key && cli->given.no_wait)
    return fail(cli, USAGE, "--key and --nowait do not go together: --timeout does");
  return DONE;
}

/* ---- commands ---- */

static bool is_holding(char **words, int count) {
  for (int i = 0; i < count; i++)
    if (strcmp(words[i], "--") == 0) return true;
  return false;
}

static int run(command_line *cli, char **words, int count) {
  int at = 0;
  while (at < COMMANDS && strcmp(commands[at].name, words[0])) at++;
  if (at == COMMANDS) return fail(cli, USAGE, "there is no command %s ('femem-cli --help' lists them)", words[0]);
  bool right = count >= commands[at].least && (commands[at].most == 0 || count <= commands[at].most);
  if (!right) return fail(cli, USAGE, "%s %s", commands[at].name, commands[at].words);
  if ((cli->line || cli->prompts) && is_holding(words, count))
    return fail(cli, USAGE, "a list and the prompt have no commands that run others");
  return commands[at].run(cli, words, count);
}

static int split(char *line, char **words) {
  int count = 0;
  for (char *word = strtok(line, " \t\r\n"); word && count < MOST_WORDS; word = strtok(NULL, " \t\r\n"))
    words[count++] = word;
  words[count] = NULL;
  return count;
}

/* ---- lists and the prompt ---- */

static bool is_same_session(const options *one, const options *other) {
  return one->socket == other->socket && one->file == other->file && one->session == other->session &&
         one->has_session == other->has_session;
}

/* Runs a line. Its options are for it alone. A status. */
static int run_line(command_line *cli, char **words) {
  const options given = cli->given;
  int count, status = take_options(cli, words, &count);
  if (status == DONE && !is_same_session(&given, &cli->given))
    status = fail(cli, USAGE, "all lines have one socket and one session: they are for femem-cli itself");
  else if (status == DONE && cli->given.help) status = help(cli);
  else if (status == DONE && count == 0) status = fail(cli, USAGE, "there is no command ('help' lists them)");
  else if (status == DONE) status = run(cli, words, count);
  cli->given = given;
  return status;
}

/* Whether the last line left a request that could not be taken back: its client would ask it again. */
static bool has_left(const command_line *cli) { return cli->client && femem_out(cli->client) > 0; }

/* Runs the lines of standard input. The status is that of the first one that failed. */
static int run_lines(command_line *cli) {
  char *line = NULL, *words[MOST_WORDS + 1];
  size_t room = 0;
  int first = DONE;
  while (getline(&line, &room, stdin) >= 0) {
    cli->line++;
    int count = split(line, words);
    if (count == 0 || words[0][0] == '#') continue;
    int status = run_line(cli, words);
    if (has_left(cli)) drop_client(cli);
    if (first == DONE) first = status;
    if ((status && cli->given.ends) || signal_seen()) break;
  }
  if (first == DONE && ferror(stdin) && !signal_seen()) first = fail(cli, FAULT, "standard input: %s", strerror(errno));
  free(line);
  return first;
}

/* Reads a line at the prompt. Ctrl-C, there or in the command before it, begins another line. False at the end. */
static bool next_line(command_line *cli, char **line, size_t *room) {
  struct pollfd both[] = {{.fd = STDIN_FILENO, .events = POLLIN}, {.fd = cli->stop, .events = POLLIN}};
  for (;;) {
    if (take_interrupt(cli)) fputc('\n', stderr);
    fputs("femem-cli> ", stderr);
    while (poll(both, 2, -1) < 0 && errno == EINTR && !signal_seen()) continue;
    if (!signal_seen() && getline(line, room, stdin) >= 0) return true;
    if (signal_seen() != SIGINT) return false;
    clearerr(stdin);
  }
}

static bool is_end(const char *word) { return strcmp(word, "quit") == 0 || strcmp(word, "exit") == 0; }

/* Runs the lines that somebody types, until the end of the input. */
static int run_prompt(command_line *cli) {
  char *line = NULL, *words[MOST_WORDS + 1];
  size_t room = 0;
  bool ends = false;
  cli->prompts = true;
  while (!ends && next_line(cli, &line, &room)) {
    int count = split(line, words);
    if (count == 0 || words[0][0] == '#') continue;
    ends = is_end(words[0]);
    if (ends) continue;
    int status = run_line(cli, words);
    if (has_left(cli)) drop_client(cli);
    else if (status == FAULT) close_client(cli); /* it can't be used again */
  }
  if (!ends) fputc('\n', stderr);
  free(line);
  return DONE;
}

static int run_without_command(command_line *cli) {
  return isatty(STDIN_FILENO) ? run_prompt(cli) : run_lines(cli);
}

static int run_all(command_line *cli, char **words, int count) {
  if (count && is_holding(words, count)) return run(cli, words, count);
  if (!watch_signals(cli)) return fail(cli, FAULT, "%s", strerror(errno));
  int status = guard_session(cli);
  if (status == DONE) status = count ? run(cli, words, count) : run_without_command(cli);
  close_client(cli);
  if (!signal_seen()) return status;
  signal(signal_seen(), SIG_DFL);
  raise(signal_seen());
  return BY_SIGNAL + signal_seen();
}

int main(int count, char **words) {
  const char *socket = getenv("FEMEM_SOCKET"), *store = getenv("FEMEM_STORE");
  command_line cli = {.entry = -1, .stop = -1, .given = {
    .socket = socket && *socket ? socket : DEFAULT_SOCKET, .store = store && *store ? store : DEFAULT_STORE,
    .program = "femem", .every = 1000, .timeout = -1, .reconnect = 30000, .takeover_after = -1, .away_after = -1,
    .conflict = LATE, .attempts = 3}};
  if (count < 1) return USAGE;
  signal(SIGPIPE, SIG_IGN);
  int left_over, status = take_options(&cli, words + 1, &left_over);
  if (status) return status;
  if (cli.given.help) return help(&cli);
  if (!cli.given.version) return run_all(&cli, words + 1, left_over);
  printf("femem-cli %s", femem_version());
  return said(&cli);
}
