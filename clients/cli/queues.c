/* Work queues, by libfemem. */
#define _POSIX_C_SOURCE 200809L
#include "cli.h"

#include <errno.h>
#include <inttypes.h>
#include <stdlib.h>
#include <string.h>

enum { SLICE = 500 }; /* milliseconds, after which a waiting call looks whether it is time to give up */

static uint32_t capacity_of(const command_line *cli) { return cli->given.capacity ? cli->given.capacity : 1000; }

static int open_queue(command_line *cli, const char *name, femem_queue **queue) {
  if (!is_name(name) || strlen(name) > LONGEST_NAME - 2)
    return fail(cli, REFUSED, "%s: names of queues have a to z, 0 to 9 and _, and 1 to 30 of these", name);
  int status = open_client(cli);
  if (status) return status;
  int64_t away = cli->given.away_after;
  femem_error error = femem_queue_open(queue, cli->client, name, capacity_of(cli), cli->given.attempts,
                                       away < 0 ? 0 : away == 0 ? 1 : away);
  if (error == FEMEM_BAD_CALL)
    return fail(cli, REFUSED, "%s is no queue of %" PRIu32 " jobs with %" PRIu32 " attempts: --capacity and --attempts "
                "are the same for all", name, capacity_of(cli), cli->given.attempts);
  return error ? fail_for(cli, error, name) : DONE;
}

/* How long the next try may take. */
static int64_t slice(int64_t end) {
  int64_t rest = left(end);
  return rest < 0 || rest > SLICE ? SLICE : rest;
}

static int64_t end_of_wait(const command_line *cli) { return cli->given.no_wait ? now() : moment(cli->given.timeout); }

static int put(command_line *cli, femem_queue *queue, const char *name, const char *word) {
  uint64_t value;
  if (!read_number(word, UINT64_MAX - 1, &value))
    return fail(cli, USAGE, "%s is no number from 0 to %" PRIu64, word, UINT64_MAX - 1);
  int64_t end = end_of_wait(cli);
  femem_error error;
  do error = femem_queue_put(queue, value, cli->given.key, slice(end));
  while (error == FEMEM_WITHDRAWN && left(end) != 0 && !(cli->stopped = nap(cli->stop, 0)));
  return error ? fail_for(cli, error, name) : say_done(cli);
}

static femem_error take(command_line *cli, femem_queue *queue, femem_job *job) {
  int64_t end = end_of_wait(cli);
  femem_error error;
  do error = femem_queue_take(queue, job, slice(end));
  while (error == FEMEM_WITHDRAWN && left(end) != 0 && !(cli->stopped = nap(cli->stop, 0)));
  return error;
}

/* The job is done once its value is printed. */
static int take_one(command_line *cli, femem_queue *queue, const char *name) {
  femem_job job;
  femem_error error = take(cli, queue, &job);
  int status = error ? fail_for(cli, error, name) : say_value(cli, job.value);
  if (status) return status;
  error = femem_queue_done(queue, &job);
  return error ? fail_for(cli, error, name) : DONE;
}

static int begin_job(holding *held) {
  int status = open_queue(held->cli, held->name, &held->queue);
  if (status) return status;
  femem_error error = take(held->cli, held->queue, &held->job);
  if (error) femem_queue_close(held->queue);
  if (error) return fail_for(held->cli, error, held->name);
  held->told[0].value = held->job.value;
  held->told[1].value = held->job.number;
  held->told[2].value = held->job.attempt;
  return DONE;
}

/* A command that fails, or whose end is not known, leaves its job to another taker. */
static int end_job(holding *held, int status) {
  femem_error error = status == 0 ? femem_queue_done(held->queue, &held->job)
                                  : femem_queue_fail(held->queue, &held->job);
  femem_queue_close(held->queue);
  if (error == FEMEM_NOT_OWNER)
    return fail(held->cli, FAULT, "%s: the job was given to another taker while the command ran", held->name);
  return error ? fail_for(held->cli, error, held->name) : DONE;
}

static int run_job(command_line *cli, char **words) {
  holding held = {.cli = cli, .name = words[1], .begin = begin_job, .end = end_job,
                  .told = {{.name = "FEMEM_VALUE"}, {.name = "FEMEM_JOB"}, {.name = "FEMEM_ATTEMPT"}}};
  return run_holding(&held, words + 4);
}

/* Jobs that are set aside: the number and the value of each. */
static int list_aside(command_line *cli, femem_queue *queue, const char *name) {
  size_t count, most = capacity_of(cli);
  femem_job *jobs = calloc(most, sizeof *jobs);
  if (!jobs) return fail(cli, FAULT, "%s", strerror(errno));
  femem_error error = femem_queue_aside(queue, jobs, most, &count);
  int status = error ? fail_for(cli, error, name) : DONE;
  const char *line = cli->given.json ? "{\"job\": %" PRIu64 ", \"value\": %" PRIu64 "}" : "%" PRIu64 " %" PRIu64;
  for (size_t i = 0; !error && status == DONE && i < count && i < most; i++) {
    printf(line, jobs[i].number, jobs[i].value);
    status = said(cli);
  }
  free(jobs);
  return status;
}

static int drop(command_line *cli, femem_queue *queue, const char *word) {
  uint64_t number;
  if (!read_number(word, UINT64_MAX, &number)) return fail(cli, USAGE, "%s is no number of a job", word);
  femem_error error = femem_queue_drop(queue, number);
  if (error == FEMEM_NOT_OWNER) return fail(cli, REFUSED, "%s: no such job is set aside", word);
  return error ? fail_for(cli, error, word) : say_done(cli);
}

int do_queue(command_line *cli, char **words, int count) {
  const char *what = words[2];
  bool puts = count == 4 && strcmp(what, "put") == 0, takes = strcmp(what, "take") == 0;
  bool drops = count == 4 && strcmp(what, "drop") == 0, aside = count == 3 && strcmp(what, "aside") == 0;
  if (takes && count > 4 && strcmp(words[3], "--") == 0) return run_job(cli, words);
  if (!puts && !drops && !aside && !(takes && count == 3))
    return fail(cli, USAGE, "queue NAME put VALUE, queue NAME take [-- COMMAND ..], queue NAME aside, or "
                "queue NAME drop JOB");
  femem_queue *queue;
  int status = open_queue(cli, words[1], &queue);
  if (status) return status;
  if (puts) status = put(cli, queue, words[1], words[3]);
  else if (takes) status = take_one(cli, queue, words[1]);
  else if (drops) status = drop(cli, queue, words[3]);
  else status = list_aside(cli, queue, words[1]);
  femem_queue_close(queue);
  return status;
}
