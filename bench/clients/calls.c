/* `calls FEMEM REDIS ROUNDS`: the C client and hiredis in turns. Prints a line of JSON for each load. */
#include "femem.h"

#include <hiredis/hiredis.h>
#include <inttypes.h>
#include <stdio.h>
#include <stdlib.h>
#include <sys/resource.h>

enum { MOST = 1000 };

static femem *client;
static redisContext *other;
static uint64_t array, done;

static void fail(const char *what) {
  fprintf(stderr, "calls: %s\n", what);
  exit(1);
}

static void ours(unsigned count) {
  static femem_request requests[MOST];
  static femem_answer answers[MOST];
  uint64_t was;
  done += count;
  if (count == 1) {
    if (femem_int_fetch_add(client, array, 0, 1, &was)) fail("femem_int_fetch_add");
    return;
  }
  for (unsigned i = 0; i < count; i++)
    requests[i] = (femem_request){.operation = FEMEM_INT_FETCH_ADD, .array = array, .operand = 1};
  if (femem_batch(client, requests, count, answers)) fail("femem_batch");
  for (unsigned i = 0; i < count; i++)
    if (answers[i].error) fail("an answer of a batch");
}

static void theirs(unsigned count) {
  redisReply *reply = NULL;
  for (unsigned i = 0; i < count; i++) redisAppendCommand(other, "INCRBY word 1");
  for (unsigned i = 0; i < count; i++) {
    if (redisGetReply(other, (void **)&reply) || reply->type != REDIS_REPLY_INTEGER) fail("INCRBY");
    freeReplyObject(reply);
  }
}

static double spent(void) {
  struct rusage used;
  getrusage(RUSAGE_SELF, &used);
  return (double)(used.ru_utime.tv_sec + used.ru_stime.tv_sec) * 1e6 +
         (double)(used.ru_utime.tv_usec + used.ru_stime.tv_usec);
}

static double cost(void (*work)(unsigned), unsigned times, unsigned count) {
  double before = spent();
  for (unsigned i = 0; i < times; i++) work(count);
  return (spent() - before) / times / count;
}

static void measure(const char *name, unsigned rounds, unsigned times, unsigned count) {
  ours(count);
  theirs(count);
  printf("%s\t[", name);
  for (unsigned i = 0; i < rounds; i++) {
    double mine = cost(ours, times, count);
    printf("%s[%.3f, %.3f]", i ? ", " : "", mine, cost(theirs, times, count));
  }
  printf("]\n");
}

int main(int count, char **words) {
  if (count != 4) fail("FEMEM REDIS ROUNDS");
  unsigned rounds = (unsigned)atoi(words[3]);
  other = redisConnectUnix(words[2]);
  if (!other || other->err || femem_open(&client, words[1], 2, NULL)) fail("no server");
  if (femem_create(client, "c_word", 1, true, &array)) fail("femem_create");
  freeReplyObject(redisCommand(other, "DEL word"));
  measure("call", rounds, 2000, 1);
  measure("batch 32", rounds, 300, 32);
  measure("batch 1000", rounds, 20, 1000);
  uint64_t sum;
  redisReply *reply = redisCommand(other, "GET word");
  if (femem_readff(client, array, 0, &sum) || sum != done) fail("an addition of femem is missing");
  if (!reply || reply->type != REDIS_REPLY_STRING || strtoull(reply->str, NULL, 10) != done) fail("one of Redis is missing");
  freeReplyObject(reply);
  redisFree(other);
  femem_bye(client);
  femem_close(client);
  return 0;
}
