/* Two clients in one loop against a real server that is killed and restarted: check_loop PROGRAM. It ends within ten
   minutes, usually within ten seconds, with status 0 if all is right. */
#define _GNU_SOURCE
#include "real.h"

#include <poll.h>

enum { CLIENTS = 2, ADDS = 1500, KILLS = 6 };

typedef struct adder {
  femem *client;
  femem_error error;            /* of the last femem_poll */
  unsigned sent, taken, lost, back;
} adder;

static unsigned char seen[CLIENTS * ADDS];
static uint64_t array;
static const char sessions[] = "session";

static void note(void *context, const char *line) {
  adder *of = context;
  of->lost += strstr(line, ": the connection was lost: ") != NULL;
  of->back += strstr(line, ": back; requests without an answer: ") != NULL;
}

/* What a turn of the loop does with a client. */
static void go_on(adder *of) {
  femem_answer answer;
  of->error = femem_poll(of->client);
  while (of->sent < ADDS && of->sent - of->taken < 32) {
    if (femem_send_int_fetch_add(of->client, array, 0, 1, NULL) != FEMEM_OK) break;
    of->sent++;
  }
  while (femem_next(of->client, &answer, 0) == FEMEM_OK) {
    of->taken++;
    if (answer.error == FEMEM_OK && answer.value < sizeof seen) seen[answer.value]++;
  }
}

/* One turn, of a second at most. */
static void turn(adder *all) {
  struct pollfd lines[CLIENTS];
  int time = 1000;
  for (int i = 0; i < CLIENTS; i++) {
    short events = femem_wants_write(all[i].client) ? POLLIN | POLLOUT : POLLIN;
    lines[i] = (struct pollfd){.fd = femem_descriptor(all[i].client), .events = events};
    int own = femem_poll_time(all[i].client);
    if (own >= 0 && own < time) time = own;
  }
  poll(lines, CLIENTS, time);
  for (int i = 0; i < CLIENTS; i++) go_on(&all[i]);
}

static bool are_open(const adder *all) { return all[0].error == FEMEM_OK && all[1].error == FEMEM_OK; }

static bool fails(const adder *all) {
  for (int i = 0; i < CLIENTS; i++)
    if (all[i].error && all[i].error != FEMEM_TIMEOUT) return true;
  return false;
}

/* Each number is added once, while the server is killed after every so many answers, and is away for some turns. */
static void kills(adder *all) {
  unsigned done = 0, killed = 0, away = 0;
  while ((done < CLIENTS * ADDS || !are_open(all)) && !fails(all)) {
    turn(all);
    done = all[0].taken + all[1].taken;
    if (server <= 0 && ++away > 12) start_server();
    if (server <= 0 || !are_open(all) || killed == KILLS || done < (killed + 1) * CLIENTS * ADDS / (KILLS + 1)) continue;
    stop_server();
    killed++;
    away = 0;
  }
  CHECK(!fails(all) && killed == KILLS);
  unsigned once = 0;
  for (size_t i = 0; i < sizeof seen; i++) once += seen[i] == 1;
  CHECK(once == CLIENTS * ADDS);
}

static void open_at_last(femem *client) {
  femem_error error;
  while ((error = femem_poll(client)) == FEMEM_TIMEOUT) {
    struct pollfd line = {.fd = femem_descriptor(client), .events = POLLIN};
    if (femem_wants_write(client)) line.events |= POLLOUT;
    poll(&line, 1, femem_poll_time(client));
  }
  ERROR(error, FEMEM_OK);
}

static femem *begun(const char *name) {
  char kept[100];
  femem *client = NULL;
  snprintf(kept, sizeof kept, "%s/%s", folder, name ? name : "");
  femem_error error = name ? femem_open_file_begin(&client, path, kept, &usual) : femem_open_begin(&client, path, 7, &usual);
  if (error) give_up(femem_error_text(error));
  return client;
}

/* An end that the server has not heard of is made up for by the next client, without waiting. */
static void end_is_made_up(femem *client) {
  uint64_t before = femem_session(client);
  femem_answer answer = {0};
  kill(server, SIGSTOP);
  waitpid(server, NULL, WUNTRACED); /* until all its threads have stopped */
  ERROR(femem_bye_within(client, 0), FEMEM_TIMEOUT);
  femem_close(client);
  stop_server();
  client = begun(sessions);
  ERROR(femem_poll(client), FEMEM_TIMEOUT);
  ERROR(femem_send_int_fetch_add(client, array, 0, 1, NULL), FEMEM_BAD_CALL);
  CHECK(femem_session(client) == before);
  start_server();
  open_at_last(client);
  CHECK(femem_session(client) != before && femem_number(client) == 0 && femem_reconnects(client) == 0);
  femem_request add = {.operation = FEMEM_INT_FETCH_ADD, .array = array, .operand = 1};
  ERROR(femem_once(client, "the key", &add, &answer), FEMEM_OK);
  CHECK(answer.value == CLIENTS * ADDS);
  femem_close(client);
  /* The same session, with the key and its answer. */
  client = begun(sessions);
  open_at_last(client);
  ERROR(femem_once(client, "the key", &add, &answer), FEMEM_OK);
  CHECK(answer.value == CLIENTS * ADDS);
  ERROR(femem_bye_within(client, 60000), FEMEM_OK);
  femem_close(client);
}

int main(int count, char **given) {
  if (!begin_real("check_loop", count, given)) return 2;
  adder all[CLIENTS] = {0};
  for (int i = 0; i < CLIENTS; i++) femem_log(all[i].client = begun(i ? sessions : NULL), note, &all[i]);
  femem *other = opened(8, &usual);
  ERROR(femem_create(other, "sum", 1, true, &array), FEMEM_OK);
  ERROR(femem_bye_within(other, 60000), FEMEM_OK);
  femem_close(other);
  for (int i = 0; i < CLIENTS; i++) open_at_last(all[i].client);
  kills(all);
  for (int i = 0; i < CLIENTS; i++) {
    CHECK(all[i].lost >= KILLS && all[i].lost == all[i].back && all[i].back == femem_reconnects(all[i].client));
  }
  ERROR(femem_bye_within(all[0].client, 60000), FEMEM_OK);
  femem_close(all[0].client);
  end_is_made_up(all[1].client);
  char kept[100];
  snprintf(kept, sizeof kept, "%s/%s", folder, sessions);
  unlink(kept);
  return end_real();
}
