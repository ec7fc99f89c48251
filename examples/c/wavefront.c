/* Smith-Waterman over tiles: `wavefront SOCKET SESSION_FILE A B`, two texts of one length, a multiple of TILE. Run several
   of these, kill them and the server, and start each again with its file: together they print each tile's best score, some
   of them twice. A tile waits until its upper and left edges are full, and fills its own, with what never changes. */
#include <femem.h>
#include <stdio.h>
#include <stdlib.h>
#include <string.h>

enum { TILE = 16, MOST = 240, MATCH = 3, MISMATCH = -2, GAP = -4 };
static int score[MOST + 1][MOST + 1];
static femem *client;

static void must(femem_error error) {
  if (error) exit((fprintf(stderr, "wavefront: %s\n", femem_error_text(error)), 1));
}

static uint64_t shared(const char *name, size_t length, bool full) { /* the array, which the first one makes */
  uint64_t array;
  femem_error error;
  while ((error = femem_find(client, name, &array, NULL)) == FEMEM_NO_ARRAY)
    if ((error = femem_create(client, name, (uint32_t)length, full, &array)) != FEMEM_NAME_TAKEN) break;
  return must(error), array;
}

static void edge(femem_operation operation, uint64_t cells, size_t wide, size_t i, size_t j, bool down) {
  for (size_t k = 0; k <= TILE; k++, i += down, j += !down) {
    femem_request one = {.operation = operation, .array = cells, .index = (uint32_t)(i * wide + j), .operand = (uint64_t)score[i][j]};
    femem_answer answer = {0};
    if (i > 0 && j > 0) must(femem_call(client, &one, &answer)); /* the others are 0 */
    if (operation == FEMEM_READFF) score[i][j] = (int)answer.value;
  }
}

static int most(int a, int b) { return a > b ? a : b; }

int main(int count, char **given) {
  femem_settings settings = {.wait = FEMEM_FOREVER, .reconnect = FEMEM_FOREVER, .wait_for_server = true};
  if (count != 5 || strlen(given[3]) > MOST) return 2;
  must(femem_open_file(&client, given[1], given[2], &settings));
  size_t n = strlen(given[3]), tiles = n / TILE, wide = n + 1, sum, across;
  uint64_t cells = shared("cells", wide * wide, false), next = shared("next", 1, true);
  femem_request add = {.operation = FEMEM_INT_FETCH_ADD, .array = next, .operand = 1};
  for (femem_answer ticket;; must(femem_forget(client, "ticket"))) {
    must(femem_once(client, "ticket", &add, &ticket)); /* a tile, this program's own until the key is forgotten */
    if (ticket.value >= tiles * tiles) break;
    for (sum = 0; ticket.value >= (across = sum < tiles ? sum + 1 : 2 * tiles - 1 - sum); sum++) ticket.value -= across;
    size_t row = (sum < tiles ? 0 : sum + 1 - tiles) + ticket.value, top = row * TILE, left = (sum - row) * TILE;
    for (int down = 0; down < 2; down++) edge(FEMEM_READFF, cells, wide, top, left, down);
    int best = 0;
    for (size_t i = top + 1; i <= top + TILE; i++)
      for (size_t j = left + 1; j <= left + TILE; best = most(best, score[i][j]), j++)
        score[i][j] = most(most(0, score[i - 1][j - 1] + (given[3][i - 1] == given[4][j - 1] ? MATCH : MISMATCH)),
                           most(score[i - 1][j], score[i][j - 1]) + GAP);
    edge(FEMEM_WRITEXF, cells, wide, top + TILE, left, false);
    edge(FEMEM_WRITEXF, cells, wide, top, left + TILE, true);
    printf("%zu %zu %d\n", row, sum - row, best);
    fflush(stdout);
  }
}
