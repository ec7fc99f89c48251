/* A picture of what waits: sessions on the left, words on the right. A solid line leads to the word that a session
   waits at, a dashed one from a lock to its owner. What is in a cycle is red. */
#define _POSIX_C_SOURCE 200809L
#include "picture.h"

#include <inttypes.h>

enum { ROW = 60, HEIGHT = 34, TOP = 20, LEFT = 20, BOX = 190, RIGHT = 560, WORD = 330 };

static const char style[] =
    "  <style>text { font: 13px sans-serif } rect { fill: white; stroke: black } path { fill: none; stroke: black }\n"
    "    .held { stroke-dasharray: 5 4 } .cycle { stroke: red; stroke-width: 2 } text.cycle { stroke: none; fill: red }"
    "</style>\n"
    "  <defs><marker id=\"end\" markerWidth=\"9\" markerHeight=\"8\" refX=\"9\" refY=\"4\" orient=\"auto\">"
    "<polygon points=\"0,0 9,4 0,8\"/></marker></defs>\n";

static int middle(int row) { return TOP + row * ROW + HEIGHT / 2; }

static const char *mark(bool cycle) { return cycle ? " cycle" : ""; }

/* Names of arrays need no escapes: they have a to z, 0 to 9 and _. */
static void draw_boxes(const picture *drawn, FILE *to) {
  for (int i = 0; i < drawn->parties; i++) {
    const party *it = &drawn->party[i];
    fprintf(to, "  <g class=\"session%s\"><rect class=\"box%s\" x=\"%d\" y=\"%d\" width=\"%d\" height=\"%d\"/>"
            "<text x=\"%d\" y=\"%d\">session %" PRIu64 "</text></g>\n", mark(it->cycle), mark(it->cycle), LEFT,
            TOP + i * ROW, BOX, HEIGHT, LEFT + 8, middle(i) + 5, it->session);
  }
  for (int i = 0; i < drawn->places; i++) {
    const place *it = &drawn->place[i];
    fprintf(to, "  <g class=\"word%s\"><rect class=\"box%s\" x=\"%d\" y=\"%d\" width=\"%d\" height=\"%d\" rx=\"16\"/>"
            "<text x=\"%d\" y=\"%d\">word %" PRIu32 " of %s</text></g>\n", mark(it->cycle), mark(it->cycle), RIGHT,
            TOP + i * ROW, WORD, HEIGHT, RIGHT + 14, middle(i) + 5, it->index, name_of(drawn, it->array));
  }
}

static void draw_lines(const picture *drawn, FILE *to) {
  int from = LEFT + BOX, end = RIGHT, between = (from + end) / 2;
  for (int i = 0; i < drawn->waits; i++) {
    const wait *it = &drawn->wait[i];
    int y = middle(it->party) - 6, at = middle(it->place) - 6;
    fprintf(to, "  <path class=\"waits%s\" marker-end=\"url(#end)\" d=\"M%d,%d L%d,%d\"/>"
            "<text class=\"label%s\" x=\"%d\" y=\"%d\" text-anchor=\"middle\">%s, needs %s</text>\n", mark(it->cycle),
            from, y, end, at, mark(it->cycle), between, (y + at) / 2 - 5, it->operation, needs(it->operation));
  }
  for (int i = 0; i < drawn->places; i++) {
    const place *it = &drawn->place[i];
    if (it->owner < 0) continue;
    int y = middle(i) + 8, at = middle(it->owner) + 8;
    fprintf(to, "  <path class=\"held%s\" marker-end=\"url(#end)\" d=\"M%d,%d C%d,%d %d,%d %d,%d\"/>"
            "<text class=\"label%s\" x=\"%d\" y=\"%d\" text-anchor=\"middle\">is held by</text>\n", mark(it->cycle),
            end, y, between, y + 30, between, at + 30, from, at, mark(it->cycle), between, (y + at) / 2 + 28);
  }
}

void draw_svg(const picture *drawn, FILE *to) {
  int rows = drawn->parties > drawn->places ? drawn->parties : drawn->places;
  fprintf(to, "<svg xmlns=\"http://www.w3.org/2000/svg\" width=\"%d\" height=\"%d\">\n%s", RIGHT + WORD + LEFT,
          2 * TOP + (rows ? rows : 1) * ROW, style);
  draw_boxes(drawn, to);
  draw_lines(drawn, to);
  fputs("</svg>\n", to);
}
