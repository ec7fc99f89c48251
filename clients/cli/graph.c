/* `graph`: what waits, as text for Graphviz or as SVG. */
#define _POSIX_C_SOURCE 200809L
#include "picture.h"

#include <errno.h>
#include <inttypes.h>
#include <stdlib.h>
#include <string.h>

static const char *mark(bool cycle) { return cycle ? ", color=red, penwidth=2" : ""; }

static void draw_text(const picture *drawn, FILE *to) {
  fputs("digraph waits {\n  rankdir=LR;\n", to);
  for (int i = 0; i < drawn->parties; i++)
    fprintf(to, "  \"s%" PRIu64 "\" [shape=box, label=\"session %" PRIu64 "\"%s];\n", drawn->party[i].session,
            drawn->party[i].session, mark(drawn->party[i].cycle));
  for (int i = 0; i < drawn->places; i++) {
    const place *it = &drawn->place[i];
    fprintf(to, "  \"w%" PRIu64 "_%" PRIu32 "\" [label=\"word %" PRIu32 " of %s\"%s];\n", it->array, it->index,
            it->index, name_of(drawn, it->array), mark(it->cycle));
    if (it->owner >= 0)
      fprintf(to, "  \"w%" PRIu64 "_%" PRIu32 "\" -> \"s%" PRIu64 "\" [label=\"is held by\", style=dashed%s];\n",
              it->array, it->index, drawn->party[it->owner].session, mark(it->cycle));
  }
  for (int i = 0; i < drawn->waits; i++) {
    const wait *it = &drawn->wait[i];
    const place *at = &drawn->place[it->place];
    fprintf(to, "  \"s%" PRIu64 "\" -> \"w%" PRIu64 "_%" PRIu32 "\" [label=\"%s, needs %s\"%s];\n",
            drawn->party[it->party].session, at->array, at->index, it->operation, needs(it->operation),
            mark(it->cycle));
  }
  fputs("}\n", to);
}

int do_graph(command_line *cli, char **words, int count) {
  (void)words, (void)count;
  static picture drawn;
  int status = take_picture(cli, &drawn);
  if (status) return status;
  if (cli->given.owners) status = find_owners(cli, &drawn, false);
  else leave_out_presence(&drawn);
  if (status == DONE) {
    mark_cycles(&drawn);
    if (cli->given.svg) draw_svg(&drawn, stdout);
    else draw_text(&drawn, stdout);
    if (fflush(stdout)) status = fail(cli, FAULT, "standard output: %s", strerror(errno));
  }
  free(drawn.report);
  return status;
}
