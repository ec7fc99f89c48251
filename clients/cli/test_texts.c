/* Compares what femem-cli says of each error of the server with ../errors.txt. */
#include "cli.h"

#include <string.h>

enum { ANSWERS = 8, REFUSALS = 10 };

int main(int count, char **words) {
  char line[300], name[40], due[200];
  int failures = 0, answers = 0, refusals = 0, code;
  FILE *table = count == 2 ? fopen(words[1], "r") : NULL;
  if (!table) return 2;
  while (fgets(line, sizeof line, table)) {
    if (line[0] == '#') continue;
    bool right = sscanf(line, "%d %39s %199[^\n]", &code, name, due) == 3 && strcmp(text_of((femem_error)code), due) == 0;
    answers += code >= FEMEM_NO_ARRAY && code <= FEMEM_NOT_NOW;
    refusals += code >= FEMEM_REFUSED_NOT_ATTACHED && code <= FEMEM_REFUSED_NOT_WAITING;
    failures += !right;
    if (!right) printf("test_texts: '%s' where this is due: %s", text_of((femem_error)code), line);
  }
  fclose(table);
  bool all = answers == ANSWERS && refusals == REFUSALS;
  printf("femem-cli, test_texts: %d checks, %d failed\n", answers + refusals + 1, failures + !all);
  return failures || !all;
}
