/* Reads so many events of its terminal by c/hedrugal_terminal.c, for tools/performance.py: terminal COUNT (each | all). It says when it has begun,
 * and with each tells of each event. */
#include "hedrugal_terminal.h"
#include <stdio.h>
#include <stdlib.h>
#include <string.h>

int main(int count, char **words) {
  hed_parser parser = HED_PARSER_NONE;
  hed_event event;
  hed_terminal terminal;
  if (count != 3) {
    fputs("usage: terminal COUNT (each | all)\n", stderr);
    return 2;
  }
  const bool is_told = !strcmp(words[2], "each");
  if (hed_parser_init(&parser, HED_DIALECT_EXTENDED) || !hed_terminal_open(&terminal, 0, 1, "", "")) return 1;
  puts("begun");
  for (long left = atol(words[1]); left > 0;) {
    const enum hed_terminal_event came = hed_terminal_next(&terminal, &parser, -1, &event);
    if (came > HED_TERMINAL_EVENT) return 1;
    if (came != HED_TERMINAL_EVENT) continue;
    left--;
    if (is_told) putchar('.');
  }
  hed_terminal_close(&terminal);
  hed_parser_free(&parser);
  return 0;
}
