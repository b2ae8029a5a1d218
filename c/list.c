/* A list whose commands have chords: shows the words that it is given, and prints the one that is picked.
 *
 *     cc list.c $(pkg-config --variable=terminal hedrugal) $(pkg-config --cflags --libs hedrugal) -o list && ./list one two three */
#include "hedrugal_terminal.h"
#include <stdio.h>
#include <string.h>

enum command { UP = 1, DOWN, FIRST, LAST, PICK, QUIT };
static const char *const names[][2] = { [UP] = { "up", "k" },          [DOWN] = { "down", "j" },      [FIRST] = { "home", "g g" },
                                        [LAST] = { "end", "shift+g" }, [PICK] = { "enter", "space" }, [QUIT] = { "q", "ctrl+x ctrl+c" } };
static const char enter[] = HED_TERMINAL_PASTE_ON HED_TERMINAL_SCREEN_ON "\033[?25l\033[?7l"; /* no cursor, and no wrap of long rows */
static const char leave[] = "\033[?7h\033[?25h" HED_TERMINAL_SCREEN_OFF HED_TERMINAL_PASTE_OFF;
static hed_parser parser = HED_PARSER_NONE;
static hed_bindings bindings = HED_BINDINGS_NONE;
static hed_matcher matcher = HED_MATCHER_NONE;
static unsigned at = 1, last; /* places of words: 0 if none is picked */

static void draw(char **words) {
  hed_size size = { .rows = 24 };
  hed_terminal_size(1, &size);
  for (unsigned from = at <= size.rows ? 1 : at + 1 - size.rows, i = from; i <= last && i - from < size.rows; i++)
    printf("%s%s%s\033[m", i > from ? "\n" : "\033[H\033[J", i == at ? "\033[7m" : "", words[i]);
}

static bool handle(const hed_event *event) {
  hed_key_press presses[2];
  hed_outcome outcome;
  if (hed_parser_press(&parser, event, &presses[0]) != HED_OK) return true;
  hed_matcher_press_either(&matcher, &bindings, presses, hed_parser_second(&parser, event, &presses[1]) == HED_OK ? 2 : 1);
  while (hed_matcher_next(&matcher, &bindings, true, &outcome) == HED_OK) {
    switch (outcome.value) {
      case UP: at -= at > 1; break;
      case DOWN: at += at < last; break;
      case FIRST: at = 1; break;
      case LAST: at = last; break;
      case PICK: return false;
      case QUIT: at = 0; return false;
    }
  }
  return true;
}

int main(int argc, char **argv) {
  hed_terminal terminal = { .failure = argc < 2 ? "no words are given" : "out of memory" };
  hed_event event;
  bool is_ready = argc > 1 && !hed_parser_init(&parser, HED_DIALECT_EXTENDED) && !hed_bindings_init(&bindings);
  for (size_t i = 2 * UP, wrong; is_ready && i < sizeof names / sizeof names[0][0]; i++)
    is_ready = !hed_bindings_bind_name(&bindings, (const uint8_t *)names[i / 2][i % 2], strlen(names[i / 2][i % 2]), i / 2, &wrong);
  enum hed_terminal_event came = is_ready && hed_terminal_open(&terminal, 0, 1, enter, leave) ? HED_TERMINAL_NOTHING : HED_TERMINAL_FAILED;
  for (last = (unsigned)argc - 1; came < HED_TERMINAL_ENDED && (came != HED_TERMINAL_EVENT || handle(&event));) {
    draw(argv);
    came = hed_terminal_next(&terminal, &parser, -1, &event);
  }
  hed_terminal_close(&terminal);
  hed_bindings_free(&bindings);
  hed_parser_free(&parser);
  hed_terminal_end();
  if (came == HED_TERMINAL_FAILED) fprintf(stderr, "list: %s\n", terminal.failure);
  return came == HED_TERMINAL_EVENT && at > 0 && puts(argv[at]) != EOF ? 0 : 1;
}
