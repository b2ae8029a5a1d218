/* A prompt with a history: prints each line that is entered, until Ctrl-C or Ctrl-D. A paste is inserted as text.
 *
 *     cc prompt.c $(pkg-config --variable=terminal hedrugal) $(pkg-config --cflags --libs hedrugal) -o prompt && ./prompt */
#include "hedrugal_terminal.h"
#include <stdio.h>
#include <string.h>

enum { ROOM = 4096, MOST = 100 };
static char lines[MOST][ROOM], line[ROOM]; /* the last ones entered, behind them what Up left; and the one that is edited, in UTF-8 */
static size_t count, shown, cursor;

/* Inserts whole characters while there is room. A control character becomes a space. */
static void insert(const uint8_t *text, size_t len) {
  for (size_t i = 0; i < len && (strlen(line) + 4 < ROOM || (text[i] & 0xc0) == 0x80); i++) {
    memmove(line + cursor + 1, line + cursor, strlen(line + cursor) + 1);
    line[cursor++] = text[i] < ' ' || text[i] == 127 ? ' ' : (char)text[i];
    if (i > 0 && text[i - 1] == 0xc2 && text[i] < 0xa0) line[cursor - 1] = '\xa0';
  }
}

static bool handle(const hed_parser *parser, const hed_event *event) {
  uint8_t text[ROOM], pasted[ROOM];
  hed_key_press press;
  size_t before = cursor, behind = cursor, len = hed_parser_text(parser, pasted, ROOM);
  while (before > 0 && (line[--before] & 0xc0) == 0x80) continue;
  while (line[behind] && (line[++behind] & 0xc0) == 0x80) continue;
  if (shown == count) strcpy(lines[count % MOST], line);
  if (event->kind == HED_KIND_PASTE || event->kind == HED_KIND_PASTE_PART)
    insert(text, hed_paste_lines(pasted, len < ROOM ? len : ROOM, text, ROOM));
  if (hed_parser_press(parser, event, &press) != HED_OK) return true;
  insert(text, hed_press_text(&press, text, ROOM));
  if (press.key == HED_KEY_RIGHT_ARROW) cursor = behind;
  if (press.key == HED_KEY_BACKSPACE) memmove(line + before, line + cursor, strlen(line + cursor) + 1);
  if (press.key == HED_KEY_BACKSPACE || press.key == HED_KEY_LEFT_ARROW) cursor = before;
  if (press.key == HED_KEY_UP_ARROW && shown > 0 && count - shown < MOST - 1) cursor = strlen(strcpy(line, lines[--shown % MOST]));
  if (press.key == HED_KEY_DOWN_ARROW && shown < count) cursor = strlen(strcpy(line, lines[++shown % MOST]));
  if (press.key == HED_KEY_ENTER) {
    printf("\n%s\n", strcpy(lines[count++ % MOST], line));
    shown = count;
    cursor = line[0] = 0;
  }
  return press.held != HED_KITTY_MOD_CTRL || (press.detail != 'c' && press.detail != 'd');
}

int main(void) {
  hed_parser parser = HED_PARSER_NONE;
  hed_terminal terminal = { .failure = "out of memory" };
  hed_event event;
  bool is_ready = hed_parser_init(&parser, HED_DIALECT_EXTENDED) == HED_OK;
  is_ready = is_ready && hed_terminal_open(&terminal, 0, 1, HED_TERMINAL_PASTE_ON, HED_TERMINAL_PASTE_OFF "\n");
  enum hed_terminal_event came = is_ready ? HED_TERMINAL_NOTHING : HED_TERMINAL_FAILED;
  while (came < HED_TERMINAL_ENDED && (came != HED_TERMINAL_EVENT || handle(&parser, &event))) {
    printf("\r\033[K\033[?7l> %.*s\0337%s\0338\033[?7h", (int)cursor, line, line + cursor);
    came = hed_terminal_next(&terminal, &parser, -1, &event);
  }
  hed_terminal_close(&terminal);
  hed_parser_free(&parser);
  hed_terminal_end();
  return came == HED_TERMINAL_FAILED && fprintf(stderr, "prompt: %s\n", terminal.failure);
}
