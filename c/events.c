/* Prints the events of the standard input, one on a line. In a file or a pipe no pause counts; c/live.c is for terminals.
 *
 *     cc events.c $(pkg-config --cflags --libs hedrugal) -o events && printf '\033[1;5Aq' | ./events */
#include "hedrugal.h"
#include <stdio.h>
#include <stdlib.h>
#include <unistd.h>

enum { PASTE_LIMIT = 1 << 20 };

static void print_key(const hed_event *event) {
  char name[22] = "";
  hed_key_name(event->key, (uint8_t *)name, sizeof name);
  fputs(name, stdout);
  if (event->key == HED_KEY_CHAR) printf(" U+%04X", (unsigned)event->detail);
  if (event->key == HED_KEY_FUNCTION) printf(" %u", (unsigned)event->detail);
  printf("%s%s%s\n", event->modifiers & HED_KITTY_MOD_SHIFT ? " shift" : "", event->modifiers & HED_KITTY_MOD_ALT ? " alt" : "",
         event->modifiers & HED_KITTY_MOD_CTRL ? " ctrl" : "");
}

/* How many bytes the control character at the front of a text in UTF-8 has, 0 if it begins with another. */
static size_t control_len(const uint8_t *text, size_t len) {
  if (*text < ' ' || *text == 0x7f) return 1;
  return len > 1 && *text == 0xc2 && text[1] < 0xa0 ? 2 : 0;
}

/* Prints a text that the terminal sent, with each byte of a control character as in \x1b: whoever wrote it would act on the terminal. */
static void print_text(const uint8_t *text, size_t len) {
  size_t left = 0; /* of a control character */
  for (size_t at = 0; at < len; at++) {
    if (left == 0) left = control_len(text + at, len - at);
    printf(left > 0 ? "\\x%02x" : "%c", text[at]);
    if (left > 0) left--;
  }
}

static bool print_paste(const hed_parser *parser, const char *name, size_t len) {
  uint8_t *text = (uint8_t *)malloc(len + 1);
  if (!text) return false;
  hed_parser_text(parser, text, len);
  printf("%s %zu bytes: ", name, len);
  print_text(text, len);
  putchar('\n');
  free(text);
  return true;
}

static bool print_event(const hed_parser *parser, const hed_event *event) {
  if (event->kind == HED_KIND_KEY) print_key(event);
  if (event->kind == HED_KIND_MOUSE) printf("mouse at %u, %u, buttons %u\n", event->x, event->y, event->buttons);
  if (event->kind == HED_KIND_PASTE_PART) return print_paste(parser, "part of a paste,", event->text_len);
  return event->kind != HED_KIND_PASTE || print_paste(parser, "paste of", event->text_len);
}

static bool print_events(hed_parser *parser) {
  hed_event event;
  hed_status next;
  while ((next = hed_parser_next(parser, &event)) == HED_OK)
    if (!print_event(parser, &event)) return false;
  return next == HED_NONE;
}

/* The bytes may have lines, which end with the byte 10. A paste above the limit comes in parts, so that none needs much memory. */
static bool begin(hed_parser *parser) {
  hed_reading reading;
  if (hed_parser_init(parser, HED_DIALECT_EXTENDED) || hed_parser_reading(parser, &reading)) return false;
  reading.newline = HED_NEWLINE_ENTER;
  hed_parser_set_parts(parser, PASTE_LIMIT);
  return hed_parser_set_reading(parser, &reading) == HED_OK;
}

static bool print_input(hed_parser *parser) {
  uint8_t bytes[4096];
  ssize_t count;
  while ((count = read(0, bytes, sizeof bytes)) > 0)
    if (hed_parser_feed(parser, 0, bytes, (size_t)count) || !print_events(parser)) return false;
  hed_parser_end(parser);
  return count == 0 && print_events(parser);
}

int main(void) {
  hed_parser parser = HED_PARSER_NONE;
  bool printed = begin(&parser) && print_input(&parser);
  if (!printed) fputs("events: a read failed, or memory was refused\n", stderr);
  hed_parser_free(&parser);
  return printed ? 0 : 1;
}
