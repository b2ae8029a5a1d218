/* Asks the terminal where its cursor is, for its colours and for the flags of Kitty's keyboard protocol, and prints its replies.
 *
 *     cc ask.c $(pkg-config --variable=terminal hedrugal) $(pkg-config --cflags --libs hedrugal) -o ask && ./ask
 *
 * Behind these questions hed_terminal_ask asks what the terminal is (DA1), which nearly every terminal answers. So a reply that hasn't come
 * before that one won't come. Without any the program gives up after a second. Keys that are typed meanwhile are read as keys, and no byte of a
 * reply is taken for one. The terminal's settings are restored, also by a signal that ends the program: if nobody reads its output, a second
 * after it. */
#include "hedrugal_terminal.h"
#include <stdio.h>

enum { TIMEOUT_MS = 1000, LONGEST_REPLY = 256 };

/* The cursor's position (CPR), the colours of text and background (OSC 10, 11), and Kitty's flags. */
static const char questions[] = "\033[6n\033]10;?\033\\\033]11;?\033\\\033[?u";

/* Prints the bytes that an event brought, those that aren't printable ASCII as in \x1b. */
static void print_text(const hed_parser *parser, const char *name, size_t len) {
  uint8_t text[LONGEST_REPLY];
  hed_parser_text(parser, text, sizeof text);
  printf("%s ", name);
  for (size_t i = 0; i < len && i < sizeof text; i++) printf(text[i] < ' ' || text[i] > '~' ? "\\x%02x" : "%c", text[i]);
  putchar('\n');
}

static void print_event(const hed_parser *parser, const hed_event *event) {
  switch (event->kind) {
    case HED_KIND_CURSOR_POSITION: printf("cursor at row %u, column %u\n", event->row, event->column); break;
    case HED_KIND_OSC: print_text(parser, "colour", event->text_len); break;
    case HED_KIND_KEYBOARD_FLAGS: printf("flags of Kitty's keyboard protocol %u\n", event->flags); break;
    case HED_KIND_CSI: print_text(parser, "control sequence", event->text_len); break;
    case HED_KIND_STRING_CUT: print_text(parser, "cut off", event->text_len); break;
    case HED_KIND_KEY: puts("a key was typed"); break;
    default: break;
  }
}

/* Reads replies up to the last one. Returns false after the timeout, at the end of the input, if another program had the terminal, or if a
 * signal or want of memory ends it. */
static bool read_replies(hed_terminal *terminal, hed_parser *parser) {
  hed_event event;
  uint64_t now = hed_terminal_now(), end = now + TIMEOUT_MS;
  for (; hed_terminal_owed(terminal) > 0 && now < end; now = hed_terminal_now()) {
    switch (hed_terminal_next(terminal, parser, (int)(end - now), &event)) {
      case HED_TERMINAL_EVENT: print_event(parser, &event); break;
      case HED_TERMINAL_NOTHING:
      case HED_TERMINAL_RESIZED: break;
      default: return false;
    }
  }
  return hed_terminal_owed(terminal) == 0;
}

/* Prints what is buffered: an Escape key, or a reply that was cut off. */
static void print_rest(hed_parser *parser) {
  hed_event event;
  hed_parser_end(parser);
  while (hed_parser_next(parser, &event) == HED_OK) print_event(parser, &event);
}

static bool ask(hed_terminal *terminal, hed_parser *parser) {
  if (hed_terminal_ask(terminal, parser, questions) && read_replies(terminal, parser)) return true;
  print_rest(parser);
  puts("no reply to the last question");
  return false;
}

int main(void) {
  hed_parser parser = HED_PARSER_NONE;
  hed_terminal terminal;
  if (hed_parser_init(&parser, HED_DIALECT_EXTENDED) != HED_OK) {
    fputs("ask: out of memory\n", stderr);
    return 1;
  }
  if (!hed_terminal_open(&terminal, 0, 1, "", "")) {
    fprintf(stderr, "ask: %s\n", terminal.failure);
    hed_parser_free(&parser);
    return 2;
  }
  bool is_answered = ask(&terminal, &parser);
  hed_terminal_close(&terminal); /* it waits for a late reply, which isn't left for the shell */
  hed_parser_free(&parser);
  hed_terminal_end();
  return is_answered ? 0 : 1;
}
