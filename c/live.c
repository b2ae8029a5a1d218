/* Prints the events of a terminal as they come, one on a line. A program to start from, in C99 and POSIX alone.
 *
 *     cc live.c $(pkg-config --variable=terminal hedrugal) $(pkg-config --cflags --libs hedrugal) -o live && ./live [--mouse]
 *
 * Bracketed paste is always on, or pasted text would count as typed. --mouse switches mouse reports on too, which keep most terminals
 * from selecting text. A new size of the terminal is printed as well.
 *
 * q ends the program, and so do the end of the input, SIGHUP, SIGINT, SIGQUIT and SIGTERM. ^C, ^Z and ^\ are keys like any other (ISIG is
 * off), as in an editor; SIGTSTP from another process stops it until SIGCONT. The terminal is restored whenever it ends or stops in one of
 * these ways; if nobody reads its output, a second after the signal, but for what can't be written at once. */
#include "hedrugal_terminal.h"
#include <stdio.h>
#include <string.h>

typedef struct live {
  hed_parser parser;
  hed_terminal terminal;
  const char *failure; /* why the program ends, if nobody asked for it */
} live;

/* Returns false, as each function here does once the program has to end. */
static bool fail(live *it, const char *failure) {
  it->failure = failure;
  return false;
}

static void print_size(void) {
  hed_size size;
  if (hed_terminal_size(1, &size)) printf("size %u x %u\n", size.columns, size.rows);
}

static void print_key(const hed_event *event) {
  char name[22] = "";
  hed_key_name(event->key, (uint8_t *)name, sizeof name);
  fputs(name, stdout);
  if (event->key == HED_KEY_CHAR) printf(" U+%04X", (unsigned)event->detail);
  if (event->key == HED_KEY_FUNCTION) printf(" %u", (unsigned)event->detail);
}

static void print_held(unsigned held) {
  printf("%s%s", held & HED_KITTY_MOD_SHIFT ? " shift" : "", held & HED_KITTY_MOD_ALT ? " alt" : "");
  puts(held & HED_KITTY_MOD_CTRL ? " ctrl" : "");
}

static void print_event(const hed_event *event) {
  switch (event->kind) {
    case HED_KIND_KEY:
      print_key(event);
      print_held(event->modifiers);
      break;
    case HED_KIND_MOUSE:
      printf("mouse at %u, %u, buttons %u", event->x, event->y, event->buttons);
      print_held(event->modifiers);
      break;
    case HED_KIND_PASTE: printf("paste of %zu bytes\n", event->text_len); break;
    case HED_KIND_PASTE_PART: printf("part of a paste, %zu bytes\n", event->text_len); break;
    default: printf("an event of kind %u\n", event->kind); /* such as a reply to a question that another program asked */
  }
}

/* Returns false once q was pressed. */
static bool handle_event(live *it, const hed_event *event) {
  hed_parser_drop_text(&it->parser); /* hed_parser_text would copy the text before */
  print_event(event);
  return event->key != HED_KEY_CHAR || event->detail != 'q' || event->modifiers != HED_KITTY_MOD_NONE;
}

static bool step(live *it) {
  hed_event event;
  switch (hed_terminal_next(&it->terminal, &it->parser, -1, &event)) {
    case HED_TERMINAL_EVENT: return handle_event(it, &event);
    case HED_TERMINAL_RESUMED:
    case HED_TERMINAL_RESIZED: print_size(); return true;
    case HED_TERMINAL_NOTHING: return true;
    case HED_TERMINAL_FAILED: return fail(it, it->terminal.failure);
    default: return false;
  }
}

static void run_on_terminal(live *it, bool mouse) {
  const char *enter = mouse ? HED_TERMINAL_PASTE_ON HED_TERMINAL_MOUSE_ON : HED_TERMINAL_PASTE_ON;
  const char *leave = mouse ? HED_TERMINAL_MOUSE_OFF HED_TERMINAL_PASTE_OFF : HED_TERMINAL_PASTE_OFF;
  if (!hed_terminal_open(&it->terminal, 0, 1, enter, leave)) {
    fail(it, it->terminal.failure);
    return;
  }
  puts("q ends");
  while (step(it)) continue;
  hed_terminal_close(&it->terminal);
}

int main(int argc, char **argv) {
  live it = { .parser = HED_PARSER_NONE };
  bool mouse = argc == 2 && strcmp(argv[1], "--mouse") == 0;
  if (argc > 1 && !mouse) {
    fputs("usage: live [--mouse]\n", stderr);
    return 2;
  }
  if (hed_parser_init(&it.parser, HED_DIALECT_EXTENDED) == HED_OK) run_on_terminal(&it, mouse);
  else fail(&it, "out of memory");
  hed_parser_free(&it.parser);
  hed_terminal_end();
  if (it.failure) fprintf(stderr, "live: %s\n", it.failure);
  return it.failure ? 1 : 0;
}
