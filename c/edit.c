/* A small editor of one text, whose commands have chords that it reads from a file, such as docs/edit.keys. It shows how a program reads
 * keys by bindings: presses of events, chords with a limit in time, and names of keys in messages and a menu.
 *
 *     cc edit.c $(pkg-config --variable=terminal hedrugal) $(pkg-config --cflags --libs hedrugal) -o edit && ./edit edit.keys
 *
 * Each line of the file is a command and the name of a chord, as in `save ctrl+x ctrl+s`; or it is blank, or a comment that begins with
 * `#`. The screen is a log: the text after each change of it or of its cursor, which is shown as `|`, and the chords that may follow. A
 * second after the last press what is pending counts as it is. Of keys without a command those that type text insert it.
 *
 * The program asks for modifyOtherKeys of xterm and for Kitty's keyboard protocol. It reads what the terminal sends, whichever of them that
 * has. */
#define _POSIX_C_SOURCE 200809L
#include "hedrugal_terminal.h"
#include "name_errors.h"
#include <errno.h>
#include <stdio.h>
#include <stdlib.h>
#include <string.h>

enum { CHORD_MS = 1000 };
enum { NAME_ROOM = 64 * HED_CHORD_MOST }; /* no name of a chord is longer */

static const char enter[] = HED_TERMINAL_PASTE_ON "\033[>4;2m" HED_TERMINAL_KITTY_ON(5);
static const char leave[] = HED_TERMINAL_KITTY_OFF "\033[>4m" HED_TERMINAL_PASTE_OFF;

enum command { SAVE, QUIT, TOP, BOTTOM, ERASE, NEWLINE, COMMAND_COUNT };

static const char *const commands[COMMAND_COUNT] = { "save", "quit", "top", "bottom", "erase", "newline" };

/* Characters in UTF-8, with a cursor between two of them. */
typedef struct text {
  uint8_t *bytes;
  size_t len, room, cursor;
} text;

typedef struct edit {
  hed_terminal terminal;
  hed_parser parser;
  hed_bindings bindings;
  hed_matcher matcher;
  hed_timer timer; /* of what is pending in the matcher */
  text text;
  const char *failure; /* why the program ends, if nobody asked for it */
} edit;

/* Returns false, as each function here does once the program has to end. */
static bool fail(edit *it, const char *failure) {
  it->failure = failure;
  return false;
}

/* The file of bindings. */

typedef struct keys_file {
  const char *name;
  size_t line; /* the number of the line that is read, from 1 */
  bool is_wrong; /* whether some line was wrong */
} keys_file;

static const char blanks[] = " \t";

/* Tells what is wrong in a line, behind so many bytes of it. */
static void tell_wrong(keys_file *file, size_t at, const char *what) {
  fprintf(stderr, "edit: %s:%zu:%zu: %s\n", file->name, file->line, at + 1, what);
  file->is_wrong = true;
}

/* The command with a name, COMMAND_COUNT if there is none. */
static size_t find_command(const char *name, size_t len) {
  size_t found = 0;
  while (found < COMMAND_COUNT && (strlen(commands[found]) != len || memcmp(commands[found], name, len) != 0)) found++;
  return found;
}

/* Binds the chord that is named from a place of the line on. Returns false if memory is refused. */
static bool bind_chord(edit *it, keys_file *file, const char *line, size_t from, size_t len, size_t command) {
  size_t at;
  hed_status bound = hed_bindings_bind_name(&it->bindings, (const uint8_t *)line + from, len - from, command, &at);
  if (bound != HED_OK && bound != HED_NO_MEMORY) tell_wrong(file, from + at, name_errors[bound]);
  return bound != HED_NO_MEMORY;
}

static bool read_line(edit *it, keys_file *file, const char *line, size_t len) {
  size_t start = strspn(line, blanks), end = start + strcspn(line + start, blanks), chord = end + strspn(line + end, blanks);
  if (start == len || line[start] == '#') return true;
  size_t command = find_command(line + start, end - start);
  if (command < COMMAND_COUNT && chord < len) return bind_chord(it, file, line, chord, len, command);
  if (command < COMMAND_COUNT) tell_wrong(file, end, name_errors[HED_NAME_EMPTY]);
  else tell_wrong(file, start, "no such command");
  return true;
}

/* Returns false if the system fails: errno says why. */
static bool read_lines(edit *it, keys_file *file, FILE *from) {
  char *line = NULL;
  size_t room = 0;
  ssize_t len;
  bool goes_on = true;
  while (goes_on && (len = getline(&line, &room, from)) >= 0) {
    if (len > 0 && line[len - 1] == '\n') line[--len] = 0;
    file->line++;
    goes_on = read_line(it, file, line, (size_t)len);
  }
  free(line);
  return goes_on && feof(from);
}

/* Binds what the file says, and tells what is wrong with it. */
static bool read_file(edit *it, const char *name) {
  keys_file file = { .name = name };
  FILE *from = fopen(name, "r");
  if (!from || !read_lines(it, &file, from)) {
    fprintf(stderr, "edit: %s: %s\n", name, strerror(errno));
    file.is_wrong = true;
  }
  if (from) fclose(from);
  return !file.is_wrong;
}

/* The text. */

/* Makes room for bytes at the cursor, which moves behind them. Returns that room, NULL if memory is refused. */
static uint8_t *text_insert(text *it, size_t len) {
  if (it->room - it->len < len) {
    size_t room = 2 * it->len + len;
    uint8_t *bytes = realloc(it->bytes, room);
    if (!bytes) return NULL;
    it->bytes = bytes;
    it->room = room;
  }
  uint8_t *at = it->bytes + it->cursor;
  memmove(at + len, at, it->len - it->cursor);
  it->len += len;
  it->cursor += len;
  return at;
}

static bool begins_character(uint8_t byte) {
  return (byte & 0xc0) != 0x80;
}

static size_t text_count(const text *it) {
  size_t count = 0;
  for (size_t i = 0; i < it->len; i++) count += begins_character(it->bytes[i]);
  return count;
}

/* Removes the character before the cursor. */
static void text_erase(text *it) {
  size_t end = it->cursor;
  do it->cursor--;
  while (!begins_character(it->bytes[it->cursor]));
  memmove(it->bytes + it->cursor, it->bytes + end, it->len - end);
  it->len -= end - it->cursor;
}

/* Prints bytes of the text. No control character of it reaches the terminal: what was pasted may have any. */
static void print_escaped(const uint8_t *bytes, size_t len) {
  for (size_t i = 0; i < len; i++) {
    bool is_c1 = bytes[i] == 0xc2 && bytes[i + 1] < 0xa0;
    if (bytes[i] == '\n') fputs("\\n", stdout);
    else if (bytes[i] < ' ' || bytes[i] == 0x7f) printf("\\x%02x", bytes[i]);
    else if (is_c1) printf("\\u{%x}", bytes[++i]);
    else putchar(bytes[i]);
  }
}

static void print_text(const text *it) {
  fputs("text: ", stdout);
  print_escaped(it->bytes, it->cursor);
  putchar('|');
  print_escaped(it->bytes + it->cursor, it->len - it->cursor);
  putchar('\n');
}

/* The commands. */

static bool move_cursor(edit *it, size_t to) {
  bool is_moved = it->text.cursor != to;
  it->text.cursor = to;
  if (is_moved) print_text(&it->text);
  return true;
}

static bool erase(edit *it) {
  if (it->text.cursor == 0) return true;
  text_erase(&it->text);
  print_text(&it->text);
  return true;
}

static bool insert(edit *it, const uint8_t *bytes, size_t len) {
  uint8_t *room = text_insert(&it->text, len);
  if (!room) return fail(it, "out of memory");
  memcpy(room, bytes, len);
  print_text(&it->text);
  return true;
}

/* Inserts the text that the last event brought, with LF at the ends of its lines, which are CR in most pastes. */
static bool insert_event_text(edit *it, size_t len) {
  uint8_t *brought = malloc(len), *room;
  if (!brought) return fail(it, "out of memory");
  hed_parser_text(&it->parser, brought, len);
  hed_parser_drop_text(&it->parser);
  size_t lines_len = hed_paste_lines(brought, len, NULL, 0);
  room = text_insert(&it->text, lines_len);
  if (room) hed_paste_lines(brought, len, room, lines_len);
  free(brought);
  if (!room) return fail(it, "out of memory");
  print_text(&it->text);
  return true;
}

static bool run_command(edit *it, uint64_t command) {
  switch (command) {
    case SAVE: printf("saved %zu characters\n", text_count(&it->text)); return true;
    case TOP: return move_cursor(it, 0);
    case BOTTOM: return move_cursor(it, it->text.len);
    case ERASE: return erase(it);
    case NEWLINE: return insert(it, (const uint8_t *)"\n", 1);
    default: return false; /* QUIT */
  }
}

/* Keys. */

static void print_chord(const hed_key_press *keys, size_t count) {
  uint8_t name[NAME_ROOM];
  size_t len;
  if (hed_key_print(keys, count, name, sizeof name, &len) == HED_OK) fwrite(name, 1, len, stdout);
}

/* Prints what is pending, and the chords that begin so: the rest of each, and its command. */
static void print_menu(const edit *it) {
  hed_key_press pending[HED_CHORD_MOST];
  size_t pressed = hed_matcher_pending(&it->matcher, pending, HED_CHORD_MOST), place, end;
  if (pressed == 0) return;
  fputs("pending: ", stdout);
  print_chord(pending, pressed);
  putchar('\n');
  hed_bindings_continuations(&it->bindings, pending, pressed, &place, &end);
  for (; place < end; place++) {
    hed_key_press keys[HED_CHORD_MOST];
    size_t count;
    uint64_t command;
    hed_bindings_entry(&it->bindings, place, keys, HED_CHORD_MOST, &count, &command);
    fputs("  ", stdout);
    print_chord(keys + pressed, count - pressed);
    printf("  %s\n", commands[command]);
  }
}

static bool handle_unbound(edit *it, const hed_key_press *press) {
  uint8_t typed[4];
  size_t len = hed_press_text(press, typed, sizeof typed);
  if (len > 0) return insert(it, typed, len);
  fputs("unbound: ", stdout);
  print_chord(press, 1);
  putchar('\n');
  return true;
}

/* Handles what is decided, and tells the timer how long the rest may take. Without more to come all that is pending is decided. */
static bool take_outcomes(edit *it, bool more, bool is_pressed) {
  bool is_taken = false, goes_on = true;
  hed_outcome outcome;
  while (goes_on && hed_matcher_next(&it->matcher, &it->bindings, more, &outcome) == HED_OK) {
    is_taken = true;
    goes_on = outcome.kind == HED_OUTCOME_BOUND ? run_command(it, outcome.value) : handle_unbound(it, &outcome.press);
  }
  bool is_empty = it->matcher.count == 0;
  hed_seen seen = { .limit = is_empty ? -1 : CHORD_MS, .by = HED_AGE_LAST, .fed = is_pressed, .taken = is_taken, .empty = is_empty };
  hed_timer_note(&it->timer, hed_terminal_now(), &seen);
  return goes_on;
}

/* A text comes behind what is pending, so that is decided first. */
static bool handle_text(edit *it, size_t len) {
  return len == 0 || (take_outcomes(it, false, false) && insert_event_text(it, len));
}

/* The second press is that of a key of another layout. It is taken if only that leads on. A key without a press that has one with a text of
 * one character types several characters. */
static bool handle_key(edit *it, const hed_event *event) {
  hed_key_press presses[2];
  if (hed_parser_press(&it->parser, event, &presses[0]) != HED_OK)
    return hed_event_press(event, HED_TEXT("a"), &presses[0]) != HED_OK || handle_text(it, event->text_len);
  size_t count = hed_parser_second(&it->parser, event, &presses[1]) == HED_OK ? 2 : 1;
  hed_matcher_press_either(&it->matcher, &it->bindings, presses, count);
  if (!take_outcomes(it, true, true)) return false;
  print_menu(it);
  return true;
}

static bool handle_event(edit *it, const hed_event *event) {
  switch (event->kind) {
    case HED_KIND_KEY: return handle_key(it, event);
    case HED_KIND_PASTE:
    case HED_KIND_PASTE_PART: return handle_text(it, event->text_len);
    default: return true;
  }
}

/* Gives up a chord of which the rest didn't come in time. */
static bool handle_pause(edit *it) {
  return hed_timer_timeout(&it->timer, hed_terminal_now()) != 0 || take_outcomes(it, false, false);
}

static bool step(edit *it) {
  hed_event event;
  switch (hed_terminal_next(&it->terminal, &it->parser, hed_timer_timeout(&it->timer, hed_terminal_now()), &event)) {
    case HED_TERMINAL_EVENT: return handle_event(it, &event);
    case HED_TERMINAL_NOTHING: return handle_pause(it);
    case HED_TERMINAL_RESUMED:
    case HED_TERMINAL_RESIZED: return true;
    case HED_TERMINAL_ENDED: take_outcomes(it, false, false); return false;
    case HED_TERMINAL_FAILED: return fail(it, it->terminal.failure);
    default: return false;
  }
}

/* Tells the first chord that ends the program, if there is one. */
static void print_end(const edit *it) {
  hed_key_press keys[HED_CHORD_MOST];
  size_t count;
  uint64_t command = COMMAND_COUNT;
  size_t place = 0;
  while (command != QUIT && hed_bindings_entry(&it->bindings, place, keys, HED_CHORD_MOST, &count, &command) == HED_OK) place++;
  if (command != QUIT) return;
  print_chord(keys, count);
  puts(" ends");
}

static void run(edit *it) {
  if (!hed_terminal_open(&it->terminal, 0, 1, enter, leave)) {
    fail(it, it->terminal.failure);
    return;
  }
  print_end(it);
  while (step(it)) continue;
  hed_terminal_close(&it->terminal);
}

static int run_by_file(edit *it, const char *file) {
  if (hed_bindings_init(&it->bindings) || hed_parser_init(&it->parser, HED_DIALECT_EXTENDED)) fail(it, "out of memory");
  else if (!read_file(it, file)) return 2;
  else run(it);
  return it->failure ? 1 : 0;
}

int main(int argc, char **argv) {
  edit it = { .parser = HED_PARSER_NONE, .bindings = HED_BINDINGS_NONE, .matcher = HED_MATCHER_NONE, .timer = HED_TIMER_NONE };
  if (argc != 2) {
    fputs("usage: edit FILE\n", stderr);
    return 2;
  }
  int status = run_by_file(&it, argv[1]);
  free(it.text.bytes);
  hed_bindings_free(&it.bindings);
  hed_parser_free(&it.parser);
  hed_terminal_end();
  if (it.failure) fprintf(stderr, "edit: %s\n", it.failure);
  return status;
}
