#define _POSIX_C_SOURCE 200809L
#include "bindings.h"
#include "name_errors.h"
#include "text.h"
#include <errno.h>
#include <stdio.h>
#include <stdlib.h>
#include <string.h>

/* A longer file is refused. */
enum { FILE_MOST = 1 << 20 };

static const char blanks[] = " \t";

/* What the file says of a chord. The number that the chord is bound to is its address. */
typedef struct binding {
  size_t line; /* its number */
  const char *chord; /* its name, behind the command */
  char command[];
} binding;

static binding *binding_of(uint64_t value) {
  return (binding *)(uintptr_t)value;
}

/* A line of the file. */
typedef struct source {
  const char *file;
  size_t number;
  const char *text;
  size_t length;
  bool is_wrong; /* whether this line or one before is */
} source;

static void tell(source *at, size_t place, const char *what) {
  text_print(stderr, at->file);
  fprintf(stderr, ":%zu:%zu: %s\n", at->number, place + 1, what);
  at->is_wrong = true;
}

/* Returns false if memory is refused. */
static bool bind(bindings *it, const source *at, const char *command, size_t length, const hed_key_press *keys, size_t count) {
  char chord[HED_CHORD_MOST * PRESS_SIZE];
  size_t chord_length;
  if (hed_key_print(keys, count, (uint8_t *)chord, sizeof chord - 1, &chord_length) != HED_OK) return false;
  chord[chord_length] = '\0';
  binding *added = malloc(sizeof *added + length + chord_length + 2);
  if (!added) return false;
  added->line = at->number;
  memcpy(added->command, command, length);
  added->command[length] = '\0';
  added->chord = strcpy(added->command + length + 1, chord);
  uint64_t before;
  bool is_bound = hed_bindings_lookup(&it->chords, keys, count, &before) == HED_OK;
  bool has_memory = hed_bindings_bind(&it->chords, keys, count, (uintptr_t)added) == HED_OK;
  if (!has_memory) free(added);
  else if (is_bound) free(binding_of(before));
  return has_memory;
}

/* Binds the chord whose name starts at a place. Returns false if memory is refused. */
static bool bind_named(bindings *it, source *at, const char *command, size_t length, size_t name) {
  hed_key_press keys[HED_CHORD_MOST];
  size_t count, wrong;
  hed_status named = hed_key_read((const uint8_t *)at->text + name, at->length - name, keys, HED_CHORD_MOST, &count, &wrong);
  if (named == HED_OK) return bind(it, at, command, length, keys, count);
  tell(at, name + wrong, name_errors[named]);
  return true;
}

static bool read_line(bindings *it, source *at) {
  size_t start = strspn(at->text, blanks);
  size_t length = strcspn(at->text + start, blanks);
  size_t end = start + length;
  if (start == at->length || at->text[start] == '#') return true;
  for (size_t place = start; place < end; place++) {
    if (at->text[place] > ' ' && at->text[place] < 0x7f) continue;
    tell(at, place, "a command has printable characters of ASCII alone");
    return true;
  }
  return bind_named(it, at, at->text + start, length, end + strspn(at->text + end, blanks));
}

/* Reads the lines of a text, of which the last may have no end. */
static bool read_lines(bindings *it, source *at, char *text, size_t length) {
  bool has_memory = hed_bindings_init(&it->chords) == HED_OK;
  for (char *end = text + length; has_memory && text < end; text += at->length + 1) {
    char *newline = memchr(text, '\n', (size_t)(end - text));
    at->number++;
    at->text = text;
    at->length = (size_t)((newline ? newline : end) - text);
    text[at->length] = '\0';
    has_memory = read_line(it, at);
  }
  return has_memory;
}

static bindings_answer read_text(bindings *it, source *at, char *text, FILE *from) {
  size_t length = fread(text, 1, FILE_MOST + 1, from);
  if (ferror(from)) return BINDINGS_NO_FILE;
  if (length > FILE_MOST) return BINDINGS_TOO_LONG;
  if (!read_lines(it, at, text, length)) return BINDINGS_NO_MEMORY;
  return at->is_wrong ? BINDINGS_WRONG : BINDINGS_READ;
}

bindings_answer bindings_read(bindings *it, const char *file) {
  source at = { .file = file };
  FILE *from = fopen(file, "r");
  if (!from) return BINDINGS_NO_FILE;
  char *text = malloc(FILE_MOST + 1);
  bindings_answer answer = text ? read_text(it, &at, text, from) : BINDINGS_NO_MEMORY;
  int error = errno;
  free(text);
  fclose(from);
  errno = error;
  return answer;
}

void bindings_press(bindings *it, const hed_key_press *presses, size_t count) {
  hed_matcher_press_either(&it->matcher, &it->chords, presses, count);
  it->seen.fed = true;
}

/* Tells the timer what came, and how long the presses may wait that are pending now. */
static void note(bindings *it, uint64_t now) {
  it->seen.empty = !bindings_is_pending(it);
  it->seen.limit = it->seen.empty ? -1 : CHORD_PAUSE_MS;
  hed_timer_note(&it->timer, now, &it->seen);
  it->seen = (hed_seen){ .by = HED_AGE_LAST };
}

hed_status bindings_next(bindings *it, bool more, uint64_t now, outcome *decided) {
  hed_outcome found;
  size_t length;
  memset(decided, 0, sizeof *decided);
  if (hed_matcher_next(&it->matcher, &it->chords, more, &found) != HED_OK) {
    note(it, now);
    return HED_NONE;
  }
  it->seen.taken = true;
  if (found.kind == HED_OUTCOME_UNBOUND) return hed_press_print(&found.press, (uint8_t *)decided->press, PRESS_SIZE, &length);
  decided->command = binding_of(found.value)->command;
  decided->chord = binding_of(found.value)->chord;
  return HED_OK;
}

int32_t bindings_timeout(const bindings *it, uint64_t now) {
  return hed_timer_timeout(&it->timer, now);
}

bool bindings_is_pending(const bindings *it) {
  return it->matcher.count > 0;
}

void bindings_forget(bindings *it) {
  static const hed_timer fresh = HED_TIMER_NONE;
  hed_matcher_cancel(&it->matcher, NULL, 0);
  it->timer = fresh;
}

bool bindings_following(const bindings *it, size_t *first, size_t *end) {
  hed_key_press keys[HED_CHORD_MOST];
  size_t count = hed_matcher_pending(&it->matcher, keys, HED_CHORD_MOST);
  return count > 0 && hed_bindings_continuations(&it->chords, keys, count, first, end) == HED_OK;
}

/* A chord's name behind so many keys, of which it has more. */
static const char *behind(const char *chord, size_t keys) {
  for (; keys > 0; keys--) chord = strchr(chord, ' ') + 1;
  return chord;
}

/* The binding at a place of them all. */
static binding *binding_at(const bindings *it, size_t place) {
  size_t count;
  uint64_t value;
  return hed_bindings_entry(&it->chords, place, NULL, 0, &count, &value) == HED_OK ? binding_of(value) : NULL;
}

continuation bindings_at(const bindings *it, size_t place) {
  const binding *found = binding_at(it, place);
  return (continuation){ found->chord, behind(found->chord, it->matcher.count), found->command };
}

size_t bindings_count(const bindings *it) {
  return hed_bindings_len(&it->chords);
}

bool bindings_add_warning(text *out, const bindings *it, size_t place, const char *file, twins *keys) {
  hed_key_press chord[HED_CHORD_MOST];
  size_t count;
  uint64_t value;
  if (hed_bindings_entry(&it->chords, place, chord, HED_CHORD_MOST, &count, &value) != HED_OK) return true;
  for (size_t i = 0; i < count; i++) {
    everyday key = { .pressed = chord[i] };
    if (!twins_of(keys, &chord[i], &key.twin)) return false;
    if (is_same_press(&key.pressed, &key.twin)) continue;
    text_add_shown(out, file, strlen(file));
    text_add(out, ":%zu: ", binding_of(value)->line);
    return twins_add_line(out, keys, &key);
  }
  return true;
}

void bindings_free(bindings *it) {
  for (size_t place = 0; place < hed_bindings_len(&it->chords); place++) free(binding_at(it, place));
  hed_bindings_free(&it->chords);
}
