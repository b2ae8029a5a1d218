#include "waiting.h"
#include "names.h"

enum { NAMED = 3 };

typedef struct entry {
  hed_event event;
  size_t length;
} entry;

/* The entries that are named, the first of them first. No two have the same key. */
typedef struct named {
  entry entries[NAMED];
  size_t count;
} named;

static bool is_character(const entry *it) {
  return it->event.key == HED_KEY_CHAR;
}

static bool has_modifiers(const entry *it) {
  return it->event.modifiers != HED_KITTY_MOD_NONE;
}

/* Named are first the keys that people know by their names, then those without modifiers, then those with the fewest bytes. */
static bool comes_before(const entry *one, const entry *other) {
  if (is_character(one) != is_character(other)) return is_character(other);
  if (has_modifiers(one) != has_modifiers(other)) return has_modifiers(other);
  return one->length < other->length;
}

static bool has_same_key(const entry *one, const entry *other) {
  bool is_same = one->event.key == other->event.key && one->event.detail == other->event.detail;
  return is_same && one->event.modifiers == other->event.modifiers;
}

/* The place of the entry that has the same key, or that after the last. */
static size_t place_of_key(const named *it, const entry *added) {
  size_t place = 0;
  while (place < it->count && !has_same_key(&it->entries[place], added)) place++;
  return place;
}

/* Puts an entry behind those that don't come after it. It takes the place of one with its key, or of the last if all are taken. */
static void name_entry(named *it, const entry *added) {
  size_t place = place_of_key(it, added);
  if (place == NAMED) place--;
  if (place < it->count && !comes_before(added, &it->entries[place])) return;
  if (place == it->count) it->count++;
  for (; place > 0 && comes_before(added, &it->entries[place - 1]); place--) it->entries[place] = it->entries[place - 1];
  it->entries[place] = *added;
}

static void find_named(named *it, const hed_parser *parser, const hed_entries *entries) {
  for (size_t place = entries->first; place < entries->first + entries->count; place++) {
    entry found;
    found.length = hed_parser_entry(parser, place, NULL, 0, &found.event);
    if (found.length > 0) name_entry(it, &found);
  }
}

static void add_listed_key(text *out, const hed_event *event, bool with_alt) {
  bool is_printable = event->key == HED_KEY_CHAR && event->detail > ' ' && event->detail < 0x7f;
  add_prefixes(out, event->modifiers | (with_alt ? HED_KITTY_MOD_ALT : HED_KITTY_MOD_NONE));
  if (event->key == HED_KEY_INTERNAL_PASTE_START) text_add(out, "a paste");
  else if (is_printable) text_add(out, "%c", (char)event->detail);
  else add_key(out, event->key, event->detail);
}

static void add_keys(text *out, const hed_parser *parser, const hed_entries *entries) {
  named found = { .count = 0 };
  find_named(&found, parser, entries);
  for (size_t i = 0; i < found.count; i++) {
    if (i > 0) text_add(out, ", ");
    add_listed_key(out, &found.entries[i].event, entries->with_alt);
  }
  if (entries->count > found.count) text_add(out, ", .. (%zu more)", entries->count - found.count);
}

/* What bytes begin that begin no entry of the sequence table. */
static const char *begun_by(const hed_parser *parser, const uint8_t *waiting, size_t length) {
  hed_reading reading;
  hed_parser_reading(parser, &reading);
  if (reading.dialect == HED_DIALECT_TERMWIZ || length < 2) return "a mouse report";
  switch (waiting[waiting[1] == '\033' && length > 2 ? 2 : 1]) {
    case ']': return "a command (OSC)";
    case 'P': return "a device control string (DCS)";
    case '_': return "an application command (APC)";
    case 'O': return "a key with modifiers";
    default: return "a control sequence";
  }
}

static void add_sequence(text *out, const hed_parser *parser, const uint8_t *waiting, size_t length) {
  hed_entries entries;
  hed_parser_completions(parser, &entries);
  if (entries.count == 0) {
    text_add(out, "the beginning of %s", begun_by(parser, waiting, length));
    return;
  }
  text_add(out, "the beginning of %zu sequence%s: ", entries.count, entries.count == 1 ? "" : "s");
  add_keys(out, parser, &entries);
}

void add_waiting(text *out, const hed_parser *parser, const line *shown) {
  size_t length = hed_parser_waiting_len(parser);
  switch (hed_parser_waiting(parser)) {
    case HED_WAITING_ESCAPE: text_add(out, length == 1 ? "may begin a key" : "may begin a key with Alt"); break;
    case HED_WAITING_SEQUENCE: add_sequence(out, parser, shown->bytes + shown->settled, length); break;
    case HED_WAITING_CHARACTER: text_add(out, "half a character"); break;
    case HED_WAITING_PASTE: text_add(out, "a paste of %zu bytes so far", length - PASTE_START); break;
    case HED_WAITING_STRING: text_add(out, "a string of %zu bytes so far", length); break;
    default: break;
  }
}

/* Appends a time, from a second on in seconds, rounded up. */
static void add_time(text *out, int32_t ms) {
  if (ms < 1000) text_add(out, "%d ms", (int)ms);
  else text_add(out, "%d s", (int)(ms / 1000 + (ms % 1000 > 0)));
}

void add_waiting_for(text *out, const hed_parser *parser, uint64_t now) {
  int32_t left = hed_parser_timeout(parser, now);
  uint32_t kind = hed_parser_waiting(parser);
  if (left < 0) {
    text_add(out, kind == HED_WAITING_CHARACTER ? ": waits for the rest" : ": waits for its end");
    return;
  }
  text_add(out, kind == HED_WAITING_ESCAPE ? "; if nothing follows in " : ": waits up to ");
  add_time(out, left);
  if (kind == HED_WAITING_ESCAPE) text_add(out, ": %s", hed_parser_waiting_len(parser) == 1 ? "escape" : "alt+escape");
}

void add_pending(text *out) {
  text_add(out, "waits up to ");
  add_time(out, CHORD_PAUSE_MS);
  text_add(out, " for");
}
