/* Events as words, as tests/cases/README.md has them: `key UpArrow CTRL, paste "ab"`. */
#ifndef TOLD_H
#define TOLD_H

#include "expect.h"
#include "same.h"
#include <stdarg.h>
#include <string.h>

/* A string literal and its length. */
#define TEXT(bytes) bytes, sizeof bytes - 1

#define START "\033[200~"
#define END "\033[201~"

/* The modifiers, and what happened to a key. */
enum {
  SHIFT = HED_KITTY_MOD_SHIFT,
  ALT = HED_KITTY_MOD_ALT,
  CTRL = HED_KITTY_MOD_CTRL,
  SUPER = HED_KITTY_MOD_SUPER,
  HYPER = HED_KITTY_MOD_HYPER,
  META = HED_KITTY_MOD_META,
  CAPS_LOCK = HED_KITTY_MOD_CAPS_LOCK,
  NUM_LOCK = HED_KITTY_MOD_NUM_LOCK,
  REPEAT = HED_KEY_EVENT_KIND_REPEAT,
  RELEASE = HED_KEY_EVENT_KIND_RELEASE
};

/* An event of a key: with the codes of a character, without them, and pressed. */
#define KEY_AND_CODES(what, held, name, number, with_shift, at_base) \
  { HED_KIND_KEY, held, what, 0, 0, 0, 0, 0, name, 0, 0, 0, 0, 0, 0, 0, 0, number, with_shift, at_base, 0 }
#define KEY(what, held, name, number) KEY_AND_CODES(what, held, name, number, HED_NO_CODE, HED_NO_CODE)
#define PRESS(held, name, number) KEY(HED_KEY_EVENT_KIND_PRESS, held, name, number)
#define CHAR(held, number, with_shift, at_base) KEY_AND_CODES(HED_KEY_EVENT_KIND_PRESS, held, HED_KEY_CHAR, number, with_shift, at_base)

/* What was told since it was compared, and how many characters that is. */
static char told[1 << 16];
static size_t told_len;

static inline void tell(const char *format, ...) {
  va_list words;
  va_start(words, format);
  int written = vsnprintf(told + told_len, sizeof told - told_len, format, words);
  va_end(words);
  EXPECT(written >= 0 && (size_t)written < sizeof told - told_len);
  told_len += strlen(told + told_len);
}

static inline void forget(void) {
  told[told_len = 0] = '\0';
}

/* What was told is this, and is forgotten. */
static inline void is_told(const char *wanted) {
  const char *is = *told ? told : "nothing";
  if (strcmp(is, wanted) != 0) fprintf(stderr, "not %s\nbut %s\n", wanted, is);
  EXPECT(strcmp(is, wanted) == 0);
  forget();
}

/* The bytes that have a letter in a text, and their letters. */
static const char marked[] = "\033\r\n\t\"\\ ", letters[] = "ernt\"\\s";

/* A text in quotes. */
static inline void tell_text(const uint8_t *bytes, size_t len) {
  tell("\"");
  for (size_t i = 0; i < len; i++) {
    const char *at = bytes[i] ? strchr(marked, bytes[i]) : NULL;
    if (at) tell("\\%c", letters[at - marked]);
    else tell(bytes[i] > ' ' && bytes[i] <= '~' ? "%c" : "\\x%02x", bytes[i]);
  }
  tell("\"");
}

/* The names of the bits of sets, from the lowest bit on. */
static const char *const kitty_mods[] = { "SHIFT", "ALT", "CTRL", "SUPER", "HYPER", "META", "CAPS_LOCK", "NUM_LOCK", NULL };
static const char *const mouse_buttons[] = { "", "LEFT", "RIGHT", "MIDDLE", "VERT_WHEEL", "HORZ_WHEEL", "WHEEL_POSITIVE", NULL };

static inline void tell_set(const char *const *names, unsigned set) {
  const char *before = " ";
  for (; *names && set; names++, set >>= 1)
    if (set & 1) tell("%s%s", before, *names), before = "+";
  EXPECT(set == 0);
  if (*before == ' ') tell(" NONE");
}

static inline void tell_code(const char *before, uint32_t code) {
  if (code != HED_NO_CODE) tell("%sU+%04X", before, (unsigned)code);
}

static inline void tell_key(const hed_event *event, const uint8_t *text) {
  static const char *const kinds[] = { "", " repeat", " release" };
  char name[22] = "0";
  unsigned detail = event->detail, kind = event->key_event_kind - HED_KEY_EVENT_KIND_PRESS;
  hed_key_name(event->key, (uint8_t *)name, sizeof name);
  if (event->key == HED_KEY_CHAR) tell_code("key ", detail);
  else if (event->key == HED_KEY_FUNCTION) tell("key F%u", detail);
  else if (event->key == 0) tell("key %u", detail);
  else tell("key %s", name);
  EXPECT(kind <= 2 && (event->key <= HED_KEY_CHAR || event->key == HED_KEY_FUNCTION || detail == 0));
  tell_set(kitty_mods, event->modifiers);
  tell("%s", kind <= 2 ? kinds[kind] : " no kind");
  tell_code(" shifted ", event->shifted);
  tell_code(" base ", event->base);
  if (event->text_len == 0) return;
  tell(" text ");
  tell_text(text, event->text_len);
}

static inline void tell_mouse(const hed_event *event) {
  static const char *const kinds[] = { "press", "release", "drag", "move", "wheel" };
  unsigned kind = event->mouse_kind - HED_MOUSE_KIND_PRESS;
  EXPECT(kind <= 4);
  tell("mouse %u %u", event->x, event->y);
  tell_set(mouse_buttons, event->buttons);
  tell_set(kitty_mods, event->modifiers);
  tell(" %s %u", kind <= 4 ? kinds[kind] : "no kind", event->button);
}

/* A control sequence or a string, or what there is of one. */
static inline void tell_string(const hed_event *event, const uint8_t *text) {
  static const char *const names[] = { "csi", "osc", "dcs", "apc" };
  bool is_whole = event->kind <= HED_KIND_APC;
  unsigned kind = is_whole ? event->kind : event->string_kind;
  EXPECT(kind >= (is_whole ? HED_KIND_CSI : HED_KIND_OSC) && kind <= HED_KIND_APC);
  if (kind >= HED_KIND_CSI && kind <= HED_KIND_APC) tell("%s ", names[kind - HED_KIND_CSI]);
  if (!is_whole) tell(event->kind == HED_KIND_STRING_PART ? "part " : "cut ");
  tell_text(text, event->text_len);
}

/* An event, and the bytes that it brought. */
static inline void tell_event(const hed_event *event, const uint8_t *text) {
  hed_event own = own_fields(event);
  EXPECT(same_event(event, &own));
  if (*told) tell(", ");
  switch (event->kind) {
    case HED_KIND_KEY: tell_key(event, text); break;
    case HED_KIND_MOUSE: tell_mouse(event); break;
    case HED_KIND_PASTE: tell("paste "), tell_text(text, event->text_len); break;
    case HED_KIND_PASTE_PART: tell("paste part "), tell_text(text, event->text_len); break;
    case HED_KIND_FOCUS_GAINED: tell("focus gained"); break;
    case HED_KIND_FOCUS_LOST: tell("focus lost"); break;
    case HED_KIND_CURSOR_POSITION: tell("position %u %u", event->row, event->column); break;
    case HED_KIND_RESIZED: tell("resized %u %u %u %u", event->rows, event->columns, event->height, event->width); break;
    case HED_KIND_KEYBOARD_FLAGS: tell("flags %u", event->flags); break;
    default: tell_string(event, text);
  }
}

/* Whether a call left all of these bytes as they were: 0x55. */
static inline bool is_marked(const void *bytes, size_t len) {
  const uint8_t *at = (const uint8_t *)bytes;
  while (len > 0 && *at == 0x55) at++, len--;
  return len == 0;
}

/* The parser whose table the others of a test share, so that they are made fast. */
static hed_parser base = HED_PARSER_NONE;

static inline void make(hed_parser *parser, uint32_t dialect) {
  EXPECT(base.live || hed_parser_init(&base, HED_DIALECT_EXTENDED) == HED_OK);
  EXPECT(hed_parser_init_sharing(parser, dialect, &base) == HED_OK && parser->live);
}

/* How many refusals of memory were met: the call is made again. */
static unsigned met;

/* The most bytes that an event of a test brings. */
enum { BROUGHT_MOST = 1 << 14 };

/* Tells all events that are next. */
typedef void take(hed_parser *parser);

/* Tells them one by one. The parser has the bytes of the event that was told last. What was buffered stays if there is no event. */
static inline void tell_events(hed_parser *parser) {
  hed_status next;
  static uint8_t text[BROUGHT_MOST];
  do {
    hed_event event;
    size_t waiting = hed_parser_waiting_len(parser), len = hed_parser_text(parser, NULL, 0);
    memset(&event, 0x55, sizeof event);
    next = hed_parser_next(parser, &event);
    if (next == HED_OK) {
      EXPECT(event.text_len <= sizeof text && hed_parser_text(parser, text, sizeof text) == event.text_len);
      tell_event(&event, text);
      continue;
    }
    EXPECT(is_marked(&event, sizeof event) && hed_parser_waiting_len(parser) == waiting && hed_parser_text(parser, NULL, 0) == len);
    EXPECT(next == HED_NONE || (next == HED_NO_MEMORY && hed_parser_timeout(parser, 0) == 0));
    met += next == HED_NO_MEMORY;
  } while (next != HED_NONE);
}

/* How many events and bytes the arrays of tell_arrays have. */
static size_t room = 12, text_room = 40;

/* Tells them in arrays. Of the last event of an array the bytes may be cut off, and the parser has them whole. */
static inline void tell_arrays(hed_parser *parser) {
  static uint8_t whole[BROUGHT_MOST];
  hed_status next;
  do {
    hed_event events[12];
    uint8_t text[40];
    size_t count = 77, at = 0;
    memset(events, 0x55, sizeof events);
    memset(text, 0x55, sizeof text);
    next = hed_parser_next_events(parser, events, room, text_room > 0 ? text : NULL, text_room, &count);
    EXPECT(count <= room && is_marked(events + count, sizeof events - count * sizeof *events));
    for (size_t i = 0; i < count; i++) {
      size_t from = at, len = events[i].text_len, has = len;
      at += len;
      if (at > text_room) has = text_room - from;
      if (i + 1 == count) EXPECT(hed_parser_text(parser, whole, sizeof whole) == len && memcmp(text + from, whole, has) == 0);
      EXPECT(i + 1 == count || has == len);
      tell_event(&events[i], i + 1 == count ? whole : text + from);
    }
    EXPECT(next <= HED_NO_MEMORY && (next != HED_OK || count == room || at > text_room));
    if (at > text_room) at = text_room;
    EXPECT(is_marked(text + at, sizeof text - at));
    met += next == HED_NO_MEMORY;
  } while (next != HED_NONE);
}

static inline void feed(hed_parser *parser, const char *text, size_t len) {
  EXPECT(hed_parser_feed(parser, 0, (const uint8_t *)text, len) == HED_OK);
}

#define FEED(parser, text) feed(parser, TEXT(text))

/* Feeds a text and tells its events. */
static inline void reads(hed_parser *parser, const char *text, size_t len, const char *events) {
  feed(parser, text, len);
  tell_events(parser);
  is_told(events);
}

#define READS(parser, text, events) reads(parser, TEXT(text), events)

/* Tells the events of what is buffered, with no more to come. */
static inline void flushes(hed_parser *parser, const char *events) {
  hed_parser_flush(parser);
  tell_events(parser);
  is_told(events);
}

/* Reads the name of a chord, up to a character that ends it, and returns how many presses it has. */
static inline size_t read_chord(const char *text, size_t len, hed_key_press *keys) {
  size_t count, at;
  EXPECT(hed_key_read((const uint8_t *)text, len, keys, HED_CHORD_MOST, &count, &at) == HED_OK);
  return count;
}

static inline hed_key_press read_press(const char *text, size_t len) {
  hed_key_press keys[HED_CHORD_MOST];
  EXPECT(read_chord(text, len, keys) == 1);
  return keys[0];
}

#endif
