/* The events of a stream don't depend on how it is cut, on pauses, nor on whether they are taken one by one or in arrays, and what they say
 * can be written and read back.
 *
 * reading.h says how streams are read. With the bit 0x40 of an input's first byte Backspace sends 8, and byte 10 is Enter. With the bit 0x80
 * X10 mouse reports are read too, and as many replies for the cursor's position are expected as the two low bits say. With both, what termwiz
 * reads is read. If the byte is 0x80 + n, n up to 7, a string too long for one event repeats the bytes after it, in reads of 4 to the power
 * of n. Its parts bring all of them.
 *
 * The first keys of the stream are encoded. Under all flags of Kitty's protocol what is sent is read as one key, and that is then read back
 * whole. Under other flags, one set for each key, a room that is too short gets the front of what is sent. The press of each is its own
 * press.
 *
 * The first sequences and strings are read as replies, with room for all that they say and with less.
 *
 * The first events are written, into a room that has enough and into one that may not, and what is written is read as the event. A place of
 * the cursor is also written as a reply, as are colours and attributes of its numbers. */
#include "reading.h"

enum {
  SETTINGS = 0x40,
  X10_AND_QUESTIONS = 0x80,
  QUESTIONS = 3,
  LONG = 0x80,
  READS = 7,
  NO_END = 0xfd,
  OPENING = 5,
  PART = 65535,
  STRING_MAX = 1 << 17
};
enum { ALL_FLAGS = 2 * HED_KITTY_FLAG_REPORT_ASSOCIATED_TEXT - 1, SEQUENCE_MAX = 256, ENCODED_KEYS = 40, REPLIES = 40, REPLY_MAX = 4096 };
/* For a key the sequence table is searched, so that such and sequences are written for one stream in eight. */
enum { WRITTEN = 4, STREAMS = 8, WRITTEN_MAX = 4096, AROUND_MAX = 12 };

/* Each position of the cursor answered one of the questions, as long as there were any. */
static void check_questions(void) {
  hed_reading wanted = first_reading, found = reading_of(parser);
  for (size_t i = 0; i < cut.count; i++)
    if (cut.events[i].kind == HED_KIND_CURSOR_POSITION && wanted.questions > 0) wanted.questions--;
  HOLDS(same_reading(&found, &wanted));
}

/* Encodes the key of an event into a room of that size. */
static void encode_event(sent *it, const hed_event *key, const uint8_t *of_key, uint8_t flags, size_t capacity) {
  told_key told = { *key, of_key, key->text_len, flags };
  encode(it, encode_told, &told, capacity);
  HOLDS(it->status == HED_OK || it->status == HED_REFUSED_KEY || it->status == HED_TOO_LONG);
  HOLDS(it->status != HED_TOO_LONG || told.len > 0);
  HOLDS(it->len <= SEQUENCE_MAX || it->len == told.len);
}

/* Reads what was sent, and shares the table of the other parser. */
static hed_parser back = HED_PARSER_NONE;

/* Feeds what was sent, with no more to come or not, and takes its only event. */
static void take_only(const sent *it, bool more, hed_event *read) {
  hed_event other;
  HOLDS(hed_parser_feed(&back, 0, it->bytes, it->len) == HED_OK);
  if (!more) hed_parser_flush(&back);
  HOLDS(hed_parser_next(&back, read) == HED_OK);
  size_t len = hed_parser_text(&back, NULL, 0);
  HOLDS(len == read->text_len && hed_parser_next(&back, &other) == HED_NONE && hed_parser_waiting_len(&back) == 0);
  HOLDS(hed_parser_text(&back, NULL, 0) == len);
}

/* Encodes a key under all flags, and reads what is sent as one key. Returns false if nothing is sent. */
static bool send_and_read(const hed_event *key, const uint8_t *of_key, hed_event *read, uint8_t *of_read) {
  static sent it;
  encode_event(&it, key, of_key, ALL_FLAGS, SEQUENCE_MAX);
  note(0x70000u | it.status, key->key);
  if (it.status) return false;
  HOLDS(it.len > 0 && it.len <= SEQUENCE_MAX);
  take_only(&it, true, read);
  HOLDS(read->kind == HED_KIND_KEY && read->key_event_kind == key->key_event_kind && read->modifiers == key->modifiers);
  HOLDS(hed_parser_text(&back, of_read, SEQUENCE_MAX) == read->text_len && (read->text_len == key->text_len || read->text_len == 0));
  HOLDS(memcmp(of_read, of_key, read->text_len) == 0);
  return true;
}

/* What was read has the names that the numbers of keys have, and nothing that isn't sent. So it is read back whole. A character with the
 * number of a functional key is read as that key, of which no other characters are sent. */
static void read_back(const hed_event *key, const uint8_t *of_key) {
  static uint8_t of_first[SEQUENCE_MAX], of_second[SEQUENCE_MAX];
  hed_event first, second;
  if (!send_and_read(key, of_key, &first, of_first)) return;
  HOLDS(send_and_read(&first, of_first, &second, of_second));
  bool is_functional = key->key == HED_KEY_CHAR && key->detail >= 57344 && key->detail <= 63743;
  HOLDS(is_functional || same_event(&first, &second));
}

/* The press of a key is its own press, if it has one, and its locks change nothing. A second one is there only beside the first. */
static void check_press(const hed_event *key, const uint8_t *of_key) {
  hed_event event = *key;
  hed_key_press press, second, again;
  hed_status has = hed_event_press(&event, of_key, key->text_len, &press), has_second = hed_event_second(&event, &second);
  HOLDS(has == HED_OK || has == HED_NONE);
  HOLDS(!has || event.key_event_kind == HED_KEY_EVENT_KIND_RELEASE || event.key != HED_KEY_CHAR || key->text_len > 1);
  HOLDS(has_second == HED_NONE || (has_second == HED_OK && !has && may_have_second(&event)));
  if (has) return;
  event.modifiers ^= HED_KITTY_MOD_CAPS_LOCK;
  HOLDS(hed_event_press(&event, of_key, key->text_len, &again) == HED_OK && same_press(&again, &press));
  HOLDS(press.held < HED_KITTY_MOD_CAPS_LOCK && is_press(&press));
  note(0x90000u | press.key, press.held);
}

/* The first keys are read back, and each is encoded under some flags, into a room that has enough and into one that may not. */
static void encode_keys(void) {
  static sent all, front;
  const uint8_t *of_key = whole.texts;
  uint8_t flags = 0;
  for (const hed_event *key = whole.events; key < whole.events + whole.count && flags < ENCODED_KEYS; of_key += key++->text_len) {
    if (key->kind != HED_KIND_KEY) continue;
    read_back(key, of_key);
    check_press(key, of_key);
    encode_event(&all, key, of_key, flags & ALL_FLAGS, sizeof all.bytes);
    encode_event(&front, key, of_key, flags & ALL_FLAGS, flags / 2);
    HOLDS(same_sent(&all, &front, flags / 2));
    note(0x80000u | all.status, flags++ & ALL_FLAGS);
  }
}

/* What an event says as a reply, into rooms that end where nothing can be touched, with room for so many numbers and bytes. Returns whether
 * it is one. */
static bool read_reply(const hed_event *it, const uint8_t *of_event, size_t capacity, hed_reply *reply) {
  static room text, numbers, out;
  room_with(&text, of_event, it->text_len);
  room_of(&numbers, capacity * sizeof(uint32_t));
  room_of(&out, capacity);
  hed_status answer =
      hed_read_reply(it->kind, pointer_to(&text), it->text_len, reply, pointer_to(&numbers), capacity, pointer_to(&out), capacity);
  HOLDS(answer == HED_OK || answer == HED_NONE);
  HOLDS(is_unchanged(&text, of_event));
  bool has_numbers = answer == HED_OK && reply->kind == HED_REPLY_DEVICE_ATTRIBUTES;
  size_t written = answer != HED_OK ? 0 : reply->len < capacity ? reply->len : capacity;
  HOLDS(is_untouched(&numbers, has_numbers ? written * sizeof(uint32_t) : 0) && is_untouched(&out, has_numbers ? 0 : written));
  return answer == HED_OK;
}

/* The first events that may be replies are read with room for everything, and with less. */
static void read_replies(void) {
  static hed_reply all, some;
  const uint8_t *of_event = whole.texts;
  unsigned read = 0;
  for (const hed_event *it = whole.events; it < whole.events + whole.count && read < REPLIES; of_event += it++->text_len) {
    if (it->kind < HED_KIND_CSI || it->text_len > REPLY_MAX) continue;
    memset(&all, 0, sizeof all);
    memset(&some, 0, sizeof some);
    bool is_reply = read_reply(it, of_event, it->text_len, &all);
    HOLDS(read_reply(it, of_event, read++ % 8, &some) == is_reply && memcmp(&all, &some, sizeof all) == 0);
    if (!is_reply) continue;
    HOLDS(it->kind <= HED_KIND_DCS && all.kind >= HED_REPLY_DEVICE_ATTRIBUTES);
    HOLDS(all.len <= it->text_len && all.state <= HED_MODE_STATE_PERMANENTLY_RESET && all.scheme <= HED_COLOUR_SCHEME_LIGHT);
    note(0x90000u | all.kind, all.report + all.state + all.name + all.scheme + all.selection);
  }
}

/* An event that is written, with the bytes that it brings, and how it is read. */
typedef struct told_event {
  const hed_event *told;
  const uint8_t *bytes;
  hed_reading by;
} told_event;

/* `back` has the reading. */
static hed_status write_told(const void *key, uint8_t *out, size_t capacity, size_t *len) {
  static room numbers, bytes;
  const told_event *it = key;
  room_with(&numbers, it->told, sizeof *it->told);
  room_with(&bytes, it->bytes, it->told->text_len);
  hed_status status = hed_encode_event((hed_event *)numbers.at, pointer_to(&bytes), it->told->text_len, &back, out, capacity, len);
  HOLDS(is_unchanged(&numbers, it->told) && is_unchanged(&bytes, it->bytes) && hed_parser_waiting_len(&back) == 0);
  return status;
}

/* Whether a text may begin a sequence: ESC, or ESC and one of some bytes. */
static bool waits(const sent *it) {
  return it->len > 0 && it->bytes[0] == '\033' && (it->len == 1 || (it->len == 2 && strchr("\033[OP]_", it->bytes[1])));
}

/* What is written is read as the event, also with more to come unless it waits then. */
static void read_written(const sent *all, const told_event *it) {
  static uint8_t of_read[WRITTEN_MAX];
  hed_event read;
  take_only(all, !waits(all), &read);
  HOLDS(same_event(&read, it->told) && hed_parser_text(&back, of_read, sizeof of_read) == it->told->text_len);
  HOLDS(memcmp(of_read, it->bytes, read.text_len) == 0);
}

/* Each event but a part of a string and a string that was cut off is written. */
static void write_event(const told_event *it) {
  static sent all, front;
  static const hed_reading first = { 0 };
  bool is_part = it->told->kind == HED_KIND_STRING_PART || it->told->kind == HED_KIND_STRING_CUT;
  size_t some = it->told->text_len % 8;
  HOLDS(hed_parser_set_reading(&back, &it->by) == HED_OK);
  encode(&all, write_told, it, WRITTEN_MAX + AROUND_MAX);
  encode(&front, write_told, it, some);
  HOLDS(all.status == (is_part ? HED_NO_TEXT : HED_OK) && same_sent(&all, &front, some));
  if (!is_part) read_written(&all, it);
  HOLDS(hed_parser_set_reading(&back, &first) == HED_OK);
  note(0xa0000u | it->told->kind, all.status);
}

static hed_status write_position(const void *key, uint8_t *out, size_t capacity, size_t *len) {
  const hed_event *it = key;
  return hed_encode_cursor_position(it->row, it->column, it->row & 1, out, capacity, len);
}

static hed_status write_scheme(const void *key, uint8_t *out, size_t capacity, size_t *len) {
  return hed_encode_colour_scheme(((const hed_event *)key)->row & 1, out, capacity, len);
}

static hed_status write_attributes(const void *key, uint8_t *out, size_t capacity, size_t *len) {
  static room numbers;
  enum { COUNT = 2 };
  const hed_event *it = key;
  const uint16_t told[COUNT] = { it->row, it->column };
  room_with(&numbers, told, sizeof told);
  hed_status status = hed_encode_device_attributes((uint16_t *)numbers.at, COUNT, out, capacity, len);
  HOLDS(is_unchanged(&numbers, told));
  return status;
}

/* A place of the cursor, and other replies with its numbers, into rooms that have enough and that may not. */
static void write_replies(const hed_event *it) {
  static encoder *const calls[] = { write_position, write_scheme, write_attributes };
  static sent all, front;
  for (size_t i = 0; i < sizeof calls / sizeof *calls; i++) {
    encode(&all, calls[i], it, SEQUENCE_MAX);
    encode(&front, calls[i], it, it->column % 8);
    HOLDS(all.status == HED_OK && all.len <= SEQUENCE_MAX && same_sent(&all, &front, it->column % 8));
  }
}

static bool needs_table(const hed_event *it) {
  return it->kind == HED_KIND_KEY || it->kind >= HED_KIND_CSI;
}

/* The first events are written by the reading that gave them: each position of the cursor answers a question. */
static void write_events(void) {
  told_event it = { whole.events, whole.texts, first_reading };
  const hed_event *end = whole.events + whole.count;
  for (unsigned count = 0; it.told < end && count < WRITTEN; it.bytes += it.told++->text_len) {
    bool is_position = it.told->kind == HED_KIND_CURSOR_POSITION;
    bool is_for_this = !needs_table(it.told) || whole.count % STREAMS == 0;
    if (it.told->text_len <= WRITTEN_MAX && is_for_this) write_event(&it), count++;
    if (is_position) write_replies(it.told);
    if (is_position && it.by.questions > 0) it.by.questions--;
  }
}

/* A string of STRING_MAX bytes, which has no end. Each event brings the opening and the next bytes, and none is a key. */
static void read_long_string(const uint8_t *bytes, size_t len, size_t size) {
  static uint8_t string[STRING_MAX] = "\033]52;", got[STRING_MAX];
  size_t told = OPENING;
  hed_event next;
  for (size_t at = OPENING; at < STRING_MAX; at++) string[at] = bytes[at % len] & NO_END;
  for (size_t at = 0; at < STRING_MAX; at += size) {
    HOLDS(hed_parser_feed(parser, 0, string + at, size) == HED_OK);
    if (at + size == STRING_MAX) hed_parser_end(parser);
    for (; hed_parser_next(parser, &next) == HED_OK; told += next.text_len + 2 - OPENING) {
      HOLDS(next.kind == (STRING_MAX - told < PART - OPENING ? HED_KIND_STRING_CUT : HED_KIND_STRING_PART));
      HOLDS(next.string_kind == HED_KIND_OSC && hed_parser_text(parser, got, sizeof got) == next.text_len);
      HOLDS(memcmp(got, string + 2, OPENING - 2) == 0);
      HOLDS(memcmp(got + OPENING - 2, string + told, next.text_len + 2 - OPENING) == 0);
    }
  }
  HOLDS(told == STRING_MAX && hed_parser_waiting_len(parser) == 0);
}

static hed_reading reading_by(uint8_t first) {
  hed_reading found = { 0 };
  if (first & SETTINGS) {
    found.erase = HED_ERASE_BACKSPACE;
    found.newline = HED_NEWLINE_ENTER;
  }
  if (first & X10_AND_QUESTIONS) {
    found.x10_mouse = true;
    found.questions = first & QUESTIONS;
  }
  if (first & SETTINGS && first & X10_AND_QUESTIONS) found.dialect = HED_DIALECT_TERMWIZ;
  return found;
}

void try_input(input *it) {
  static hed_parser only = HED_PARSER_NONE;
  uint8_t first = take_byte(it);
  first_reading = reading_by(first);
  parser = &only;
  if (!parser->live) HOLDS(hed_parser_init(parser, HED_DIALECT_TERMWIZ) == HED_OK);
  if (!back.live) HOLDS(hed_parser_init_sharing(&back, HED_DIALECT_EXTENDED, parser) == HED_OK);
  begin(&whole, HED_NO_PARTS);
  bool is_long = (first & ~READS) == LONG && it->left > 0;
  if (is_long) read_long_string(it->at, it->left, (size_t)1 << 2 * (first & READS));
  read_both(it, first);
  check_questions();
  encode_keys();
  read_replies();
  write_events();
}
