/* A test of the calls of a parser, beside the events and runs of tests/cases, and but for those that share a table between threads. */
#include "told.h"

static bool is_waiting(const hed_parser *parser, uint32_t kind, size_t len) {
  return hed_parser_waiting(parser) == kind && hed_parser_waiting_len(parser) == len;
}

/* Copies what the last event brought, and compares it. */
static bool has_text(const hed_parser *parser, const char *wanted, size_t len) {
  uint8_t text[64];
  memset(text, '.', sizeof text);
  return hed_parser_text(parser, text, sizeof text) == len && memcmp(text, wanted, len) == 0 && text[len] == '.';
}

#define HAS_TEXT(parser, text) has_text(parser, TEXT(text))

/* The next event. */
static hed_event next_of(hed_parser *parser) {
  hed_event event;
  memset(&event, 0x55, sizeof event);
  EXPECT(hed_parser_next(parser, &event) == HED_OK);
  return event;
}

/* How many limits a policy has, and the place of that of strings. */
enum { LIMITS = sizeof(hed_policy) / sizeof(int32_t), OF_STRINGS = offsetof(hed_policy, string) / sizeof(int32_t) };

static hed_policy all_limits(int32_t millis) {
  int32_t limits[LIMITS];
  hed_policy policy;
  for (size_t i = 0; i < LIMITS; i++) limits[i] = millis;
  memcpy(&policy, limits, sizeof policy);
  return policy;
}

/* A limit that no timeout could tell is refused, in each field, and the limits of before hold. The most is told, and a string adds its bytes. */
static void refuses_long_limits(void) {
  enum { MOST = 2147418111 };
  static const hed_policy usual = HED_POLICY_USUAL;
  hed_parser parser = HED_PARSER_NONE;
  make(&parser, HED_DIALECT_EXTENDED);
  READS(&parser, "\033]0;", "nothing");
  for (size_t field = 0; field < LIMITS; field++) {
    int32_t limits[LIMITS];
    hed_policy policy = all_limits(7);
    memcpy(limits, &policy, sizeof policy);
    for (int high = 0; high < 2; high++) {
      limits[field] = high ? INT32_MAX : MOST + 1;
      memcpy(&policy, limits, sizeof policy);
      EXPECT(hed_parser_set_policy(&parser, &policy) == HED_BAD_NUMBER && hed_parser_timeout(&parser, 0) == 5004);
    }
    limits[field] = MOST;
    memcpy(&policy, limits, sizeof policy);
    EXPECT(hed_parser_set_policy(&parser, &policy) == HED_OK && hed_parser_timeout(&parser, 0) == (field == OF_STRINGS ? MOST + 4 : 11));
    EXPECT(hed_parser_set_policy(&parser, &usual) == HED_OK && hed_parser_timeout(&parser, 0) == 5004);
  }
  hed_parser_free(&parser);
}

/* The usual limits are those of a new parser, for each kind of what stays buffered. */
static void has_usual_limits(void) {
  static const char *const texts[] = { "\033", "\033[", "\033[1", "\033]0;", "\303", START };
  static const hed_policy usual = HED_POLICY_USUAL;
  const hed_policy others = all_limits(7);
  hed_parser parser = HED_PARSER_NONE, first = HED_PARSER_NONE;
  make(&first, HED_DIALECT_EXTENDED);
  make(&parser, HED_DIALECT_EXTENDED);
  for (size_t i = 0; i < sizeof texts / sizeof *texts; i++) {
    reads(&first, texts[i], strlen(texts[i]), "nothing");
    reads(&parser, texts[i], strlen(texts[i]), "nothing");
    EXPECT(hed_parser_set_policy(&parser, &others) == HED_OK && hed_parser_timeout(&parser, 0) != hed_parser_timeout(&first, 0));
    EXPECT(hed_parser_set_policy(&parser, &usual) == HED_OK && hed_parser_timeout(&parser, 0) == hed_parser_timeout(&first, 0));
    EXPECT(hed_parser_reset(&parser) == hed_parser_reset(&first));
  }
  hed_parser_free(&parser);
  hed_parser_free(&first);
}

static bool reads_by(const hed_parser *parser, hed_reading wanted) {
  hed_reading reading;
  return hed_parser_reading(parser, &reading) == HED_OK && same_reading(&reading, &wanted);
}

static bool set_reading(hed_parser *parser, hed_reading reading) {
  return hed_parser_set_reading(parser, &reading) == HED_OK;
}

static const uint32_t no_numbers[] = { 2, 256, 65536, UINT32_MAX };

/* A new parser has its dialect, and the rest is 0. Any reading may be set, but for numbers that stand for nothing. */
static void keeps_its_reading(void) {
  static const hed_reading first = { 0 }, termwiz = { .dialect = HED_DIALECT_TERMWIZ };
  static const hed_reading full = { HED_DIALECT_TERMWIZ, HED_ERASE_BACKSPACE, HED_NEWLINE_ENTER, true, 255 };
  hed_parser parser = HED_PARSER_NONE, other = HED_PARSER_NONE;
  make(&parser, HED_DIALECT_EXTENDED);
  EXPECT(reads_by(&parser, first) && set_reading(&parser, full) && reads_by(&parser, full));
  for (size_t i = 0; i < 4; i++) {
    hed_reading no_dialect = first, no_erase = first, no_newline = first;
    no_dialect.dialect = no_erase.erase = no_newline.newline = no_numbers[i];
    EXPECT(hed_parser_set_reading(&parser, &no_dialect) == HED_BAD_NUMBER && hed_parser_set_reading(&parser, &no_erase) == HED_BAD_NUMBER);
    EXPECT(hed_parser_set_reading(&parser, &no_newline) == HED_BAD_NUMBER && reads_by(&parser, full));
  }
  EXPECT(hed_parser_init_sharing(&other, HED_DIALECT_TERMWIZ, &parser) == HED_OK && reads_by(&other, termwiz));
  EXPECT(hed_parser_init(&parser, HED_DIALECT_EXTENDED) == HED_OK && reads_by(&parser, first));
  hed_parser_free(&other);
  hed_parser_free(&parser);
}

/* The bytes of the last event stay if the reading changes. */
static void keeps_a_text_over_readings(void) {
  hed_parser parser = HED_PARSER_NONE;
  hed_reading reading = { .erase = HED_ERASE_BACKSPACE, .newline = HED_NEWLINE_ENTER, .x10_mouse = true };
  make(&parser, HED_DIALECT_EXTENDED);
  FEED(&parser, "\033]0;t\007\033[1;9A\010\n\033[M !!");
  EXPECT(next_of(&parser).kind == HED_KIND_OSC);
  EXPECT(set_reading(&parser, reading) && hed_parser_waiting_len(&parser) == 14 && HAS_TEXT(&parser, "0;t"));
  READS(&parser, "", "key UpArrow SUPER, key Backspace NONE, key Enter NONE, mouse 1 1 LEFT NONE press 1");
  hed_parser_free(&parser);
}

/* Commands one after another, shorter and longer than the one before, and some that are too long for their place to be kept. */
static void keeps_commands(hed_parser *parser) {
  static const size_t lengths[] = { 3, 1, 40, 39, 4094, 4095, 2, 9000, 0, 5 };
  static uint8_t data[10000], copy[10000];
  for (size_t i = 0; i < sizeof lengths / sizeof *lengths; i++) {
    size_t len = lengths[i];
    memset(data, 'a' + (int)i, len);
    FEED(parser, "\033]0;");
    EXPECT(hed_parser_feed(parser, 0, data, len) == HED_OK);
    FEED(parser, "\007");
    hed_event event = next_of(parser);
    EXPECT(event.kind == HED_KIND_OSC && event.text_len == len + 2);
    EXPECT(hed_parser_text(parser, copy, sizeof copy) == len + 2 && memcmp(copy, "0;", 2) == 0 && memcmp(copy + 2, data, len) == 0);
  }
}

/* The bytes of the event that was told last are copied as often as they are asked for, until the next event or until they are dropped. */
static void keeps_texts(void) {
  static const size_t rooms[] = { 0, 1, 4, 5, 1000, SIZE_MAX };
  hed_parser parser = HED_PARSER_NONE;
  uint8_t few[4] = "....";
  make(&parser, HED_DIALECT_EXTENDED);
  EXPECT(hed_parser_text(&parser, few, 4) == 0 && hed_parser_text(&parser, NULL, 0) == 0);
  for (size_t i = 0; i < sizeof rooms / sizeof *rooms; i++) {
    FEED(&parser, "\033]0;abc\007\033[I\033[97;;98u" START "xy" END "\033[<0;1;1M" START "z" END "\033]0;d");
    EXPECT(next_of(&parser).text_len == 5 && hed_parser_text(&parser, few, 2) == 5 && memcmp(few, "0;..", 4) == 0);
    hed_parser_shrink_to(&parser, rooms[i]);
    EXPECT(HAS_TEXT(&parser, "0;abc") && hed_parser_waiting_len(&parser) == 53);
    EXPECT(next_of(&parser).kind == HED_KIND_FOCUS_GAINED && HAS_TEXT(&parser, ""));
    EXPECT(next_of(&parser).kind == HED_KIND_KEY && HAS_TEXT(&parser, "b"));
    EXPECT(next_of(&parser).kind == HED_KIND_PASTE && HAS_TEXT(&parser, "xy"));
    hed_parser_drop_text(&parser);
    EXPECT(HAS_TEXT(&parser, ""));
    hed_parser_drop_text(&parser);
    EXPECT(next_of(&parser).kind == HED_KIND_MOUSE && HAS_TEXT(&parser, ""));
    EXPECT(next_of(&parser).kind == HED_KIND_PASTE && HAS_TEXT(&parser, "z"));
    tell_events(&parser);
    is_told("nothing");
    EXPECT(HAS_TEXT(&parser, "z") && is_waiting(&parser, HED_WAITING_STRING, 5) && hed_parser_reset(&parser) == 5);
    hed_parser_shrink_to(&parser, rooms[i]);
    EXPECT(HAS_TEXT(&parser, "z"));
    memcpy(few, "....", 4);
  }
  keeps_commands(&parser);
  hed_parser_free(&parser);
}

static const char mixed[] =
    "qw\033[A\033[97;;97u\303\251" START "pasted" END "x\033[1;5R\033]0;a title\007\033[I\033[98;;98:99u" START END START
    "a paste of more bytes than any room of these tests" END "\033[?62;22c\033[2;2R\033P>|x\033";

/* The events of a stream that is cut in two. */
static void read_mixed(hed_parser *parser, size_t cut, take *tells) {
  hed_parser_expect_position(parser);
  feed(parser, mixed, cut);
  tells(parser);
  feed(parser, mixed + cut, sizeof mixed - 1 - cut);
  tells(parser);
  hed_parser_flush(parser);
  tells(parser);
  EXPECT(hed_parser_waiting_len(parser) == 0 && reads_by(parser, (hed_reading){ 0 }) && hed_parser_timeout(parser, 0) == -1);
}

/* Arrays of any size have the events that calls one by one tell, and the parser is the same afterwards. */
static void fills_arrays(void) {
  static const size_t rooms[] = { 1, 2, 5, 12 }, text_rooms[] = { 0, 1, 6, 7, 8, 40 };
  static char wanted[sizeof told];
  hed_parser parser = HED_PARSER_NONE;
  make(&parser, HED_DIALECT_EXTENDED);
  read_mixed(&parser, 0, tell_events);
  memcpy(wanted, told, sizeof told);
  is_told(wanted);
  EXPECT(strlen(wanted) > 100);
  for (size_t cut = 0; cut < sizeof mixed; cut++)
    for (size_t i = 0; i < sizeof rooms / sizeof *rooms; i++)
      for (size_t j = 0; j < sizeof text_rooms / sizeof *text_rooms; j++) {
        room = rooms[i], text_room = text_rooms[j];
        read_mixed(&parser, cut, tell_arrays);
        is_told(wanted);
      }
  hed_parser_free(&parser);
}

/* Without room nothing is told. Parts of a paste come in arrays too, and what is asked of time is the same. */
static void fills_arrays_without_room(void) {
  uint8_t byte = '.', text[8];
  size_t count = 77;
  hed_event events[3];
  hed_parser parser = HED_PARSER_NONE;
  make(&parser, HED_DIALECT_EXTENDED);
  EXPECT(hed_parser_next_events(&parser, events, 3, &byte, 1, &count) == HED_NONE && count == 0);
  FEED(&parser, "a" START "b" END "\033");
  EXPECT(hed_parser_next_events(&parser, NULL, 0, &byte, 1, &count) == HED_OK && count == 0 && byte == '.');
  EXPECT(hed_parser_waiting_len(&parser) == 15 && hed_parser_timeout(&parser, 0) == 0);
  EXPECT(hed_parser_next_events(&parser, events, 3, NULL, 0, &count) == HED_OK && count == 2 && events[1].text_len == 1);
  EXPECT(HAS_TEXT(&parser, "b") && hed_parser_timeout(&parser, 0) == 0);
  EXPECT(hed_parser_next_events(&parser, events, 3, &byte, 1, &count) == HED_NONE && count == 0 && hed_parser_timeout(&parser, 20) == 30);
  hed_parser_idle(&parser, 50);
  EXPECT(hed_parser_next_events(&parser, events, 3, &byte, 1, &count) == HED_NONE && count == 1 && events[0].key == HED_KEY_ESCAPE);
  hed_parser_set_parts(&parser, 2);
  FEED(&parser, START "abc");
  EXPECT(hed_parser_next_events(&parser, events, 3, text, 8, &count) == HED_NONE && count == 1 && events[0].kind == HED_KIND_PASTE_PART);
  FEED(&parser, "d" END "e");
  EXPECT(hed_parser_next_events(&parser, events, 2, text, 8, &count) == HED_OK && count == 2 && events[0].kind == HED_KIND_PASTE);
  EXPECT(text[0] == 'd' && events[0].text_len == 1 && events[1].detail == 'e');
  EXPECT(hed_parser_next_events(&parser, events, 2, text, 8, &count) == HED_NONE && count == 0 && hed_parser_timeout(&parser, 50) == -1);
  hed_parser_free(&parser);
}

enum { LONG = (1 << 20) + 1 };

static uint8_t body[LONG], copy[LONG + 1];

/* A paste of more than 1 MB is one event, fed in pieces of some size, and with parts it is as many as its parts. Nothing of it is a key. */
static void reads_a_long_paste(hed_parser *parser, size_t piece, size_t limit) {
  hed_event event;
  size_t joined = 0, parts = 0;
  hed_parser_set_parts(parser, limit);
  FEED(parser, START);
  for (size_t at = 0; at <= LONG; at += piece) {
    size_t len = LONG - at < piece ? LONG - at : piece;
    EXPECT(hed_parser_feed(parser, at, body + at, len) == HED_OK);
    if (at + len == LONG) FEED(parser, END);
    while (hed_parser_next(parser, &event) == HED_OK) {
      EXPECT(event.kind == (hed_parser_waiting_len(parser) > 0 ? HED_KIND_PASTE_PART : HED_KIND_PASTE));
      EXPECT(hed_parser_text(parser, copy + joined, sizeof copy - joined) == event.text_len);
      joined += event.text_len, parts++;
    }
    EXPECT(limit == HED_NO_PARTS || hed_parser_waiting_len(parser) <= limit + 6);
    if (at + len == LONG) break;
  }
  copy[LONG] = '.';
  EXPECT(joined == LONG && memcmp(copy, body, LONG) == 0 && hed_parser_waiting_len(parser) == 0);
  EXPECT(limit == HED_NO_PARTS ? parts == 1 : parts > LONG / (limit + piece));
  hed_parser_drop_text(parser);
  EXPECT(HAS_TEXT(parser, ""));
}

static void reads_long_pastes(void) {
  hed_parser parser = HED_PARSER_NONE;
  make(&parser, HED_DIALECT_EXTENDED);
  for (size_t at = 0; at < LONG; at++) body[at] = (uint8_t) "0123456789abcdef\033[201"[at % 21];
  reads_a_long_paste(&parser, LONG, HED_NO_PARTS);
  reads_a_long_paste(&parser, 4000, HED_NO_PARTS);
  reads_a_long_paste(&parser, 4000, 10000);
  reads_a_long_paste(&parser, 70000, 0x10000);
  /* one that is never ended ends where it is */
  FEED(&parser, START);
  EXPECT(hed_parser_feed(&parser, 0, body, LONG) == HED_OK);
  hed_parser_set_parts(&parser, HED_NO_PARTS);
  hed_parser_end(&parser);
  EXPECT(next_of(&parser).text_len == LONG && hed_parser_text(&parser, copy, 3) == LONG && memcmp(copy, "012", 3) == 0);
  /* and one is written to an array */
  hed_event event;
  size_t count = 0;
  FEED(&parser, START);
  EXPECT(hed_parser_feed(&parser, 0, body, LONG) == HED_OK);
  FEED(&parser, END);
  memset(copy, 0, sizeof copy);
  EXPECT(hed_parser_next_events(&parser, &event, 1, copy, LONG, &count) == HED_OK && count == 1 && event.text_len == LONG);
  EXPECT(memcmp(copy, body, LONG) == 0 && hed_parser_waiting_len(&parser) == 0);
  hed_parser_free(&parser);
}

/* Feeds that many of one byte. */
static void feed_many(hed_parser *parser, char byte, size_t count) {
  EXPECT(count <= sizeof body);
  memset(body, byte, count);
  EXPECT(hed_parser_feed(parser, 0, body, count) == HED_OK);
}

static void expect_waiting(hed_parser *parser, uint32_t kind, size_t len) {
  READS(parser, "", "nothing");
  EXPECT(is_waiting(parser, kind, len));
}

/* The next event is of a string, and there are so many bytes of it, with the last one known. */
static void expect_string(hed_parser *parser, uint8_t kind, uint8_t string_kind, size_t len, char last) {
  hed_event event = next_of(parser), wanted = { .kind = kind, .string_kind = string_kind, .text_len = len };
  EXPECT(same_event(&event, &wanted) && hed_parser_text(parser, copy, sizeof copy) == len && copy[len - 1] == (uint8_t)last);
}

enum { PART = 65535 };

/* At most PART bytes of a string wait. With so many comes a part, and its opening is put back before what follows. */
static void reads_long_strings(void) {
  static hed_parser made = HED_PARSER_NONE, *parser = &made;
  make(parser, HED_DIALECT_EXTENDED);
  FEED(parser, "\033]52;");
  feed_many(parser, 'A', PART - 6);
  expect_waiting(parser, HED_WAITING_STRING, PART - 1);
  FEED(parser, "\033");
  expect_waiting(parser, HED_WAITING_STRING, PART);
  FEED(parser, "\\");
  expect_string(parser, HED_KIND_OSC, 0, PART - 3, 'A');
  FEED(parser, "\033]52;");
  feed_many(parser, 'A', PART - 6);
  FEED(parser, "B");
  expect_string(parser, HED_KIND_STRING_PART, HED_KIND_OSC, PART - 2, 'B');
  expect_waiting(parser, HED_WAITING_STRING, 5);
  hed_parser_shrink_to(parser, 0);
  EXPECT(hed_parser_text(parser, NULL, 0) == PART - 2);
  FEED(parser, "C\007");
  expect_string(parser, HED_KIND_OSC, 0, 4, 'C');
  FEED(parser, "\033P0+r");
  feed_many(parser, 'A', PART - 5);
  FEED(parser, "\033[I");
  hed_parser_flush(parser);
  expect_string(parser, HED_KIND_STRING_PART, HED_KIND_DCS, PART - 2, 'A');
  expect_string(parser, HED_KIND_STRING_CUT, HED_KIND_DCS, 3, 'r');
  tell_events(parser);
  is_told("focus gained");
  hed_parser_free(parser);
}

/* The entry that was asked for last: its bytes and its key. */
static uint8_t entry_bytes[HED_ENTRY_MOST];
static hed_event entry;

/* Asks for an entry, and returns how many bytes it has. */
static size_t entry_at(const hed_parser *parser, size_t place) {
  memset(entry_bytes, '.', sizeof entry_bytes);
  memset(&entry, 0x55, sizeof entry);
  return hed_parser_entry(parser, place, entry_bytes, sizeof entry_bytes, &entry);
}

/* However few bytes there is room for, the length and the key are those of the whole entry, and the bytes after the room are unchanged. */
static void cuts_entry(const hed_parser *parser, size_t place, size_t len) {
  for (size_t has = 0; has <= HED_ENTRY_MOST + 1; has++) {
    uint8_t few[HED_ENTRY_MOST + 2];
    hed_event event;
    size_t copied = has < len ? has : len;
    memset(few, 0x55, sizeof few);
    EXPECT(hed_parser_entry(parser, place, has > 0 ? few : NULL, has, &event) == len && same_event(&event, &entry));
    EXPECT(memcmp(few, entry_bytes, copied) == 0 && is_marked(few + copied, sizeof few - copied));
  }
}

/* Feeds an entry, and flushes: its key is the event. The start of a paste opens one instead. */
static void reads_entry(hed_parser *parser, size_t len) {
  bool is_start = entry.key == HED_KEY_INTERNAL_PASTE_START;
  hed_event event;
  EXPECT(hed_parser_feed(parser, 0, entry_bytes, len) == HED_OK);
  hed_parser_flush(parser);
  if (!is_start) event = next_of(parser);
  EXPECT((is_start || same_event(&event, &entry)) && hed_parser_next(parser, &event) == HED_NONE);
  EXPECT(is_start ? is_waiting(parser, HED_WAITING_PASTE, 6) : is_waiting(parser, HED_WAITING_NOTHING, 0));
  hed_parser_reset(parser);
}

/* Whether one text comes before another in the order of bytes. */
static bool is_before(const uint8_t *one, size_t one_len, const uint8_t *other, size_t other_len) {
  int order = memcmp(one, other, one_len < other_len ? one_len : other_len);
  return order < 0 || (order == 0 && one_len < other_len);
}

/* Every entry: its bytes come after those of the entry before it, and are read as its key. From their number on there is none. */
static void tells_entries(hed_parser *parser) {
  static const size_t no_places[] = { HED_ENTRY_COUNT, HED_ENTRY_COUNT + 1, (size_t)1 << 32, SIZE_MAX };
  uint8_t before[HED_ENTRY_MOST];
  size_t before_len = 0, longest = 0;
  unsigned starts = 0, ends = 0;
  for (size_t place = 0; place < HED_ENTRY_COUNT; place++) {
    size_t len = entry_at(parser, place);
    EXPECT(len > 0 && len <= HED_ENTRY_MOST && is_before(before, before_len, entry_bytes, len));
    if (place % 16 == 0 || place + 1 == HED_ENTRY_COUNT) cuts_entry(parser, place, len);
    reads_entry(parser, len);
    starts += entry.key == HED_KEY_INTERNAL_PASTE_START;
    ends += entry.key == HED_KEY_INTERNAL_PASTE_END;
    memcpy(before, entry_bytes, sizeof before);
    before_len = len;
    if (len > longest) longest = len;
  }
  EXPECT(longest == HED_ENTRY_MOST && starts == 1 && ends == 1);
  for (size_t i = 0; i < 4; i++) {
    EXPECT(entry_at(parser, no_places[i]) == 0 && memcmp(entry_bytes, "...........", HED_ENTRY_MOST) == 0);
    EXPECT(is_marked(&entry, sizeof entry) && hed_parser_entry(parser, no_places[i], NULL, 0, &entry) == 0);
  }
}

/* What stays buffered, how many entries would complete it, and whether they follow its ESC. Each entry begins with it and is longer. */
static void tells_completions(hed_parser *parser) {
  static const struct {
    const char *text;
    size_t count;
    bool with_alt;
  } rows[] = { { "", HED_ENTRY_COUNT, false }, { "\033[1;5", 12, false }, { "\033\033[1;5", 12, true }, { "\033\033[200", 1, true },
               { "\033[<", 0, false },         { "\303", 0, false },      { START, 0, false } };
  for (size_t i = 0; i < sizeof rows / sizeof *rows; i++) {
    size_t len = strlen(rows[i].text), after = len - rows[i].with_alt;
    hed_entries entries;
    reads(parser, rows[i].text, len, "nothing");
    EXPECT(hed_parser_completions(parser, &entries) == HED_OK && hed_parser_waiting_len(parser) == len && hed_parser_reset(parser) == len);
    EXPECT(entries.with_alt == rows[i].with_alt && entries.count == rows[i].count);
    for (size_t place = entries.first; place < entries.first + entries.count; place++)
      EXPECT(entry_at(parser, place) > after && memcmp(entry_bytes, rows[i].text + rows[i].with_alt, after) == 0);
  }
}

static void tells_rows(void) {
  hed_parser parser = HED_PARSER_NONE;
  make(&parser, HED_DIALECT_TERMWIZ);
  tells_entries(&parser);
  tells_completions(&parser);
  hed_parser_free(&parser);
}

/* Nothing is there before init and after free, and each call says so. */
static void none_answers(hed_parser *parser) {
  static const hed_policy usual = HED_POLICY_USUAL;
  hed_parser other = HED_PARSER_NONE;
  hed_event event, key = PRESS(0, HED_KEY_CHAR, 'a');
  hed_reading reading;
  hed_entries entries;
  hed_key_press press;
  uint8_t bytes[8];
  size_t count = 7, len = 7, sent_len = 7;
  memset(&event, 0x55, sizeof event);
  memset(&reading, 0x55, sizeof reading);
  memset(&entries, 0x55, sizeof entries);
  memset(&press, 0x55, sizeof press);
  memset(bytes, 0x55, sizeof bytes);
  EXPECT(hed_parser_feed(parser, 1, bytes, 1) == HED_NOT_INITIALIZED && hed_parser_feed(parser, 1, NULL, 0) == HED_NOT_INITIALIZED);
  EXPECT(hed_parser_next(parser, &event) == HED_NOT_INITIALIZED);
  EXPECT(hed_parser_next_events(parser, &event, 1, bytes, 8, &count) == HED_NOT_INITIALIZED && count == 0);
  EXPECT(hed_parser_text(parser, bytes, 8) == 0);
  hed_parser_drop_text(parser);
  EXPECT(hed_parser_timeout(parser, 7) == -1);
  hed_parser_idle(parser, 7);
  hed_parser_flush(parser);
  hed_parser_end(parser);
  EXPECT(hed_parser_interrupted(parser, 7) == HED_NOT_INITIALIZED);
  hed_parser_set_parts(parser, 1);
  EXPECT(hed_parser_skip_paste(parser, &len) == HED_NOT_INITIALIZED && len == 7);
  EXPECT(hed_parser_reset(parser) == 0);
  hed_parser_shrink_to(parser, 1);
  EXPECT(hed_parser_waiting_len(parser) == 0 && hed_parser_waiting(parser) == HED_WAITING_NOTHING);
  EXPECT(hed_parser_reading(parser, &reading) == HED_NOT_INITIALIZED && is_marked(&reading, sizeof reading));
  reading = (hed_reading){ 0 };
  EXPECT(hed_parser_set_reading(parser, &reading) == HED_NOT_INITIALIZED);
  hed_parser_expect_position(parser);
  hed_parser_forget_positions(parser);
  EXPECT(hed_parser_set_policy(parser, &usual) == HED_NOT_INITIALIZED);
  EXPECT(hed_parser_entry(parser, 0, bytes, 8, &event) == 0 && hed_parser_entry(parser, HED_ENTRY_COUNT, bytes, 8, &event) == 0);
  EXPECT(hed_parser_completions(parser, &entries) == HED_NOT_INITIALIZED);
  EXPECT(hed_parser_press(parser, &key, &press) == HED_NOT_INITIALIZED && hed_parser_second(parser, &key, &press) == HED_NOT_INITIALIZED);
  EXPECT(hed_encode_event(&key, NULL, 0, parser, bytes, 8, &sent_len) == HED_NOT_INITIALIZED && sent_len == 0);
  EXPECT(hed_parser_init_sharing(&other, HED_DIALECT_EXTENDED, parser) == HED_NOT_INITIALIZED && !other.live);
  EXPECT(is_marked(&event, sizeof event) && is_marked(bytes, 8) && is_marked(&press, sizeof press));
  EXPECT(is_marked(&entries.first, sizeof entries.first) || entries.count == 0);
  hed_parser_free(parser);
  EXPECT(!parser->live);
}

/* A parser that is made anew has nothing of the one before, unless the number is no dialect's. One that was moved is used at its new place. */
static void answers_before_init_and_after_free(void) {
  hed_parser parser = HED_PARSER_NONE, moved;
  for (int again = 0; again < 2; again++) {
    none_answers(&parser);
    for (size_t i = 0; i < 4; i++) EXPECT(hed_parser_init(&parser, no_numbers[i]) == HED_BAD_NUMBER && !parser.live);
    EXPECT(hed_parser_init(&parser, HED_DIALECT_EXTENDED) == HED_OK && hed_parser_timeout(&parser, 7) == -1);
    READS(&parser, START "text" END START "abc", "paste \"text\"");
    for (size_t i = 0; i < 4; i++)
      EXPECT(hed_parser_init(&parser, no_numbers[i]) == HED_BAD_NUMBER && hed_parser_waiting_len(&parser) == 9);
    EXPECT(HAS_TEXT(&parser, "text") && hed_parser_init(&parser, HED_DIALECT_EXTENDED) == HED_OK);
    EXPECT(hed_parser_waiting_len(&parser) == 0 && HAS_TEXT(&parser, ""));
    READS(&parser, "q\033[", "key U+0071 NONE");
    memcpy(&moved, &parser, sizeof moved);
    memset(&parser, 0, sizeof parser);
    READS(&moved, "A", "key UpArrow NONE");
    EXPECT(hed_parser_init(&moved, HED_DIALECT_TERMWIZ) == HED_OK);
    READS(&moved, "\033]", "key U+005D ALT");
    hed_parser_free(&moved);
    none_answers(&moved);
  }
}

int main(void) {
  TEST(answers_before_init_and_after_free());
  TEST(has_usual_limits());
  TEST(refuses_long_limits());
  TEST(keeps_its_reading());
  TEST(keeps_a_text_over_readings());
  TEST(keeps_texts());
  TEST(fills_arrays());
  TEST(fills_arrays_without_room());
  TEST(reads_long_pastes());
  TEST(reads_long_strings());
  TEST(tells_rows());
  hed_parser_free(&base);
  return expected("test_parser");
}
