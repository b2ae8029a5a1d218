/* Refuses each request for memory in turn, one in each run, and makes the refused call again: the answers must be those of a run without a
 * refusal, and each refusal must be told once. What is dropped or freed leaves no memory in use.
 *
 *     cc -Wl,--wrap=malloc -Wl,--wrap=realloc -Wl,--wrap=free test_refusals.c libhedrugal.a && ./a.out [STEP]
 *
 * Of the requests of hed_parser_init it refuses each STEPth (each, if no STEP is given). */
#include "told.h"
#include "refuse.h"
#include <stdlib.h>

/* Feeds a piece, again if it is refused. */
static void feed_again(hed_parser *parser, const char *bytes, size_t len) {
  size_t waiting = hed_parser_waiting_len(parser);
  hed_status status;
  while ((status = hed_parser_feed(parser, 0, (const uint8_t *)bytes, len)) == HED_NO_MEMORY) {
    met++;
    EXPECT(hed_parser_waiting_len(parser) == waiting && hed_parser_timeout(parser, 0) != 0);
  }
  EXPECT(status == HED_OK && hed_parser_waiting_len(parser) == waiting + len);
}

static const char stream[] = "q\033[A\033[<0;12;3M\303\251\033[24;80R" START "hello w\303\266rld, and some more text that needs memory" END
                             "\033[?62;22c"
                             "\033[97:65:99;2:1;65u\033]11;rgb:1e1e/1e1e/1e1e\033\\x\033P>|kitty\033\\\033_Gi=31;OK\033\\\033[I" START END
                             "\033]4;1;rgb:\033\033P>|foo\033[O\033[<129;12;3m\033[M\240!!\033\033[23^" START "\377and a last one";

/* How the stream is read, and how it ends. */
struct way {
  uint32_t dialect;
  size_t parts;
  take *tells;
  void (*ends)(hed_parser *parser);
};

static void end_by_idle(hed_parser *parser) {
  hed_parser_idle(parser, 5);
}

static const struct way ways[] = {
  { HED_DIALECT_EXTENDED, HED_NO_PARTS, tell_events, hed_parser_end },
  { HED_DIALECT_EXTENDED, 9, tell_events, end_by_idle },
  { HED_DIALECT_EXTENDED, 5, tell_arrays, hed_parser_end },
  { HED_DIALECT_TERMWIZ, HED_NO_PARTS, tell_events, end_by_idle },
};

/* Reads the stream in pieces, with one request refused. Nothing but bytes and texts needs memory: no reading, limit, time or flush. */
static void read_stream(const struct way *it, take *tells, size_t piece, long number) {
  static const hed_policy policy = { .paste = 5 };
  hed_reading reading = { .dialect = it->dialect, .x10_mouse = true };
  hed_parser parser = HED_PARSER_NONE;
  make(&parser, it->dialect);
  met = 0;
  refuse(number);
  EXPECT(hed_parser_set_policy(&parser, &policy) == HED_OK && hed_parser_set_reading(&parser, &reading) == HED_OK);
  hed_parser_set_parts(&parser, it->parts);
  hed_parser_expect_position(&parser);
  tells(&parser);
  for (size_t at = 0; at < sizeof stream - 1; at += piece) {
    feed_again(&parser, stream + at, sizeof stream - 1 - at < piece ? sizeof stream - 1 - at : piece);
    tells(&parser);
  }
  it->ends(&parser);
  tells(&parser);
  to_refusal = 0;
  EXPECT(met == refused && hed_parser_waiting_len(&parser) == 0);
  hed_parser_free(&parser);
}

/* The stream in pieces, with each request refused in turn. */
static void refuse_while_reading(const struct way *it, size_t piece) {
  static char whole[sizeof told];
  long number = 0;
  read_stream(it, tell_events, piece, 0);
  memcpy(whole, told, sizeof told);
  is_told(whole);
  EXPECT(strlen(whole) > 100);
  do {
    read_stream(it, it->tells, piece, ++number);
    is_told(whole);
  } while (refused);
  EXPECT(number > 1);
  printf("pieces of %zu: %ld refusals\n", piece, number - 1);
}

/* The part of a long string, and the rest of it that is cut off, with each request refused in turn. */
static void refuse_string_parts(void) {
  enum { PART = 65535, LEN = PART + 10 };
  static uint8_t text[LEN], copy[LEN];
  long number = 0;
  memset(text, 'x', sizeof text);
  memcpy(text, "\033]52;", 5);
  memcpy(text + PART - 1, "abcdefghijk", LEN - PART + 1);
  do {
    hed_parser parser = HED_PARSER_NONE;
    hed_event event;
    make(&parser, HED_DIALECT_EXTENDED);
    EXPECT(hed_parser_feed(&parser, 0, text, sizeof text) == HED_OK);
    hed_parser_flush(&parser);
    refuse(++number);
    for (met = 0; hed_parser_next(&parser, &event) == HED_NO_MEMORY; met++) EXPECT(hed_parser_waiting_len(&parser) == LEN);
    EXPECT(event.kind == HED_KIND_STRING_PART && event.string_kind == HED_KIND_OSC && event.text_len == PART - 2);
    EXPECT(hed_parser_text(&parser, copy, sizeof copy) == PART - 2 && memcmp(copy, text + 2, PART - 2) == 0);
    EXPECT(hed_parser_waiting_len(&parser) == 5 + LEN - PART);
    for (; hed_parser_next(&parser, &event) == HED_NO_MEMORY; met++) EXPECT(hed_parser_text(&parser, NULL, 0) == PART - 2);
    EXPECT(event.kind == HED_KIND_STRING_CUT && event.string_kind == HED_KIND_OSC && event.text_len == 3 + LEN - PART);
    EXPECT(hed_parser_text(&parser, copy, sizeof copy) == event.text_len && memcmp(copy, "52;bcdefghijk", event.text_len) == 0);
    EXPECT(met == refused && hed_parser_waiting_len(&parser) == 0);
    refuse(0);
    hed_parser_free(&parser);
  } while (met);
  EXPECT(number > 2);
  printf("part and rest of a string: %ld refusals\n", number - 1);
}

/* The calls that write bytes, and how many these are. */
enum {
  ENCODED,
  REPORTED,
  REPORTED_WITH_TEXT,
  PASTED,
  MOUSE,
  WRITTEN,
  POSITION,
  SCHEME,
  ATTRIBUTES,
  NAMED,
  NAMED_LONG,
  NAMED_ALONE,
  SENT,
  SENT_BY_KITTY,
  CALLS
};
static const size_t lengths[CALLS] = { 7, 21, 87, 34, 9, 25, 8, 9, 9, 13, 61, 6, 11, 25 };

static hed_status write_by(int call, uint8_t *out, size_t room, size_t *len) {
  static const hed_modes modes = { 0, 0, 0, false, false, false }, kitty = { .encoding = HED_ENCODING_KITTY, .kitty_flags = 31 };
  static const hed_event letter = CHAR(SHIFT, 'a', 'A', HED_NO_CODE), osc = { .kind = HED_KIND_OSC };
  static const hed_sent_mouse mouse = { 1, 1, 0, HED_MOUSE_BUTTON1_PRESS };
  static const uint16_t numbers[] = { 62, 22 };
  hed_key_press keys[4];
  size_t count, at;
  switch (call) {
    case ENCODED: return hed_encode(HED_KEY_FUNCTION, 20, HED_TERMWIZ_MOD_ALT | HED_TERMWIZ_MOD_CTRL, true, &modes, out, room, len);
    case REPORTED: return hed_encode_kitty(&letter, HED_TEXT("A, and some more text"), 0, out, room, len);
    case REPORTED_WITH_TEXT: return hed_encode_kitty(&letter, HED_TEXT("A, and some more text"), 31, out, room, len);
    case PASTED: return hed_encode_paste(HED_TEXT("\033 and some more text"), true, out, room, len);
    case MOUSE: return hed_encode_mouse(&mouse, HED_MOUSE_TRACKING_ANY, HED_MOUSE_ENCODING_SGR, out, room, len);
    case WRITTEN: return hed_encode_event(&osc, HED_TEXT("11;and some more text"), &base, out, room, len);
    case POSITION: return hed_encode_cursor_position(24, 80, false, out, room, len);
    case SCHEME: return hed_encode_colour_scheme(true, out, room, len);
    case ATTRIBUTES: return hed_encode_device_attributes(numbers, 2, out, room, len);
    case SENT: return hed_send_names(HED_TEXT("x up f5 y z"), &modes, out, room, len, &at);
    case SENT_BY_KITTY: return hed_send_names(HED_TEXT("A up b"), &kitty, out, room, len, &at);
    case NAMED: EXPECT(hed_key_read(HED_TEXT("ctrl+x ctrl+s"), keys, 4, &count, &at) == HED_OK); break;
    case NAMED_ALONE: EXPECT(hed_key_read(HED_TEXT("ctrl+x"), keys, 4, &count, &at) == HED_OK); break;
    default:
      EXPECT(hed_key_read(HED_TEXT("super+hyper+meta+ctrl+alt+shift+applications U+10FFFF kitty57428 f255"), keys, 4, &count, &at)
             == HED_OK);
  }
  return call == NAMED_ALONE ? hed_press_print(keys, out, room, len) : hed_key_print(keys, count, out, room, len);
}

/* Each, with each request refused in turn: nothing is written, and the call may be made again. No name that is read needs memory. */
static void refuse_while_writing(int call) {
  size_t before = in_use;
  long number = 0;
  do {
    uint8_t out[128], again[128];
    size_t len = 99, again_len;
    memset(out, 0x55, sizeof out);
    refuse(++number);
    hed_status status = write_by(call, out, sizeof out, &len);
    met = refused;
    refuse(0);
    EXPECT(status == (met ? HED_NO_MEMORY : HED_OK) && (!met || (len == 0 && is_marked(out, sizeof out))));
    EXPECT(write_by(call, again, sizeof again, &again_len) == HED_OK && again_len == lengths[call] && in_use == before);
    EXPECT(met || (len == again_len && memcmp(out, again, len) == 0));
  } while (met);
  EXPECT(number > 1 && number < 32);
  printf("call %d that writes: %ld refusals\n", call, number - 1);
}

/* What a reply says, with each request refused in turn. A reply without numbers and bytes needs no memory. */
static void refuse_replies(void) {
  static const struct {
    uint8_t kind;
    const char *text;
    bool needs_memory;
  } replies[] = {
    { HED_KIND_CSI, "?62;4;22c", true }, { HED_KIND_CSI, ">41;379;0c", true },    { HED_KIND_DCS, "!|7E565445", true },
    { HED_KIND_DCS, ">|foot", true },    { HED_KIND_OSC, "52;c;Y2xpcA==", true }, { HED_KIND_CSI, "?25;1$y", false },
    { HED_KIND_CSI, "8;24;80t", false }, { HED_KIND_OSC, "11;rgb:0/0/0", false }, { HED_KIND_CSI, "?997;1n", false },
    { HED_KIND_CSI, "?62;x", false },    { HED_KIND_OSC, "52;c;Y2xpcA", false },  { HED_KIND_DCS, "!|464", false },
  };
  for (size_t i = 0; i < sizeof replies / sizeof *replies; i++) {
    size_t before = in_use;
    long number = 0;
    do {
      uint32_t numbers[4];
      uint8_t bytes[8];
      hed_reply reply;
      memset(&reply, 0x55, sizeof reply);
      memset(numbers, 0x55, sizeof numbers);
      memset(bytes, 0x55, sizeof bytes);
      refuse(++number);
      hed_status status =
          hed_read_reply(replies[i].kind, (const uint8_t *)replies[i].text, strlen(replies[i].text), &reply, numbers, 4, bytes, 8);
      met = refused;
      refuse(0);
      EXPECT((status == HED_NO_MEMORY) == (met != 0));
      EXPECT(!met || (is_marked(&reply, offsetof(hed_reply, len)) && is_marked(numbers, sizeof numbers) && is_marked(bytes, 8)));
    } while (met);
    EXPECT((number > 1) == replies[i].needs_memory && in_use == before);
  }
}

/* Names of chords that are bound one after another, and whose bytes are the keys of a map, each with its place in the list as its value. Long
 * ones need memory of their own. */
static const char *const bound[] = {
  "n",   "g g", "ctrl+x ctrl+s", "z",   "ctrl+x 4 ctrl+f", "a", "g",      "ctrl+x 4 4 ctrl+x ctrl+x ctrl+x ctrl+x ctrl+x ctrl+x ctrl+x",
  "f12", "g t", "alt+x",         "g a", "ctrl+x ctrl+c",   "b", "ctrl+a", "x y z",
};

enum { BOUND = sizeof bound / sizeof *bound };

static size_t read_bound(size_t at, hed_key_press *keys) {
  return read_chord(bound[at], strlen(bound[at]), keys);
}

/* The bindings and the map have the first of the chords, and no others. They are asked without memory. */
static void expect_bound(const hed_bindings *bindings, const hed_keymap *map, size_t count, size_t mapped) {
  hed_key_press keys[HED_CHORD_MOST];
  size_t first, end, len, listed = 0;
  uint64_t value = 0;
  long saved = to_refusal;
  unsigned before = refused;
  to_refusal = 1;
  EXPECT(hed_bindings_len(bindings) == count && hed_keymap_len(map) == mapped);
  for (size_t at = 0; at < BOUND; at++) {
    hed_match match = { 77, 777 };
    EXPECT(hed_bindings_lookup(bindings, keys, read_bound(at, keys), &value) == (at < count ? HED_OK : HED_NONE)
           && (at >= count || value == at));
    hed_keymap_lookup(map, (const uint8_t *)bound[at], strlen(bound[at]), false, &match);
    EXPECT((match.len == strlen(bound[at])) == (at < mapped) && (at >= mapped || match.value == at));
  }
  while (hed_bindings_entry(bindings, listed, keys, HED_CHORD_MOST, &len, &value) == HED_OK && value < count) listed++;
  EXPECT(listed == count);
  EXPECT(hed_bindings_continuations(bindings, NULL, 0, &first, &end) == (count ? HED_OK : HED_NONE) && end == count);
  EXPECT(refused == before);
  to_refusal = saved;
}

/* Binds a chord, by its name or by its presses, and puts its name into the map. */
static hed_status bind(hed_bindings *bindings, size_t at, uint64_t value) {
  hed_key_press keys[HED_CHORD_MOST];
  size_t wrong = 77;
  if (at % 2) return hed_bindings_bind(bindings, keys, read_bound(at, keys), value);
  hed_status status = hed_bindings_bind_name(bindings, (const uint8_t *)bound[at], strlen(bound[at]), value, &wrong);
  EXPECT(wrong == 0);
  return status;
}

static hed_status put(hed_keymap *map, size_t at, uint64_t value) {
  return hed_keymap_insert(map, (const uint8_t *)bound[at], strlen(bound[at]), value);
}

/* Makes bindings and a map of all the chords, again if a call is refused, with one request refused. Returns whether one was. */
static bool refuse_while_binding(long number) {
  hed_bindings bindings = HED_BINDINGS_NONE;
  hed_keymap map = HED_KEYMAP_NONE;
  hed_key_press keys[HED_CHORD_MOST];
  uint64_t value;
  met = 0;
  refuse(number);
  for (; hed_bindings_init(&bindings) == HED_NO_MEMORY; met++) EXPECT(!bindings.live);
  for (; hed_keymap_init(&map) == HED_NO_MEMORY; met++) EXPECT(!map.live);
  for (size_t at = 0; at < BOUND; at++) {
    for (; bind(&bindings, at, at) == HED_NO_MEMORY; met++) expect_bound(&bindings, &map, at, at);
    for (; put(&map, at, at) == HED_NO_MEMORY; met++) expect_bound(&bindings, &map, at + 1, at);
  }
  EXPECT(met == refused);
  expect_bound(&bindings, &map, BOUND, BOUND);
  for (refuse(1); hed_bindings_len(&bindings) > 0;) {
    size_t last = hed_bindings_len(&bindings) - 1;
    EXPECT(hed_bindings_unbind(&bindings, keys, read_bound(last, keys), &value) == HED_OK && value == last && refused == 0);
  }
  refuse(0);
  hed_bindings_free(&bindings);
  hed_keymap_free(&map);
  return met > 0;
}

/* Another value, and another init, with each request refused in turn: until one is granted, all is unchanged. */
static void refuse_while_binding_again(void) {
  enum { REPLACED = 7 };
  hed_bindings bindings = HED_BINDINGS_NONE;
  hed_keymap map = HED_KEYMAP_NONE;
  EXPECT(hed_bindings_init(&bindings) == HED_OK && hed_keymap_init(&map) == HED_OK);
  for (size_t at = 0; at < BOUND; at++) EXPECT(bind(&bindings, at, at) == HED_OK && put(&map, at, at) == HED_OK);
  for (int call = 0; call < 4; call++) {
    long number = 1;
    for (;; number++) {
      refuse(number);
      if ((call == 0   ? bind(&bindings, REPLACED, 99)
           : call == 1 ? put(&map, REPLACED, 99)
           : call == 2 ? hed_bindings_init(&bindings)
                       : hed_keymap_init(&map))
          == HED_OK)
        break;
      expect_bound(&bindings, &map, call < 3 ? BOUND : 0, BOUND);
    }
    EXPECT(number > 1 && !refused);
    refuse(0);
    if (call < 2) EXPECT(bind(&bindings, REPLACED, REPLACED) == HED_OK && put(&map, REPLACED, REPLACED) == HED_OK);
  }
  expect_bound(&bindings, &map, 0, 0);
  hed_bindings_free(&bindings);
  hed_keymap_free(&map);
}

static void refuse_bindings(void) {
  size_t before = in_use;
  long number = 1;
  while (refuse_while_binding(number)) number++;
  EXPECT(number > 5);
  refuse_while_binding_again();
  EXPECT(in_use == before);
  printf("bindings and key map: %ld refusals\n", number - 1);
}

/* Every STEPth request of init refused, and each of an init that shares a table: what was there stays. */
static void refuse_init(long step, const hed_parser *other) {
  hed_parser parser = HED_PARSER_NONE, none = HED_PARSER_NONE;
  long number = 1;
  make(&parser, HED_DIALECT_EXTENDED);
  READS(&parser, START "last" END "\033[", "paste \"last\"");
  for (;; number += step) {
    refuse(number);
    hed_status status =
        other ? hed_parser_init_sharing(&parser, HED_DIALECT_TERMWIZ, other) : hed_parser_init(&parser, HED_DIALECT_TERMWIZ);
    if (status == HED_OK) break;
    EXPECT(status == HED_NO_MEMORY && refused == 1 && hed_parser_waiting_len(&parser) == 2 && hed_parser_text(&parser, NULL, 0) == 4);
    refuse(number);
    EXPECT((other ? hed_parser_init_sharing(&none, HED_DIALECT_TERMWIZ, other) : hed_parser_init(&none, HED_DIALECT_TERMWIZ))
           == HED_NO_MEMORY);
    EXPECT(!none.live);
  }
  refuse(0);
  EXPECT(number > 1 && hed_parser_waiting_len(&parser) == 0 && hed_parser_text(&parser, NULL, 0) == 0);
  READS(&parser, "\033]", "key U+005D ALT");
  hed_parser_free(&parser);
  printf("init%s: %ld refusals\n", other ? " that shares a table" : "", (number - 1) / step);
}

/* What brings no bytes needs no memory, and neither does what is asked, forgotten or dropped. Bytes that are refused take no time. */
static void need_no_memory(void) {
  static const uint8_t many[100000];
  static const char text[] = START "last" END "\033[A\033[24;80R\033[I\033[97;5:3uq\033[?5u\033[<128;1;1M\033\033[A" START "ab";
  static const hed_policy policy = { .paste = 5 };
  hed_parser parser = HED_PARSER_NONE;
  hed_reading reading = { .x10_mouse = true };
  hed_event event;
  hed_key_press press;
  size_t count;
  make(&parser, HED_DIALECT_EXTENDED);
  READS(&parser, "\033", "nothing");
  for (int again = 0; again < 2; again++) {
    refuse(1);
    EXPECT(hed_parser_feed(&parser, 30, many, sizeof many) == HED_NO_MEMORY && refused == 1 && hed_parser_timeout(&parser, 20) == 30);
  }
  refuse(0);
  EXPECT(hed_parser_reset(&parser) == 1);
  feed(&parser, text, sizeof text - 1);
  EXPECT(hed_parser_next(&parser, &event) == HED_OK);
  refuse(1);
  EXPECT(hed_parser_set_policy(&parser, &policy) == HED_OK && hed_parser_set_reading(&parser, &reading) == HED_OK);
  hed_parser_set_parts(&parser, 2);
  hed_parser_expect_position(&parser);
  while (hed_parser_next(&parser, &event) == HED_OK) {
    tell_event(&event, NULL);
    hed_parser_press(&parser, &event, &press);
    hed_parser_second(&parser, &event, &press);
  }
  is_told(
      "key UpArrow NONE, position 24 80, focus gained, key U+0061 CTRL release, key U+0071 NONE, flags 5, mouse 1 1 NONE NONE press 8, key "
      "UpArrow ALT");
  hed_parser_forget_positions(&parser);
  EXPECT(hed_parser_feed(&parser, 0, NULL, 0) == HED_OK && hed_parser_next(&parser, &event) == HED_NONE);
  EXPECT(hed_parser_timeout(&parser, 4) == 1 && hed_parser_skip_paste(&parser, &count) == HED_OK && count == 2);
  EXPECT(hed_parser_interrupted(&parser, 4) == HED_OK && hed_parser_waiting_len(&parser) == 6);
  hed_parser_drop_text(&parser);
  EXPECT(hed_parser_reset(&parser) == 6 && !refused);
  refuse(0);
  hed_parser_free(&parser);
}

/* Parsers that share a table have little memory of their own, and the last of them frees it. */
static void shares_memory(void) {
  enum { COUNT = 10000 };
  static hed_parser parsers[COUNT];
  size_t before = in_use, most = 0;
  EXPECT(hed_parser_init(&parsers[0], HED_DIALECT_EXTENDED) == HED_OK);
  size_t alone = in_use - before;
  for (size_t i = 1; i < COUNT; i++) {
    size_t without = in_use;
    EXPECT(hed_parser_init_sharing(&parsers[i], i % 2, &parsers[i / 2]) == HED_OK);
    if (in_use - without > most) most = in_use - without;
  }
  EXPECT(most <= 256);
  printf("memory: %zu bytes for a parser, at most %zu for each of %d others that share its table\n", alone, most, COUNT - 1);
  for (size_t i = 0; i < COUNT - 1; i++) hed_parser_free(&parsers[i]);
  EXPECT(in_use - before <= alone && in_use - before > alone / 2);
  READS(&parsers[COUNT - 1], "\033[A", "key UpArrow NONE");
  hed_parser_free(&parsers[COUNT - 1]);
  EXPECT(in_use == before);
}

enum { MEGABYTE = 1 << 20 };

/* Feeds a paste of so many bytes and takes it: the buffer keeps the memory for its body, and the parser its text. */
static void feed_long_paste(hed_parser *parser, uint8_t byte) {
  static uint8_t body[MEGABYTE];
  hed_event event;
  memset(body, byte, sizeof body);
  FEED(parser, START);
  EXPECT(hed_parser_feed(parser, 0, body, sizeof body) == HED_OK);
  FEED(parser, END);
  EXPECT(hed_parser_next(parser, &event) == HED_OK && event.kind == HED_KIND_PASTE && event.text_len >= MEGABYTE);
  EXPECT(hed_parser_next(parser, &event) == HED_NONE && hed_parser_waiting_len(parser) == 0);
}

/* A session that pasted a long text has little more memory than one that didn't, once it dropped the text and was shrunk. */
static void shrinks(void) {
  enum { ROOM = 10000 };
  static const uint8_t body[ROOM];
  hed_parser parser = HED_PARSER_NONE;
  size_t before = in_use;
  make(&parser, HED_DIALECT_EXTENDED);
  size_t empty = in_use;
  for (int again = 0; again < 2; again++) {
    feed_long_paste(&parser, 'x');
    EXPECT(in_use >= empty + 2 * MEGABYTE);
    hed_parser_drop_text(&parser);
    EXPECT(in_use >= empty + MEGABYTE && in_use < empty + 3 * MEGABYTE);
    hed_parser_shrink_to(&parser, 0);
    EXPECT(in_use < empty + 4096);
  }
  /* The text is kept if it isn't dropped, and then has no more memory than it needs. */
  feed_long_paste(&parser, 0xff);
  hed_parser_shrink_to(&parser, 0);
  EXPECT(hed_parser_text(&parser, NULL, 0) == 3 * MEGABYTE && in_use < empty + 3 * MEGABYTE + 4096);
  hed_parser_drop_text(&parser);
  /* The room that a shrunk parser keeps needs no request. If the smaller memory is refused, it keeps the larger. */
  feed_long_paste(&parser, 'x');
  hed_parser_drop_text(&parser);
  hed_parser_shrink_to(&parser, ROOM);
  size_t small = in_use;
  EXPECT(small >= empty + ROOM && small < empty + ROOM + 4096);
  refuse(1);
  EXPECT(hed_parser_feed(&parser, 0, body, sizeof body) == HED_OK && hed_parser_reset(&parser) == ROOM && !refused);
  FEED(&parser, "\033[1;");
  hed_parser_shrink_to(&parser, 0);
  EXPECT(refused == 1 && in_use == small && hed_parser_waiting_len(&parser) == 4);
  refuse(0);
  hed_parser_shrink_to(&parser, 0);
  EXPECT(in_use < empty + 4096 && hed_parser_waiting_len(&parser) == 4);
  hed_parser_free(&parser);
  hed_parser_free(&parser);
  EXPECT(in_use == before);
}

int main(int argc, char **argv) {
  long step = argc > 1 ? atol(argv[1]) : 1;
  if (step < 1) return 2;
  EXPECT(hed_parser_init(&base, HED_DIALECT_EXTENDED) == HED_OK && in_use > 0);
  room = 3, text_room = 20;
  for (size_t i = 0; i < sizeof ways / sizeof *ways; i++)
    for (size_t piece = 1; piece < 2 * sizeof stream; piece = piece * 3 + 1) TEST(refuse_while_reading(&ways[i], piece));
  TEST(refuse_string_parts());
  for (int call = 0; call < CALLS; call++) TEST(refuse_while_writing(call));
  TEST(refuse_replies());
  TEST(refuse_bindings());
  TEST(refuse_init(step, NULL));
  TEST(refuse_init(1, &base));
  TEST(need_no_memory());
  TEST(shares_memory());
  TEST(shrinks());
  hed_parser_free(&base);
  EXPECT(in_use == 0);
  return expected("test_refusals");
}
