/* A test of the calls that write bytes, the other way from a parser, and of those that read and write replies, beside tests/cases. It has
 * events that no bytes make, numbers that name nothing, and all keys, which are read back. */
#include "told.h"

/* Bytes that a call writes, of which there may be fewer than it has. What lies behind them is marked. */
static uint8_t out[320];
static size_t sent_len;

static void mark(void) {
  memset(out, 0x55, sizeof out);
  sent_len = 77;
}

/* Whether the call wrote as many of these bytes as there was room for, and told how many they are. */
static bool is_sent(const char *wanted, size_t len, size_t room) {
  size_t written = len < room ? len : room;
  return sent_len == len && memcmp(out, wanted, written) == 0 && is_marked(out + written, sizeof out - written);
}

/* A key with its detail and termwiz's modifiers, and the modes of the terminal: fields that aren't read, and what names nothing. */
static const struct {
  uint16_t key;
  uint32_t detail;
  uint16_t modifiers;
  hed_modes modes;
  hed_status status;
  const char *bytes;
} encodings[] = {
  { HED_KEY_UP_ARROW, 7, 0, { .encoding = HED_ENCODING_CSI_U, .kitty_flags = 32 }, HED_OK, "\033[A" },
  { HED_KEY_ENTER, 0xffffffff, 0, { 0 }, HED_OK, "\r" },
  { HED_KEY_CHAR, 'c', HED_TERMWIZ_MOD_CTRL, { .modify_other_keys = 2 }, HED_OK, "\003" },
  { HED_KEY_CHAR, 'i', HED_TERMWIZ_MOD_CTRL, { .encoding = HED_ENCODING_CSI_U, .kitty_flags = 255 }, HED_OK, "\033[105;5u" },
  { 0, 0, 0, { 0 }, HED_BAD_NUMBER, "" },
  { LAST_KEY + 1, 0, 0, { 0 }, HED_BAD_NUMBER, "" },
  { HED_KEY_CHAR, 0xd800, 0, { 0 }, HED_BAD_NUMBER, "" },
  { HED_KEY_CHAR, 0x110000, 0, { 0 }, HED_BAD_NUMBER, "" },
  { HED_KEY_FUNCTION, 256, 0, { 0 }, HED_BAD_NUMBER, "" },
  { HED_KEY_TAB, 0, 1, { 0 }, HED_BAD_NUMBER, "" },
  { HED_KEY_TAB, 0, 1 << 12, { 0 }, HED_BAD_NUMBER, "" },
  { HED_KEY_TAB, 0, 0, { .encoding = 4 }, HED_BAD_NUMBER, "" },
  { HED_KEY_TAB, 0, 0, { .encoding = HED_ENCODING_KITTY, .kitty_flags = 32 }, HED_BAD_NUMBER, "" },
};

/* A key that is up sends nothing, unless its numbers are wrong. */
static void encodes(void) {
  for (size_t i = 0; i < 2 * sizeof encodings / sizeof *encodings; i++) {
    uint16_t key = encodings[i / 2].key, modifiers = encodings[i / 2].modifiers;
    const char *bytes = i % 2 ? encodings[i / 2].bytes : "";
    mark();
    EXPECT(hed_encode(key, encodings[i / 2].detail, modifiers, i % 2, &encodings[i / 2].modes, out, sizeof out, &sent_len)
           == encodings[i / 2].status);
    EXPECT(is_sent(bytes, strlen(bytes), sizeof out));
  }
}

enum { ALL_FLAGS = 31 };

#define LETTER(held) PRESS(held, HED_KEY_CHAR, 'a')
#define WHOLE_LETTER CHAR(SHIFT, 'a', 'A', 'b')

/* Keys that have nothing, and those that name nothing, under all sets of flags. */
static const hed_event refused_keys[] = { PRESS(0, HED_KEY_COPY, 0), PRESS(0, HED_KEY_APPLICATION_LEFT_ARROW, 0),
                                          PRESS(0, HED_KEY_FUNCTION, 36), PRESS(0, 0, 57343), PRESS(0, 0, 63744) };
static const hed_event bad_keys[] = { KEY(0, 0, HED_KEY_CHAR, 'a'),        KEY(4, 0, HED_KEY_CHAR, 'a'),
                                      PRESS(0, LAST_KEY + 1, 0),           PRESS(0, 0xffff, 0),
                                      PRESS(0, HED_KEY_CHAR, 0xd800),      PRESS(0, HED_KEY_CHAR, 0x110000),
                                      PRESS(0, HED_KEY_FUNCTION, 256),     CHAR(0, 'a', 0xd800, HED_NO_CODE),
                                      CHAR(0, 'a', HED_NO_CODE, 0x110000), CHAR(0, 'a', HED_NO_CODE, 0xfffffffe) };

static void refuses_key(hed_event event, uint8_t flags, hed_status status) {
  const char *text = status == HED_REFUSED_KEY ? "" : "\377";
  mark();
  EXPECT(hed_encode_kitty(&event, (const uint8_t *)text, strlen(text), flags, out, sizeof out, &sent_len) == status);
  EXPECT(is_sent("", 0, 0));
}

static void refuses_keys(uint8_t flags) {
  for (size_t i = 0; i < sizeof refused_keys / sizeof *refused_keys; i++) refuses_key(refused_keys[i], flags, HED_REFUSED_KEY);
  for (size_t i = 0; i < sizeof bad_keys / sizeof *bad_keys; i++) refuses_key(bad_keys[i], flags, HED_BAD_NUMBER);
  for (uint8_t kind = 0; kind < 18; kind++)
    if (kind != HED_KIND_KEY) refuses_key((hed_event){ .kind = kind }, flags, HED_BAD_NUMBER);
}

/* What is sent under all flags is read as the event. Returns whether the key has bytes. */
static bool reads_back(hed_parser *parser, hed_event wanted, const char *text) {
  hed_event event;
  uint8_t brought[16];
  hed_status status = hed_encode_kitty(&wanted, (const uint8_t *)text, strlen(text), ALL_FLAGS, out, sizeof out, &sent_len);
  if (status == HED_REFUSED_KEY) return false;
  wanted.text_len = strlen(text);
  EXPECT(status == HED_OK && sent_len > 0 && hed_parser_feed(parser, 0, out, sent_len) == HED_OK);
  EXPECT(hed_parser_next(parser, &event) == HED_OK && same_event(&event, &wanted));
  EXPECT(hed_parser_text(parser, brought, sizeof brought) == wanted.text_len && memcmp(brought, text, wanted.text_len) == 0);
  EXPECT(hed_parser_next(parser, &event) == HED_NONE && hed_parser_waiting_len(parser) == 0);
  return true;
}

/* A key with each set of modifiers, pressed, held down and released. */
static bool reads_key_back(hed_parser *parser, uint16_t key, uint32_t detail) {
  bool is_read = true;
  for (unsigned held = 0; held < 256; held++)
    for (uint8_t kind = HED_KEY_EVENT_KIND_PRESS; kind <= RELEASE; kind++)
      is_read &= reads_back(parser, (hed_event)KEY(kind, (uint8_t)held, key, detail), "");
  return is_read;
}

static void reads_keys_back(hed_parser *parser) {
  unsigned count = 0;
  for (uint16_t key = 1; key <= LAST_KEY; key++)
    count += reads_key_back(parser, key, key == HED_KEY_CHAR ? 'a' : key == HED_KEY_FUNCTION ? 1 : 0);
  EXPECT(count == 58);
  for (uint32_t number = 2; number <= 35; number++) EXPECT(reads_key_back(parser, HED_KEY_FUNCTION, number));
  EXPECT(reads_key_back(parser, 0, 57344) && reads_key_back(parser, 0, 57414) && reads_key_back(parser, 0, 63743));
  EXPECT(reads_back(parser, (hed_event)WHOLE_LETTER, "A"));
  EXPECT(reads_back(parser, (hed_event)WHOLE_LETTER, "\303\251\364\217\277\277"));
  EXPECT(reads_back(parser, (hed_event)KEY_AND_CODES(REPEAT, CTRL, HED_KEY_CHAR, 0x10ffff, HED_NO_CODE, 0xe9), ""));
}

/* Modes in which the names of keys are sent, and how many names are told as their own press, as another one that sends the same bytes, as one that
 * sends others (Super, modifyOtherKeys with Shift, newline mode, the menu key that tells F16), and how many aren't sent. */
static const struct {
  hed_modes modes;
  unsigned own, twin, other, unsent;
} sent_in[] = {
  { { 0 }, 562, 1120, 4, 8584 },
  { { .application_cursor_keys = true, .newline_mode = true }, 562, 1100, 24, 8584 },
  { { .has_modify_other_keys = true, .modify_other_keys = 1 }, 664, 827, 195, 8584 },
  { { .has_modify_other_keys = true, .modify_other_keys = 2 }, 736, 721, 229, 8584 },
  { { .encoding = HED_ENCODING_CSI_U }, 679, 897, 110, 8584 },
  { { .encoding = HED_ENCODING_KITTY }, 8610, 188, 64, 1408 },
  { { .encoding = HED_ENCODING_KITTY, .kitty_flags = 1 }, 8774, 88, 0, 1408 },
  { { .encoding = HED_ENCODING_KITTY, .kitty_flags = 5 }, 8774, 88, 0, 1408 },
  { { .encoding = HED_ENCODING_KITTY, .kitty_flags = 8 }, 8798, 64, 0, 1408 },
  { { .encoding = HED_ENCODING_KITTY, .kitty_flags = 29 }, 8799, 63, 0, 1408 },
  { { .encoding = HED_ENCODING_KITTY, .kitty_flags = ALL_FLAGS }, 8799, 63, 0, 1408 },
};
static unsigned own, twin, other, unsent;

/* The first press that a parser tells of the bytes, after which nothing more comes. */
static hed_key_press press_told(hed_parser *parser, const uint8_t *sent, size_t len) {
  hed_event event = { 0 };
  hed_key_press press = { 0 };
  EXPECT(hed_parser_feed(parser, 0, sent, len) == HED_OK);
  hed_parser_end(parser);
  EXPECT(hed_parser_next(parser, &event) == HED_OK && hed_parser_press(parser, &event, &press) == HED_OK);
  while (hed_parser_next(parser, &event) == HED_OK) continue;
  return press;
}

/* The key's name, if the key has one, is sent and told, or refused where it starts: by itself and behind another one. */
static void sends_name(hed_parser *parser, hed_key_press press, const hed_modes *modes) {
  uint8_t name[72] = "x ", sent[64], again[64];
  size_t name_len, len, again_len, at = 77, place = 77;
  if (hed_press_print(&press, name + 2, sizeof name - 2, &name_len) != HED_OK) return;
  hed_status status = hed_send_names(name + 2, name_len, modes, sent, sizeof sent, &len, &at);
  EXPECT(hed_send_names(name, name_len + 2, modes, again, sizeof again, &again_len, &place) == status && at == 0);
  if (status == HED_REFUSED_KEY) {
    EXPECT(len == 0 && again_len == 0 && place == 2);
    unsent++;
    return;
  }
  EXPECT(status == HED_OK && len > 0 && place == 0 && again_len > len && memcmp(again + again_len - len, sent, len) == 0);
  hed_key_press told = press_told(parser, sent, len);
  EXPECT(hed_press_print(&told, name, sizeof name, &name_len) == HED_OK);
  EXPECT(hed_send_names(name, name_len, modes, again, sizeof again, &again_len, &at) == HED_OK);
  if (same_press(&told, &press)) own++;
  else if (again_len == len && memcmp(again, sent, len) == 0) twin++;
  else other++;
}

/* All keys with all sets of modifiers: of characters those of ASCII and a few others, of Kitty's table some without a name here. */
static void sends_names(hed_parser *parser, const hed_modes *modes) {
  static const uint32_t others[] = { 0x80, 0xc9, 0xe9, 0x3c2, 0x401, 0x441, 0x451, 0x20ac, 0xe000, 0x10ffff };
  own = twin = other = unsent = 0;
  for (uint8_t held = 0; held < 64; held++) {
    for (uint16_t key = 2; key <= LAST_KEY; key++)
      if (key != HED_KEY_FUNCTION) sends_name(parser, (hed_key_press){ key, held, 0 }, modes);
    for (uint32_t c = ' '; c < 0x7f; c++) sends_name(parser, (hed_key_press){ HED_KEY_CHAR, held, c }, modes);
    for (size_t i = 0; i < sizeof others / sizeof *others; i++) sends_name(parser, (hed_key_press){ HED_KEY_CHAR, held, others[i] }, modes);
    for (uint32_t number = 0; number < 40; number++) sends_name(parser, (hed_key_press){ HED_KEY_FUNCTION, held, number }, modes);
    for (uint32_t number = 57344; number < 57500; number += 7) sends_name(parser, (hed_key_press){ 0, held, number }, modes);
  }
}

static void sends_names_in(hed_parser *parser, size_t way) {
  sends_names(parser, &sent_in[way].modes);
  EXPECT(own == sent_in[way].own && twin == sent_in[way].twin && other == sent_in[way].other && unsent == sent_in[way].unsent);
}

/* A chord of the most keys, no text, and modes of which a number names nothing. */
static void sends_long_name_and_none(void) {
  static const hed_modes modes = { .encoding = HED_ENCODING_KITTY, .kitty_flags = ALL_FLAGS };
  static const hed_modes bad_modes[] = { { .encoding = 4 }, { .encoding = HED_ENCODING_KITTY, .kitty_flags = 32 } };
  static uint8_t name[HED_CHORD_MOST * 30], sent[HED_CHORD_MOST * 12];
  static const char key[] = "super+hyper+meta+ctrl+alt+f13 ";
  size_t at = 77;
  for (size_t i = 0; i < sizeof name; i++) name[i] = (uint8_t)key[i % 30];
  EXPECT(hed_send_names(name, sizeof name, &modes, sent, sizeof sent, &sent_len, &at) == HED_OK && at == 0);
  EXPECT(sent_len == HED_CHORD_MOST * 11 && memcmp(sent, "\033[57376;63u", 11) == 0);
  mark();
  EXPECT(hed_send_names(NULL, 0, &modes, out, sizeof out, &sent_len, &at) == HED_NAME_EMPTY && at == 0);
  EXPECT(is_sent("", 0, 0));
  for (size_t i = 0; i < 2; i++) {
    mark();
    EXPECT(hed_send_names(HED_TEXT("x foo+y"), &bad_modes[i], out, sizeof out, &sent_len, &at) == HED_BAD_NUMBER && at == 0);
    EXPECT(is_sent("", 0, 0));
  }
}

/* A mouse report, and what a program asked for, of which a number names nothing. */
static const struct {
  hed_sent_mouse report;
  uint32_t tracking, encoding;
} bad_reports[] = {
  { { 1, 1, 0, HED_MOUSE_BUTTON3_DRAG + 1 }, HED_MOUSE_TRACKING_X10, HED_MOUSE_ENCODING_SGR },
  { { 224, 1, 0, HED_MOUSE_NONE }, HED_MOUSE_TRACKING_ANY + 1, HED_MOUSE_ENCODING_DEFAULT },
  { { 224, 1, 0, HED_MOUSE_NONE }, HED_MOUSE_TRACKING_X10, HED_MOUSE_ENCODING_SGR + 1 },
  { { 1, 1, 0, HED_MOUSE_NONE }, 0xffffffff, 0xffffffff },
};

static void refuses_reports(void) {
  for (size_t i = 0; i < sizeof bad_reports / sizeof *bad_reports; i++) {
    mark();
    EXPECT(hed_encode_mouse(&bad_reports[i].report, bad_reports[i].tracking, bad_reports[i].encoding, out, sizeof out, &sent_len)
           == HED_BAD_NUMBER);
    EXPECT(is_sent("", 0, 0));
  }
}

#define MOUSE_OF(what, number, down, held) \
  { .kind = HED_KIND_MOUSE, .mouse_kind = what, .button = number, .buttons = down, .modifiers = held, .x = 1, .y = 1 }
#define OF_STRING(what, string) \
  { .kind = what, .string_kind = string }

/* Events that no bytes are read as, and events whose numbers name nothing. */
static const struct {
  hed_event event;
  const char *text;
  hed_status status;
} refused_events[] = {
  { PRESS(0, HED_KEY_COPY, 0), "", HED_NO_TEXT },
  { PRESS(0, 0, 57358), "", HED_NO_TEXT },
  { KEY(RELEASE, 0, HED_KEY_CHAR, 57344), "", HED_NO_TEXT },
  { MOUSE_OF(HED_MOUSE_KIND_PRESS, 0, 0, 0), "", HED_NO_TEXT },
  { MOUSE_OF(HED_MOUSE_KIND_PRESS, 12, 0, 0), "", HED_NO_TEXT },
  { MOUSE_OF(HED_MOUSE_KIND_PRESS, 1, HED_BUTTON_RIGHT, 0), "", HED_NO_TEXT },
  { MOUSE_OF(HED_MOUSE_KIND_PRESS, 1, HED_BUTTON_LEFT, SUPER), "", HED_NO_TEXT },
  { { .kind = HED_KIND_CURSOR_POSITION, .column = 5 }, "", HED_NO_TEXT },
  { OF_STRING(HED_KIND_STRING_PART, HED_KIND_OSC), "11;a", HED_NO_TEXT },
  { OF_STRING(HED_KIND_PASTE, 0), "a" END, HED_NO_TEXT },
  { OF_STRING(HED_KIND_CSI, 0), "I", HED_NO_TEXT },
  { OF_STRING(HED_KIND_OSC, 0), "ab", HED_NO_TEXT },
  { OF_STRING(HED_KIND_PASTE, 0), "\377", HED_BAD_TEXT },
  { LETTER(0), "\377", HED_BAD_TEXT },
  { PRESS(0, LAST_KEY + 1, 0), "a", HED_BAD_NUMBER },
  { KEY(4, 0, HED_KEY_CHAR, 'a'), "a", HED_BAD_NUMBER },
  { MOUSE_OF(6, 1, HED_BUTTON_LEFT, 0), "a", HED_BAD_NUMBER },
  { MOUSE_OF(HED_MOUSE_KIND_PRESS, 1, HED_BUTTON_LEFT, HYPER), "a", HED_BAD_NUMBER },
  { OF_STRING(HED_KIND_STRING_CUT, HED_KIND_CSI), "a", HED_BAD_NUMBER },
  { OF_STRING(HED_KIND_OTHER, 0), "a", HED_BAD_NUMBER },
  { OF_STRING(4, 0), "a", HED_BAD_NUMBER },
  { OF_STRING(HED_KIND_PASTE_PART, 0), "a", HED_BAD_NUMBER },
  { OF_STRING(17, 0), "a", HED_BAD_NUMBER },
  { OF_STRING(255, 0), "a", HED_BAD_NUMBER },
};

static void refuses_event(const hed_parser *parser, const hed_event *event, const char *text, size_t len, hed_status status) {
  mark();
  EXPECT(hed_encode_event(event, (const uint8_t *)text, len, parser, out, sizeof out, &sent_len) == status && is_sent("", 0, 0));
}

static void refuses_events(const hed_parser *parser) {
  static const hed_event osc = { .kind = HED_KIND_OSC }, csi = { .kind = HED_KIND_CSI };
  static char long_text[65536];
  for (size_t i = 0; i < sizeof refused_events / sizeof *refused_events; i++)
    refuses_event(parser, &refused_events[i].event, refused_events[i].text, strlen(refused_events[i].text), refused_events[i].status);
  memset(long_text, 'a', sizeof long_text);
  memcpy(long_text, "52;", 3);
  refuses_event(parser, &osc, long_text, sizeof long_text, HED_TOO_LONG);
  refuses_event(parser, &csi, long_text, 300, HED_TOO_LONG);
}

/* Events that no bytes are read as by these readings, whatever is buffered, which stays. */
static void refuses_by_the_reading(hed_parser *parser) {
  static const struct {
    hed_event event;
    hed_reading reading;
  } rows[] = {
    { PRESS(0, HED_KEY_CHAR, 127), { 0 } },
    { PRESS(SUPER, HED_KEY_UP_ARROW, 0), { .dialect = HED_DIALECT_TERMWIZ } },
    { PRESS(0, HED_KEY_CHAR, 10), { .newline = HED_NEWLINE_ENTER } },
  };
  READS(parser, "\033[1;", "nothing");
  for (size_t i = 0; i < sizeof rows / sizeof *rows; i++) {
    EXPECT(hed_parser_set_reading(parser, &rows[i].reading) == HED_OK);
    refuses_event(parser, &rows[i].event, NULL, 0, HED_NO_TEXT);
    EXPECT(hed_parser_waiting_len(parser) == 4);
  }
  hed_parser_reset(parser);
}

static void is_written(hed_status status, const char *wanted) {
  EXPECT(status == HED_OK && is_sent(wanted, strlen(wanted), sizeof out));
  mark();
}

/* What a terminal replies. */
static void writes_replies(void) {
  static const uint16_t numbers[64] = { 62, 22 };
  uint16_t many[256];
  mark();
  is_written(hed_encode_cursor_position(1, 5, true, out, sizeof out, &sent_len), "\033[?1;5R");
  is_written(hed_encode_cursor_position(65535, 0, false, out, sizeof out, &sent_len), "\033[65535;0R");
  is_written(hed_encode_colour_scheme(true, out, sizeof out, &sent_len), "\033[?997;1n");
  is_written(hed_encode_colour_scheme(false, out, sizeof out, &sent_len), "\033[?997;2n");
  is_written(hed_encode_device_attributes(numbers, 2, out, sizeof out, &sent_len), "\033[?62;22c");
  is_written(hed_encode_device_attributes(NULL, 0, out, sizeof out, &sent_len), "\033[?c");
  EXPECT(hed_encode_device_attributes(numbers, 64, NULL, 0, &sent_len) == HED_OK && sent_len == 3 + 5 + 62 * 2 + 1);
  EXPECT(hed_encode_cursor_position(24, 80, false, out, 3, &sent_len) == HED_OK && is_sent("\033[24;80R", 8, 3));
  mark();
  memset(many, 0xff, sizeof many);
  EXPECT(hed_encode_device_attributes(many, 256, out, sizeof out, &sent_len) == HED_TOO_LONG && is_sent("", 0, 0));
}

/* Right bytes of a reply, of an event that is none. */
static const struct {
  uint8_t kind;
  const char *text;
} no_replies[] = {
  { HED_KIND_CSI, "" },
  { HED_KIND_CSI, "11;rgb:0/0/0" },
  { HED_KIND_OSC, "" },
  { HED_KIND_OSC, "?62;4;22c" },
  { HED_KIND_APC, "11;rgb:0/0/0" },
  { HED_KIND_STRING_PART, "11;rgb:0/0/0" },
  { HED_KIND_STRING_CUT, "11;rgb:0/0/0" },
  { HED_KIND_OTHER, "?62;4;22c" },
};

static void reads_no_replies(void) {
  hed_reply reply;
  for (size_t i = 0; i < sizeof no_replies / sizeof *no_replies; i++) {
    const char *text = no_replies[i].text;
    uint32_t number = 77;
    memset(&reply, 0x55, sizeof reply);
    mark();
    EXPECT(hed_read_reply(no_replies[i].kind, (const uint8_t *)text, strlen(text), &reply, &number, 1, out, 1) == HED_NONE);
    EXPECT(number == 77 && is_marked(out, 1) && is_marked(&reply, offsetof(hed_reply, len)));
  }
  EXPECT(hed_read_reply(HED_KIND_CSI, NULL, 0, &reply, NULL, 0, NULL, 0) == HED_NONE);
  EXPECT(hed_read_reply(HED_KIND_CSI, HED_TEXT("?6c"), &reply, NULL, 0, NULL, 0) == HED_OK && reply.len == 1);
}

/* A paste of 2 MB, to a program and as an event, a key that types as much, and the clipboard of the longest string: zeros, which are so many
 * letters A. */
static void writes_and_reads_long_texts(const hed_parser *parser) {
  enum { LONG = 2 << 20, STRING = 65533 };
  static uint8_t body[LONG], sent[LONG + 12];
  const hed_event paste = { .kind = HED_KIND_PASTE, .text_len = LONG }, letter = LETTER(0);
  hed_reply reply;
  memset(body, 'A', sizeof body);
  for (int is_event = 0; is_event < 2; is_event++) {
    memset(sent, 0, sizeof sent);
    EXPECT((is_event ? hed_encode_event(&paste, body, LONG, parser, sent, sizeof sent, &sent_len)
                     : hed_encode_paste(body, LONG, true, sent, sizeof sent, &sent_len))
           == HED_OK);
    EXPECT(sent_len == sizeof sent && memcmp(sent, START, 6) == 0 && memcmp(sent + 6, body, LONG) == 0
           && memcmp(sent + 6 + LONG, END, 6) == 0);
  }
  memset(sent, 0, sizeof sent);
  EXPECT(hed_encode_kitty(&letter, body, LONG, 0, sent, sizeof sent, &sent_len) == HED_OK && sent_len == LONG
         && memcmp(sent, body, LONG) == 0);
  memcpy(body, "52;c;", 5);
  memset(sent, 0x55, sizeof sent);
  EXPECT(hed_read_reply(HED_KIND_OSC, body, STRING, &reply, NULL, 0, sent, sizeof sent) == HED_OK && reply.kind == HED_REPLY_CLIPBOARD);
  EXPECT(reply.len == (STRING - 5) / 4 * 3 && sent[0] == 0 && memcmp(sent, sent + 1, reply.len - 1) == 0);
  EXPECT(is_marked(sent + reply.len, 9));
}

int main(void) {
  hed_parser parser = HED_PARSER_NONE;
  make(&parser, HED_DIALECT_EXTENDED);
  TEST(encodes());
  for (uint8_t flags = 0; flags <= ALL_FLAGS; flags++) TEST(refuses_keys(flags));
  for (unsigned flags = ALL_FLAGS + 1; flags < 256; flags += 17) TEST(refuses_key((hed_event)LETTER(0), (uint8_t)flags, HED_BAD_NUMBER));
  TEST(reads_keys_back(&parser));
  for (size_t way = 0; way < sizeof sent_in / sizeof *sent_in; way++) TEST(sends_names_in(&parser, way));
  TEST(sends_long_name_and_none());
  TEST(refuses_reports());
  TEST(refuses_events(&parser));
  TEST(refuses_by_the_reading(&parser));
  TEST(writes_replies());
  TEST(reads_no_replies());
  TEST(writes_and_reads_long_texts(&parser));
  hed_parser_free(&parser);
  hed_parser_free(&base);
  return expected("test_encode");
}
