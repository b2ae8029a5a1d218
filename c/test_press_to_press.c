/* Press to press: things that look random come through a pipe, in random cuts and with pauses in which nothing is due. What is told is what was
 * pressed, typed, pasted, clicked and replied, in this order. Flags and modes change between any two. The keys are those that are sent as
 * themselves in all of them. */
#define _POSIX_C_SOURCE 200809L
#include "told.h"
#include <unistd.h>

/* A linear congruential generator: a number below the limit, the same in each run. */
static uint64_t drawn;

static unsigned below(unsigned limit) {
  drawn = drawn * 6364136223846793005 + 1442695040888963407;
  return (unsigned)(drawn >> 33) % limit;
}

/* What is sent, how many bytes a call wrote behind it, and how many questions for the cursor's position are open. */
static uint8_t sent[1 << 14];
static size_t sent_len, written;
static unsigned asked;

#define OUT sent + sent_len, sizeof sent - sent_len, &written

static void is_sent(hed_status status) {
  EXPECT(status == HED_OK && written <= sizeof sent - sent_len);
  sent_len += written;
}

/* What is told of an event: the name of a press, a text, what a reply says, or all of another event. */
static void tell_press(const hed_key_press *press) {
  uint8_t name[64] = "";
  size_t name_len;
  EXPECT(hed_press_print(press, name, sizeof name - 1, &name_len) == HED_OK);
  tell(", %s", (char *)name);
}

static void tell_typed(const char *text, size_t len) {
  tell(", text ");
  tell_text((const uint8_t *)text, len);
}

static void tell_reply(unsigned scheme, const uint32_t *numbers, size_t count) {
  tell(", reply %u", scheme);
  for (size_t i = 0; i < count; i++) tell(" %u", (unsigned)numbers[i]);
}

static void tell_all(hed_parser *parser) {
  static uint8_t text[BROUGHT_MOST];
  uint32_t numbers[8];
  hed_event event;
  hed_key_press press;
  hed_reply reply;
  while (hed_parser_next(parser, &event) == HED_OK) {
    size_t text_len = hed_parser_text(parser, text, sizeof text);
    if (hed_event_press(&event, text, text_len, &press) == HED_OK) tell_press(&press);
    else if (event.kind == HED_KIND_KEY && event.key_event_kind != RELEASE && text_len > 0) tell_typed((char *)text, text_len);
    else if (hed_read_reply(event.kind, text, text_len, &reply, numbers, 8, NULL, 0) == HED_OK)
      tell_reply(reply.scheme, numbers, reply.len);
    else if (event.kind != HED_KIND_KEY) tell_event(&event, text);
  }
}

/* Keys by their first and last number, and the modifiers that may be held. */
static const struct {
  uint16_t key;
  uint32_t first, last;
  uint8_t held;
} keys[] = {
  { HED_KEY_CHAR, 'a', 'z', SHIFT | ALT },
  { HED_KEY_CHAR, 'n', 'z', CTRL | ALT },
  { HED_KEY_CHAR, '[', '_', ALT },
  { HED_KEY_CHAR, 0x430, 0x44f, ALT },
  { HED_KEY_FUNCTION, 1, 12, SHIFT | ALT | CTRL },
  { HED_KEY_UP_ARROW, 0, 0, SHIFT | ALT | CTRL },
  { HED_KEY_HOME, 0, 0, SHIFT | ALT | CTRL },
  { HED_KEY_DELETE, 0, 0, SHIFT | ALT | CTRL },
  { HED_KEY_TAB, 0, 0, SHIFT | ALT },
  { HED_KEY_ESCAPE, 0, 0, ALT },
  { HED_KEY_BACKSPACE, 0, 0, ALT },
  { HED_KEY_ENTER, 0, 0, ALT },
};

static void send_key(bool by_kitty) {
  size_t row = below(sizeof keys / sizeof *keys);
  uint16_t key = keys[row].key;
  uint32_t number = keys[row].first + below(keys[row].last - keys[row].first + 1);
  uint8_t held = below(8) & keys[row].held;
  hed_modes modes = { (int64_t)below(5) - 1, (uint8_t)below(2), 0, below(2), below(2), below(2) };
  hed_key_press press;
  if (asked > 0 && key == HED_KEY_FUNCTION && number == 3) held = 0;
  hed_event event = KEY(by_kitty ? 1 + below(3) : 1, held, key, number);
  if (by_kitty) is_sent(hed_encode_kitty(&event, NULL, 0, (uint8_t)below(32), OUT));
  else is_sent(hed_encode(key, number, (uint16_t)(held << 1), true, &modes, OUT));
  if (hed_event_press(&event, NULL, 0, &press) == HED_OK) tell_press(&press);
  if (!by_kitty && key == HED_KEY_ENTER && modes.newline_mode) tell(", ctrl+j");
}

/* Several characters that a key types at once. */
static void send_text(void) {
  static const char *const texts[] = { "fi", "\xd0\xb4\xd0\xb0", "\xe6\x97\xa5\xe6\x9c\xac" };
  const char *text = texts[below(3)];
  hed_event event = PRESS(0, 0, 0);
  is_sent(hed_encode_kitty(&event, (const uint8_t *)text, strlen(text), 24 | (uint8_t)below(8), OUT));
  tell_typed(text, strlen(text));
}

static void send_paste(void) {
  static const char *const parts[] = {
    "a", "\r\n", "\n", "\033", END, START, "\033[20", "1~", "\033[1;5A", "\xc3\xa9", "\xe2\x82", "\x9b"
  };
  uint8_t safe[512];
  char text[128] = "";
  size_t safe_len;
  for (unsigned left = below(12); left > 0; left--) strcat(text, parts[below(sizeof parts / sizeof *parts)]);
  EXPECT(hed_encode_paste((uint8_t *)text, strlen(text), false, safe, sizeof safe, &safe_len) == HED_OK && safe_len <= sizeof safe);
  tell_event(&(hed_event){ .kind = HED_KIND_PASTE, .text_len = (uint32_t)safe_len }, safe);
  is_sent(hed_encode_paste((uint8_t *)text, strlen(text), true, OUT));
}

/* A mouse report tells what it tells alone. */
static void send_mouse(hed_parser *alone) {
  hed_sent_mouse report = { (uint16_t)below(65536), (uint16_t)below(65536), (uint8_t)below(8), (uint8_t)below(LAST_MOUSE + 1) };
  is_sent(hed_encode_mouse(&report, HED_MOUSE_TRACKING_ANY, HED_MOUSE_ENCODING_SGR, OUT));
  EXPECT(hed_parser_feed(alone, 0, sent + sent_len - written, written) == HED_OK);
  tell_all(alone);
}

/* Without a question mark a position comes only while a question is open. */
static void send_position(void) {
  uint16_t row = below(2) ? 1 : (uint16_t)(1 + below(65535)), column = (uint16_t)(1 + below(300));
  is_sent(hed_encode_cursor_position(row, column, asked == 0 || below(2), OUT));
  tell_event(&(hed_event){ .kind = HED_KIND_CURSOR_POSITION, .row = row, .column = column }, NULL);
  asked -= asked > 0;
}

static void send_reply(void) {
  uint16_t numbers[8];
  uint32_t told_numbers[8];
  size_t count = 1 + below(8);
  bool dark = below(2);
  if (below(2)) {
    is_sent(hed_encode_colour_scheme(dark, OUT));
    tell_reply(dark ? HED_COLOUR_SCHEME_DARK : HED_COLOUR_SCHEME_LIGHT, NULL, 0);
    return;
  }
  for (size_t i = 0; i < count; i++) told_numbers[i] = numbers[i] = (uint16_t)below(65536);
  is_sent(hed_encode_device_attributes(numbers, count, OUT));
  tell_reply(0, told_numbers, count);
}

/* A key, or a thing that begins with ESC [ in any mode. */
static void send_one(hed_parser *alone, unsigned kind) {
  switch (kind) {
    case 0: send_paste(); break;
    case 1: send_mouse(alone); break;
    case 2: send_position(); break;
    case 3: send_reply(); break;
    case 4: send_text(); break;
    default: send_key(kind % 2);
  }
}

/* Whether the bytes are one of the seven keys that wait for more. */
static bool waits(const uint8_t *bytes, size_t len) {
  return len > 0 && len <= 2 && bytes[0] == '\033' && (len == 1 || strchr("\033[OP]_", bytes[1]));
}

/* Sends things after which nothing comes for a while. What waits may go on with a key, and doesn't with the others. */
static void send_many(hed_parser *alone) {
  unsigned kinds = 16;
  for (unsigned left = 1 + below(12); left > 0; left--) {
    size_t from = sent_len;
    send_one(alone, below(kinds));
    kinds = waits(sent + from, sent_len - from) ? 5 : 16;
  }
}

/* Writes what is sent to the pipe and reads it, in random cuts. The pauses between them are too short for a flush, and the last one isn't. */
static void read_all(hed_parser *parser, const int ends[2], uint64_t *now) {
  uint8_t piece[20];
  for (size_t at = 0, len; at < sent_len; at += len) {
    len = 1 + below(sizeof piece);
    if (len > sent_len - at) len = sent_len - at;
    EXPECT(write(ends[1], sent + at, len) == (ssize_t)len && read(ends[0], piece, sizeof piece) == (ssize_t)len);
    EXPECT(hed_parser_feed(parser, *now, piece, len) == HED_OK);
    tell_all(parser);
    hed_parser_idle(parser, *now += below(3));
    tell_all(parser);
  }
  hed_parser_idle(parser, *now += 100);
  tell_all(parser);
}

static void tells_what_was_sent(void) {
  static char wanted[sizeof told];
  hed_parser parser = HED_PARSER_NONE, alone = HED_PARSER_NONE;
  uint64_t now = 0;
  int ends[2];
  EXPECT(pipe(ends) == 0);
  make(&parser, HED_DIALECT_EXTENDED);
  make(&alone, HED_DIALECT_EXTENDED);
  for (unsigned seed = 0; seed < 2000 && faults == 0; seed++) {
    drawn = seed, sent_len = 0;
    if (below(4) == 0) hed_parser_expect_position(&parser), asked++;
    send_many(&alone);
    strcpy(wanted, *told ? told : "nothing");
    forget();
    read_all(&parser, ends, &now);
    is_told(wanted);
    if (faults > 0) fprintf(stderr, "the seed %u\n", seed);
  }
  hed_parser_free(&parser);
  hed_parser_free(&alone);
  hed_parser_free(&base);
}

int main(void) {
  TEST(tells_what_was_sent());
  return expected("test_press_to_press");
}
