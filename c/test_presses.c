/* A test of presses and of the names of keys and of chords, by their numbers. Further names and presses are in tests/cases. */
#include "told.h"
#include <ctype.h>

static const hed_key_press unwritten = { 0x5555, 0x55, 0x55555555 };

/* Events of keys with their texts, which no bytes are read as, and the names of their presses, or why there is none. */
static const struct {
  hed_event event;
  const char *text;
  hed_status status;
  const char *name;
} keys[] = {
  { PRESS(CTRL, HED_KEY_CHAR, '\t'), "", HED_OK, "ctrl+tab" },
  { PRESS(ALT, HED_KEY_CHAR, 0x7f), "", HED_OK, "ctrl+alt+backspace" },
  { PRESS(0, 0, 57343), "", HED_NONE, "" },
  { { .kind = HED_KIND_FOCUS_GAINED, .key = HED_KEY_CHAR, .detail = 'a' }, "", HED_NONE, "" },
  { KEY(0, 0, HED_KEY_CHAR, 'a'), "", HED_BAD_NUMBER, "" },
  { KEY(4, 0, HED_KEY_CHAR, 'a'), "", HED_BAD_NUMBER, "" },
  { PRESS(0, LAST_KEY + 1, 0), "", HED_BAD_NUMBER, "" },
  { PRESS(0, HED_KEY_CHAR, 0xd800), "", HED_BAD_NUMBER, "" },
  { PRESS(0, HED_KEY_FUNCTION, 256), "", HED_BAD_NUMBER, "" },
  { CHAR(CTRL, 0x441, 0xd800, 'c'), "", HED_BAD_NUMBER, "" },
  { PRESS(0, HED_KEY_CHAR, 'a'), "\377", HED_BAD_TEXT, "" },
};

static void tells_presses_of_events(void) {
  hed_key_press press;
  for (size_t i = 0; i < sizeof keys / sizeof *keys; i++) {
    uint8_t name[64] = "";
    size_t len;
    press = unwritten;
    EXPECT(hed_event_press(&keys[i].event, (const uint8_t *)keys[i].text, strlen(keys[i].text), &press) == keys[i].status);
    EXPECT(keys[i].status == HED_OK ? hed_press_print(&press, name, sizeof name, &len) == HED_OK : same_press(&press, &unwritten));
    EXPECT(strcmp((char *)name, keys[i].name) == 0);
    press = unwritten;
    if (keys[i].status == HED_OK) EXPECT(hed_event_second(&keys[i].event, &press) == HED_NONE && same_press(&press, &unwritten));
  }
  EXPECT(hed_event_press(&(hed_event)PRESS(0, HED_KEY_CHAR, 'a'), NULL, 0, &press) == HED_OK && press.detail == 'a' && press.held == 0);
  EXPECT(hed_event_second(&(hed_event)KEY(4, CTRL, HED_KEY_CHAR, 'a'), &press) == HED_BAD_NUMBER);
  EXPECT(hed_event_second(&(hed_event)KEY(RELEASE, CTRL, HED_KEY_CHAR, '\b'), &press) == HED_NONE);
}

/* Names of chords, how many presses each has, and the numbers of the last one. */
static const struct {
  const char *name;
  size_t count;
  hed_key_press last;
} named[] = {
  { "C-x C-s", 2, { HED_KEY_CHAR, CTRL, 's' } },
  { "<C-W>", 1, { HED_KEY_CHAR, CTRL, 'w' } },
  { "Ctrl-Shift-Up", 1, { HED_KEY_UP_ARROW, CTRL | SHIFT, 0 } },
  { "ctrl++", 1, { HED_KEY_CHAR, CTRL, '+' } },
  { "C-M-<f5>", 1, { HED_KEY_FUNCTION, CTRL | ALT, 5 } },
  { "M-<", 1, { HED_KEY_CHAR, ALT, '<' } },
  { "s-A", 1, { HED_KEY_CHAR, SUPER | SHIFT, 'a' } },
  { "shift+a", 1, { HED_KEY_CHAR, 0, 'A' } },
  { "shift+1", 1, { HED_KEY_CHAR, SHIFT, '1' } },
  { "C-S-1", 1, { HED_KEY_CHAR, CTRL | SHIFT, '1' } },
  { "alt+U+0441", 1, { HED_KEY_CHAR, ALT, 0x441 } },
  { "<U+0041> u+0041", 2, { HED_KEY_CHAR, 0, 'A' } },
  { "U+007F", 1, { HED_KEY_BACKSPACE, CTRL, 0 } },
  { "U+200b", 1, { HED_KEY_CHAR, 0, 0x200b } },
  { "ESC x", 2, { HED_KEY_CHAR, 0, 'x' } },
  { "\t kitty57428  \t", 1, { 0, 0, 57428 } },
};

static void reads_names(void) {
  hed_key_press chord[2];
  size_t count, at;
  for (size_t i = 0; i < sizeof named / sizeof *named; i++) {
    EXPECT(hed_key_read((const uint8_t *)named[i].name, strlen(named[i].name), chord, 2, &count, &at) == HED_OK);
    EXPECT(count == named[i].count && same_press(&chord[count - 1], &named[i].last));
  }
  EXPECT(hed_key_read(NULL, 0, NULL, 0, &count, &at) == HED_NAME_EMPTY && count == 0 && at == 0);
}

/* A chord has 1 to 32 presses. Numbers that no call writes are those of no press: they have no name, and no text. */
static void refuses_other_numbers(void) {
  static const hed_key_press none[] = {
    { HED_KEY_CHAR, SHIFT, 'a' },
    { HED_KEY_CHAR, CTRL, 'A' },
    { HED_KEY_CHAR, CTRL, 0xc9 },
    { HED_KEY_CHAR, CTRL | SHIFT, '!' },
    { HED_KEY_CHAR, CAPS_LOCK, 'a' },
    { HED_KEY_CHAR, 0, 0xd800 },
    { HED_KEY_CHAR, 0, '\r' },
    { HED_KEY_FUNCTION, 0, 256 },
    { HED_KEY_NUMPAD_5, 0, 0 },
    { HED_KEY_LEFT_SHIFT, 0, 0 },
    { HED_KEY_ENTER, 0, 1 },
    { 0, 0, 0 },
    { 0, 0, 57414 },
    { LAST_KEY + 1, 0, 0 },
  };
  hed_key_press many[HED_CHORD_MOST + 1];
  uint8_t out[80] = ".";
  size_t len = 99, count, at;
  for (size_t i = 0; i < sizeof none / sizeof *none; i++) {
    hed_key_press chord[] = { { HED_KEY_CHAR, 0, 'a' }, none[i] };
    EXPECT(hed_key_print(chord, 2, out, 1, &len) == HED_BAD_NUMBER && len == 0 && *out == '.');
    len = 99;
    EXPECT(hed_press_print(&none[i], out, 1, &len) == HED_BAD_NUMBER && len == 0 && hed_press_text(&none[i], out, 1) == 0 && *out == '.');
  }
  EXPECT(hed_key_read(HED_TEXT("g g g g g g g g g g g g g g g g g g g g g g g g g g g g g g g g"), many, 32, &count, &at) == HED_OK);
  EXPECT(count == HED_CHORD_MOST && hed_key_print(many, count, out, sizeof out, &len) == HED_OK && len == 63 && memcmp(out, "g g", 3) == 0);
  many[HED_CHORD_MOST] = many[0];
  EXPECT(hed_key_print(many, HED_CHORD_MOST + 1, out, sizeof out, &len) == HED_BAD_NUMBER && len == 0);
  EXPECT(hed_key_print(NULL, 0, out, sizeof out, &len) == HED_BAD_NUMBER && len == 0);
}

/* The character that a press types, in rooms of each size: a final 0 follows if it fits. */
static void tells_texts_of_presses(void) {
  static const struct {
    hed_key_press press;
    const char *text;
  } rows[] = {
    { { HED_KEY_CHAR, 0, 'A' }, "A" },
    { { HED_KEY_CHAR, 0, 0x441 }, "\xd1\x81" },
    { { HED_KEY_CHAR, 0, 0x20ac }, "\xe2\x82\xac" },
    { { HED_KEY_CHAR, 0, 0x1f600 }, "\xf0\x9f\x98\x80" },
    { { HED_KEY_CHAR, SHIFT, ' ' }, " " },
    { { HED_KEY_CHAR, SHIFT, '1' }, "" },
    { { HED_KEY_CHAR, CTRL, 'a' }, "" },
    { { HED_KEY_CHAR, 0, 0x85 }, "" },
    { { HED_KEY_ENTER, 0, 0 }, "" },
    { { 0, 0, 57428 }, "" },
  };
  for (size_t i = 0; i < sizeof rows / sizeof *rows; i++)
    for (size_t room = 0; room <= 6; room++) {
      uint8_t text[8];
      size_t len = strlen(rows[i].text), written = len == 0 ? 0 : len < room ? len + 1 : room;
      memset(text, 0x55, sizeof text);
      EXPECT(hed_press_text(&rows[i].press, room > 0 ? text : NULL, room) == len);
      EXPECT(memcmp(text, rows[i].text, written) == 0 && is_marked(text + written, sizeof text - written));
    }
}

/* The name of a key and a final 0, cut at any length. */
static void check_name(uint16_t key, const char *name) {
  size_t len = strlen(name);
  for (size_t room = 0; room <= 32; room++) {
    uint8_t out[32];
    size_t written = room <= len ? room : len + 1;
    memset(out, 0x55, sizeof out);
    EXPECT(hed_key_name(key, room > 0 ? out : NULL, room) == len && memcmp(out, name, written) == 0);
    EXPECT(is_marked(out + written, sizeof out - written));
  }
}

/* LeftArrow, of LEFT_ARROW. */
static void capitalize(char *name) {
  size_t len = 0;
  bool begins = true;
  for (const char *at = name; *at; begins = *at++ == '_')
    if (*at != '_') name[len++] = (char)(begins ? *at : tolower(*at));
  name[len] = 0;
}

/* The keys of the header's enum hed_key have their names, and other numbers have none. */
static void names_keys(const char *header) {
  char line[512], name[64];
  unsigned number, count = 0;
  uint8_t out = '.';
  bool is_key = false;
  FILE *lines = fopen(header, "r");
  EXPECT(lines != NULL);
  while (lines && fgets(line, sizeof line, lines)) {
    if (line[0] == 'e' || line[0] == '}') is_key = strcmp(line, "enum hed_key {\n") == 0;
    if (is_key && sscanf(line, " HED_KEY_%63s = %u", name, &number) == 2) {
      capitalize(name);
      check_name((uint16_t)number, name);
      count++;
    }
  }
  if (lines) fclose(lines);
  EXPECT(count == LAST_KEY && hed_key_name(LAST_KEY + 1, &out, 1) == 0);
  EXPECT(hed_key_name(0, &out, 1) == 0 && hed_key_name(65535, &out, 1) == 0 && out == '.');
}

int main(int argc, char **argv) {
  if (argc != 2) {
    fputs("usage: test_presses c/hedrugal.h\n", stderr);
    return 2;
  }
  TEST(tells_presses_of_events());
  TEST(reads_names());
  TEST(refuses_other_numbers());
  TEST(tells_texts_of_presses());
  TEST(names_keys(argv[1]));
  return expected("test_presses");
}
