/* Texts and names of keys, into rooms of every size, and what is sent for key events.
 *
 * An input is the arguments of one call of hed_encode: the key (2 bytes), the detail (4), the modifiers (2), flags of bool (1), the
 * encoding (1), kitty's flags (1), the level of modifyOtherKeys (8), and which request for memory is refused (1). If the flags haven't
 * 0x80, numbers that name nothing become others that name something, since few numbers do. The same key and kitty's flags are those of a
 * call of hed_encode_kitty, with what happened to the key (1; 0x80 makes it a functional key without a name), Kitty's modifiers (1), shifted
 * (4), base (4), and the text, which is what is left.
 *
 * The answer has to be the one that the header promises for these numbers. A room that is too short gets as much of the text as it has
 * room for, and the rest of a longer one stays as it was. What isn't read makes no difference. A refused call writes nothing, and made
 * again it is granted; no memory is left. A character without modifiers is read back. The key's name goes into rooms of every size too.
 * The press of a key is its own press, and needs no memory. */
#include "fuzz.h"
#include <string.h>

enum { LONGEST = 128, TYPED_MAX = 12, NAME_MAX = 21, KEYS = LAST_KEY, FUNCTIONS = 24 };
enum { ALL_MODIFIERS = 2 * HED_TERMWIZ_MOD_RIGHT_SHIFT - HED_TERMWIZ_MOD_SHIFT, ALL_KITTY = 2 * HED_KITTY_FLAG_REPORT_ASSOCIATED_TEXT - 1 };

typedef struct press {
  uint16_t key, modifiers;
  uint32_t detail;
  bool is_down;
  hed_modes modes;
} press;

static room out;

/* The press with numbers that name something. Those that do stay, but for function keys and levels that are far off. */
static press named(press is) {
  is.key = is.key == 0 ? 1 : (is.key - 1) % KEYS + 1;
  is.modifiers &= ALL_MODIFIERS;
  is.modes.encoding %= HED_ENCODING_KITTY + 1;
  is.modes.kitty_flags &= ALL_KITTY;
  is.modes.modify_other_keys &= 3;
  if (is.key == HED_KEY_CHAR && !is_scalar(is.detail)) is.detail &= 0x7fff;
  if (is.key == HED_KEY_FUNCTION) is.detail %= 32;
  return is;
}

static press take_press(input *it, bool *stays) {
  press is = { .key = (uint16_t)take_number(it, 2) };
  is.detail = (uint32_t)take_number(it, 4);
  is.modifiers = (uint16_t)take_number(it, 2);
  uint8_t flags = take_byte(it);
  is.is_down = !(flags & 1);
  is.modes.application_cursor_keys = flags & 2;
  is.modes.newline_mode = flags & 4;
  is.modes.has_modify_other_keys = flags & 8;
  is.modes.encoding = take_byte(it);
  is.modes.kitty_flags = take_byte(it);
  is.modes.modify_other_keys = (int64_t)take_number(it, 8);
  *stays = flags & 0x80;
  return *stays ? is : named(is);
}

static hed_status encode_press(const void *key, uint8_t *to, size_t capacity, size_t *len) {
  static room modes;
  const press *is = key;
  room_with(&modes, &is->modes, sizeof is->modes);
  hed_status status = hed_encode(is->key, is->detail, is->modifiers, is->is_down, (hed_modes *)modes.at, to, capacity, len);
  HOLDS(is_unchanged(&modes, &is->modes));
  return status;
}

/* Makes a call in rooms of every size, with others of the numbers that it doesn't read, and refused memory. Returns what is sent; `asked`
 * is how many requests the refused call has made. */
static const sent *check_call(encoder *call, const void *key, const void *others_unread, unsigned refused, unsigned *asked) {
  static sent whole, got;
  encode(&whole, call, key, LONGEST);
  HOLDS(whole.len <= LONGEST);
  encode(&got, call, others_unread, LONGEST);
  HOLDS(same_sent(&got, &whole, LONGEST));
  for (size_t capacity = 0; capacity <= whole.len + 2; capacity++) {
    encode(&got, call, key, capacity);
    HOLDS(same_sent(&got, &whole, capacity));
  }
  refuse_request(refused);
  encode(&got, call, key, LONGEST);
  HOLDS((got.status == HED_NO_MEMORY) == (refusals > 0));
  *asked = requests;
  refuse_request(0);
  if (got.status == HED_NO_MEMORY) encode(&got, call, key, LONGEST);
  HOLDS(same_sent(&got, &whole, LONGEST));
  return &whole;
}

static bool is_bad_key(uint16_t key, uint32_t detail) {
  return key > KEYS || (key == HED_KEY_CHAR && !is_scalar(detail)) || (key == HED_KEY_FUNCTION && detail > 255);
}

static bool is_bad(const press *is) {
  bool is_bad_mode =
      is->modes.encoding > HED_ENCODING_KITTY || (is->modes.encoding == HED_ENCODING_KITTY && is->modes.kitty_flags & ~ALL_KITTY);
  return is->key == 0 || is_bad_key(is->key, is->detail) || is->modifiers & ~ALL_MODIFIERS || is_bad_mode;
}

/* What the header promises for these numbers. */
static hed_status promised(const press *is) {
  if (is_bad(is)) return HED_BAD_NUMBER;
  bool has_no_text = is->key == HED_KEY_FUNCTION && is->is_down && (is->detail == 0 || is->detail > FUNCTIONS);
  return has_no_text ? HED_REFUSED_KEY : HED_OK;
}

/* Numbers that the call doesn't read for this press. */
static press with_others_unread(press is) {
  if (is.key != HED_KEY_CHAR && is.key != HED_KEY_FUNCTION) is.detail = ~is.detail;
  if (!is.modes.has_modify_other_keys) is.modes.modify_other_keys ^= 2;
  if (is.modes.encoding != HED_ENCODING_KITTY) is.modes.kitty_flags = (uint8_t)~is.modes.kitty_flags;
  return is;
}

/* A character that is pressed without modifiers is its text, and is read back. */
static void check_character(const press *is, const sent *whole) {
  static hed_parser parser = HED_PARSER_NONE;
  hed_event event, other;
  owner = TWIN;
  if (!parser.live) HOLDS(!hed_parser_init(&parser, HED_DIALECT_EXTENDED));
  HOLDS(!hed_parser_feed(&parser, 0, whole->bytes, whole->len));
  hed_parser_flush(&parser);
  HOLDS(!hed_parser_next(&parser, &event) && hed_parser_next(&parser, &other) == HED_NONE && hed_parser_waiting_len(&parser) == 0);
  HOLDS(event.kind == HED_KIND_KEY && event.key == HED_KEY_CHAR && event.detail == is->detail && event.modifiers == HED_KITTY_MOD_NONE);
  owner = TESTED;
}

static void note_press(const press *is, const sent *whole) {
  unsigned modes = (is->modes.application_cursor_keys ? 1u : 0) | (is->modes.newline_mode ? 2u : 0);
  if (is->modes.has_modify_other_keys) modes |= 4u << (is->modes.modify_other_keys & 3);
  note(0x60000u | whole->status, (unsigned)whole->len);
  if (whole->len == 0) return;
  unsigned held = is->modifiers & (HED_TERMWIZ_MOD_SHIFT | HED_TERMWIZ_MOD_ALT | HED_TERMWIZ_MOD_CTRL);
  note(0x50000u | is->key << 8 | held << 3 | is->modes.encoding, modes);
  if (is->key == HED_KEY_CHAR && is->detail < 0x80) note(0xb0000u | is->detail << 8 | held << 3 | is->modes.encoding, modes);
}

static void check_press(const press *is, unsigned number) {
  press other = with_others_unread(*is);
  unsigned asked;
  const sent *whole = check_call(encode_press, is, &other, number, &asked);
  HOLDS(whole->status == promised(is));
  HOLDS(is->is_down || (whole->len == 0 && asked == 0));
  bool is_plain = is->key == HED_KEY_CHAR && is->modifiers == HED_TERMWIZ_MOD_NONE && is->detail >= ' ' && is->detail != 0x7f;
  if (whole->status == HED_OK && is->is_down && is_plain) check_character(is, whole);
  note_press(is, whole);
}

static told_key take_told(input *it, const press *is, bool stays) {
  told_key key = { .flags = is->modes.kitty_flags };
  hed_event *event = &key.event;
  event->kind = HED_KIND_KEY;
  event->key = is->key;
  event->detail = is->detail;
  event->key_event_kind = take_byte(it);
  event->modifiers = take_byte(it);
  event->shifted = (uint32_t)take_number(it, 4);
  event->base = (uint32_t)take_number(it, 4);
  key.text = take_bytes(it, TYPED_MAX, &key.len);
  if (stays) return key;
  if (event->key_event_kind & 0x80) {
    event->key = 0;
    event->detail = 57344 + event->detail % 128;
  }
  event->key_event_kind = event->key_event_kind % 3 + HED_KEY_EVENT_KIND_PRESS;
  if (!is_scalar(event->shifted)) event->shifted = HED_NO_CODE;
  if (!is_scalar(event->base)) event->base = HED_NO_CODE;
  return key;
}

/* How many bytes at the front are a character in UTF-8, 0 if they aren't one. */
static size_t character_len(const uint8_t *text, size_t len) {
  static const uint32_t least[] = { 0, 0x80, 0x800, 0x10000 };
  size_t more = (size_t)(*text >= 0xc0) + (*text >= 0xe0) + (*text >= 0xf0);
  uint32_t code = more == 0 ? *text : *text & (0x3fu >> more);
  if (more >= len || *text >= 0xf8 || (more == 0 && *text >= 0x80)) return 0;
  for (size_t i = 1; i <= more; i++) {
    if ((text[i] & 0xc0) != 0x80) return 0;
    code = code << 6 | (text[i] & 0x3f);
  }
  return is_scalar(code) && code >= least[more] ? more + 1 : 0;
}

static bool is_utf8(const uint8_t *text, size_t len) {
  size_t at = 0, step = 1;
  for (; at < len && step > 0; at += step) step = character_len(text + at, len - at);
  return step > 0;
}

static bool is_bad_event(const hed_event *event) {
  bool has_bad_code =
      (event->shifted != HED_NO_CODE && !is_scalar(event->shifted)) || (event->base != HED_NO_CODE && !is_scalar(event->base));
  bool has_bad_kind = event->key_event_kind < HED_KEY_EVENT_KIND_PRESS || event->key_event_kind > HED_KEY_EVENT_KIND_RELEASE;
  return has_bad_kind || has_bad_code || is_bad_key(event->key, event->detail);
}

/* The text says nothing of a second press. */
static void check_second(const hed_event *event) {
  static room place;
  hed_key_press second;
  room_with(&place, event, sizeof *event);
  hed_status status = hed_event_second((hed_event *)place.at, &second);
  HOLDS(is_unchanged(&place, event) && (status == HED_OK || status == HED_NONE || status == HED_BAD_NUMBER));
  HOLDS((status == HED_BAD_NUMBER) == is_bad_event(event));
  HOLDS(status != HED_OK || may_have_second(event));
  note(0xa0000u | status, event->key);
}

/* An event that names nothing has no press. Any other has one that is its own press, or none. */
static void check_presses(const told_key *key) {
  static room event, text, taken;
  room_with(&event, &key->event, sizeof key->event);
  room_with(&text, key->text, key->len);
  hed_key_press *press = room_of(&taken, sizeof *press);
  begin_reads();
  hed_status status = hed_event_press((hed_event *)event.at, pointer_to(&text), key->len, press);
  HOLDS(is_unchanged(&event, &key->event) && is_unchanged(&text, key->text));
  HOLDS(is_untouched(&taken, status == HED_OK ? sizeof *press : 0));
  if (is_bad_event(&key->event)) HOLDS(status == HED_BAD_NUMBER);
  else if (!is_utf8(key->text, key->len)) HOLDS(status == HED_BAD_TEXT);
  else HOLDS(status == HED_OK || status == HED_NONE);
  HOLDS(status != HED_OK || (press->held < HED_KITTY_MOD_CAPS_LOCK && is_press(press)));
  if (status == HED_OK) note(0x90000u | press->key, press->held);
  check_second(&key->event);
  end_reads();
}

/* Checks the answer that the header promises. A key without bytes is refused: that can't be told from the numbers alone. */
static void check_answer(const told_key *key, const sent *whole) {
  if (is_bad_event(&key->event) || key->flags & ~ALL_KITTY) HOLDS(whole->status == HED_BAD_NUMBER);
  else if (!is_utf8(key->text, key->len)) HOLDS(whole->status == HED_BAD_TEXT);
  else HOLDS(whole->status == HED_OK || whole->status == HED_REFUSED_KEY);
  HOLDS(whole->status != HED_REFUSED_KEY || key->event.key != HED_KEY_CHAR);
  note(0x70000u | whole->status, (unsigned)whole->len);
  note(0x80000u | key->event.key << 5 | key->flags, key->event.key_event_kind);
}

static void check_told(const told_key *key, unsigned number) {
  told_key other = *key;
  if (key->event.key > HED_KEY_CHAR && key->event.key != HED_KEY_FUNCTION) other.event.detail = ~other.event.detail;
  other.event.row = other.event.x = 1;
  other.event.text_len = 1;
  unsigned asked;
  const sent *whole = check_call(encode_told, key, &other, number, &asked);
  check_answer(key, whole);
  HOLDS(asked == 0 || (whole->status != HED_BAD_NUMBER && whole->status != HED_BAD_TEXT));
  other.event.kind = HED_KIND_MOUSE;
  HOLDS(encode_told(&other, NULL, 0, &(size_t){ 0 }) == HED_BAD_NUMBER);
}

/* Asks for the name of a key in a room, and checks that the room has as much of it as fits, and a zero after it if that fits too. For a
 * number that is no key's nothing is written. */
static size_t name_of(uint16_t key, size_t room) {
  room_of(&out, room);
  size_t len = hed_key_name(key, pointer_to(&out), room), written = len < room ? len + 1 : room;
  if (len == 0) written = 0;
  HOLDS(is_untouched(&out, written));
  for (size_t i = 0; i < written; i++) HOLDS(i < len ? out.at[i] >= '0' && out.at[i] <= 'z' : out.at[i] == 0);
  return len;
}

static void check_name(uint16_t key) {
  uint8_t name[NAME_MAX];
  size_t len = name_of(key, NAME_MAX + 1);
  HOLDS((len > 0) == (key >= 1 && key <= KEYS) && len <= NAME_MAX);
  memcpy(name, out.at, len);
  for (size_t room = 0; room <= len + 2; room++) {
    HOLDS(name_of(key, room) == len);
    HOLDS(memcmp(out.at, name, room < len ? room : len) == 0);
  }
}

void try_input(input *it) {
  bool stays;
  press is = take_press(it, &stays);
  unsigned refused = 1 + take_byte(it) % 8u;
  check_press(&is, refused);
  told_key key = take_told(it, &is, stays);
  check_told(&key, refused);
  check_presses(&key);
  check_name(is.key);
  HOLDS(blocks[TESTED] == 0);
}
