/* Names of keys, into rooms of every size.
 *
 * An input is which request for memory is refused (1 byte), how much room there is for presses (1), and a text.
 *
 * The text is the name of a chord, or the header's reasons say why not: a place is within the text, and what stands before it is whole
 * characters. As many presses are written as there is room for. Each is its own press, and has a text only if it is a character. What is
 * printed of the chord is read as the same presses, and is printed again. In modes that the room's byte tells each has bytes, or one is refused
 * where a name starts. A room that is too short gets the front of the name or of the bytes. Only the calls that print and send ask for memory: a
 * refused call writes nothing, and made again it is granted. */
#include "fuzz.h"
#include <string.h>

enum { SENT_MAX = 64 * HED_CHORD_MOST, TEXT_MAX = 200, ONE_NAME = 64, NAME_MAX = ONE_NAME * HED_CHORD_MOST };

/* The presses of a text, and what is wrong with it. */
typedef struct chord {
  hed_status status;
  size_t count, at;
  hed_key_press keys[HED_CHORD_MOST];
} chord;

/* Reads a text with room for so many presses. */
static void read_text(chord *it, const uint8_t *bytes, size_t len, size_t capacity) {
  static room text, keys;
  room_with(&text, bytes, len);
  hed_key_press *out = room_of(&keys, capacity * sizeof *out);
  begin_reads();
  it->status = hed_key_read(pointer_to(&text), len, pointer_to(&keys), capacity, &it->count, &it->at);
  end_reads();
  size_t written = it->count < capacity ? it->count : capacity;
  bool is_named = it->status >= HED_NAME_CONTROL_CHARACTER && it->status <= HED_NAME_EMPTY;
  HOLDS((it->status == HED_OK || it->status == HED_BAD_TEXT || is_named) && is_unchanged(&text, bytes));
  HOLDS(it->status == HED_OK ? it->count > 0 && it->count <= HED_CHORD_MOST && it->at == 0 : it->count == 0 && it->at <= len);
  HOLDS(it->at == 0 || it->at == len || it->status == HED_BAD_TEXT || (bytes[it->at] & 0xc0) != 0x80);
  HOLDS(is_untouched(&keys, written * sizeof *out));
  for (size_t i = 0; i < written; i++) it->keys[i] = out[i];
}

static bool same_chord(const chord *one, const chord *other, size_t capacity) {
  bool is_same = one->status == other->status && one->count == other->count && one->at == other->at;
  for (size_t i = 0; i < one->count && i < capacity && is_same; i++) is_same = same_press(&one->keys[i], &other->keys[i]);
  return is_same;
}

/* Prints presses with room for so many bytes, and returns what the call does. */
static hed_status print(const hed_key_press *presses, size_t count, room *out, size_t capacity, size_t *len) {
  static room keys;
  room_with(&keys, presses, count * sizeof *presses);
  room_of(out, capacity);
  hed_status printed = hed_key_print(pointer_to(&keys), count, pointer_to(out), capacity, len);
  size_t written = printed != HED_OK ? 0 : *len < capacity ? *len : capacity;
  HOLDS(is_unchanged(&keys, presses) && is_untouched(out, written));
  HOLDS(printed == HED_OK || *len == 0);
  return printed;
}

/* Writes a character in UTF-8, and returns how many bytes it has. */
static size_t write_character(uint32_t code, uint8_t *out) {
  static const uint8_t leads[] = { 0, 0xc0, 0xe0, 0xf0 };
  size_t more = (size_t)(code >= 0x80) + (code >= 0x800) + (code >= 0x10000);
  for (size_t i = more; i > 0; i--, code >>= 6) out[i] = (uint8_t)(0x80 | (code & 0x3f));
  out[0] = (uint8_t)(leads[more] | code);
  return more + 1;
}

/* Its text is its character, if it has one. A room has as much of it as fits, and a zero after it if that fits too. */
static void check_text(const hed_key_press *press, size_t capacity) {
  static room text;
  uint8_t whole[5];
  room_of(&text, capacity);
  begin_reads();
  size_t len = hed_press_text(press, pointer_to(&text), capacity), written = len == 0 ? 0 : len < capacity ? len + 1 : capacity;
  end_reads();
  HOLDS(is_untouched(&text, written));
  HOLDS(len == 0 || press->held == 0 || (press->held == HED_KITTY_MOD_SHIFT && press->detail == ' '));
  HOLDS(len > 0 || press->key != HED_KEY_CHAR || press->held != 0 || press->detail < 0xa0);
  if (len == 0) return;
  HOLDS(press->key == HED_KEY_CHAR && write_character(press->detail, whole) == len);
  whole[len] = 0;
  HOLDS(memcmp(text.at, whole, written) == 0);
}

/* A press is its own. Its name is that of a chord of it alone. */
static void check_press(const hed_key_press *press, size_t capacity) {
  static room name, front;
  size_t len, front_len;
  HOLDS(is_press(press));
  check_text(press, capacity % 8);
  HOLDS(print(press, 1, &name, NAME_MAX, &len) == HED_OK);
  room_of(&front, capacity);
  HOLDS(hed_press_print(press, pointer_to(&front), capacity, &front_len) == HED_OK && front_len == len && len < ONE_NAME);
  HOLDS(is_untouched(&front, len < capacity ? len + 1 : capacity) && memcmp(name.at, front.at, len < capacity ? len : capacity) == 0);
  HOLDS(len >= capacity || front.at[len] == 0);
  note(0x30000u | press->key, press->held);
}

/* What is printed of a chord is read as the chord, and printed again. */
static void check_name(const chord *it, size_t capacity, unsigned number) {
  static room name, front;
  static chord again;
  size_t len, front_len;
  refuse_request(number);
  hed_status printed = print(it->keys, it->count, &name, NAME_MAX, &len);
  HOLDS(printed == (refusals > 0 ? HED_NO_MEMORY : HED_OK));
  refuse_request(0);
  HOLDS(print(it->keys, it->count, &name, NAME_MAX, &len) == HED_OK && len > 0 && len <= NAME_MAX);
  HOLDS(print(it->keys, it->count, &front, capacity, &front_len) == HED_OK && front_len == len);
  HOLDS(memcmp(name.at, front.at, len < capacity ? len : capacity) == 0);
  read_text(&again, name.at, len, HED_CHORD_MOST);
  HOLDS(same_chord(it, &again, HED_CHORD_MOST));
  note(0x20000u | (unsigned)it->count, (unsigned)len);
}

/* Numbers that are those of no press are refused. */
static void check_others(chord *it, uint8_t which) {
  static room name;
  hed_key_press *press = &it->keys[which % it->count];
  size_t len;
  press->held |= HED_KITTY_MOD_NUM_LOCK;
  HOLDS(print(it->keys, it->count, &name, NAME_MAX, &len) == HED_BAD_NUMBER && hed_press_text(press, NULL, 0) == 0);
  HOLDS(hed_press_print(press, NULL, 0, &len) == HED_BAD_NUMBER && len == 0);
  HOLDS(print(it->keys, 0, &name, NAME_MAX, &len) == HED_BAD_NUMBER);
}

/* What is sent for the text, with room for so many bytes. */
static hed_status send(const room *text, const hed_modes *modes, room *out, size_t capacity, size_t *len, size_t *at) {
  room_of(out, capacity);
  hed_status sent = hed_send_names(pointer_to(text), text->len, modes, pointer_to(out), capacity, len, at);
  HOLDS(is_untouched(out, sent != HED_OK ? 0 : *len < capacity ? *len : capacity) && (sent == HED_OK || *len == 0));
  return sent;
}

static void check_sent(const chord *it, const uint8_t *bytes, size_t len, size_t capacity, unsigned number) {
  static room text, whole, front;
  hed_modes modes = { .encoding = capacity % 4, .kitty_flags = capacity / 4 % 32, .application_cursor_keys = capacity >= 128 };
  size_t sent_len, front_len, at, front_at;
  room_with(&text, bytes, len);
  refuse_request(number);
  hed_status sent = send(&text, &modes, &whole, SENT_MAX, &sent_len, &at);
  HOLDS((sent == HED_NO_MEMORY) == (refusals > 0) && (refusals == 0 || at == 0));
  refuse_request(0);
  sent = send(&text, &modes, &whole, SENT_MAX, &sent_len, &at);
  HOLDS(sent == it->status || (it->status == HED_OK && sent == HED_REFUSED_KEY));
  HOLDS(sent == HED_OK ? at == 0 && sent_len >= it->count && sent_len <= SENT_MAX : sent == it->status ? at == it->at : at < len);
  HOLDS(sent != HED_REFUSED_KEY || (bytes[at] != ' ' && bytes[at] != '\t' && (at == 0 || bytes[at - 1] == ' ' || bytes[at - 1] == '\t')));
  HOLDS(send(&text, &modes, &front, capacity, &front_len, &front_at) == sent && front_len == sent_len && front_at == at);
  HOLDS(memcmp(whole.at, front.at, sent_len < capacity ? sent_len : capacity) == 0 && is_unchanged(&text, bytes));
  note(0x40000u | sent, (unsigned)sent_len);
}

void try_input(input *it) {
  static chord whole, some;
  unsigned number = take_byte(it) % 8;
  uint8_t capacity = take_byte(it);
  size_t len;
  const uint8_t *text = take_bytes(it, TEXT_MAX, &len);
  read_text(&whole, text, len, HED_CHORD_MOST);
  read_text(&some, text, len, capacity % (HED_CHORD_MOST + 1));
  HOLDS(same_chord(&whole, &some, capacity % (HED_CHORD_MOST + 1)));
  note(0x10000u | whole.status, (unsigned)whole.at);
  check_sent(&whole, text, len, capacity, number);
  if (whole.status != HED_OK) return;
  for (size_t i = 0; i < whole.count; i++) check_press(&whole.keys[i], capacity);
  check_name(&whole, capacity, number);
  check_others(&whole, capacity);
}
