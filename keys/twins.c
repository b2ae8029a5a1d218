#include "twins.h"
#include <stdio.h>
#include <string.h>

/* What an encoder writes for a key: 256 bytes are enough. */
typedef struct sent {
  uint8_t bytes[256];
  size_t length;
} sent;

/* The keys that people bind, with the modifiers that they hold: letters, other printable ASCII in the order of a keyboard, and named keys. */
static const char others[] = "[]\\;',./`-=0123456789!@#$%^&*()_+{}|:\"<>?~";
static const char *const named[] = { "tab",  "enter", "escape", "backspace", "space",  "up",     "down", "left", "right",
                                     "home", "end",   "pageup", "pagedown",  "insert", "delete", "f1",   "f2",   "f3",
                                     "f4",   "f5",    "f6",     "f7",        "f8",     "f9",     "f10",  "f11",  "f12" };
static const char *const with_named[] = { "", "shift+", "ctrl+", "alt+", "ctrl+shift+", "alt+shift+", "ctrl+alt+" };
static const char *const with_letters[] = { "", "ctrl+", "alt+", "ctrl+shift+", "ctrl+alt+" };
static const char *const with_capitals[] = { "", "alt+" };
static const char *const with_others[] = { "", "ctrl+", "alt+", "ctrl+alt+" };

#define LENGTH(list) (sizeof(list) / sizeof *(list))

bool is_same_press(const hed_key_press *one, const hed_key_press *other) {
  return one->key == other->key && one->held == other->held && one->detail == other->detail;
}

bool add_press(text *out, const hed_key_press *press) {
  uint8_t name[64];
  size_t length;
  if (hed_press_print(press, name, sizeof name, &length) != HED_OK) return false;
  text_add(out, "%s", (const char *)name);
  return true;
}

static hed_status send_press(const hed_key_press *press, const hed_modes *modes, sent *out) {
  uint8_t name[64];
  size_t length, wrong;
  hed_status status = hed_press_print(press, name, sizeof name, &length);
  return status == HED_OK ? hed_send_names(name, length, modes, out->bytes, sizeof out->bytes, &out->length, &wrong) : status;
}

/* Reads what was sent for a press, if that is one key. */
static bool read_sent(twins *it, const sent *from, hed_key_press *press) {
  hed_event event, more;
  hed_key_press found;
  if (hed_parser_feed(&it->parser, 0, from->bytes, from->length) != HED_OK) return false;
  hed_parser_flush(&it->parser);
  hed_status next = hed_parser_next(&it->parser, &event);
  memset(&it->second, 0, sizeof it->second);
  if (next == HED_OK && hed_parser_press(&it->parser, &event, &found) == HED_OK) *press = found;
  if (next == HED_OK) hed_parser_second(&it->parser, &event, &it->second);
  while (next == HED_OK) next = hed_parser_next(&it->parser, &more);
  return next == HED_NONE;
}

/* Nobody knows what is sent for a key that the encoder refuses. */
static bool read_back(twins *it, hed_status status, const sent *from, hed_key_press *press) {
  return status != HED_NO_MEMORY && (status != HED_OK || from->length == 0 || read_sent(it, from, press));
}

/* Without a protocol terminals differ, some as xterm and some as kitty: a key is told apart if it is so by both. */
static bool find_twin(twins *it, const protocol *by, const hed_key_press *press, hed_key_press *twin) {
  hed_modes kitty = { .encoding = HED_ENCODING_KITTY, .kitty_flags = by->kitty_flags };
  hed_modes xterm = { .modify_other_keys = by->modify_other_keys, .has_modify_other_keys = by->modify_other_keys > 0 };
  sent out;
  *twin = *press;
  if (by->kitty_flags > 0) return read_back(it, send_press(press, &kitty, &out), &out, twin);
  if (!read_back(it, send_press(press, &xterm, &out), &out, twin)) return false;
  if (by->modify_other_keys > 0 || !is_same_press(press, twin)) return true;
  return read_back(it, send_press(press, &kitty, &out), &out, twin);
}

bool twins_of(twins *it, const hed_key_press *press, hed_key_press *twin) {
  if (!find_twin(it, &it->by, press, twin)) return false;
  if (is_same_press(press, &it->second)) *twin = *press;
  return true;
}

static bool add_key(twins *it, const char *modifiers, const char *key) {
  char name[32];
  size_t count, wrong;
  everyday *added = &it->keys[it->count++];
  int length = snprintf(name, sizeof name, "%s%s", modifiers, key);
  hed_key_read((const uint8_t *)name, (size_t)length, &added->pressed, 1, &count, &wrong);
  if (!find_twin(it, &it->by, &added->pressed, &added->twin)) return false;
  it->merged += !is_same_press(&added->pressed, &added->twin);
  return true;
}

static bool add_with(twins *it, const char *key, const char *const *modifiers, size_t count) {
  for (size_t i = 0; i < count; i++)
    if (!add_key(it, modifiers[i], key)) return false;
  return true;
}

static bool add_character(twins *it, char character, const char *const *modifiers, size_t count) {
  const char key[] = { character, '\0' };
  return add_with(it, key, modifiers, count);
}

/* A capital is bound as such, or with Alt. */
static bool add_letter(twins *it, char letter) {
  char capital = (char)(letter - ('a' - 'A'));
  return add_character(it, letter, with_letters, LENGTH(with_letters)) && add_character(it, capital, with_capitals, LENGTH(with_capitals));
}

bool twins_find(twins *it, const protocol *by) {
  it->by = *by;
  it->count = it->merged = 0;
  twins_free(it);
  if (hed_parser_init(&it->parser, HED_DIALECT_EXTENDED) != HED_OK) return false;
  for (char letter = 'a'; letter <= 'z'; letter++)
    if (!add_letter(it, letter)) return false;
  for (const char *character = others; *character; character++)
    if (!add_character(it, *character, with_others, LENGTH(with_others))) return false;
  for (size_t i = 0; i < LENGTH(named); i++)
    if (!add_with(it, named[i], with_named, LENGTH(with_named))) return false;
  return true;
}

/* What may tell keys apart. */
static const struct {
  protocol by;
  const char *name;
} remedies[] = {
  { { .modify_other_keys = 2 }, "modifyOtherKeys 2" },
  { { .kitty_flags = KITTY_BEST }, "Kitty's protocol" },
  { { .kitty_flags = KITTY_ALL }, "Kitty's protocol with all flags" },
};

enum { REMEDIES = LENGTH(remedies), BEST = 1 << 1, ALL = 1 << 2, EVERY = (1 << REMEDIES) - 1, NAMED_MOST = 3 };

/* Kitty's protocol is in force in the place of modifyOtherKeys. */
static unsigned all_remedies(const twins *it) {
  return it->by.kitty_flags > 0 ? BEST | ALL : EVERY;
}

/* Takes those from a set of remedies that don't tell a key from its twin. */
static bool keep_remedies(twins *it, const everyday *key, unsigned *kept) {
  for (size_t i = 0; i < REMEDIES; i++) {
    everyday by;
    if (!find_twin(it, &remedies[i].by, &key->pressed, &by.pressed) || !find_twin(it, &remedies[i].by, &key->twin, &by.twin)) return false;
    if (is_same_press(&by.pressed, &by.twin)) *kept &= ~(1u << i);
  }
  return true;
}

/* All flags tell what fewer do. */
static void add_remedies(text *out, unsigned kept) {
  const char *before = "";
  if (kept & BEST) kept &= ~(unsigned)ALL;
  for (size_t i = 0; i < REMEDIES; i++) {
    if (!(kept & 1u << i)) continue;
    text_add(out, "%s%s", before, remedies[i].name);
    before = " or ";
  }
  if (kept == 0) text_add(out, "nothing");
}

bool twins_add_line(text *out, twins *it, const everyday *key) {
  unsigned kept = all_remedies(it);
  if (!add_press(out, &key->pressed)) return false;
  text_add(out, " comes as ");
  if (!add_press(out, &key->twin) || !keep_remedies(it, key, &kept)) return false;
  text_add(out, " here; ");
  add_remedies(out, kept);
  text_add(out, " tells them apart\n");
  return true;
}

static bool is_read_as(const everyday *key, const hed_key_press *press) {
  return is_same_press(&key->twin, press) && !is_same_press(&key->pressed, press);
}

bool twins_add_remark(text *out, twins *it, const hed_key_press *press) {
  unsigned kept = all_remedies(it);
  size_t found = 0;
  for (const everyday *key = it->keys; key < it->keys + it->count; key++) {
    if (!is_read_as(key, press)) continue;
    if (found > 0 && found < NAMED_MOST) text_add(out, ", ");
    if (found++ < NAMED_MOST && !add_press(out, &key->pressed)) return false;
    if (!keep_remedies(it, key, &kept)) return false;
  }
  if (found == 0) return true;
  if (found > NAMED_MOST) text_add(out, " and %zu more", found - NAMED_MOST);
  text_add(out, found == 1 ? " sends the same here; " : " send the same here; ");
  add_remedies(out, kept);
  text_add(out, " tells them apart");
  return true;
}

void twins_free(twins *it) {
  hed_parser_free(&it->parser);
}
