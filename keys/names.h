/* The names of bytes, keys, presses, modifiers and buttons. Keys, modifiers and buttons have those that keyshow prints. */
#ifndef KEYS_NAMES_H
#define KEYS_NAMES_H

#include "hedrugal.h"
#include "text.h"

/* A modifier or a button: its bit, its name, and what comes before a key in a list of keys, as Ctrl- does. */
typedef struct flag {
  uint16_t bit;
  const char *name, *prefix;
} flag;

/* All modifiers and all buttons. The last has no name. */
extern const flag modifier_flags[], button_flags[];

/* The name of a HED_KIND_.. in lower case, as cursor_position, and NULL for HED_KIND_OTHER. */
const char *kind_name(uint8_t kind);

/* What happened to a key: press, repeat or release. */
const char *key_event_kind_name(uint8_t kind);

/* What happened to the mouse: press, release, drag, move or wheel. */
const char *mouse_kind_name(uint8_t kind);

/* Appends a byte: printable ASCII as itself, ESC, SP for a space, ^A to ^_ and ^? for control characters, others in hexadecimal. With
 * is_hex each byte is in hexadecimal. */
void add_byte(text *out, uint8_t byte, bool is_hex);

/* Appends a key: U+0061, F5, UpArrow. One without a name is its number in Kitty's table. */
void add_key(text *out, uint16_t key, uint32_t detail);

/* Appends the names of the flags that are in a set: SHIFT+ALT, or NONE. */
void add_flags(text *out, const flag *flags, unsigned set);

/* Appends what comes before a key with these modifiers in a list of keys: Alt-Ctrl-. */
void add_prefixes(text *out, unsigned modifiers);

#endif
