/* The everyday keys that a terminal can't tell apart: what it sends for one is read as the press of another, its twin. Both directions are the
 * library's, and proved: the tables of crates/termwiz_binding_laws say the same in words. */
#ifndef KEYS_TWINS_H
#define KEYS_TWINS_H

#include "hedrugal.h"
#include "text.h"

/* A protocol by which a terminal sends keys. Both are 0 if none is on. */
typedef struct protocol {
  uint8_t kitty_flags; /* a set of HED_KITTY_FLAG_.. */
  int64_t modify_other_keys; /* the level */
} protocol;

/* What the program switches on by itself of Kitty's protocol, which BINDINGS.md recommends, and what --kitty-keyboard does. */
enum { KITTY_BEST = 5, KITTY_ALL = 31, EVERYDAY_KEYS = 539 };

typedef struct everyday {
  hed_key_press pressed, twin; /* both are the same for a key that is told apart */
} everyday;

typedef struct twins {
  protocol by;
  hed_parser parser; /* that reads what is sent */
  hed_key_press second; /* the second press of what it read last, 0 if that has none */
  everyday keys[EVERYDAY_KEYS];
  size_t count; /* how many keys there are */
  size_t merged; /* and how many of them have a twin that is another */
} twins;

/* Finds the twin of each everyday key by a protocol. Returns false if memory is refused. Whatever it returns, the caller owes a twins_free. */
bool twins_find(twins *it, const protocol *by);

/* Writes what a press is read as here: itself, if the terminal tells it apart, if it is the second press of what is read, or if nobody knows what
 * the terminal sends. Returns false if memory is refused. */
bool twins_of(twins *it, const hed_key_press *press, hed_key_press *twin);

bool is_same_press(const hed_key_press *one, const hed_key_press *other);

/* Appends which other everyday keys are read as this press, and what tells them apart. Appends nothing if none are. Returns false if memory is
 * refused. */
bool twins_add_remark(text *out, twins *it, const hed_key_press *press);

/* Appends a line: which other press a key is read as, and what tells them apart. Returns false if memory is refused. */
bool twins_add_line(text *out, twins *it, const everyday *key);

/* Appends the name of a press. Returns false if memory is refused. */
bool add_press(text *out, const hed_key_press *press);

void twins_free(twins *it);

#endif
