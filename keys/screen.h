/* Events as people read them, a row for each. */
#ifndef KEYS_SCREEN_H
#define KEYS_SCREEN_H

#include "bindings.h"
#include "line.h"
#include "text.h"
#include "twins.h"

/* Why the last bytes of a line are buffered, and why presses are pending. */
typedef struct reasons {
  text bytes, presses;
  bool lists_keys; /* whether the chords that may follow are listed */
} reasons;

/* What shows is UTF-8, without control characters of the input. On a terminal the program breaks the rows itself, so it knows how many rows the
 * undecided ones are, and can write others in their place. */
typedef struct screen {
  bool has_colour, is_hex;
  bool can_rewrite; /* whether undecided rows may be written over */
  size_t width, height; /* in characters; a width of 0 breaks no rows */
  size_t rows, column; /* how many rows are undecided, and where the next character comes */
  size_t groups, outcomes; /* how many of the line's are written */
  bool has_word; /* whether the next word of the row has a space before it */
  const char *style;
  bool is_measuring; /* whether words are only counted, with a space for each */
  size_t measured;
} screen;

/* Whether escape sequences for colours and for moves of the cursor may be written, as the standard output and the environment say. */
void screen_find(screen *it);

/* Takes the terminal's size. What is written stays where it is, so undecided rows can't be written over any more. */
void screen_resize(screen *it, size_t width, size_t height);

/* Writes a row for each event of a line that isn't written yet, with what its keys did, and below it what is undecided, in place of what was
 * undecided before: bytes that wait, and pending presses. These are dimmed, and left out if there is no reason. A key's row says which others
 * send the same, if twins are given. Returns false if memory is refused. */
bool screen_draw(screen *it, const line *shown, const bindings *bound, const reasons *why, twins *keys);

/* What is undecided stays. */
void screen_keep(screen *it);

/* The next line is another. */
void screen_next(screen *it);

#endif
