/* Calls of a key map in any order, with requests for memory refused.
 *
 * An input is a program of calls, each a letter (see take_letter) and its arguments:
 *
 *     J  init    P text value    insert                                      S  move the map
 *     R  free    U text n value  insert n keys: the text and one byte more   T  look some keys up
 *                Q text          look up, under both flags
 *
 * A text is a byte and what follows. Its four low bits are a number n, and the next two what the text is:
 *
 *     0  n bytes, which follow
 *     1  the last text and n bytes more, which follow
 *     2  the last text without its last n bytes
 *     3  the last text and 16 n times the byte that follows
 *
 * If its bit 0x40 is set, each byte that follows is one of 00, 01, 61 and ff, by its two low bits: so texts are often alike. The program
 * begins with a map that is made, and fuzz.h says what is checked. */
#include "fuzz.h"

void try_input(input *it) {
  enum { MOST_CALLS = 256, INIT = 'J' };
  begin_map();
  call_map((letter){ INIT, 0 }, it);
  for (int calls = 0; it->left > 0 && calls < MOST_CALLS; calls++) call_map(take_letter(it), it);
  end_map();
}
