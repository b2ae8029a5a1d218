/* What the terminal says of itself when the program opens it. */
#ifndef KEYS_OPENING_H
#define KEYS_OPENING_H

#include "hedrugal.h"
#include "options.h"
#include "text.h"
#include "twins.h"

/* How long the replies are waited for. One that comes later still counts, as long as hed_questions says. */
enum { OPENING_MS = 200, NAME_MOST = 32 };

/* What is known of a protocol or a mode. */
typedef enum answer { NOT_TOLD, IS_THERE, IS_MISSING } answer;

typedef struct opening {
  hed_questions questions;
  uint64_t until; /* when the replies are waited for no more */
  const char *type; /* TERM */
  bool is_dumb; /* whether TERM is dumb or not set: such a terminal gets no control sequences that nobody asked for */
  bool is_asked, is_answered; /* whether the terminal was asked, and whether it answered the last question */
  text name; /* the terminal's name and version, empty if it tells none */
  answer kitty, modify_other_keys, mouse, focus, paste;
  bool has_background, is_dark;
} opening;

/* Notes that the terminal is asked now. Returns what is to be written for that. */
const char *opening_ask(opening *it, hed_parser *parser, uint64_t now);

/* Takes an event that may be a reply. Returns whether it is one, which nobody typed. */
bool opening_take(opening *it, hed_parser *parser, uint64_t now, const hed_event *event);

/* How many milliseconds the replies are still waited for, -1 if no more. */
int32_t opening_left(const opening *it, uint64_t now);

/* Writes which modes are to be on: those of the words, and by itself paste, focus and the best protocol that the terminal answers to. */
void opening_choose(const opening *it, const options *asked, bool modes[MODE_COUNT]);

/* By which protocol the terminal sends keys with these modes, as far as it is known to have one. */
protocol opening_protocol(const opening *it, const bool modes[MODE_COUNT]);

/* Appends the two lines that say what the terminal is. */
void opening_add_lines(text *out, const opening *it, const bool modes[MODE_COUNT], const twins *keys);

/* Appends a line for each word that asks for what the terminal hasn't, or doesn't answer to. */
void opening_add_missing(text *out, const opening *it, const options *asked);

#endif
