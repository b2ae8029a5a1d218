/* The bindings of a file, and what the keys do by them. */
#ifndef KEYS_BINDINGS_H
#define KEYS_BINDINGS_H

#include "line.h"
#include "twins.h"

/* The pause after which pending presses are given up. */
enum { CHORD_PAUSE_MS = 1000 };

typedef struct bindings {
  hed_bindings chords; /* none if no file was named: then no key does anything */
  hed_matcher matcher;
  hed_timer timer; /* of the pending presses */
  hed_seen seen; /* what the timer isn't told yet */
} bindings;

/* A chord that may follow: its name, the rest of that behind the pending keys, and its command. */
typedef struct continuation {
  const char *chord, *rest, *command;
} continuation;

typedef enum bindings_answer {
  BINDINGS_READ,
  BINDINGS_WRONG, /* lines are wrong: standard error has them */
  BINDINGS_TOO_LONG, /* the file has more than 1048576 bytes */
  BINDINGS_NO_FILE, /* the file can't be read: errno says why */
  BINDINGS_NO_MEMORY
} bindings_answer;

/* Reads a file of bindings. A line is a command, blanks and the name of a chord. Empty lines and those that begin with # are ignored. If a
 * chord is bound twice, the later line counts. Whatever it returns, the caller owes a bindings_free. */
bindings_answer bindings_read(bindings *it, const char *file);

/* Takes the press of a key, and behind it its second press if there is one. */
void bindings_press(bindings *it, const hed_key_press *presses, size_t count);

/* Tells what the first of the pending presses do, as hed_matcher_next. Returns HED_OK with an outcome, HED_NONE or HED_NO_MEMORY. After
 * each press the caller calls it until there is none: then the pause begins. */
hed_status bindings_next(bindings *it, bool more, uint64_t now, outcome *decided);

/* How long the pending presses may still wait for a key, in milliseconds: -1 if nothing is pending. */
int32_t bindings_timeout(const bindings *it, uint64_t now);

bool bindings_is_pending(const bindings *it);

/* Forgets the pending presses. */
void bindings_forget(bindings *it);

/* Tells the places of the chords that may follow. Returns false if nothing is pending. */
bool bindings_following(const bindings *it, size_t *first, size_t *end);

/* The chord at one of these places. */
continuation bindings_at(const bindings *it, size_t place);

/* How many chords are bound. */
size_t bindings_count(const bindings *it);

/* Appends a line on the chord at a place, if the terminal sends one of its keys as another one. Returns false if memory is refused. */
bool bindings_add_warning(text *out, const bindings *it, size_t place, const char *file, twins *keys);

void bindings_free(bindings *it);

#endif
