/* The line of a read: its bytes in groups, each with the event that consumed it, and what the keys did by a file of bindings. Bytes at the
 * end that no event consumed are buffered. */
#ifndef KEYS_LINE_H
#define KEYS_LINE_H

#include "hedrugal.h"

/* An event has at most two presses. PRESS_SIZE is room for the name of one, with all modifiers and a final 0. A paste starts with
 * PASTE_START bytes. */
enum { TEXT_SHOWN = 48, PRESSES_MOST = 2, PRESS_SIZE = 64, PASTE_START = 6 };

typedef struct group {
  size_t start, length; /* its bytes, among the line's */
  hed_event event;
  uint8_t text[TEXT_SHOWN + 1]; /* how the bytes begin that the event brought, and one of the rest */
  char presses[PRESSES_MOST][PRESS_SIZE]; /* the names of its press and of its second press */
  size_t press_count;
  size_t first_outcome; /* the place of the first outcome that it brought */
  hed_key_press press; /* the first of its presses, if it has one */
  bool is_reply; /* whether it answers a question of the program's own, so that nobody typed it */
} group;

/* What keys did that were pressed. */
typedef struct outcome {
  const char *command; /* NULL if a key is bound to none */
  const char *chord; /* the name of the keys that have a command */
  char press[PRESS_SIZE]; /* the name of the key that has none */
} outcome;

typedef struct line {
  size_t read; /* the number of the read, from 1 on; 0 before the first */
  uint8_t *bytes; /* those that were buffered when the read came, and those of the read */
  size_t length, room;
  size_t earlier; /* how many of the bytes came with earlier reads */
  size_t settled; /* how many of the bytes belong to a group */
  size_t kept; /* how many bytes of groups are buffered still: the part of a paste or of a string leaves its start there */
  group *groups;
  size_t group_count, group_room;
  outcome *outcomes;
  size_t outcome_count, outcome_room;
} line;

/* Begins the line of the next read. What was buffered on the line before comes first. Returns false if memory is refused: then it is
 * unchanged. */
bool line_begin(line *it, const uint8_t *bytes, size_t length);

/* Adds the group of an event, which consumed all bytes but those that are still buffered. Returns NULL if memory is refused. */
group *line_settle(line *it, const hed_event *event, size_t waiting);

/* Adds an outcome. Returns false if memory is refused. */
bool line_decide(line *it, const outcome *decided);

/* The name of an outcome's keys. */
const char *outcome_keys(const outcome *it);

/* The number of buffered bytes that belong to no group. */
size_t line_waiting(const line *it);

/* How many bytes of those from a place on came with earlier reads, at most length. */
size_t line_earlier(const line *it, size_t start, size_t length);

/* Forgets the buffered bytes. */
void line_forget(line *it);

void line_free(line *it);

#endif
