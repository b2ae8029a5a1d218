/* Why bytes are buffered, and presses are pending, in plain words. */
#ifndef KEYS_WAITING_H
#define KEYS_WAITING_H

#include "bindings.h"
#include "line.h"
#include "text.h"

/* Appends what the bytes are that are buffered on a line: half a character, say. */
void add_waiting(text *out, const hed_parser *parser, const line *shown);

/* Appends what they wait for, and how long, where pauses count. */
void add_waiting_for(text *out, const hed_parser *parser, uint64_t now);

/* Appends how long pending presses wait for those that are listed. */
void add_pending(text *out);

#endif
