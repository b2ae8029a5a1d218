/* Events as JSON, an object on a line each, in ASCII alone. */
#ifndef KEYS_JSON_H
#define KEYS_JSON_H

#include "bindings.h"
#include "line.h"
#include <stdio.h>

/* Writes the object of a group's event, with the outcomes from its first one on, and the chords that may follow. The bytes that it brought
 * are the parser's. Returns false if memory is refused. */
bool json_event(const line *of, const group *its, const hed_parser *parser, const bindings *bound);

/* Writes the object of a pause: the outcomes from a place on. */
void json_pause(const line *of, size_t first);

/* Writes the object of the bytes that are buffered at the end. */
void json_waiting(const line *of, const char *reason);

/* Writes a character of a string, in ASCII. */
void json_character(FILE *out, uint32_t code);

#endif
