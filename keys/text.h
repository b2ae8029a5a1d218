/* A text that is put together, as long as a line of the screen needs. */
#ifndef KEYS_TEXT_H
#define KEYS_TEXT_H

#include <stddef.h>
#include <stdint.h>
#include <stdio.h>

enum { TEXT_SIZE = 512 };

typedef struct text {
  char bytes[TEXT_SIZE]; /* ends with a 0 */
  size_t length;
} text;

/* Appends as printf prints. What has no room is cut off. */
void text_add(text *it, const char *format, ...);

/* The code point of the character at the front of a text in UTF-8, and how many bytes it has. */
uint32_t text_code_point(const char *front, size_t *length);

/* How many bytes the character in UTF-8 has that is at the front of at most so many bytes, 0 if there is none or only its beginning. */
size_t text_character(const uint8_t *front, size_t most);

/* How many columns a text in UTF-8 takes. */
size_t text_width(const char *characters);

/* Appends bytes that others chose, such as those of a paste. Characters in UTF-8 that show are themselves. Others are written as U+202E, and control
 * characters and bytes that begin no character as \r or \x1b. */
void text_add_shown(text *it, const char *bytes, size_t length);

/* Prints words that others chose, such as a file's name. Each byte of a control character, or that begins no character in UTF-8, is
 * printed as in \x1b, since it would act on the terminal. */
void text_print(FILE *out, const char *words);

#endif
