#include "text.h"
#include <stdarg.h>
#include <stdbool.h>
#include <string.h>

void text_add(text *it, const char *format, ...) {
  size_t room = TEXT_SIZE - it->length;
  va_list values;
  va_start(values, format);
  int added = vsnprintf(it->bytes + it->length, room, format, values);
  va_end(values);
  if (added > 0) it->length += (size_t)added < room ? (size_t)added : room - 1;
}

uint32_t text_code_point(const char *front, size_t *length) {
  static const uint8_t masks[] = { 0, 0x7f, 0x1f, 0x0f, 0x07 };
  const uint8_t *bytes = (const uint8_t *)front;
  *length = *bytes < 0x80 ? 1 : *bytes < 0xe0 ? 2 : *bytes < 0xf0 ? 3 : 4;
  uint32_t code = *bytes & masks[*length];
  for (size_t i = 1; i < *length; i++) code = code << 6 | (bytes[i] & 0x3f);
  return code;
}

size_t text_character(const uint8_t *front, size_t most) {
  static const uint32_t least[] = { 0, 0, 0x80, 0x800, 0x10000 };
  if (most == 0 || *front < 0x80) return most > 0;
  if (*front < 0xc0 || *front >= 0xf8) return 0;
  size_t length = *front < 0xe0 ? 2 : *front < 0xf0 ? 3 : 4;
  if (length > most) return 0;
  for (size_t i = 1; i < length; i++)
    if ((front[i] & 0xc0) != 0x80) return 0;
  uint32_t code = text_code_point((const char *)front, &length);
  bool is_surrogate = code >= 0xd800 && code < 0xe000;
  return code >= least[length] && code <= 0x10ffff && !is_surrogate ? length : 0;
}

/* How many of so many bytes the character at the front has, 0 if it is a control character or none. */
static size_t shown_length(const char *front, size_t most) {
  size_t length = text_character((const uint8_t *)front, most);
  uint32_t code = length > 0 ? text_code_point(front, &length) : 0;
  return code >= 0xa0 || (code >= ' ' && code < 0x7f) ? length : 0;
}

/* The first and the last of the code points of a kind, in their order. */
typedef struct range {
  uint32_t first, last;
} range;

/* Those that take two columns, by the blocks of Unicode's East Asian width. */
static const range wide[] = {
  { 0x1100, 0x115f },   { 0x2e80, 0x303e },   { 0x3041, 0xa4cf },   { 0xa960, 0xa97c }, { 0xac00, 0xd7a3 },
  { 0xf900, 0xfaff },   { 0xfe30, 0xfe6f },   { 0xff01, 0xff60 },   { 0xffe0, 0xffe6 }, { 0x1f300, 0x1f64f },
  { 0x1f680, 0x1f6ff }, { 0x1f900, 0x1faff }, { 0x20000, 0x3fffd },
};

/* Those that don't show, or change how others do: soft hyphen, joiners, marks of direction, variants and tags. */
static const range hidden[] = {
  { 0xad, 0xad },     { 0x61c, 0x61c },   { 0x180e, 0x180e }, { 0x200b, 0x200f }, { 0x2028, 0x202e },
  { 0x2060, 0x206f }, { 0xfe00, 0xfe0f }, { 0xfeff, 0xfeff }, { 0xfff9, 0xfffb }, { 0xe0000, 0xe0fff },
};

#define IS_ONE_OF(ranges, code) is_within(ranges, sizeof(ranges) / sizeof *(ranges), code)

static bool is_within(const range *ranges, size_t count, uint32_t code) {
  size_t at = 0;
  while (at < count && ranges[at].last < code) at++;
  return at < count && code >= ranges[at].first;
}

size_t text_width(const char *characters) {
  size_t width = 0;
  for (size_t taken; *characters; characters += taken) width += IS_ONE_OF(wide, text_code_point(characters, &taken)) ? 2 : 1;
  return width;
}

static void add_control(text *it, uint8_t byte) {
  if (byte == '\r') text_add(it, "\\r");
  else if (byte == '\n') text_add(it, "\\n");
  else if (byte == '\t') text_add(it, "\\t");
  else text_add(it, "\\x%02x", byte);
}

void text_add_shown(text *it, const char *bytes, size_t length) {
  for (size_t at = 0, taken; at < length; at += taken) {
    size_t shown = shown_length(bytes + at, length - at);
    uint32_t code = shown == 0 ? 0 : text_code_point(bytes + at, &taken);
    taken = shown == 0 ? 1 : shown;
    if (shown == 0) add_control(it, (uint8_t)bytes[at]);
    else if (IS_ONE_OF(hidden, code)) text_add(it, "U+%04X", (unsigned)code);
    else text_add(it, "%.*s", (int)shown, bytes + at);
  }
}

void text_print(FILE *out, const char *words) {
  while (*words) {
    size_t length = shown_length(words, strlen(words));
    if (length == 0) fprintf(out, "\\x%02x", (uint8_t)*words);
    else fwrite(words, 1, length, out);
    words += length == 0 ? 1 : length;
  }
}
