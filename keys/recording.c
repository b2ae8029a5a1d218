#define _POSIX_C_SOURCE 200809L
#include "recording.h"
#include "json.h"
#include <errno.h>
#include <fcntl.h>
#include <stdlib.h>
#include <string.h>
#include <sys/types.h>
#include <time.h>

/* A byte that is part of no character is written as the character of its number above this one: as U+EF80 to U+EFFF, which are for private use.
 * So a character among these is written byte by byte. */
enum { LONE_BYTES = 0xef00 };

/* The last second that is read, and how deep the values of a line may lie in others. */
enum { SECONDS_MOST = 1000000000, DEPTH_MOST = 16 };

static const char blanks[] = " \t\r\n", own_title[] = "hedrugal-keys ";

static bool fail(recording *it, int error) {
  text_add(&it->failure, "%s: %s", it->name, strerror(error));
  return false;
}

static bool is_lone_byte(uint32_t code) {
  return code >= LONE_BYTES + 0x80 && code <= LONE_BYTES + 0xff;
}

/* The character that is written for the front of some bytes, and how many of them it stands for. */
static uint32_t character_for(const uint8_t *front, size_t length, size_t *taken) {
  *taken = text_character(front, length);
  uint32_t code = *taken > 0 ? text_code_point((const char *)front, taken) : 0;
  if (*taken > 0 && !is_lone_byte(code)) return code;
  *taken = 1;
  return *front < 0x80 ? *front : LONE_BYTES + *front;
}

static void put_string(FILE *file, const uint8_t *bytes, size_t length) {
  putc('"', file);
  for (size_t at = 0, taken; at < length; at += taken) json_character(file, character_for(bytes + at, length - at, &taken));
  putc('"', file);
}

static bool flush(recording *it) {
  return (fflush(it->file) == 0 && !ferror(it->file)) || fail(it, errno);
}

/* Nobody else may read what was typed, as a password. */
static FILE *fopen_private(const char *name) {
  int descriptor = open(name, O_WRONLY | O_CREAT | O_TRUNC | O_CLOEXEC, 0600);
  return descriptor < 0 ? NULL : fdopen(descriptor, "w");
}

bool recording_open(recording *it, const char *name, uint64_t now, const hed_size *size, enum hed_erase erase) {
  const char *terminal = getenv("TERM");
  it->name = name;
  it->start = now;
  it->file = fopen_private(name);
  if (!it->file) return fail(it, errno);
  fprintf(it->file, "{\"version\": 2, \"width\": %u, \"height\": %u, ", size->columns, size->rows);
  fprintf(it->file, "\"timestamp\": %lld, \"title\": \"%s" HED_VERSION "\", ", (long long)time(NULL), own_title);
  fprintf(it->file, "\"erase\": %d, \"env\": {\"TERM\": ", erase == HED_ERASE_BACKSPACE ? '\b' : 0x7f);
  put_string(it->file, (const uint8_t *)(terminal ? terminal : ""), terminal ? strlen(terminal) : 0);
  fputs("}}\n", it->file);
  return flush(it);
}

bool recording_write(recording *it, uint64_t now, const uint8_t *bytes, size_t length) {
  uint64_t time = now - it->start;
  fprintf(it->file, "[%llu.%03u, \"i\", ", (unsigned long long)(time / 1000), (unsigned)(time % 1000));
  put_string(it->file, bytes, length);
  fputs("]\n", it->file);
  return flush(it);
}

/* JSON. Each function goes behind what it reads, and returns false or NULL if that isn't there. */

static bool take_next(char **at, char wanted) {
  if (**at != wanted) return false;
  ++*at;
  return true;
}

static bool take(char **at, char wanted) {
  *at += strspn(*at, blanks);
  return take_next(at, wanted);
}

static bool take_number(char **at, double *number) {
  *at += strspn(*at, blanks);
  if (strspn(*at, "-0123456789") == 0) return false;
  *number = strtod(*at, at);
  return true;
}

/* Four hexadecimal digits. */
static bool take_unit(char **at, uint32_t *unit) {
  char digits[5] = "", *end;
  strncpy(digits, *at, 4);
  if (strspn(digits, "0123456789abcdefABCDEF") != 4) return false;
  *unit = (uint32_t)strtoul(digits, &end, 16);
  *at += 4;
  return true;
}

/* What follows a backslash. */
static bool take_escape(char **at, uint32_t *code) {
  static const char letters[] = "\"\\/bfnrt", meant[] = "\"\\/\b\f\n\r\t";
  const char *letter = **at ? strchr(letters, **at) : NULL;
  uint32_t low;
  if (letter) *code = (uint32_t)meant[letter - letters];
  if (letter) return take_next(at, *letter);
  if (!take_next(at, 'u') || !take_unit(at, code)) return false;
  if (*code < 0xd800 || *code > 0xdfff) return true;
  if (!take_next(at, '\\') || !take_next(at, 'u') || !take_unit(at, &low)) return false;
  bool is_pair = *code < 0xdc00 && low >= 0xdc00 && low <= 0xdfff;
  *code = 0x10000 + ((*code - 0xd800) << 10) + (low - 0xdc00);
  return is_pair;
}

static bool take_character(char **at, uint32_t *code) {
  size_t length = text_character((const uint8_t *)*at, strnlen(*at, 4));
  if (length == 0) return false;
  *code = text_code_point(*at, &length);
  *at += length;
  return *code != '\\' || take_escape(at, code);
}

/* Writes the byte or the character in UTF-8, which is no longer than in JSON, and goes behind it. */
static void put_bytes(char **end, uint32_t code) {
  static const uint8_t starts[] = { 0, 0, 0xc0, 0xe0, 0xf0 };
  size_t length = code < 0x80 || is_lone_byte(code) ? 1 : code < 0x800 ? 2 : code < 0x10000 ? 3 : 4;
  if (is_lone_byte(code)) code -= LONE_BYTES;
  for (size_t i = length - 1; i > 0; i--, code >>= 6) (*end)[i] = (char)(0x80 | (code & 0x3f));
  **end = (char)(starts[length] | code);
  *end += length;
}

/* Decodes a string in its place, and ends it with a 0. */
static char *take_string(char **at, size_t *length) {
  uint32_t code;
  if (!take(at, '"')) return NULL;
  char *start = *at, *end = start;
  while (**at != '"') {
    if (!take_character(at, &code)) return NULL;
    put_bytes(&end, code);
  }
  ++*at;
  *end = '\0';
  *length = (size_t)(end - start);
  return start;
}

static bool skip_value(char **at, unsigned depth);

static bool skip_members(char **at, char last, unsigned depth) {
  size_t length;
  if (depth > DEPTH_MOST) return false;
  if (take(at, last)) return true;
  do {
    if (last == '}' && !(take_string(at, &length) && take(at, ':'))) return false;
    if (!skip_value(at, depth)) return false;
  } while (take(at, ','));
  return take(at, last);
}

static bool skip_value(char **at, unsigned depth) {
  size_t length;
  if (take(at, '{')) return skip_members(at, '}', depth + 1);
  if (take(at, '[')) return skip_members(at, ']', depth + 1);
  if (**at == '"') return take_string(at, &length);
  length = strspn(*at, "+-.0123456789abcdefghijklmnopqrstuvwxyzE");
  *at += length;
  return length > 0;
}

/* Reading. */

static const char no_recording[] = "is no recording of asciinema's version 2";
static const char no_event[] = "is no event, such as [1.5, \"i\", \"a\"]";

static const char *take_name(char **at) {
  size_t length;
  const char *name = take_string(at, &length);
  return name && take(at, ':') ? name : NULL;
}

/* A string, which is looked at, or another value. */
static bool take_text(char **at, const char **it) {
  size_t length;
  *at += strspn(*at, blanks);
  *it = "";
  return **at == '"' ? (*it = take_string(at, &length)) != NULL : skip_value(at, 0);
}

/* Variables of the environment. */
static bool read_env(recording *it, char **at) {
  if (!take(at, '{')) return false;
  if (take(at, '}')) return true;
  do {
    const char *name = take_name(at), *value;
    if (!name || !take_text(at, &value)) return false;
    if (strcmp(name, "TERM") == 0) text_add(&it->terminal, "%s", value);
  } while (take(at, ','));
  return take(at, '}');
}

static bool read_title(recording *it, char **at) {
  const char *title;
  if (!take_text(at, &title)) return false;
  it->is_own = strncmp(title, own_title, strlen(own_title)) == 0;
  return true;
}

static bool read_erase(recording *it, char **at) {
  double erase;
  if (!take_number(at, &erase)) return false;
  it->erase = erase == '\b' ? HED_ERASE_BACKSPACE : HED_ERASE_DELETE;
  return true;
}

static bool read_field(recording *it, char **at, double *version) {
  const char *name = take_name(at);
  if (!name) return false;
  if (strcmp(name, "version") == 0) return take_number(at, version);
  if (strcmp(name, "title") == 0) return read_title(it, at);
  if (strcmp(name, "erase") == 0) return read_erase(it, at);
  return strcmp(name, "env") == 0 ? read_env(it, at) : skip_value(at, 0);
}

/* Returns what is wrong with the line, or NULL. */
static const char *read_header(recording *it, char *at) {
  double version = 0;
  if (!take(&at, '{')) return no_recording;
  do
    if (!read_field(it, &at, &version)) return no_recording;
  while (take(&at, ','));
  return take(&at, '}') && take(&at, '\0') && version == 2 ? NULL : no_recording;
}

static bool keep(recording *it, const char *bytes, size_t length) {
  recorded_read *added = malloc(sizeof *added + length);
  if (!added) return false;
  *added = (recorded_read){ .time = (uint64_t)(it->seconds * 1000 + 0.5), .length = length };
  memcpy(added->bytes, bytes, length);
  *(it->last ? &it->last->next : &it->first) = added;
  it->last = added;
  return true;
}

/* The same for an event: its time, its kind and its text. Those of other kinds than "i" are skipped. */
static const char *read_event(recording *it, char *at) {
  size_t length = 0;
  double before = it->seconds;
  if (!take(&at, '[') || !take_number(&at, &it->seconds) || !take(&at, ',')) return no_event;
  char *kind = take_string(&at, &length);
  if (!kind || !take(&at, ',')) return no_event;
  bool is_input = strcmp(kind, "i") == 0;
  char *bytes = is_input ? take_string(&at, &length) : at;
  if (!bytes || (!is_input && !skip_value(&at, 0)) || !take(&at, ']') || !take(&at, '\0')) return no_event;
  if (it->seconds < before) return "the time goes back";
  if (it->seconds > SECONDS_MOST) return no_event;
  return !is_input || length == 0 || keep(it, bytes, length) ? NULL : "out of memory";
}

static const char *read_line(recording *it, size_t number, char *line, size_t length) {
  if (strlen(line) != length) return number == 1 ? no_recording : no_event;
  if (number == 1) return read_header(it, line);
  return line[strspn(line, blanks)] == '\0' ? NULL : read_event(it, line);
}

/* A file that begins otherwise may have no end of a line. */
static bool is_recording(FILE *file) {
  int first = getc(file);
  return first == '{' && ungetc(first, file) == first;
}

static bool read_lines(recording *it, char **line) {
  const char *wrong = is_recording(it->file) ? NULL : no_recording;
  size_t room = 0, number = wrong ? 1 : 0;
  ssize_t length;
  while (!wrong && (length = getline(line, &room, it->file)) > 0) {
    number++;
    wrong = read_line(it, number, *line, (size_t)length);
  }
  if (ferror(it->file) || (!wrong && !feof(it->file))) return fail(it, errno);
  if (wrong) text_add(&it->failure, "%s:%zu: %s", it->name, number, wrong);
  return !wrong;
}

bool recording_read(recording *it, const char *name) {
  char *line = NULL;
  it->name = name;
  it->file = strcmp(name, "-") == 0 ? stdin : fopen(name, "r");
  if (!it->file) return fail(it, errno);
  bool is_read = read_lines(it, &line);
  free(line);
  return is_read;
}

bool recording_close(recording *it) {
  bool is_closed = !it->file || it->file == stdin || fclose(it->file) == 0 || fail(it, errno);
  for (recorded_read *read = it->first, *next; read; read = next) {
    next = read->next;
    free(read);
  }
  return is_closed;
}
