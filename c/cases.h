/* The words of the lines of tests/cases. Each function says whether a word has its form, and reads it. */
#ifndef CASES_H
#define CASES_H

#include "told.h"
#include <inttypes.h>
#include <stdlib.h>

/* The most bytes of a text that is given, the most that is told of one, and the longest line. */
enum { GIVEN_MOST = 1 << 12, BYTES_MOST = BROUGHT_MOST, LINE_MOST = 1 << 16 };

struct bytes {
  size_t len;
  uint8_t at[BYTES_MOST];
};

/* Cuts a text off before a mark, and returns what is behind it, or NULL if there is no mark. */
static char *cut(char *text, const char *mark) {
  char *at = strstr(text, mark);
  if (!at) return NULL;
  *at = '\0';
  return at + strlen(mark);
}

/* Takes the first word off a text. The last word leaves NULL. */
static const char *word_of(char **text) {
  char *word = *text;
  if (!word) return "";
  *text = cut(word, " ");
  return word;
}

/* The place of a word in a list that NULL ends, or -1. */
static int place_of(const char *word, const char *const *list) {
  for (int place = 0; list[place]; place++)
    if (strcmp(list[place], word) == 0) return place;
  return -1;
}

static bool is_number(const char *word, uint64_t *number) {
  char again[24];
  *number = strtoull(word, NULL, 10);
  snprintf(again, sizeof again, "%" PRIu64, *number);
  return strcmp(again, word) == 0;
}

/* Whether what was told, from this character on, is the word. It is forgotten. */
static bool is_told_again(const char *word, size_t from) {
  bool is_same = strcmp(told + from, word) == 0;
  forget();
  return is_same;
}

/* Reads one byte of a text behind its backslash. Returns what follows it. */
static const char *read_marked(const char *word, uint8_t *byte) {
  char digits[3] = "";
  const char *letter = *word ? strchr(letters, *word) : NULL;
  if (letter) {
    *byte = (uint8_t)marked[letter - letters];
    return word + 1;
  }
  memcpy(digits, word + 1, *word && word[1] && word[2] ? 2 : 0);
  *byte = (uint8_t)strtoul(digits, NULL, 16);
  return word + (*digits ? 3 : strlen(word));
}

/* A text in quotes, in the form in which answers are told. */
static bool is_text(const char *word, struct bytes *bytes) {
  const char *at = word + (*word == '"');
  for (bytes->len = 0; *at && *at != '"' && bytes->len < GIVEN_MOST; bytes->len++)
    if (*at == '\\') at = read_marked(at + 1, &bytes->at[bytes->len]);
    else bytes->at[bytes->len] = (uint8_t)*at++;
  tell_text(bytes->at, bytes->len);
  return is_told_again(word, 0);
}

/* The names of some bits, with + between, or NONE. */
static bool is_set(const char *word, const char *const *names, unsigned *set) {
  char copy[128] = "", *name = copy;
  *set = 0;
  strncat(copy, word, sizeof copy - 1);
  while (name && strcmp(word, "NONE") != 0) {
    char *next = cut(name, "+");
    int bit = place_of(name, names);
    if (bit < 0 || !*name) return false;
    *set |= 1u << bit;
    name = next;
  }
  tell_set(names, *set);
  return is_told_again(word, 1);
}

/* What differs from a new parser's reading. */
static bool is_mark_of_reading(const char *word, hed_reading *reading) {
  static const char *const marks[] = { "backspace", "enter", "x10", NULL };
  uint64_t questions = 0;
  switch (place_of(word, marks)) {
    case 0: reading->erase = HED_ERASE_BACKSPACE; return true;
    case 1: reading->newline = HED_NEWLINE_ENTER; return true;
    case 2: reading->x10_mouse = true; return true;
    default:
      if (strncmp(word, "asked", 5) != 0 || !is_number(word + 5, &questions) || questions > UINT8_MAX) return false;
      reading->questions = (uint8_t)questions;
      return true;
  }
}

static bool is_reading(const char *word, hed_reading *reading) {
  static const char *const dialects[] = { "extended", "termwiz", NULL };
  char copy[128] = "", *next;
  strncat(copy, word, sizeof copy - 1);
  next = cut(copy, "+");
  int dialect = place_of(copy, dialects);
  *reading = (hed_reading){ .dialect = (uint32_t)dialect };
  while (next) {
    char *mark = next;
    next = cut(mark, "+");
    if (!is_mark_of_reading(mark, reading)) return false;
  }
  return dialect >= 0;
}

/* Limits: fields of a policy, and parts. */
static bool are_limits(char *words, hed_policy *policy, size_t *parts) {
  static const char *const names[] = {
    /* hedrugal.h: c limits */
    "escape",
    "alt_key",
    "sequence",
    "string",
    "character",
    "paste",
    /* hedrugal.h: end */
    "parts",
    NULL,
  };
  enum { FIELDS = sizeof *policy / sizeof(int32_t) };
  int32_t fields[FIELDS];
  memcpy(fields, policy, sizeof fields);
  while (words) {
    char *name = words, *end = "";
    words = cut(name, " ");
    char *value = cut(name, "=");
    long number = value ? strtol(value, &end, 10) : 0;
    int field = place_of(name, names);
    if (field < 0 || !value || *end) return false;
    if (field < FIELDS) fields[field] = (int32_t)number;
    else *parts = (size_t)number;
  }
  memcpy(policy, fields, sizeof fields);
  return true;
}

/* A key of the port: a character, a function key or a name. */
static bool is_key(const char *word, uint16_t *key, uint32_t *detail) {
  char name[22];
  unsigned number = 0;
  int len = 0;
  *key = 0;
  if (sscanf(word, "U+%X%n", &number, &len) == 1 && !word[len]) *key = HED_KEY_CHAR;
  else if (sscanf(word, "F%u%n", &number, &len) == 1 && !word[len]) *key = HED_KEY_FUNCTION;
  *detail = number;
  for (uint16_t named = 1; *key == 0 && named <= LAST_KEY; named++)
    if (hed_key_name(named, (uint8_t *)name, sizeof name) > 0 && strcmp(name, word) == 0) *key = named;
  return *key != 0;
}

static const char *const statuses[] = {
  [HED_NONE] = "NONE",
  [HED_NO_MEMORY] = "NO_MEMORY",
  [HED_BAD_NUMBER] = "BAD_NUMBER",
  [HED_REFUSED_KEY] = "REFUSED_KEY",
  [HED_NO_TEXT] = "NO_TEXT",
  [HED_TOO_LONG] = "TOO_LONG",
  [HED_BAD_TEXT] = "BAD_TEXT",
  [HED_TOO_FAR] = "TOO_FAR",
  [HED_NAME_CONTROL_CHARACTER] = "NAME_CONTROL_CHARACTER",
  [HED_NAME_MODIFIER_TWICE] = "NAME_MODIFIER_TWICE",
  [HED_NAME_UNKNOWN_MODIFIER] = "NAME_UNKNOWN_MODIFIER",
  [HED_NAME_MISSING_KEY] = "NAME_MISSING_KEY",
  [HED_NAME_BAD_NUMBER] = "NAME_BAD_NUMBER",
  [HED_NAME_UNKNOWN_NAME] = "NAME_UNKNOWN_NAME",
  [HED_NAME_AMBIGUOUS] = "NAME_AMBIGUOUS",
  [HED_NAME_NOT_A_KEY] = "NAME_NOT_A_KEY",
  [HED_NAME_SHIFTED_CHARACTER] = "NAME_SHIFTED_CHARACTER",
  [HED_NAME_TOO_LONG] = "NAME_TOO_LONG",
  [HED_NAME_EMPTY] = "NAME_EMPTY",
};

static const char *name_of(hed_status status) {
  return status <= HED_NAME_EMPTY && statuses[status] ? statuses[status] : "no status";
}

#endif
