/* What is wrong with the name of a chord, in words: by what hed_key_read or hed_bindings_bind_name returned. A file to copy, which c/edit.c and hedrugal-keys use. */
#ifndef NAME_ERRORS_H
#define NAME_ERRORS_H

#include "hedrugal.h"

static const char *const name_errors[] = {
  [HED_NAME_CONTROL_CHARACTER] = "a control character is in the name",
  [HED_NAME_MODIFIER_TWICE] = "a modifier is there twice",
  [HED_NAME_UNKNOWN_MODIFIER] = "no modifier has this name",
  [HED_NAME_MISSING_KEY] = "no key is behind the modifiers",
  [HED_NAME_BAD_NUMBER] = "no key has this number",
  [HED_NAME_UNKNOWN_NAME] = "no key has this name",
  [HED_NAME_AMBIGUOUS] = "DEL is either backspace or delete",
  [HED_NAME_NOT_A_KEY] = "the key makes no press by itself",
  [HED_NAME_SHIFTED_CHARACTER] = "shift with a sign that shows it: write the sign alone",
  [HED_NAME_TOO_LONG] = "a chord has at most 32 keys",
  [HED_NAME_EMPTY] = "no chord",
  [HED_BAD_TEXT] = "the name isn't UTF-8",
};

#endif
