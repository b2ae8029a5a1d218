/* The program's words. */
#ifndef KEYS_OPTIONS_H
#define KEYS_OPTIONS_H

#include "text.h"
#include <stdbool.h>

/* The modes of the terminal that the program can switch on, by their places in all_modes. The last is Kitty's protocol as the program switches it
 * on by itself. */
enum { MODE_CURSOR_KEYS, MODE_OTHER_KEYS_1, MODE_OTHER_KEYS_2, MODE_MOUSE, MODE_PASTE, MODE_FOCUS, MODE_KITTY_ALL, MODE_KITTY, MODE_COUNT };

typedef struct mode {
  const char *word; /* that asks for it, empty if none does */
  const char *on, *off;
  bool wants_extended; /* whether HED_DIALECT_EXTENDED is to read the input */
} mode;

extern const mode all_modes[MODE_COUNT];

typedef struct options {
  bool is_hex, is_json;
  bool is_once; /* whether it ends after a key, and prints its name alone */
  bool is_plain; /* whether the terminal isn't asked, and no mode is switched on but by its word */
  bool lists_twins; /* whether it lists the keys that can't be told apart, and ends */
  bool wants_help, wants_version;
  bool is_extended; /* whether HED_DIALECT_EXTENDED reads the input, and not HED_DIALECT_TERMWIZ */
  bool modes[MODE_COUNT];
  bool has_file;
  const char *file; /* NULL if none is named, or the standard input is */
  const char *bindings; /* the file of bindings, NULL if none is named */
  const char *record, *replay; /* the recording that is written, or read in place of the input: NULL if none is */
  bool is_real_time; /* whether the replay takes as long as the recording */
  text refused; /* what is wrong with the words, if they are refused */
} options;

/* Reads the words. has_terminal says whether the standard input is one. Returns false if they are refused. */
bool options_read(options *it, int count, char **words, bool has_terminal);

extern const char options_help[];

#endif
