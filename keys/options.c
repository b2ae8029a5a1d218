#include "options.h"
#include "hedrugal_terminal.h"
#include <string.h>

const mode all_modes[MODE_COUNT] = {
  [MODE_CURSOR_KEYS] = { .word = "--application-cursor-keys", .on = "\033[?1h", .off = "\033[?1l" },
  [MODE_OTHER_KEYS_1] = { .word = "--modify-other-keys=1",
                          .on = HED_TERMINAL_MODIFY_OTHER_KEYS_ON(1),
                          .off = HED_TERMINAL_MODIFY_OTHER_KEYS_OFF },
  [MODE_OTHER_KEYS_2] = { .word = "--modify-other-keys=2",
                          .on = HED_TERMINAL_MODIFY_OTHER_KEYS_ON(2),
                          .off = HED_TERMINAL_MODIFY_OTHER_KEYS_OFF },
  [MODE_MOUSE] = { .word = "--mouse", .on = HED_TERMINAL_MOUSE_ON, .off = HED_TERMINAL_MOUSE_OFF },
  [MODE_PASTE] = { .word = "--bracketed-paste", .on = HED_TERMINAL_PASTE_ON, .off = HED_TERMINAL_PASTE_OFF },
  [MODE_FOCUS] = { .word = "--focus", .on = HED_TERMINAL_FOCUS_ON, .off = HED_TERMINAL_FOCUS_OFF },
  [MODE_KITTY_ALL] = { .word = "--kitty-keyboard", .on = HED_TERMINAL_KITTY_ON(31), .off = HED_TERMINAL_KITTY_OFF, .wants_extended = true },
  [MODE_KITTY] = { .word = "", .on = HED_TERMINAL_KITTY_ON(5), .off = HED_TERMINAL_KITTY_OFF },
};

const char options_help[] =
    "usage: hedrugal-keys [SWITCH..] [FILE]\n"
    "\n"
    "Asks the terminal what it can tell, turns the best of that on, and shows the\n"
    "name of each key with the bytes that the terminal sends for it. ^D twice ends\n"
    "it. With FILE or a pipe it shows that input; FILE - is the standard input.\n"
    "\n"
    "  --once             prints the name of one key, such as ctrl+up, and ends\n"
    "  --json             an object on a line for each event\n"
    "  --hex              bytes in hexadecimal\n"
    "  --bindings=FILE    shows what the keys do by the bindings of a file, which\n"
    "                     keys may follow, and which bindings can't come here; a\n"
    "                     line of it is a command and a chord: save ctrl+x ctrl+s\n"
    "  --record=FILE      keeps what comes in, with its times, as asciinema does\n"
    "  --replay=FILE      shows such a recording by its times; wants no terminal\n"
    "  --real-time        replays it as slowly as it was recorded\n"
    "  --twins            lists the everyday keys that can't be told apart here\n"
    "  --plain            asks nothing, and turns nothing on by itself\n"
    "  --extended         of FILE, a pipe or with --plain: also reads what is\n"
    "                     beyond the sequence table, as key reports and replies\n"
    "  -h, --help         prints this\n"
    "  --version          prints the version\n"
    "  --                 ends the switches: what follows is FILE\n"
    "\n"
    "What the terminal does, if it can:\n"
    "\n"
    "  --application-cursor-keys  arrows, Home and End begin with ESC O, not ESC [\n"
    "  --modify-other-keys=1|2    characters with modifiers are sequences, at level\n"
    "                             2 all of them\n"
    "  --kitty-keyboard           keys are Kitty's reports, with repeats and\n"
    "                             releases; implies --extended\n"
    "  --mouse                    the mouse is reported\n"
    "  --bracketed-paste          it is told where a paste starts and ends\n"
    "  --focus                    it is told that the window gains or loses focus\n"
    "\n"
    "Bytes of earlier reads are in parentheses. Bytes that wait for others are\n"
    "dimmed, and the reason follows. SP is a space, ^A to ^_ and ^? are control\n"
    "characters, and two hexadecimal digits any byte from 80 on. NO_COLOR switches\n"
    "off colours.\n";

static bool read_mode(options *it, const char *word) {
  for (size_t i = 0; i < MODE_COUNT; i++) {
    if (strcmp(word, all_modes[i].word) != 0) continue;
    it->modes[i] = true;
    if (all_modes[i].wants_extended) it->is_extended = true;
    return true;
  }
  text_add(&it->refused, "what is '%s'? --help lists the words", word);
  return false;
}

/* The name - is the standard input. */
static bool read_file(options *it, const char *word) {
  if (it->has_file) text_add(&it->refused, "wants one file, and '%s' is another; --help says more", word);
  it->has_file = true;
  it->file = strcmp(word, "-") == 0 ? NULL : word;
  return it->refused.length == 0;
}

/* What a word names that has a file behind it, and the word's length, or NULL. The file is the rest of the word behind =, or the next one. */
static const char **named_by(options *it, const char *word, size_t *length) {
  const struct {
    const char *word, **file;
  } words[] = { { "--bindings", &it->bindings }, { "--record", &it->record }, { "--replay", &it->replay } };
  for (size_t i = 0; i < sizeof words / sizeof *words; i++) {
    *length = strlen(words[i].word);
    if (strncmp(word, words[i].word, *length) == 0 && strchr("=", word[*length])) return words[i].file;
  }
  return NULL;
}

/* The file is NULL if no word is left. */
static bool read_named(options *it, const char **named, const char *word, size_t length, const char *file) {
  if (!file) text_add(&it->refused, "%.*s wants a file behind it; --help says more", (int)length, word);
  else if (*named) text_add(&it->refused, "wants one file for %.*s, and '%s' is another; --help says more", (int)length, word, file);
  *named = file;
  return it->refused.length == 0;
}

/* What a word without more says, or NULL. */
static bool *word_of(options *it, const char *word) {
  const struct {
    const char *word;
    bool *asked;
  } words[] = {
    { "--extended", &it->is_extended },   { "--hex", &it->is_hex },     { "--json", &it->is_json },
    { "--once", &it->is_once },           { "--plain", &it->is_plain }, { "--twins", &it->lists_twins },
    { "--real-time", &it->is_real_time }, { "-h", &it->wants_help },    { "--help", &it->wants_help },
    { "--version", &it->wants_version },
  };
  for (size_t i = 0; i < sizeof words / sizeof *words; i++)
    if (strcmp(word, words[i].word) == 0) return words[i].asked;
  return NULL;
}

static bool read_word(options *it, const char *word) {
  if (*word != '-' || strcmp(word, "-") == 0) return read_file(it, word);
  bool *asked = word_of(it, word);
  if (!asked) return read_mode(it, word);
  *asked = true;
  return true;
}

/* The bytes of JSON are hexadecimal in any case, and a name has none. */
static bool check_form(options *it) {
  const char *second = it->is_json ? "--json" : it->is_once ? "--once" : NULL;
  if (it->is_hex && second) text_add(&it->refused, "takes one of --hex and %s; --help says more", second);
  else if (it->bindings && it->is_once) text_add(&it->refused, "takes one of --bindings and --once; --help says more");
  return it->refused.length == 0;
}

/* A list of twins has no events: it is of a terminal with the modes that are named. */
static bool check_twins(options *it) {
  const struct {
    bool is_asked;
    const char *word;
  } words[] = {
    { it->is_json, "--json" },          { it->is_hex, "--hex" },
    { it->is_once, "--once" },          { it->bindings != NULL, "--bindings" },
    { it->has_file, "a file" },         { it->record != NULL, "--record" },
    { it->replay != NULL, "--replay" },
  };
  for (size_t i = 0; i < sizeof words / sizeof *words && it->lists_twins && it->refused.length == 0; i++)
    if (words[i].is_asked) text_add(&it->refused, "takes one of %s and --twins; --help says more", words[i].word);
  return it->refused.length == 0;
}

/* A recording is of a terminal, and takes its place when it is replayed. */
static bool check_recording(options *it, bool has_terminal) {
  if (it->record && it->replay) text_add(&it->refused, "takes one of --record and --replay; --help says more");
  else if (it->replay && it->has_file) text_add(&it->refused, "wants one file, and '%s' is another; --help says more", it->replay);
  else if (it->record && (it->file || !has_terminal)) text_add(&it->refused, "--record wants a terminal as the input; --help says more");
  else if (it->is_real_time && !it->replay) text_add(&it->refused, "--real-time wants --replay; --help says more");
  return it->refused.length == 0;
}

/* A file, a pipe or a recording has no modes. A list of twins is that of the modes that are named, without a terminal too. */
static bool check_modes(options *it, bool has_terminal) {
  bool has_modes = (has_terminal && !it->file && !it->replay) || it->lists_twins;
  for (size_t i = 0; i < MODE_COUNT && it->refused.length == 0; i++)
    if (it->modes[i] && !has_modes) text_add(&it->refused, "%s wants a terminal as the input; --help says more", all_modes[i].word);
  return it->refused.length == 0;
}

static bool read_switch(options *it, const char *word, bool has_switches) {
  return has_switches ? read_word(it, word) : read_file(it, word);
}

bool options_read(options *it, int count, char **words, bool has_terminal) {
  bool has_switches = true;
  for (int i = 1; i < count; i++) {
    size_t length = 0;
    const char **named = has_switches ? named_by(it, words[i], &length) : NULL;
    bool is_next = named && words[i][length] == '\0';
    bool is_end = has_switches && strcmp(words[i], "--") == 0;
    if (is_end) has_switches = false;
    else if (!named && !read_switch(it, words[i], has_switches)) return false;
    else if (named && !read_named(it, named, words[i], length, is_next ? words[i + 1] : words[i] + length + 1)) return false;
    if (is_next) i++;
  }
  bool is_told = it->wants_help || it->wants_version;
  return is_told || (check_form(it) && check_twins(it) && check_recording(it, has_terminal) && check_modes(it, has_terminal));
}
