/* What tools/growth.sh counts of names of keys, bindings, matchers and pastes that are sent, and what tools/performance.py times.
 *
 *     tasks            carries tasks out within `counted`, and prints a line of each
 *     tasks figures    does so with those tasks whose time is told: tools/performance.py and tools/growth.sh read it
 *
 * A line has what the task does, with what, the size of that and how many times, then the bytes of memory that it took and its nanoseconds. */
#include "counts.h"
#include "hedrugal.h"
#include <stdint.h>
#include <stdio.h>
#include <string.h>

/* Counts a task, which does something so many times to what has this size, and prints a line of it. */
static void show(const char *name, const char *of, size_t size, size_t times, void (*task)(void *), void *it) {
  cost took = count_task(task, it);
  printf("%s %s %zu %zu %zu %.0f\n", name, of, size, times, took.memory, took.time);
}

/* Texts: what each begins with, then a part again and again, and what it ends with; and what reading it answers. */
static const struct text {
  const char *name, *start, *part, *end;
  hed_status answer;
} texts[] = {
  { "letters", "", "a", "", HED_NAME_UNKNOWN_NAME },
  { "characters", "", "\303\251", "", HED_NAME_UNKNOWN_NAME },
  { "words", "", "ctrl-", "", HED_NAME_MODIFIER_TWICE },
  { "emacs", "", "C-", "", HED_NAME_MODIFIER_TWICE },
  { "vim", "<", "C-", ">", HED_NAME_MODIFIER_TWICE },
  { "brackets", "", "<", "", HED_NAME_UNKNOWN_NAME },
  { "pluses", "", "+", "", HED_NAME_UNKNOWN_NAME },
  { "modifier", "", "x", "+", HED_NAME_UNKNOWN_MODIFIER },
  { "zeros", "U+", "0", "", HED_NAME_UNKNOWN_NAME },
  { "digits", "kitty", "1", "", HED_NAME_BAD_NUMBER },
  { "keys", "", "a ", "", HED_NAME_TOO_LONG },
  { "chord", "pageup a b c d e f g h i j k l m n o p q r s t u v w x y z C-M-<f5> <c-esc> ctrl+alt+delete U+0441 +", " ", "", HED_OK },
  { "blanks", "", " \t", "", HED_NAME_EMPTY },
  { "last", "a", " ", "foo", HED_NAME_UNKNOWN_NAME },
  { "control", "a", " ", "\033", HED_NAME_CONTROL_CHARACTER },
  { "broken", "", "\360\237\230\200", "\377", HED_BAD_TEXT },
};

enum { SHORT_TEXT = 1 << 13, LONG_TEXT = 1 << 16, TEXT_MOST = 256 };

/* A text of which so many bytes are read, and how many times. */
struct reading {
  const struct text *of;
  size_t len, rounds;
  uint8_t bytes[LONG_TEXT];
};

static void fill(struct reading *it) {
  size_t start = strlen(it->of->start), part = strlen(it->of->part), end = strlen(it->of->end);
  memcpy(it->bytes, it->of->start, start);
  for (size_t at = start; at < it->len; at++) it->bytes[at] = (uint8_t)it->of->part[(at - start) % part];
  memcpy(it->bytes + it->len - end, it->of->end, end);
}

static void read_name(void *given) {
  struct reading *it = given;
  hed_key_press keys[HED_CHORD_MOST];
  size_t count, at;
  for (size_t i = 0; i < it->rounds; i++) want(hed_key_read(it->bytes, it->len, keys, HED_CHORD_MOST, &count, &at) == it->of->answer);
}

static void show_reading(void) {
  static struct reading it = { .rounds = 1 };
  for (it.of = texts; it.of < texts + sizeof texts / sizeof *texts; it.of++)
    for (it.len = SHORT_TEXT; it.len <= LONG_TEXT; it.len *= LONG_TEXT / SHORT_TEXT) {
      fill(&it);
      show("read", it.of->name, it.len, it.len, read_name, &it);
    }
}

typedef struct chord {
  hed_key_press keys[HED_CHORD_MOST];
  size_t count;
} chord;

static void add(chord *it, uint16_t key, uint8_t held, uint32_t detail) {
  it->keys[it->count++] = (hed_key_press){ key, held, detail };
}

/* A chord whose name is printed, and how many times. */
struct printing {
  chord of;
  size_t rounds;
};

static void print_name(void *given) {
  const struct printing *it = given;
  uint8_t name[64 * HED_CHORD_MOST];
  size_t len;
  for (size_t i = 0; i < it->rounds; i++)
    want(hed_key_print(it->of.keys, it->of.count, name, sizeof name, &len) == HED_OK && len <= sizeof name);
}

static void show_printing(void) {
  enum { FEW = 4, ALL_MODIFIERS = 63 };
  static const hed_key_press presses[] = { { HED_KEY_CHAR, 0, 'a' }, { HED_KEY_APPLICATIONS, ALL_MODIFIERS, 0 } };
  static const char *const names[] = { "letters", "modified" };
  for (size_t i = 0; i < sizeof presses / sizeof *presses; i++) {
    struct printing it = { .rounds = 1 };
    while (it.of.count < HED_CHORD_MOST) {
      add(&it.of, presses[i].key, presses[i].held, presses[i].detail);
      if (it.of.count == FEW || it.of.count == HED_CHORD_MOST) show("print", names[i], it.of.count, it.of.count, print_name, &it);
    }
  }
}

/* A name as people write it, read and printed again and again. */
static void show_name(size_t rounds) {
  static const char name[] = "ctrl+x ctrl+s";
  static const struct text text = { "name", name, "", "", HED_OK };
  static struct reading reading = { .of = &text, .len = sizeof name - 1 };
  struct printing printing = { .rounds = reading.rounds = rounds };
  memcpy(reading.bytes, name, reading.len);
  add(&printing.of, HED_KEY_CHAR, HED_KITTY_MOD_CTRL, 'x');
  add(&printing.of, HED_KEY_CHAR, HED_KITTY_MOD_CTRL, 's');
  show("read", "name", reading.len, rounds, read_name, &reading);
  show("print", "name", printing.of.count, rounds, print_name, &printing);
}

/* Many chords of 1 to HED_CHORD_MOST presses, in rising order; and some of 1 and 2 presses, of which those of 1 come first. */
enum { MANY = 100000, FEWER = 10000, SOME = 500, PROBES = 1000, ROUNDS = 200 };
static chord many[MANY], some[SOME];

/* Makes the letters of a number, without the a at their end. If none was there, x follows up to 28 times. */
static void make_chord(chord *it, uint32_t number) {
  enum { LETTERS = 4, ALPHABET = 26 };
  it->count = LETTERS;
  for (size_t i = LETTERS, rest = number; i-- > 0; rest /= ALPHABET)
    it->keys[i] = (hed_key_press){ HED_KEY_CHAR, 0, 'a' + (uint32_t)(rest % ALPHABET) };
  size_t more = number % ALPHABET ? number * 7 % (HED_CHORD_MOST - LETTERS + 1) : 0;
  while (it->keys[it->count - 1].detail == 'a') it->count--;
  for (; more > 0; more--) add(it, HED_KEY_CHAR, 0, 'x');
}

/* Makes letters with modifiers but SHIFT, alone or behind F1. */
static void make_some(void) {
  for (uint32_t i = 0; i < SOME; i++) {
    uint32_t number = i % (SOME / 2);
    if (i >= SOME / 2) add(&some[i], HED_KEY_FUNCTION, 0, 1);
    add(&some[i], HED_KEY_CHAR, (uint8_t)(2 * (number / 26 + 1)), 'a' + number % 26);
  }
}

static void make_chords(void) {
  for (uint32_t i = 0; i < MANY; i++) make_chord(&many[i], 3 * (i + 1));
  make_some();
}

/* Bindings, and the places of some of their chords in some order. */
typedef struct work {
  hed_bindings bindings;
  const chord *chords;
  size_t count, rounds;
  uint32_t order[MANY];
} work;

enum order { RISING, FALLING, DRAWN };
static const char *const order_names[] = { "rising", "falling", "drawn" };

static uint32_t draw(size_t below) {
  static uint32_t state = 1;
  state = state * 1664525 + 1013904223;
  return (uint32_t)(((uint64_t)state * below) >> 32);
}

static void shuffle(uint32_t *places, size_t count) {
  for (size_t i = count; i > 1; i--) {
    uint32_t other = draw(i), place = places[other];
    places[other] = places[i - 1];
    places[i - 1] = place;
  }
}

static void put_in_order(work *it, enum order order) {
  for (size_t i = 0; i < it->count; i++) it->order[i] = (uint32_t)(order == FALLING ? it->count - 1 - i : i);
  if (order == DRAWN) shuffle(it->order, it->count);
}

static void bind_all(void *given) {
  work *it = given;
  for (size_t i = 0; i < it->count; i++) {
    const chord *next = &it->chords[it->order[i]];
    want(hed_bindings_bind(&it->bindings, next->keys, next->count, it->order[i]) == HED_OK);
  }
}

static void unbind_all(void *given) {
  work *it = given;
  uint64_t value;
  for (size_t i = 0; i < it->count; i++) {
    const chord *next = &it->chords[it->order[i]];
    want(hed_bindings_unbind(&it->bindings, next->keys, next->count, &value) == HED_OK && value == it->order[i]);
  }
}

static void look_all_up(void *given) {
  work *it = given;
  uint64_t value;
  for (size_t i = 0; i < it->rounds * it->count; i++) {
    const chord *next = &it->chords[it->order[i % it->count]];
    want(hed_bindings_lookup(&it->bindings, next->keys, next->count, &value) == HED_OK && value == it->order[i % it->count]);
  }
}

/* Presses the keys of each chord, and takes each outcome. */
static void press_all(void *given) {
  work *it = given;
  hed_matcher matcher = HED_MATCHER_NONE;
  hed_outcome outcome;
  for (size_t i = 0; i < it->rounds * it->count; i++) {
    const chord *next = &it->chords[it->order[i % it->count]];
    hed_status answer = HED_NONE;
    for (size_t k = 0; k < next->count; k++) {
      want(hed_matcher_press(&matcher, &next->keys[k]) == HED_OK && answer == HED_NONE);
      answer = hed_matcher_next(&matcher, &it->bindings, true, &outcome);
    }
    want(answer == HED_OK && outcome.kind == HED_OUTCOME_BOUND && outcome.value == it->order[i % it->count]);
  }
}

static void list_all(void *given) {
  work *it = given;
  hed_key_press keys[HED_CHORD_MOST];
  uint64_t value;
  size_t count;
  for (size_t i = 0; i < it->count; i++)
    want(hed_bindings_entry(&it->bindings, it->order[i], keys, 0, &count, &value) == HED_OK && value == it->order[i]);
}

static void continue_all(void *given) {
  work *it = given;
  size_t first, end;
  for (size_t i = 0; i < it->count; i++)
    want(hed_bindings_continuations(&it->bindings, it->chords[it->order[i]].keys, 1, &first, &end) == HED_OK);
}

/* A key map of the rows of the sequence table, and those of so many bytes. */
typedef struct rows {
  hed_keymap map;
  size_t count, rounds;
  uint8_t bytes[HED_ENTRY_COUNT][HED_ENTRY_MOST];
} rows;

enum { ROW = 5 };

static void make_rows(rows *it) {
  hed_parser parser = HED_PARSER_NONE;
  hed_event key;
  want(hed_parser_init(&parser, HED_DIALECT_EXTENDED) == HED_OK && hed_keymap_init(&it->map) == HED_OK);
  for (size_t at = 0; at < HED_ENTRY_COUNT; at++) {
    uint8_t *bytes = it->bytes[it->count];
    size_t len = hed_parser_entry(&parser, at, bytes, HED_ENTRY_MOST, &key);
    want(hed_keymap_insert(&it->map, bytes, len, at) == HED_OK);
    it->count += len == ROW;
  }
  hed_parser_free(&parser);
}

static void look_rows_up(void *given) {
  rows *it = given;
  hed_match match;
  for (size_t i = 0; i < it->rounds * it->count; i++)
    want(hed_keymap_lookup(&it->map, it->bytes[i % it->count], ROW, false, &match) == HED_OK && match.len == ROW);
}

/* The rows of five bytes, and the chords of 1 and of 2 presses. */
static void show_lookups(size_t rounds) {
  static rows rows;
  static work it = { .chords = some };
  rows.rounds = it.rounds = rounds;
  make_rows(&rows);
  show("lookup", "row", HED_ENTRY_COUNT, rounds * rows.count, look_rows_up, &rows);
  hed_keymap_free(&rows.map);
  it.count = SOME;
  put_in_order(&it, RISING);
  want(hed_bindings_init(&it.bindings) == HED_OK);
  bind_all(&it);
  it.count = SOME / 2;
  for (size_t keys = 1; keys <= 2; keys++) {
    for (size_t i = 0; i < it.count; i++) it.order[i] = (uint32_t)(i + (keys - 1) * it.count);
    show("lookup", keys == 1 ? "one" : "two", SOME, rounds * it.count, look_all_up, &it);
    show("press", keys == 1 ? "one" : "two", SOME, keys * rounds * it.count, press_all, &it);
  }
  hed_bindings_free(&it.bindings);
}

/* Draws places of so many chords. */
static void draw_places(work *it, size_t below) {
  for (it->count = 0; it->count < PROBES; it->count++) it->order[it->count] = draw(below);
}

/* Binds so many chords in an order, and unbinds them in each order: in that of binding, in the opposite one, or in none. */
static void show_binding(size_t count, enum order order) {
  static work it = { .chords = many, .rounds = 1 };
  it.count = count;
  put_in_order(&it, order);
  want(hed_bindings_init(&it.bindings) == HED_OK);
  show("bind", order_names[order], count, count, bind_all, &it);
  draw_places(&it, count);
  show("lookup", order_names[order], count, it.count, look_all_up, &it);
  show("entry", order_names[order], count, it.count, list_all, &it);
  show("continuations", order_names[order], count, it.count, continue_all, &it);
  it.count = count;
  for (enum order next = RISING; next <= DRAWN; next++) {
    if (next != RISING) {
      put_in_order(&it, order);
      bind_all(&it);
    }
    char names[32];
    snprintf(names, sizeof names, "%s/%s", order_names[order], order_names[next]);
    put_in_order(&it, next);
    show("unbind", names, count, count, unbind_all, &it);
  }
  hed_bindings_free(&it.bindings);
}

/* A text that is pasted is a part again and again. */
static const struct paste {
  const char *name, *part;
} pastes[] = {
  { "plain", "all in one line " },  { "lines", "echo all lines of a text that is pasted into a shell >> notes\n" },
  { "ideographs", "\346\274\242" }, { "escapes", "\033" },
  { "ends", "\033[20\033[201~1~" }, { "broken", "\377" },
};

enum { SHORT_PASTE = 1 << 17, LONG_PASTE = 1 << 20, BRACKETS = 12 };
static uint8_t pasted[LONG_PASTE], sent[3 * LONG_PASTE + BRACKETS];

static void send_paste(void *given) {
  const size_t *len = given;
  size_t sent_len;
  want(hed_encode_paste(pasted, *len, true, sent, sizeof sent, &sent_len) == HED_OK && sent_len <= 3 * *len + BRACKETS);
}

/* Pastes of two lengths. */
static void show_sending(void) {
  for (const struct paste *it = pastes; it < pastes + sizeof pastes / sizeof *pastes; it++) {
    for (size_t at = 0, part = strlen(it->part); at < LONG_PASTE; at++) pasted[at] = (uint8_t)it->part[at % part];
    for (size_t len = SHORT_PASTE; len <= LONG_PASTE; len *= LONG_PASTE / SHORT_PASTE) show("send", it->name, len, len, send_paste, &len);
  }
}

/* The kinds of events, each by the bytes that it is read from. */
static const struct kind {
  const char *name, *bytes;
} kinds[] = {
  { "character", "a" },
  { "arrow", "\033[A" },
  { "row", "\033a" },
  { "alt", "\033\303\251" },
  { "mouse", "\033[<0;3;4M" },
  { "paste", "\033[200~ls -l notes\033[201~" },
  { "report", "\033[97;5:3u" },
  { "focus", "\033[I" },
  { "position", "\033[?24;80R" },
  { "size", "\033[48;24;80;480;800t" },
  { "flags", "\033[?5u" },
  { "side", "\033[<128;3;4M" },
  { "csi", "\033[?62;22c" },
  { "osc", "\033]11;rgb:1e1e/1e1e/1e1e\033\\" },
  { "dcs", "\033P>|xterm(390)\033\\" },
  { "apc", "\033_Gi=31;OK\033\\" },
};

/* An event that is written, with its text, and how many times. */
struct writing {
  hed_parser parser;
  hed_event event;
  uint8_t text[TEXT_MOST];
  size_t rounds;
};

static void write_event(void *given) {
  const struct writing *it = given;
  uint8_t out[TEXT_MOST];
  size_t len;
  for (size_t i = 0; i < it->rounds; i++)
    want(hed_encode_event(&it->event, it->text, it->event.text_len, &it->parser, out, sizeof out, &len) == HED_OK);
}

static void show_writing(size_t rounds) {
  struct writing it = { .parser = HED_PARSER_NONE, .rounds = rounds };
  want(hed_parser_init(&it.parser, HED_DIALECT_EXTENDED) == HED_OK);
  for (const struct kind *of = kinds; of < kinds + sizeof kinds / sizeof *kinds; of++) {
    want(hed_parser_feed(&it.parser, 0, (const uint8_t *)of->bytes, strlen(of->bytes)) == HED_OK);
    hed_parser_flush(&it.parser);
    want(hed_parser_next(&it.parser, &it.event) == HED_OK && hed_parser_text(&it.parser, it.text, TEXT_MOST) == it.event.text_len);
    show("write", of->name, strlen(of->bytes), rounds, write_event, &it);
  }
  hed_parser_free(&it.parser);
}

int main(int argc, char **argv) {
  make_chords();
  if (argc == 2 && strcmp(argv[1], "figures") == 0) {
    show_name(ROUNDS * PROBES);
    show_writing(ROUNDS * PROBES / 10);
    show_lookups(ROUNDS);
    show_binding(FEWER, DRAWN);
    for (enum order order = RISING; order < DRAWN; order++) show_binding(MANY, order);
    return 0;
  }
  show_reading();
  show_printing();
  show_lookups(1);
  for (size_t count = MANY / 4; count <= MANY; count *= 4)
    for (enum order order = RISING; order <= DRAWN; order++) show_binding(count, order);
  show_sending();
  return 0;
}
