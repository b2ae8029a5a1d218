/* What tools/growth.sh counts: passes of a parser over texts of two lengths. A pass makes a parser, gives it a text in reads of one size,
 * takes the events, and ends the parser. It goes through the calls of c/hedrugal.h, in one dialect or the other and with pastes in parts, or
 * through parse_as_vec (parser_pass of tools/growth/feed.rt.txt). A pass of no bytes makes and ends a parser.
 *
 *     growth             makes each pass within `counted`, and prints its name, the numbers of its bytes and its events, the length of the
 *                        longest text that waited, the most bytes of memory in use, and the largest request for memory
 *     growth long        does the same over long texts
 *     growth parsers     makes many parsers that share one table, and prints how many bytes of memory each has in use: once they are made,
 *                        after a read of keys, and some of them after a long paste, once they gave memory back; and what is left of all */
#include "counts.h"
#include "hedrugal.h"
#include <stdbool.h>
#include <stdint.h>
#include <stdio.h>
#include <stdlib.h>
#include <string.h>

bool parser_pass(const uint8_t *bytes, size_t length, size_t read, uint64_t *events, size_t *waiting);

/* The longest text, a read, and the bytes of an open paste above which its text is taken in parts. */
enum { LONGEST = 1 << 18, READ = 4096, LIMIT = 1 << 20, PARTED = LIMIT + 16 * READ };

static const char replies[] =
    "\x1b[24;80R\x1b[?1;5R\x1b[I\x1b[?62;22c\x1b[?5u\x1b[97;5:3u\x1b[48;24;80;480;800t"
    "\x1b]11;rgb:1e1e/1e1e/1e1e\x1b\\\x1b[?2026;2$y\x1b[57358;2u";

/* The texts: what each begins with, and then parts in turn, each as many times as it says. */
static const struct text {
  const char *name;
  bool is_extended; /* whether HED_DIALECT_EXTENDED alone gets it */
  const char *start;
  const char *parts[6];
  size_t times[5];
} texts[] = {
  { "typed", false, "", { "the quick brown fox\rjumps\tover\x7f \003a lazy dog " }, { 1 } },
  { "keys", false, "", { "\x1b[A\x1b[1;5C\x1bOP\x1b[15~\x1b[3;5~\x1b[97;5u\x1b[Z\x1bx\x1b[27;6;65~" }, { 1 } },
  { "csiu", false, "", { "\x1b[97;5u\x1b[27;6;65~\x1b[105;7u\x1b[27;5;13~\x1b[122;3u" }, { 1 } },
  { "replies", true, "", { replies }, { 1 } },
  /* Strings of a thousand bytes, each with its end. */
  { "strings", true, "", { "\x1b]52;c;", "x", "\a\x1b[24;80R\x1b]0;title\x1b\\" }, { 1, 1015, 1 } },
  /* Strings that never end, each up to a control character, and control sequences that are a byte too long. */
  { "begun", true, "", { "\x1bP", "x", "\r\x1b[", "0;", "0" }, { 1, 4092, 1, 126, 1 } },
  /* The long texts. Those after the paste come in reads of 4096 bytes alone. */
  { "paste", false, "\x1b[200~", { "a pasted line\nand another, with a cut end \x1b[20\n\x1b[201\n" }, { 1 } },
  { "escapes", false, "", { "\x1b" }, { 1 } },
  { "openings", false, "", { "\x1b]\x1bP\x1b_" }, { 1 } },
  { "string", true, "\x1b]52;c;", { "QUJD" }, { 1 } },
};
enum { TEXTS = sizeof texts / sizeof *texts, PASTE = 6 };
static uint8_t text[LONGEST];

/* Puts bytes at a place, as many as there is room for. Returns the place after them. */
static size_t put(size_t at, const char *bytes) {
  for (; *bytes && at < LONGEST; bytes++) text[at++] = (uint8_t)*bytes;
  return at;
}

static void fill(const struct text *it) {
  size_t at = put(0, it->start);
  for (size_t part = 0; at < LONGEST; part = it->parts[part + 1] ? part + 1 : 0)
    for (size_t i = 0; i < it->times[part]; i++) at = put(at, it->parts[part]);
}

/* How events are taken, and what that is called. */
enum way { TERMWIZ, PARSE_AS_VEC, EXTENDED, WAYS };
static const char *const way_names[WAYS] = { "termwiz", "parse_as_vec", "extended" };

/* The parser whose table the others share. */
static hed_parser first = HED_PARSER_NONE;

static hed_parser make(enum way way) {
  hed_parser it = HED_PARSER_NONE;
  want(hed_parser_init_sharing(&it, way == EXTENDED ? HED_DIALECT_EXTENDED : HED_DIALECT_TERMWIZ, &first) == HED_OK);
  hed_parser_set_parts(&it, LIMIT);
  return it;
}

/* Takes the events that there are. Returns how many these were. */
static uint64_t take_events(hed_parser *it) {
  hed_event event;
  uint64_t events = 0;
  hed_status status;
  while ((status = hed_parser_next(it, &event)) == HED_OK) events++;
  want(status == HED_NONE);
  return events;
}

/* A pass: its bytes, the size of its reads, and how it takes events. Then the number of its events, and the longest text that waited. */
struct pass {
  size_t length, read;
  enum way way;
  uint64_t events;
  size_t longest;
};

static void pass_as_vec(struct pass *pass) {
  size_t waiting;
  want(parser_pass(text, pass->length, pass->length ? pass->read : 0, &pass->events, &waiting));
  size_t length = pass->length < pass->read ? pass->length : pass->read;
  pass->longest = waiting > length ? waiting : length;
}

static void pass_by_steps(struct pass *pass) {
  hed_parser it = make(pass->way);
  for (size_t at = 0; at < pass->length; at += pass->read) {
    /* A text that is longer goes on with what comes after its first read. */
    size_t from = at < LONGEST ? at : READ + (at - READ) % (LONGEST - READ);
    want(hed_parser_feed(&it, at, text + from, pass->length - at < pass->read ? pass->length - at : pass->read) == HED_OK);
    size_t waiting = hed_parser_waiting_len(&it);
    if (waiting > pass->longest) pass->longest = waiting;
    pass->events += take_events(&it);
  }
  hed_parser_flush(&it);
  pass->events += take_events(&it);
  hed_parser_free(&it);
}

static void make_pass(void *it) {
  struct pass *pass = it;
  if (pass->way == PARSE_AS_VEC) pass_as_vec(pass);
  else pass_by_steps(pass);
}

static void show(const char *name, enum way way, size_t read, size_t length) {
  struct pass pass = { length, read, way, 0, 0 };
  memory.in_use = 0;
  count_task(make_pass, &pass);
  printf("%s %s %zu %zu %llu ", way_names[way], name, read, length, (unsigned long long)pass.events);
  printf("%zu %zu %zu\n", pass.longest, memory.most_in_use, memory.largest);
}

/* Passes of no bytes, and of each text in reads of some sizes. The lengths are of the shorter texts: each has enough reads for the buffer to
 * grow as it does in the long run. The last are of a paste that is taken in parts, the first of them until the buffer is as large as it gets. */
static void show_passes(enum way way) {
  static const struct { size_t size, length; } reads[] = { { 1, 8192 }, { 64, 8192 }, { READ, LONGEST / 8 }, { LONGEST, 8192 } };
  show("new", way, 1, 0);
  for (size_t i = 0; i < TEXTS; i++) {
    if (texts[i].is_extended && way != EXTENDED) continue;
    fill(&texts[i]);
    for (size_t j = 0; j < 2 * sizeof reads / sizeof *reads; j++)
      if (i <= PASTE || reads[j / 2].size == READ)
        show(texts[i].name, way, reads[j / 2].size, j % 2 ? 4 * reads[j / 2].length : reads[j / 2].length);
  }
  if (way == PARSE_AS_VEC) return;
  fill(&texts[PASTE]);
  show("grown", way, READ, PARTED);
  show("parts", way, READ, 3 * PARTED);
  show("parts", way, READ, 9 * PARTED);
}

/* Passes of each long text, of 3 and of 64 MB. */
static void show_long(enum way way) {
  for (size_t i = PASTE; i < TEXTS; i++) {
    if (texts[i].is_extended && way != EXTENDED) continue;
    fill(&texts[i]);
    show(texts[i].name, way, READ, 3 * PARTED);
    show(texts[i].name, way, READ, 1 << 26);
  }
}

/* Passes a read, takes its events, and drops the text of a paste. */
static void read_all(hed_parser *it, const uint8_t *bytes, size_t length) {
  want(hed_parser_feed(it, 0, bytes, length) == HED_OK);
  want(take_events(it) > 0);
  hed_parser_drop_text(it);
}

/* Reads a paste, and gives memory back. */
static void read_paste(hed_parser *it) {
  enum { PASTED = 1 << 20, MARK = sizeof "\x1b[200~" - 1 };
  static uint8_t paste[PASTED];
  memset(paste, 'x', PASTED);
  memcpy(paste, "\x1b[200~", MARK);
  memcpy(paste + PASTED - MARK, "\x1b[201~", MARK);
  read_all(it, paste, PASTED);
  hed_parser_shrink_to(it, 0);
}

/* Prints how many bytes each of some parsers has in use, beside those that were in use before. */
static void tell_each(enum way way, const char *when, size_t count, size_t before) {
  printf("%s %s %zu %zu\n", way_names[way], when, count, (memory.in_use - before) / count);
}

/* Parsers that share the table of `first` and read keys, and some that read a paste. */
static void show_parsers(enum way way) {
  enum { PARSERS = 1000, PASTED_PARSERS = 100 };
  static hed_parser parsers[PARSERS];
  size_t before = memory.in_use;
  for (size_t i = 0; i < PARSERS; i++) parsers[i] = make(way);
  tell_each(way, "made", PARSERS, before);
  for (size_t i = 0; i < PARSERS; i++) read_all(&parsers[i], text, READ);
  tell_each(way, "read", PARSERS, before);
  for (size_t i = 0; i < PARSERS; i++) hed_parser_free(&parsers[i]);
  for (size_t i = 0; i < PASTED_PARSERS; i++) {
    parsers[i] = make(way);
    read_paste(&parsers[i]);
  }
  tell_each(way, "shrunk", PASTED_PARSERS, before);
  for (size_t i = 0; i < PASTED_PARSERS; i++) hed_parser_free(&parsers[i]);
  tell_each(way, "freed", 1, before);
}

int main(int argc, char **argv) {
  const char *word = argc == 2 ? argv[1] : "";
  want(hed_parser_init(&first, HED_DIALECT_TERMWIZ) == HED_OK);
  fill(&texts[1]);
  for (enum way way = 0; way < WAYS; way++) {
    if (!*word) show_passes(way);
    else if (way != PARSE_AS_VEC) (strcmp(word, "long") ? show_parsers : show_long)(way);
  }
  return 0;
}
