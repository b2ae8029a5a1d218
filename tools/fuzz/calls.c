/* Calls in any order, with requests for memory refused.
 *
 * An input is a program of calls, each a letter (see take_letter) and its arguments:
 *
 *     I n d  init                    F n bytes  feed n bytes, 63 at most     N  next           L  flush
 *     K      free                    O n byte   feed 16 n times a byte       A  next until none C  end
 *     B      reset                   M          move the parser              E  interrupted    G n  copy n bytes of the text
 *     D      drop the text           V          the version                  U n  shrink to 16 n bytes
 *     T n place  a row               X          the completions              Y d  init that shares the second parser's table
 *     H n m  next_events with room for n % 8 events and m bytes
 *     Z n    take text of an open paste in parts of n bytes; from n = 128 on, skip it; 127 is no parts
 *     W n    set the reading by bits of n; from n = 128 on, expect a position, or forget all if n is odd
 *     [ n    set limits of 16 n ms   ] n  16 n ms pass; from n = 128 on, the clock steps back   ^ n  the same, and nothing came
 *     _ n m  tell a timer what bits of n say, with a limit of 16 m ms
 *     @ n bytes m  send n bytes as a paste, 63 at most, with room for m; from n = 128 on, in brackets
 *     \ x y mods button tracking encoding m  send a mouse report, with room for m bytes; the first two have two bytes each
 *
 *     J, P, Q, R, S  the calls of a map, as in tools/fuzz/maps.c
 *
 * A place has two bytes, the lower first, and n bytes of its row are asked for. A dialect d is bad from 128 on, and else its lowest bit.
 *
 * For init, which makes some hundreds of requests, 4 n is added to the number of the refused one. It takes a millisecond, so a program has
 * two of them at most. A program that begins with W or w begins with a parser of one dialect or the other that shares the second parser's
 * table, and has room for all.
 *
 * A second parser gets the same calls and is never refused. Each of its answers has to be what the bytes that wait and the times of the
 * calls say, which are kept beside it, and the first parser's have to be the same. The rows that would complete these bytes begin with them,
 * and the rows before and after don't. A call that is refused changes nothing, and made again it is granted. What needs no memory asks for
 * none. Before init and after free every call says that there is no parser. At the end no memory is left. The timer answers as a plain one
 * does. A paste in brackets and an SGR mouse report are read back. */
#include "fuzz.h"
#include <string.h>

enum { FED_MAX = 1 << 12, TEXT_MAX = 3 * FED_MAX, ONE_FEED = 63, MANY = 16, MOST_EVENTS = 8, NO_DIALECT = 128 };
enum { MOST_CALLS = 512, MOST_INITS = 2, BRACKET = 6, HELD_BACK = 5, SECOND = 1000 };

static const hed_parser none = HED_PARSER_NONE;

/* The parser under test lies in a room. */
static room place, given, taken, copied, counted;
static hed_parser *parser;
static bool is_made;
static int inits;

/* The second parser; the text of the event told last; all that was fed, of which the last bytes wait in both. */
static hed_parser twin = HED_PARSER_NONE;
static uint8_t text[TEXT_MAX], fed[FED_MAX];
static size_t text_len, fed_len, waiting_len;

/* What is plainly said of the second parser: whether all is told, the flush that is being told, how long ago bytes came last and what is at
 * the front came there, whether that was open when another program had the terminal, the limits, and the open questions. */
static struct {
  bool is_told, is_flushing, is_ending, was_open;
  uint64_t now, noted, last, front;
  hed_policy policy;
  size_t limit;
  uint8_t questions;
} said;

/* Makes calls whose requests for memory are the second parser's. */
#define BY_TWIN(calls) (owner = TWIN, (calls), owner = TESTED)

static const uint8_t *waiting(void) {
  return fed + fed_len - waiting_len;
}

static bool is_open(void) {
  return is_open_paste(waiting(), waiting_len);
}

/* What a call that needs a parser answers. */
static hed_status unless_made(hed_status answer) {
  return is_made ? answer : HED_NOT_INITIALIZED;
}

/* The text of the event told last, as much as there is room for. */
static void copy_text(size_t len) {
  size_t want = len < text_len ? len : text_len;
  uint8_t *out = room_of(&copied, len);
  HOLDS(hed_parser_text(parser, pointer_to(&copied), len) == text_len);
  HOLDS(memcmp(out, text, want) == 0 && is_untouched(&copied, want));
}

/* Time. */

static uint64_t min(uint64_t one, uint64_t other) {
  return one < other ? one : other;
}

static uint64_t step_to(uint64_t now) {
  return now > said.noted ? now - said.noted : 0;
}

static void pass_to(uint64_t now) {
  said.last += step_to(now);
  said.front += step_to(now);
  said.noted = now;
}

/* How long what waits may still wait, in milliseconds, if all is told. */
static uint64_t left_at(uint64_t now) {
  static const hed_policy usual = HED_POLICY_USUAL;
  const hed_policy *set = &said.policy;
  uint32_t kind = hed_parser_waiting(&twin);
  uint64_t last = said.last + step_to(now), front = said.front + step_to(now), age = front, left = UINT64_MAX;
  bool is_alt_key = kind == HED_WAITING_SEQUENCE && waiting_len == 2;
  const int32_t limits[][2] = {
    { -1, -1 },
    { set->escape, usual.escape },
    { is_alt_key ? set->alt_key : set->sequence, is_alt_key ? usual.alt_key : usual.sequence },
    { set->character, usual.character },
    { set->paste, usual.paste },
    { set->string, usual.string },
  };
  int32_t limit = limits[kind][0] ? limits[kind][0] : limits[kind][1];
  if (kind == HED_WAITING_ESCAPE || kind == HED_WAITING_PASTE) age = last;
  if (limit >= 0) {
    uint64_t whole = (uint64_t)limit + (kind == HED_WAITING_STRING ? waiting_len : 0);
    left = age < whole ? whole - age : 0;
  }
  bool may_be_open = kind == HED_WAITING_PASTE || kind == HED_WAITING_STRING;
  if (said.was_open && may_be_open) left = min(left, last < SECOND ? SECOND - last : 0);
  return left;
}

static int32_t timeout_at(uint64_t now) {
  if (!is_made) return -1;
  uint64_t left = said.is_told ? left_at(now) : 0;
  return left == UINT64_MAX ? -1 : (int32_t)left;
}

/* What the parser shows of itself. */
static void check_state(void) {
  hed_reading reading = { .questions = said.questions };
  begin_reads();
  HOLDS(hed_parser_reading(parser, &reading) == unless_made(HED_OK) && reading.questions == said.questions);
  HOLDS(hed_parser_waiting_len(parser) == waiting_len);
  HOLDS(hed_parser_waiting(parser) == (is_made ? hed_parser_waiting(&twin) : HED_WAITING_NOTHING));
  HOLDS(hed_parser_timeout(parser, said.now) == timeout_at(said.now));
  copy_text(0);
  HOLDS(is_untouched(&place, sizeof *parser));
  end_reads();
}

/* A row of the sequence table, as far as there is room. It is the second parser's, and its key an event's, but for a paste's start. */
static void check_row(input *it) {
  uint8_t bytes[HED_ENTRY_MOST];
  size_t len = take_byte(it) & ONE_FEED, at = (size_t)take_number(it, 2);
  hed_event *key = room_of(&taken, sizeof *key), wanted;
  room_of(&copied, len);
  begin_reads();
  size_t whole = hed_parser_entry(parser, at, pointer_to(&copied), len, key), part = whole < len ? whole : len;
  HOLDS((whole > 0) == (is_made && at < HED_ENTRY_COUNT) && whole <= HED_ENTRY_MOST);
  HOLDS(is_untouched(&copied, part) && is_untouched(&taken, whole > 0 ? sizeof *key : 0));
  if (whole > 0) {
    HOLDS(hed_parser_entry(&twin, at, bytes, sizeof bytes, &wanted) == whole && same_event(key, &wanted));
    HOLDS(memcmp(copied.at, bytes, part) == 0 && key->kind == HED_KIND_KEY);
    if (key->key != HED_KEY_INTERNAL_PASTE_START) check_event(key, true);
  }
  end_reads();
}

/* Whether the row at a place begins with a text and is longer. */
static bool goes_on(size_t at, const uint8_t *from, size_t len) {
  uint8_t bytes[HED_ENTRY_MOST];
  hed_event key;
  size_t whole = hed_parser_entry(&twin, at, bytes, sizeof bytes, &key);
  return whole > len && memcmp(bytes, from, len) == 0;
}

/* The first and the last of some rows begin with a text and are longer, and the two beside them don't. */
static void check_range(const hed_entries *rows, const uint8_t *from, size_t len) {
  size_t end = rows->first + rows->count;
  if (rows->count == 0) return;
  HOLDS(goes_on(rows->first, from, len) && goes_on(end - 1, from, len));
  HOLDS(rows->first == 0 || !goes_on(rows->first - 1, from, len));
  HOLDS(!goes_on(end, from, len));
}

/* What would complete the waiting bytes. */
static void check_completions(void) {
  hed_entries *rows = room_of(&taken, sizeof *rows), wanted;
  begin_reads();
  HOLDS(hed_parser_completions(parser, rows) == unless_made(HED_OK) && is_untouched(&taken, is_made ? sizeof *rows : 0));
  if (is_made) {
    HOLDS(rows->first <= HED_ENTRY_COUNT && rows->count <= HED_ENTRY_COUNT - rows->first);
    HOLDS(!hed_parser_completions(&twin, &wanted) && wanted.first == rows->first && wanted.count == rows->count);
    HOLDS(wanted.with_alt == rows->with_alt && (!rows->with_alt || (rows->count > 0 && waiting()[0] == '\033')));
    check_range(rows, waiting() + rows->with_alt, waiting_len - rows->with_alt);
    note(0x50000u | rows->with_alt, (unsigned)rows->count);
  }
  end_reads();
}

/* Making, freeing and feeding. */

/* There is no parser, so nothing waits. */
static void forget(void) {
  is_made = false, waiting_len = text_len = 0;
  said.is_told = true, said.is_flushing = said.is_ending = said.was_open = false;
  said.policy = (hed_policy){ 0 };
  said.limit = HED_NO_PARTS;
  said.questions = 0;
}

static void clear_twin(uint32_t dialect) {
  static hed_parser first = HED_PARSER_NONE;
  BY_TWIN(HOLDS((first.live || !hed_parser_init(&first, dialect)) && !hed_parser_init_sharing(&twin, dialect, &first)));
}

static hed_status make(uint32_t dialect, bool is_sharing) {
  return is_sharing ? hed_parser_init_sharing(parser, dialect, &twin) : hed_parser_init(parser, dialect);
}

static void make_anew(uint32_t dialect, bool is_sharing) {
  size_t of_twin = hed_parser_waiting_len(&twin);
  hed_status made = make(dialect, is_sharing);
  HOLDS(made == (dialect == NO_DIALECT ? HED_BAD_NUMBER : refusals > 0 ? HED_NO_MEMORY : HED_OK));
  HOLDS(!is_sharing || requests == (made != HED_BAD_NUMBER));
  if (made) check_state();
  refuse_request(0);
  HOLDS(hed_parser_waiting_len(&twin) == of_twin);
  if (made == HED_BAD_NUMBER) return;
  HOLDS(!made || !make(dialect, is_sharing));
  HOLDS(hed_parser_waiting_len(&twin) == of_twin && dialect_of(parser) == dialect);
  forget();
  is_made = true;
  clear_twin(dialect);
}

static uint32_t take_dialect(input *it) {
  uint8_t byte = take_byte(it);
  return byte >= NO_DIALECT ? NO_DIALECT : byte & 1;
}

static void init(input *it, unsigned number) {
  unsigned more = 4 * take_byte(it);
  uint32_t dialect = take_dialect(it);
  refuse_request(number ? number + more : 0);
  if (++inits <= MOST_INITS) make_anew(dialect, false);
}

/* Without another parser nothing changes, and with one the parser shares its table. */
static void share(input *it, unsigned number) {
  uint32_t dialect = take_dialect(it);
  hed_status status = hed_parser_init_sharing(parser, dialect, &none);
  HOLDS(status == HED_NOT_INITIALIZED || (status == HED_BAD_NUMBER && dialect == NO_DIALECT));
  check_state();
  refuse_request(number);
  make_anew(dialect, true);
}

static void free_parser(void) {
  hed_parser_free(parser);
  HOLDS(!parser->live && parser->state == NULL && blocks[TESTED] == 0);
  forget();
}

static void feed_twin(const uint8_t *bytes, size_t len) {
  BY_TWIN(HOLDS(!hed_parser_feed(&twin, said.now, bytes, len)));
  pass_to(said.now);
  said.is_told = false;
  if (len == 0) return;
  said.last = 0;
  if (waiting_len == 0) said.front = 0;
  memcpy(fed + fed_len, bytes, len);
  fed_len += len;
  waiting_len += len;
}

static void feed(const uint8_t *bytes, size_t len) {
  if (len > FED_MAX - fed_len) return;
  room_with(&given, bytes, len);
  bool is_busy = said.is_flushing;
  hed_status status = hed_parser_feed(parser, said.now, pointer_to(&given), len);
  HOLDS(status == unless_made(is_busy ? HED_BUSY : refusals > 0 ? HED_NO_MEMORY : HED_OK));
  HOLDS((is_made && !is_busy && len > 0) || requests == 0);
  HOLDS(is_unchanged(&given, bytes));
  note(0x40000, requests);
  if (status) check_state();
  refuse_request(0);
  if (!is_made || is_busy) return;
  HOLDS(!status || !hed_parser_feed(parser, said.now, pointer_to(&given), len));
  feed_twin(given.at, len);
}

/* Events. */

/* What waits says of an event, before any of it is consumed. */
static void check_told(const hed_event *event) {
  bool is_part = event->kind == HED_KIND_PASTE_PART;
  check_event(event, dialect_of(&twin) == HED_DIALECT_TERMWIZ);
  HOLDS(waiting_len > 0);
  if (is_part) HOLDS(is_open() && said.limit != HED_NO_PARTS && waiting_len > BRACKET + said.limit && event->text_len > 0);
  else HOLDS(!is_open() || (said.is_ending && event->kind == HED_KIND_PASTE));
  if (said.is_flushing && is_escape(waiting(), waiting_len)) {
    HOLDS(event->kind == HED_KIND_KEY && event->key == HED_KEY_ESCAPE);
    HOLDS(event->modifiers == (waiting_len == 2 ? HED_KITTY_MOD_ALT : HED_KITTY_MOD_NONE));
  }
}

/* Some of the waiting bytes are gone. Of a part its paste's start is left. */
static void consume(bool is_part) {
  size_t left = hed_parser_waiting_len(&twin);
  HOLDS(left < waiting_len);
  if (is_part) {
    HOLDS(left >= BRACKET && left <= BRACKET + HELD_BACK);
    memmove(fed + fed_len - left, waiting(), BRACKET);
  }
  waiting_len = left;
  if (left == 0) said.is_flushing = said.is_ending = false;
}

/* All is told. */
static void note_none(void) {
  size_t paste = min(said.limit, FED_MAX);
  HOLDS(!said.is_flushing || waiting_len == 0 || (is_open() && !said.is_ending));
  HOLDS(!is_open() || said.limit == HED_NO_PARTS || waiting_len <= BRACKET + (paste > HELD_BACK ? paste : HELD_BACK));
  said.is_told = true, said.is_flushing = said.is_ending = false;
  check_rest(&twin, waiting(), waiting_len);
}

/* Takes an event of the second parser. */
static hed_status take_of_twin(hed_event *event) {
  owner = TWIN;
  hed_status answer = hed_parser_next(&twin, event);
  HOLDS(answer == HED_OK || answer == HED_NONE);
  if (answer == HED_OK) {
    check_told(event);
    text_len = hed_parser_text(&twin, text, sizeof text);
    HOLDS(text_len == event->text_len && text_len <= sizeof text);
    said.front = 0;
    if (event->kind != HED_KIND_PASTE_PART) said.was_open = false;
    if (event->kind == HED_KIND_CURSOR_POSITION && said.questions > 0) said.questions--;
    consume(event->kind == HED_KIND_PASTE_PART);
  } else {
    note_none();
  }
  owner = TESTED;
  return answer;
}

static void without_parser(void) {
  static const hed_event key = { .kind = HED_KIND_KEY };
  hed_key_press *press = room_of(&taken, sizeof *press);
  HOLDS(hed_parser_press(parser, &key, press) == HED_NOT_INITIALIZED && hed_parser_second(parser, &key, press) == HED_NOT_INITIALIZED);
  HOLDS(is_untouched(&taken, 0));
}

static hed_status take(unsigned number) {
  hed_event *event = room_of(&taken, sizeof *event), wanted;
  refuse_request(number);
  hed_status answer = hed_parser_next(parser, event);
  HOLDS(answer == HED_OK || is_untouched(&taken, 0));
  HOLDS((answer == HED_NOT_INITIALIZED) == !is_made && (answer == HED_NO_MEMORY) == (refusals > 0));
  refuse_request(0);
  if (!is_made) {
    without_parser();
    return answer;
  }
  if (answer == HED_NO_MEMORY) {
    check_state();
    copy_text(text_len);
    answer = hed_parser_next(parser, event);
  }
  HOLDS(is_untouched(&taken, answer == HED_OK ? sizeof *event : 0));
  HOLDS(answer == take_of_twin(&wanted));
  if (answer) return answer;
  HOLDS(same_event(event, &wanted));
  copy_text(text_len);
  check_last_press(parser, event, text);
  return answer;
}

static void take_all(unsigned number) {
  while (take(number) == HED_OK) continue;
}

/* Takes events of the second parser that some room got, and what that room has to say of the last call. Returns whether the room was full. */
static bool compare_events(const hed_event *events, size_t count, size_t capacity) {
  hed_event wanted;
  size_t at = 0;
  for (size_t i = 0; i < count; i++) {
    HOLDS(at <= capacity && take_of_twin(&wanted) == HED_OK && same_event(&events[i], &wanted));
    size_t fit = at < capacity ? min(text_len, capacity - at) : 0;
    HOLDS(memcmp(copied.at + at, text, fit) == 0);
    at += text_len;
  }
  HOLDS(is_untouched(&copied, min(at, capacity)));
  return at > capacity;
}

/* Takes events into an array. With a refusal those before it are there, and the event after them is still next. */
static void take_events(input *it, unsigned number) {
  size_t room = take_byte(it) % MOST_EVENTS, capacity = take_byte(it);
  hed_event *events = room_of(&taken, room * sizeof *events), other;
  size_t *count = room_of(&counted, sizeof *count);
  room_of(&copied, capacity);
  refuse_request(number);
  hed_status answer = hed_parser_next_events(parser, pointer_to(&taken), room, pointer_to(&copied), capacity, count);
  HOLDS((answer == HED_NOT_INITIALIZED) == !is_made && (answer == HED_NO_MEMORY) == (refusals > 0));
  HOLDS(*count <= room && is_untouched(&counted, sizeof *count) && is_untouched(&taken, *count * sizeof *events));
  refuse_request(0);
  if (!is_made) {
    HOLDS(*count == 0);
    return;
  }
  bool is_full = compare_events(events, *count, capacity) || *count == room;
  HOLDS((answer == HED_OK) == is_full);
  if (answer == HED_NONE) HOLDS(take_of_twin(&other) == HED_NONE);
  if (*count > 0) check_last_press(parser, &events[*count - 1], text);
  copy_text(text_len);
}

/* What begins a flush. */
static void flush_all(bool is_end) {
  (is_end ? hed_parser_end : hed_parser_flush)(parser);
  HOLDS(requests == 0);
  if (!is_made) return;
  BY_TWIN((is_end ? hed_parser_end : hed_parser_flush)(&twin));
  said.is_told = false;
  said.is_flushing = waiting_len > 0;
  said.is_ending = waiting_len > 0 && (is_end || said.is_ending);
}

/* The clock goes on, or steps back. */
static void let_pass(input *it) {
  enum { BACK = 128 };
  uint8_t n = take_byte(it);
  if (n < BACK) said.now += MANY * n;
  else said.now -= min(said.now, MANY * (uint64_t)(n - BACK));
}

static void let_idle(void) {
  bool is_due = timeout_at(said.now) == 0 && said.is_told;
  hed_parser_idle(parser, said.now);
  HOLDS(requests == 0);
  if (!is_made) return;
  BY_TWIN(hed_parser_idle(&twin, said.now));
  pass_to(said.now);
  note(0x10000u | is_due, hed_parser_waiting(&twin));
  if (is_due) said.is_told = false, said.is_flushing = said.is_ending = true;
}

static void interrupt(void) {
  hed_status wanted = unless_made(said.is_told ? HED_OK : HED_BUSY);
  HOLDS(hed_parser_interrupted(parser, said.now) == wanted && requests == 0);
  if (!is_made) return;
  uint32_t kind = hed_parser_waiting(&twin);
  BY_TWIN(HOLDS(hed_parser_interrupted(&twin, said.now) == wanted));
  if (wanted) return;
  pass_to(said.now);
  said.last = said.questions = 0;
  said.was_open = kind == HED_WAITING_PASTE || kind == HED_WAITING_STRING;
  if (!said.was_open) waiting_len = 0;
  note(0x20000u, kind);
}

/* Text of a paste. */
static void skip_paste(void) {
  size_t *count = room_of(&counted, sizeof *count), of_twin;
  hed_status wanted = unless_made(is_open() ? HED_OK : HED_NONE);
  HOLDS(hed_parser_skip_paste(parser, count) == wanted && requests == 0 && is_untouched(&counted, wanted ? 0 : sizeof *count));
  if (!is_made) return;
  BY_TWIN(HOLDS(hed_parser_skip_paste(&twin, &of_twin) == wanted && (wanted || of_twin == *count)));
  if (wanted) return;
  size_t left = hed_parser_waiting_len(&twin);
  HOLDS(left == waiting_len - *count && left >= BRACKET && left <= BRACKET + HELD_BACK);
  memmove(fed + fed_len - left, waiting(), BRACKET);
  waiting_len = left;
}

static void take_parts(input *it) {
  enum { NO_PARTS = 127 };
  uint8_t n = take_byte(it);
  if (n > NO_PARTS) {
    skip_paste();
    return;
  }
  size_t limit = n == NO_PARTS ? HED_NO_PARTS : n;
  hed_parser_set_parts(parser, limit);
  HOLDS(requests == 0);
  if (!is_made) return;
  BY_TWIN(hed_parser_set_parts(&twin, limit));
  said.limit = limit;
  said.is_told = false;
}

/* Reading. */
static hed_reading reading_by(uint8_t n) {
  hed_reading reading = { 0 };
  reading.dialect = n & 1;
  reading.erase = n >> 1 & 1;
  reading.newline = n >> 2 & 1;
  reading.x10_mouse = n >> 3 & 1;
  reading.questions = n >> 4 & 3;
  if (n & 0x40) *(n & 1 ? &reading.dialect : n & 2 ? &reading.erase : &reading.newline) = 2;
  return reading;
}

static void set_reading(uint8_t n) {
  static room place_of_reading;
  hed_reading reading = reading_by(n), found;
  room_with(&place_of_reading, &reading, sizeof reading);
  hed_status status = hed_parser_set_reading(parser, (hed_reading *)place_of_reading.at);
  HOLDS(status == unless_made(n & 0x40 ? HED_BAD_NUMBER : HED_OK) || (!is_made && n & 0x40 && status == HED_BAD_NUMBER));
  HOLDS(is_unchanged(&place_of_reading, &reading));
  if (status) return;
  HOLDS(!hed_parser_set_reading(&twin, &reading) && !hed_parser_reading(parser, &found));
  HOLDS(same_reading(&found, &reading));
  said.is_told = false;
  said.questions = reading.questions;
}

static void change_reading(input *it) {
  enum { QUESTIONS = 128 };
  uint8_t n = take_byte(it);
  if (n < QUESTIONS) {
    set_reading(n);
    return;
  }
  (n & 1 ? hed_parser_forget_positions : hed_parser_expect_position)(parser);
  if (!is_made) return;
  (n & 1 ? hed_parser_forget_positions : hed_parser_expect_position)(&twin);
  if (n & 1) said.questions = 0;
  else if (said.questions < UINT8_MAX) said.questions++;
}

/* Limits of n ms; no limit, and one that is too long. */
static void set_policy(uint8_t n) {
  enum { NO_LIMIT = 254, TOO_LONG = 255, LONGEST = 2147418111 };
  int32_t limit = n == NO_LIMIT ? -1 : n == TOO_LONG ? LONGEST + 1 : MANY * n;
  hed_policy policy = { limit, limit, limit, limit, limit, limit };
  hed_status status = hed_parser_set_policy(parser, &policy);
  HOLDS(status == unless_made(n == TOO_LONG ? HED_BAD_NUMBER : HED_OK) || (!is_made && n == TOO_LONG && status == HED_BAD_NUMBER));
  HOLDS(requests == 0);
  if (status) return;
  HOLDS(!hed_parser_set_policy(&twin, &policy));
  said.policy = policy;
}

/* A timer lies in a room. The plain one has its ages at the last note, and what that said. */
static room timer_place, seen_place;
static hed_timer *timer;
static struct {
  uint64_t ages[2], noted;
  hed_seen seen;
} plain;

static void begin_timer(void) {
  static const hed_timer fresh = HED_TIMER_NONE;
  timer = room_with(&timer_place, &fresh, sizeof fresh);
  memset(&plain, 0, sizeof plain);
  plain.noted = UINT64_MAX;
  plain.seen = (hed_seen){ -1, HED_AGE_LAST, false, false, true };
}

static uint64_t plain_age(uint8_t by, uint64_t at) {
  uint64_t step = at > plain.noted ? at - plain.noted : 0;
  return step > UINT64_MAX - plain.ages[by] ? UINT64_MAX : plain.ages[by] + step;
}

static void check_timeout(uint64_t at) {
  uint64_t age = plain_age(plain.seen.by, at), limit = plain.seen.limit < 0 ? 0 : (uint64_t)plain.seen.limit;
  int32_t left = plain.seen.limit < 0 ? -1 : age < limit ? (int32_t)(limit - age) : 0;
  HOLDS(hed_timer_timeout(timer, at) == left && is_untouched(&timer_place, sizeof *timer));
}

/* Tells the timer what bits of a byte say, and what time it is: now, or any. A number of no age is refused. */
static void tell_timer(input *it) {
  enum { FED = 1, TAKEN = 2, EMPTY = 4, IS_FRONT = 8, NO_AGE = 16, NO_LIMIT = 32, ANY_TIME = 64 };
  uint8_t bits = take_byte(it);
  int32_t limit = MANY * take_byte(it);
  uint64_t at = bits & ANY_TIME ? take_number(it, 8) : said.now;
  hed_seen seen = { limit, HED_AGE_LAST, bits & FED, bits & TAKEN, bits & EMPTY };
  if (bits & IS_FRONT) seen.by = HED_AGE_FRONT;
  if (bits & NO_AGE) seen.by |= 2;
  if (bits & NO_LIMIT) seen.limit = -1 - limit;
  hed_status status = hed_timer_note(timer, at, room_with(&seen_place, &seen, sizeof seen));
  HOLDS(status == (bits & NO_AGE ? HED_BAD_NUMBER : HED_OK) && is_unchanged(&seen_place, &seen));
  if (!status) {
    uint64_t last = plain_age(HED_AGE_LAST, at), front = plain_age(HED_AGE_FRONT, at);
    plain.ages[HED_AGE_LAST] = seen.fed ? 0 : last;
    plain.ages[HED_AGE_FRONT] = seen.taken || plain.seen.empty ? 0 : front;
    plain.noted = at;
    plain.seen = seen;
  }
  check_timeout(at);
  check_timeout(at + take_byte(it));
  HOLDS(requests == 0);
}

/* A text that is sent as a paste. */
typedef struct pasted {
  const uint8_t *bytes;
  size_t len;
  bool bracketed;
} pasted;

static hed_status encode_pasted(const void *key, uint8_t *out, size_t capacity, size_t *len) {
  static room bytes;
  const pasted *it = key;
  room_with(&bytes, it->bytes, it->len);
  hed_status status = hed_encode_paste(pointer_to(&bytes), it->len, it->bracketed, out, capacity, len);
  HOLDS(is_unchanged(&bytes, it->bytes));
  return status;
}

/* A mouse report that is sent, and what the program asked for. */
typedef struct told_mouse {
  hed_sent_mouse report;
  uint32_t tracking;
  uint32_t encoding;
} told_mouse;

static hed_status encode_mouse(const void *key, uint8_t *out, size_t capacity, size_t *len) {
  static room report;
  const told_mouse *it = key;
  room_with(&report, &it->report, sizeof it->report);
  hed_status status = hed_encode_mouse((hed_sent_mouse *)report.at, it->tracking, it->encoding, out, capacity, len);
  HOLDS(is_unchanged(&report, &it->report));
  return status;
}

/* What a call sends that is refused memory, or not, and then is made again, with room for all and for some. */
static const sent *send_again(encoder *call, const void *key, size_t some) {
  enum { ROOM = 256 };
  static sent whole, part;
  encode(&whole, call, key, ROOM);
  HOLDS((whole.status == HED_NO_MEMORY) == (refusals > 0));
  refuse_request(0);
  encode(&whole, call, key, ROOM);
  encode(&part, call, key, some);
  HOLDS(whole.status != HED_NO_MEMORY && whole.len <= ROOM && same_sent(&whole, &part, some < ROOM ? some : ROOM));
  return &whole;
}

/* A new parser of a dialect reads what is sent as one event. */
static hed_event read_back(uint32_t dialect, const sent *it, uint8_t *out, size_t len) {
  hed_parser reader = HED_PARSER_NONE;
  hed_event event, other;
  HOLDS(!hed_parser_init_sharing(&reader, dialect, &twin) && !hed_parser_feed(&reader, 0, it->bytes, it->len));
  HOLDS(!hed_parser_next(&reader, &event) && hed_parser_next(&reader, &other) == HED_NONE && hed_parser_waiting_len(&reader) == 0);
  hed_parser_text(&reader, out, len);
  hed_parser_free(&reader);
  return event;
}

static void send_paste(input *it) {
  enum { BRACKETED = 0x80, BRACKETS = 12 };
  uint8_t n = take_byte(it), out[3 * ONE_FEED];
  pasted told = { .bracketed = n & BRACKETED };
  told.bytes = take_bytes(it, n & ONE_FEED, &told.len);
  const sent *all = send_again(encode_pasted, &told, take_byte(it));
  size_t brackets = told.bracketed ? BRACKETS : 0;
  HOLDS(all->status == HED_OK && all->len >= brackets && all->len <= 3 * told.len + brackets);
  if (!told.bracketed) {
    HOLDS(!memchr(all->bytes, 0x1b, all->len));
    return;
  }
  hed_event event;
  BY_TWIN(event = read_back(told.len & 1, all, out, sizeof out));
  HOLDS(event.kind == HED_KIND_PASTE && event.text_len == all->len - BRACKETS);
  HOLDS(memcmp(out, all->bytes + BRACKETS / 2, event.text_len) == 0);
}

static void send_mouse(input *it) {
  enum { EVERY_MODIFIER = 2 * HED_KITTY_MOD_SUPER - 1, FARTHEST = 223 };
  told_mouse told;
  hed_sent_mouse *report = &told.report;
  memset(&told, 0, sizeof told);
  report->x = (uint16_t)take_number(it, 2);
  report->y = (uint16_t)take_number(it, 2);
  report->modifiers = take_byte(it);
  report->button = take_byte(it);
  told.tracking = take_byte(it);
  told.encoding = take_byte(it);
  const sent *all = send_again(encode_mouse, &told, take_byte(it));
  bool is_bad = report->button > LAST_MOUSE || report->modifiers & ~EVERY_MODIFIER || told.tracking > HED_MOUSE_TRACKING_ANY
                || told.encoding > HED_MOUSE_ENCODING_SGR;
  bool is_far = told.encoding == HED_MOUSE_ENCODING_DEFAULT && (report->x > FARTHEST || report->y > FARTHEST);
  HOLDS((all->status == HED_BAD_NUMBER) == is_bad);
  HOLDS(all->status != HED_TOO_FAR || is_far);
  if (all->len == 0 || told.encoding != HED_MOUSE_ENCODING_SGR) return;
  hed_event event;
  BY_TWIN(event = read_back(HED_DIALECT_TERMWIZ, all, NULL, 0));
  HOLDS(event.kind == HED_KIND_MOUSE && event.x == report->x && event.y == report->y);
}

static void reset(void) {
  HOLDS(hed_parser_reset(parser) == waiting_len && requests == 0);
  if (is_made) BY_TWIN(HOLDS(hed_parser_reset(&twin) == waiting_len));
  waiting_len = said.questions = 0;
  said.is_flushing = said.is_ending = said.was_open = false;
}

static void drop_text(void) {
  hed_parser_drop_text(parser);
  BY_TWIN(hed_parser_drop_text(&twin));
  text_len = 0;
}

static void feed_some(input *it) {
  size_t len;
  const uint8_t *bytes = take_bytes(it, take_byte(it) & ONE_FEED, &len);
  feed(bytes, len);
}

static void feed_many(input *it) {
  static uint8_t bytes[255 * MANY];
  size_t len = MANY * (size_t)take_byte(it);
  memset(bytes, take_byte(it), len);
  feed(bytes, len);
}

static void call(input *it) {
  letter of = take_letter(it);
  unsigned number = of.refused;
  refuse_request(number);
  switch (of.capital) {
    case 'I': init(it, number); break;
    case 'K': free_parser(); break;
    case 'B': reset(); break;
    case 'D': drop_text(); break;
    case 'F': feed_some(it); break;
    case 'O': feed_many(it); break;
    case 'M': parser = move_room(&place); break;
    case 'N': take(number); break;
    case 'A': take_all(number); break;
    case 'H': take_events(it, number); break;
    case 'L': flush_all(false); break;
    case 'C': flush_all(true); break;
    case 'E': interrupt(); break;
    case 'Z': take_parts(it); break;
    case 'W': change_reading(it); break;
    case 'G': copy_text(take_byte(it)); break;
    case 'Y': share(it, number); break;
    case 'U': hed_parser_shrink_to(parser, MANY * (size_t)take_byte(it)); break;
    case 'V': HOLDS(hed_version() == HED_VERSION_NUMBER && requests == 0); break;
    case 'T': check_row(it); break;
    case 'X': check_completions(); break;
    case '[': set_policy(take_byte(it)); break;
    case ']': let_pass(it); break;
    case '^': let_pass(it), let_idle(); break;
    case '_': tell_timer(it); break;
    case '@': send_paste(it); break;
    case '\\': send_mouse(it); break;
    default: call_map(of, it);
  }
  check_state();
}

static void begin_with_room(uint32_t dialect) {
  static const uint8_t bytes[FED_MAX];
  hed_event event;
  clear_twin(dialect);
  HOLDS(!hed_parser_init_sharing(parser, dialect, &twin) && !hed_parser_feed(parser, 0, bytes, sizeof bytes));
  hed_parser_reset(parser);
  HOLDS(hed_parser_next(parser, &event) == HED_NONE);
  is_made = true;
}

void try_input(input *it) {
  clear_twin(HED_DIALECT_EXTENDED);
  begin_map();
  begin_timer();
  memset(&said, 0, sizeof said);
  forget();
  parser = room_with(&place, &none, sizeof none);
  fed_len = 0;
  inits = 0;
  if (it->left > 0 && (*it->at == 'W' || *it->at == 'w'))
    begin_with_room(take_byte(it) == 'W' ? HED_DIALECT_EXTENDED : HED_DIALECT_TERMWIZ);
  for (int calls = 0; it->left > 0 && calls < MOST_CALLS; calls++) call(it);
  end_map();
  free_parser();
  free_parser();
  HOLDS(is_untouched(&place, sizeof *parser));
}
