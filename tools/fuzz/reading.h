/* Reads a stream whole and in pieces.
 *
 * An input is a byte whose five low bits are a number of pieces, a byte for each of them, and the stream. The five low bits of a piece's
 * byte are its size. The others say what is done after the piece, and none of it may make a difference. With 0x20 the parser is reset and
 * gets what waits once more. With 0x40 nothing comes until a millisecond before what waits is due. With 0x80 the parser is shrunk. What the
 * pieces leave comes in one piece, or byte by byte if the first byte has the bit 0x20. If the number of pieces is odd a paste comes in parts.
 *
 * The stream is read in these pieces. Then it is flushed, and at last nothing more will ever come. Another parser, which shares the table of
 * the first, reads the stream whole, and then all that waits falls due. Joined events, the bytes they bring and rests have to be the same
 * each time. A flush leaves nothing outside a paste. */
#include "fuzz.h"
#include <string.h>

enum { STREAM_MAX = 4096, SIZE = 0x1f, LAST_BY_BYTE = 0x20, AGAIN = 0x20, PAUSED = 0x40, SHRUNK = 0x80 };

/* How the stream is read at first. */
static hed_reading first_reading;

/* What a reading gave. */
typedef struct reading {
  hed_event events[STREAM_MAX];
  uint8_t texts[3 * STREAM_MAX];
  size_t count, texts_len, rest, limit;
  uint64_t now;
} reading;

static reading whole, cut;
static hed_parser *parser;
static room given, taken, text;

static hed_reading reading_of(const hed_parser *it) {
  hed_reading found;
  HOLDS(hed_parser_reading(it, &found) == HED_OK);
  return found;
}

/* The length of the text whose parts came before an event. */
static size_t parts_len;

/* Keeps an event. The part of a paste is joined to what follows. */
static void keep_fields(reading *it, const hed_event *next) {
  check_event(next, first_reading.dialect == HED_DIALECT_TERMWIZ);
  if (next->kind == HED_KIND_PASTE_PART) {
    HOLDS(it->limit != HED_NO_PARTS && next->text_len > 0);
    parts_len += next->text_len;
    return;
  }
  HOLDS(it->count < STREAM_MAX && (parts_len == 0 || next->kind == HED_KIND_PASTE));
  it->events[it->count] = *next;
  it->events[it->count++].text_len += parts_len;
  parts_len = 0;
}

static void keep_text(reading *it, size_t len) {
  uint8_t *out = room_of(&text, len);
  HOLDS(hed_parser_text(parser, pointer_to(&text), len) == len);
  HOLDS(is_untouched(&text, len) && it->texts_len + len <= sizeof it->texts);
  if (len > 0) memcpy(it->texts + it->texts_len, out, len);
  it->texts_len += len;
}

static void keep_event(reading *it, const hed_event *next) {
  keep_fields(it, next);
  keep_text(it, next->text_len);
}

/* Checks the press of the event told last, whose text was kept. */
static void check_kept_press(const reading *it, const hed_event *last) {
  check_last_press(parser, last, it->texts + it->texts_len - last->text_len);
}

/* Keeps events of an array, with their bytes. Those of the last event may be cut off. */
static void keep_array(reading *it, const hed_event *events, size_t count, const room *texts, size_t capacity) {
  size_t at = 0;
  for (size_t i = 0; i < count; at += events[i++].text_len) {
    bool is_whole = at + events[i].text_len <= capacity;
    HOLDS(is_whole || i + 1 == count);
    if (!is_whole) {
      keep_event(it, &events[i]);
      continue;
    }
    keep_fields(it, &events[i]);
    memcpy(it->texts + it->texts_len, texts->at + at, events[i].text_len);
    it->texts_len += events[i].text_len;
  }
  HOLDS(is_untouched(texts, at < capacity ? at : capacity));
}

/* Takes all events that there are, into arrays with room for few of them and for few bytes. */
static void take_arrays(reading *it) {
  static room texts;
  hed_status answer;
  do {
    size_t room = 1 + it->count % 4, capacity = it->count % 7, count = room + 1;
    hed_event *events = room_of(&taken, room * sizeof *events);
    room_of(&texts, capacity);
    answer = hed_parser_next_events(parser, events, room, pointer_to(&texts), capacity, &count);
    HOLDS((answer == HED_OK || answer == HED_NONE) && count <= room && is_untouched(&taken, count * sizeof *events));
    keep_array(it, events, count, &texts, capacity);
    if (count > 0) check_kept_press(it, &events[count - 1]);
  } while (answer == HED_OK);
}

static bool take_one(reading *it) {
  hed_event *next = room_of(&taken, sizeof *next);
  hed_status answer = hed_parser_next(parser, next);
  HOLDS(answer == HED_OK || answer == HED_NONE);
  HOLDS(is_untouched(&taken, answer == HED_OK ? sizeof *next : 0));
  if (answer == HED_NONE) return false;
  keep_event(it, next);
  check_kept_press(it, next);
  return true;
}

/* Takes all events that there are. Those of a stream that is cut come in arrays. */
static void take_all(reading *it) {
  if (it == &cut) take_arrays(it);
  else
    while (take_one(it)) continue;
}

/* What waits, of the bytes up to `to`. Parts that were told lie before it, but for the start of their paste. */
static size_t check_rest_of(const uint8_t *stream, size_t to) {
  static const uint8_t start[] = { '\033', '[', '2', '0', '0', '~' };
  static uint8_t waiting[STREAM_MAX];
  size_t rest = hed_parser_waiting_len(parser);
  HOLDS(rest <= to);
  memcpy(waiting, stream + to - rest, rest);
  if (parts_len > 0) memcpy(waiting, start, sizeof start);
  check_rest(parser, waiting, rest);
  return rest;
}

/* Feeds the bytes up to `to`, and takes all that they give. */
static void read_up_to(reading *it, const uint8_t *stream, size_t from, size_t to) {
  room_with(&given, stream + from, to - from);
  HOLDS(hed_parser_feed(parser, it->now, pointer_to(&given), to - from) == HED_OK && is_unchanged(&given, stream + from));
  HOLDS(hed_parser_timeout(parser, it->now) == 0);
  take_all(it);
  it->rest = check_rest_of(stream, to);
  HOLDS(it->count <= to);
}

/* Resets a parser, which forgets its questions: they are open again then. */
static size_t reset_and_read_on(void) {
  hed_reading before = reading_of(parser), wanted = before;
  size_t len = hed_parser_reset(parser);
  hed_reading after = reading_of(parser);
  wanted.questions = 0;
  HOLDS(same_reading(&after, &wanted) && hed_parser_set_reading(parser, &before) == HED_OK);
  return len;
}

/* Forgets what waits and feeds it once more: it is all that the parser remembers of the stream. */
static void read_rest_again(reading *it, const uint8_t *stream, size_t to) {
  size_t count = it->count;
  if (parts_len > 0) return;
  HOLDS(reset_and_read_on() == it->rest);
  read_up_to(it, stream, to - it->rest, to);
  HOLDS(it->count == count);
}

/* Says that nothing came, for as long as that brings nothing. */
static void pause_shortly(reading *it) {
  enum { LONG = 1 << 30 };
  int32_t left = hed_parser_timeout(parser, it->now);
  if (left == 0) return;
  it->now += left < 0 ? LONG : (uint64_t)left - 1;
  hed_parser_idle(parser, it->now);
  HOLDS(hed_parser_next(parser, room_of(&taken, sizeof(hed_event))) == HED_NONE && is_untouched(&taken, 0));
  HOLDS(hed_parser_waiting_len(parser) == it->rest && hed_parser_timeout(parser, it->now) == (left < 0 ? -1 : 1));
}

/* Frees what memory the parser has for nothing. */
static void shrink(const reading *it, size_t room_left) {
  size_t len = hed_parser_text(parser, NULL, 0);
  hed_parser_shrink_to(parser, room_left);
  HOLDS(hed_parser_waiting_len(parser) == it->rest && hed_parser_text(parser, NULL, 0) == len);
}

/* What follows when nothing more comes. */
static void read_end(reading *it, const uint8_t *stream, size_t len) {
  hed_parser_flush(parser);
  take_all(it);
  size_t rest = check_rest_of(stream, len), count = it->count;
  HOLDS(rest == 0 || hed_parser_waiting(parser) == HED_WAITING_PASTE);
  hed_parser_end(parser);
  take_all(it);
  HOLDS(it->count == count + (rest > 0) && it->count <= len && hed_parser_waiting_len(parser) == 0);
}

/* Makes a parser read as at first. Each question is one more. */
static void begin_reading(hed_parser *it) {
  hed_reading none = first_reading;
  none.questions = 0;
  hed_parser_expect_position(it);
  hed_parser_forget_positions(it);
  HOLDS(hed_parser_set_reading(it, &none) == HED_OK);
  for (unsigned count = 0; count < first_reading.questions; count++) hed_parser_expect_position(it);
  hed_reading found = reading_of(it);
  HOLDS(same_reading(&found, &first_reading));
}

static void begin(reading *it, size_t limit) {
  static const hed_policy usual = HED_POLICY_USUAL;
  it->count = it->texts_len = it->rest = it->now = parts_len = 0;
  it->limit = limit;
  hed_parser_reset(parser);
  begin_reading(parser);
  hed_parser_drop_text(parser);
  hed_parser_set_parts(parser, limit);
  HOLDS(hed_parser_set_policy(parser, &usual) == HED_OK);
}

/* The same by limits of 1, to which a string adds a millisecond for each byte. */
static void fall_due(reading *it, size_t len) {
  static hed_policy soon;
  for (size_t i = 0; i < sizeof soon / sizeof(int32_t); i++) ((int32_t *)&soon)[i] = 1;
  int32_t due = it->rest == 0 ? -1 : hed_parser_waiting(parser) == HED_WAITING_STRING ? (int32_t)it->rest + 1 : 1;
  HOLDS(hed_parser_set_policy(parser, &soon) == HED_OK && hed_parser_timeout(parser, 0) == due);
  hed_parser_idle(parser, it->rest + 1);
  HOLDS(hed_parser_timeout(parser, 0) == (it->rest == 0 ? -1 : 0));
  take_all(it);
  HOLDS(it->count <= len && hed_parser_waiting_len(parser) == 0);
}

static void read_whole(const uint8_t *stream, size_t len) {
  hed_parser *first = parser, sharing = HED_PARSER_NONE;
  HOLDS(hed_parser_init_sharing(&sharing, HED_DIALECT_EXTENDED, parser) == HED_OK);
  parser = &sharing;
  begin(&whole, HED_NO_PARTS);
  read_up_to(&whole, stream, 0, len);
  fall_due(&whole, len);
  hed_parser_free(&sharing);
  parser = first;
}

static void read_cut(const uint8_t *pieces, size_t count, bool is_by_byte, const uint8_t *stream, size_t len) {
  size_t from = 0;
  begin(&cut, count & 1 ? count / 2 : HED_NO_PARTS);
  for (size_t i = 0; i < count || from < len; i++) {
    uint8_t piece = i < count ? pieces[i] : 0;
    size_t left = len - from, size = i < count ? piece & SIZE : is_by_byte ? 1 : left;
    size_t to = from + (size < left ? size : left);
    read_up_to(&cut, stream, from, to);
    if (piece & AGAIN) read_rest_again(&cut, stream, to);
    if (piece & PAUSED) pause_shortly(&cut);
    if (piece & SHRUNK) shrink(&cut, piece & SIZE);
    from = to;
  }
  read_end(&cut, stream, len);
}

/* Reads what is left of an input after its first byte, and compares. */
static void read_both(input *it, uint8_t first) {
  size_t count, len;
  const uint8_t *pieces = take_bytes(it, first & SIZE, &count), *stream = take_bytes(it, STREAM_MAX, &len);
  read_whole(stream, len);
  read_cut(pieces, count, first & LAST_BY_BYTE, stream, len);
  HOLDS(whole.count == cut.count);
  for (size_t i = 0; i < whole.count; i++) HOLDS(same_event(&whole.events[i], &cut.events[i]));
  HOLDS(whole.texts_len == cut.texts_len && memcmp(whole.texts, cut.texts, whole.texts_len) == 0);
  HOLDS(parts_len == 0 && (whole.rest == cut.rest || cut.limit != HED_NO_PARTS));
}
