/* Questions beside a plain list of all that were ever asked.
 *
 * An input is a program of calls, each a letter and its arguments. Any other letter is passed over.
 *
 *     A n m   ask what n % 8 stands for, n / 8 times more, for 16 m ms
 *     F n bytes  feed n bytes, 31 at most, and note all events that they give
 *     R n     feed a reply, which n stands for, and note the event
 *     N k n bytes  note an event of the kind k that has n bytes, 31 at most
 *     T n     16 n ms pass; from n = 128 on, the clock steps back
 *     E  expire      X  forget      K  free the parser, or make it again      C n  calls with n more open questions than there may be
 *
 * Each answer and each field has to be what the list says, and the parser expects a position for each that is still to come. What is refused
 * changes nothing. No call asks for memory. */
#include "fuzz.h"
#include <string.h>

enum { MOST_CALLS = 300, TEXT_MAX = 32, MANY = 16, LEAST = 2000, BACK = 128, MOST_EXPECTED = 255 };

typedef struct asked {
  uint64_t number, at, until;
  uint32_t positions;
  bool is_open;
} asked;

static struct {
  asked all[MOST_CALLS];
  size_t count;
  uint64_t answered, slowest;
  unsigned expected;
  bool is_made;
} plain;

static hed_parser parser;
static hed_questions *questions;
static room place, given, number_place;
static uint64_t now;

static const char *const texts[8] = { "",       "\033[6n",     "\033]11;?\033\\",     "\033[6n\033[?u\033[6n",
                                      "\033[6", "n\033[6n[6n", "\033\033[6n\033[?6n", "\033[6N" };
static const char *const replies[] = { "\033[?62;22c", "\033[?1c", "\033[12;40R", "\033[1;5R", "\033]11;rgb:1/2/3\007", "\033[?5u",
                                       "\033[>0;1c",   "q",        "\033[?c",     "\033[?;c",  "\033P>|x\033\\",        "\033[?6;7;c" };

/* The open ones, the oldest first. */
static size_t find_open(asked **found) {
  size_t count = 0;
  for (size_t i = 0; i < plain.count; i++)
    if (plain.all[i].is_open) found[count++] = &plain.all[i];
  return count;
}

static void expect_of_open(void) {
  uint64_t sum = 0;
  for (size_t i = 0; i < plain.count; i++) sum += plain.all[i].is_open ? plain.all[i].positions : 0;
  plain.expected = sum < MOST_EXPECTED ? (unsigned)sum : MOST_EXPECTED;
}

static void end_overdue(void) {
  for (size_t i = 0; i < plain.count; i++) plain.all[i].is_open &= now < plain.all[i].until;
}

static hed_status unless_made(hed_status answer) {
  return plain.is_made ? answer : HED_NOT_INITIALIZED;
}

static void check_state(void) {
  asked *open[MOST_CALLS];
  size_t count = find_open(open);
  uint64_t left = UINT64_MAX;
  hed_reading reading;
  HOLDS(questions->count == count && questions->asked == plain.count);
  HOLDS(questions->answered == plain.answered && questions->slowest == plain.slowest);
  for (size_t i = 0; i < count; i++) {
    const hed_question *it = &questions->open[i];
    HOLDS(it->number == open[i]->number && it->asked == open[i]->at && it->until == open[i]->until && it->positions == open[i]->positions);
    uint64_t own = it->until > now ? it->until - now : 0;
    left = own < left ? own : left;
  }
  HOLDS(hed_questions_timeout(questions, now) == (count == 0 ? -1 : left < INT32_MAX ? (int32_t)left : INT32_MAX));
  HOLDS(hed_parser_reading(&parser, &reading) == unless_made(HED_OK));
  HOLDS(!plain.is_made || reading.questions == plain.expected);
  HOLDS(requests == 0 && is_untouched(&place, sizeof *questions));
  note((unsigned)count, plain.expected);
}

static uint32_t positions_of(const uint8_t *text, size_t len) {
  static const char position[] = "\033[6n";
  uint32_t count = 0;
  for (size_t at = 0; at + 4 <= len; at++) count += memcmp(text + at, position, 4) == 0;
  return count;
}

static void ask(input *it) {
  static uint8_t text[256];
  uint8_t n = take_byte(it);
  uint64_t milliseconds = MANY * (uint64_t)take_byte(it), *number = room_of(&number_place, sizeof *number);
  size_t len = 0, kept = 0, each = strlen(texts[n % 8]);
  for (unsigned i = 0; i <= n / 8u && len + each <= sizeof text; i++, len += each) memcpy(text + len, texts[n % 8], each);
  for (size_t i = 0; i < plain.count; i++) kept += plain.all[i].is_open && now < plain.all[i].until;
  room_with(&given, text, len);
  hed_status wanted = unless_made(kept == HED_QUESTIONS_MOST ? HED_FULL : HED_OK);
  HOLDS(hed_questions_ask(questions, &parser, now, milliseconds, pointer_to(&given), len, number) == wanted);
  HOLDS(is_unchanged(&given, text) && is_untouched(&number_place, wanted ? 0 : sizeof *number));
  if (wanted) return;
  end_overdue();
  uint64_t until = now + (milliseconds < LEAST ? LEAST : milliseconds);
  plain.all[plain.count] = (asked){ plain.count + 1, now, until, positions_of(given.at, len), true };
  plain.count++;
  expect_of_open();
  HOLDS(*number == plain.count);
}

static bool is_attributes(const hed_event *event, const uint8_t *text, size_t len) {
  if (event->kind != HED_KIND_CSI || len < 3 || text[0] != '?' || text[1] < '0' || text[1] > '9' || text[len - 1] != 'c') return false;
  for (size_t i = 1; i < len - 1; i++)
    if (text[i] != ';' && (text[i] < '0' || text[i] > '9')) return false;
  return true;
}

static bool is_reply(uint8_t kind) {
  static const uint8_t kinds[] = {
    HED_KIND_CURSOR_POSITION, HED_KIND_KEYBOARD_FLAGS, HED_KIND_CSI, HED_KIND_OSC, HED_KIND_DCS, HED_KIND_APC,
    HED_KIND_STRING_PART,     HED_KIND_STRING_CUT
  };
  return memchr(kinds, kind, sizeof kinds);
}

/* What the list says of an event: the question that it answers. */
static uint64_t note_in_list(const hed_event *event, const uint8_t *text, size_t len) {
  asked *open[MOST_CALLS];
  size_t count = find_open(open);
  if (count == 0 || !is_reply(event->kind)) return 0;
  if (event->kind == HED_KIND_CURSOR_POSITION)
    for (size_t i = 0; i < count; i++)
      if (open[i]->positions > 0) {
        open[i]->positions--;
        break;
      }
  if (is_attributes(event, text, len)) {
    uint64_t took = now > open[0]->at ? now - open[0]->at : 0;
    plain.slowest = took > plain.slowest ? took : plain.slowest;
    plain.answered = open[0]->number;
    open[0]->is_open = false;
    expect_of_open();
  }
  return open[0]->number;
}

static void note_event(const hed_event *event, const uint8_t *text, size_t len) {
  static room event_place;
  uint64_t *number = room_of(&number_place, sizeof *number);
  room_with(&event_place, event, sizeof *event);
  room_with(&given, text, len);
  hed_status status = hed_questions_note(questions, &parser, now, (hed_event *)event_place.at, pointer_to(&given), len, number);
  HOLDS(status == unless_made(HED_OK) && is_unchanged(&event_place, event) && is_unchanged(&given, text));
  HOLDS(is_untouched(&number_place, status ? 0 : sizeof *number));
  if (!status) HOLDS(*number == note_in_list(event, text, len));
}

static void feed(const uint8_t *bytes, size_t len) {
  static uint8_t text[3 * MOST_CALLS * TEXT_MAX];
  hed_event event;
  HOLDS(hed_parser_feed(&parser, now, bytes, len) == unless_made(HED_OK));
  while (hed_parser_next(&parser, &event) == HED_OK) {
    plain.expected -= event.kind == HED_KIND_CURSOR_POSITION && plain.expected > 0;
    requests = 0;
    note_event(&event, text, hed_parser_text(&parser, text, sizeof text));
    check_state();
  }
  requests = 0;
}

static void feed_bytes(input *it) {
  size_t len;
  const uint8_t *bytes = take_bytes(it, take_byte(it) % TEXT_MAX, &len);
  feed(bytes, len);
}

static void feed_reply(input *it) {
  const char *reply = replies[take_byte(it) % (sizeof replies / sizeof *replies)];
  feed((const uint8_t *)reply, strlen(reply));
}

static void note_any(input *it) {
  size_t len;
  hed_event event = { .kind = take_byte(it) % (HED_KIND_STRING_CUT + 1) };
  const uint8_t *text = take_bytes(it, take_byte(it) % TEXT_MAX, &len);
  event.text_len = len;
  note_event(&event, text, len);
}

static void let_pass(input *it) {
  uint8_t n = take_byte(it);
  uint64_t step = MANY * (uint64_t)(n % BACK);
  if (n < BACK) now += step;
  else now -= step < now ? step : now;
}

static void expire(void) {
  HOLDS(hed_questions_expire(questions, &parser, now) == unless_made(HED_OK));
  if (!plain.is_made) return;
  end_overdue();
  expect_of_open();
}

static void forget(void) {
  hed_questions_forget(questions, &parser);
  for (size_t i = 0; i < plain.count; i++) plain.all[i].is_open = false;
  plain.expected = 0;
}

static void free_or_make(void) {
  static hed_parser table = HED_PARSER_NONE;
  if (plain.is_made) hed_parser_free(&parser);
  else {
    owner = TWIN;
    HOLDS(table.live || !hed_parser_init(&table, HED_DIALECT_EXTENDED));
    HOLDS(!hed_parser_init_sharing(&parser, HED_DIALECT_EXTENDED, &table));
  }
  plain.is_made = !plain.is_made;
  plain.expected = 0;
  requests = 0;
}

/* A count of open ones that no call left. */
static void check_bad_count(uint8_t more) {
  hed_questions bad = *questions, kept;
  hed_event event = { .kind = HED_KIND_OSC };
  uint64_t number;
  bad.count = HED_QUESTIONS_MOST + 1 + more;
  kept = bad;
  if (!plain.is_made) return;
  HOLDS(hed_questions_ask(&bad, &parser, now, 0, NULL, 0, &number) == HED_BAD_NUMBER);
  HOLDS(hed_questions_note(&bad, &parser, now, &event, NULL, 0, &number) == HED_BAD_NUMBER);
  HOLDS(hed_questions_expire(&bad, &parser, now) == HED_BAD_NUMBER && hed_questions_timeout(&bad, now) == -1);
  HOLDS(memcmp(&bad, &kept, sizeof bad) == 0);
}

static void call(input *it) {
  refuse_request(0);
  switch (take_letter(it).capital) {
    case 'A': ask(it); break;
    case 'F': feed_bytes(it); break;
    case 'R': feed_reply(it); break;
    case 'N': note_any(it); break;
    case 'T': let_pass(it); break;
    case 'E': expire(); break;
    case 'X': forget(); break;
    case 'K': free_or_make(); break;
    case 'C': check_bad_count(take_byte(it)); break;
    default: break;
  }
  check_state();
}

void try_input(input *it) {
  static const hed_questions none = HED_QUESTIONS_NONE;
  memset(&plain, 0, sizeof plain);
  now = 0;
  owner = TWIN;
  parser = (hed_parser)HED_PARSER_NONE;
  questions = room_with(&place, &none, sizeof none);
  free_or_make();
  for (int calls = 0; it->left > 0 && calls < MOST_CALLS; calls++) call(it);
  hed_parser_free(&parser);
}
