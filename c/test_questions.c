/* A test of the questions that a program asks its terminal, on a parser that reads the replies. */
#include "expect.h"
#include "hedrugal.h"
#include <string.h>

#define TEXT(bytes) (const uint8_t *)(bytes), sizeof bytes - 1
#define POSITION "\033[6n"
#define COLOUR "\033]11;?\033\\"
#define DA1_REPLY "\033[?62;22c"
#define LAST_TIME UINT64_MAX

/* A question that a call wrote no number for. */
#define UNWRITTEN 77

/* The questions, their parser, the answer of the last call, and the number that it wrote. */
struct asker {
  hed_questions questions;
  hed_parser parser;
  hed_status status;
  uint64_t number;
};

static struct asker new_asker(void) {
  struct asker asker = { HED_QUESTIONS_NONE, HED_PARSER_NONE, HED_OK, UNWRITTEN };
  EXPECT(hed_parser_init(&asker.parser, HED_DIALECT_EXTENDED) == HED_OK);
  return asker;
}

static hed_status ask(struct asker *asker, uint64_t now, uint64_t milliseconds, const uint8_t *text, size_t len) {
  asker->number = UNWRITTEN;
  return asker->status = hed_questions_ask(&asker->questions, &asker->parser, now, milliseconds, text, len, &asker->number);
}

static hed_status note(struct asker *asker, uint64_t now, uint8_t kind, const void *text, size_t len) {
  hed_event event;
  memset(&event, 0, sizeof event);
  event.kind = kind;
  event.text_len = len;
  asker->number = UNWRITTEN;
  return asker->status = hed_questions_note(&asker->questions, &asker->parser, now, &event, (const uint8_t *)text, len, &asker->number);
}

/* Feeds what the terminal sent, which is one event, and notes it. Returns its kind. */
static uint8_t sent(struct asker *asker, uint64_t now, const void *bytes, size_t len) {
  uint8_t text[256];
  hed_event event;
  EXPECT(hed_parser_feed(&asker->parser, now, (const uint8_t *)bytes, len) == HED_OK && hed_parser_next(&asker->parser, &event) == HED_OK);
  size_t text_len = hed_parser_text(&asker->parser, text, sizeof text);
  asker->number = UNWRITTEN;
  asker->status = hed_questions_note(&asker->questions, &asker->parser, now, &event, text, text_len, &asker->number);
  EXPECT(hed_parser_next(&asker->parser, &event) == HED_NONE);
  return event.kind;
}

/* How many positions of the cursor the parser expects. */
static unsigned expected_positions(struct asker *asker) {
  hed_reading reading;
  EXPECT(hed_parser_reading(&asker->parser, &reading) == HED_OK);
  return reading.questions;
}

static bool is_answered(const struct asker *asker, uint64_t number) {
  return asker->status == HED_OK && asker->number == number;
}

/* The questions that are open have these numbers. */
static bool are_open(const struct asker *asker, const char *numbers) {
  char open[HED_QUESTIONS_MOST * 24] = "";
  for (uint32_t i = 0; i < asker->questions.count; i++)
    sprintf(open + strlen(open), i == 0 ? "%lu" : " %lu", (unsigned long)asker->questions.open[i].number);
  return strcmp(open, numbers) == 0;
}

/* Neither the questions nor what the parser expects is changed by a call, and it writes no number. */
#define CHANGES_NOTHING(asker, answer, call)                                                                    \
  do {                                                                                                          \
    hed_questions before_call = (asker)->questions;                                                             \
    bool live = (asker)->parser.live;                                                                           \
    unsigned positions = live ? expected_positions(asker) : 0;                                                  \
    EXPECT((call) == (answer));                                                                                 \
    EXPECT(memcmp(&before_call, &(asker)->questions, sizeof before_call) == 0 && (asker)->number == UNWRITTEN); \
    EXPECT(!live || expected_positions(asker) == positions);                                                    \
  } while (0)

/* Replies come in the order of the questions, and that to DA1 is the last of each. */
static void replies_are_of_the_oldest(void) {
  struct asker asker = new_asker();
  EXPECT(sent(&asker, 5, TEXT(DA1_REPLY)) == HED_KIND_CSI && is_answered(&asker, 0) && asker.questions.answered == 0);
  EXPECT(ask(&asker, 10, 0, TEXT(COLOUR)) == HED_OK && asker.number == 1 && are_open(&asker, "1"));
  EXPECT(ask(&asker, 20, 5000, TEXT(POSITION COLOUR)) == HED_OK && asker.number == 2 && are_open(&asker, "1 2"));
  EXPECT(asker.questions.open[0].asked == 10 && asker.questions.open[0].until == 2010 && asker.questions.open[0].positions == 0);
  EXPECT(asker.questions.open[1].asked == 20 && asker.questions.open[1].until == 5020 && asker.questions.open[1].positions == 1);
  EXPECT(sent(&asker, 30, TEXT("a")) == HED_KIND_KEY && is_answered(&asker, 0));
  EXPECT(sent(&asker, 35, TEXT("\033]11;rgb:1/2/3\033\\")) == HED_KIND_OSC && is_answered(&asker, 1));
  EXPECT(sent(&asker, 40, TEXT(DA1_REPLY)) == HED_KIND_CSI && is_answered(&asker, 1) && are_open(&asker, "2"));
  EXPECT(asker.questions.answered == 1 && asker.questions.slowest == 30 && asker.questions.asked == 2);
  EXPECT(sent(&asker, 45, TEXT("\033[3;7R")) == HED_KIND_CURSOR_POSITION && is_answered(&asker, 2));
  EXPECT(asker.questions.open[0].positions == 0 && expected_positions(&asker) == 0);
  EXPECT(sent(&asker, 46, TEXT(DA1_REPLY)) == HED_KIND_CSI && is_answered(&asker, 2) && are_open(&asker, ""));
  EXPECT(asker.questions.answered == 2 && asker.questions.slowest == 30);
  EXPECT(sent(&asker, 50, TEXT(DA1_REPLY)) == HED_KIND_CSI && is_answered(&asker, 0));
  EXPECT(asker.questions.answered == 2 && ask(&asker, 60, 0, NULL, 0) == HED_OK && asker.number == 3);
  EXPECT(asker.questions.open[0].positions == 0 && note(&asker, 10, HED_KIND_CSI, TEXT("?1c")) == HED_OK && is_answered(&asker, 3));
  EXPECT(asker.questions.answered == 3 && asker.questions.slowest == 30);
  hed_parser_free(&asker.parser);
}

/* The parser expects as many positions as the open questions have still to come, and no other. */
static void positions_are_counted(void) {
  struct asker asker = new_asker();
  EXPECT(ask(&asker, 0, 3000, TEXT(POSITION "\033\033[6n" POSITION "\033[6 n\033[6")) == HED_OK && asker.questions.open[0].positions == 3);
  EXPECT(ask(&asker, 0, 2000, TEXT(COLOUR)) == HED_OK && ask(&asker, 0, 4000, TEXT(POSITION)) == HED_OK && expected_positions(&asker) == 4);
  EXPECT(sent(&asker, 1, TEXT("\033[1;5R")) == HED_KIND_CURSOR_POSITION && is_answered(&asker, 1));
  EXPECT(asker.questions.open[0].positions == 2 && expected_positions(&asker) == 3);
  EXPECT(sent(&asker, 2, TEXT(DA1_REPLY)) == HED_KIND_CSI && is_answered(&asker, 1) && expected_positions(&asker) == 1);
  /* a position that comes before its question's turn is one less for the first question that has some */
  EXPECT(sent(&asker, 3, TEXT("\033[1;5R")) == HED_KIND_CURSOR_POSITION && is_answered(&asker, 2));
  EXPECT(asker.questions.open[0].positions == 0 && asker.questions.open[1].positions == 0 && expected_positions(&asker) == 0);
  EXPECT(sent(&asker, 4, TEXT("\033[1;5R")) == HED_KIND_KEY && is_answered(&asker, 0));
  EXPECT(note(&asker, 4, HED_KIND_CURSOR_POSITION, NULL, 0) == HED_OK && is_answered(&asker, 2) && are_open(&asker, "2 3"));
  hed_questions_forget(&asker.questions, &asker.parser);
  /* another program had the terminal: the parser forgot its positions, and is told those of what is asked meanwhile */
  EXPECT(ask(&asker, 5, 9000, TEXT(POSITION)) == HED_OK && asker.number == 4 && hed_parser_interrupted(&asker.parser, 6) == HED_OK);
  EXPECT(expected_positions(&asker) == 0 && hed_questions_expire(&asker.questions, &asker.parser, 6) == HED_OK
         && expected_positions(&asker) == 1);
  hed_parser_expect_position(&asker.parser);
  EXPECT(hed_questions_expire(&asker.questions, &asker.parser, 6) == HED_OK && expected_positions(&asker) == 1 && are_open(&asker, "4"));
  hed_questions_forget(&asker.questions, &asker.parser);
  EXPECT(are_open(&asker, "") && expected_positions(&asker) == 0 && asker.questions.asked == 4 && asker.questions.answered == 1);
  hed_parser_free(&asker.parser);
}

/* A parser expects at most 255 positions. */
static void many_positions(void) {
  struct asker asker = new_asker();
  static uint8_t text[4 * 300];
  for (size_t i = 0; i < sizeof text; i += 4) memcpy(text + i, POSITION, 4);
  EXPECT(ask(&asker, 0, 0, text, sizeof text) == HED_OK && asker.questions.open[0].positions == 300 && expected_positions(&asker) == 255);
  EXPECT(ask(&asker, 0, 0, text, 4 * 200) == HED_OK && asker.questions.open[1].positions == 200 && expected_positions(&asker) == 255);
  EXPECT(sent(&asker, 1, TEXT(DA1_REPLY)) == HED_KIND_CSI && are_open(&asker, "2") && expected_positions(&asker) == 200);
  asker.questions.open[0].positions = UINT32_MAX;
  EXPECT(hed_questions_expire(&asker.questions, &asker.parser, 1) == HED_OK && expected_positions(&asker) == 255);
  hed_parser_free(&asker.parser);
}

/* As many are open as may be. What is overdue makes room, wherever it stands. */
static void no_more_than_most(void) {
  struct asker asker = new_asker();
  for (uint64_t i = 1; i <= HED_QUESTIONS_MOST; i++)
    EXPECT(ask(&asker, i, i % 5 == 0 ? 2000 : 3000, TEXT(POSITION)) == HED_OK && asker.number == i && asker.questions.count == i);
  EXPECT(are_open(&asker, "1 2 3 4 5 6 7 8 9 10 11 12 13 14 15 16") && expected_positions(&asker) == 16);
  EXPECT(hed_questions_timeout(&asker.questions, 100) == 1905);
  asker.number = UNWRITTEN;
  CHANGES_NOTHING(&asker, HED_FULL, ask(&asker, 2004, 0, TEXT(POSITION)));
  EXPECT(hed_questions_timeout(&asker.questions, 2004) == 1 && hed_questions_timeout(&asker.questions, 2005) == 0);
  EXPECT(ask(&asker, 2005, 0, TEXT(COLOUR)) == HED_OK && asker.number == 17 && are_open(&asker, "1 2 3 4 6 7 8 9 10 11 12 13 14 15 16 17"));
  EXPECT(expected_positions(&asker) == 15);
  CHANGES_NOTHING(&asker, HED_FULL, ask(&asker, 2009, 0, NULL, 0));
  EXPECT(hed_questions_expire(&asker.questions, &asker.parser, 2010) == HED_OK && are_open(&asker, "1 2 3 4 6 7 8 9 11 12 13 14 15 16 17"));
  EXPECT(hed_questions_expire(&asker.questions, &asker.parser, 3012) == HED_OK && are_open(&asker, "13 14 16 17"));
  EXPECT(expected_positions(&asker) == 3 && asker.questions.asked == 17 && asker.questions.answered == 0 && asker.questions.slowest == 0);
  /* a late reply to DA1 counts for the oldest that is open */
  EXPECT(sent(&asker, 3012, TEXT(DA1_REPLY)) == HED_KIND_CSI && is_answered(&asker, 13) && are_open(&asker, "14 16 17"));
  EXPECT(asker.questions.slowest == 2999);
  EXPECT(hed_questions_expire(&asker.questions, &asker.parser, LAST_TIME) == HED_OK && are_open(&asker, ""));
  EXPECT(hed_questions_timeout(&asker.questions, 3012) == -1 && sent(&asker, 3012, TEXT(DA1_REPLY)) == HED_KIND_CSI
         && is_answered(&asker, 0));
  hed_parser_free(&asker.parser);
}

/* Numbers are told to the last one. */
static void numbers_to_the_last(void) {
  struct asker asker = new_asker();
  for (uint64_t i = 1; i <= 100000; i++) {
    ask(&asker, i, 0, TEXT(COLOUR));
    if (asker.status != HED_OK || asker.number != i) EXPECT(!"a further number");
    note(&asker, i, HED_KIND_CSI, TEXT("?62;22c"));
    if (asker.number != i || asker.questions.answered != i || asker.questions.count != 0) EXPECT(!"its answer");
  }
  asker.questions.asked = UINT64_MAX - 1;
  EXPECT(ask(&asker, 1, 0, NULL, 0) == HED_OK && asker.number == UINT64_MAX);
  asker.number = UNWRITTEN;
  CHANGES_NOTHING(&asker, HED_FULL, ask(&asker, 1, 0, NULL, 0));
  CHANGES_NOTHING(&asker, HED_FULL, ask(&asker, LAST_TIME, 0, NULL, 0));
  EXPECT(asker.questions.count == 1);
  hed_parser_free(&asker.parser);
}

/* Times at the end of all time, and more than poll takes. */
static void times(void) {
  struct asker asker = new_asker();
  EXPECT(ask(&asker, 1000, UINT64_MAX, NULL, 0) == HED_OK && asker.questions.open[0].until == LAST_TIME);
  EXPECT(hed_questions_timeout(&asker.questions, 1000) == INT32_MAX && hed_questions_timeout(&asker.questions, LAST_TIME - 1) == 1);
  EXPECT(hed_questions_timeout(&asker.questions, LAST_TIME - INT32_MAX - 1) == INT32_MAX);
  EXPECT(hed_questions_timeout(&asker.questions, LAST_TIME - INT32_MAX + 1) == INT32_MAX - 1);
  EXPECT(ask(&asker, LAST_TIME - 1999, 0, NULL, 0) == HED_OK && asker.questions.open[1].until == LAST_TIME && are_open(&asker, "1 2"));
  EXPECT(ask(&asker, LAST_TIME - 2001, 1999, NULL, 0) == HED_OK && asker.questions.open[2].until == LAST_TIME - 1
         && are_open(&asker, "1 2 3"));
  EXPECT(hed_questions_timeout(&asker.questions, LAST_TIME - 5) == 4 && hed_questions_timeout(&asker.questions, LAST_TIME) == 0);
  EXPECT(ask(&asker, LAST_TIME, 0, NULL, 0) == HED_OK && are_open(&asker, "4") && hed_questions_timeout(&asker.questions, LAST_TIME) == 0);
  EXPECT(note(&asker, 0, HED_KIND_CSI, TEXT("?1c")) == HED_OK && is_answered(&asker, 4) && asker.questions.slowest == 0);
  hed_parser_free(&asker.parser);
}

/* The bytes of a control sequence, and whether they are the reply to DA1. */
static const struct {
  const char *bytes;
  size_t len;
  bool is_da1;
} sequences[] = {
  { "?1c", 3, true },    { "?62;22c", 7, true }, { "?1;c", 4, true },      { "?64;1;2;6;9;15;16;17;18;21;22;28c", 33, true },
  { "?c", 2, false },    { "?;c", 3, false },    { "?;1c", 4, false },     { "c", 1, false },
  { "", 0, false },      { "1c", 2, false },     { ">1;10;0c", 8, false }, { "=1c", 3, false },
  { "?1:2c", 5, false }, { "?1 c", 4, false },   { "?1$c", 4, false },     { "?12", 3, false },
  { "?1;2n", 5, false }, { "?1cc", 4, false },   { "?1c\0", 4, false },    { "??1c", 4, false },
  { "x?1c", 4, false },
};

static void sequences_that_answer(void) {
  struct asker asker = new_asker();
  for (size_t i = 0; i < sizeof sequences / sizeof *sequences; i++) {
    EXPECT(ask(&asker, i, 0, TEXT(POSITION)) == HED_OK);
    uint64_t number = asker.number;
    EXPECT(note(&asker, i, HED_KIND_CSI, sequences[i].bytes, sequences[i].len) == HED_OK && is_answered(&asker, number));
    EXPECT(asker.questions.count == !sequences[i].is_da1 && expected_positions(&asker) == !sequences[i].is_da1);
    hed_questions_forget(&asker.questions, &asker.parser);
  }
  char longest[256];
  memset(longest, '1', sizeof longest);
  longest[0] = '?';
  longest[255] = 'c';
  EXPECT(ask(&asker, 0, 0, NULL, 0) == HED_OK && note(&asker, 0, HED_KIND_CSI, longest, 256) == HED_OK && are_open(&asker, ""));
  hed_parser_free(&asker.parser);
}

/* Only some kinds are replies, and only a control sequence ends a question. */
static void kinds(void) {
  struct asker asker = new_asker();
  EXPECT(ask(&asker, 0, 0, TEXT(COLOUR)) == HED_OK);
  for (unsigned kind = 0; kind <= UINT8_MAX; kind++) {
    bool is_reply = kind == HED_KIND_CURSOR_POSITION || kind == HED_KIND_KEYBOARD_FLAGS || kind == HED_KIND_CSI || kind == HED_KIND_OSC
                    || kind == HED_KIND_DCS || kind == HED_KIND_APC || kind == HED_KIND_STRING_PART || kind == HED_KIND_STRING_CUT;
    EXPECT(note(&asker, 1, kind, TEXT("?62c")) == HED_OK && asker.number == is_reply);
    EXPECT(asker.questions.count == (kind != HED_KIND_CSI));
    if (kind == HED_KIND_CSI) {
      asker.questions = (hed_questions)HED_QUESTIONS_NONE;
      EXPECT(ask(&asker, 0, 0, TEXT(COLOUR)) == HED_OK && asker.number == 1);
    }
  }
  hed_questions_forget(&asker.questions, &asker.parser);
  for (unsigned kind = 0; kind <= UINT8_MAX; kind++) EXPECT(note(&asker, 1, kind, TEXT("?62c")) == HED_OK && asker.number == 0);
  hed_parser_free(&asker.parser);
}

/* Every call but that which forgets refuses a count above the most, with a parser and without one. */
static void refuses(struct asker *asker, hed_status refusal) {
  asker->number = UNWRITTEN;
  CHANGES_NOTHING(asker, refusal, ask(asker, 9, 0, TEXT(POSITION)));
  CHANGES_NOTHING(asker, refusal, note(asker, 9, HED_KIND_CSI, TEXT("?62c")));
  CHANGES_NOTHING(asker, refusal, note(asker, 9, HED_KIND_KEY, NULL, 0));
  CHANGES_NOTHING(asker, refusal, hed_questions_expire(&asker->questions, &asker->parser, LAST_TIME));
}

static void refusals(void) {
  struct asker asker = new_asker();
  EXPECT(ask(&asker, 0, 0, TEXT(POSITION)) == HED_OK && ask(&asker, 1, 0, TEXT(POSITION)) == HED_OK);
  hed_questions good = asker.questions, before;
  for (int parsers = 0; parsers < 2; parsers++) {
    asker.questions.count = HED_QUESTIONS_MOST + 1;
    refuses(&asker, HED_BAD_NUMBER);
    EXPECT(hed_questions_timeout(&asker.questions, 9) == -1);
    asker.questions.count = UINT32_MAX;
    refuses(&asker, HED_BAD_NUMBER);
    EXPECT(hed_questions_timeout(&asker.questions, 9) == -1);
    asker.questions = good;
    if (parsers == 0) hed_parser_free(&asker.parser);
  }
  refuses(&asker, HED_NOT_INITIALIZED);
  EXPECT(hed_questions_timeout(&asker.questions, 1) == 1999);
  hed_questions_forget(&asker.questions, &asker.parser);
  EXPECT(asker.questions.count == 0 && asker.questions.asked == 2 && !asker.parser.live);
  refuses(&asker, HED_NOT_INITIALIZED);
  /* questions that were copied are the same, and are forgotten with a bad count too */
  EXPECT(hed_parser_init(&asker.parser, HED_DIALECT_EXTENDED) == HED_OK);
  asker.questions = good;
  EXPECT(hed_questions_expire(&asker.questions, &asker.parser, 1) == HED_OK && are_open(&asker, "1 2") && expected_positions(&asker) == 2);
  before = asker.questions;
  asker.questions.count = HED_QUESTIONS_MOST + 1;
  hed_questions_forget(&asker.questions, &asker.parser);
  EXPECT(asker.questions.count == 0 && expected_positions(&asker) == 0 && asker.questions.asked == before.asked);
  hed_parser_free(&asker.parser);
}

int main(void) {
  TEST(replies_are_of_the_oldest());
  TEST(positions_are_counted());
  TEST(many_positions());
  TEST(no_more_than_most());
  TEST(numbers_to_the_last());
  TEST(times());
  TEST(sequences_that_answer());
  TEST(kinds());
  TEST(refusals());
  return expected("questions");
}
