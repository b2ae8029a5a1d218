/* A test of parsers that share one sequence table: made from each other, freed in each order, and used by four threads at once. */
#include "told.h"
#include <malloc.h>
#include <pthread.h>

static bool init_sharing(hed_parser *parser, uint32_t dialect, const hed_parser *other) {
  return hed_parser_init_sharing(parser, dialect, other) == HED_OK;
}

#if !__GLIBC_PREREQ(2, 33)
#define mallinfo2 mallinfo
#endif

/* How many bytes of memory are in use. Valgrind, which has its own, leaves them at 0. */
static size_t in_use(void) {
  struct mallinfo2 all = mallinfo2();
  return (size_t)all.uordblks + (size_t)all.hblkhd;
}

/* A table has more bytes. */
enum { LEAST_TABLE = 100000 };

/* Whether the next event is this key, with these modifiers. */
static bool next_is(hed_parser *parser, uint16_t key, uint32_t detail, uint8_t modifiers) {
  hed_event event, wanted = PRESS(modifiers, key, detail);
  return hed_parser_next(parser, &event) == HED_OK && same_event(&event, &wanted);
}

static bool feeds(hed_parser *parser, const char *text) {
  return hed_parser_feed(parser, 0, (const uint8_t *)text, strlen(text)) == HED_OK;
}

/* Whether the parser reads keys of the table, short and long, and a character. The dialects read one of the keys each in its own way. */
static bool is_reading(hed_parser *parser) {
  hed_reading reading;
  bool is_termwiz = hed_parser_reading(parser, &reading) == HED_OK && reading.dialect == HED_DIALECT_TERMWIZ;
  return feeds(parser, "\033[A\033[1;5D\033[27;5;13~q\033[97;5u\033[1;9A\033") && next_is(parser, HED_KEY_UP_ARROW, 0, 0)
         && next_is(parser, HED_KEY_LEFT_ARROW, 0, CTRL) && next_is(parser, HED_KEY_ENTER, 0, CTRL) && next_is(parser, HED_KEY_CHAR, 'q', 0)
         && next_is(parser, HED_KEY_CHAR, 'a', CTRL) && next_is(parser, HED_KEY_UP_ARROW, 0, is_termwiz ? ALT : SUPER)
         && hed_parser_waiting_len(parser) == 1 && feeds(parser, "[B") && next_is(parser, HED_KEY_DOWN_ARROW, 0, 0)
         && hed_parser_waiting_len(parser) == 0;
}

/* Three parsers, of which the second is made from the first and the third from the second. After each that is freed, the others read on. */
static void frees_in_order(const int order[3], uint32_t dialects) {
  hed_parser made[3] = { HED_PARSER_NONE, HED_PARSER_NONE, HED_PARSER_NONE };
  EXPECT(hed_parser_init(&made[0], dialects & 1) == HED_OK);
  size_t before = in_use();
  EXPECT(init_sharing(&made[1], dialects >> 1 & 1, &made[0]) && init_sharing(&made[2], dialects >> 2, &made[1]));
  EXPECT(in_use() - before < LEAST_TABLE);
  for (int i = 0; i < 3; i++) EXPECT(is_reading(&made[i]));
  for (int freed = 0; freed < 3; freed++) {
    hed_parser_free(&made[order[freed]]);
    for (int i = 0; i < 3; i++) EXPECT(made[i].live ? is_reading(&made[i]) : !feeds(&made[i], "q"));
  }
}

static void frees_in_each_order(void) {
  static const int orders[][3] = { { 0, 1, 2 }, { 0, 2, 1 }, { 1, 0, 2 }, { 1, 2, 0 }, { 2, 0, 1 }, { 2, 1, 0 } };
  for (uint32_t dialects = 0; dialects < 8; dialects++)
    for (size_t i = 0; i < sizeof orders / sizeof orders[0]; i++) frees_in_order(orders[i], dialects);
}

/* Each parser has a buffer of its own, and its own limits and parts. One that was there is freed, be it over this table or over another. Without
 * another parser, or with a number that names no dialect, nothing changes. */
static void shares_the_table_alone(void) {
  static const hed_policy policy = { .escape = 7 };
  static const uint32_t no_dialects[] = { 2, 256, 65536, UINT32_MAX };
  hed_parser first = HED_PARSER_NONE, second = HED_PARSER_NONE, none = HED_PARSER_NONE;
  EXPECT(hed_parser_init(&first, HED_DIALECT_EXTENDED) == HED_OK && hed_parser_set_policy(&first, &policy) == HED_OK);
  hed_parser_set_parts(&first, 0);
  READS(&first, START "last" END "\033", "paste \"last\"");
  EXPECT(hed_parser_init(&second, HED_DIALECT_EXTENDED) == HED_OK && feeds(&second, "\033[1;5"));
  for (int again = 0; again < 2; again++) {
    EXPECT(init_sharing(&second, HED_DIALECT_EXTENDED, &first) && hed_parser_text(&second, NULL, 0) == 0);
    EXPECT(hed_parser_waiting_len(&second) == 0 && hed_parser_waiting_len(&first) == 1 && hed_parser_text(&first, NULL, 0) == 4);
    EXPECT(hed_parser_init_sharing(&first, HED_DIALECT_EXTENDED, &none) == HED_NOT_INITIALIZED && !none.live);
    for (size_t i = 0; i < 4; i++) EXPECT(hed_parser_init_sharing(&first, no_dialects[i], &second) == HED_BAD_NUMBER);
    for (size_t i = 0; i < 4; i++) EXPECT(hed_parser_init_sharing(&none, no_dialects[i], &second) == HED_BAD_NUMBER && !none.live);
    READS(&second, START "a" END "\033", "paste \"a\"");
    EXPECT(hed_parser_timeout(&second, 0) == 50 && hed_parser_timeout(&first, 0) == 7);
    READS(&second, "[" START "a", "key U+005B ALT");
    EXPECT(hed_parser_waiting_len(&second) == 7 && hed_parser_waiting_len(&first) == 1);
  }
  READS(&first, "[D", "key LeftArrow NONE");
  hed_parser_free(&first);
  READS(&second, END, "paste \"a\"");
  EXPECT(is_reading(&second));
  hed_parser_free(&second);
}

enum { THREADS = 4, ROUNDS = 20 };

/* The parser that threads make theirs from, and its lock. */
static hed_parser idle = HED_PARSER_NONE;
static pthread_mutex_t of_idle = PTHREAD_MUTEX_INITIALIZER;

/* A thread has a parser that was made for it, and leaves one in its place. Its faults are counted. */
typedef struct worker {
  pthread_t thread;
  hed_parser own;
  int faults;
} worker;

/* Makes a parser from the idle one and another from that, uses both, and frees them, the first one first or last. */
static bool makes_and_frees(uint32_t dialect, bool is_first_first) {
  hed_parser first = HED_PARSER_NONE, second = HED_PARSER_NONE;
  pthread_mutex_lock(&of_idle);
  bool is_made = init_sharing(&first, dialect, &idle);
  pthread_mutex_unlock(&of_idle);
  bool holds = is_made && init_sharing(&second, !dialect, &first) && is_reading(&first) && is_reading(&second);
  hed_parser_free(is_first_first ? &first : &second);
  holds = holds && is_reading(is_first_first ? &second : &first);
  hed_parser_free(is_first_first ? &second : &first);
  return holds;
}

static void *work(void *passed) {
  worker *it = passed;
  hed_parser next = HED_PARSER_NONE;
  it->faults += !is_reading(&it->own);
  for (int round = 0; round < ROUNDS; round++) it->faults += !makes_and_frees(round & 1, round & 2);
  it->faults += !init_sharing(&next, HED_DIALECT_TERMWIZ, &it->own);
  hed_parser_free(&it->own);
  it->own = next;
  return NULL;
}

/* Makes a parser for each thread from the first. */
static void make_for(worker *workers, const hed_parser *first) {
  for (int i = 0; i < THREADS; i++) {
    workers[i].own = (hed_parser)HED_PARSER_NONE;
    EXPECT(init_sharing(&workers[i].own, i & 1, first));
  }
}

/* Runs the threads at once. */
static void run(worker *workers, void *(*body)(void *)) {
  for (int i = 0; i < THREADS; i++) EXPECT(pthread_create(&workers[i].thread, NULL, body, &workers[i]) == 0);
  for (int i = 0; i < THREADS; i++) EXPECT(pthread_join(workers[i].thread, NULL) == 0 && workers[i].faults == 0);
}

/* Threads make, use and free parsers of one table. Each is passed one, and passes another back, which outlives the idle one. */
static void works_in_threads(void) {
  static worker workers[THREADS];
  EXPECT(hed_parser_init(&idle, HED_DIALECT_EXTENDED) == HED_OK);
  make_for(workers, &idle);
  run(workers, work);
  hed_parser_free(&idle);
  for (int i = 0; i < THREADS; i++) {
    EXPECT(is_reading(&workers[i].own));
    hed_parser_free(&workers[i].own);
  }
}

/* Makes a parser from the thread's own, and frees both. */
static void *ends(void *passed) {
  worker *it = passed;
  hed_parser next = HED_PARSER_NONE;
  it->faults = !is_reading(&it->own) || !init_sharing(&next, HED_DIALECT_TERMWIZ, &it->own);
  hed_parser_free(&it->own);
  it->faults += !is_reading(&next);
  hed_parser_free(&next);
  return NULL;
}

/* One of the threads frees the last parser of the table. No lock orders them. */
static void frees_the_table_in_a_thread(void) {
  static worker workers[THREADS];
  hed_parser first = HED_PARSER_NONE;
  EXPECT(hed_parser_init(&first, HED_DIALECT_EXTENDED) == HED_OK);
  make_for(workers, &first);
  hed_parser_free(&first);
  run(workers, ends);
}

int main(void) {
  TEST(frees_in_each_order());
  TEST(shares_the_table_alone());
  TEST(works_in_threads());
  TEST(frees_the_table_in_a_thread());
  return expected("test_sharing");
}
