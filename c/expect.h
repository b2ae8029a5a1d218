/* Checks of the tests: a check that fails is printed with its line, and the test's status is 1. */
#ifndef EXPECT_H
#define EXPECT_H

#include <stdio.h>

static int tests, expectations, faults;

/* Runs a test, which is a call. */
#define TEST(call) (tests++, (call))

#define EXPECT(holds) expect((holds), #holds, __FILE__, __LINE__)

static void expect(int holds, const char *what, const char *file, int line) {
  expectations++;
  if (holds) return;
  faults++;
  fprintf(stderr, "%s:%d: not so: %s\n", file, line, what);
}

/* Prints how many tests and checks there were. Returns the status. */
static inline int expected(const char *test) {
  printf("%s: %d tests, %d checks, %d failed\n", test, tests, expectations, faults);
  return faults || !tests || !expectations;
}

#endif
