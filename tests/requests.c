/* Writes the size of each request for memory to descriptor 3, a line each, and refuses the one whose number is in the variable REFUSE.
 * Preload it. */
#include <stdio.h>
#include <stdlib.h>
#include <unistd.h>

/* The calls of glibc, under names that this doesn't replace. */
void *__libc_malloc(size_t size);
void *__libc_realloc(void *block, size_t size);

static int is_granted(size_t size) {
  static long requests;
  char line[32];
  const char *refused = getenv("REFUSE");
  int length = snprintf(line, sizeof line, "%zu\n", size);
  if (write(3, line, (size_t)length) != length) abort();
  return ++requests != (refused ? atol(refused) : 0);
}

void *malloc(size_t size) {
  return is_granted(size) ? __libc_malloc(size) : NULL;
}

void *realloc(void *block, size_t size) {
  return is_granted(size) ? __libc_realloc(block, size) : NULL;
}
