/* Refuses requests for memory: it grants as many as the variable GRANTED says. It is linked with --wrap=malloc and --wrap=realloc. */
#include <stdbool.h>
#include <stdlib.h>

void *__real_malloc(size_t size);
void *__real_realloc(void *old, size_t size);

static bool is_granted(void) {
  static long count;
  const char *granted = getenv("GRANTED");
  return !granted || count++ < atol(granted);
}

void *__wrap_malloc(size_t size) {
  return is_granted() ? __real_malloc(size) : NULL;
}

void *__wrap_realloc(void *old, size_t size) {
  return is_granted() ? __real_realloc(old, size) : NULL;
}
