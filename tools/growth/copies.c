/* Copies, which the C library makes in other ways for other lengths and on other processors: here each byte takes the same instructions, also
 * where the last one is copied first. */
#include <stddef.h>

/* Copies so many bytes, each a step from the one before. */
static __attribute__((noinline)) void copy(char *out, const char *in, size_t length, ptrdiff_t step) {
  for (; length > 0; length--, out += step, in += step) *out = *in;
}

void *__wrap_memcpy(void *to, const void *from, size_t length) {
  copy(to, from, length, 1);
  return to;
}

void *__wrap_memmove(void *to, const void *from, size_t length) {
  char *out = to;
  const char *in = from;
  if (out <= in || length == 0) copy(out, in, length, 1);
  else copy(out + length - 1, in + length - 1, length, -1);
  return to;
}

void *__wrap_memset(void *to, int byte, size_t length) {
  char *out = to;
  for (size_t i = 0; i < length; i++) out[i] = (char)byte;
  return to;
}
