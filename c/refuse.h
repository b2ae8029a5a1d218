/* Refuses one request for memory of the calls that are tested, and counts what they have. A program that includes this is linked with the
 * words -Wl,--wrap=malloc, -Wl,--wrap=realloc and -Wl,--wrap=free. */
#ifndef REFUSE_H
#define REFUSE_H

#include <malloc.h>
#include <stdbool.h>
#include <stddef.h>

void *__real_malloc(size_t size);
void *__real_realloc(void *block, size_t size);
void __real_free(void *block);
void *__wrap_malloc(size_t size);
void *__wrap_realloc(void *block, size_t size);
void __wrap_free(void *block);

/* How many requests there are to the one that is refused, or 0; and how many were refused. */
static long to_refusal;
static unsigned refused;

/* How many bytes the blocks have that weren't freed. */
static size_t in_use;

static bool refuses(void) {
  if (to_refusal == 0 || --to_refusal > 0) return false;
  refused++;
  return true;
}

/* Counts a new block. */
static void *counted(void *block) {
  in_use += malloc_usable_size(block);
  return block;
}

void *__wrap_malloc(size_t size) {
  return refuses() ? NULL : counted(__real_malloc(size));
}

void *__wrap_realloc(void *block, size_t size) {
  if (refuses()) return NULL;
  in_use -= malloc_usable_size(block);
  return counted(__real_realloc(block, size));
}

void __wrap_free(void *block) {
  in_use -= malloc_usable_size(block);
  __real_free(block);
}

static void refuse(long number) {
  to_refusal = number;
  refused = 0;
}

#endif
