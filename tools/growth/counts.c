/* What is counted, over a wrapped malloc: see counts.h. */
#define _POSIX_C_SOURCE 200809L
#include "counts.h"
#include <malloc.h>
#include <stdint.h>
#include <stdio.h>
#include <stdlib.h>
#include <string.h>
#include <time.h>

struct memory memory;

void want(bool is_so) {
  if (is_so) return;
  fprintf(stderr, "growth: memory was refused, or an answer was another; the largest request was of %zu bytes\n", memory.largest);
  exit(1);
}

static double now(void) {
  struct timespec time;
  clock_gettime(CLOCK_PROCESS_CPUTIME_ID, &time);
  return (double)time.tv_sec * 1e9 + (double)time.tv_nsec;
}

static __attribute__((noinline)) cost counted(void (*task)(void *), void *it) {
  size_t before = memory.most_in_use = memory.in_use;
  memory.largest = 0;
  double start = now();
  task(it);
  return (cost){ now() - start, memory.in_use > before ? memory.in_use - before : 0 };
}

cost count_task(void (*task)(void *), void *it) {
  malloc_trim(0);
  return counted(task, it);
}

/* Memory: the C library's blocks. In front of each stands its size. */
enum { FRONT = 16 };

void *__real_malloc(size_t size);
void __real_free(void *block);

/* Notes that a block of one size took the place of another. */
static void note(size_t before, size_t size) {
  memory.in_use = memory.in_use - before + size;
  if (memory.in_use > memory.most_in_use) memory.most_in_use = memory.in_use;
}

/* (NULL is a block of no bytes.) */
static size_t size_of(const char *block) {
  size_t size = 0;
  if (block) memcpy(&size, block - FRONT, sizeof size);
  return size;
}

void *__wrap_realloc(void *block, size_t size) {
  size_t before = size_of(block);
  if (size > memory.largest) memory.largest = size;
  char *room = __real_malloc(FRONT + size);
  if (!room) return NULL;
  memcpy(room, &size, sizeof size);
  if (block) memcpy(room + FRONT, block, before < size ? before : size);
  note(before, size);
  if (block) __real_free((char *)block - FRONT);
  return room + FRONT;
}

void *__wrap_malloc(size_t size) {
  return __wrap_realloc(NULL, size);
}

void __wrap_free(void *block) {
  note(size_of(block), 0);
  if (block) __real_free((char *)block - FRONT);
}
