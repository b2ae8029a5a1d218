/* The clock and the heap, as what is measured reads them. */
#ifndef GAUGES_H
#define GAUGES_H

#include <malloc.h>
#include <time.h>

/* The time in nanoseconds. */
static double now(void) {
  struct timespec t;
  clock_gettime(CLOCK_MONOTONIC, &t);
  return t.tv_sec * 1e9 + t.tv_nsec;
}

/* The bytes that malloc has in use. */
static size_t heap(void) {
  struct mallinfo2 info = mallinfo2();
  return info.uordblks + info.hblkhd;
}

#endif
