/* The time and the heap that a task takes: see tools/growth/counts.h. */
#include "../growth/counts.h"
#include "gauges.h"
#include <stdio.h>
#include <stdlib.h>

void want(bool is_so) {
  if (is_so) return;
  fprintf(stderr, "measure: memory was refused, or an answer was another\n");
  exit(1);
}

cost count_task(void (*task)(void *), void *it) {
  size_t before = heap();
  double start = now();
  task(it);
  double took = now() - start;
  return (cost){ took, heap() > before ? heap() - before : 0 };
}
