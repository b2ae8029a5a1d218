/* What is counted of a task: its instructions, which callgrind counts within `counted`, its time, and the memory that the library has. */
#ifndef COUNTS_H
#define COUNTS_H

#include <stdbool.h>
#include <stddef.h>

/* The bytes in use; the most of them, and the largest request, since the last task began. */
extern struct memory { size_t in_use, most_in_use, largest; } memory;

/* What a task took: nanoseconds of the processor, and bytes that are in use in the end and weren't before. */
typedef struct cost {
  double time;
  size_t memory;
} cost;

/* Carries a task out, with what it is about. What was freed before is joined first, which the next large request would do. */
cost count_task(void (*task)(void *), void *it);

/* Ends the program unless it is so. */
void want(bool is_so);

#endif
