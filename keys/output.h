/* What the program prints, until it is written to the standard output. */
#ifndef KEYS_OUTPUT_H
#define KEYS_OUTPUT_H

#include <stdbool.h>
#include <stdio.h>

extern FILE *output;

/* Returns false if memory is refused. */
bool output_open(void);

/* Writes it whole, and waits where the standard output takes no more, also if another program has set that it doesn't block. Returns false if
 * that fails: errno says why. */
bool output_flush(void);

void output_close(void);

#endif
