/* What measure.c times: a parser of this library (hedrugal.c), of libtermkey (libtermkey.c) or of crossterm (crossterm.rs). */
#include <stdbool.h>
#include <stddef.h>
#include <stdint.h>

/* Makes a parser, or returns NULL. It is never freed. */
void *reader_new(void);

/* Gives a parser the bytes of a read, and returns the number of events. After the last read it is flushed. */
size_t reader_read(void *reader, const uint8_t *bytes, size_t len, bool is_last);
