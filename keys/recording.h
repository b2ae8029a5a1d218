/* Recordings of what came in, read by read with its times: version 2 of asciinema's format, of which only the events of input count. */
#ifndef KEYS_RECORDING_H
#define KEYS_RECORDING_H

#include "hedrugal_terminal.h"
#include "text.h"

/* What came in at once, and when, in milliseconds since the start. */
typedef struct recorded_read {
  struct recorded_read *next;
  uint64_t time;
  size_t length;
  uint8_t bytes[];
} recorded_read;

typedef struct recording {
  const char *name; /* of the file */
  FILE *file;
  uint64_t start; /* when a recording that is written began */
  double seconds; /* the time of the line that was read last */
  enum hed_erase erase; /* which byte the Backspace key sends */
  bool is_own; /* whether this program wrote it, and so may have asked its terminal */
  text terminal; /* TERM */
  recorded_read *first, *last;
  text failure; /* why a call returned false: the file, what the system says of it, or which of its lines is wrong */
} recording;

/* Begins a file, in place of what is there. Returns false if it can't be written. */
bool recording_open(recording *it, const char *name, uint64_t now, const hed_size *size, enum hed_erase erase);

/* Writes a read to the file at once. Returns false if it can't be written. */
bool recording_write(recording *it, uint64_t now, const uint8_t *bytes, size_t length);

/* Reads a whole file, or the standard input for the name -. Returns false if it is no recording, its times go back, or it can't be read. */
bool recording_read(recording *it, const char *name);

/* Whatever was returned before, the caller owes a call. Returns false if the file can't be written to its end. */
bool recording_close(recording *it);

#endif
