/* Times a parser, or many that get reads in turn.
 *
 *     measure FILE READ [COUNT]
 *
 * makes COUNT parsers (1) and gives them the reads of the file, of READ bytes each. One gets the whole file. Of more, each gets 64 reads, from
 * a place of its own on: after the last of the file the first follows. With its last read a parser is flushed.
 *
 * It prints the nanoseconds that all reads took, the number of their events and that of their bytes. Then it prints for each parser the
 * nanoseconds that it took to make, and the bytes of heap, once made and after its last read. */
#include "gauges.h"
#include "reader.h"
#include <stdio.h>
#include <stdlib.h>

enum { ROUNDS = 64 };

static void stop(const char *why) {
  fprintf(stderr, "measure: %s\n", why);
  exit(1);
}

static uint8_t *contents(const char *path, size_t *length) {
  FILE *file = fopen(path, "rb");
  if (!file || fseek(file, 0, SEEK_END) != 0) stop("the file can't be opened");
  *length = ftell(file);
  rewind(file);
  uint8_t *bytes = malloc(*length);
  if (!bytes || fread(bytes, 1, *length, file) != *length) stop("the file can't be read");
  fclose(file);
  return bytes;
}

int main(int argc, char **argv) {
  size_t count = argc == 4 ? strtoul(argv[3], 0, 10) : 1, read = argc > 2 ? strtoul(argv[2], 0, 10) : 0, length;
  if (count == 0 || read == 0) stop("usage: measure FILE READ [COUNT]");
  const uint8_t *bytes = contents(argv[1], &length);
  void **readers = malloc(count * sizeof *readers);
  if (!readers) stop("no memory");

  double before = heap(), start = now();
  for (size_t i = 0; i < count; i++)
    if (!(readers[i] = reader_new())) stop("a parser can't be made");
  double making = now() - start, made = heap() - before;

  size_t reads = (length + read - 1) / read, rounds = count > 1 ? ROUNDS : reads, events = 0, given = 0;
  start = now();
  for (size_t round = 0; round < rounds; round++)
    for (size_t i = 0; i < count; i++) {
      size_t at = (i * 7919 + round) % reads * read, size = length - at < read ? length - at : read;
      events += reader_read(readers[i], bytes + at, size, round + 1 == rounds);
      given += size;
    }
  double took = now() - start;
  printf("%.0f %zu %zu %.0f %.0f %.0f\n", took, events, given, making / count, made / count, (heap() - before) / count);
  return 0;
}
