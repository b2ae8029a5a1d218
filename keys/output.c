#define _POSIX_C_SOURCE 200809L
#include "output.h"
#include <errno.h>
#include <poll.h>
#include <stdlib.h>
#include <unistd.h>

FILE *output;

/* What it holds. */
static char *bytes;
static size_t length;

bool output_open(void) {
  output = open_memstream(&bytes, &length);
  return output;
}

/* Returns whether a write that failed may be made again. */
static bool wait_for_room(void) {
  struct pollfd room = { .fd = 1, .events = POLLOUT };
  bool is_full = errno == EAGAIN || errno == EWOULDBLOCK;
  return errno == EINTR || (is_full && (poll(&room, 1, -1) >= 0 || errno == EINTR));
}

bool output_flush(void) {
  if (fflush(output) != 0 || ferror(output)) return false;
  for (size_t at = 0; at < length;) {
    ssize_t written = write(1, bytes + at, length - at);
    if (written < 0 && !wait_for_room()) return false;
    if (written > 0) at += (size_t)written;
  }
  rewind(output);
  return true;
}

void output_close(void) {
  if (output) fclose(output);
  free(bytes);
}
