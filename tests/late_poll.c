/* Each wait of a program that finds nothing ends a second late. It is loaded by LD_PRELOAD. */
#define _GNU_SOURCE
#include <poll.h>
#include <time.h>

int poll(struct pollfd *ready, nfds_t count, int milliseconds) {
  struct timespec limit = { milliseconds / 1000, milliseconds % 1000 * 1000000L };
  int found = ppoll(ready, count, milliseconds < 0 ? NULL : &limit, NULL);
  if (found == 0 && milliseconds > 0) nanosleep(&(struct timespec){ 1, 0 }, NULL);
  return found;
}
