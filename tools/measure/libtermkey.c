/* libtermkey without a file descriptor. */
#include "reader.h"
#include <termkey.h>

/* By terminfo's xterm it would take mouse reports of mode 1006 for those of mode 1000. */
void *reader_new(void) {
  return termkey_new_abstract("screen", TERMKEY_FLAG_UTF8 | TERMKEY_FLAG_NOTERMIOS);
}

size_t reader_read(void *reader, const uint8_t *bytes, size_t len, bool is_last) {
  size_t events = 0;
  TermKeyKey key;
  while (len > 0) {
    /* It takes what its buffer has room for. If that is full and undecided, a program can only force a key. */
    size_t taken = termkey_push_bytes(reader, (const char *)bytes, len);
    if (taken == (size_t)-1) taken = 0;
    bytes += taken, len -= taken;
    if (taken == 0 && termkey_getkey_force(reader, &key) == TERMKEY_RES_KEY) events++;
    while (termkey_getkey(reader, &key) == TERMKEY_RES_KEY) events++;
  }
  while (is_last && termkey_getkey_force(reader, &key) == TERMKEY_RES_KEY) events++;
  return events;
}
