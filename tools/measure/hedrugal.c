/* The parser of this library, in the dialect that DIALECT names. All parsers share the table of the first one, unless OWN_TABLES is defined.
 * Their reads come a millisecond apart. Text that an event brings is copied to memory of its own. If ARRAY is defined events come in arrays,
 * and their texts in one. */
#include "hedrugal.h"
#include "reader.h"
#include <stdlib.h>

void *reader_new(void) {
  static hed_parser *first;
  hed_parser *it = calloc(1, sizeof *it);
  if (!it || (first ? hed_parser_init_sharing(it, DIALECT, first) : hed_parser_init(it, DIALECT))) return NULL;
#ifndef OWN_TABLES
  first = it;
#endif
  return it;
}

#ifdef ARRAY
static size_t told(void *reader) {
  static uint8_t text[1 << 20];
  hed_event array[64];
  size_t events = 0, count;
  hed_status status;
  do {
    status = hed_parser_next_events(reader, array, sizeof array / sizeof *array, text, sizeof text, &count);
    events += count;
  } while (status == HED_OK);
  if (status != HED_NONE) abort();
  return events;
}
#else
static size_t told(void *reader) {
  size_t events = 0;
  hed_event it;
  for (; hed_parser_next(reader, &it) == HED_OK; events++) {
    if (it.text_len == 0) continue;
    uint8_t *text = malloc(it.text_len);
    if (!text || hed_parser_text(reader, text, it.text_len) != it.text_len) abort();
    free(text);
  }
  return events;
}
#endif

size_t reader_read(void *reader, const uint8_t *bytes, size_t len, bool is_last) {
  static uint64_t now;
  if (hed_parser_feed(reader, ++now, bytes, len)) abort();
  if (is_last) hed_parser_flush(reader);
  return told(reader);
}
