#include "line.h"
#include <stdlib.h>
#include <string.h>

static size_t doubled(size_t room, size_t least) {
  while (room < least) room = room < 64 ? 64 : room * 2;
  return room;
}

/* Makes room for at least so many items of a size. Returns where they are, or NULL if memory is refused: then nothing changed. */
static void *reserve(void *items, size_t *room, size_t least, size_t size) {
  size_t wanted = doubled(*room, least);
  void *moved = wanted == *room ? items : realloc(items, wanted * size);
  if (moved) *room = wanted;
  return moved;
}

bool line_begin(line *it, const uint8_t *bytes, size_t length) {
  size_t waiting = line_waiting(it);
  uint8_t *joined = reserve(it->bytes, &it->room, it->length + length, 1);
  if (!joined) return false;
  it->bytes = joined;
  if (it->settled > 0) memmove(it->bytes, it->bytes + it->settled, waiting);
  if (length > 0) memcpy(it->bytes + waiting, bytes, length);
  it->read++;
  it->earlier = waiting;
  it->length = waiting + length;
  it->settled = it->group_count = it->outcome_count = 0;
  return true;
}

/* How many of the bytes that are buffered after an event belong to a group. ESC and the byte after it aren't among those that the part of a
 * string brings. */
static size_t kept_of(const line *it, const hed_event *event, size_t waiting) {
  if (event->kind == HED_KIND_PASTE_PART) return PASTE_START;
  return event->kind == HED_KIND_STRING_PART ? event->text_len + 2 + waiting - it->kept - line_waiting(it) : 0;
}

group *line_settle(line *it, const hed_event *event, size_t waiting) {
  group *groups = reserve(it->groups, &it->group_room, it->group_count + 1, sizeof *groups);
  if (!groups) return NULL;
  it->groups = groups;
  group *added = &it->groups[it->group_count++];
  memset(added, 0, sizeof *added);
  it->kept = kept_of(it, event, waiting);
  added->start = it->settled;
  added->length = line_waiting(it) + it->kept - waiting;
  added->event = *event;
  added->first_outcome = it->outcome_count;
  it->settled += added->length;
  return added;
}

bool line_decide(line *it, const outcome *decided) {
  outcome *outcomes = reserve(it->outcomes, &it->outcome_room, it->outcome_count + 1, sizeof *outcomes);
  if (!outcomes) return false;
  it->outcomes = outcomes;
  it->outcomes[it->outcome_count++] = *decided;
  return true;
}

const char *outcome_keys(const outcome *it) {
  return it->command ? it->chord : it->press;
}

size_t line_waiting(const line *it) {
  return it->length - it->settled;
}

size_t line_earlier(const line *it, size_t start, size_t length) {
  size_t earlier = start < it->earlier ? it->earlier - start : 0;
  return earlier < length ? earlier : length;
}

void line_forget(line *it) {
  it->length = it->settled;
  it->kept = 0;
}

void line_free(line *it) {
  free(it->bytes);
  free(it->groups);
  free(it->outcomes);
  memset(it, 0, sizeof *it);
}
