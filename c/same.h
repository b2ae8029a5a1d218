/* The last of some enums, and whether two structs have the same fields. */
#ifndef SAME_H
#define SAME_H

#include "hedrugal.h"
#include <string.h>

enum {
  /* hedrugal.h: key mouse button last */
  LAST_KEY = HED_KEY_INTERNAL_PASTE_END,
  LAST_MOUSE = HED_MOUSE_BUTTON3_DRAG,
  LAST_BUTTON = HED_BUTTON_WHEEL_POSITIVE,
  /* hedrugal.h: end */
};

/* An event of the fields that its kind has. The others are 0. */
static inline hed_event own_fields(const hed_event *it) {
  hed_event own = { .kind = it->kind };
  switch (it->kind) {
    case HED_KIND_KEY:
      own.modifiers = it->modifiers, own.key_event_kind = it->key_event_kind, own.key = it->key, own.detail = it->detail;
      own.shifted = it->shifted, own.base = it->base, own.text_len = it->text_len;
      break;
    case HED_KIND_MOUSE:
      own.modifiers = it->modifiers, own.mouse_kind = it->mouse_kind, own.button = it->button, own.buttons = it->buttons;
      own.x = it->x, own.y = it->y;
      break;
    case HED_KIND_CURSOR_POSITION: own.row = it->row, own.column = it->column; break;
    case HED_KIND_RESIZED: own.rows = it->rows, own.columns = it->columns, own.height = it->height, own.width = it->width; break;
    case HED_KIND_KEYBOARD_FLAGS: own.flags = it->flags; break;
    case HED_KIND_FOCUS_GAINED:
    case HED_KIND_FOCUS_LOST: break;
    case HED_KIND_STRING_PART:
    case HED_KIND_STRING_CUT: own.string_kind = it->string_kind, own.text_len = it->text_len; break;
    default: own.text_len = it->text_len;
  }
  return own;
}

/* Whether all fields are the same. What lies between them has no meaning. */
static inline bool same_event(const hed_event *one, const hed_event *other) {
  size_t end = offsetof(hed_event, width) + sizeof one->width, from = offsetof(hed_event, detail);
  return memcmp(one, other, end) == 0 && memcmp(&one->detail, &other->detail, sizeof *one - from) == 0;
}

static inline bool same_press(const hed_key_press *one, const hed_key_press *other) {
  return one->key == other->key && one->held == other->held && one->detail == other->detail;
}

static inline bool same_reading(const hed_reading *one, const hed_reading *other) {
  return one->dialect == other->dialect && one->erase == other->erase && one->newline == other->newline
         && one->x10_mouse == other->x10_mouse && one->questions == other->questions;
}

#endif
