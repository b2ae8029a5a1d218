#include "names.h"

const flag button_flags[] = {
  /* hedrugal.h: button table */
  { HED_BUTTON_LEFT, "LEFT", NULL },
  { HED_BUTTON_RIGHT, "RIGHT", NULL },
  { HED_BUTTON_MIDDLE, "MIDDLE", NULL },
  { HED_BUTTON_VERT_WHEEL, "VERT_WHEEL", NULL },
  { HED_BUTTON_HORZ_WHEEL, "HORZ_WHEEL", NULL },
  { HED_BUTTON_WHEEL_POSITIVE, "WHEEL_POSITIVE", NULL },
  /* hedrugal.h: end */
  { 0, NULL, NULL },
};

const flag modifier_flags[] = {
  /* hedrugal.h: kitty_mod table */
  { HED_KITTY_MOD_SHIFT, "SHIFT", "Shift-" },
  { HED_KITTY_MOD_ALT, "ALT", "Alt-" },
  { HED_KITTY_MOD_CTRL, "CTRL", "Ctrl-" },
  { HED_KITTY_MOD_SUPER, "SUPER", "Super-" },
  { HED_KITTY_MOD_HYPER, "HYPER", "Hyper-" },
  { HED_KITTY_MOD_META, "META", "Meta-" },
  { HED_KITTY_MOD_CAPS_LOCK, "CAPS_LOCK", "CapsLock-" },
  { HED_KITTY_MOD_NUM_LOCK, "NUM_LOCK", "NumLock-" },
  /* hedrugal.h: end */
  { 0, NULL, NULL },
};

const char *kind_name(uint8_t kind) {
  static const char *const names[] = {
    [HED_KIND_KEY] = "key",
    [HED_KIND_MOUSE] = "mouse",
    [HED_KIND_PASTE] = "paste",
    [HED_KIND_PASTE_PART] = "paste_part",
    [HED_KIND_FOCUS_GAINED] = "focus_gained",
    [HED_KIND_FOCUS_LOST] = "focus_lost",
    [HED_KIND_CURSOR_POSITION] = "cursor_position",
    [HED_KIND_RESIZED] = "resized",
    [HED_KIND_KEYBOARD_FLAGS] = "keyboard_flags",
    [HED_KIND_CSI] = "csi",
    [HED_KIND_OSC] = "osc",
    [HED_KIND_DCS] = "dcs",
    [HED_KIND_APC] = "apc",
    [HED_KIND_STRING_PART] = "string_part",
    [HED_KIND_STRING_CUT] = "string_cut",
  };
  return names[kind];
}

const char *key_event_kind_name(uint8_t kind) {
  if (kind == HED_KEY_EVENT_KIND_REPEAT) return "repeat";
  return kind == HED_KEY_EVENT_KIND_RELEASE ? "release" : "press";
}

const char *mouse_kind_name(uint8_t kind) {
  static const char *const names[] = {
    [HED_MOUSE_KIND_PRESS] = "press", [HED_MOUSE_KIND_RELEASE] = "release", [HED_MOUSE_KIND_DRAG] = "drag",
    [HED_MOUSE_KIND_MOVE] = "move",   [HED_MOUSE_KIND_WHEEL] = "wheel",
  };
  return names[kind];
}

void add_byte(text *out, uint8_t byte, bool is_hex) {
  if (is_hex || byte > 0x7f) text_add(out, "%02x", byte);
  else if (byte == 0x1b) text_add(out, "ESC");
  else if (byte == ' ') text_add(out, "SP");
  else if (byte < 0x20 || byte == 0x7f) text_add(out, "^%c", byte ^ 0x40);
  else text_add(out, "%c", byte);
}

void add_key(text *out, uint16_t key, uint32_t detail) {
  char name[32];
  int length = (int)hed_key_name(key, (uint8_t *)name, sizeof name);
  if (key == HED_KEY_CHAR) text_add(out, "U+%04X", (unsigned)detail);
  else if (key == HED_KEY_FUNCTION) text_add(out, "F%u", (unsigned)detail);
  else if (length == 0) text_add(out, "functional %u", (unsigned)detail);
  else text_add(out, "%.*s", length, name);
}

void add_flags(text *out, const flag *flags, unsigned set) {
  const char *before = "";
  for (const flag *it = flags; it->name; it++) {
    if (!(set & it->bit)) continue;
    text_add(out, "%s%s", before, it->name);
    before = "+";
  }
  if (set == 0) text_add(out, "NONE");
}

void add_prefixes(text *out, unsigned modifiers) {
  for (const flag *it = modifier_flags; it->name; it++)
    if (modifiers & it->bit) text_add(out, "%s", it->prefix);
}
