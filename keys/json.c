#include "json.h"
#include "names.h"
#include "output.h"
#include <stdlib.h>
#include <string.h>

static void put_hex(const uint8_t *bytes, size_t length) {
  for (size_t i = 0; i < length; i++) fprintf(output, "%02x", bytes[i]);
}

/* Begins an object with what each has: the read that brought its last byte, the bytes, and how many of them came with earlier reads. */
static void begin_object(const line *of, size_t start, size_t length, const char *kind) {
  fprintf(output, "{\"read\":%zu,\"bytes\":\"", of->read);
  put_hex(of->bytes + start, length);
  fprintf(output, "\",\"earlier\":%zu,\"kind\":\"%s\"", line_earlier(of, start, length), kind);
}

static void put_flags(const char *field, const flag *flags, unsigned set) {
  const char *before = "";
  fprintf(output, ",\"%s\":[", field);
  for (const flag *it = flags; it->name; it++) {
    if (!(set & it->bit)) continue;
    fprintf(output, "%s\"%s\"", before, it->name);
    before = ",";
  }
  putc(']', output);
}

void json_character(FILE *out, uint32_t code) {
  if (code == '"' || code == '\\') fprintf(out, "\\%c", (char)code);
  else if (code >= ' ' && code < 0x7f) putc((int)code, out);
  else if (code < 0x10000) fprintf(out, "\\u%04x", (unsigned)code);
  else fprintf(out, "\\u%04x\\u%04x", (unsigned)(0xd800 + ((code - 0x10000) >> 10)), (unsigned)(0xdc00 + (code & 0x3ff)));
}

/* A text in UTF-8, as that of a paste always is. */
static void put_text(const char *characters, size_t length) {
  for (size_t at = 0, taken; at < length; at += taken) json_character(output, text_code_point(characters + at, &taken));
}

static void put_field(const char *before, const char *name, const char *value) {
  fprintf(output, "%s\"%s\":\"", before, name);
  put_text(value, strlen(value));
  putc('"', output);
}

/* The bytes that the event brought: a text, or those of a sequence in hexadecimal. */
static bool put_brought(const group *its, const hed_parser *parser) {
  size_t length = its->event.text_len;
  uint8_t kind = its->event.kind;
  bool is_text = kind == HED_KIND_PASTE || kind == HED_KIND_PASTE_PART || kind == HED_KIND_KEY;
  uint8_t *brought = malloc(length + 1);
  if (!brought) return false;
  hed_parser_text(parser, brought, length);
  fprintf(output, ",\"length\":%zu,\"%s\":\"", length, is_text ? "text" : "data");
  if (is_text) put_text((const char *)brought, length);
  else put_hex(brought, length);
  putc('"', output);
  free(brought);
  return true;
}

static void put_code(const char *name, uint32_t code) {
  if (code != HED_NO_CODE) fprintf(output, ",\"%s\":%u", name, (unsigned)code);
}

static void put_key(const hed_event *event) {
  text name = { .length = 0 };
  add_key(&name, event->key, event->detail);
  fprintf(output, ",\"key\":\"%s\"", name.bytes);
  put_flags("modifiers", modifier_flags, event->modifiers);
  if (event->key_event_kind != 0) fprintf(output, ",\"action\":\"%s\"", key_event_kind_name(event->key_event_kind));
  put_code("shifted", event->shifted);
  put_code("base", event->base);
}

static void put_mouse(const hed_event *event) {
  fprintf(output, ",\"x\":%u,\"y\":%u", event->x, event->y);
  put_flags("buttons", button_flags, event->buttons);
  put_flags("modifiers", modifier_flags, event->modifiers);
  if (event->mouse_kind != 0) fprintf(output, ",\"action\":\"%s\"", mouse_kind_name(event->mouse_kind));
  if (event->button != 0) fprintf(output, ",\"button\":%u", event->button);
}

static void put_size(const hed_event *event) {
  fprintf(output, ",\"rows\":%u,\"columns\":%u,\"height\":%u,\"width\":%u", event->rows, event->columns, event->height, event->width);
}

/* The fields of an event, but for the bytes that it brought. */
static void put_fields(const hed_event *event) {
  const char *string = kind_name(event->string_kind);
  if (string) fprintf(output, ",\"of\":\"%s\"", string);
  switch (event->kind) {
    case HED_KIND_KEY: put_key(event); break;
    case HED_KIND_MOUSE: put_mouse(event); break;
    case HED_KIND_CURSOR_POSITION: fprintf(output, ",\"row\":%u,\"column\":%u", event->row, event->column); break;
    case HED_KIND_RESIZED: put_size(event); break;
    case HED_KIND_KEYBOARD_FLAGS: fprintf(output, ",\"flags\":%u", event->flags); break;
    default: break;
  }
}

/* Whether the bytes of an event are told, if only none. */
static bool brings_bytes(const hed_event *event) {
  return event->kind == HED_KIND_PASTE || event->kind >= HED_KIND_CSI || event->text_len > 0;
}

static void put_presses(const group *its) {
  static const char *const fields[PRESSES_MOST] = { "press", "second" };
  for (size_t i = 0; i < its->press_count; i++) put_field(",", fields[i], its->presses[i]);
}

/* The object of keys and their command, which is null if they have none. */
static void put_command(const char *before, const char *keys, const char *command) {
  put_field(before, "keys", keys);
  if (command) put_field(",", "command", command);
  else fprintf(output, ",\"command\":null");
  putc('}', output);
}

static void put_outcomes(const line *of, size_t first) {
  const char *before = ",\"outcomes\":[{";
  for (size_t place = first; place < of->outcome_count; place++) {
    put_command(before, outcome_keys(&of->outcomes[place]), of->outcomes[place].command);
    before = ",{";
  }
  if (first < of->outcome_count) putc(']', output);
}

/* The presses that are pending, and the chords that may follow. */
static void put_pending(const bindings *bound) {
  size_t first, end;
  if (!bindings_following(bound, &first, &end)) return;
  continuation it = bindings_at(bound, first);
  fprintf(output, ",\"pending\":\"");
  put_text(it.chord, (size_t)(it.rest - it.chord) - 1);
  const char *before = "\",\"continuations\":[{";
  for (size_t place = first; place < end; place++) {
    it = bindings_at(bound, place);
    put_command(before, it.rest, it.command);
    before = ",{";
  }
  putc(']', output);
}

bool json_event(const line *of, const group *its, const hed_parser *parser, const bindings *bound) {
  begin_object(of, its->start, its->length, kind_name(its->event.kind));
  put_fields(&its->event);
  bool has_memory = !brings_bytes(&its->event) || put_brought(its, parser);
  put_presses(its);
  put_outcomes(of, its->first_outcome);
  if (its->press_count > 0) put_pending(bound);
  fputs("}\n", output);
  return has_memory;
}

void json_pause(const line *of, size_t first) {
  begin_object(of, of->settled, 0, "pause");
  put_outcomes(of, first);
  fputs("}\n", output);
}

void json_waiting(const line *of, const char *reason) {
  begin_object(of, of->settled, line_waiting(of), "waiting");
  fprintf(output, ",\"reason\":\"");
  put_text(reason, strlen(reason));
  fputs("\"}\n", output);
}
