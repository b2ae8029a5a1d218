#include "screen.h"
#include "names.h"
#include "output.h"
#include <stdlib.h>
#include <string.h>
#include <unistd.h>

/* Of more bytes than LONGEST only the first HEAD and the last TAIL are shown. The bytes begin at the column INDENT, or three columns behind a longer
 * name. */
enum { LONGEST = 32, HEAD = 20, TAIL = 8, INDENT = 10, GAP = 3, LEAST_WIDTH = 24 };

static const char plain[] = "", bold[] = "\033[1m", dim[] = "\033[2m", coloured[] = "\033[36m";

static bool is_set(const char *variable) {
  const char *value = getenv(variable);
  return value && *value;
}

void screen_find(screen *it) {
  const char *type = getenv("TERM");
  it->can_rewrite = isatty(1) && type && *type && strcmp(type, "dumb") != 0;
  it->has_colour = it->can_rewrite && !is_set("NO_COLOR");
}

void screen_resize(screen *it, size_t width, size_t height) {
  it->width = width;
  it->height = height;
  it->rows = 0;
}

static void set_style(screen *it, const char *style) {
  if (!it->has_colour || it->style == style) return;
  if (it->style && *it->style) fputs("\033[0m", output);
  fputs(style, output);
  it->style = style;
}

/* The last column stays empty, since terminals differ in what they do after it. */
static bool has_room(const screen *it, size_t length) {
  return it->width == 0 || it->column + length < it->width;
}

static size_t indent_of(const screen *it) {
  return it->width == 0 || it->width >= LEAST_WIDTH ? INDENT : 0;
}

static void end_row(screen *it) {
  putc('\n', output);
  it->rows++;
  it->column = 0;
  it->has_word = false;
}

/* Begins a row so many columns behind that of the bytes. */
static void indent(screen *it, size_t more) {
  it->column = indent_of(it) + more;
  fprintf(output, "%*s", (int)it->column, "");
}

static void begin_row(screen *it) {
  end_row(it);
  indent(it, 0);
}

/* Puts the characters of a text in UTF-8. */
static void put_characters(screen *it, const char *characters) {
  for (size_t taken; *characters; characters += taken) {
    text character = { .length = 0 };
    text_code_point(characters, &taken);
    text_add(&character, "%.*s", (int)taken, characters);
    size_t width = text_width(character.bytes);
    if (!has_room(it, width) && it->column > indent_of(it)) begin_row(it);
    fputs(character.bytes, output);
    it->column += width;
  }
}

static void put_space(screen *it) {
  putc(' ', output);
  it->column++;
}

static void put_word(screen *it, const char *style, const char *word) {
  if (it->is_measuring) {
    it->measured += text_width(word) + 1;
    return;
  }
  if (it->has_word) {
    if (has_room(it, text_width(word) + 1)) put_space(it);
    else begin_row(it);
  }
  set_style(it, style);
  put_characters(it, word);
  set_style(it, plain);
  it->has_word = true;
}

/* Puts the words of a text in UTF-8, up to its end. */
static void put_words_to(screen *it, const char *style, const char *words, const char *end) {
  while (words < end) {
    text word = { .length = 0 };
    size_t length = strcspn(words, " ");
    text_add(&word, "%.*s", (int)length, words);
    put_word(it, style, word.bytes);
    words += length + (words[length] == ' ');
  }
}

static void put_words(screen *it, const char *style, const char *words) {
  put_words_to(it, style, words, words + strlen(words));
}

static void put_meaning(screen *it, const char *arrow_style, const char *style, const char *meaning) {
  put_word(it, arrow_style, "->");
  put_words(it, style, meaning);
}

/* A row: the name of what came, its bytes, of which those of earlier reads are in parentheses, and what is to be said of it. */
typedef struct item {
  const char *name;
  const uint8_t *bytes;
  size_t length, earlier;
  const char *name_style, *style;
  const char *remark;
} item;

static void put_byte(screen *it, const item *of, size_t place) {
  text word = { .length = 0 };
  if (place == 0 && of->earlier > 0) text_add(&word, "(");
  add_byte(&word, of->bytes[place], it->is_hex);
  if (place + 1 == of->earlier) text_add(&word, ")");
  put_word(it, place < of->earlier ? dim : of->style, word.bytes);
}

static void put_cut(screen *it, const item *of) {
  text words = { .length = 0 };
  bool closes = of->earlier > HEAD && of->earlier <= of->length - TAIL;
  text_add(&words, ".. %zu more ..%s", of->length - HEAD - TAIL, closes ? ")" : "");
  put_words(it, dim, words.bytes);
}

static void put_range(screen *it, const item *of, size_t first, size_t end) {
  for (size_t place = first; place < end; place++) put_byte(it, of, place);
}

static void put_bytes(screen *it, const item *of) {
  if (of->length <= LONGEST) {
    put_range(it, of, 0, of->length);
    return;
  }
  put_range(it, of, 0, HEAD);
  put_cut(it, of);
  put_range(it, of, of->length - TAIL, of->length);
}

/* The next word of a row comes three columns behind the last one, as a word puts a space of its own. */
static void put_gap(screen *it) {
  for (int i = 1; i < GAP && indent_of(it) > 0 && has_room(it, 1); i++) put_space(it);
}

/* Moves to the column of the bytes, unless the name is longer. */
static void put_name_gap(screen *it) {
  size_t indent = indent_of(it);
  if (it->column + GAP > indent) {
    put_gap(it);
    return;
  }
  while (it->column < indent) put_space(it);
  it->has_word = false;
}

/* The remark stays together if a row has room for it. */
static void put_remark(screen *it, const char *remark) {
  it->measured = 0;
  it->is_measuring = true;
  put_words(it, dim, remark);
  it->is_measuring = false;
  if (has_room(it, it->measured + GAP - 1)) put_gap(it);
  else begin_row(it);
  put_words(it, dim, remark);
}

static void put_item(screen *it, const item *of) {
  put_words(it, of->name_style, of->name);
  put_name_gap(it);
  put_bytes(it, of);
  if (*of->remark) put_remark(it, of->remark);
  end_row(it);
}

/* The bytes that the event brought, or the first of them, which end with a whole character. */
static void add_text(text *out, const char *name, const group *of) {
  size_t length = of->event.text_len, shown = length < TEXT_SHOWN ? length : TEXT_SHOWN;
  while (shown < length && shown > 0 && (of->text[shown] & 0xc0) == 0x80) shown--;
  text_add(out, "%s \"", name);
  text_add_shown(out, (const char *)of->text, shown);
  text_add(out, shown < length ? "..\" of %zu bytes" : "\"", length);
}

static void add_code(text *out, const char *name, uint32_t code) {
  char character[5] = "";
  hed_key_press press = { .key = HED_KEY_CHAR, .detail = code };
  if (code == HED_NO_CODE) return;
  hed_press_text(&press, (uint8_t *)character, sizeof character);
  text_add(out, "%s%s ", out->length > 0 ? ", " : "", name);
  if (*character) text_add_shown(out, character, strlen(character));
  else text_add(out, "U+%04X", (unsigned)code);
}

/* The name of a key that has no press, such as one that was released: what its press would be, or its own. */
static void add_unpressed(text *out, const hed_event *event) {
  hed_event pressed = *event;
  hed_key_press press;
  pressed.key_event_kind = HED_KEY_EVENT_KIND_PRESS;
  if (hed_event_press(&pressed, NULL, 0, &press) == HED_OK && add_press(out, &press)) return;
  add_prefixes(out, event->modifiers);
  add_key(out, event->key, event->detail);
}

/* That a key was pressed isn't told. */
static void add_key_name(text *out, const group *of) {
  static const char *const before[PRESSES_MOST] = { "", " or " };
  for (size_t i = 0; i < of->press_count; i++) text_add(out, "%s%s", before[i], of->presses[i]);
  if (of->press_count == 0) add_unpressed(out, &of->event);
  if (of->event.key_event_kind > HED_KEY_EVENT_KIND_PRESS) text_add(out, " %s", key_event_kind_name(of->event.key_event_kind));
}

static void add_mouse(text *out, const hed_event *event) {
  text_add(out, "mouse %u %u ", event->x, event->y);
  add_flags(out, button_flags, event->buttons);
  text_add(out, " ");
  add_flags(out, modifier_flags, event->modifiers);
  if (event->mouse_kind != 0) text_add(out, " %s", mouse_kind_name(event->mouse_kind));
  if (event->button != 0) text_add(out, " %u", event->button);
}

static void add_name(text *out, const group *of) {
  const hed_event *event = &of->event;
  const char *string = kind_name(event->string_kind);
  if (string) text_add(out, "%s ", string);
  switch (event->kind) {
    case HED_KIND_KEY: add_key_name(out, of); break;
    case HED_KIND_MOUSE: add_mouse(out, event); break;
    case HED_KIND_FOCUS_GAINED: text_add(out, "focus gained"); break;
    case HED_KIND_FOCUS_LOST: text_add(out, "focus lost"); break;
    case HED_KIND_CURSOR_POSITION: text_add(out, "cursor position %u %u", event->row, event->column); break;
    case HED_KIND_RESIZED: text_add(out, "resized %u %u %u %u", event->rows, event->columns, event->height, event->width); break;
    case HED_KIND_KEYBOARD_FLAGS: text_add(out, "keyboard flags %u", event->flags); break;
    case HED_KIND_PASTE_PART: add_text(out, "paste part", of); break;
    case HED_KIND_STRING_PART: add_text(out, "part", of); break;
    case HED_KIND_STRING_CUT: add_text(out, "cut", of); break;
    default: add_text(out, kind_name(event->kind), of);
  }
}

/* What else the terminal told of a key, and which keys send the same. */
static bool add_remark(text *out, const group *of, twins *keys) {
  const hed_event *event = &of->event;
  if (event->kind != HED_KIND_KEY) return true;
  if (keys && of->press_count > 0 && !twins_add_remark(out, keys, &of->press)) return false;
  add_code(out, "shifted", event->shifted);
  add_code(out, "base", event->base);
  if (event->text_len > 0) add_text(out, out->length > 0 ? ", text" : "text", of);
  return true;
}

static bool put_group(screen *it, const line *shown, const group *of, twins *keys) {
  text name = { .length = 0 }, remark = { .length = 0 };
  add_name(&name, of);
  bool has_memory = add_remark(&remark, of, keys);
  put_item(it, &(item){ .name = name.bytes,
                        .bytes = shown->bytes + of->start,
                        .length = of->length,
                        .earlier = line_earlier(shown, of->start, of->length),
                        .name_style = bold,
                        .style = coloured,
                        .remark = remark.bytes });
  return has_memory;
}

static void put_waiting(screen *it, const line *shown, const char *reason) {
  size_t length = line_waiting(shown);
  if (length == 0) return;
  put_item(it, &(item){ .name = "..",
                        .bytes = shown->bytes + shown->settled,
                        .length = length,
                        .earlier = line_earlier(shown, shown->settled, length),
                        .name_style = dim,
                        .style = dim,
                        .remark = reason });
}

static void put_outcomes_to(screen *it, const line *shown, size_t end) {
  for (; it->outcomes < end; it->outcomes++) {
    const outcome *of = &shown->outcomes[it->outcomes];
    indent(it, 0);
    put_words(it, coloured, outcome_keys(of));
    put_meaning(it, plain, of->command ? bold : plain, of->command ? of->command : "unbound");
    end_row(it);
  }
}

/* The groups that aren't written yet, each with what its keys did, and what a pause decided. */
static bool put_settled(screen *it, const line *shown, twins *keys) {
  bool has_memory = true;
  for (; it->groups < shown->group_count; it->groups++) {
    const group *of = &shown->groups[it->groups];
    put_outcomes_to(it, shown, of->first_outcome);
    if (!of->is_reply) has_memory &= put_group(it, shown, of, keys);
  }
  put_outcomes_to(it, shown, shown->outcome_count);
  return has_memory;
}

static void put_following(screen *it, const bindings *bound, size_t first, size_t end) {
  for (size_t place = first; place < end; place++) {
    continuation follows = bindings_at(bound, place);
    indent(it, 2);
    put_words(it, dim, follows.rest);
    put_meaning(it, dim, dim, follows.command);
    end_row(it);
  }
}

/* The presses that are pending, and what may follow. */
static void put_pending(screen *it, const bindings *bound, const reasons *why) {
  size_t first, end;
  if (!bindings_following(bound, &first, &end)) return;
  continuation follows = bindings_at(bound, first);
  indent(it, 0);
  put_words_to(it, dim, follows.chord, follows.rest);
  put_meaning(it, dim, dim, why->presses.bytes);
  end_row(it);
  if (why->lists_keys) put_following(it, bound, first, end);
}

/* Goes back to where the undecided rows began, and erases them. */
static void erase(const screen *it) {
  if (it->can_rewrite && it->rows > 0 && it->rows < it->height) fprintf(output, "\033[%zuA\033[J", it->rows);
}

bool screen_draw(screen *it, const line *shown, const bindings *bound, const reasons *why, twins *keys) {
  erase(it);
  bool has_memory = put_settled(it, shown, keys);
  it->rows = 0;
  if (!why) return has_memory;
  put_waiting(it, shown, why->bytes.bytes);
  put_pending(it, bound, why);
  return has_memory;
}

void screen_keep(screen *it) {
  it->rows = 0;
}

void screen_next(screen *it) {
  it->groups = it->outcomes = 0;
}
