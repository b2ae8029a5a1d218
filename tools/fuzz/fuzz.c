/* What the harnesses share. */
#define _GNU_SOURCE
#include "fuzz.h"
#include <sanitizer/asan_interface.h>
#include <stdio.h>
#include <stdlib.h>
#include <string.h>
#include <sys/mman.h>

void fail(const char *what, const char *file, int line) {
  fprintf(stderr, "%s:%d: not so: %s\n", file, line, what);
  abort();
}

static uint64_t inputs;

/* libFuzzer calls it for each input. */
int LLVMFuzzerTestOneInput(const uint8_t *bytes, size_t len) {
  input it = { bytes, len };
  inputs++;
  refuse_request(0);
  try_input(&it);
  return 0;
}

uint8_t take_byte(input *it) {
  if (it->left == 0) return 0;
  it->left--;
  return *it->at++;
}

uint64_t take_number(input *it, unsigned bytes) {
  uint64_t number = 0;
  for (unsigned i = 0; i < bytes; i++) number |= (uint64_t)take_byte(it) << 8 * i;
  return number;
}

const uint8_t *take_bytes(input *it, size_t want, size_t *got) {
  const uint8_t *bytes = it->at;
  *got = want < it->left ? want : it->left;
  it->at += *got;
  it->left -= *got;
  return bytes;
}

letter take_letter(input *it) {
  enum { LETTER = 0x1f, NO_REFUSAL = 2 };
  uint8_t byte = take_byte(it);
  return (letter){ (char)((byte & LETTER) | 0x40), (byte >> 5) ^ NO_REFUSAL };
}

/* Rooms. */

enum { PAGE = 4096, MARK = 0xa5, MARGIN = 64, MOVED = 0xee };

/* Pages for a room: one on each side can't be touched. */
static uint8_t *make_pages(void) {
  uint8_t *all = mmap(NULL, ROOM_MAX + 2 * PAGE, PROT_NONE, MAP_PRIVATE | MAP_ANONYMOUS, -1, 0);
  HOLDS(all != MAP_FAILED);
  HOLDS(mprotect(all + PAGE, ROOM_MAX, PROT_READ | PROT_WRITE) == 0);
  return all + PAGE;
}

/* The marks beside a room, on the side where there is no page that can't be touched. */
static uint8_t *margin_of(const room *it) {
  return it->is_at_end ? it->at - MARGIN : it->at + it->len;
}

void *room_of(room *it, size_t len) {
  HOLDS(len <= ROOM_MAX - MARGIN);
  if (!it->pages) it->pages = make_pages();
  it->is_at_end = it->input_number != inputs || !it->is_at_end;
  it->input_number = inputs;
  it->at = it->is_at_end ? it->pages + ROOM_MAX - len : it->pages;
  it->len = len;
  memset(it->at, MARK, len);
  memset(margin_of(it), MARK, MARGIN);
  return it->at;
}

void *room_with(room *it, const void *bytes, size_t len) {
  room_of(it, len);
  if (len > 0) memcpy(it->at, bytes, len);
  return it->at;
}

void *move_room(room *it) {
  uint8_t *left = it->at;
  HOLDS(it->len <= MARGIN);
  room_with(it, left, it->len);
  memset(left, MOVED, it->len);
  return it->at;
}

void *pointer_to(const room *it) {
  return it->len == 0 && it->is_at_end ? NULL : it->at;
}

static bool are_marks(const uint8_t *bytes, size_t len) {
  return len == 0 || (bytes[0] == MARK && memcmp(bytes, bytes + 1, len - 1) == 0);
}

bool is_untouched(const room *it, size_t from) {
  return are_marks(margin_of(it), MARGIN) && (from >= it->len || are_marks(it->at + from, it->len - from));
}

bool is_unchanged(const room *it, const void *bytes) {
  return is_untouched(it, it->len) && (it->len == 0 || memcmp(it->at, bytes, it->len) == 0);
}

/* Memory. */

enum { BLOCK_MARK = 0x600db10c, TAIL = 16, FREED = 0xdd };

/* What lies before each block. As many marks as TAIL lie after it. */
typedef struct head {
  size_t size;
  uint32_t owner;
  uint32_t mark;
} head;

enum owner owner;
long blocks[OWNERS];
unsigned requests, refusals;
static unsigned refused_number;

void refuse_request(unsigned number) {
  refused_number = number;
  requests = refusals = 0;
}

void begin_reads(void) {
  refuse_request(1);
}

void end_reads(void) {
  HOLDS(requests == 0);
  refuse_request(0);
}

static bool refuses(void) {
  if (++requests != refused_number) return false;
  refusals++;
  return true;
}

static void *make_block(size_t size) {
  head *at = malloc(sizeof *at + size + TAIL);
  HOLDS(at);
  *at = (head){ size, owner, BLOCK_MARK };
  uint8_t *block = (uint8_t *)(at + 1);
  memset(block + size, MARK, TAIL);
  ASAN_POISON_MEMORY_REGION(at, sizeof *at);
  ASAN_POISON_MEMORY_REGION(block + size, TAIL);
  blocks[owner]++;
  return block;
}

/* The head of a block whose marks are as they were. */
static head *head_of(void *block) {
  head *at = (head *)block - 1;
  ASAN_UNPOISON_MEMORY_REGION(at, sizeof *at);
  HOLDS(at->mark == BLOCK_MARK && at->owner == owner);
  ASAN_UNPOISON_MEMORY_REGION((uint8_t *)block + at->size, TAIL);
  HOLDS(are_marks((uint8_t *)block + at->size, TAIL));
  return at;
}

void *fuzz_malloc(size_t size) {
  return refuses() ? NULL : make_block(size);
}

void *fuzz_realloc(void *block, size_t size) {
  void *made = fuzz_malloc(size);
  if (!made || !block) return made;
  size_t old = head_of(block)->size;
  memcpy(made, block, old < size ? old : size);
  fuzz_free(block);
  return made;
}

void fuzz_free(void *block) {
  if (!block) return;
  head *at = head_of(block);
  blocks[owner]--;
  memset(at, FREED, sizeof *at + at->size);
  free(at);
}

/* What a run has seen. */

__attribute__((section("__libfuzzer_extra_counters"))) static uint8_t seen[1 << 14];

void note(unsigned what, unsigned how) {
  uint8_t *counter = &seen[(what * 2654435761u ^ how * 40503u) % sizeof seen];
  if (*counter < 255) ++*counter;
}

/* Events. */

bool is_scalar(uint32_t code) {
  return code <= 0x10ffff && (code < 0xd800 || code > 0xdfff);
}

bool may_have_second(const hed_event *event) {
  unsigned held = event->modifiers & ~(unsigned)(HED_KITTY_MOD_CAPS_LOCK | HED_KITTY_MOD_NUM_LOCK);
  bool is_character = event->key == HED_KEY_CHAR;
  bool is_placed = is_character && event->detail >= 0x80 && event->base != HED_NO_CODE;
  bool is_shifted = held & HED_KITTY_MOD_SHIFT && event->shifted != HED_NO_CODE;
  bool is_told = held & ~(unsigned)HED_KITTY_MOD_SHIFT && (is_placed || is_shifted);
  bool is_sent_by_others = is_character && (event->detail == '\b' || event->detail == '\n');
  return event->key_event_kind != HED_KEY_EVENT_KIND_RELEASE && (is_told || is_sent_by_others);
}

hed_event event_of(const hed_key_press *press) {
  hed_event event = { .kind = HED_KIND_KEY, .key_event_kind = HED_KEY_EVENT_KIND_PRESS };
  event.modifiers = press->held;
  event.key = press->key;
  event.detail = press->detail;
  event.shifted = event.base = HED_NO_CODE;
  return event;
}

bool is_press(const hed_key_press *press) {
  hed_event own = event_of(press);
  hed_key_press again;
  return hed_event_press(&own, NULL, 0, &again) == HED_OK && same_press(&again, press);
}

void check_last_press(const hed_parser *parser, const hed_event *last, const uint8_t *text) {
  hed_key_press press, of_parser;
  begin_reads();
  hed_status status = hed_event_press(last, text, last->text_len, &press);
  HOLDS(hed_parser_press(parser, last, &of_parser) == status && (status || same_press(&press, &of_parser)));
  status = hed_event_second(last, &press);
  HOLDS(hed_parser_second(parser, last, &of_parser) == status && (status || same_press(&press, &of_parser)));
  end_reads();
}

enum { PLAIN_MODIFIERS = HED_KITTY_MOD_SHIFT | HED_KITTY_MOD_ALT | HED_KITTY_MOD_CTRL };

/* A key has a name or a number in Kitty's table, or is none and has 0. */
static void check_key(const hed_event *event, bool is_termwiz) {
  enum { FIRST_OF_KITTY = 57344, LAST_OF_KITTY = 63743 };
  bool is_of_kitty = event->detail >= FIRST_OF_KITTY && event->detail <= LAST_OF_KITTY;
  HOLDS(event->key_event_kind >= HED_KEY_EVENT_KIND_PRESS && event->key_event_kind <= HED_KEY_EVENT_KIND_RELEASE);
  HOLDS(event->key <= LAST_KEY && event->key != HED_KEY_INTERNAL_PASTE_START);
  if (event->key == 0) HOLDS(event->detail == 0 || is_of_kitty);
  else if (event->key == HED_KEY_CHAR) HOLDS(is_scalar(event->detail));
  else if (event->key == HED_KEY_FUNCTION) HOLDS(event->detail >= 1 && event->detail <= (is_termwiz ? 24 : 255));
  else HOLDS(event->detail == 0);
  HOLDS(event->shifted == HED_NO_CODE || is_scalar(event->shifted));
  HOLDS(event->base == HED_NO_CODE || is_scalar(event->base));
  if (!is_termwiz) return;
  HOLDS(event->key_event_kind == HED_KEY_EVENT_KIND_PRESS && event->key != 0 && event->text_len == 0);
  HOLDS((event->modifiers & ~PLAIN_MODIFIERS) == 0 && event->shifted == HED_NO_CODE && event->base == HED_NO_CODE);
}

/* The buttons that are down aren't told of a release, a move and a side button. */
static void check_mouse(const hed_event *event) {
  uint8_t kind = event->mouse_kind, button = event->button;
  HOLDS(kind >= HED_MOUSE_KIND_PRESS && kind <= HED_MOUSE_KIND_WHEEL && button <= 11);
  HOLDS((event->modifiers & ~PLAIN_MODIFIERS) == 0);
  HOLDS((event->buttons & ~(2 * LAST_BUTTON - HED_BUTTON_LEFT)) == 0);
  HOLDS(kind != HED_MOUSE_KIND_MOVE || button == 0);
  HOLDS(kind != HED_MOUSE_KIND_WHEEL || (button >= 4 && button <= 7));
  HOLDS(button != 0 || kind == HED_MOUSE_KIND_MOVE || kind == HED_MOUSE_KIND_RELEASE);
  HOLDS((event->buttons == 0) == (kind == HED_MOUSE_KIND_MOVE || kind == HED_MOUSE_KIND_RELEASE || button >= 8));
}

void check_event(const hed_event *event, bool is_termwiz) {
  hed_event own = own_fields(event);
  uint8_t kind = event->kind;
  bool is_key = kind == HED_KIND_KEY, is_mouse = kind == HED_KIND_MOUSE, is_string = kind >= HED_KIND_STRING_PART;
  HOLDS(kind >= HED_KIND_KEY && kind <= HED_KIND_STRING_CUT && kind != HED_KIND_PASTE + 1);
  HOLDS(!is_termwiz || is_key || is_mouse || kind == HED_KIND_PASTE || kind == HED_KIND_PASTE_PART);
  HOLDS(same_event(event, &own));
  if (is_key) check_key(event, is_termwiz);
  if (is_mouse) check_mouse(event);
  if (is_string) HOLDS(event->string_kind >= HED_KIND_OSC && event->string_kind <= HED_KIND_APC);
  if (kind == HED_KIND_CURSOR_POSITION) HOLDS(event->row > 0 && event->column > 0);
  note((kind - 1u) << 16 | event->key << 8 | event->buttons | (event->detail & 0x7f), event->modifiers);
  note(0x60000u | kind, is_key ? event->key_event_kind : is_mouse ? event->mouse_kind : event->flags + event->string_kind);
  if (kind == HED_KIND_PASTE) note(0xd0000u, event->text_len < 64 ? (unsigned)event->text_len : 64);
}

/* What waits. */

static const char start[] = "\033[200~", end[] = "\033[201~";
enum { BRACKET = sizeof start - 1, ESC = 0x1b, MOST_OF_TERMWIZ = 21, MOST = 256, MOST_OF_STRING = 65535 };

bool begins_paste(const uint8_t *waiting, size_t len) {
  return len >= BRACKET && memcmp(waiting, start, BRACKET) == 0;
}

bool is_open_paste(const uint8_t *waiting, size_t len) {
  return begins_paste(waiting, len) && !memmem(waiting + BRACKET, len - BRACKET, end, BRACKET);
}

bool is_escape(const uint8_t *waiting, size_t len) {
  return (len == 1 && waiting[0] == ESC) || (len == 2 && waiting[0] == ESC && waiting[1] == ESC);
}

uint32_t dialect_of(const hed_parser *parser) {
  hed_reading reading;
  HOLDS(hed_parser_reading(parser, &reading) == HED_OK);
  return reading.dialect;
}

/* The kind of a rest, by its first bytes. By termwiz's grammar no string waits. */
static void check_kind(uint32_t kind, const uint8_t *waiting, size_t len, bool is_termwiz) {
  HOLDS((kind == HED_WAITING_NOTHING) == (len == 0));
  HOLDS((kind == HED_WAITING_ESCAPE) == is_escape(waiting, len));
  HOLDS((kind == HED_WAITING_PASTE) == is_open_paste(waiting, len));
  if (!is_termwiz || kind <= HED_WAITING_ESCAPE || kind == HED_WAITING_PASTE) return;
  HOLDS(kind == (waiting[0] != ESC || waiting[1] >= 0x80 ? HED_WAITING_CHARACTER : HED_WAITING_SEQUENCE));
}

void check_rest(const hed_parser *parser, const uint8_t *waiting, size_t len) {
  uint32_t kind = hed_parser_waiting(parser);
  bool is_termwiz = dialect_of(parser) == HED_DIALECT_TERMWIZ;
  size_t most = is_termwiz ? MOST_OF_TERMWIZ : kind == HED_WAITING_STRING ? MOST_OF_STRING : MOST;
  HOLDS(hed_parser_waiting_len(parser) == len);
  check_kind(kind, waiting, len, is_termwiz);
  HOLDS(kind == HED_WAITING_PASTE || len <= most);
  note(0x30000u | kind, len < 64 ? (unsigned)len : 64);
}

/* Keys that are sent. */

void encode(sent *it, encoder *call, const void *key, size_t capacity) {
  static room out, out_len;
  size_t *len = room_of(&out_len, sizeof *len);
  room_of(&out, capacity);
  it->status = call(key, pointer_to(&out), capacity, len);
  it->len = *len;
  HOLDS(it->status == HED_OK || it->len == 0);
  size_t written = it->len < capacity ? it->len : capacity;
  HOLDS(is_untouched(&out_len, sizeof *len) && is_untouched(&out, written) && written <= sizeof it->bytes);
  memcpy(it->bytes, out.at, written);
}

bool same_sent(const sent *one, const sent *other, size_t capacity) {
  size_t len = one->len < capacity ? one->len : capacity;
  return one->status == other->status && one->len == other->len && memcmp(one->bytes, other->bytes, len) == 0;
}

hed_status encode_told(const void *key, uint8_t *out, size_t capacity, size_t *len) {
  static room event, text;
  const told_key *told = key;
  room_with(&event, &told->event, sizeof told->event);
  room_with(&text, told->text, told->len);
  hed_status status = hed_encode_kitty((hed_event *)event.at, pointer_to(&text), told->len, told->flags, out, capacity, len);
  HOLDS(is_unchanged(&event, &told->event) && is_unchanged(&text, told->text));
  return status;
}
