/* What the harnesses share: checks, the bytes of an input, rooms that end where nothing can be touched, memory that is counted and
 * refused, what every event and every rest has to be, the calls that encode a key, and those of a key map. */
#ifndef FUZZ_H
#define FUZZ_H

#include "../../c/same.h"

/* A check. If it fails, it is printed and the program aborts, and libFuzzer keeps the input. */
#define HOLDS(holds) ((holds) ? (void)0 : fail(#holds, __FILE__, __LINE__))

_Noreturn void fail(const char *what, const char *file, int line);

/* What is left of an input. After its end follow zeros. */
typedef struct input {
  const uint8_t *at;
  size_t left;
} input;

/* Each harness has it, for one input. */
void try_input(input *it);

uint8_t take_byte(input *it);

/* A number of that many bytes, the lowest first. */
uint64_t take_number(input *it, unsigned bytes);

/* At most `want` bytes; `got` is how many. */
const uint8_t *take_bytes(input *it, size_t want, size_t *got);

/* A call of a program: a letter, which the five low bits of a byte are, and the number of the request for memory that is refused in it.
 * The three high bits, with 2 flipped, are that number: none for capital letters, and the first for small ones. */
typedef struct letter {
  char capital;
  unsigned refused;
} letter;

letter take_letter(input *it);

/* A room for one argument of a call. On one side of it lies a page that can't be touched, on the other there are marks. The side changes
 * from one use to the next, and is the same for the first use in each input. A call that reads or writes past the page's side faults. */
typedef struct room {
  uint8_t *pages;
  uint8_t *at;
  size_t len;
  bool is_at_end;
  uint64_t input_number;
} room;

enum { ROOM_MAX = 1 << 16 };

/* Makes a room of `len` bytes, each of them a mark. */
void *room_of(room *it, size_t len);

/* The same with a copy of these bytes. */
void *room_with(room *it, const void *bytes, size_t len);

/* Moves what the room has to its other side, and returns where it is. */
void *move_room(room *it);

/* What a call gets as the pointer to a room: NULL in place of every other one that is empty. */
void *pointer_to(const room *it);

/* Whether the room's bytes are marks from there on, and nothing around the room was written. */
bool is_untouched(const room *it, size_t from);

/* Whether the room has these bytes, as many as fit it, and nothing around it was written. */
bool is_unchanged(const room *it, const void *bytes);

/* The archive's requests for memory come here: tools/fuzz.sh renames them. Each block has marks around it, always moves when it grows, and
 * is overwritten when it is freed. */
void *fuzz_malloc(size_t size);
void *fuzz_realloc(void *block, size_t size);
void fuzz_free(void *block);

/* Whose requests come next. */
extern enum owner { TESTED, TWIN, MAP, OWNERS } owner;

/* How many blocks each owner has. */
extern long blocks[OWNERS];

/* Refuses the request of that number from now on, none if it is 0, and counts anew. */
void refuse_request(unsigned number);

/* How many requests were made, and how many of them refused, since then. */
extern unsigned requests, refusals;

/* Between the two calls no request may be made. */
void begin_reads(void);
void end_reads(void);

/* Notes something that a run has seen, so that libFuzzer keeps inputs that show something new: the archive itself isn't instrumented. */
void note(unsigned what, unsigned how);

/* Checks what holds for every event, and what holds if termwiz's grammar read it. */
void check_event(const hed_event *event, bool is_termwiz);

/* The event of a press that holds these keys and tells nothing else. */
hed_event event_of(const hed_key_press *press);

/* Whether numbers are those of a press: it is its own. */
bool is_press(const hed_key_press *press);

/* What the waiting bytes of a parser are. */
bool begins_paste(const uint8_t *waiting, size_t len);
bool is_open_paste(const uint8_t *waiting, size_t len);
bool is_escape(const uint8_t *waiting, size_t len);

/* Whether a code point is a character of Unicode. */
bool is_scalar(uint32_t code);

/* Whether a key may have a second press: with a modifier but Shift its place or what it types with Shift is told, or its character may
 * have been sent by another key. */
bool may_have_second(const hed_event *event);

/* Checks that the presses of the event told last are those of the event with its text. */
void check_last_press(const hed_parser *parser, const hed_event *last, const uint8_t *text);

/* Checks that a parser, of which all is told, has these bytes waiting, and tells their kind. */
void check_rest(const hed_parser *parser, const uint8_t *waiting, size_t len);

/* The dialect that a parser has. */
uint32_t dialect_of(const hed_parser *parser);

/* What is sent for a key, as much of it as there was room for. */
typedef struct sent {
  hed_status status;
  size_t len;
  uint8_t bytes[3 << 12];
} sent;

/* A call that encodes a key, and checks that it leaves the key as it is. */
typedef hed_status encoder(const void *key, uint8_t *out, size_t capacity, size_t *len);

/* Makes the call with a room of that size, and checks what it wrote. */
void encode(sent *it, encoder *call, const void *key, size_t capacity);

/* Whether two rooms, the smaller of that size, got the same. */
bool same_sent(const sent *one, const sent *other, size_t capacity);

/* What hed_encode_kitty gets: a key, its text, and the flags. */
typedef struct told_key {
  hed_event event;
  const uint8_t *text;
  size_t len;
  uint8_t flags;
} told_key;

hed_status encode_told(const void *key, uint8_t *out, size_t capacity, size_t *len);

/* A key map beside a plain one, a list of entries: each answer has to be that of the list. An insert that is refused memory changes
 * nothing, and made again it is granted. What needs no memory asks for none. Before init and after free every call says that there is no
 * map. A program begins with no map, and when it ends no memory of the map is left. */
void begin_map(void);
void end_map(void);

/* Makes the call of a map that a letter stands for: see tools/fuzz/maps.c. Other letters are passed over. */
void call_map(letter of, input *it);

#endif
