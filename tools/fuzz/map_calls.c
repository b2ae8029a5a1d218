/* The calls of a key map, each with its checks, and the texts of their letters: tools/fuzz/maps.c has the language. */
#include "fuzz.h"
#include <string.h>

/* The most keys of a map, the most bytes that they have all together, and the most inserts of a program. Further inserts aren't made. */
enum { MAP_KEYS_MAX = 300, MAP_BYTES_MAX = 1 << 14, MAP_INSERTS_MAX = 600 };
enum { TEXT_MAX = 1024, MANY = 16, FEW = 0x40 };

/* The last text, and room for one byte more. */
static uint8_t last[TEXT_MAX + 1];
static size_t last_len;

/* The plain map: entries in the order of their inserts. */
typedef struct entry {
  const uint8_t *key;
  size_t len;
  uint64_t value;
} entry;

static entry entries[MAP_KEYS_MAX];
static uint8_t key_bytes[MAP_BYTES_MAX];
static size_t count, bytes_len, inserts, next_key;

/* The map under test lies in a room. */
static room place, given_key, given_text, found;
static hed_keymap *map;
static bool is_made;

/* Programs spend most of their time here. So the function has no checks of addresses, and is no memcmp, of which libFuzzer takes note. */
__attribute__((no_sanitize("address", "undefined"))) static bool is_prefix(const uint8_t *prefix, size_t prefix_len, const uint8_t *text,
                                                                           size_t len) {
  size_t same = 0;
  if (prefix_len > len || (prefix_len > 0 && prefix[prefix_len - 1] != text[prefix_len - 1])) return false;
  while (same < prefix_len && prefix[same] == text[same]) same++;
  return same == prefix_len;
}

static void insert_in_plain(const uint8_t *key, size_t len, uint64_t value) {
  for (size_t i = 0; i < count; i++) {
    if (entries[i].len != len || !is_prefix(key, len, entries[i].key, len)) continue;
    entries[i].value = value;
    return;
  }
  if (len > 0) memcpy(key_bytes + bytes_len, key, len);
  entries[count++] = (entry){ key_bytes + bytes_len, len, value };
  bytes_len += len;
}

static hed_status look_up_in_plain(const uint8_t *text, size_t len, bool maybe_more, hed_match *match) {
  const entry *longest = NULL;
  bool is_extended = false;
  if (!is_made) return HED_NOT_INITIALIZED;
  for (const entry *it = entries; it < entries + count; it++) {
    if (is_prefix(it->key, it->len, text, len) && (!longest || longest->len < it->len)) longest = it;
    if (it->len > len && is_prefix(text, len, it->key, it->len)) is_extended = true;
  }
  if (!longest) return is_extended ? HED_NEED_DATA : HED_NONE;
  *match = (hed_match){ longest->len, longest->value };
  return is_extended && maybe_more ? HED_AMBIGUOUS : HED_OK;
}

static void check_lookup(const uint8_t *text, size_t len, bool maybe_more) {
  hed_match wanted, *match = room_of(&found, sizeof *match);
  room_with(&given_text, text, len);
  hed_status answer = hed_keymap_lookup(map, pointer_to(&given_text), len, maybe_more, match);
  HOLDS(answer == look_up_in_plain(text, len, maybe_more, &wanted));
  bool has_match = answer == HED_OK || answer == HED_AMBIGUOUS;
  HOLDS(!has_match || (match->len == wanted.len && match->value == wanted.value));
  HOLDS(is_untouched(&found, has_match ? sizeof *match : 0) && is_unchanged(&given_text, text));
  note(0x70000u | answer << 8 | (len < 64 ? (unsigned)len : 64), has_match && wanted.len < 64 ? (unsigned)wanted.len : 64);
}

static void end_lookups(void) {
  HOLDS(hed_keymap_len(map) == count && is_untouched(&place, sizeof *map));
  end_reads();
}

/* A lookup under both flags. */
static void look_up(const uint8_t *key, size_t len) {
  begin_reads();
  check_lookup(key, len, true);
  check_lookup(key, len, false);
  end_lookups();
}

/* Looks some keys up, from the one on at which the last call ended. */
static void look_keys_up(size_t want) {
  begin_reads();
  for (size_t i = 0; i < want && i < count; i++) {
    const entry *it = &entries[next_key++ % count];
    check_lookup(it->key, it->len, next_key & 1);
  }
  end_lookups();
}

static void forget(void) {
  is_made = false;
  count = bytes_len = 0;
}

void begin_map(void) {
  map = room_with(&place, &(hed_keymap)HED_KEYMAP_NONE, sizeof *map);
  last_len = inserts = next_key = 0;
  forget();
}

static void init_map(unsigned refused) {
  refuse_request(refused);
  hed_status made = hed_keymap_init(map);
  HOLDS(made == (refusals > 0 ? HED_NO_MEMORY : HED_OK));
  note(0x80000u, requests);
  refuse_request(0);
  if (made) look_keys_up(MANY);
  HOLDS(!made || !hed_keymap_init(map));
  forget();
  is_made = true;
  look_up(NULL, 0);
}

/* Makes the call, and says whether it was granted. */
static bool insert(const uint8_t *key, size_t len, uint64_t value, unsigned refused) {
  refuse_request(refused);
  hed_status status = hed_keymap_insert(map, pointer_to(&given_key), len, value);
  HOLDS(status == (!is_made ? HED_NOT_INITIALIZED : refusals > 0 ? HED_NO_MEMORY : HED_OK));
  HOLDS(is_made || requests == 0);
  note(0x90000u, requests);
  refuse_request(0);
  HOLDS(is_unchanged(&given_key, key));
  return status == HED_OK;
}

static void insert_in_map(const uint8_t *key, size_t len, uint8_t value, unsigned refused) {
  uint64_t spread = value * 0x9e3779b97f4a7c15u;
  if (count == MAP_KEYS_MAX || len > MAP_BYTES_MAX - bytes_len || inserts++ >= MAP_INSERTS_MAX) return;
  room_with(&given_key, key, len);
  if (!insert(key, len, spread, refused) && is_made) {
    look_keys_up(MANY);
    look_up(key, len);
    HOLDS(insert(key, len, spread, 0));
  }
  if (is_made) insert_in_plain(key, len, spread);
  look_up(key, len);
  note(0xa0000u, (unsigned)(count < 32 ? count : 32 + count / 32));
}

static void free_map(void) {
  hed_keymap_free(map);
  HOLDS(!map->live && map->state == NULL && blocks[MAP] == 0);
  forget();
  look_up(NULL, 0);
}

void end_map(void) {
  owner = MAP;
  look_keys_up(count);
  free_map();
  free_map();
  owner = TESTED;
}

static void append(const uint8_t *bytes, size_t len, bool is_few) {
  static const uint8_t few[] = { 0x00, 0x01, 0x61, 0xff };
  for (size_t i = 0; i < len && last_len < TEXT_MAX; i++) last[last_len++] = is_few ? few[bytes[i] & 3] : bytes[i];
}

/* Makes the next text. */
static void take_text(input *it) {
  enum { NEW, LONGER, SHORTER, MUCH_LONGER, N = 0xf };
  uint8_t first = take_byte(it), form = first >> 4 & 3, many[MANY * N];
  size_t n = first & N, len = 0;
  const uint8_t *bytes = many;
  if (form == NEW) last_len = 0;
  if (form == NEW || form == LONGER) bytes = take_bytes(it, n, &len);
  if (form == SHORTER) last_len -= n < last_len ? n : last_len;
  if (form == MUCH_LONGER) memset(many, take_byte(it), len = MANY * n);
  append(bytes, len, first & FEW);
}

static void insert_one(input *it, unsigned refused) {
  take_text(it);
  insert_in_map(last, last_len, take_byte(it), refused);
}

static void insert_many(input *it, unsigned refused) {
  take_text(it);
  uint8_t n = take_byte(it), value = take_byte(it);
  for (unsigned i = 0; i < n; i++) {
    last[last_len] = (uint8_t)(i * 37);
    insert_in_map(last, last_len + 1, (uint8_t)(value + i), refused);
  }
}

static void look_text_up(input *it) {
  take_text(it);
  look_up(last, last_len);
}

void call_map(letter of, input *it) {
  owner = MAP;
  note(0xc0000u | (unsigned)of.capital, of.refused);
  switch (of.capital) {
    case 'J': init_map(of.refused); break;
    case 'P': insert_one(it, of.refused); break;
    case 'U': insert_many(it, of.refused); break;
    case 'Q': look_text_up(it); break;
    case 'R': free_map(); break;
    case 'S': map = move_room(&place); break;
    case 'T': look_keys_up(MANY); break;
    default: break;
  }
  owner = TESTED;
}
