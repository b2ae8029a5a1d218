/* A test of the map from byte strings to numbers, and of the version. */
#include "expect.h"
#include "hedrugal.h"
#include <string.h>

/* What the last lookup wrote, or this if it wrote nothing. */
static const hed_match unwritten = { 77, 777 };
static hed_match found;

static hed_status look_up(hed_keymap *map, const void *bytes, size_t len, bool maybe_more) {
  found = unwritten;
  return hed_keymap_lookup(map, (const uint8_t *)bytes, len, maybe_more, &found);
}

static bool is_found(size_t len, uint64_t value) {
  return found.len == len && found.value == value;
}

static bool is_unwritten(void) {
  return is_found(unwritten.len, unwritten.value);
}

#define INSERT(map, key, value) hed_keymap_insert(map, HED_TEXT(key), value)

/* There is no map before init and after free, and each call says so. */
static void no_map_answers(hed_keymap *map) {
  for (int more = 0; more < 2; more++) {
    EXPECT(look_up(map, NULL, 0, more) == HED_NOT_INITIALIZED && is_unwritten());
    EXPECT(look_up(map, "a", 1, more) == HED_NOT_INITIALIZED && is_unwritten());
  }
  EXPECT(INSERT(map, "a", 1) == HED_NOT_INITIALIZED && hed_keymap_len(map) == 0);
  hed_keymap_free(map);
  EXPECT(!map->live);
}

/* A text, whether more may come, and what is returned for it among the keys boa, boo and boom: as they are, and with the empty key besides. */
static const struct {
  const char *text;
  size_t len;
  bool maybe_more;
  hed_status status;
  hed_match match;
  hed_status with_empty;
} lookups[] = {
  { "", 0, true, HED_NEED_DATA, { 77, 777 }, HED_AMBIGUOUS },
  { "", 0, false, HED_NEED_DATA, { 77, 777 }, HED_OK },
  { "bo", 2, true, HED_NEED_DATA, { 77, 777 }, HED_AMBIGUOUS },
  { "bo", 2, false, HED_NEED_DATA, { 77, 777 }, HED_OK },
  { "boa", 3, true, HED_NEED_DATA, { 77, 777 }, HED_AMBIGUOUS },
  { "boa\0", 4, true, HED_OK, { 4, 1 }, HED_OK },
  { "boo", 3, true, HED_AMBIGUOUS, { 3, 4 }, HED_AMBIGUOUS },
  { "boo", 3, false, HED_OK, { 3, 4 }, HED_OK },
  { "boo!", 4, true, HED_OK, { 3, 4 }, HED_OK },
  { "boom!", 5, true, HED_OK, { 4, UINT64_MAX }, HED_OK },
  { "box", 3, true, HED_NONE, { 77, 777 }, HED_OK },
  { "bo\0", 3, false, HED_NONE, { 77, 777 }, HED_OK },
};

/* The empty key is a prefix of every text. A map that was moved is used at its new place, and init frees the map that was there. */
static void finds_keys(void) {
  hed_keymap map = HED_KEYMAP_NONE, moved;
  no_map_answers(&map);
  for (int again = 0; again < 2; again++) {
    EXPECT(hed_keymap_init(&map) == HED_OK && hed_keymap_len(&map) == 0 && look_up(&map, "", 0, true) == HED_NONE && is_unwritten());
    EXPECT(INSERT(&map, "boom", UINT64_MAX) == HED_OK && INSERT(&map, "boo", 2) == HED_OK && INSERT(&map, "boa\0", 1) == HED_OK);
    EXPECT(hed_keymap_len(&map) == 3 && INSERT(&map, "boo", 4) == HED_OK && hed_keymap_len(&map) == 3);
    memcpy(&moved, &map, sizeof moved);
    memset(&map, 0, sizeof map);
    for (size_t i = 0; i < 2 * sizeof lookups / sizeof *lookups; i++) {
      size_t at = i % (sizeof lookups / sizeof *lookups);
      bool with_empty = i != at, was_found = lookups[at].match.len != unwritten.len;
      if (i == sizeof lookups / sizeof *lookups) EXPECT(hed_keymap_insert(&moved, NULL, 0, 9) == HED_OK && hed_keymap_len(&moved) == 4);
      EXPECT(look_up(&moved, lookups[at].text, lookups[at].len, lookups[at].maybe_more)
             == (with_empty ? lookups[at].with_empty : lookups[at].status));
      EXPECT(with_empty && !was_found ? is_found(0, 9) : is_found(lookups[at].match.len, lookups[at].match.value));
    }
    memcpy(&map, &moved, sizeof map);
  }
  hed_keymap_free(&map);
  no_map_answers(&map);
}

/* Many keys of three bytes, and a long one. */
static void keeps_many_keys(void) {
  enum { LONG = 100000, MANY = 20000 };
  static uint8_t key[LONG];
  hed_keymap map = HED_KEYMAP_NONE;
  memset(key, 'x', sizeof key);
  EXPECT(hed_keymap_init(&map) == HED_OK && hed_keymap_insert(&map, key, LONG, 5) == HED_OK);
  EXPECT(look_up(&map, key, LONG, true) == HED_OK && is_found(LONG, 5) && look_up(&map, key, LONG - 1, true) == HED_NEED_DATA);
  for (uint32_t number = 0; number < 2 * MANY; number++) {
    bool is_asked = number >= MANY;
    key[0] = (uint8_t)(number % MANY), key[1] = (uint8_t)(number % MANY >> 8), key[2] = 0;
    if (!is_asked) EXPECT(hed_keymap_insert(&map, key, 3, number) == HED_OK && hed_keymap_len(&map) == number + 2);
    else EXPECT(look_up(&map, key, 3, true) == HED_OK && is_found(3, number - MANY) && look_up(&map, key, 2, true) == HED_NEED_DATA);
  }
  hed_keymap_free(&map);
}

static void tells_the_version(void) {
  char version[32];
  uint32_t number = hed_version();
  EXPECT(number == HED_VERSION_NUMBER);
  sprintf(version, "%u.%u.%u", (unsigned)(number >> 16), (unsigned)(number >> 8 & 255), (unsigned)(number & 255));
  EXPECT(strcmp(version, HED_VERSION) == 0);
}

int main(void) {
  TEST(finds_keys());
  TEST(keeps_many_keys());
  TEST(tells_the_version());
  return expected("test_keymap");
}
