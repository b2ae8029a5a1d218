/* A test of bindings, matchers and a program's own timer. A thousand chords are bound, listed, read by a matcher and unbound. Numbers that stand
 * for nothing are refused, and so is a handle that has no bindings. */
#include "told.h"

enum { CHORDS = 1000, MOST = 20000, CODE_LEN = HED_CODES_MOST / HED_CHORD_MOST };

/* The chord with this number: three letters. */
static void number_chord(unsigned number, hed_key_press *keys) {
  for (unsigned i = 0, rest = number; i < 3; i++, rest /= 10) {
    hed_key_press press = { HED_KEY_CHAR, 0, 'a' + rest % 10 };
    keys[2 - i] = press;
  }
}

/* A thousand chords, bound in an order of their own, listed, read from their keys, and unbound. */
static void binds_a_thousand_chords(void) {
  hed_bindings bindings = HED_BINDINGS_NONE;
  hed_matcher matcher = HED_MATCHER_NONE;
  hed_outcome outcome;
  hed_key_press keys[HED_CHORD_MOST], shown[3];
  uint64_t value = 77;
  size_t count = 77, first, end;
  EXPECT(hed_bindings_init(&bindings) == HED_OK);
  for (unsigned i = 0; i < CHORDS; i++) {
    number_chord(i * 7919 % CHORDS, keys);
    for (int again = 0; again < 2; again++) EXPECT(hed_bindings_bind(&bindings, keys, 3, again ? i * 7919 % CHORDS : i) == HED_OK);
    EXPECT(hed_bindings_len(&bindings) == i + 1);
  }
  EXPECT(hed_bindings_continuations(&bindings, NULL, 0, &first, &end) == HED_OK && first == 0 && end == CHORDS);
  EXPECT(hed_bindings_entry(&bindings, CHORDS, shown, 3, &count, &value) == HED_NONE && count == 0 && value == 77);
  for (unsigned i = 0; i < CHORDS; i++) {
    number_chord(i, keys);
    EXPECT(hed_bindings_lookup(&bindings, keys, 3, &value) == HED_OK && value == i);
    EXPECT(hed_bindings_lookup(&bindings, keys, 2, &value) == HED_NONE && value == i);
    for (size_t room = 0; room <= 3; room++) {
      memset(shown, 0, sizeof shown);
      EXPECT(hed_bindings_entry(&bindings, i, shown, room, &count, &value) == HED_OK && count == 3 && value == i);
      for (size_t k = 0; k < 3; k++) EXPECT(shown[k].detail == (k < room ? keys[k].detail : 0));
    }
    EXPECT(hed_bindings_continuations(&bindings, keys, 2, &first, &end) == HED_OK && first == i - i % 10 && end == first + 10);
    EXPECT(hed_bindings_continuations(&bindings, keys, 3, &first, &end) == HED_NONE && first == 0 && end == 0);
    for (size_t k = 0; k < 3; k++) {
      EXPECT(hed_matcher_next(&matcher, &bindings, true, &outcome) == HED_NONE);
      EXPECT(hed_matcher_press(&matcher, &keys[k]) == HED_OK && !hed_matcher_is_dead_end(&matcher, &bindings));
    }
    EXPECT(hed_matcher_next(&matcher, &bindings, true, &outcome) == HED_OK && outcome.value == i && outcome.keys == 3);
  }
  for (unsigned i = 0; i < CHORDS; i++) {
    number_chord(i * 7919 % CHORDS, keys);
    EXPECT(hed_bindings_unbind(&bindings, keys, 3, &value) == HED_OK && value == i * 7919 % CHORDS);
    EXPECT(hed_bindings_unbind(&bindings, keys, 3, &value) == HED_NONE && value == i * 7919 % CHORDS);
  }
  EXPECT(hed_bindings_len(&bindings) == 0);
  hed_bindings_free(&bindings);
}

/* Many characters, the first by their presses and as many by their names. */
static void binds_many_characters(void) {
  hed_bindings bindings = HED_BINDINGS_NONE;
  hed_key_press key = { HED_KEY_CHAR, 0, 0x4e00 };
  EXPECT(hed_bindings_init(&bindings) == HED_OK);
  for (; hed_bindings_len(&bindings) < MOST; key.detail++)
    if (hed_bindings_bind(&bindings, &key, 1, 0) != HED_OK) break;
  EXPECT(hed_bindings_len(&bindings) == MOST);
  for (key.detail = 0x10000; hed_bindings_len(&bindings) < 2 * MOST; key.detail++) {
    char name[16];
    size_t at, len = (size_t)sprintf(name, "U+%X", (unsigned)key.detail);
    if (hed_bindings_bind_name(&bindings, (const uint8_t *)name, len, 0, &at) != HED_OK) break;
  }
  EXPECT(hed_bindings_len(&bindings) == 2 * MOST);
  hed_bindings_free(&bindings);
}

/* The last bytes of the numbers of a press, as a matcher has them. */
static void write_code(const hed_key_press *press, uint8_t *code) {
  code[0] = (uint8_t)press->key;
  for (size_t i = 1; i < CODE_LEN - 1; i++) code[i] = (uint8_t)(press->detail >> 8 * (3 - i));
  code[CODE_LEN - 1] = press->held;
}

/* Numbers of no press, no keys, too many keys, and a matcher with the codes of no presses. */
static void refuses_bad_numbers(void) {
  static const hed_key_press bad[] = {
    { HED_KEY_CHAR, 0, 0xd800 },
    { HED_KEY_CHAR, HED_KITTY_MOD_SHIFT, 'a' },
    { HED_KEY_CHAR, HED_KITTY_MOD_CAPS_LOCK, 'a' },
    { HED_KEY_UP_ARROW, 0, 1 },
    { HED_KEY_LEFT_SHIFT, 0, 0 },
    { 0, 0, 57414 },
    { 999, 0, 0 },
  };
  hed_bindings bindings = HED_BINDINGS_NONE;
  hed_key_press keys[HED_CHORD_MOST + 1];
  uint64_t value = 77;
  size_t first, end;
  hed_outcome outcome = { 77, 77, { 7, 7, 7 }, 77 };
  EXPECT(hed_bindings_init(&bindings) == HED_OK);
  for (size_t i = 0; i < sizeof bad / sizeof *bad; i++) {
    hed_matcher matcher = HED_MATCHER_NONE;
    keys[0] = read_press("a", 1);
    keys[1] = bad[i];
    EXPECT(hed_bindings_bind(&bindings, keys, 2, 1) == HED_BAD_NUMBER);
    EXPECT(hed_bindings_lookup(&bindings, keys, 2, &value) == HED_BAD_NUMBER);
    EXPECT(hed_bindings_unbind(&bindings, keys, 2, &value) == HED_BAD_NUMBER && value == 77);
    EXPECT(hed_bindings_continuations(&bindings, keys, 2, &first, &end) == HED_BAD_NUMBER && first == 0 && end == 0);
    EXPECT(hed_matcher_press(&matcher, &bad[i]) == HED_BAD_NUMBER && matcher.count == 0);
    EXPECT(hed_matcher_press_either(&matcher, &bindings, keys, 2) == HED_BAD_NUMBER && matcher.count == 0);
    matcher.count = 2;
    for (size_t k = 0; k < 2; k++) write_code(&keys[k], matcher.codes + k * CODE_LEN);
    EXPECT(hed_matcher_press(&matcher, keys) == HED_BAD_NUMBER && matcher.count == 2);
    EXPECT(hed_matcher_press_either(&matcher, &bindings, keys, 1) == HED_BAD_NUMBER);
    EXPECT(hed_matcher_next(&matcher, &bindings, false, &outcome) == HED_BAD_NUMBER && matcher.count == 2);
    EXPECT(hed_matcher_on_pause(&matcher, &bindings, &outcome) == HED_BAD_NUMBER && outcome.keys == 77);
    EXPECT(!hed_matcher_is_dead_end(&matcher, &bindings) && hed_matcher_pending(&matcher, keys, 2) == 0);
    EXPECT(hed_matcher_cancel(&matcher, keys, 2) == 0 && matcher.count == 0);
  }
  for (size_t i = 0; i <= HED_CHORD_MOST; i++) keys[i] = read_press("a", 1);
  EXPECT(hed_bindings_bind(&bindings, NULL, 0, 1) == HED_BAD_NUMBER);
  EXPECT(hed_bindings_bind(&bindings, keys, HED_CHORD_MOST + 1, 1) == HED_BAD_NUMBER);
  EXPECT(hed_bindings_continuations(&bindings, keys, HED_CHORD_MOST + 1, &first, &end) == HED_BAD_NUMBER);
  EXPECT(hed_bindings_bind(&bindings, keys, HED_CHORD_MOST, 1) == HED_OK && hed_bindings_len(&bindings) == 1);
  hed_matcher matcher = HED_MATCHER_NONE;
  EXPECT(hed_matcher_press_either(&matcher, &bindings, NULL, 0) == HED_BAD_NUMBER);
  EXPECT(hed_matcher_press_either(&matcher, &bindings, keys, 3) == HED_BAD_NUMBER);
  for (size_t i = 0; i < HED_CHORD_MOST; i++) EXPECT(hed_matcher_press_either(&matcher, &bindings, keys, 1) == HED_OK);
  EXPECT(hed_matcher_press(&matcher, keys) == HED_FULL && matcher.count == HED_CHORD_MOST);
  EXPECT(hed_matcher_press_either(&matcher, &bindings, keys, 2) == HED_FULL && matcher.count == HED_CHORD_MOST);
  hed_matcher copy = matcher;
  EXPECT(hed_matcher_next(&matcher, &bindings, true, &outcome) == HED_OK && outcome.keys == HED_CHORD_MOST && outcome.value == 1);
  EXPECT(hed_matcher_pending(&copy, keys, 1) == HED_CHORD_MOST && copy.count == HED_CHORD_MOST);
  copy.count++;
  EXPECT(hed_matcher_next(&copy, &bindings, true, &outcome) == HED_BAD_NUMBER);
  hed_bindings_free(&bindings);
}

/* A name is bound as its presses are, once and again, and a wrong one changes nothing. */
static void binds_names(void) {
  hed_bindings bindings = HED_BINDINGS_NONE;
  hed_key_press keys[HED_CHORD_MOST];
  uint64_t value;
  size_t at = 77;
  EXPECT(hed_bindings_init(&bindings) == HED_OK);
  EXPECT(hed_bindings_bind_name(&bindings, HED_TEXT("C-x C-s"), 1, &at) == HED_OK && at == 0);
  EXPECT(hed_bindings_lookup(&bindings, keys, read_chord("ctrl+x ctrl+s", 13, keys), &value) == HED_OK && value == 1);
  EXPECT(hed_bindings_bind_name(&bindings, HED_TEXT("ctrl+x ctrl+s"), UINT64_MAX, &at) == HED_OK && at == 0);
  EXPECT(hed_bindings_lookup(&bindings, keys, 2, &value) == HED_OK && value == UINT64_MAX && hed_bindings_len(&bindings) == 1);
  EXPECT(hed_bindings_bind_name(&bindings, HED_TEXT("ctrl+x foo"), 2, &at) == HED_NAME_UNKNOWN_NAME && at == 7);
  EXPECT(hed_bindings_lookup(&bindings, keys, 2, &value) == HED_OK && value == UINT64_MAX && hed_bindings_len(&bindings) == 1);
  hed_bindings_free(&bindings);
}

/* There are no bindings before init and after free, and each call says so. */
static void none_answers(hed_bindings *none) {
  hed_matcher matcher = HED_MATCHER_NONE;
  hed_key_press keys[1] = { read_press("a", 1) };
  uint64_t value = 77;
  size_t count = 77, first, end, at = 77;
  hed_outcome outcome = { 77, 77, { 7, 7, 7 }, 77 };
  EXPECT(hed_bindings_bind(none, keys, 1, 1) == HED_NOT_INITIALIZED && hed_bindings_len(none) == 0);
  EXPECT(hed_bindings_lookup(none, keys, 1, &value) == HED_NOT_INITIALIZED);
  EXPECT(hed_bindings_unbind(none, keys, 1, &value) == HED_NOT_INITIALIZED && value == 77);
  EXPECT(hed_bindings_entry(none, 0, keys, 1, &count, &value) == HED_NOT_INITIALIZED && count == 0);
  EXPECT(hed_bindings_continuations(none, keys, 1, &first, &end) == HED_NOT_INITIALIZED && first == 0 && end == 0);
  EXPECT(hed_matcher_press_either(&matcher, none, keys, 1) == HED_NOT_INITIALIZED && matcher.count == 0);
  EXPECT(hed_matcher_press(&matcher, keys) == HED_OK);
  EXPECT(hed_matcher_next(&matcher, none, false, &outcome) == HED_NOT_INITIALIZED && matcher.count == 1);
  EXPECT(hed_matcher_on_pause(&matcher, none, &outcome) == HED_NOT_INITIALIZED && outcome.value == 77);
  EXPECT(!hed_matcher_is_dead_end(&matcher, none));
  EXPECT(hed_bindings_bind_name(none, HED_TEXT("a"), 1, &at) == HED_NOT_INITIALIZED && at == 0);
  hed_bindings_free(none);
  EXPECT(!none->live);
}

static void answers_without_bindings(void) {
  hed_bindings bindings = HED_BINDINGS_NONE;
  for (int again = 0; again < 2; again++) {
    none_answers(&bindings);
    EXPECT(hed_bindings_init(&bindings) == HED_OK);
    hed_bindings_free(&bindings);
  }
}

/* What a program tells a timer: the letters of `what` say whether something was fed or taken, and whether nothing is pending. */
static hed_seen seen_of(int32_t limit, uint8_t by, const char *what) {
  return (hed_seen){ limit, by, strchr(what, 'f') != NULL, strchr(what, 't') != NULL, strchr(what, 'e') != NULL };
}

/* A new timer has no limit, and a negative one is none. */
static void waits_for_ever(void) {
  hed_timer timer = HED_TIMER_NONE;
  hed_seen seen = seen_of(INT32_MIN, HED_AGE_FRONT, "");
  EXPECT(hed_timer_timeout(&timer, 0) == -1 && hed_timer_timeout(&timer, UINT64_MAX) == -1);
  EXPECT(hed_timer_note(&timer, 3350, &seen) == HED_OK && hed_timer_timeout(&timer, UINT64_MAX) == -1);
}

/* A number of no age is refused in either struct, and the timer is unchanged. */
static void refuses_other_ages(void) {
  hed_timer timer = HED_TIMER_NONE, before;
  hed_seen seen = seen_of(1000, HED_AGE_FRONT, "f");
  EXPECT(hed_timer_note(&timer, 7, &seen) == HED_OK);
  for (unsigned by = HED_AGE_FRONT + 1; by < 256; by++) {
    before = timer;
    seen.by = (uint8_t)by;
    EXPECT(hed_timer_note(&timer, 8, &seen) == HED_BAD_NUMBER && memcmp(&timer, &before, sizeof timer) == 0);
    EXPECT(hed_timer_timeout(&timer, 8) == 999);
    seen.by = HED_AGE_LAST;
    before.by = (uint8_t)by;
    EXPECT(hed_timer_timeout(&before, 7) == -1 && hed_timer_note(&before, 8, &seen) == HED_BAD_NUMBER);
  }
}

int main(void) {
  TEST(binds_a_thousand_chords());
  TEST(binds_many_characters());
  TEST(refuses_bad_numbers());
  TEST(binds_names());
  TEST(answers_without_bindings());
  TEST(waits_for_ever());
  TEST(refuses_other_ages());
  return expected("test_bindings");
}
