/* Calls of bindings and of a matcher in any order, with requests for memory refused.
 *
 * An input is a program of calls, each a letter (see take_letter) and its arguments:
 *
 *     I  init    B chord n   bind           P press          press                  N  next, more to come
 *     K  free    U chord     unbind         S n press ..  press one of n % 4        L  next, no more to come
 *     M  move    Q chord     look up        X n              cancel                 A  next until none, more to come
 *                C chord     continuations  W n              show what is pending   H  the same, no more to come
 *                E place n   entry          Z n place press  write into the matcher
 *                D chord     bind its name
 *
 * There is room for n presses, 40 at most, and a place is that of an entry or of a press. A chord is a byte and what follows. Its four low
 * bits are a number n, and the next two what the chord is:
 *
 *     0  n presses, which follow
 *     1  the last chord and n presses more, which follow
 *     2  the last chord without its last n presses
 *     3  the last chord and 4 n times the press that follows
 *
 * A press is a byte, which stands for one of a few. From 0xe0 on it is a character: three bytes, and one of modifiers. From 0xf0 on the
 * numbers are any: one byte of the key, one of modifiers, and four of the detail.
 *
 * The program begins with bindings that are made and with an empty matcher. Beside them is a plain list of chords in order. Each answer has
 * to be that of the list: the longest chord with which what is pending begins, and whether some chord goes on. A bind that is refused memory
 * changes nothing, and made again it is granted. What needs no memory asks for none. At the end no memory is left. */
#include "fuzz.h"
#include <string.h>

enum { MOST_CALLS = 256, ROOM_FOR = 40, MANY = 4, NAME_MAX = 64 * HED_CHORD_MOST, ANY_NUMBERS = 0xf0, ANY_CHARACTER = 0xe0 };
enum { CODE_LEN = HED_CODES_MOST / HED_CHORD_MOST };

/* A list of presses, which may have more of them than a chord has, and such that are none. */
typedef struct chord {
  size_t count;
  hed_key_press keys[ROOM_FOR];
} chord;

/* The bindings under test lie in a room, and so does the matcher during a call. */
static room place, matcher_place, given, taken, first_taken, end_taken, value_taken;
static hed_bindings *bindings;
static hed_matcher matcher;
static bool is_made;

/* The plain bindings: entries in order. And the last chord. */
typedef struct entry {
  chord keys;
  uint64_t value;
} entry;

static entry entries[MOST_CALLS];
static size_t entry_count;
static chord last;

/* Presses. */

static bool are_presses(const hed_key_press *keys, size_t count) {
  for (size_t i = 0; i < count; i++)
    if (i >= HED_CHORD_MOST || !is_press(&keys[i])) return false;
  return true;
}

static int compare_numbers(uint32_t one, uint32_t other) {
  return (one > other) - (one < other);
}

static int compare_presses(const hed_key_press *one, const hed_key_press *other) {
  int key = compare_numbers(one->key, other->key), detail = compare_numbers(one->detail, other->detail);
  return key ? key : detail ? detail : compare_numbers(one->held, other->held);
}

/* Whether one list of presses begins another. */
static bool begins(const hed_key_press *keys, size_t count, const chord *whole) {
  if (count > whole->count) return false;
  for (size_t i = 0; i < count; i++)
    if (compare_presses(&keys[i], &whole->keys[i])) return false;
  return true;
}

static int compare_chords(const chord *one, const chord *other) {
  for (size_t i = 0; i < one->count && i < other->count; i++) {
    int found = compare_presses(&one->keys[i], &other->keys[i]);
    if (found) return found;
  }
  return compare_numbers((uint32_t)one->count, (uint32_t)other->count);
}

/* The plain bindings. */

/* The entry of a chord, or NULL. */
static entry *find(const hed_key_press *keys, size_t count) {
  for (entry *it = entries; it < entries + entry_count; it++)
    if (it->keys.count == count && begins(keys, count, &it->keys)) return it;
  return NULL;
}

/* The longest chord with which presses begin, or NULL. */
static const entry *find_longest(const hed_key_press *keys, size_t count) {
  const entry *longest = NULL;
  for (size_t i = 1; i <= count; i++) {
    const entry *it = find(keys, i);
    if (it) longest = it;
  }
  return longest;
}

/* How many chords begin with these presses and are longer, and the place of the first of them. */
static size_t count_longer(const hed_key_press *keys, size_t count, size_t *first) {
  size_t longer = 0;
  for (size_t i = entry_count; i-- > 0;) {
    if (entries[i].keys.count <= count || !begins(keys, count, &entries[i].keys)) continue;
    *first = i;
    longer++;
  }
  return longer;
}

static bool goes_on(const hed_key_press *keys, size_t count) {
  size_t first;
  return count_longer(keys, count, &first) > 0;
}

static void bind_in_plain(const chord *keys, uint64_t value) {
  entry *it = find(keys->keys, keys->count);
  if (it) {
    it->value = value;
    return;
  }
  size_t at = entry_count++;
  for (; at > 0 && compare_chords(keys, &entries[at - 1].keys) < 0; at--) entries[at] = entries[at - 1];
  entries[at] = (entry){ *keys, value };
}

/* What a call of these presses answers, but for what it finds. */
static hed_status refusal_of(const chord *keys, size_t least) {
  if (keys->count < least || !are_presses(keys->keys, keys->count)) return HED_BAD_NUMBER;
  return is_made ? HED_OK : HED_NOT_INITIALIZED;
}

static void forget(void) {
  is_made = false;
  entry_count = 0;
}

/* Arguments. */

static hed_key_press take_press(input *it) {
  static const hed_key_press few[] = {
    { HED_KEY_CHAR, 0, 'a' },
    { HED_KEY_CHAR, 0, 'b' },
    { HED_KEY_CHAR, HED_KITTY_MOD_CTRL, 'a' },
    { HED_KEY_CHAR, 0, 0x441 },
    { HED_KEY_UP_ARROW, HED_KITTY_MOD_SHIFT, 0 },
    { 0, 0, 57428 },
  };
  uint8_t byte = take_byte(it);
  if (byte < ANY_CHARACTER) return few[(uint8_t)(byte - 'a') % (sizeof few / sizeof *few)];
  hed_key_press press = { HED_KEY_CHAR, 0, 0 };
  if (byte >= ANY_NUMBERS) press.key = take_byte(it);
  press.held = take_byte(it);
  press.detail = (uint32_t)take_number(it, byte >= ANY_NUMBERS ? 4 : 3);
  return press;
}

static void take_presses(input *it, size_t count) {
  for (size_t i = 0; i < count && last.count < ROOM_FOR; i++) last.keys[last.count++] = take_press(it);
}

/* Makes the next chord. */
static const chord *take_chord(input *it) {
  enum { NEW, LONGER, SHORTER, MUCH_LONGER, N = 0xf };
  uint8_t byte = take_byte(it), form = byte >> 4 & 3;
  size_t n = byte & N;
  if (form == NEW) last.count = 0;
  if (form == NEW || form == LONGER) take_presses(it, n);
  if (form == SHORTER) last.count -= n < last.count ? n : last.count;
  if (form != MUCH_LONGER) return &last;
  hed_key_press press = take_press(it);
  for (size_t i = 0; i < MANY * n && last.count < ROOM_FOR; i++) last.keys[last.count++] = press;
  return &last;
}

/* Puts presses into a room. */
static const hed_key_press *give(room *it, const hed_key_press *keys, size_t count) {
  room_with(it, keys, count * sizeof *keys);
  return pointer_to(it);
}

static bool are_given(const chord *keys) {
  return is_unchanged(&given, keys->keys);
}

/* Whether the room for presses got these, as many as fit it. */
static bool are_taken(const hed_key_press *keys, size_t count) {
  const hed_key_press *got = (const hed_key_press *)taken.at;
  size_t fit = taken.len / sizeof *got, written = count < fit ? count : fit;
  for (size_t i = 0; i < written; i++)
    if (compare_presses(&got[i], &keys[i])) return false;
  return is_untouched(&taken, written * sizeof *got);
}

static hed_key_press *make_room(size_t count) {
  room_of(&taken, count % (ROOM_FOR + 1) * sizeof(hed_key_press));
  return pointer_to(&taken);
}

/* Calls of bindings. */

static void init(unsigned refused) {
  refuse_request(refused);
  hed_status made = hed_bindings_init(bindings);
  HOLDS(made == (refusals > 0 ? HED_NO_MEMORY : HED_OK));
  note(0x10000u, requests);
  refuse_request(0);
  HOLDS(hed_bindings_len(bindings) == (made ? entry_count : 0));
  HOLDS(!made || !hed_bindings_init(bindings));
  forget();
  is_made = true;
}

static void free_bindings(void) {
  hed_bindings_free(bindings);
  HOLDS(!bindings->live && bindings->state == NULL && blocks[TESTED] == 0);
  forget();
}

static uint32_t bind(const chord *keys, uint64_t value, unsigned refused) {
  refuse_request(refused);
  hed_status answer = hed_bindings_bind(bindings, give(&given, keys->keys, keys->count), keys->count, value);
  hed_status wanted = refusal_of(keys, 1);
  HOLDS(answer == (wanted == HED_OK && refusals > 0 ? HED_NO_MEMORY : wanted) && are_given(keys));
  HOLDS(wanted == HED_OK || requests == 0);
  note(0x20000u | answer, requests << 8 | (unsigned)keys->count);
  refuse_request(0);
  return answer;
}

/* Binds the name of a chord, or a text that is none. */
static hed_status bind_name(const chord *keys, uint64_t value, unsigned refused) {
  static uint8_t name[NAME_MAX];
  hed_key_press read[HED_CHORD_MOST];
  size_t len, count, wanted_at, *at = room_of(&first_taken, sizeof *at);
  hed_status printed = hed_key_print(keys->keys, keys->count, name, sizeof name, &len), wanted = HED_OK;
  if (printed) memcpy(name, "foo+x", len = 5);
  hed_status named = hed_key_read(name, len, read, HED_CHORD_MOST, &count, &wanted_at);
  HOLDS((printed == HED_OK) == (refusal_of(keys, 1) != HED_BAD_NUMBER) && (named == HED_OK) == (printed == HED_OK));
  room_with(&given, name, len);
  refuse_request(refused);
  hed_status answer = hed_bindings_bind_name(bindings, pointer_to(&given), len, value, at);
  if (named) wanted = named;
  else if (!is_made) wanted = HED_NOT_INITIALIZED;
  else if (refusals > 0) wanted = HED_NO_MEMORY;
  HOLDS(answer == wanted || (!is_made && answer == HED_NOT_INITIALIZED));
  HOLDS(is_unchanged(&given, name) && is_untouched(&first_taken, sizeof *at) && *at == (answer == named ? wanted_at : 0));
  note(0x80000u | answer, requests << 8 | (unsigned)keys->count);
  refuse_request(0);
  return answer;
}

typedef hed_status binder(const chord *keys, uint64_t value, unsigned refused);

static void bind_one(input *it, binder *call, unsigned refused) {
  const chord *keys = take_chord(it);
  uint64_t value = take_byte(it) * 0x9e3779b97f4a7c15u;
  hed_status answer = call(keys, value, refused);
  if (answer == HED_NO_MEMORY) {
    HOLDS(hed_bindings_len(bindings) == entry_count);
    answer = call(keys, value, 0);
  }
  if (answer == HED_OK) bind_in_plain(keys, value);
}

/* Looks a chord up, or unbinds it. Returns its entry if it had one. */
static entry *call_for_value(const chord *keys, bool is_unbind) {
  uint64_t *value = room_of(&value_taken, sizeof *value);
  const hed_key_press *presses = give(&given, keys->keys, keys->count);
  hed_status wanted = refusal_of(keys, 1);
  begin_reads();
  hed_status answer =
      is_unbind ? hed_bindings_unbind(bindings, presses, keys->count, value) : hed_bindings_lookup(bindings, presses, keys->count, value);
  end_reads();
  entry *it = wanted == HED_OK ? find(keys->keys, keys->count) : NULL;
  HOLDS(answer == (wanted != HED_OK || it ? wanted : HED_NONE) && are_given(keys));
  HOLDS(is_untouched(&value_taken, it ? sizeof *value : 0) && (!it || *value == it->value));
  note(0x30000u | answer << 8 | is_unbind, (unsigned)keys->count);
  return it;
}

static void unbind(const chord *keys) {
  entry *it = call_for_value(keys, true);
  if (!it) return;
  entry_count--;
  for (; it < entries + entry_count; it++) *it = it[1];
}

static void show_entry(size_t at, uint8_t count) {
  uint64_t *value = room_of(&value_taken, sizeof *value);
  size_t *len = room_of(&first_taken, sizeof *len);
  begin_reads();
  hed_status answer = hed_bindings_entry(bindings, at, make_room(count), taken.len / sizeof(hed_key_press), len, value);
  end_reads();
  const entry *it = at < entry_count ? &entries[at] : NULL;
  HOLDS(answer == (!is_made ? HED_NOT_INITIALIZED : it ? HED_OK : HED_NONE));
  HOLDS(*len == (it ? it->keys.count : 0) && are_taken(it ? it->keys.keys : NULL, *len) && is_untouched(&first_taken, sizeof *len));
  HOLDS(is_untouched(&value_taken, it ? sizeof *value : 0) && (!it || *value == it->value));
}

static void show_one(input *it) {
  uint8_t at = take_byte(it);
  show_entry(at, take_byte(it));
}

static void list_longer(const chord *keys) {
  size_t *first = room_of(&first_taken, sizeof *first), *end = room_of(&end_taken, sizeof *end), wanted_first = 0, longer = 0;
  begin_reads();
  hed_status answer = hed_bindings_continuations(bindings, give(&given, keys->keys, keys->count), keys->count, first, end);
  end_reads();
  hed_status wanted = refusal_of(keys, 0);
  if (wanted == HED_OK) longer = count_longer(keys->keys, keys->count, &wanted_first);
  HOLDS(answer == (wanted != HED_OK || longer ? wanted : HED_NONE) && are_given(keys));
  HOLDS(*first == wanted_first && *end == wanted_first + longer);
  HOLDS(is_untouched(&first_taken, sizeof *first) && is_untouched(&end_taken, sizeof *end));
  note(0x40000u | answer, (unsigned)longer);
}

/* Calls of the matcher. */

/* The numbers that the codes of a matcher have. */
typedef struct pending {
  hed_key_press keys[HED_CHORD_MOST];
} pending;

static pending pending_in(const hed_matcher *of) {
  pending it;
  for (size_t i = 0; i < HED_CHORD_MOST; i++) {
    const uint8_t *code = &of->codes[i * CODE_LEN];
    it.keys[i] = (hed_key_press){ code[0], code[4], (uint32_t)code[1] << 16 | (uint32_t)code[2] << 8 | code[3] };
  }
  return it;
}

static bool is_good(void) {
  pending now = pending_in(&matcher);
  return matcher.count <= HED_CHORD_MOST && are_presses(now.keys, matcher.count);
}

/* Puts the matcher into its room for a call that needs no memory, and takes it back. */
static hed_matcher *begin_call(void) {
  begin_reads();
  return room_with(&matcher_place, &matcher, sizeof matcher);
}

static void end_call(void) {
  end_reads();
  HOLDS(is_untouched(&matcher_place, sizeof matcher));
  memcpy(&matcher, matcher_place.at, sizeof matcher);
}

/* Whether the matcher is as it was, but that some presses were taken from its front, and some put behind the others. */
static bool is_moved(const hed_matcher *before, size_t removed, const hed_key_press *added, size_t count) {
  if (removed == 0 && count == 0) return memcmp(&matcher, before, sizeof matcher) == 0;
  pending now = pending_in(&matcher), then = pending_in(before);
  size_t kept = before->count - removed;
  bool is_so = matcher.count == kept + count;
  for (size_t i = 0; i < matcher.count && is_so; i++)
    is_so = compare_presses(&now.keys[i], i < kept ? &then.keys[i + removed] : &added[i - kept]) == 0;
  return is_so;
}

/* What pressing one of these answers. */
static hed_status answer_to(const hed_key_press *keys, size_t count, bool is_either) {
  if (!is_good() || count == 0 || count > 2 || !are_presses(keys, count)) return HED_BAD_NUMBER;
  if (is_either && !is_made) return HED_NOT_INITIALIZED;
  return matcher.count == HED_CHORD_MOST ? HED_FULL : HED_OK;
}

/* Whether some chord begins with the first of the pending presses and this one. */
static bool leads_on(size_t count, const hed_key_press *press) {
  hed_key_press keys[HED_CHORD_MOST + 1];
  pending now = pending_in(&matcher);
  memcpy(keys, now.keys, count * sizeof *keys);
  keys[count] = *press;
  return find(keys, count + 1) || goes_on(keys, count + 1);
}

/* The one of the presses that is pressed: the first one that leads on, behind what is pending or at the start. */
static const hed_key_press *choose(const hed_key_press *keys, size_t count) {
  for (size_t i = 0; i < count; i++)
    if (leads_on(matcher.count, &keys[i])) return &keys[i];
  for (size_t i = 0; i < count; i++)
    if (leads_on(0, &keys[i])) return &keys[i];
  return keys;
}

static void press(const hed_key_press *keys, size_t count, bool is_either) {
  hed_matcher before = matcher;
  hed_status wanted = answer_to(keys, count, is_either);
  const hed_key_press *chosen = wanted == HED_OK && is_either ? choose(keys, count) : keys;
  const hed_key_press *presses = give(&given, keys, count);
  hed_matcher *at = begin_call();
  hed_status answer = is_either ? hed_matcher_press_either(at, bindings, presses, count) : hed_matcher_press(at, presses);
  end_call();
  HOLDS(answer == wanted && is_unchanged(&given, keys) && is_moved(&before, 0, chosen, answer == HED_OK));
  note(0x50000u | answer << 8 | (unsigned)count, (unsigned)before.count << 8 | (chosen != keys));
}

static void press_one(input *it) {
  hed_key_press key = take_press(it);
  press(&key, 1, false);
}

static void press_either(input *it) {
  size_t count = take_byte(it) % 4;
  hed_key_press keys[4];
  for (size_t i = 0; i < count; i++) keys[i] = take_press(it);
  press(keys, count, true);
}

/* What stands first of what is pending. */
static hed_status decide(bool more, hed_outcome *outcome) {
  if (!is_good()) return HED_BAD_NUMBER;
  if (!is_made) return HED_NOT_INITIALIZED;
  pending now = pending_in(&matcher);
  if (matcher.count == 0 || (more && goes_on(now.keys, matcher.count))) return HED_NONE;
  const entry *longest = find_longest(now.keys, matcher.count);
  *outcome = (hed_outcome){ 1, 0, now.keys[0], HED_OUTCOME_UNBOUND };
  if (longest) *outcome = (hed_outcome){ longest->keys.count, longest->value, { 0, 0, 0 }, HED_OUTCOME_BOUND };
  return HED_OK;
}

/* Whether the room has what was decided. */
static bool is_outcome(hed_status answer, const hed_outcome *wanted) {
  const hed_outcome *got = (const hed_outcome *)taken.at;
  if (answer) return is_untouched(&taken, 0);
  return got->kind == wanted->kind && got->keys == wanted->keys && got->value == wanted->value
         && compare_presses(&got->press, &wanted->press) == 0 && is_untouched(&taken, sizeof *got);
}

/* Makes the call, and says whether it took something. */
static bool take_next(bool more) {
  hed_matcher before = matcher;
  hed_outcome wanted, *outcome = room_of(&taken, sizeof *outcome);
  hed_status decided = decide(more, &wanted);
  hed_matcher *at = begin_call();
  hed_status answer = hed_matcher_next(at, bindings, more, outcome);
  end_call();
  HOLDS(answer == decided && is_outcome(answer, &wanted) && is_moved(&before, answer ? 0 : wanted.keys, NULL, 0));
  HOLDS(answer != HED_NONE || matcher.count < HED_CHORD_MOST);
  note(0x60000u | answer << 8 | more, (unsigned)before.count << 8 | (unsigned)matcher.count);
  return answer == HED_OK;
}

static void take_all(bool more) {
  while (take_next(more)) continue;
}

/* Shows what is pending, or cancels it. */
static void show_pending(size_t count, bool is_cancel) {
  hed_matcher before = matcher;
  pending then = pending_in(&before);
  size_t shown = is_good() ? matcher.count : 0;
  hed_key_press *keys = make_room(count);
  size_t fit = taken.len / sizeof *keys;
  hed_matcher *at = begin_call();
  HOLDS((is_cancel ? hed_matcher_cancel(at, keys, fit) : hed_matcher_pending(at, keys, fit)) == shown);
  end_call();
  HOLDS(are_taken(then.keys, shown) && (is_cancel ? matcher.count == 0 : is_moved(&before, 0, NULL, 0)));
}

/* Writes the last bytes of numbers into the matcher, as a program may. */
static void write_into_matcher(input *it) {
  uint8_t at = take_byte(it);
  hed_key_press key = take_press(it);
  uint8_t code[] = { (uint8_t)key.key, (uint8_t)(key.detail >> 16), (uint8_t)(key.detail >> 8), (uint8_t)key.detail, key.held };
  if (at < HED_CHORD_MOST) memcpy(&matcher.codes[at * CODE_LEN], code, CODE_LEN);
  else matcher.count = at == UINT8_MAX ? SIZE_MAX : (size_t)(at - HED_CHORD_MOST);
}

/* What both show of themselves. */
static void check_state(void) {
  hed_matcher before = matcher;
  hed_outcome wanted, *outcome = room_of(&taken, sizeof *outcome);
  hed_status decided = decide(false, &wanted);
  pending now = pending_in(&matcher);
  bool is_dead_end =
      is_made && is_good() && matcher.count > 1 && !goes_on(now.keys, matcher.count) && !find_longest(now.keys, matcher.count);
  hed_matcher *at = begin_call();
  HOLDS(hed_matcher_on_pause(at, bindings, outcome) == decided && is_outcome(decided, &wanted));
  HOLDS(hed_matcher_is_dead_end(at, bindings) == is_dead_end && hed_bindings_len(bindings) == entry_count);
  end_call();
  HOLDS(is_moved(&before, 0, NULL, 0) && is_untouched(&place, sizeof *bindings));
  note(0x70000u | decided << 8 | is_dead_end, (unsigned)entry_count);
}

static void call(input *it) {
  letter of = take_letter(it);
  switch (of.capital) {
    case 'I': init(of.refused); break;
    case 'K': free_bindings(); break;
    case 'M': bindings = move_room(&place); break;
    case 'B': bind_one(it, bind, of.refused); break;
    case 'D': bind_one(it, bind_name, of.refused); break;
    case 'U': unbind(take_chord(it)); break;
    case 'Q': call_for_value(take_chord(it), false); break;
    case 'C': list_longer(take_chord(it)); break;
    case 'E': show_one(it); break;
    case 'P': press_one(it); break;
    case 'S': press_either(it); break;
    case 'N': take_next(true); break;
    case 'L': take_next(false); break;
    case 'A': take_all(true); break;
    case 'H': take_all(false); break;
    case 'X': show_pending(take_byte(it), true); break;
    case 'W': show_pending(take_byte(it), false); break;
    case 'Z': write_into_matcher(it); break;
    default: return;
  }
  check_state();
}

void try_input(input *it) {
  bindings = room_with(&place, &(hed_bindings)HED_BINDINGS_NONE, sizeof *bindings);
  matcher = (hed_matcher)HED_MATCHER_NONE;
  last.count = 0;
  forget();
  check_state();
  init(0);
  for (int calls = 0; it->left > 0 && calls < MOST_CALLS; calls++) call(it);
  for (size_t i = 0; i < entry_count; i++) show_entry(i, ROOM_FOR);
  show_entry(entry_count, ROOM_FOR);
  free_bindings();
  free_bindings();
  check_state();
}
