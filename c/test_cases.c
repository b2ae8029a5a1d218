/* Runs the cases of tests/cases: each line of a file in every way that tests/cases/README.md says.
 *
 *     ./a.out tests/cases    all files of the folder, each of which must be there
 *     ./a.out FILE..         these files
 *
 * Prints nothing if all cases hold, and else the file, the number and the text of each line that fails. */
#define _POSIX_C_SOURCE 200809L
#include "cases.h"
#include <dirent.h>

/* The parser of a line, what is given there, how events are told, and how many checks had failed before. */
static hed_parser parser = HED_PARSER_NONE;
static hed_reading reading;
static struct bytes bytes, text;
static take *tells;
static int faults_before;

/* Makes the parser of a line, which reads so. */
static void make_parser(void) {
  make(&parser, reading.dialect);
  EXPECT(hed_parser_set_reading(&parser, &reading) == HED_OK);
}

/* READING "BYTES", and what follows them. */
static bool is_given(char *words) {
  if (!is_reading(word_of(&words), &reading) || !is_text(word_of(&words), &bytes) || words) return false;
  make_parser();
  return true;
}

/* Tells the first events of the bytes, which are read in pieces: the first of one length and the others of another one. */
static void read_in_pieces(size_t first, size_t others) {
  EXPECT(hed_parser_set_reading(&parser, &reading) == HED_OK);
  for (size_t at = 0, len = first; at < bytes.len; at += len, len = others) {
    if (len > bytes.len - at) len = bytes.len - at;
    EXPECT(hed_parser_feed(&parser, 0, bytes.at + at, len) == HED_OK);
    tells(&parser);
  }
}

/* The first events, those at the end of the input if anything stays buffered, and the reading afterwards. */
static void ends_as(const char *events, const char *at_end, const hed_reading *wanted) {
  hed_reading after;
  is_told(events);
  EXPECT((hed_parser_waiting_len(&parser) > 0) == (at_end != NULL));
  hed_parser_end(&parser);
  tells(&parser);
  is_told(at_end ? at_end : "nothing");
  EXPECT(hed_parser_waiting_len(&parser) == 0 && hed_parser_reading(&parser, &after) == HED_OK);
  if (!wanted) after.questions = reading.questions;
  EXPECT(same_reading(&after, wanted ? wanted : &reading));
}

/* READING "BYTES" = EVENTS | EVENTS = READING: whole, in two pieces and byte by byte. */
static bool reads_events(char *given, char *events) {
  hed_reading after;
  char *behind = cut(events, " = "), *at_end = cut(events, " | ");
  if (!is_given(given) || (behind && !is_reading(behind, &after))) return false;
  for (size_t way = 0; way <= 2 * bytes.len + 1 && faults == faults_before; way++) {
    tells = way % 2 ? tell_arrays : tell_events;
    read_in_pieces(way < 2 ? 1 : way / 2, way < 2 ? 1 : bytes.len);
    ends_as(events, at_end, behind ? &after : NULL);
  }
  return true;
}

static void tell_timeout(int32_t left) {
  if (left < 0) tell("forever");
  else tell("%d", (int)left);
}

/* Makes a call that tells no events. */
static void tell_answer(int call, uint64_t now) {
  static const char *const kinds[] = { "nothing", "escape", "sequence", "character", "paste", "string" };
  size_t count = 77;
  switch (call) {
    case 0: tell_timeout(hed_parser_timeout(&parser, now)); break;
    case 1: tell("%s %zu", kinds[hed_parser_waiting(&parser) % 6], hed_parser_waiting_len(&parser)); break;
    case 2:
      if (hed_parser_skip_paste(&parser, &count) == HED_OK) tell("%zu", count);
      else EXPECT(count == 77), tell("none");
      break;
    default: tell("%zu", hed_parser_reset(&parser));
  }
}

/* How many bytes are fed at once in a run. */
static size_t piece;

/* Feeds the bytes in pieces, and tells the events after each but the last if they are taken. */
static hed_status feed_in_pieces(uint64_t now, bool takes) {
  hed_status status = HED_OK;
  size_t at = 0, len = bytes.len;
  for (; status == HED_OK && len - at > piece; at += piece) {
    status = hed_parser_feed(&parser, now, bytes.at + at, piece);
    if (takes && status == HED_OK) tells(&parser);
  }
  if (status == HED_OK) status = hed_parser_feed(&parser, now, bytes.at + at, len - at);
  EXPECT(hed_parser_timeout(&parser, now) == 0);
  return status;
}

/* A step that asks for positions or forgets them, sets the reading, or tells it. */
static bool is_of_reading(const char *name, char *words, const char *wanted) {
  static const char *const names[] = { "expect", "forget", "set", "reading", NULL };
  hed_reading named, now;
  uint64_t count = 0;
  switch (place_of(name, names)) {
    case 0:
      if (!is_number(word_of(&words), &count)) return false;
      while (count-- > 0) hed_parser_expect_position(&parser);
      return true;
    case 1: hed_parser_forget_positions(&parser); return true;
    case 2: return is_reading(word_of(&words), &named) && hed_parser_set_reading(&parser, &named) == HED_OK;
    case 3:
      if (!is_reading(wanted, &named)) return false;
      EXPECT(hed_parser_reading(&parser, &now) == HED_OK && same_reading(&now, &named));
      return true;
    default: return false;
  }
}

/* A step of a run that begins at this time: its words, and what is told after it. */
static bool makes_step(const char *name, char *words, uint64_t start, char *wanted) {
  static const char *const names[] = { "feed", "idle", "interrupted", "timeout", "waiting", "skip", "reset", "flush", "end", "next", NULL };
  int call = place_of(name, names);
  uint64_t now = 0;
  hed_status status = HED_OK;
  if (call < 0 || (call < 4 && !is_number(word_of(&words), &now)) || (call == 0 && !is_text(word_of(&words), &bytes)) || words)
    return false;
  now = now > UINT64_MAX - start ? UINT64_MAX : now + start;
  bool answers = call > 2 && call < 7;
  switch (call) {
    case 0: status = feed_in_pieces(now, wanted); break;
    case 1: hed_parser_idle(&parser, now); break;
    case 2: status = hed_parser_interrupted(&parser, now); break;
    case 7: hed_parser_flush(&parser); break;
    case 8: hed_parser_end(&parser); break;
    case 9: break;
    default: tell_answer(call - 3, now);
  }
  EXPECT(status == HED_OK || status == HED_BUSY);
  if (status == HED_BUSY) tell("busy");
  else if (wanted && !answers) tells(&parser);
  is_told(wanted ? wanted : "nothing");
  return true;
}

/* The limits of a run, and what is told of it. */
static hed_policy limits;
static size_t parts;

static bool sets_limits(char *words) {
  if (!are_limits(words, &limits, &parts)) return false;
  EXPECT(hed_parser_set_policy(&parser, &limits) == HED_OK);
  hed_parser_set_parts(&parser, parts);
  return true;
}

/* Makes a run that begins at this time. */
static bool makes_run(char *marks, char *steps, uint64_t start) {
  limits = (hed_policy){ 0 }, parts = HED_NO_PARTS;
  EXPECT(hed_parser_set_reading(&parser, &reading) == HED_OK);
  if (!sets_limits(marks)) return false;
  tells(&parser);
  while (steps) {
    char *step = steps;
    steps = cut(step, " | ");
    char *wanted = cut(step, ": ");
    const char *name = word_of(&step);
    if (strcmp(name, "policy") == 0 ? !sets_limits(step) : !is_of_reading(name, step, wanted) && !makes_step(name, step, start, wanted))
      return false;
  }
  hed_parser_reset(&parser);
  return true;
}

/* READING LIMITS = STEP | STEP: twice by one parser, with events one by one and in arrays. It is made as often byte by byte, unless a paste
 * comes in parts, which depend on how it is fed. */
static bool makes_runs(char *given, char *steps) {
  static char marks_again[LINE_MOST], steps_again[LINE_MOST];
  if (!is_reading(word_of(&given), &reading)) return false;
  bool has_parts = (given && strstr(given, "parts=")) || strstr(steps, "parts=");
  make_parser();
  for (unsigned again = 0; again < (has_parts ? 4 : 8) && faults == faults_before; again++) {
    strcpy(marks_again, given ? given : "");
    strcpy(steps_again, steps);
    piece = again < 4 ? BYTES_MOST : 1, tells = again % 2 ? tell_arrays : tell_events;
    if (!makes_run(given ? marks_again : NULL, steps_again, again / 2 % 2 * 1000000)) return false;
  }
  return true;
}

/* MS LIMIT AGE SEEN MS: when a timer is told this, and when it is asked. */
static bool is_note(char *words, uint64_t *noted, hed_seen *seen, uint64_t *asked) {
  static const char *const ages[] = { "LAST", "FRONT", NULL }, *const kinds[] = { "FED", "TAKEN", "EMPTY", NULL };
  unsigned what;
  if (!is_number(word_of(&words), noted)) return false;
  seen->limit = (int32_t)strtol(word_of(&words), NULL, 10);
  int age = place_of(word_of(&words), ages);
  if (age < 0 || !is_set(word_of(&words), kinds, &what) || !is_number(word_of(&words), asked)) return false;
  seen->by = (uint8_t)age, seen->fed = what & 1, seen->taken = what & 2, seen->empty = what & 4;
  return !words;
}

/* NOTE | NOTE .. = LEFT | LEFT .. */
static bool tells_time_left(char *note, char *left) {
  hed_timer timer = HED_TIMER_NONE;
  while (note && left) {
    char *wanted = left, *words = note;
    uint64_t noted, asked;
    hed_seen seen;
    left = cut(wanted, " | "), note = cut(words, " | ");
    if (!is_note(words, &noted, &seen, &asked)) return false;
    EXPECT(hed_timer_note(&timer, noted, &seen) == HED_OK);
    tell_timeout(hed_timer_timeout(&timer, asked));
    is_told(wanted);
  }
  return !note && !left;
}

/* The event of a line, whose bytes are in `text`. */
static hed_event event;

/* Reads the bytes as one event, with no more to come. */
static bool reads_one_event(const struct bytes *from) {
  hed_event none;
  memset(&event, 0x55, sizeof event);
  EXPECT(hed_parser_feed(&parser, 0, from->at, from->len) == HED_OK);
  hed_parser_end(&parser);
  bool is_one = hed_parser_next(&parser, &event) == HED_OK;
  text.len = hed_parser_text(&parser, text.at, sizeof text.at);
  if (text.len > sizeof text.at) text.len = 0;
  return is_one && text.len == event.text_len && hed_parser_next(&parser, &none) == HED_NONE;
}

/* Tells a press by its name. If there is none, nothing was written. */
static void tell_press(const char *before, hed_status status, const hed_key_press *press) {
  static const hed_key_press unwritten = { 0x5555, 0x55, 0x55555555 };
  char name[64];
  size_t len = 0;
  if (status == HED_OK) EXPECT(hed_press_print(press, (uint8_t *)name, sizeof name, &len) == HED_OK && strlen(name) == len);
  else EXPECT(status == HED_NONE && same_press(press, &unwritten));
  if (status == HED_OK) tell("%s%s", before, name);
}

/* The presses of the event that was told last. The event with its text has the same. */
static void tell_presses(void) {
  hed_key_press presses[4];
  memset(presses, 0x55, sizeof presses);
  hed_status first = hed_parser_press(&parser, &event, &presses[0]), second = hed_parser_second(&parser, &event, &presses[1]);
  EXPECT(hed_event_press(&event, text.at, text.len, &presses[2]) == first && same_press(&presses[0], &presses[2]));
  EXPECT(hed_event_second(&event, &presses[3]) == second && same_press(&presses[1], &presses[3]));
  if (first == HED_NONE) tell("%snone", *told ? " " : "");
  tell_press(*told ? " " : "", first, &presses[0]);
  if (first == HED_OK) tell_press(" or ", second, &presses[1]);
}

/* READING "BYTES" = PRESS PRESS */
static bool makes_presses(char *given, char *presses) {
  if (!is_given(given)) return false;
  EXPECT(hed_parser_feed(&parser, 0, bytes.at, bytes.len) == HED_OK);
  hed_parser_end(&parser);
  while (hed_parser_next(&parser, &event) == HED_OK) {
    text.len = hed_parser_text(&parser, text.at, sizeof text.at);
    tell_presses();
  }
  is_told(presses);
  return true;
}

/* A call that writes bytes of what is given. */
typedef hed_status writes(uint8_t *out, size_t room, size_t *len);

/* With room for none of the bytes, for some and for all. What lies behind them is unchanged, but for a final 0 if the call writes one. */
static void writes_as_much(writes *call, const uint8_t *whole, size_t len, hed_status status, bool has_final) {
  static uint8_t out[BYTES_MOST + 8];
  for (size_t room = 0; room <= len + 2; room++) {
    size_t again = 77, written = room < len ? room : len;
    memset(out, 0x55, len + 8);
    EXPECT(call(room > 0 ? out : NULL, room, &again) == status && again == len && memcmp(out, whole, written) == 0);
    if (has_final && room > len) EXPECT(out[written++] == 0);
    EXPECT(is_marked(out + written, len + 8 - written));
  }
}

/* The call writes this text, or tells this status. */
static void is_written(writes *call, const char *wanted, bool has_final) {
  static uint8_t whole[BYTES_MOST];
  size_t len = 77;
  hed_status status = call(whole, sizeof whole, &len);
  EXPECT(len <= sizeof whole && (status == HED_OK || len == 0));
  if (len > sizeof whole) return;
  if (status == HED_OK) tell_text(whole, len);
  else tell("%s", name_of(status));
  is_told(wanted);
  writes_as_much(call, whole, len, status, has_final && status == HED_OK);
}

/* The chord of a line. */
static hed_key_press chord[HED_CHORD_MOST];
static size_t count;

static hed_status print_chord(uint8_t *out, size_t room, size_t *len) {
  return hed_key_print(chord, count, out, room, len);
}

static hed_status print_press(uint8_t *out, size_t room, size_t *len) {
  return hed_press_print(chord, out, room, len);
}

/* The text names the chord, with whatever room for its presses. */
static void names_the_chord(const struct bytes *name) {
  for (size_t room = 0; room <= HED_CHORD_MOST; room++) {
    hed_key_press read[HED_CHORD_MOST];
    size_t read_count = 77, at = 77, written = room < count ? room : count;
    memset(read, 0x55, sizeof read);
    EXPECT(hed_key_read(name->at, name->len, read, room, &read_count, &at) == HED_OK && read_count == count && at == 0);
    EXPECT(memcmp(read, chord, written * sizeof *read) == 0 && is_marked(read + written, (HED_CHORD_MOST - written) * sizeof *read));
  }
}

/* "TEXT" = "NAMES" or "TEXT" = STATUS PLACE, of a name that is read, and of one that is bound. */
static bool names_chord(char *given, char *names) {
  hed_bindings bindings = HED_BINDINGS_NONE;
  size_t at = 77, bound_at = 77;
  if (!is_text(given, &bytes) || (*names == '"' && !is_text(names, &text))) return false;
  memset(chord, 0x55, sizeof chord);
  hed_status status = hed_key_read(bytes.at, bytes.len, chord, HED_CHORD_MOST, &count, &at);
  EXPECT(hed_bindings_init(&bindings) == HED_OK);
  EXPECT(hed_bindings_bind_name(&bindings, bytes.at, bytes.len, 1, &bound_at) == status && bound_at == at);
  EXPECT(hed_bindings_len(&bindings) == (status == HED_OK));
  hed_bindings_free(&bindings);
  if (status != HED_OK) {
    EXPECT(count == 0 && is_marked(chord, sizeof chord));
    tell("%s %zu", name_of(status), at);
    is_told(names);
    return true;
  }
  is_written(print_chord, names, false);
  if (count == 1) is_written(print_press, names, true);
  names_the_chord(&bytes);
  names_the_chord(&text);
  return true;
}

/* Tells some presses, behind what was told so far. */
static void tell_chord(const char *before, const hed_key_press *keys, size_t count) {
  uint8_t name[128];
  size_t len;
  EXPECT(hed_key_print(keys, count, name, sizeof name, &len) == HED_OK);
  tell("%s%s%.*s", *told ? ", " : "", before, (int)len, name);
}

static void tell_outcome(const hed_outcome *outcome) {
  if (outcome->kind == HED_OUTCOME_UNBOUND) {
    EXPECT(outcome->keys == 1 && outcome->value == 0);
    tell_chord("?", &outcome->press, 1);
    return;
  }
  EXPECT(outcome->kind == HED_OUTCOME_BOUND && outcome->press.key == 0 && outcome->press.detail == 0);
  tell("%s%u", *told ? ", " : "", (unsigned)outcome->value);
}

/* How many bytes a matcher has of each press. */
enum { CODE_LEN = HED_CODES_MOST / HED_CHORD_MOST };

/* Tells all outcomes. What a call leaves unwritten stays. */
static void take_outcomes(hed_matcher *matcher, const hed_bindings *bindings, bool more) {
  for (;;) {
    hed_outcome outcome = { 77, 77, { 7, 7, 7 }, 77 }, first = outcome;
    hed_status paused = hed_matcher_on_pause(matcher, bindings, &first);
    hed_matcher before = *matcher;
    hed_status answer = hed_matcher_next(matcher, bindings, more, &outcome);
    if (answer == HED_NONE) {
      EXPECT(outcome.keys == 77 && outcome.value == 77 && outcome.press.key == 7 && outcome.kind == 77 && matcher->count < HED_CHORD_MOST);
      EXPECT(memcmp(&before, matcher, sizeof before) == 0 && (paused == HED_NONE) == (matcher->count == 0));
      return;
    }
    EXPECT(answer == HED_OK && paused == HED_OK && outcome.kind == first.kind && outcome.keys == first.keys && outcome.value == first.value
           && outcome.press.detail == first.press.detail);
    EXPECT(matcher->count == before.count - outcome.keys);
    EXPECT(memcmp(matcher->codes, before.codes + outcome.keys * CODE_LEN, matcher->count * CODE_LEN) == 0);
    tell_outcome(&outcome);
  }
}

/* Binds chords to 1, 2 and so on, by their names and by their presses. Without chords there is `nothing`. */
static void bind_all(hed_bindings *bindings, char *chords) {
  if (strcmp(chords, "nothing") == 0) return;
  for (uint64_t value = 1; chords; value++) {
    const char *name = chords;
    size_t wrong = 77;
    chords = cut(chords, ", ");
    if (value % 2) EXPECT(hed_bindings_bind_name(bindings, (const uint8_t *)name, strlen(name), value, &wrong) == HED_OK && wrong == 0);
    else EXPECT(hed_bindings_bind(bindings, chord, read_chord(name, strlen(name), chord), value) == HED_OK);
  }
}

/* Presses a key, or the second one behind `/` if that is bound. */
static void press_keys(hed_matcher *matcher, const hed_bindings *bindings, const char *word) {
  hed_key_press either[2];
  const char *second = word + strcspn(word, "/");
  either[0] = read_press(word, (size_t)(second - word));
  if (!*second++) {
    EXPECT(hed_matcher_press(matcher, either) == HED_OK);
    return;
  }
  either[1] = read_press(second, strlen(second));
  EXPECT(hed_matcher_press_either(matcher, bindings, either, 2) == HED_OK);
}

/* CHORD, CHORD ..: WORD WORD .. = OUTCOME, OUTCOME .. | PENDING */
static bool runs_commands(char *given, char *outcomes) {
  hed_bindings bindings = HED_BINDINGS_NONE;
  hed_matcher matcher = HED_MATCHER_NONE;
  uint64_t value = 77;
  char *words = cut(given, ": "), *pending = cut(outcomes, " | ");
  if (!words || !pending) return false;
  bool is_cancelled = strstr(words, "CANCEL") != NULL;
  EXPECT(hed_bindings_init(&bindings) == HED_OK && hed_bindings_len(&bindings) == 0);
  bind_all(&bindings, given);
  while (words) {
    const char *word = word_of(&words);
    bool is_pause = strcmp(word, "PAUSE") == 0;
    if (strcmp(word, "CANCEL") == 0) {
      EXPECT(hed_matcher_is_dead_end(&matcher, &bindings));
      tell_chord("cancelled ", chord, hed_matcher_cancel(&matcher, chord, HED_CHORD_MOST));
    } else if (strcmp(word, "UNBIND") == 0) {
      EXPECT(hed_bindings_unbind(&bindings, chord, read_chord(given, strlen(given), chord), &value) == HED_OK && value == 1);
    } else if (!is_pause) {
      press_keys(&matcher, &bindings, word);
    }
    if (!is_cancelled) take_outcomes(&matcher, &bindings, !is_pause);
  }
  is_told(outcomes);
  count = hed_matcher_pending(&matcher, chord, HED_CHORD_MOST);
  if (count) tell_chord("", chord, count);
  is_told(pending);
  hed_bindings_free(&bindings);
  hed_bindings_free(&bindings);
  EXPECT(!bindings.live && !bindings.state);
  return true;
}

static uint64_t flags;

static hed_status write_kitty(uint8_t *out, size_t room, size_t *len) {
  return hed_encode_kitty(&event, text.len > 0 ? text.at : NULL, text.len, (uint8_t)flags, out, room, len);
}

/* FLAGS "EVENT" "TEXT" = "BYTES" or STATUS */
static bool reports_key(char *given, char *wanted) {
  reading = (hed_reading){ .x10_mouse = true };
  if (!is_number(word_of(&given), &flags) || flags > UINT8_MAX || !is_text(word_of(&given), &bytes)) return false;
  make_parser();
  EXPECT(reads_one_event(&bytes));
  if (given && !is_text(given, &text)) return false;
  is_written(write_kitty, wanted, false);
  return true;
}

/* What is given to the port's encoder. */
static uint16_t key;
static uint32_t detail;
static unsigned modifiers;
static hed_modes modes;
static bool is_down;

static hed_status encode(uint8_t *out, size_t room, size_t *len) {
  return hed_encode(key, detail, (uint16_t)modifiers, is_down, &modes, out, room, len);
}

static bool is_mode(const char *word) {
  static const char *const names[] = { "plain", "cursor", "newline", "csi-u", "win32", NULL };
  int len = 0;
  switch (place_of(word, names)) {
    case 0: return true;
    case 1: return modes.application_cursor_keys = true;
    case 2: return modes.newline_mode = true;
    case 3: modes.encoding = HED_ENCODING_CSI_U; return true;
    case 4: modes.encoding = HED_ENCODING_WIN32; return true;
    default: break;
  }
  if (sscanf(word, "level%" SCNd64 "%n", &modes.modify_other_keys, &len) == 1) modes.has_modify_other_keys = true;
  else if (sscanf(word, "kitty%" SCNu8 "%n", &modes.kitty_flags, &len) == 1) modes.encoding = HED_ENCODING_KITTY;
  return len > 0 && !word[len];
}

static bool are_modes(char *words) {
  modes = (hed_modes){ 0 };
  while (words) {
    char *mode = words;
    words = cut(mode, "+");
    if (!is_mode(mode)) return false;
  }
  return true;
}

/* KEY MODIFIERS MODES = "BYTES" or STATUS. A key that is up sends nothing. */
static bool encodes_key(char *given, char *wanted) {
  static const char *const mods[] = { "",       "SHIFT",     "ALT",        "CTRL",       "SUPER",       "LEFT_ALT", "RIGHT_ALT",
                                      "LEADER", "LEFT_CTRL", "RIGHT_CTRL", "LEFT_SHIFT", "RIGHT_SHIFT", NULL };
  if (!is_key(word_of(&given), &key, &detail) || !is_set(word_of(&given), mods, &modifiers) || !given || !are_modes(given)) return false;
  is_down = true;
  is_written(encode, wanted, false);
  is_down = false;
  is_written(encode, "\"\"", false);
  return true;
}

static size_t name_at;

static hed_status send_names(uint8_t *out, size_t room, size_t *len) {
  name_at = 77;
  return hed_send_names(bytes.at, bytes.len, &modes, out, room, len, &name_at);
}

/* MODES "TEXT" = "BYTES" or STATUS PLACE */
static bool sends_names(char *given, char *wanted) {
  char *text = cut(given, " "), *place = *wanted == '"' ? NULL : cut(wanted, " ");
  if (!text || !are_modes(given) || !is_text(text, &bytes)) return false;
  is_written(send_names, wanted, false);
  tell("%zu", name_at);
  is_told(place ? place : "0");
  return true;
}

static hed_status write_event(uint8_t *out, size_t room, size_t *len) {
  return hed_encode_event(&event, text.len > 0 ? text.at : NULL, text.len, &parser, out, room, len);
}

/* Whether bytes may begin a sequence: those of Escape, and of Alt with a few keys. */
static bool may_go_on(const struct bytes *it) {
  return it->len > 0 && it->len <= 2 && it->at[0] == '\033' && (it->len == 1 || (it->at[1] && strchr("\033[OP]_", it->at[1])));
}

/* Reads what was written as that event, with more to come or not. */
static void reads_back(const struct bytes *written, bool more) {
  static struct bytes brought;
  hed_event sent = event, none;
  brought = text;
  EXPECT(hed_parser_set_reading(&parser, &reading) == HED_OK && hed_parser_feed(&parser, 0, written->at, written->len) == HED_OK);
  if (!more) hed_parser_end(&parser);
  EXPECT(hed_parser_next(&parser, &event) == HED_OK && same_event(&event, &sent) && hed_parser_waiting_len(&parser) == 0);
  EXPECT(hed_parser_text(&parser, text.at, sizeof text.at) == brought.len && memcmp(text.at, brought.at, brought.len) == 0);
  EXPECT(hed_parser_next(&parser, &none) == HED_NONE);
}

/* READING "BYTES" = "WRITTEN" or STATUS, whatever is buffered, which stays. What is written is read as the event, with more to come too unless
 * it may go on. */
static bool writes_event(char *given, char *wanted) {
  static struct bytes written;
  bool is_status = *wanted != '"';
  if (!is_given(given) || (!is_status && !is_text(wanted, &written))) return false;
  EXPECT(reads_one_event(&bytes) && hed_parser_set_reading(&parser, &reading) == HED_OK);
  FEED(&parser, "\033[1;");
  is_written(write_event, wanted, false);
  EXPECT(hed_parser_reset(&parser) == 4);
  if (is_status) return true;
  if (!may_go_on(&written)) reads_back(&written, true);
  reads_back(&written, false);
  return true;
}

static bool is_bracketed;

static hed_status write_paste(uint8_t *out, size_t room, size_t *len) {
  return hed_encode_paste(bytes.len > 0 ? bytes.at : NULL, bytes.len, is_bracketed, out, room, len);
}

/* Reads what the call writes, and tells the events. */
static void reads_written(writes *call, const char *wanted) {
  static uint8_t out[BYTES_MOST];
  size_t len = 0;
  EXPECT(call(out, sizeof out, &len) == HED_OK && hed_parser_feed(&parser, 0, out, len) == HED_OK);
  tells(&parser);
  is_told(wanted);
}

/* "TEXT" = "SAFE". In brackets it is read as one paste in both dialects. */
static bool writes_paste(char *given, char *safe) {
  static char wanted[LINE_MOST + 32];
  if (!is_text(given, &bytes) || !is_text(safe, &text)) return false;
  is_bracketed = false;
  is_written(write_paste, safe, false);
  is_bracketed = true;
  snprintf(wanted, sizeof wanted, "\"\\e[200~%.*s\\e[201~\"", (int)strlen(safe) - 2, safe + 1);
  is_written(write_paste, wanted, false);
  snprintf(wanted, sizeof wanted, "paste %s", safe);
  for (int way = 0; way < 4; way++) {
    reading = (hed_reading){ .dialect = way % 2 };
    make_parser();
    tells = way < 2 ? tell_events : tell_arrays;
    reads_written(write_paste, wanted);
  }
  return true;
}

static hed_status copy_lines(uint8_t *out, size_t room, size_t *len) {
  *len = hed_paste_lines(bytes.len > 0 ? bytes.at : NULL, bytes.len, out, room);
  return HED_OK;
}

/* "TEXT" = "LINES" */
static bool copies_lines(char *given, char *lines) {
  if (!is_text(given, &bytes)) return false;
  is_written(copy_lines, lines, false);
  return true;
}

/* What is given to the encoder of mouse reports. */
static hed_sent_mouse report;
static int tracking, encoding;

static hed_status write_mouse(uint8_t *out, size_t room, size_t *len) {
  return hed_encode_mouse(&report, (uint32_t)tracking, (uint32_t)encoding, out, room, len);
}

/* What happened to the mouse, as NONE or BUTTON1_PRESS. */
static bool is_button(const char *word) {
  static const char *const kinds[] = { "PRESS", "RELEASE", "DRAG", NULL };
  char kind[8] = "";
  unsigned number = 0;
  report.button = HED_MOUSE_NONE;
  if (strcmp(word, "NONE") == 0) return true;
  if (sscanf(word, "BUTTON%1u_%7s", &number, kind) != 2 || number < 1 || number > 7 || place_of(kind, kinds) < 0) return false;
  report.button = (uint8_t)(7 * (unsigned)place_of(kind, kinds) + number);
  return true;
}

/* TRACKING ENCODING BUTTON X Y MODIFIERS */
static bool is_report(char *words) {
  static const char *const trackings[] = { "X10", "NORMAL", "BUTTON", "ANY", NULL };
  static const char *const encodings[] = { "DEFAULT", "URXVT", "SGR", NULL };
  uint64_t x, y;
  tracking = place_of(word_of(&words), trackings), encoding = place_of(word_of(&words), encodings);
  if (tracking < 0 || encoding < 0 || !is_button(word_of(&words))) return false;
  if (!is_number(word_of(&words), &x) || !is_number(word_of(&words), &y) || x > UINT16_MAX || y > UINT16_MAX) return false;
  if (!is_set(word_of(&words), kitty_mods, &modifiers) || words) return false;
  report.x = (uint16_t)x, report.y = (uint16_t)y, report.modifiers = (uint8_t)modifiers;
  return true;
}

/* TRACKING ENCODING BUTTON X Y MODIFIERS = "BYTES" = EVENTS or STATUS */
static bool sends_report(char *given, char *wanted) {
  char *events = cut(wanted, " = ");
  reading = (hed_reading){ .x10_mouse = true };
  if (!is_report(given) || (*wanted == '"') != (events != NULL)) return false;
  make_parser();
  is_written(write_mouse, wanted, false);
  for (int way = 0; events && way < 2; way++) {
    tells = way ? tell_arrays : tell_events;
    reads_written(write_mouse, events);
  }
  return true;
}

/* A reply, its numbers and its bytes. */
static hed_reply reply;
static uint32_t numbers[BYTES_MOST];

/* A field of the reply with the kind that has it, and the names of its values. One without these is a character, or 0. */
static void tell_field(const char *name, uint32_t value, uint8_t kind, const char *names) {
  char number[16], letter[] = { (char)value, 0 };
  snprintf(number, sizeof number, " %u ", (unsigned)value);
  const char *named = names ? strstr(names, number) : NULL;
  if (kind != reply.kind) EXPECT(value == 0);
  else if (named) named += strlen(number), tell("%s%.*s", name, (int)strcspn(named, " "), named);
  else if (names) tell("%s%u", name, (unsigned)value);
  else tell("%s%s", name, letter);
}

static void tell_reply(const uint8_t *brought) {
  /* hedrugal.h: c replies */
  tell_field("", reply.kind, reply.kind, " 1 device_attributes 2 mode 3 colour 4 version 5 window_size 6 colour_scheme 7 clipboard ");
  tell_field(" report=", reply.report, HED_REPLY_DEVICE_ATTRIBUTES, " 1 primary 2 secondary 3 tertiary ");
  tell_field(" state=", reply.state, HED_REPLY_MODE, " 0 not_recognized 1 set 2 reset 3 permanently_set 4 permanently_reset ");
  tell_field(" is_private=", reply.is_private, HED_REPLY_MODE, " ");
  tell_field(" name=", reply.name, HED_REPLY_COLOUR, " 4 palette 10 foreground 11 background 12 cursor ");
  tell_field(" scheme=", reply.scheme, HED_REPLY_COLOUR_SCHEME, " 1 dark 2 light ");
  tell_field(" selection=", reply.selection, HED_REPLY_CLIPBOARD, NULL);
  tell_field(" index=", reply.index, HED_REPLY_COLOUR, " ");
  tell_field(" red=", reply.red, HED_REPLY_COLOUR, " ");
  tell_field(" green=", reply.green, HED_REPLY_COLOUR, " ");
  tell_field(" blue=", reply.blue, HED_REPLY_COLOUR, " ");
  tell_field(" rows=", reply.rows, HED_REPLY_WINDOW_SIZE, " ");
  tell_field(" columns=", reply.columns, HED_REPLY_WINDOW_SIZE, " ");
  tell_field(" mode=", reply.mode, HED_REPLY_MODE, " ");
  /* hedrugal.h: end */
  bool has_numbers = reply.kind == HED_REPLY_DEVICE_ATTRIBUTES;
  for (size_t i = 0; has_numbers && i < reply.len; i++) tell(" %u", (unsigned)numbers[i]);
  if (!has_numbers && reply.len > 0) tell(" "), tell_text(brought, reply.len);
}

/* Whether all fields are the same. What lies between them has no meaning. */
static bool same_reply(const hed_reply *one, const hed_reply *other) {
  size_t end = offsetof(hed_reply, selection) + 1, from = offsetof(hed_reply, index);
  return memcmp(one, other, end) == 0 && memcmp(&one->index, &other->index, sizeof *one - from) == 0;
}

/* The reply of the event with room for so many numbers and bytes: no more than these is written, and nothing if it is no reply. */
static void reads_as_much(size_t room, hed_status status, const uint8_t *brought) {
  static uint32_t few[BYTES_MOST + 8];
  static uint8_t out[BYTES_MOST + 8];
  hed_reply again;
  size_t has_numbers = status == HED_OK && reply.kind == HED_REPLY_DEVICE_ATTRIBUTES ? reply.len : 0;
  size_t has_bytes = status == HED_OK ? reply.len - has_numbers : 0, end = text.len + 8;
  if (has_numbers > room) has_numbers = room;
  if (has_bytes > room) has_bytes = room;
  memset(few, 0x55, end * sizeof *few);
  memset(out, 0x55, end);
  memset(&again, 0x55, sizeof again);
  EXPECT(hed_read_reply(event.kind, text.at, text.len, &again, room ? few : NULL, room, room ? out : NULL, room) == status);
  EXPECT(status == HED_OK ? same_reply(&again, &reply) : is_marked(&again, sizeof again));
  EXPECT(memcmp(few, numbers, has_numbers * sizeof *few) == 0 && is_marked(few + has_numbers, (end - has_numbers) * sizeof *few));
  EXPECT(memcmp(out, brought, has_bytes) == 0 && is_marked(out + has_bytes, end - has_bytes));
}

/* "BYTES" = REPLY, of the only event of the bytes. */
static bool reads_reply(char *given, char *wanted) {
  static uint8_t brought[BYTES_MOST];
  reading = (hed_reading){ 0 };
  if (!is_text(given, &bytes)) return false;
  make_parser();
  EXPECT(reads_one_event(&bytes));
  hed_status status = hed_read_reply(event.kind, text.at, text.len, &reply, numbers, BYTES_MOST, brought, sizeof brought);
  if (status == HED_OK) tell_reply(brought);
  else tell(status == HED_NONE ? "none" : "no answer");
  is_told(wanted);
  for (size_t room = 0; room < text.len + 2; room++) reads_as_much(room, status, brought);
  return true;
}

/* The files, and what runs a line of each: what is given, and what is told of it. */
static const struct {
  const char *name;
  bool (*runs)(char *given, char *wanted);
} forms[] = {
  { "events.txt", reads_events },    { "runs.txt", makes_runs },          { "presses.txt", makes_presses },
  { "names.txt", names_chord },      { "bindings.txt", runs_commands },   { "kitty.txt", reports_key },
  { "encodings.txt", encodes_key },  { "written.txt", writes_event },     { "pastes.txt", writes_paste },
  { "mouse.txt", sends_report },     { "replies.txt", reads_reply },      { "timers.txt", tells_time_left },
  { "sent_names.txt", sends_names }, { "paste_lines.txt", copies_lines },
};

enum { FORMS = sizeof forms / sizeof *forms };

/* Runs a line that is a case of this form. */
static bool run_case(size_t form, char *line) {
  char *wanted = cut(line, " = ");
  bool is_case = wanted && forms[form].runs(line, wanted);
  forget();
  return is_case;
}

/* Prints what is wrong with a file, or with a line of it. */
static void fault(const char *path, unsigned number, const char *what) {
  if (number > 0) fprintf(stderr, "%s:%u: %s\n", path, number, what);
  else fprintf(stderr, "%s: %s\n", path, what);
  faults++;
}

/* Runs the cases of a file of this form, and returns how many there are. */
static unsigned run_cases(const char *path, FILE *file, size_t form) {
  static char line[LINE_MOST], copy[LINE_MOST];
  unsigned number = 0, cases = 0;
  while (fgets(line, sizeof line, file)) {
    size_t len = strcspn(line, "\n");
    bool is_whole = line[len] == '\n';
    number++, faults_before = faults;
    line[len] = '\0';
    if (*line == '#') continue;
    strcpy(copy, line);
    if (!is_whole || !run_case(form, copy)) fault(path, number, "no form of a case");
    if (faults > faults_before) fault(path, number, line);
    cases++, tests++;
  }
  return cases;
}

/* Runs a file, by its name. Returns the place of its form. */
static size_t run_file(const char *path) {
  const char *slash = strrchr(path, '/'), *name = slash ? slash + 1 : path;
  FILE *file = fopen(path, "r");
  size_t form = 0;
  while (form < FORMS && strcmp(name, forms[form].name) != 0) form++;
  if (!file) fault(path, 0, "it can't be opened");
  else if (form == FORMS) fault(path, 0, "no file of cases has this name");
  else if (run_cases(path, file, form) == 0) fault(path, 0, "it has no case");
  if (file) fclose(file);
  return form;
}

/* Runs the files of a folder that end in .txt, and each file of cases that isn't there, which fails. */
static void run_folder(const char *path, DIR *folder) {
  bool is_run[FORMS + 1] = { false };
  char file[4096];
  struct dirent *entry;
  while ((entry = readdir(folder))) {
    const char *end = strrchr(entry->d_name, '.');
    snprintf(file, sizeof file, "%s/%s", path, entry->d_name);
    if (end && strcmp(end, ".txt") == 0) is_run[run_file(file)] = true;
  }
  for (size_t form = 0; form < FORMS; form++) {
    snprintf(file, sizeof file, "%s/%s", path, forms[form].name);
    if (!is_run[form]) run_file(file);
  }
}

int main(int argc, char **argv) {
  if (argc < 2) {
    fputs("usage: test_cases FOLDER|FILE..\n", stderr);
    return 2;
  }
  for (int i = 1; i < argc; i++) {
    DIR *folder = opendir(argv[i]);
    if (folder) run_folder(argv[i], folder), closedir(folder);
    else run_file(argv[i]);
  }
  hed_parser_free(&parser);
  hed_parser_free(&base);
  return expected("test_cases");
}
