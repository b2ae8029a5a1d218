/* hedrugal-keys: shows the keys that a terminal sends, byte by byte, and which it can't tell apart. docs/keys.md is its page.
 *
 * It has no grammar of its own: the library says which bytes an event consumed, and why others are buffered. ^C, ^Z and ^\ are keys like
 * any other (ISIG is off). The terminal is restored whenever the program ends or stops, as in c/live.c. */
#define _POSIX_C_SOURCE 200809L
#include "bindings.h"
#include "hedrugal_terminal.h"
#include "json.h"
#include "opening.h"
#include "options.h"
#include "output.h"
#include "recording.h"
#include "screen.h"
#include "twins.h"
#include "waiting.h"
#include <errno.h>
#include <fcntl.h>
#include <poll.h>
#include <signal.h>
#include <stdio.h>
#include <stdlib.h>
#include <string.h>
#include <termios.h>
#include <time.h>
#include <unistd.h>

enum { READ_SIZE = 4096 };

typedef struct keys {
  options options;
  hed_terminal terminal;
  opening opening;
  bool modes[MODE_COUNT]; /* which are switched on */
  twins twins; /* the keys that the terminal can't tell apart, none before it was asked */
  bool is_told, is_answer_told; /* whether it is told what the terminal is, and whether by its answer */
  screen screen;
  line line;
  hed_parser parser;
  bindings bindings;
  recording recording; /* that is written or replayed */
  const recorded_read *next_read; /* that is replayed */
  uint64_t now; /* when the input was looked at last, by the clock or by the recording */
  uint64_t due; /* when something that waits is decided if nothing comes */
  uint64_t late; /* for how long the recording's clock stood still */
  int input;
  bool is_live; /* whether the input is a terminal, where pauses count */
  bool shows_pauses; /* whether what waits is seen before it is decided: on a terminal, and in a replay that takes its time */
  bool was_end; /* whether the last event was ^D */
  bool is_over; /* whether ^D came twice, or a signal ends the program */
  bool has_key; /* whether the one key came that is asked for */
  const char *failure; /* why the program ends, if nobody asked for it */
  int error; /* the system's number for that, 0 if it has none */
  bool is_refused; /* whether a file of bindings or a recording is */
} keys;

static const char no_memory[] = "out of memory";

/* Returns false, as each function here does once the program has to end. */
static bool fail(keys *it, const char *failure, int error) {
  it->failure = failure;
  it->error = error;
  return false;
}

static bool flush_output(keys *it) {
  return output_flush() || fail(it, "the output can't be written", errno);
}

/* Whether a key is a modifier key or was not pressed, so that it may come between two presses of ^D. */
static bool is_no_press(const hed_event *event) {
  bool is_modifier = event->key >= HED_KEY_SHIFT && event->key <= HED_KEY_RIGHT_ALT && event->key != HED_KEY_ESCAPE;
  return is_modifier || event->key_event_kind != HED_KEY_EVENT_KIND_PRESS;
}

static void note_end(keys *it, const hed_event *event) {
  unsigned held = event->modifiers & ~(unsigned)(HED_KITTY_MOD_CAPS_LOCK | HED_KITTY_MOD_NUM_LOCK);
  if (event->kind == HED_KIND_KEY && is_no_press(event)) return;
  bool is_end = event->kind == HED_KIND_KEY && event->key == HED_KEY_CHAR && event->detail == 'd' && held == HED_KITTY_MOD_CTRL;
  if (is_end && it->was_end && it->is_live) it->is_over = true;
  it->was_end = is_end;
}

/* Adds what the pending presses did to the line, as far as it is decided. */
static bool decide(keys *it, bool more) {
  outcome decided;
  hed_status next;
  while ((next = bindings_next(&it->bindings, more, it->now, &decided)) == HED_OK)
    if (!line_decide(&it->line, &decided)) return fail(it, no_memory, 0);
  return next == HED_NONE || fail(it, no_memory, 0);
}

/* Gives up waiting for keys that may follow. */
static bool give_up(keys *it) {
  size_t first = it->line.outcome_count;
  if (!bindings_is_pending(&it->bindings)) return true;
  if (!decide(it, false)) return false;
  if (it->options.is_json) json_pause(&it->line, first);
  return true;
}

/* Whether an event without a press brings a text, which comes behind what is pending: a paste, or several characters that a key types. Such a key
 * has a press with one character. */
static bool is_text(const hed_event *event) {
  hed_key_press press;
  if (event->text_len == 0) return false;
  if (event->kind == HED_KIND_KEY) return hed_event_press(event, HED_TEXT("a"), &press) == HED_OK;
  return event->kind == HED_KIND_PASTE || event->kind == HED_KIND_PASTE_PART;
}

/* Names an event's presses, and reads them by the bindings. */
static bool handle_presses(keys *it, const hed_event *event, group *of) {
  hed_key_press presses[PRESSES_MOST];
  size_t length;
  if (hed_parser_press(&it->parser, event, &presses[0]) != HED_OK) return decide(it, !is_text(event));
  of->press = presses[0];
  of->press_count = hed_parser_second(&it->parser, event, &presses[1]) == HED_OK ? 2 : 1;
  for (size_t i = 0; i < of->press_count; i++)
    if (hed_press_print(&presses[i], (uint8_t *)of->presses[i], PRESS_SIZE, &length) != HED_OK) return fail(it, no_memory, 0);
  bindings_press(&it->bindings, presses, of->press_count);
  return decide(it, true);
}

/* Ends with the first key. Returns whether none came yet. */
static bool handle_only(keys *it, const group *of) {
  it->has_key = it->is_over = of->press_count > 0;
  if (it->has_key && !it->options.is_json) fprintf(output, "%s\n", of->presses[0]);
  return !it->has_key;
}

static bool is_written_as_json(const keys *it, const group *of) {
  return it->options.is_json && (!it->options.is_once || of->press_count > 0);
}

/* Tells the event of a group. Termwiz doesn't tell what happened to a key or to the mouse. */
static bool handle_group(keys *it, const hed_event *event, group *of) {
  if (!it->options.is_extended) of->event.key_event_kind = of->event.mouse_kind = of->event.button = 0;
  hed_parser_text(&it->parser, of->text, sizeof of->text);
  if (!handle_presses(it, event, of)) return false;
  if (is_written_as_json(it, of) && !json_event(&it->line, of, &it->parser, &it->bindings)) return fail(it, no_memory, 0);
  note_end(it, event);
  return !it->options.is_once || handle_only(it, of);
}

/* Adds the event's group to the line. */
static bool handle_event(keys *it, const hed_event *event) {
  bool is_reply = opening_take(&it->opening, &it->parser, it->now, event);
  group *added = line_settle(&it->line, event, hed_parser_waiting_len(&it->parser));
  if (!added) return fail(it, no_memory, 0);
  added->is_reply = is_reply;
  bool goes_on = is_reply || handle_group(it, event, added);
  hed_parser_drop_text(&it->parser);
  return goes_on;
}

static bool handle_events(keys *it) {
  hed_event event;
  hed_status next;
  while ((next = hed_parser_next(&it->parser, &event)) == HED_OK)
    if (!handle_event(it, &event)) return false;
  return next == HED_NONE || fail(it, no_memory, 0);
}

static void join_modes(const keys *it, text *enter, text *leave) {
  for (size_t i = 0; i < MODE_COUNT; i++) {
    size_t back = MODE_COUNT - 1 - i;
    if (it->modes[i]) text_add(enter, "%s", all_modes[i].on);
    if (it->modes[back]) text_add(leave, "%s", all_modes[back].off);
  }
}

/* Writes to the terminal, whatever the standard output is. A replay has none. */
static void say(const keys *it, const char *lines) {
  if (it->is_live) dprintf(it->terminal.output, "%s", lines);
  else if (!it->options.is_json) fputs(lines, output);
}

/* Says a line of words. Where a row has no room for the next word, it begins a row. */
static void say_words(const keys *it, const char *words) {
  text rows = { .length = 0 };
  for (size_t column = 0, length; *words; words += length + (words[length] == ' ')) {
    length = strcspn(words, " ");
    bool is_broken = column > 0 && it->screen.width > 0 && column + length + 1 >= it->screen.width;
    const char *before = is_broken ? "\n  " : column > 0 ? " " : "";
    text_add(&rows, "%s%.*s", before, (int)length, words);
    column = is_broken ? length + 2 : column + strlen(before) + length;
  }
  say(it, rows.bytes);
}

static bool find_twins(keys *it) {
  protocol by = opening_protocol(&it->opening, it->modes);
  return twins_find(&it->twins, &by) || fail(it, no_memory, 0);
}

/* The list is the program's output. */
static bool list_twins(keys *it) {
  for (const everyday *key = it->twins.keys; key < it->twins.keys + it->twins.count; key++) {
    text row = { .length = 0 };
    if (is_same_press(&key->pressed, &key->twin)) continue;
    if (!twins_add_line(&row, &it->twins, key)) return fail(it, no_memory, 0);
    fputs(row.bytes, output);
  }
  it->is_over = true;
  return false;
}

static bool warn_of_bindings(keys *it) {
  for (size_t place = 0; place < bindings_count(&it->bindings); place++) {
    text row = { .length = 0 };
    if (!bindings_add_warning(&row, &it->bindings, place, it->options.bindings, &it->twins)) return fail(it, no_memory, 0);
    say_words(it, row.bytes);
  }
  return true;
}

/* Switches on what the terminal has. */
static bool switch_modes(keys *it) {
  text enter = { .length = 0 }, leave = { .length = 0 };
  bool before[MODE_COUNT];
  memcpy(before, it->modes, sizeof before);
  opening_choose(&it->opening, &it->options, it->modes);
  join_modes(it, &enter, &leave);
  if (!it->is_live || memcmp(before, it->modes, sizeof before) == 0) return true;
  return hed_terminal_switch(&it->terminal, enter.bytes, leave.bytes) || fail(it, it->terminal.failure, errno);
}

/* Switches on what the terminal has, and says what it is. What was shown before stays above. */
static bool tell_opening(keys *it) {
  text lines = { .length = 0 };
  if (it->is_told) screen_keep(&it->screen);
  it->is_told = true;
  it->is_answer_told = it->opening.is_answered;
  if (!switch_modes(it) || !find_twins(it)) return false;
  if (it->options.lists_twins) return list_twins(it);
  opening_add_lines(&lines, &it->opening, it->modes, &it->twins);
  opening_add_missing(&lines, &it->opening, &it->options);
  say(it, lines.bytes);
  return warn_of_bindings(it);
}

/* Whether the program says what its terminal is. A replay has the replies of the recording. */
static bool has_opening(const keys *it) {
  bool has_terminal = it->is_live || (it->options.replay && it->recording.is_own);
  return has_terminal && !it->options.is_once && (!it->options.is_plain || it->options.lists_twins);
}

/* Says what the terminal is once it has answered, or has had its time. An answer that comes later is told too. */
static bool keep_opening(keys *it) {
  bool is_due = !it->is_told && opening_left(&it->opening, it->now) < 0;
  bool is_late = it->opening.is_answered && !it->is_answer_told;
  return !has_opening(it) || !(is_due || is_late) || tell_opening(it);
}

static void draw(keys *it, const reasons *why) {
  if (it->options.is_json || it->options.is_once || it->options.lists_twins) return;
  twins *keys = it->is_told ? &it->twins : NULL;
  if (!screen_draw(&it->screen, &it->line, &it->bindings, why, keys)) fail(it, no_memory, 0);
}

/* Draws the line with one reason for what is buffered and what is pending. */
static void draw_undecided(keys *it, const text *reason) {
  draw(it, &(reasons){ .bytes = *reason, .presses = *reason });
}

/* Whether bytes are buffered or presses pending. */
static bool is_undecided(const keys *it) {
  return hed_parser_waiting_len(&it->parser) > 0 || bindings_is_pending(&it->bindings);
}

/* Shows the line with what is undecided. Without pauses the next read decides that. */
static void show(keys *it) {
  reasons why = { .lists_keys = true };
  if (!it->shows_pauses) {
    draw(it, NULL);
    return;
  }
  add_waiting(&why.bytes, &it->parser, &it->line);
  add_waiting_for(&why.bytes, &it->parser, it->now);
  add_pending(&why.presses);
  draw(it, &why);
}

static void look_at_clock(keys *it) {
  if (!it->options.replay) it->now = hed_terminal_now();
}

static bool handle_bytes(keys *it, const uint8_t *bytes, size_t length) {
  look_at_clock(it);
  screen_next(&it->screen);
  if (!line_begin(&it->line, bytes, length) || hed_parser_feed(&it->parser, it->now, bytes, length)) return fail(it, no_memory, 0);
  bool goes_on = handle_events(it) && keep_opening(it);
  show(it);
  return goes_on && !it->is_over;
}

/* Another program may have set the descriptor so that it doesn't block. */
static bool wait_for_input(const keys *it) {
  struct pollfd input = { .fd = it->input, .events = POLLIN };
  return it->is_live || poll(&input, 1, -1) >= 0 || errno == EINTR;
}

static bool fail_recording(keys *it) {
  it->is_refused = true;
  return fail(it, it->recording.failure.bytes, 0);
}

/* If bytes come before the program saw that others are due, they decide these. By the recording they came just in time: its clock stood still. */
static bool record(keys *it, const uint8_t *bytes, size_t length) {
  uint64_t now = hed_terminal_now();
  if (!it->options.record) return true;
  if (now >= it->due) it->late += now - it->due + 1;
  return recording_write(&it->recording, now - it->late, bytes, length) || fail_recording(it);
}

/* Returns false at the end of the input too. What comes behind the one key that is asked for is left to the next program. */
static bool handle_input(keys *it) {
  uint8_t bytes[READ_SIZE];
  ssize_t count = read(it->input, bytes, it->options.is_once ? 1 : sizeof bytes);
  bool is_empty = count < 0 && (errno == EAGAIN || errno == EWOULDBLOCK);
  if (count < 0) return errno == EINTR || (is_empty && wait_for_input(it)) || fail(it, "the input can't be read", errno);
  return count > 0 && record(it, bytes, (size_t)count) && handle_bytes(it, bytes, (size_t)count);
}

/* The shorter of two times, of which a negative one is for ever. */
static int32_t sooner(int32_t one, int32_t other) {
  return one < 0 || (other >= 0 && other < one) ? other : one;
}

/* How long nothing has to come until something is decided: -1 if a pause decides nothing. */
static int32_t timeout(keys *it) {
  look_at_clock(it);
  int32_t left = sooner(hed_parser_timeout(&it->parser, it->now), bindings_timeout(&it->bindings, it->now));
  return sooner(left, opening_left(&it->opening, it->now));
}

/* A look after the clock: bytes that are there may complete what is due. */
static bool has_input(const keys *it) {
  struct pollfd input = { .fd = it->input, .events = POLLIN };
  return poll(&input, 1, 0) != 0;
}

/* Nothing came while what is buffered or pending waited as long as it may. */
static bool decide_due(keys *it) {
  hed_parser_idle(&it->parser, it->now);
  hed_questions_expire(&it->opening.questions, &it->parser, it->now);
  if (!handle_events(it) || (bindings_timeout(&it->bindings, it->now) == 0 && !give_up(it))) return false;
  show(it);
  return true;
}

/* A signal may end the wait before. */
static bool handle_pause(keys *it) {
  return timeout(it) != 0 || has_input(it) || decide_due(it);
}

/* Flushes what is buffered once nothing more can come, and gives up what is pending. An open paste stays. */
static bool handle_end(keys *it) {
  text reason = { .length = 0 };
  if (!is_undecided(it)) return true;
  hed_parser_flush(&it->parser);
  if (!handle_events(it) || !give_up(it)) return false;
  add_waiting(&reason, &it->parser, &it->line);
  text_add(&reason, ": its end never came");
  draw_undecided(it, &reason);
  return true;
}

static void take_size(keys *it) {
  hed_size size = { .columns = 0 };
  hed_terminal_size(1, &size);
  screen_resize(&it->screen, size.columns, size.rows);
}

/* Forgets what is undecided, but for what is open: its rest may still come. */
static void forget_waiting(keys *it) {
  reasons why = { .lists_keys = false };
  bool was_undecided = is_undecided(it);
  it->now = hed_terminal_now();
  hed_parser_interrupted(&it->parser, it->now);
  hed_questions_forget(&it->opening.questions, &it->parser);
  bool stays = hed_parser_waiting_len(&it->parser) > 0;
  text_add(&why.presses, "forgotten, since another program had the terminal");
  if (stays) {
    add_waiting(&why.bytes, &it->parser, &it->line);
    add_waiting_for(&why.bytes, &it->parser, it->now);
  } else {
    why.bytes = why.presses;
  }
  if (was_undecided) draw(it, &why);
  if (!stays) screen_keep(&it->screen);
  if (!stays) line_forget(&it->line);
  bindings_forget(&it->bindings);
}

static bool wait_and_handle(keys *it) {
  int32_t left = timeout(it);
  if (left != 0) it->due = left < 0 ? UINT64_MAX : it->now + (uint64_t)left;
  switch (hed_terminal_wait(&it->terminal, left)) {
    case HED_TERMINAL_NOTHING: return handle_pause(it);
    case HED_TERMINAL_INPUT: return handle_input(it);
    case HED_TERMINAL_RESUMED:
      take_size(it);
      forget_waiting(it);
      return true;
    case HED_TERMINAL_RESIZED: take_size(it); return true;
    case HED_TERMINAL_FAILED: return fail(it, it->terminal.failure, errno);
    default: it->is_over = true; return false;
  }
}

/* What comes before the opening is told is written behind it. */
static bool write_output(keys *it) {
  look_at_clock(it);
  return keep_opening(it) && (opening_left(&it->opening, it->now) >= 0 || flush_output(it));
}

/* Goes on to a time of the recording. */
static void go_to(keys *it, uint64_t time) {
  uint64_t pause = time - it->now;
  struct timespec left = { .tv_sec = (time_t)(pause / 1000), .tv_nsec = (long)(pause % 1000) * 1000000 };
  if (it->options.is_real_time) nanosleep(&left, NULL);
  it->now = time;
}

/* Replays the next read, or the pause before it if that decides something. Returns false at the end of the recording too. */
static bool replay(keys *it) {
  const recorded_read *read = it->next_read;
  int32_t left = timeout(it);
  if (!read) return false;
  if (left >= 0 && (uint64_t)left <= read->time - it->now) {
    go_to(it, it->now + (uint64_t)left);
    return decide_due(it);
  }
  go_to(it, read->time);
  it->next_read = read->next;
  return handle_bytes(it, read->bytes, read->length);
}

static bool go_on(keys *it) {
  if (it->options.replay) return replay(it);
  return it->is_live ? wait_and_handle(it) : handle_input(it);
}

static void run(keys *it) {
  bool goes_on = handle_events(it);
  while (goes_on && !it->failure && write_output(it)) goes_on = go_on(it);
}

/* The last line of JSON, if bytes are buffered at the end. */
static void show_waiting(keys *it) {
  text reason = { .length = 0 };
  if (!it->options.is_json || it->options.is_once || line_waiting(&it->line) == 0) return;
  add_waiting(&reason, &it->parser, &it->line);
  json_waiting(&it->line, reason.bytes);
}

static void finish(keys *it) {
  bool has_ended = !it->failure && !it->is_over;
  if (has_ended && !handle_end(it) && !it->has_key) return;
  if (has_ended && it->options.is_once && !it->has_key) fail(it, "no key came", 0);
  if (!it->failure) show_waiting(it);
  if (!it->failure) flush_output(it);
}

/* Replies aren't left to the next program, if they come in time. */
static void await_replies(keys *it) {
  uint64_t end = hed_terminal_now() + OPENING_MS;
  uint8_t bytes[READ_SIZE];
  hed_event event;
  size_t count = 1;
  hed_questions_expire(&it->opening.questions, &it->parser, hed_terminal_now());
  for (uint64_t now; it->opening.questions.count > 0 && count > 0 && (now = hed_terminal_now()) < end;) {
    if (hed_terminal_wait(&it->terminal, (int)(end - now)) != HED_TERMINAL_INPUT) return;
    if (!hed_terminal_read(&it->terminal, bytes, sizeof bytes, &count) || hed_parser_feed(&it->parser, now, bytes, count)) return;
    while (hed_parser_next(&it->parser, &event) == HED_OK) opening_take(&it->opening, &it->parser, now, &event);
  }
}

/* What the terminal calls itself, or the one that was recorded. */
static void take_type(keys *it) {
  const char *type = it->options.replay ? it->recording.terminal.bytes : getenv("TERM");
  it->opening.type = type && *type ? type : "no TERM";
  it->opening.is_dumb = !type || !*type || strcmp(type, "dumb") == 0;
}

/* The terminal is asked unless it is one that shows what it doesn't know. */
static void ask(keys *it) {
  if (!it->options.lists_twins) say(it, "hedrugal-keys: press keys; ^D twice ends it.\n");
  if (has_opening(it) && !it->options.is_plain && !it->opening.is_dumb) say(it, opening_ask(&it->opening, &it->parser, it->now));
}

/* The terminal is written there, whatever the standard output is. */
static bool start_live(keys *it) {
  int output = isatty(1) ? 1 : open("/dev/tty", O_WRONLY | O_NOCTTY);
  text enter = { .length = 0 }, leave = { .length = 0 };
  if (output < 0) return fail(it, "the terminal can't be written", errno);
  opening_choose(&it->opening, &it->options, it->modes);
  join_modes(it, &enter, &leave);
  if (!hed_terminal_open(&it->terminal, 0, output, enter.bytes, leave.bytes)) return fail(it, it->terminal.failure, errno);
  hed_terminal_tell_settings(&it->terminal, &it->parser);
  look_at_clock(it);
  if (!it->options.is_once) ask(it);
  return true;
}

static bool open_input(keys *it) {
  if (it->options.file) it->input = open(it->options.file, O_RDONLY);
  return it->input >= 0 || fail(it, it->options.file, errno);
}

static bool open_recording(keys *it) {
  hed_size size = { .columns = 80, .rows = 24 };
  struct termios settings;
  if (it->options.replay && !recording_read(&it->recording, it->options.replay)) return fail_recording(it);
  it->next_read = it->recording.first;
  if (!it->options.record) return true;
  hed_terminal_size(0, &size);
  bool is_backspace = tcgetattr(0, &settings) == 0 && settings.c_cc[VERASE] == '\b';
  enum hed_erase erase = is_backspace ? HED_ERASE_BACKSPACE : HED_ERASE_DELETE;
  return recording_open(&it->recording, it->options.record, hed_terminal_now(), &size, erase) || fail_recording(it);
}

static bool read_bindings(keys *it) {
  if (!it->options.bindings) return true;
  switch (bindings_read(&it->bindings, it->options.bindings)) {
    case BINDINGS_WRONG: it->is_refused = true; return false;
    case BINDINGS_TOO_LONG: it->is_refused = true; return fail(it, "a file of bindings has at most 1048576 bytes", 0);
    case BINDINGS_NO_FILE: return fail(it, it->options.bindings, errno);
    case BINDINGS_NO_MEMORY: return fail(it, no_memory, 0);
    default: return true;
  }
}

/* A file or a pipe may have lines, which end with the byte 10. A long paste comes in parts, so that none needs much memory. */
static bool init_parser(keys *it) {
  hed_reading reading = { .dialect = it->options.is_extended ? HED_DIALECT_EXTENDED : HED_DIALECT_TERMWIZ, .erase = it->recording.erase };
  if (!it->options.replay) reading.newline = HED_NEWLINE_ENTER;
  if (hed_parser_init(&it->parser, reading.dialect) != HED_OK) return fail(it, no_memory, 0);
  hed_parser_set_reading(&it->parser, &reading);
  hed_parser_set_parts(&it->parser, HED_TERMINAL_PASTE_MOST);
  return true;
}

static bool start(keys *it) {
  if (!read_bindings(it) || !open_input(it) || !open_recording(it) || !init_parser(it)) return false;
  take_type(it);
  if (it->options.replay && has_opening(it) && !it->opening.is_dumb) opening_ask(&it->opening, &it->parser, it->now);
  return !it->is_live || start_live(it);
}

static void show_input(keys *it) {
  screen_find(&it->screen);
  take_size(it);
  it->screen.is_hex = it->options.is_hex;
  if (start(it)) {
    run(it);
    finish(it);
  }
  if (it->is_live) await_replies(it);
  hed_terminal_close(&it->terminal);
  twins_free(&it->twins);
  hed_parser_free(&it->parser);
  line_free(&it->line);
  bindings_free(&it->bindings);
  if (!recording_close(&it->recording) && !it->failure) fail_recording(it);
}

static void print_words(keys *it) {
  fputs(it->options.wants_help ? options_help : "hedrugal-keys " HED_VERSION "\n", output);
  flush_output(it);
}

/* Of a terminal that has the modes of the words. */
static void print_twins(keys *it) {
  memcpy(it->modes, it->options.modes, sizeof it->modes);
  if (find_twins(it)) list_twins(it);
  if (!it->failure) flush_output(it);
  twins_free(&it->twins);
}

static void print_error(const char *words, int error) {
  fputs("hedrugal-keys: ", stderr);
  text_print(stderr, words);
  fprintf(stderr, "%s%s\n", error ? ": " : "", error ? strerror(error) : "");
}

static int status_of(const keys *it) {
  hed_terminal_end();
  if (it->failure) print_error(it->failure, it->error);
  return it->is_refused ? 2 : it->failure != NULL;
}

int main(int count, char **words) {
  keys it = { .input = 0 };
  bool has_terminal = isatty(0);
  signal(SIGPIPE, SIG_IGN); /* the write fails then */
  if (!options_read(&it.options, count, words, has_terminal)) {
    print_error(it.options.refused.bytes, 0);
    return 2;
  }
  it.is_live = has_terminal && !it.options.file && !it.options.replay;
  it.shows_pauses = it.is_live || it.options.is_real_time;
  it.options.is_extended |= (it.is_live || it.options.replay) && !it.options.is_plain;
  if (!output_open()) fail(&it, no_memory, 0);
  else if (it.options.wants_help || it.options.wants_version) print_words(&it);
  else if (it.options.lists_twins && !it.is_live) print_twins(&it);
  else show_input(&it);
  output_close();
  return status_of(&it);
}
