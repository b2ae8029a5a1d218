#define _XOPEN_SOURCE 700
#include "hedrugal_terminal.h"
#include <errno.h>
#include <fcntl.h>
#include <poll.h>
#include <signal.h>
#include <stdio.h>
#include <stdlib.h>
#include <string.h>
#include <sys/ioctl.h>
#include <termios.h>
#include <time.h>
#include <unistd.h>

/* For how many milliseconds a reply to DA1 is waited for at the end, at least and at most. */
enum { LEAVE_MS = 200, LEAVE_MOST_MS = 1000 };

/* The terminal that is open. It stands here, since exit and signals restore it too. */
static struct guard {
  int input, output, input_flags, output_flags;
  struct termios saved, raw; /* raw is as the system made it */
  char enter[HED_TERMINAL_TEXT_MOST + 1], leave[HED_TERMINAL_TEXT_MOST + 1];
  pid_t owner;
  bool is_open;
  bool has_mouse; /* whether enter switches mouse reports on */
  volatile sig_atomic_t is_raw;
  volatile sig_atomic_t is_switched; /* whether leave is still to be written */
} guard;

static hed_questions asked;
/* How many replies to DA1 are still to come: handlers look at this copy of asked.count, and the end counts it down. */
static volatile sig_atomic_t owed;

/* The signals that arrived. The handler also writes to a pipe, which is polled: so no signal is missed between a look at these and poll. */
static volatile sig_atomic_t ending, stopping, continued, resized;
static int wake[2];

static bool fail(hed_terminal *it, const char *failure) {
  it->failure = failure;
  return false;
}

static enum hed_terminal_event failed(hed_terminal *it, const char *failure) {
  it->failure = failure;
  return HED_TERMINAL_FAILED;
}

static bool is_own(void) {
  return guard.is_open && guard.owner == getpid();
}

/* How much is left of a time in milliseconds. */
static int left_ms(uint64_t since, uint64_t milliseconds, uint64_t now) {
  return now - since < milliseconds ? (int)(milliseconds - (now - since)) : 0;
}

/* Writing to the terminal. */

static bool wait_for_room(void) {
  struct pollfd room = { .fd = guard.output, .events = POLLOUT };
  return poll(&room, 1, -1) >= 0 || errno == EINTR;
}

/* Returns false if the terminal is gone, or without waiting if it takes no more. */
static bool write_text(const char *text, bool waits) {
  size_t left = strlen(text);
  while (left > 0) {
    ssize_t written = write(guard.output, text, left);
    bool is_full = written < 0 && (errno == EAGAIN || errno == EWOULDBLOCK);
    if (is_full && !(waits && wait_for_room())) return false;
    if (written < 0 && !is_full && errno != EINTR) return false;
    if (written < 0) continue;
    text += written;
    left -= (size_t)written;
  }
  return true;
}

/* Not twice, also where a handler below interrupts it: modes may nest. */
static void write_leave(bool waits) {
  if (!guard.is_switched) return;
  guard.is_switched = false;
  write_text(guard.leave, waits);
}

static bool set(int when, const struct termios *settings) {
  while (tcsetattr(guard.input, when, settings) != 0)
    if (errno != EINTR) return false;
  return true;
}

/* Another program may have its input or output from the same descriptions, and be surprised if they don't block any more. */
static void restore_flags(void) {
  fcntl(guard.input, F_SETFL, guard.input_flags);
  fcntl(guard.output, F_SETFL, guard.output_flags);
}

/* What can't be written at once is left out. */
static void leave_at_once(void) {
  if (!guard.is_raw || guard.owner != getpid()) return;
  fcntl(guard.output, F_SETFL, guard.output_flags | O_NONBLOCK);
  write_leave(false);
  restore_flags();
  if (guard.has_mouse || owed > 0) tcflush(guard.input, TCIFLUSH);
  tcsetattr(guard.input, TCSANOW, &guard.saved);
}

/* DA1 goes behind the text. Its reply is owed before it is written, since a handler may interrupt that. */
static bool write_question(const char *text, uint32_t count) {
  owed = (sig_atomic_t)count;
  return write_text(text, true) && write_text("\033[c", true);
}

/* Whether a byte ends a reply to DA1, as ESC [?62;22c: *begun is how many bytes of its beginning came before. */
static bool ends_reply(size_t *begun, char byte) {
  static const char beginning[] = "\033[?";
  bool is_within = *begun == strlen(beginning);
  if (is_within && ((byte >= '0' && byte <= '9') || byte == ';')) return false;
  if (!is_within && byte == beginning[*begun]) ++*begun;
  else *begun = byte == *beginning;
  return is_within && byte == 'c';
}

/* Returns false at the end of the input. */
static bool skip_byte(int milliseconds, size_t *begun) {
  struct pollfd ready = { .fd = guard.input, .events = POLLIN };
  char byte;
  if (poll(&ready, 1, milliseconds) <= 0) return true;
  ssize_t len = read(guard.input, &byte, 1);
  if (len > 0 && ends_reply(begun, byte)) owed--;
  return len > 0 || (len < 0 && (errno == EINTR || errno == EAGAIN || errno == EWOULDBLOCK));
}

/* Reads up to the last reply that is owed, byte by byte: what comes after it is the next program's. Returns whether it came. */
static bool skip_replies(void) {
  uint64_t start = hed_terminal_now(), limit = 2 * asked.slowest;
  size_t begun = 0;
  int left;
  if (limit < LEAVE_MS) limit = LEAVE_MS;
  if (limit > LEAVE_MOST_MS) limit = LEAVE_MOST_MS;
  while (owed > 0 && (left = left_ms(start, limit, hed_terminal_now())) > 0)
    if (!skip_byte(left, &begun)) return false;
  return owed == 0;
}

/* Mouse reports that are under way come before the reply to a question that is asked now. Returns whether nothing is left to be discarded. */
static bool skip_what_was_sent(void) {
  if (owed == 0 && !guard.has_mouse) return true;
  if (owed == 0 && !(asked.answered > 0 && write_question("", 1))) return false;
  return skip_replies();
}

/* An overdue reply isn't owed, also if no call has ended its question yet. */
static sig_atomic_t count_owed(void) {
  uint64_t now = hed_terminal_now();
  sig_atomic_t count = 0;
  for (uint32_t i = 0; i < asked.count; i++) count += now < asked.open[i].until;
  return count;
}

static void leave(void) {
  if (!guard.is_raw) return;
  owed = count_owed();
  fflush(stdout);
  write_leave(true);
  set(skip_what_was_sent() ? TCSADRAIN : TCSAFLUSH, &guard.saved);
  restore_flags();
  guard.is_raw = false;
  owed = 0;
}

/* If it was never left, as around SIGSTOP, modes that nest are left first. */
static bool enter(hed_terminal *it) {
  if (!set(TCSADRAIN, &guard.raw) || tcgetattr(guard.input, &guard.raw) != 0) return fail(it, "raw mode can't be set");
  guard.is_raw = true;
  write_leave(true);
  guard.is_switched = true; /* from the first byte on, since a handler may interrupt the write */
  return write_text(guard.enter, true) || fail(it, "the terminal can't be written");
}

/* Signals. */

/* The signal does what it does to a program that doesn't handle it. If its handler calls this, that is once the handler has returned. */
static void raise_default(int number) {
  signal(number, SIG_DFL);
  raise(number);
}

static void end_poll(void) {
  ssize_t written = write(wake[1], "", 1);
  (void)written; /* a full pipe ends the poll as well */
}

static void note(int number) {
  if (number == SIGTSTP) stopping = 1;
  else if (number == SIGCONT) continued = 1;
  else if (number == SIGWINCH) resized = 1;
  else if (!ending) {
    ending = number;
    alarm(1);
  }
  end_poll();
}

/* A forked child has the handlers too. It is as if it had none. */
static void note_signal(int number) {
  int saved = errno;
  if (guard.owner == getpid()) note(number);
  else raise_default(number);
  errno = saved;
}

/* The program still runs a second after a signal that ends it: a write blocks, and goes on after signals. */
static void end_late(int number) {
  bool is_child = guard.owner != getpid();
  if (is_child) raise_default(number);
  if (is_child || !ending) return;
  leave_at_once();
  hed_terminal_end();
}

static void end_at_once(int number) {
  leave_at_once();
  raise_default(number);
}

/* What is handled, and how it was before. */
static struct handled {
  int number;
  void (*handler)(int);
  bool is_handled;
  struct sigaction before;
} handled[] = {
  { .number = SIGALRM, .handler = end_late },    { .number = SIGHUP, .handler = note_signal },
  { .number = SIGINT, .handler = note_signal },  { .number = SIGQUIT, .handler = note_signal },
  { .number = SIGTERM, .handler = note_signal }, { .number = SIGTSTP, .handler = note_signal },
  { .number = SIGCONT, .handler = note_signal }, { .number = SIGWINCH, .handler = note_signal },
  { .number = SIGABRT, .handler = end_at_once }, { .number = SIGBUS, .handler = end_at_once },
  { .number = SIGFPE, .handler = end_at_once },  { .number = SIGILL, .handler = end_at_once },
  { .number = SIGPIPE, .handler = end_at_once }, { .number = SIGSEGV, .handler = end_at_once },
  { .number = SIGSYS, .handler = end_at_once },  { .number = SIGUSR1, .handler = end_at_once },
  { .number = SIGUSR2, .handler = end_at_once }, { .number = SIGXCPU, .handler = end_at_once },
};

enum { HANDLED = sizeof handled / sizeof *handled };

/* A stack for handlers, as of SIGSEGV where the program's own stack has overflowed. One that the program has set stays. */
static bool set_stack(void) {
  static char memory[1 << 16];
  stack_t stack = { .ss_sp = memory, .ss_size = sizeof memory }, before;
  if (sigaltstack(NULL, &before) != 0) return false;
  return !(before.ss_flags & SS_DISABLE) || sigaltstack(&stack, NULL) == 0;
}

static bool set_handler(int number, void (*handler)(int)) {
  struct sigaction action;
  memset(&action, 0, sizeof action);
  action.sa_handler = handler;
  action.sa_flags = SA_RESTART | SA_ONSTACK;
  return sigaction(number, &action, NULL) == 0;
}

/* A program's own handler stays for what would end it otherwise. */
static bool is_to_be_handled(const struct handled *it) {
  bool has_handler = it->before.sa_flags & SA_SIGINFO || it->before.sa_handler != SIG_DFL;
  bool is_ignored = !(it->before.sa_flags & SA_SIGINFO) && it->before.sa_handler == SIG_IGN;
  return it->handler == end_at_once ? !has_handler : !is_ignored;
}

static bool handle_signals(void) {
  if (!set_stack()) return false;
  for (struct handled *it = handled; it < handled + HANDLED; it++) {
    if (it->is_handled) continue;
    if (sigaction(it->number, NULL, &it->before) != 0) return false;
    if (!is_to_be_handled(it)) continue;
    if (!set_handler(it->number, it->handler)) return false;
    it->is_handled = true;
  }
  return true;
}

/* The second after a signal that ends the program still counts. A handler that the program has set meanwhile stays. */
static void release_signals(void) {
  for (struct handled *it = handled; it < handled + HANDLED; it++) {
    struct sigaction now;
    if (!it->is_handled || (it->handler == end_late && ending)) continue;
    if (sigaction(it->number, NULL, &now) == 0 && now.sa_handler == it->handler) sigaction(it->number, &it->before, NULL);
    it->is_handled = false;
  }
}

void hed_terminal_end(void) {
  if (ending) raise_default(ending);
}

/* It stays open, for the next terminal. */
static bool open_wake(void) {
  if (wake[1] > 0) return true;
  if (pipe(wake) != 0) return false;
  for (int i = 0; i < 2; i++)
    if (fcntl(wake[i], F_SETFL, O_NONBLOCK) != 0 || fcntl(wake[i], F_SETFD, FD_CLOEXEC) != 0) return false;
  return true;
}

static void drain_wake(void) {
  char bytes[64];
  while (read(wake[0], bytes, sizeof bytes) > 0) continue;
}

/* Opening and closing. */

static void restore_at_exit(void) {
  if (is_own()) leave();
}

/* Once for all terminals: what exit does stays. */
static bool note_exit(void) {
  static bool is_noted;
  if (!is_noted) is_noted = atexit(restore_at_exit) == 0;
  return is_noted;
}

static bool find_terminal(hed_terminal *it) {
  if (!isatty(it->output) || tcgetattr(it->input, &guard.saved) != 0) return fail(it, "standard input and output have to be a terminal");
  guard.raw = guard.saved;
  guard.raw.c_iflag &= ~(tcflag_t)(BRKINT | ICRNL | IGNCR | INLCR | INPCK | ISTRIP | IXON);
  guard.raw.c_lflag &= ~(tcflag_t)(ECHO | ICANON | IEXTEN | ISIG);
  guard.raw.c_cc[VMIN] = 1;
  guard.raw.c_cc[VTIME] = 0;
  guard.input = it->input;
  guard.output = it->output;
  guard.input_flags = fcntl(it->input, F_GETFL);
  guard.output_flags = fcntl(it->output, F_GETFL);
  return true;
}

static bool is_mouse(unsigned long mode) {
  return mode == 9 || mode == 1000 || mode == 1002 || mode == 1003;
}

/* Whether a sequence switches mouse reports on, as 1000;1006h behind ESC [?. */
static bool sets_mouse(const char *modes) {
  bool is_found = false;
  char *end;
  for (;; modes = end + 1) {
    is_found |= is_mouse(strtoul(modes, &end, 10));
    if (*end != ';') return is_found && *end == 'h';
  }
}

static bool switches_mouse_on(const char *text) {
  bool is_found = false;
  while (!is_found && (text = strstr(text, "\033[?"))) is_found = sets_mouse(text += 3);
  return is_found;
}

static bool are_texts(const char *enter, const char *leave) {
  return strlen(enter) <= HED_TERMINAL_TEXT_MOST && strlen(leave) <= HED_TERMINAL_TEXT_MOST;
}

static bool keep_texts(hed_terminal *it, const char *enter, const char *leave) {
  if (!are_texts(enter, leave)) return fail(it, "a text is too long");
  strcpy(guard.enter, enter);
  strcpy(guard.leave, leave);
  guard.has_mouse = switches_mouse_on(enter);
  return true;
}

/* If this fails, the terminal is as it was. */
static bool take_terminal(hed_terminal *it) {
  if (!handle_signals()) fail(it, "a signal can't be handled");
  else if (enter(it)) return true;
  hed_terminal_lend(it);
  return false;
}

static bool begin(hed_terminal *it) {
  if (!open_wake() || !note_exit()) return fail(it, "a pipe can't be opened");
  it->wake = wake[0];
  guard.owner = getpid();
  guard.is_open = true;
  if (take_terminal(it)) return true;
  guard.is_open = false;
  return false;
}

bool hed_terminal_open(hed_terminal *terminal, int input, int output, const char *enter, const char *leave) {
  memset(terminal, 0, sizeof *terminal);
  terminal->input = input;
  terminal->output = output;
  if (guard.is_open) return fail(terminal, "a terminal is open already");
  stopping = continued = resized = 0;
  asked = (hed_questions)HED_QUESTIONS_NONE;
  return find_terminal(terminal) && keep_texts(terminal, enter, leave) && begin(terminal);
}

void hed_terminal_close(hed_terminal *terminal) {
  hed_terminal_lend(terminal);
  if (is_own()) guard.is_open = false;
}

void hed_terminal_lend(hed_terminal *terminal) {
  (void)terminal;
  if (!is_own()) return;
  leave();
  release_signals();
}

/* The other program may have read the replies. The parser is told once all is told that came before. */
static void note_other(hed_terminal *it) {
  hed_parser none = HED_PARSER_NONE;
  hed_questions_forget(&asked, &none);
  owed = 0;
  it->was_away = true;
}

bool hed_terminal_take_back(hed_terminal *terminal) {
  if (!is_own()) return fail(terminal, "no terminal is open");
  note_other(terminal);
  terminal->is_back = take_terminal(terminal);
  end_poll();
  return terminal->is_back;
}

/* A handler that interrupts this finds either no mode switched on, or the new ones. */
bool hed_terminal_switch(hed_terminal *terminal, const char *enter, const char *leave) {
  if (!is_own()) return fail(terminal, "no terminal is open");
  if (guard.is_raw && are_texts(enter, leave)) write_leave(true);
  if (!keep_texts(terminal, enter, leave)) return false;
  guard.is_switched = guard.is_raw;
  return !guard.is_raw || write_text(guard.enter, true) || fail(terminal, "the terminal can't be written");
}

/* Waiting. */

/* Stops as a program does that handles no SIGTSTP. Returns once it is continued, or at once if no shell could continue it. */
static void stop(void) {
  leave();
  signal(SIGTSTP, SIG_DFL);
  raise(SIGTSTP);
  stopping = 0;
  set_handler(SIGTSTP, note_signal);
  continued = 1;
}

static bool resume(hed_terminal *it) {
  note_other(it);
  it->is_back = enter(it);
  return it->is_back;
}

static bool is_same(const struct termios *one, const struct termios *other) {
  bool has_flags = one->c_iflag == other->c_iflag && one->c_oflag == other->c_oflag && one->c_lflag == other->c_lflag;
  return has_flags && one->c_cflag == other->c_cflag && memcmp(one->c_cc, other->c_cc, sizeof one->c_cc) == 0;
}

/* Whether the program was continued, and the terminal isn't as the program had set it. */
static bool was_away(void) {
  struct termios now;
  if (!continued) return false;
  continued = 0;
  return !guard.is_raw || tcgetattr(guard.input, &now) != 0 || !is_same(&now, &guard.raw);
}

/* A signal that ends the program comes before raw mode: a program that set it in the background would be stopped once more. */
enum hed_terminal_event hed_terminal_heed(hed_terminal *terminal) {
  drain_wake();
  if (stopping && !ending) stop();
  if (ending) return HED_TERMINAL_ENDING;
  if (was_away() && !resume(terminal)) return HED_TERMINAL_FAILED;
  bool is_back = terminal->is_back;
  if (!is_back && !resized) return HED_TERMINAL_NOTHING;
  terminal->is_back = false;
  resized = 0;
  return is_back ? HED_TERMINAL_RESUMED : HED_TERMINAL_RESIZED;
}

/* Polls again if a signal interrupts it: only then it is known what can be read. */
static bool poll_both(struct pollfd ready[2], int milliseconds) {
  int count = poll(ready, 2, milliseconds);
  while (count < 0 && errno == EINTR) count = poll(ready, 2, 0);
  return count >= 0;
}

enum hed_terminal_event hed_terminal_wait(hed_terminal *terminal, int milliseconds) {
  struct pollfd ready[2] = { { .fd = terminal->input, .events = POLLIN }, { .fd = terminal->wake, .events = POLLIN } };
  enum hed_terminal_event came = HED_TERMINAL_NOTHING;
  if (ending) return HED_TERMINAL_ENDING;
  if (!poll_both(ready, milliseconds)) return failed(terminal, "the terminal can't be polled");
  if (ready[1].revents) came = hed_terminal_heed(terminal);
  return came == HED_TERMINAL_NOTHING && ready[0].revents ? HED_TERMINAL_INPUT : came;
}

bool hed_terminal_read(hed_terminal *terminal, uint8_t *bytes, size_t room, size_t *count) {
  ssize_t len = read(terminal->input, bytes, room);
  *count = len > 0 ? (size_t)len : 0;
  if (len > 0 || (len < 0 && (errno == EINTR || errno == EAGAIN || errno == EWOULDBLOCK))) return true;
  return fail(terminal, len < 0 ? "the terminal can't be read" : NULL);
}

/* Questions. */

/* A question that can't be written isn't open. What came before another program had the terminal is still to be told, and is read as before. */
bool hed_terminal_ask(hed_terminal *terminal, hed_parser *parser, const char *questions) {
  hed_questions before = asked;
  hed_reading reading;
  uint64_t number;
  if (!is_own() || !guard.is_raw) return fail(terminal, "no terminal is open");
  if (fflush(stdout) != 0) return fail(terminal, "the output can't be written");
  if (hed_parser_reading(parser, &reading) != HED_OK) return fail(terminal, "there is no parser");
  if (hed_questions_ask(&asked, parser, hed_terminal_now(), 0, (const uint8_t *)questions, strlen(questions), &number) != HED_OK)
    return fail(terminal, "too many questions are open");
  bool is_written = write_question(questions, asked.count);
  if (!is_written) asked = before;
  if (!is_written || terminal->was_away) hed_parser_set_reading(parser, &reading);
  owed = (sig_atomic_t)asked.count;
  return is_written || fail(terminal, "the terminal can't be written");
}

size_t hed_terminal_owed(const hed_terminal *terminal) {
  (void)terminal;
  return (size_t)owed;
}

static void note_event(hed_terminal *it, hed_parser *parser, const hed_event *event) {
  uint8_t text[256];
  uint64_t number;
  if (asked.count == 0 || it->was_away) return;
  size_t len = hed_parser_text(parser, text, sizeof text);
  hed_questions_note(&asked, parser, hed_terminal_now(), event, text, len < sizeof text ? len : sizeof text, &number);
  owed = (sig_atomic_t)asked.count;
}

static void expire_questions(hed_parser *parser, uint64_t now) {
  hed_questions_expire(&asked, parser, now);
  owed = (sig_atomic_t)asked.count;
}

/* Events. */

/* What raw mode didn't change is as it was: VERASE. */
bool hed_terminal_tell_settings(hed_terminal *terminal, hed_parser *parser) {
  hed_reading reading;
  if (!is_own()) return fail(terminal, "no terminal is open");
  if (hed_parser_reading(parser, &reading) != HED_OK) return fail(terminal, "there is no parser");
  reading.erase = guard.raw.c_cc[VERASE] == '\b' ? HED_ERASE_BACKSPACE : HED_ERASE_DELETE;
  reading.newline = guard.raw.c_iflag & ICRNL ? HED_NEWLINE_ENTER : HED_NEWLINE_CTRL_J;
  return hed_parser_set_reading(parser, &reading) == HED_OK;
}

/* Once all is told of what came before another program had the terminal. */
static void note_away(hed_terminal *it, hed_parser *parser) {
  uint64_t now = hed_terminal_now();
  it->was_away = false;
  hed_parser_interrupted(parser, now);
  expire_questions(parser, now);
}

/* Tells an event of what was read. What can't be fed yet stays. */
static hed_status tell(hed_terminal *it, hed_parser *parser, hed_event *event) {
  hed_status answer;
  while ((answer = hed_parser_next(parser, event)) == HED_NONE && it->unfed > 0) {
    if ((answer = hed_parser_feed(parser, hed_terminal_now(), it->bytes, it->unfed)) != HED_OK) return answer;
    it->unfed = 0;
  }
  if (answer == HED_OK) note_event(it, parser, event);
  if (answer == HED_NONE && it->was_away) note_away(it, parser);
  return answer;
}

static void read_more(hed_terminal *it, hed_parser *parser) {
  if (hed_terminal_read(it, it->bytes, sizeof it->bytes, &it->unfed)) return;
  it->has_ended = true;
  it->error = it->failure ? errno : 0;
  hed_parser_end(parser);
}

/* All is told of an input that has ended, or can't be read. */
static enum hed_terminal_event ended(hed_terminal *it) {
  if (it->error == 0) return HED_TERMINAL_ENDED;
  errno = it->error;
  return failed(it, "the terminal can't be read");
}

/* Looks at the input after the clock: bytes that are there may complete what is due. */
static void look(hed_terminal *it, hed_parser *parser) {
  uint64_t now = hed_terminal_now();
  struct pollfd ready = { .fd = it->input, .events = POLLIN };
  if (poll(&ready, 1, 0) != 0) return;
  hed_parser_idle(parser, now);
  if (hed_questions_timeout(&asked, now) == 0) expire_questions(parser, now);
}

/* The shorter of two times, of which a negative one is for ever. */
static int sooner(int one, int other) {
  return one < 0 || (other >= 0 && other < one) ? other : one;
}

int hed_terminal_timeout(hed_terminal *terminal, const hed_parser *parser) {
  uint64_t now = hed_terminal_now();
  int left = terminal->unfed > 0 || terminal->was_away ? 0 : hed_parser_timeout(parser, now);
  return sooner(left, hed_questions_timeout(&asked, now));
}

enum hed_terminal_event hed_terminal_next(hed_terminal *terminal, hed_parser *parser, int milliseconds, hed_event *event) {
  uint64_t start = hed_terminal_now();
  enum hed_terminal_event came = HED_TERMINAL_INPUT;
  hed_status answer;
  if (!terminal->has_told) hed_parser_set_parts(parser, HED_TERMINAL_PASTE_MOST);
  if (!terminal->has_told) terminal->has_told = hed_terminal_tell_settings(terminal, parser);
  if (terminal->is_back) return hed_terminal_heed(terminal);
  while ((answer = tell(terminal, parser, event)) == HED_NONE && came == HED_TERMINAL_INPUT) {
    if (terminal->has_ended) return ended(terminal);
    if (fflush(stdout) != 0) return failed(terminal, "the output can't be written");
    int left = milliseconds < 0 ? -1 : left_ms(start, (uint64_t)milliseconds, hed_terminal_now());
    came = hed_terminal_wait(terminal, sooner(left, hed_terminal_timeout(terminal, parser)));
    if (came == HED_TERMINAL_INPUT) read_more(terminal, parser);
    if (came == HED_TERMINAL_NOTHING) look(terminal, parser);
  }
  if (answer == HED_OK) return HED_TERMINAL_EVENT;
  return answer == HED_NONE ? came : failed(terminal, answer == HED_NO_MEMORY ? "out of memory" : "there is no parser");
}

bool hed_terminal_size(int output, hed_size *size) {
  struct winsize found;
  if (ioctl(output, TIOCGWINSZ, &found) != 0 || found.ws_col == 0 || found.ws_row == 0) return false;
  *size = (hed_size){ .columns = found.ws_col, .rows = found.ws_row, .width = found.ws_xpixel, .height = found.ws_ypixel };
  return true;
}

uint64_t hed_terminal_now(void) {
  struct timespec now;
  clock_gettime(CLOCK_MONOTONIC, &now);
  return (uint64_t)now.tv_sec * 1000 + (uint64_t)now.tv_nsec / 1000000;
}
