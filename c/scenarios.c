/* The program in C of tests/scenarios/README.md, which says what its words and keys are.
 *
 *     calls="-Wl,--wrap=malloc -Wl,--wrap=realloc -Wl,--wrap=free -Wl,--wrap=poll"
 *     cc $calls scenarios.c hedrugal_terminal.c libhedrugal.a && ./a.out WORDS COMMAND
 *
 * A word of its own is `bare`, a loop that reads, feeds the parser and heeds signals by itself. Its keys are those of obey_own. */
#define _POSIX_C_SOURCE 200809L
#include "hedrugal_terminal.h"
#include "refuse.h"
#include "told.h"
#include <errno.h>
#include <fcntl.h>
#include <poll.h>
#include <signal.h>
#include <stdio.h>
#include <stdlib.h>
#include <string.h>
#include <sys/wait.h>
#include <termios.h>
#include <time.h>
#include <unistd.h>

static const char position[] = "\033[6n", background[] = "\033]11;?\033\\";

/* What switches modes, in the order in which they are switched on. */
static const struct {
  const char *word, *on, *off;
} modes[] = { { "screen", HED_TERMINAL_SCREEN_ON, HED_TERMINAL_SCREEN_OFF },
              { "", HED_TERMINAL_PASTE_ON, HED_TERMINAL_PASTE_OFF },
              { "focus", HED_TERMINAL_FOCUS_ON, HED_TERMINAL_FOCUS_OFF },
              { "mouse", HED_TERMINAL_MOUSE_ON, HED_TERMINAL_MOUSE_OFF },
              { "kitty", HED_TERMINAL_KITTY_ON(1), HED_TERMINAL_KITTY_OFF } };
enum { MODES = sizeof modes / sizeof *modes };

static const char *words, *command;
static hed_parser parser = HED_PARSER_NONE;
static hed_terminal terminal;
static bool is_reopened;

static bool has(const char *word) {
  return strstr(words, word);
}

static void sleep_ms(long milliseconds) {
  struct timespec left = { milliseconds / 1000, milliseconds % 1000 * 1000000 };
  while (nanosleep(&left, &left) != 0) continue;
}

/* Children. */

static int status_of(int status) {
  return WIFSIGNALED(status) ? -WTERMSIG(status) : WEXITSTATUS(status);
}

static int wait_for(pid_t child) {
  int status = 0;
  waitpid(child, &status, 0);
  return status_of(status);
}

static pid_t fork_child(void) {
  fflush(stdout);
  return fork();
}

/* The terminal is its parent's, whatever it calls. */
static void fork_closing(void) {
  pid_t child = fork_child();
  if (child == 0) {
    hed_terminal_close(&terminal);
    hed_terminal_lend(&terminal);
    exit(hed_terminal_take_back(&terminal) ? 1 : 5);
  }
  printf("child %d\n", wait_for(child));
}

static void fork_waiting(void) {
  pid_t child = fork_child();
  while (child == 0) pause();
  printf("forked %d\n", (int)child);
  fflush(stdout);
  printf("child %d\n", wait_for(child));
}

static int run_command(void) {
  fflush(stdout);
  return status_of(system(command));
}

static bool lend(void) {
  hed_terminal_lend(&terminal);
  int status = run_command();
  bool is_back = hed_terminal_take_back(&terminal);
  printf("lent %d\n", status);
  return is_back;
}

/* Events. */

/* A line that is printed later, and the character of its key. */
static struct kept {
  char line[256];
  uint32_t character;
} kept[64];
static size_t kept_count;

static void tell_size(const char *what) {
  hed_size size = { .columns = 0 };
  if (hed_terminal_size(1, &size)) tell("%s %u %u %u %u", what, size.rows, size.columns, size.height, size.width);
}

/* Tells what came, on a line. After a stop or a lend another line has the size. */
static void tell_came(enum hed_terminal_event came, const hed_event *event) {
  uint8_t text[512];
  if (came == HED_TERMINAL_RESUMED) tell("resumed\n");
  if (came == HED_TERMINAL_RESUMED || came == HED_TERMINAL_RESIZED) tell_size("resized");
  else if (came == HED_TERMINAL_ENDED) tell("ended");
  else if (came == HED_TERMINAL_FAILED) tell("failed");
  if (came != HED_TERMINAL_EVENT) return;
  size_t len = hed_parser_text(&parser, text, sizeof text);
  if (len <= sizeof text) tell_event(event, text);
  else tell("%s of %zu bytes", event->kind == HED_KIND_PASTE ? "paste" : "part", len);
}

static void print_told(void) {
  if (*told) puts(told);
  forget();
}

/* The character of a key without modifiers, or 0. */
static uint32_t character_of(enum hed_terminal_event came, const hed_event *event) {
  bool is_key = came == HED_TERMINAL_EVENT && event->kind == HED_KIND_KEY && event->key == HED_KEY_CHAR;
  return is_key && event->modifiers == 0 ? event->detail : 0;
}

static void keep(enum hed_terminal_event came, const hed_event *event) {
  struct kept *it = &kept[kept_count++];
  EXPECT(kept_count <= sizeof kept / sizeof *kept && told_len < sizeof it->line);
  strcpy(it->line, told);
  it->character = character_of(came, event);
  forget();
}

/* Questions. */

static bool is_reply(enum hed_terminal_event came, const hed_event *event) {
  bool is_position = event->kind == HED_KIND_CURSOR_POSITION || event->kind == HED_KIND_KEYBOARD_FLAGS;
  return came == HED_TERMINAL_EVENT && (is_position || (event->kind >= HED_KIND_CSI && event->kind <= HED_KIND_APC));
}

/* Takes what comes while a question is open: its replies go to a list. Returns whether it may still be answered. */
static bool take_reply(int milliseconds, char *replies) {
  size_t open = hed_terminal_owed(&terminal);
  hed_event event = { .kind = HED_KIND_KEY };
  enum hed_terminal_event came = hed_terminal_next(&terminal, &parser, milliseconds, &event);
  bool is_own = open == 1 && is_reply(came, &event);
  tell_came(came, &event);
  if (is_own) strcat(strcat(replies, *replies ? ", " : " "), told), forget();
  else if (*told) keep(came, &event);
  return hed_terminal_owed(&terminal) > 0 && came != HED_TERMINAL_RESUMED && came < HED_TERMINAL_ENDED;
}

/* Asks, and waits for the replies for so long as the calls of other languages do. A negative number is for ever. */
static void ask(const char *question, int milliseconds) {
  char replies[1024] = "";
  uint64_t begin = hed_terminal_now(), passed = 0;
  bool has_room = hed_terminal_owed(&terminal) < HED_QUESTIONS_MOST;
  bool is_open = hed_terminal_ask(&terminal, &parser, question);
  EXPECT(is_open == has_room);
  while (is_open && (milliseconds < 0 || passed < (uint64_t)milliseconds)) {
    is_open = take_reply(milliseconds < 0 ? -1 : milliseconds - (int)passed, replies);
    passed = hed_terminal_now() - begin;
  }
  printf("asked:%s\n", *replies ? replies : " nothing");
}

/* Keys. */

/* Each is noted by a byte in a pipe, which is full then. */
static void raise_often(void) {
  errno = 0;
  for (int i = 0; i < 70000; i++) raise(SIGWINCH);
  printf("errno %d\n", errno);
}

static void open_second(void) {
  hed_terminal second;
  puts(hed_terminal_open(&second, 0, 1, "", "") ? "opened" : "refused");
}

static void be_busy(long milliseconds, const char *line) {
  puts(line);
  fflush(stdout);
  sleep_ms(milliseconds);
}

/* Needs so many pages of the stack. */
static unsigned deepen(unsigned pages) {
  volatile char page[4096];
  page[0] = (char)pages;
  return pages == 0 ? 0 : deepen(pages - 1) + (unsigned)page[0];
}

static bool stands_still;

int __real_poll(struct pollfd *ready, nfds_t count, int milliseconds);
int __wrap_poll(struct pollfd *ready, nfds_t count, int milliseconds);

/* Where nothing came the program may stand still, as if it were stopped, before it sees that. */
int __wrap_poll(struct pollfd *ready, nfds_t count, int milliseconds) {
  int found = __real_poll(ready, count, milliseconds);
  if (found != 0 || !stands_still) return found;
  stands_still = false;
  be_busy(300, "stands still");
  return found;
}

/* Wakes the loop without a signal. */
static void wake_loop(void) {
  char name[32];
  snprintf(name, sizeof name, "/proc/self/fd/%d", terminal.wake);
  int wake = open(name, O_WRONLY);
  EXPECT(write(wake, "", 1) == 1);
  close(wake);
}

/* Asks while nothing can be written. */
static void ask_in_vain(void) {
  int full = open("/dev/full", O_WRONLY), output = dup(terminal.output);
  fflush(stdout);
  dup2(full, terminal.output);
  bool is_asked = hed_terminal_ask(&terminal, &parser, position);
  dup2(output, terminal.output);
  close(full);
  close(output);
  puts(is_asked ? "asked" : terminal.failure);
}

/* Asks at once when it has the terminal again. */
static void ask_again(void) {
  hed_terminal_lend(&terminal);
  EXPECT(hed_terminal_take_back(&terminal) && hed_terminal_ask(&terminal, &parser, position));
}

/* Nothing came, and the descriptor doesn't block. */
static void read_nothing(void) {
  uint8_t byte;
  size_t count = 1;
  EXPECT(hed_terminal_read(&terminal, &byte, 1, &count));
  printf("read %zu\n", count);
}

static void tell_clock(void) {
  struct timespec now;
  clock_gettime(CLOCK_MONOTONIC, &now);
  uint64_t passed = (uint64_t)now.tv_sec * 1000 - hed_terminal_now() + 10000;
  puts(passed < 20000 ? "monotonic" : "another clock");
}

/* What this program alone does: memory is refused at the first or the second request. */
static bool obey_own(uint32_t key) {
  switch (key) {
    case 'H': printf("half a line"); return false;
    case 'X': printf("half a line"), exit(3);
    case 'C': tell_clock(); return true;
    case 'E': ask_again(); return true;
    case 'M': refuse(1); return true;
    case 'N': refuse(2); return true;
    case 'O': printf("owed %zu\n", hed_terminal_owed(&terminal)); return true;
    case 'P': stands_still = true; return true;
    case 'R': read_nothing(); return true;
    case 'S': printf("deep: %u\n", deepen(1 << 20)); return true;
    case 'T': return hed_terminal_take_back(&terminal);
    case 'V': ask_in_vain(); return true;
    case 'W': be_busy(300, "busy"), wake_loop(); return true;
    default: return true;
  }
}

static bool next_once(int milliseconds);

/* Does what a key says. Returns false once the program leaves its loop. */
static bool obey(uint32_t key) {
  switch (key) {
    case 'q': return false;
    case 'r': is_reopened = true; return false;
    case 'x': exit(3);
    case '!': abort();
    case '2': open_second(); return true;
    case 'z': tell_size("size"), print_told(); return true;
    case '0': return next_once(0);
    case 'g': be_busy(300, "ending"); return false;
    case 'k': be_busy(300, "busy"); return true;
    case 's': be_busy(60000, "asleep"); return true;
    case 'h': printf("half a line"); return true;
    case 'l': return lend();
    case 'c': printf("child %d\n", run_command()); return true;
    case 'f': fork_closing(); return true;
    case 'p': fork_waiting(); return true;
    case 'e': raise_often(); return true;
    case '6': ask(position, 0); return true;
    case '9': ask("\033[6n\033[6n\033]11;?\033\\", 0); return true;
    case 't': ask(position, 1000); return true;
    case 'a': ask(position, -1); return true;
    case 'b': ask(background, -1); return true;
    default: return obey_own(key);
  }
}

/* Prints what was kept, and does what its keys say. */
static bool obey_kept(void) {
  bool goes_on = true;
  for (size_t i = 0; i < kept_count && goes_on; i++) puts(kept[i].line), goes_on = obey(kept[i].character);
  kept_count = 0;
  return goes_on;
}

/* Returns false once the program leaves its loop. A call for which memory was refused is made again. */
static bool handle(enum hed_terminal_event came, const hed_event *event) {
  tell_came(came, event);
  print_told();
  if (came == HED_TERMINAL_FAILED) return refused > 0;
  if (came == HED_TERMINAL_RESUMED && has("asks")) ask(position, 0);
  return came < HED_TERMINAL_ENDED && obey(character_of(came, event)) && obey_kept();
}

static bool next_once(int milliseconds) {
  hed_event event;
  enum hed_terminal_event came = hed_terminal_next(&terminal, &parser, milliseconds, &event);
  if (came == HED_TERMINAL_NOTHING && milliseconds == 0) puts("nothing");
  return handle(came, &event);
}

/* Loops. */

static struct pollfd *poll_both(int milliseconds) {
  static struct pollfd ready[2];
  ready[0] = (struct pollfd){ .fd = terminal.input, .events = POLLIN };
  ready[1] = (struct pollfd){ .fd = terminal.wake, .events = POLLIN };
  fflush(stdout);
  poll(ready, 2, milliseconds);
  return ready;
}

/* Polls by itself, and takes what there is. */
static bool take_polled(void) {
  hed_event event;
  enum hed_terminal_event came;
  poll_both(hed_terminal_timeout(&terminal, &parser));
  while ((came = hed_terminal_next(&terminal, &parser, 0, &event)) != HED_TERMINAL_NOTHING)
    if (!handle(came, &event)) return false;
  return true;
}

static bool tell_parsed(void) {
  hed_event event;
  while (hed_parser_next(&parser, &event) == HED_OK)
    if (!handle(HED_TERMINAL_EVENT, &event)) return false;
  return true;
}

/* Reads what is there. Returns false at the end of the input, once all is told. */
static bool read_and_tell(void) {
  uint8_t bytes[16];
  size_t count;
  if (!hed_terminal_read(&terminal, bytes, sizeof bytes, &count)) {
    hed_parser_end(&parser);
    if (tell_parsed()) puts("ended");
    return false;
  }
  EXPECT(hed_parser_feed(&parser, hed_terminal_now(), bytes, count) == HED_OK);
  return tell_parsed();
}

/* Does without hed_terminal_next. */
static bool read_polled(void) {
  struct pollfd *ready = poll_both(hed_parser_timeout(&parser, hed_terminal_now()));
  uint64_t now = hed_terminal_now();
  enum hed_terminal_event came = ready[1].revents ? hed_terminal_heed(&terminal) : HED_TERMINAL_NOTHING;
  if (came == HED_TERMINAL_RESUMED) hed_parser_interrupted(&parser, now);
  if (!handle(came, NULL)) return false;
  if (poll(ready, 1, 0) > 0) return read_and_tell();
  hed_parser_idle(&parser, now);
  return tell_parsed();
}

static bool step(void) {
  if (has("own")) return take_polled();
  return has("bare") ? read_polled() : next_once(-1);
}

/* Opening. */

static void note(int number) {
  (void)number;
}

/* A handler that interrupts calls of the system. */
static void interrupt_by(int number) {
  struct sigaction action = { .sa_handler = note };
  sigaction(number, &action, NULL);
}

static bool is_interrupted_by(int number) {
  struct sigaction now;
  return sigaction(number, NULL, &now) == 0 && now.sa_handler == note;
}

/* Opens a terminal whose output can't be written, is none, or with a text that is too long. It fails, and the settings are as they were. */
static void fail_to_open(const char *output, const char *on) {
  struct termios before, after;
  int descriptor = open(output, O_RDONLY);
  tcgetattr(0, &before);
  EXPECT(!hed_terminal_open(&terminal, 0, descriptor, on, HED_TERMINAL_PASTE_OFF));
  tcgetattr(0, &after);
  EXPECT(before.c_iflag == after.c_iflag && before.c_lflag == after.c_lflag && before.c_oflag == after.c_oflag);
  close(descriptor);
}

static void fail_first(void) {
  char on[HED_TERMINAL_TEXT_MOST + 2];
  memset(on, ' ', sizeof on - 1);
  on[sizeof on - 1] = '\0';
  fail_to_open("/dev/tty", on);
  fail_to_open("/dev/null", HED_TERMINAL_PASTE_ON);
  fail_to_open("/dev/tty", HED_TERMINAL_PASTE_ON);
}

static bool open_terminal(void) {
  char on[256] = "", off[256] = "";
  int input = has("device") ? open("/dev/tty", O_RDWR) : 0;
  for (size_t i = 0; i < MODES; i++)
    if (has(modes[i].word)) strcat(on, modes[i].on);
  for (size_t i = MODES; i-- > 0;)
    if (has(modes[i].word)) strcat(off, modes[i].off);
  return hed_terminal_open(&terminal, input, input == 0 ? 1 : input, on, off);
}

int main(int argc, char **argv) {
  if (argc != 3) return 2;
  words = argv[1], command = argv[2];
  if (has("handle")) interrupt_by(SIGUSR1);
  if (has("retry")) fail_first();
  do {
    is_reopened = false;
    if (hed_parser_init(&parser, HED_DIALECT_EXTENDED)) return 1;
    if (!open_terminal()) return fprintf(stderr, "scenarios: %s\n", terminal.failure), 1;
    if (has("bare")) hed_terminal_tell_settings(&terminal, &parser);
    if (has("inside")) interrupt_by(SIGUSR1);
    puts("begun");
    while (step()) continue;
    hed_terminal_close(&terminal);
    EXPECT(!has("inside") || is_interrupted_by(SIGUSR1));
    hed_parser_free(&parser);
  } while (is_reopened);
  hed_terminal_end();
  return faults > 0;
}
