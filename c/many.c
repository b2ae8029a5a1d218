/* A server of many terminals, by epoll: prints each key that is pressed in one of them, as "/dev/pts/3: ctrl+x".
 *
 *     cc many.c $(pkg-config --variable=terminal hedrugal) $(pkg-config --cflags --libs hedrugal) -o many && ./many TERMINAL..
 *
 * The terminals are serial lines, or windows in which nothing else reads, as after `tty; sleep 1d`. Their parsers share one table.
 *
 * A parser has a limit in time only while it waits, as after ESC. Those that wait are in a list, which is short however many terminals there
 * are, and a turn of the loop asks no others. To serve a terminal is to note the time and then look at it: if nothing is there, nothing came
 * up to that time, and the parser tells what is due.
 *
 * The server ends with its last terminal, and by SIGHUP, SIGINT, SIGPIPE and SIGTERM. Each terminal gets its settings back. */
#define _DEFAULT_SOURCE
#include "hedrugal_terminal.h"
#include <errno.h>
#include <fcntl.h>
#include <signal.h>
#include <stdio.h>
#include <stdlib.h>
#include <string.h>
#include <sys/epoll.h>
#include <sys/signalfd.h>
#include <termios.h>
#include <unistd.h>

enum { READY_MOST = 64 };

typedef struct terminal {
  const char *name;
  int input;
  struct termios saved;
  hed_parser parser;
  bool waits; /* whether it is in the list */
  struct terminal *next;
} terminal;

typedef struct server {
  hed_parser table;
  int epoll;
  size_t open; /* how many terminals are */
  terminal *waiting;
} server;

/* Without a terminal it is the descriptor of signals. */
static bool watch(const server *it, int descriptor, terminal *terminal) {
  struct epoll_event wanted = { .events = EPOLLIN, .data.ptr = terminal };
  return epoll_ctl(it->epoll, EPOLL_CTL_ADD, descriptor, &wanted) == 0;
}

static bool set_raw(const terminal *it) {
  struct termios raw = it->saved;
  cfmakeraw(&raw);
  return tcsetattr(it->input, TCSANOW, &raw) == 0 && dprintf(it->input, HED_TERMINAL_PASTE_ON) >= 0;
}

/* Which byte Backspace sends is taken from the terminal's settings. */
static bool make_parser(const server *it, terminal *terminal) {
  hed_reading reading = { .erase = terminal->saved.c_cc[VERASE] == '\b' ? HED_ERASE_BACKSPACE : HED_ERASE_DELETE };
  if (hed_parser_init_sharing(&terminal->parser, HED_DIALECT_EXTENDED, &it->table) != HED_OK) return false;
  hed_parser_set_parts(&terminal->parser, HED_TERMINAL_PASTE_MOST);
  return hed_parser_set_reading(&terminal->parser, &reading) == HED_OK;
}

/* Returns false if this can't be done: errno says why. */
static bool enter(server *it, terminal *terminal) {
  terminal->input = open(terminal->name, O_RDWR | O_NONBLOCK | O_NOCTTY | O_CLOEXEC);
  if (terminal->input >= 0 && tcgetattr(terminal->input, &terminal->saved) != 0) {
    close(terminal->input);
    terminal->input = -1;
  }
  if (terminal->input < 0) return false;
  it->open++;
  return set_raw(terminal) && make_parser(it, terminal) && watch(it, terminal->input, terminal);
}

/* Also if it was entered in part. */
static void leave(server *it, terminal *terminal) {
  if (terminal->input < 0) return;
  hed_parser_free(&terminal->parser);
  dprintf(terminal->input, HED_TERMINAL_PASTE_OFF);
  tcsetattr(terminal->input, TCSANOW, &terminal->saved);
  close(terminal->input);
  terminal->input = -1;
  it->open--;
}

/* Returns false if memory is refused: the rest is told in the next turn, and until then the parser's timeout is 0. */
static bool tell(terminal *it) {
  hed_event event;
  hed_key_press press;
  uint8_t name[64];
  size_t len;
  hed_status status;
  while ((status = hed_parser_next(&it->parser, &event)) == HED_OK)
    if (hed_parser_press(&it->parser, &event, &press) == HED_OK && hed_press_print(&press, name, sizeof name, &len) == HED_OK)
      printf("%s: %s\n", it->name, (char *)name);
  return status != HED_NO_MEMORY;
}

static void serve(server *it, terminal *terminal) {
  if (!tell(terminal)) return;
  uint64_t now = hed_terminal_now();
  uint8_t bytes[4096];
  ssize_t count = read(terminal->input, bytes, sizeof bytes);
  bool is_open = count > 0 ? hed_parser_feed(&terminal->parser, now, bytes, (size_t)count) == HED_OK : count < 0 && errno == EAGAIN;
  if (count < 0) hed_parser_idle(&terminal->parser, now);
  if (!is_open) hed_parser_end(&terminal->parser);
  tell(terminal);
  if (!is_open) leave(it, terminal);
  if (terminal->waits || hed_parser_timeout(&terminal->parser, now) < 0) return;
  terminal->waits = true;
  terminal->next = it->waiting;
  it->waiting = terminal;
}

/* Takes those from the list that wait no more. Returns how long the others may wait, in milliseconds: negative if there are none. */
static int wait_ms(server *it) {
  int least = -1;
  uint64_t now = hed_terminal_now();
  for (terminal **at = &it->waiting; *at;) {
    terminal *terminal = *at;
    int left = hed_parser_timeout(&terminal->parser, now);
    terminal->waits = left >= 0;
    if (left >= 0 && (least < 0 || left < least)) least = left;
    if (left < 0) *at = terminal->next;
    else at = &terminal->next;
  }
  return least;
}

/* Returns false once the server has to end. */
static bool turn(server *it) {
  struct epoll_event ready[READY_MOST];
  int count = epoll_wait(it->epoll, ready, READY_MOST, wait_ms(it));
  if (count < 0 && errno != EINTR) return false;
  for (int i = 0; i < count; i++) {
    if (!ready[i].data.ptr) return false;
    serve(it, ready[i].data.ptr);
  }
  for (terminal *due = it->waiting; due; due = due->next)
    if (hed_parser_timeout(&due->parser, hed_terminal_now()) == 0) serve(it, due);
  return fflush(stdout) == 0 && it->open > 0;
}

/* The signals wait to be read with the terminals, so that none comes between. */
static bool watch_signals(const server *it, sigset_t *ending) {
  static const int numbers[] = { SIGHUP, SIGINT, SIGPIPE, SIGTERM };
  for (size_t i = 0; i < sizeof numbers / sizeof *numbers; i++) sigaddset(ending, numbers[i]);
  return sigprocmask(SIG_BLOCK, ending, NULL) == 0 && watch(it, signalfd(-1, ending, SFD_CLOEXEC), NULL);
}

int main(int argc, char **argv) {
  server it = { .table = HED_PARSER_NONE, .epoll = epoll_create1(EPOLL_CLOEXEC) };
  sigset_t ending;
  if (argc < 2) {
    fputs("usage: many TERMINAL..\n", stderr);
    return 2;
  }
  size_t count = (size_t)argc - 1, entered = 0;
  terminal *terminals = calloc(count, sizeof *terminals);
  sigemptyset(&ending);
  bool is_ready = terminals && hed_parser_init(&it.table, HED_DIALECT_EXTENDED) == HED_OK && watch_signals(&it, &ending);
  if (!is_ready) perror("many");
  while (is_ready && entered < count) {
    terminal *next = &terminals[entered++];
    next->name = argv[entered];
    is_ready = enter(&it, next);
    if (!is_ready) perror(next->name);
  }
  while (is_ready && turn(&it)) continue;
  while (entered > 0) leave(&it, &terminals[--entered]);
  hed_parser_free(&it.table);
  free(terminals);
  sigprocmask(SIG_UNBLOCK, &ending, NULL); /* a signal that came ends it here */
  return is_ready ? 0 : 1;
}
