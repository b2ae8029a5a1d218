/* A server of ten terminals, whose parsers share one table: prints each key that is pressed, as "terminal 3: ctrl+x".
 *
 *     cc server.c $(pkg-config --variable=terminal hedrugal) $(pkg-config --cflags --libs hedrugal) -o server && ./server keys
 *     socat -,raw,echo=0,escape=4 UNIX:keys       # in each of them, until Ctrl-D */
#include "hedrugal_terminal.h"
#include <errno.h>
#include <poll.h>
#include <stdio.h>
#include <sys/socket.h>
#include <sys/un.h>
#include <unistd.h>

enum { TERMINALS = 10 };

/* Prints the keys that came. Returns the terminal, or -1 once it has left, or if there is no memory for what it sent. */
static int serve(int number, int terminal, hed_parser *parser) {
  uint64_t now = hed_terminal_now(); /* before the look: what isn't there by then didn't come up to now */
  uint8_t bytes[4096], name[64];
  ssize_t count = recv(terminal, bytes, sizeof bytes, MSG_DONTWAIT);
  bool is_open = count > 0 ? hed_parser_feed(parser, now, bytes, (size_t)count) == HED_OK : count < 0 && errno == EAGAIN;
  hed_event event;
  hed_key_press press;
  size_t len;
  if (count < 0) hed_parser_idle(parser, now);
  if (!is_open) hed_parser_end(parser);
  while (hed_parser_next(parser, &event) == HED_OK)
    if (hed_parser_press(parser, &event, &press) == HED_OK && hed_press_print(&press, name, sizeof name, &len) == HED_OK)
      printf("terminal %d: %s\n", number, (char *)name);
  if (!is_open) hed_parser_reset(parser);
  if (!is_open) close(terminal);
  return is_open ? terminal : -1;
}

int main(int argc, char **argv) {
  hed_parser table = HED_PARSER_NONE, parsers[TERMINALS] = { HED_PARSER_NONE };
  struct pollfd polled[TERMINALS];
  struct sockaddr_un address = { .sun_family = AF_UNIX };
  int listener = socket(AF_UNIX, SOCK_STREAM | SOCK_NONBLOCK, 0), wait = -1;
  errno = EINVAL; /* unless the path is one */
  bool is_ready = argc == 2 && snprintf(address.sun_path, sizeof address.sun_path, "%s", argv[1]) < (int)sizeof address.sun_path;
  is_ready = is_ready && !bind(listener, (struct sockaddr *)&address, sizeof address) && !listen(listener, TERMINALS);
  is_ready = is_ready && hed_parser_init(&table, HED_DIALECT_EXTENDED) == HED_OK;
  for (int i = 0; i < TERMINALS; i++) {
    polled[i] = (struct pollfd){ .fd = listener, .events = POLLIN }; /* a free place waits for a connection */
    is_ready = is_ready && hed_parser_init_sharing(&parsers[i], HED_DIALECT_EXTENDED, &table) == HED_OK;
    hed_parser_set_parts(&parsers[i], HED_TERMINAL_PASTE_MOST);
  }
  while (is_ready && poll(polled, TERMINALS, wait) >= 0) {
    wait = -1;
    for (int i = 0; i < TERMINALS; i++) {
      polled[i].fd = polled[i].fd == listener ? accept(listener, NULL, NULL) : serve(i + 1, polled[i].fd, &parsers[i]);
      if (polled[i].fd < 0) polled[i].fd = listener;
      int left = polled[i].fd == listener ? -1 : hed_parser_timeout(&parsers[i], hed_terminal_now());
      if (left >= 0 && (wait < 0 || left < wait)) wait = left;
    }
    fflush(stdout);
  }
  perror("server");
  return 1;
}
