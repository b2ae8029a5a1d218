/* The terminal of a program that reads keys: raw mode, the signals that such a program needs, and events as they come. A header and a file
 * of C99 and POSIX beside the library, which itself reads no terminal. A program compiles the file with its own:
 *
 *     cc program.c $(pkg-config --variable=terminal hedrugal) \
 *       $(pkg-config --cflags --libs hedrugal)
 *
 * This is the loop of such a program:
 *
 *     hed_parser parser = HED_PARSER_NONE;
 *     hed_event event;
 *     hed_terminal terminal;
 *     bool goes_on = true;
 *     if (hed_parser_init(&parser, HED_DIALECT_EXTENDED)) return 1;
 *     if (!hed_terminal_open(&terminal, 0, 1, HED_TERMINAL_PASTE_ON,
 *                            HED_TERMINAL_PASTE_OFF)) return 1;
 *     while (goes_on)
 *       switch (hed_terminal_next(&terminal, &parser, -1, &event)) {
 *         case HED_TERMINAL_EVENT: handle(&parser, &event); break;
 *         case HED_TERMINAL_RESIZED:
 *         case HED_TERMINAL_RESUMED: draw_all(); break;
 *         case HED_TERMINAL_NOTHING: break;
 *         default: goes_on = false;
 *       }
 *     hed_terminal_close(&terminal);
 *     hed_parser_free(&parser);
 *     hed_terminal_end();
 *
 * The same program reads every terminal: it needn't ask which keyboard protocol one speaks, and may turn Kitty's on or not. Which byte Backspace
 * sends is taken from the terminal's settings: see hed_terminal_tell_settings.
 * Scenarios: keys and pastes, keys with names, Backspace sends*
 *
 * The settings of the terminal and its modes are restored
 *
 * - by hed_terminal_close, which the program reaches at its own end and after SIGHUP, SIGINT, SIGQUIT and SIGTERM. It may still run a second
 *   after such a signal, as in a write that blocks since nobody reads what it writes. Then the signal ends it;
 * Scenarios: SIG* ends it, SIGTERM while it is *
 * - by exit, and by a return from main, if the program doesn't reach that;
 * Scenarios: an end without a close
 * - by another signal that ends it, such as SIGABRT, SIGSEGV and SIGPIPE;
 * Scenarios: SIG* ends it at once, a crash, a stack that overflows
 * - while SIGTSTP stops it, and while hed_terminal_lend lends the terminal to another program.
 * Scenarios: SIGTSTP, a lent terminal, a child that changes the settings
 *
 * In the third case, and a second after a signal, what can't be written at once is left out. Nothing can be done about SIGKILL. After SIGCONT
 * the terminal is in raw mode again, also if SIGSTOP had stopped the program.
 * Scenarios: SIGTSTP where no shell could continue it, SIGSTOP while a shell sets the terminal, SIGCONT in the background
 * Scenarios: test_signal_while_nobody_reads
 *
 * A process has one open terminal, and one thread calls. From hed_terminal_open to hed_terminal_close, but while the terminal is lent, these
 * signals, SIGCONT, SIGWINCH and SIGALRM are handled here. Those that the program ignores stay ignored, and of those of the third case the ones
 * that it handles itself stay its own. It calls no alarm. Its calls of the system go on after these signals (SA_RESTART), but for a poll of its
 * own. Handlers have a stack of their own, unless the program has set one (sigaltstack). In a forked child these calls change nothing of the
 * terminal, and signals do what they do by default.
 * Scenarios: a second terminal, a forked child*, a signal that is ignored, signals of the program, errno, descriptors of a child
 *
 * The texts that switch modes are written whole, also if the descriptor doesn't block (O_NONBLOCK). The program's stdout then loses what the
 * terminal doesn't take at once. Whether a descriptor blocks is restored with the settings.
 * Scenarios: a descriptor that *, SIGTSTP while the output is stopped
 *
 * What was typed ahead is kept for the program, and in the end for the next one, which must not get replies or mouse reports. If replies to
 * hed_terminal_ask are still to come when the terminal is left, what comes is read and thrown away up to the last of them. If none are, but mouse
 * reports are on and DA1 was answered before, DA1 is asked once more, and the same is done up to its reply. That is waited for twice as long as the
 * slowest reply to DA1 took, but at least 200 ms and at most a second. If it doesn't come, or mouse reports are on and DA1 was never answered, all
 * that came is discarded. Mouse reports are on if what hed_terminal_open writes switches them on.
 * Scenarios: typed *, replies at the end*, no reply*, a reply at *, a reply that is overdue at the end, mouse reports* */
#ifndef HEDRUGAL_TERMINAL_H
#define HEDRUGAL_TERMINAL_H

#include "hedrugal.h"

#ifdef __cplusplus
extern "C" {
#endif

/* ---- hedrugal_terminal(3): raw mode, signals and events of a program on a terminal ---- */

/* These texts switch modes on and off. A program joins those that it wants, the last one first in what switches them off. */

#define HED_TERMINAL_PASTE_ON "\033[?2004h" /* A paste is told from keys (bracketed paste). */
#define HED_TERMINAL_PASTE_OFF "\033[?2004l"
#define HED_TERMINAL_MOUSE_ON "\033[?1003h\033[?1006h" /* Mouse reports come, also of moves. */
#define HED_TERMINAL_MOUSE_OFF "\033[?1006l\033[?1003l"
#define HED_TERMINAL_FOCUS_ON "\033[?1004h" /* It is told that the window gained or lost the focus. */
#define HED_TERMINAL_FOCUS_OFF "\033[?1004l"
#define HED_TERMINAL_SCREEN_ON "\033[?1049h" /* The program has a screen of its own (the alternate screen). */
#define HED_TERMINAL_SCREEN_OFF "\033[?1049l"
#define HED_TERMINAL_KITTY_ON(flags) \
  "\033[>" #flags "u" /* Kitty's keyboard protocol, with a sum of HED_KITTY_FLAG_.. in digits, as HED_TERMINAL_KITTY_ON(5). */
#define HED_TERMINAL_KITTY_OFF "\033[<u"
#define HED_TERMINAL_MODIFY_OTHER_KEYS_ON(level) \
  "\033[>4;" #level                              \
  "m" /* Characters with modifiers come as sequences (xterm's modifyOtherKeys): at level 1 those that are ambiguous, at 2 all. */
#define HED_TERMINAL_MODIFY_OTHER_KEYS_OFF "\033[>4m"

enum {
  HED_TERMINAL_TEXT_MOST = 511, /* The most bytes of a text that switches modes. */
  HED_TERMINAL_PASTE_MOST = 1 << 20 /* The limit of parts that hed_terminal_next sets: a longer paste is told in parts. */
};

/* A terminal that is open, or why none is. hed_terminal_open writes it. A program may read the fields that are described; the others are for
 * these calls. */
typedef struct hed_terminal {
  const char *failure; /* why the last call failed, in words; errno is the system's number for it */
  int wake; /* readable once a signal came: a loop of the program's own watches it */
  int input, output; /* the descriptors, of which such a loop watches input */
  bool has_ended, is_back, was_away, has_told;
  int error;
  size_t unfed;
  uint8_t bytes[4096];
} hed_terminal;

/* What came: hed_terminal_next, hed_terminal_wait and hed_terminal_heed return it. With the last three the program ends. */
enum hed_terminal_event {
  HED_TERMINAL_NOTHING, /* Nothing came in time. A signal or an overdue reply may end the wait earlier, so the program asks what is due. */
  HED_TERMINAL_INPUT, /* Bytes can be read, or the input has ended. hed_terminal_next reads them itself. */
  HED_TERMINAL_EVENT, /* An event was written. */
  HED_TERMINAL_RESIZED, /* The terminal has a new size. */
  HED_TERMINAL_RESUMED, /* Another program had the terminal: it may have drawn on it, and the size may be new. */
  HED_TERMINAL_ENDED, /* The input has ended, as when the terminal was closed, and all of its events were told. */
  HED_TERMINAL_ENDING, /* A signal ends the program: it closes the terminal, and calls hed_terminal_end. */
  HED_TERMINAL_FAILED /* The program can't go on, and terminal->failure says why. */
};

/* Sets raw mode, handles the signals, and writes a text that switches modes on, such as HED_TERMINAL_PASTE_ON: enter. leave is what switches
 * them off, in the opposite order. Both are copied, and may be empty.
 *
 * input and output are descriptors of one terminal: 0 and 1, or twice that of /dev/tty if these may be files or pipes. The program keeps them
 * open until the terminal is closed. What was typed ahead is kept. Ctrl-C, Ctrl-Z and Ctrl-\ are keys like any other (ISIG is off), and Enter is
 * CR (ICRNL is off). A line that is written still ends with LF (OPOST is as it was).
 *
 * Returns false if a descriptor is no terminal's, a terminal is open already, a text has more than HED_TERMINAL_TEXT_MOST bytes, or a call of
 * the system fails. Then the terminal is unchanged, and terminal->failure says why.
 * Scenarios: settings that change bytes, Ctrl with C and Z, typed ahead of the opening, an opening that fails */
bool hed_terminal_open(hed_terminal *terminal, int input, int output, const char *enter, const char *leave);

/* Writes what stdout holds, and the text that switches modes off, and restores the settings, unless another program has the terminal. Waits for
 * replies that are still to come, for a second at most. Signals are handled as before the terminal was opened, but by handlers that the program has
 * set since. If no terminal is open, it does nothing.
 * Scenarios: half a line*, a handler that is set meanwhile */
void hed_terminal_close(hed_terminal *terminal);

/* Ends the program by the signal that ends it, as a program ends that handles none: so its parent sees why. Returns if none came.
 * Scenarios: SIG* ends it, SIGTSTP and SIGTERM */
void hed_terminal_end(void);

/* Has the parser read by the terminal's settings. The byte that Backspace sends is 8 if VERASE was 8, and else 127. Byte 10 is Ctrl-J, since raw
 * mode switches ICRNL off. The rest of its reading stays. hed_terminal_next does this once, before the first event. So a program calls this if it
 * feeds its parser itself, or makes another parser.
 *
 * Returns false if no terminal is open, or there is no parser: then nothing changed.
 * Scenarios: Backspace sends*, Enter after* */
bool hed_terminal_tell_settings(hed_terminal *terminal, hed_parser *parser);

/* Waits for the next event, and writes it to *event. It reads the terminal, keeps the parser's limits in time, and ends the parser at the end of
 * the input. Nothing else feeds this parser. The first call sets how it reads, as hed_terminal_tell_settings does, and HED_TERMINAL_PASTE_MOST as
 * its limit of parts. What stdout holds is written before a wait.
 *
 * If another program had the terminal, it calls hed_parser_interrupted once what came before is told. After a stop by SIGSTOP alone, if the
 * settings are as they were, it goes on as if nothing had happened.
 *
 * Returns HED_TERMINAL_EVENT, or what came before an event did. After so many milliseconds that is HED_TERMINAL_NOTHING; a negative number is for
 * ever. With HED_TERMINAL_FAILED no byte is lost: if memory was refused, the call may be made again.
 * Scenarios: bytes *, a key that is due after a stop, SIG* in a *, lent after*, memory that is refused, the end of the input*
 * Scenarios: a look that does not wait, test_output_that_cannot_be_written, test_terminal_that_is_gone */
enum hed_terminal_event hed_terminal_next(hed_terminal *terminal, hed_parser *parser, int milliseconds, hed_event *event);

/* Asks the terminal: writes what stdout holds, the questions, and DA1 (ESC [c). This counts as one question of hed_questions_ask, which is open for
 * two seconds at most. Replies are events of hed_terminal_next, that to DA1 too, and it notes each of them. If another program had the terminal,
 * only the questions that were asked since are open.
 *
 * Returns false if no terminal is open, there is no parser, HED_QUESTIONS_MOST questions are open, or the terminal can't be written. Then no question
 * was asked.
 * Scenarios: several questions, too many questions, a question *, questions before *, a terminal that does not answer
 * Scenarios: a reply while memory is refused */
bool hed_terminal_ask(hed_terminal *terminal, hed_parser *parser, const char *questions);

/* Returns how many questions are open. At 0 the last one is over. At 1 the replies that come next are its own, and at more those of an earlier one.
 * Scenarios: questions that are owed, replies that are *, late replies* */
size_t hed_terminal_owed(const hed_terminal *terminal);

/* Returns how many milliseconds a loop of the program's own may wait before it calls hed_terminal_next again. A negative number is for ever. It
 * is the shorter of what hed_parser_timeout and hed_questions_timeout say, or 0 if something is left to be told.
 * Scenarios: keys and pastes */
int hed_terminal_timeout(hed_terminal *terminal, const hed_parser *parser);

/* Waits until bytes can be read, a signal comes, or so many milliseconds have passed. A negative number is for ever. It is for a program that
 * reads by itself. SIGTSTP stops the program in this call. Signals go first. What stdout holds isn't written: the caller does that before. After
 * HED_TERMINAL_RESUMED the caller calls hed_parser_interrupted.
 * Scenarios: a wait that looks at nothing, * cut after ESC, * that is cut, Alt and * */
enum hed_terminal_event hed_terminal_wait(hed_terminal *terminal, int milliseconds);

/* Reads what the terminal sent, at most room bytes, and writes their number to *count: 0 if there is nothing after all.
 *
 * Returns false at the end of the input, with terminal->failure as NULL. It also returns false if the input can't be read, as when the terminal is
 * gone: then terminal->failure says why.
 * Scenarios: a read where nothing came */
bool hed_terminal_read(hed_terminal *terminal, uint8_t *bytes, size_t room, size_t *count);

/* Handles the signals that came. It is for a program that has other descriptors too, and polls terminal->input and terminal->wake itself. Such a
 * program calls this once terminal->wake is readable, or hed_terminal_next with 0 milliseconds until that returns HED_TERMINAL_NOTHING.
 *
 * Returns what hed_terminal_wait would, and HED_TERMINAL_NOTHING if no signal is left to be handled.
 * Scenarios: a new size*, SIGTSTP and a new size */
enum hed_terminal_event hed_terminal_heed(hed_terminal *terminal);

/* Lends the terminal to another program that this one runs and waits for, such as an editor: writes what stdout holds, and restores settings and
 * modes. If it is lent, or none is open, it does nothing.
 * Scenarios: a lent terminal, lent after* */
void hed_terminal_lend(hed_terminal *terminal);

/* Sets raw mode and the modes again, whatever another program left, also if the terminal wasn't lent to it. The next call of
 * hed_terminal_next, hed_terminal_wait or hed_terminal_heed returns HED_TERMINAL_RESUMED, as after a stop: so a program draws all anew in one place.
 *
 * Returns false if it fails, as when the terminal is gone.
 * Scenarios: a lent terminal, a terminal that is taken back */
bool hed_terminal_take_back(hed_terminal *terminal);

/* Switches the modes off that are on, and then others on: enter and leave take the place of the texts that hed_terminal_open was given, also after a
 * stop and at the end. So a program asks its terminal first, and then switches on what it has, such as Kitty's keyboard protocol. While another
 * program has the terminal, nothing is written until this one has it again.
 *
 * Returns false if no terminal is open, a text has more than HED_TERMINAL_TEXT_MOST bytes, or the terminal can't be written. Unless it is that, the
 * texts are as before.
 * Scenarios: test_best_protocol, test_protocol_over_a_stop */
bool hed_terminal_switch(hed_terminal *terminal, const char *enter, const char *leave);

/* The size of a terminal. */
typedef struct hed_size {
  uint16_t columns, rows; /* in characters */
  uint16_t width, height; /* in pixels, 0 where that isn't known */
} hed_size;

/* Writes the size of the terminal that the descriptor is of, such as 1, to *size.
 *
 * Returns false if it isn't known, as on a serial line. Then nothing is written.
 * Scenarios: a size in pixels */
bool hed_terminal_size(int output, hed_size *size);

/* Returns the time in milliseconds, by a clock that nobody sets: as the calls of a parser are given it.
 * Scenarios: a clock that nobody sets */
uint64_t hed_terminal_now(void);

#ifdef __cplusplus
}
#endif
#endif
