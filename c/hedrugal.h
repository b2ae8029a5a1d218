/* Key, mouse and paste events, and replies, from the bytes that a terminal sends, and the bytes that it sends for them. Names of keys, and
 * bindings of chords. The library does no input of its own and reads no clock: a program waits and reads, and passes on what came and when.
 * This one prints the keys of its standard input, a terminal or a file:
 *
 *     #define _POSIX_C_SOURCE 200809L
 *     #include <hedrugal.h>
 *     #include <poll.h>
 *     #include <stdio.h>
 *     #include <time.h>
 *     #include <unistd.h>
 *
 *     static uint64_t now_ms(void) {
 *       struct timespec now;
 *       clock_gettime(CLOCK_MONOTONIC, &now);
 *       return (uint64_t)now.tv_sec * 1000 + (uint64_t)now.tv_nsec / 1000000;
 *     }
 *
 *     static void print_keys(hed_parser *parser) {
 *       hed_event event;
 *       while (hed_parser_next(parser, &event) == HED_OK) {
 *         char name[22];
 *         if (event.kind != HED_KIND_KEY) continue;
 *         hed_key_name(event.key, (uint8_t *)name, sizeof name);
 *         fputs(name, stdout);
 *         puts(event.modifiers & HED_KITTY_MOD_CTRL ? " with Ctrl" : "");
 *       }
 *     }
 *
 *     int main(void) {
 *       hed_parser parser = HED_PARSER_NONE;
 *       struct pollfd input = { .fd = 0, .events = POLLIN };
 *       uint8_t bytes[4096];
 *       if (hed_parser_init(&parser, HED_DIALECT_EXTENDED) != HED_OK) return 1;
 *       for (;;) {
 *         print_keys(&parser);
 *         if (poll(&input, 1, hed_parser_timeout(&parser, now_ms())) == 0) {
 *           hed_parser_idle(&parser, now_ms()); // what is buffered may be due
 *           continue;
 *         }
 *         ssize_t n = read(0, bytes, sizeof bytes);
 *         if (n <= 0) break;
 *         if (hed_parser_feed(&parser, now_ms(), bytes, (size_t)n)) return 1;
 *       }
 *       hed_parser_end(&parser);
 *       print_keys(&parser);
 *       hed_parser_free(&parser);
 *       return 0;
 *     }
 *
 * It is compiled and linked with what `pkg-config --cflags --libs hedrugal` prints.
 *
 * hed_parser_feed buffers bytes, and hed_parser_next tells events, one at a time. However the bytes are cut into calls, the events are the same.
 * An ESC stays buffered, since it may begin a sequence: only time tells that it is the Escape key. hed_parser_timeout says how long the program
 * may wait for more bytes, and hed_parser_idle that none came. Times are in milliseconds, of a clock that nobody sets, such as CLOCK_MONOTONIC. A
 * time before that of an earlier call counts as the same. A program without a clock passes 0, calls hed_parser_flush at its pauses and
 * hed_parser_end at the end.
 *
 * Mouse reports, pastes as such, and changes of the focus come only if the program switches them on. The file hedrugal_terminal.c beside the
 * library does that, and has raw mode, signals and the loop too.
 *
 * A call that returns a hed_status returns HED_OK, which is 0, if it did what it says, and else why not. Then it changed and wrote nothing, but
 * for what is said of it.
 *
 * The bodies of the calls are proved. The duties of a caller are not checked:
 *
 * - A pointer of length 0 may be NULL. Every other pointer must be non-null.
 * - Two pointers of one call must not lead to the same memory, but for a table that parsers share. Each leads to as much as its type or
 *   length says.
 * - A hed_parser, a hed_keymap and a hed_bindings are all zero (HED_PARSER_NONE, HED_KEYMAP_NONE, HED_BINDINGS_NONE) or as a call of this
 *   library left them. What is said here of a map holds of bindings too.
 * - Any thread may call, but no two calls on the same parser or the same map may run at the same time, not even two that only read.
 *   Parsers that share a table are different parsers.
 * - A parser or a map that one thread has used may be used by another once the two are ordered, as by a lock or by a join.
 * - No call is made in a signal handler nor, if the program has threads, in a forked child before it calls exec: the calls ask malloc.
 * - A bool is false or true.
 *
 * The caller owns all memory that it passes. The library keeps no pointer to it, and reads and writes nothing else of the caller's. A call
 * with a const pointer to a parser or a map changes neither the struct nor what it leads to, but for the number of parsers that share its
 * table. What a parser or a map owns it gets from malloc and realloc, and hed_parser_free, hed_keymap_free or hed_bindings_free frees it.
 * That what it owns may pass from thread to thread is proved.
 *
 * The library is built for Linux on x86-64 and on 64-bit ARM, and so are its layouts: for anything else this header doesn't compile. A number
 * never changes its meaning. */
#ifndef HEDRUGAL_H
#define HEDRUGAL_H

#if !defined(__linux__) || !(defined(__x86_64__) || defined(__aarch64__)) || defined(__ILP32__) || defined(__AARCH64EB__)
#error "hedrugal.h: the library is built for Linux on x86-64 and on little-endian 64-bit ARM, and this compiler builds for something else"
#endif

#include <stdbool.h>
#include <stddef.h>
#include <stdint.h>

/* ---- hedrugal(3): key, mouse and paste events from the bytes that a terminal sends ---- */

/* The version of this header, and of the library that lies beside it. The first number is also in the name by which programs ask for the
 * shared library, libhedrugal.so.0. */
#define HED_VERSION_MAJOR 0
#define HED_VERSION_MINOR 1
#define HED_VERSION_PATCH 0
#define HED_VERSION "0.1.0"

/* The version in one number, which grows with it: 65536 times the first number, 256 times the second, and the third. */
#define HED_VERSION_NUMBER (HED_VERSION_MAJOR * 65536 + HED_VERSION_MINOR * 256 + HED_VERSION_PATCH)

#ifdef __cplusplus
extern "C" {
#endif

/* Returns the version of the library that is linked, as HED_VERSION_NUMBER has that of the header. */
uint32_t hed_version(void);

/* What a call did: HED_OK, or why it did nothing. */
typedef uint32_t hed_status;
enum {
  HED_OK = 0, /* The call did what it says. */
  HED_NONE = 1, /* There is nothing more, or nothing was found. */
  HED_NO_MEMORY = 2, /* Memory was refused. The call may be made again. */
  HED_BAD_NUMBER = 3, /* A number stands for nothing. */
  HED_BUSY = 4, /* Events are left: call hed_parser_next until it returns HED_NONE, and then make the call again. */
  HED_NOT_INITIALIZED = 5, /* There is no parser, no map or no bindings: they weren't made yet, or they were freed. */
  HED_REFUSED_KEY = 6, /* The key has no text. Of hed_encode it is a function key, since only F1 to F24 have one. */
  HED_NO_TEXT = 7, /* No bytes are read as the event. */
  HED_TOO_LONG = 8, /* The bytes would be more than a sequence or a string may have. */
  HED_BAD_TEXT = 9, /* The text isn't UTF-8. */
  HED_TOO_FAR = 10, /* The place of the mouse report is above 223, which its encoding can't tell. */
  HED_AMBIGUOUS = 11, /* A key of the map is a prefix of the text, and the text is a prefix of a longer one. */
  HED_NEED_DATA = 12, /* No key of the map is a prefix of the text, but the text is a prefix of some key. */
  HED_FULL = 13, /* No more fits: 32 presses are pending, or 16 questions are open. */
  HED_NAME_CONTROL_CHARACTER = 20, /* A control character but the tab is in the text. */
  HED_NAME_MODIFIER_TWICE = 21, /* A modifier is there twice, as in `M-A-x`. */
  HED_NAME_UNKNOWN_MODIFIER = 22, /* A word before `+` or `-` is no modifier, as in `foo+x`. */
  HED_NAME_MISSING_KEY = 23, /* No key stands behind the modifiers, as in `ctrl+`. */
  HED_NAME_BAD_NUMBER = 24, /* A number names no key, as in `f256`, `f01`, `kitty1` or `U+D800`. */
  HED_NAME_UNKNOWN_NAME = 25, /* No key has this name. */
  HED_NAME_AMBIGUOUS = 26, /* `DEL` in capitals is Backspace to Emacs, and Delete to others: write `backspace` or `delete`. */
  HED_NAME_NOT_A_KEY = 27, /* The key makes no press by itself, as a modifier or a lock. */
  HED_NAME_SHIFTED_CHARACTER = 28, /* Shift with a sign that shows it, as in `shift+!`: write the sign alone. */
  HED_NAME_TOO_LONG = 29, /* A chord has at most 32 keys, and this is the 33rd. */
  HED_NAME_EMPTY = 30 /* No key is in the text. */
};

/* ---- hedrugal_events(3): events, keys and modifiers ---- */

/* The kinds of events: the field kind of a hed_event. docs/EXTENDED.md says which bytes are which. */
enum hed_kind {
  HED_KIND_OTHER = 0, /* None of these. No event has this kind. */
  HED_KIND_KEY = 1, /* A key: it was typed, or reported with what happened to it. */
  HED_KIND_MOUSE = 2, /* The mouse was moved, one of its buttons was pressed or released, or a wheel was turned. */
  HED_KIND_PASTE = 3, /* Text was pasted, in bracketed paste mode. */
  HED_KIND_FOCUS_GAINED = 5, /* The terminal's window gained the focus (mode 1004). */
  HED_KIND_FOCUS_LOST = 6, /* The terminal's window lost the focus. */
  HED_KIND_CURSOR_POSITION = 7, /* The reply to a question for the cursor's position. */
  HED_KIND_RESIZED = 8, /* The terminal has a new size (mode 2048). */
  HED_KIND_KEYBOARD_FLAGS = 9, /* The reply to a question for the flags of Kitty's keyboard protocol. */
  HED_KIND_CSI = 10, /* Any other control sequence. */
  HED_KIND_OSC = 11, /* An operating system command, such as the reply to a question for a colour. */
  HED_KIND_DCS = 12, /* A device control string, such as the reply to a question for the terminal's name and version. */
  HED_KIND_APC = 13, /* An application program command, such as a reply of Kitty's graphics protocol. */
  HED_KIND_PASTE_PART = 14, /* Text of a paste whose end is still to come. */
  HED_KIND_STRING_PART = 15, /* The first bytes of a long string whose end is still to come. */
  HED_KIND_STRING_CUT = 16 /* A string that was cut off before its end. */
};

/* An event. What its kind doesn't have is 0. The mouse's buttons have numbers: 1 to 3 are the left, middle and right one, 4 to 7 a wheel that is
 * turned up, down, left and right, and 8 to 11 side buttons. */
typedef struct hed_event {
  uint8_t kind; /* an enum hed_kind */
  uint8_t modifiers; /* HED_KIND_KEY, HED_KIND_MOUSE: a set of HED_KITTY_MOD_.. */
  uint8_t key_event_kind; /* HED_KIND_KEY: an enum hed_key_event_kind */
  uint8_t mouse_kind; /* HED_KIND_MOUSE: an enum hed_mouse_kind */
  uint8_t button; /* HED_KIND_MOUSE: the number of the button that the report names, 0 if it names none */
  uint8_t buttons; /* HED_KIND_MOUSE: those that are down, a set of HED_BUTTON_..: none after a release, for a move and a side button */
  uint8_t flags; /* HED_KIND_KEYBOARD_FLAGS: a set of HED_KITTY_FLAG_.. */
  uint8_t string_kind; /* HED_KIND_STRING_PART, HED_KIND_STRING_CUT: HED_KIND_OSC, _DCS or _APC */
  uint16_t key; /* HED_KIND_KEY: an enum hed_key, or 0 for a key that has no name there, or for text that no key typed */
  uint16_t x; /* HED_KIND_MOUSE: the column, as the terminal sent it: the leftmost is 1 */
  uint16_t y; /* HED_KIND_MOUSE: the row, as the terminal sent it: the topmost is 1 */
  uint16_t row; /* HED_KIND_CURSOR_POSITION: the row, as the terminal sent it: the topmost is 1 */
  uint16_t column; /* HED_KIND_CURSOR_POSITION: the column, as the terminal sent it: the leftmost is 1 */
  uint16_t rows; /* HED_KIND_RESIZED: the number of rows */
  uint16_t columns; /* HED_KIND_RESIZED: the number of columns */
  uint16_t height; /* HED_KIND_RESIZED: the height in pixels */
  uint16_t width; /* HED_KIND_RESIZED: the width in pixels */
  uint32_t detail; /* HED_KIND_KEY: HED_KEY_CHAR's code point, HED_KEY_FUNCTION's number (1 for F1), key 0's in Kitty's table; else 0 */
  uint32_t shifted; /* HED_KIND_KEY: the code point that the key types with Shift, or HED_NO_CODE */
  uint32_t base; /* HED_KIND_KEY: the code point that the key at this place types on the standard layout (PC-101), or HED_NO_CODE */
  size_t text_len; /* the number of bytes that the event brought, which hed_parser_text copies: see there */
} hed_event;

/* The code point in shifted and base of a hed_event, if the terminal didn't report one. */
#define HED_NO_CODE 0xffffffffu

/* What happened to a key: the field key_event_kind of a hed_event. */
enum hed_key_event_kind {
  HED_KEY_EVENT_KIND_PRESS = 1, /* It was pressed. */
  HED_KEY_EVENT_KIND_REPEAT = 2, /* It was held down so long that it repeats. */
  HED_KEY_EVENT_KIND_RELEASE = 3 /* It was released. */
};

/* What happened to the mouse: the field mouse_kind of a hed_event. */
enum hed_mouse_kind {
  HED_MOUSE_KIND_PRESS = 1, /* A button was pressed. */
  HED_MOUSE_KIND_RELEASE = 2, /* A button was released. Only SGR reports (mode 1006) tell which. */
  HED_MOUSE_KIND_DRAG = 3, /* The mouse was moved while a button was down. */
  HED_MOUSE_KIND_MOVE = 4, /* The mouse was moved, and no button is down. */
  HED_MOUSE_KIND_WHEEL = 5 /* A wheel was turned. */
};

/* The modifiers by Kitty's bits, as a set: the field modifiers of a hed_event, and held of a hed_key_press. Only hed_encode has others, those
 * of enum hed_termwiz_mod. */
enum hed_kitty_mod {
  HED_KITTY_MOD_NONE = 0, /* No modifier. */
  HED_KITTY_MOD_SHIFT = 1, /* Shift. */
  HED_KITTY_MOD_ALT = 2, /* Alt. */
  HED_KITTY_MOD_CTRL = 4, /* Ctrl. */
  HED_KITTY_MOD_SUPER = 8, /* Super: the key with the Windows logo, or Command. */
  HED_KITTY_MOD_HYPER = 16, /* Hyper. */
  HED_KITTY_MOD_META = 32, /* Meta. */
  HED_KITTY_MOD_CAPS_LOCK = 64, /* Caps Lock is on. */
  HED_KITTY_MOD_NUM_LOCK = 128 /* Num Lock is on. */
};

/* The buttons and wheels of the mouse, as a set: the field buttons of a hed_event. */
enum hed_button {
  HED_BUTTON_NONE = 0, /* No button and no wheel. */
  HED_BUTTON_LEFT = 2, /* The left button. */
  HED_BUTTON_RIGHT = 4, /* The right button. */
  HED_BUTTON_MIDDLE = 8, /* The middle button. */
  HED_BUTTON_VERT_WHEEL = 16, /* The wheel that scrolls up and down. It was turned up if WHEEL_POSITIVE is set too, and down if not. */
  HED_BUTTON_HORZ_WHEEL = 32, /* The wheel that scrolls to the sides. It was turned left if WHEEL_POSITIVE is set too, and right if not. */
  HED_BUTTON_WHEEL_POSITIVE = 64 /* Set with a wheel that was turned up or left. */
};

/* The flags of Kitty's keyboard protocol, as a set: the field flags of a hed_event, kitty_flags of a hed_modes, and what hed_encode_kitty is
 * given. */
enum hed_kitty_flag {
  HED_KITTY_FLAG_NONE = 0, /* Nothing is asked for. */
  HED_KITTY_FLAG_DISAMBIGUATE_ESCAPE_CODES = 1, /* Keys whose plain text is ambiguous, as that of Escape, are reported as escape codes. */
  HED_KITTY_FLAG_REPORT_EVENT_TYPES = 2, /* Repeats and releases of a key are reported, and not presses alone. */
  HED_KITTY_FLAG_REPORT_ALTERNATE_KEYS = 4, /* A key is reported with its shifted code and with its code on the standard layout. */
  HED_KITTY_FLAG_REPORT_ALL_KEYS_AS_ESCAPE_CODES = 8, /* Keys that make text are reported as escape codes too. */
  HED_KITTY_FLAG_REPORT_ASSOCIATED_TEXT = 16 /* A key that makes text is reported with that text. */
};

/* The keys, in the order of termwiz's KeyCode: the field key of a hed_event, and what hed_key_name and hed_encode are given. */
enum hed_key {
  HED_KEY_CHAR = 1, /* A key that types a character: `A` is what Shift-A types, and Ctrl-C is `c` with CTRL. */
  HED_KEY_HYPER = 2, /* Hyper, a modifier key. */
  HED_KEY_SUPER = 3, /* Super, a modifier key: on most keyboards the one with the Windows logo, or Command. */
  HED_KEY_META = 4, /* Meta, a modifier key. The key that is labelled Alt is `Alt`. */
  HED_KEY_CANCEL = 5, /* Cancel, which on PC keyboards is Ctrl-Break. */
  HED_KEY_BACKSPACE = 6, /* Backspace, which deletes the character before the cursor. */
  HED_KEY_TAB = 7, /* Tab. Shift-Tab is this key with SHIFT. */
  HED_KEY_CLEAR = 8, /* Clear, which on PC keyboards is the 5 of the keypad while Num Lock is off. */
  HED_KEY_ENTER = 9, /* Enter, also called Return. */
  HED_KEY_SHIFT = 10, /* Shift, where it isn't known which of the two. */
  HED_KEY_ESCAPE = 11, /* Escape. */
  HED_KEY_LEFT_SHIFT = 12, /* The left Shift key. */
  HED_KEY_RIGHT_SHIFT = 13, /* The right Shift key. */
  HED_KEY_CONTROL = 14, /* Ctrl, where it isn't known which of the two. */
  HED_KEY_LEFT_CONTROL = 15, /* The left Ctrl key. */
  HED_KEY_RIGHT_CONTROL = 16, /* The right Ctrl key. */
  HED_KEY_ALT = 17, /* Alt, or Option, where it isn't known which of the two. */
  HED_KEY_LEFT_ALT = 18, /* The left Alt key. */
  HED_KEY_RIGHT_ALT = 19, /* The right Alt key, also called AltGr. */
  HED_KEY_MENU = 20, /* Menu, Windows' name for Alt (`VK_MENU`). The key that opens a context menu is `Applications`. */
  HED_KEY_LEFT_MENU = 21, /* Windows' name for the left Alt key (`VK_LMENU`). */
  HED_KEY_RIGHT_MENU = 22, /* Windows' name for the right Alt key (`VK_RMENU`). */
  HED_KEY_PAUSE = 23, /* Pause. */
  HED_KEY_CAPS_LOCK = 24, /* Caps Lock. */
  HED_KEY_PAGE_UP = 25, /* Page Up. */
  HED_KEY_PAGE_DOWN = 26, /* Page Down. */
  HED_KEY_END = 27, /* End. */
  HED_KEY_HOME = 28, /* Home. */
  HED_KEY_LEFT_ARROW = 29, /* The left arrow key. */
  HED_KEY_RIGHT_ARROW = 30, /* The right arrow key. */
  HED_KEY_UP_ARROW = 31, /* The up arrow key. */
  HED_KEY_DOWN_ARROW = 32, /* The down arrow key. */
  HED_KEY_SELECT = 33, /* Select, as on the VT220's editing keypad. */
  HED_KEY_PRINT = 34, /* Print (`VK_PRINT`), which few keyboards have. It isn't `PrintScreen`. */
  HED_KEY_EXECUTE = 35, /* Execute (`VK_EXECUTE`), which few keyboards have. */
  HED_KEY_PRINT_SCREEN = 36, /* Print Screen. */
  HED_KEY_INSERT = 37, /* Insert. */
  HED_KEY_DELETE = 38, /* Delete, which deletes the character at the cursor. */
  HED_KEY_HELP = 39, /* Help. */
  HED_KEY_LEFT_WINDOWS = 40, /* The left key with the Windows logo. */
  HED_KEY_RIGHT_WINDOWS = 41, /* The right key with the Windows logo. */
  HED_KEY_APPLICATIONS = 42, /* The Applications key, which opens a context menu. */
  HED_KEY_SLEEP = 43, /* Sleep, which suspends the computer. */
  HED_KEY_NUMPAD_0 = 44, /* The 0 of the numeric keypad, while Num Lock is on. */
  HED_KEY_NUMPAD_1 = 45, /* The 1 of the numeric keypad, while Num Lock is on. */
  HED_KEY_NUMPAD_2 = 46, /* The 2 of the numeric keypad, while Num Lock is on. */
  HED_KEY_NUMPAD_3 = 47, /* The 3 of the numeric keypad, while Num Lock is on. */
  HED_KEY_NUMPAD_4 = 48, /* The 4 of the numeric keypad, while Num Lock is on. */
  HED_KEY_NUMPAD_5 = 49, /* The 5 of the numeric keypad, while Num Lock is on. */
  HED_KEY_NUMPAD_6 = 50, /* The 6 of the numeric keypad, while Num Lock is on. */
  HED_KEY_NUMPAD_7 = 51, /* The 7 of the numeric keypad, while Num Lock is on. */
  HED_KEY_NUMPAD_8 = 52, /* The 8 of the numeric keypad, while Num Lock is on. */
  HED_KEY_NUMPAD_9 = 53, /* The 9 of the numeric keypad, while Num Lock is on. */
  HED_KEY_MULTIPLY = 54, /* The `*` of the numeric keypad. */
  HED_KEY_ADD = 55, /* The `+` of the numeric keypad. */
  HED_KEY_SEPARATOR = 56, /* The thousands separator of the numeric keypad, on keyboards that have one. */
  HED_KEY_SUBTRACT = 57, /* The `-` of the numeric keypad. */
  HED_KEY_DECIMAL = 58, /* The decimal point of the numeric keypad. */
  HED_KEY_DIVIDE = 59, /* The `/` of the numeric keypad. */
  HED_KEY_FUNCTION = 60, /* A function key, by its number: F1 has the number 1. */
  HED_KEY_NUM_LOCK = 61, /* Num Lock. */
  HED_KEY_SCROLL_LOCK = 62, /* Scroll Lock. */
  HED_KEY_COPY = 63, /* A key of its own for copying. */
  HED_KEY_CUT = 64, /* A key of its own for cutting. */
  HED_KEY_PASTE = 65, /* A key of its own for pasting. Text that was pasted comes as an event of its own kind. */
  HED_KEY_BROWSER_BACK = 66, /* Back, for a web browser. */
  HED_KEY_BROWSER_FORWARD = 67, /* Forward, for a web browser. */
  HED_KEY_BROWSER_REFRESH = 68, /* Refresh, for a web browser. */
  HED_KEY_BROWSER_STOP = 69, /* Stop loading, for a web browser. */
  HED_KEY_BROWSER_SEARCH = 70, /* Search, for a web browser. */
  HED_KEY_BROWSER_FAVORITES = 71, /* Favorites, for a web browser. */
  HED_KEY_BROWSER_HOME = 72, /* Home page, for a web browser. */
  HED_KEY_VOLUME_MUTE = 73, /* Mute the sound. */
  HED_KEY_VOLUME_DOWN = 74, /* Turn the volume down. */
  HED_KEY_VOLUME_UP = 75, /* Turn the volume up. */
  HED_KEY_MEDIA_NEXT_TRACK = 76, /* Skip to the next track. */
  HED_KEY_MEDIA_PREV_TRACK = 77, /* Skip to the previous track. */
  HED_KEY_MEDIA_STOP = 78, /* Stop playing. */
  HED_KEY_MEDIA_PLAY_PAUSE = 79, /* Play, or pause. */
  HED_KEY_APPLICATION_LEFT_ARROW = 80, /* The left arrow key while the terminal is in application cursor mode (DECCKM). */
  HED_KEY_APPLICATION_RIGHT_ARROW = 81, /* The right arrow key in application cursor mode. */
  HED_KEY_APPLICATION_UP_ARROW = 82, /* The up arrow key in application cursor mode. */
  HED_KEY_APPLICATION_DOWN_ARROW = 83, /* The down arrow key in application cursor mode. */
  HED_KEY_KEY_PAD_HOME = 84, /* Home on the numeric keypad: the 7 while Num Lock is off. */
  HED_KEY_KEY_PAD_END = 85, /* End on the numeric keypad: the 1 while Num Lock is off. */
  HED_KEY_KEY_PAD_PAGE_UP = 86, /* Page Up on the numeric keypad: the 9 while Num Lock is off. */
  HED_KEY_KEY_PAD_PAGE_DOWN = 87, /* Page Down on the numeric keypad: the 3 while Num Lock is off. */
  HED_KEY_KEY_PAD_BEGIN = 88, /* Begin on the numeric keypad: the 5 while Num Lock is off. */
  HED_KEY_INTERNAL_PASTE_START = 89, /* The start of a bracketed paste. No event carries it: the paste comes as one event. */
  HED_KEY_INTERNAL_PASTE_END = 90 /* The end of a bracketed paste, where none was started. */
};

/* Copies the name of a key to out, at most len bytes of it: "LeftArrow" for HED_KEY_LEFT_ARROW, "Char" for HED_KEY_CHAR. If a byte more
 * fits, a final 0 follows, so with 22 bytes every name is a string. The rest of out is unchanged.
 *
 * Returns the number of bytes of the whole name without the 0, at most 21. For a number that is no key's it returns 0, and out is
 * unchanged. */
size_t hed_key_name(uint16_t key, uint8_t *out, size_t len);

/* ---- hedrugal_parser(3): parsers, which read bytes as events ---- */

/* A parser, or none. Its fields are the library's. It may be moved, as by memcpy, and is then used at its new place alone: of two
 * copies only one may ever be used, and only one freed. */
typedef struct hed_parser {
  bool live;
  void *state;
} hed_parser;

/* The value of a hed_parser that is none. */
#define HED_PARSER_NONE \
  { false, NULL }

/* By which grammar a parser reads: what hed_parser_init is given. Pass HED_DIALECT_EXTENDED: it reads every protocol and mode, so a program
 * never has to know which its terminal speaks. HED_DIALECT_TERMWIZ is for programs that must read just what termwiz reads. */
enum hed_dialect {
  HED_DIALECT_EXTENDED = 0, /* What terminals send in any mode. For every program. */
  HED_DIALECT_TERMWIZ = 1 /* What termwiz reads, and nothing else: the other fields of a reading say nothing then. */
};

/* Makes a parser with an empty buffer. If there was one, it is freed. The caller owes a hed_parser_free. Pass HED_DIALECT_EXTENDED, whatever
 * the terminal is and whatever protocol or mode the program turns on.
 *
 * A parser takes some half a millisecond to make, and some 240 KB, most of it a table of sequences. So make one and keep it:
 * hed_parser_reset empties its buffer, and further parsers share its table by hed_parser_init_sharing.
 *
 * Returns HED_OK, HED_NO_MEMORY, or HED_BAD_NUMBER if dialect is no enum hed_dialect. */
hed_status hed_parser_init(hed_parser *parser, uint32_t dialect);

/* Makes a parser with an empty buffer that shares the table of another. If there was one, it is freed. The caller owes a hed_parser_free. The
 * two may have different dialects.
 *
 * It is for programs with many sessions, such as a server: make one parser by hed_parser_init, and the others from that one or from each
 * other. Each takes some two hundred bytes beside its buffer. The table is freed with the last parser that has it, in whatever order they are
 * freed. Threads may make parsers of one idle parser, but one at a time: this is a call on the other parser too.
 *
 * Returns what hed_parser_init does, or HED_NOT_INITIALIZED if there is no other parser. The other is unchanged. */
hed_status hed_parser_init_sharing(hed_parser *parser, uint32_t dialect, const hed_parser *other);

/* Frees what the parser owns, and leaves HED_PARSER_NONE. If there is no parser, it does nothing, so it may be called twice. */
void hed_parser_free(hed_parser *parser);

/* Says that these bytes came now: appends a copy of all len bytes to the buffer, or of none. Then call hed_parser_next until it returns HED_NONE.
 *
 * now is in milliseconds, of a clock that nobody sets, such as CLOCK_MONOTONIC. If it is before the time of an earlier call, no time has passed.
 *
 * Returns HED_OK, HED_NO_MEMORY, HED_BUSY while a flush that began isn't over, or HED_NOT_INITIALIZED. After HED_NO_MEMORY the call may be made
 * again, and after HED_BUSY once hed_parser_next returned HED_NONE. A call without bytes needs no memory. */
hed_status hed_parser_feed(hed_parser *parser, uint64_t now, const uint8_t *bytes, size_t len);

/* Writes the next event to *event, and consumes its bytes. The caller calls this until it returns HED_NONE: then all is told, and what stays
 * buffered may become a longer sequence or a character, such as a lone ESC.
 *
 * A paste is one event, or with hed_parser_set_parts several. A string is one event if it has its end and less than 65535 bytes before that. Of a
 * longer one come some HED_KIND_STRING_PART first, and then an event with the rest. The bytes of each begin with those of the string's opening,
 * such as 52; after ESC ]: a program that joins them leaves these out of all but the first. If a flush cuts a string off, or ESC without a \
 * after it, then its last event is a HED_KIND_STRING_CUT. No byte of a string that comes before a flush becomes a key.
 *
 * Returns HED_OK, HED_NONE, HED_NO_MEMORY, or HED_NOT_INITIALIZED. *event is written only with HED_OK. HED_NO_MEMORY comes only if a paste, a
 * string or a sequence that isn't of the table is next. Then nothing changed, and the call may be made again. */
hed_status hed_parser_next(hed_parser *parser, hed_event *event);

/* Makes calls of hed_parser_next one after another, and writes their events to events, at most room of them, and their number to *count.
 * The bytes that they bring go to text one after another: those of an event begin where those of the event before it end, and are its
 * text_len bytes. After an event whose bytes don't all fit into the text_room bytes of text no further one is told. So only the bytes of the
 * last event can be cut off, and hed_parser_text then copies them whole. With text_room 0 the last event alone may bring bytes. What lies
 * behind the events and the bytes is unchanged.
 *
 * Afterwards the parser is what it is after these calls. All of the events are read by one reading. A program that changes the reading by an
 * event calls hed_parser_next.
 *
 * Returns HED_NONE if all is told: the last of the calls returned that. HED_OK says that there is no more room, so there may be further events.
 * With HED_NO_MEMORY the event after those that were written is still next, and the call may be made again. With HED_NOT_INITIALIZED *count is
 * 0. With each of them *count events were written. */
hed_status hed_parser_next_events(hed_parser *parser, hed_event *events, size_t room, uint8_t *text, size_t text_room, size_t *count);

/* Copies the bytes of the event that was told last to out, at most len of them. A HED_KIND_PASTE or HED_KIND_PASTE_PART brings its text. A
 * HED_KIND_KEY brings the text that the key types, if the terminal reported it. A HED_KIND_CSI, _OSC, _DCS or _APC brings its bytes after ESC
 * and the byte that introduces it, without the end of a string. So does a HED_KIND_STRING_PART or _STRING_CUT. The texts are UTF-8, without a
 * final 0. The rest of out is unchanged.
 *
 * Returns the number of all these bytes, as text_len has it, so a caller whose room was short can call again: the parser keeps them until the
 * next event or hed_parser_drop_text. Returns 0 if there are none, or if there is no parser. */
size_t hed_parser_text(const hed_parser *parser, uint8_t *out, size_t len);

/* Frees the bytes of the event that was told last: hed_parser_text returns 0 until the next event that brings some. The caller calls it once it
 * has copied a text that is too long to be kept. If there are none or there is no parser, it does nothing. */
void hed_parser_drop_text(hed_parser *parser);

/* Copies a pasted text, text_len bytes, to out, with LF in the place of each CR and of each CR LF, at most len bytes of it. Terminals send CR for
 * the end of a line. Every other byte is copied as it is. The rest of out is unchanged.
 *
 * Of a paste that is told in parts, join the parts first: a CR at the end of a part and an LF at the start of the next one become two LF.
 *
 * Returns the number of all bytes, which is at most text_len. No memory is needed. */
size_t hed_paste_lines(const uint8_t *text, size_t text_len, uint8_t *out, size_t len);

/* Returns how many milliseconds the program may wait for input, as poll takes it. While events may be next, that is 0: from a call that can bring
 * some, also such as hed_parser_set_parts and hed_parser_set_reading, until hed_parser_next returned HED_NONE. Then it is the time until what is
 * buffered is due, 0 if it is due already. It is -1 if that may wait for ever, nothing is buffered, or there is no parser. The parser is
 * unchanged. */
int32_t hed_parser_timeout(const hed_parser *parser, uint64_t now);

/* Says that nothing more came up to now: the program looked, as by a poll that timed out. If all is told and what is buffered is due, its flush
 * begins, and hed_parser_next tells it: an Escape key, a sequence that was cut off as its keys, and an open paste as a HED_KIND_PASTE of what came
 * so far. Else only the time is noted. */
void hed_parser_idle(hed_parser *parser, uint64_t now);

/* Reads what is buffered with no more to come, whether all was told or not: then hed_parser_next tells it. An open paste stays open. It is for a
 * program without a clock, which calls it at its pauses. */
void hed_parser_flush(hed_parser *parser);

/* Says that nothing will ever come: reads what is buffered as hed_parser_flush does, and an open paste ends where it is. Then call
 * hed_parser_next until it returns HED_NONE. */
void hed_parser_end(hed_parser *parser);

/* Says that another program had the terminal up to now. A beginning that is buffered is forgotten, since its rest went there, and so are open
 * questions. An open paste or string stays, as the rest of it would be typed otherwise. It ends where it is once nothing came for a second: the
 * other program may have read its end.
 *
 * Returns HED_OK, HED_BUSY unless hed_parser_next returned HED_NONE since the last call that can bring events, or HED_NOT_INITIALIZED. */
hed_status hed_parser_interrupted(hed_parser *parser, uint64_t now);

/* Has a long paste told in parts. As soon as more than limit bytes of its text are buffered, hed_parser_next writes a HED_KIND_PASTE_PART, and
 * the paste stays open. What follows is its further text: none of it becomes a key. The HED_KIND_PASTE that ends it has the rest of the text,
 * maybe none.
 *
 * So with a limit such as 1 << 20 a paste of any length needs little memory: at most 6 bytes and the limit stay buffered of it, or 11 if the limit
 * is below 5. With HED_NO_PARTS, as at first, a paste is one event, and is buffered until its end arrives, whatever its length. */
void hed_parser_set_parts(hed_parser *parser, size_t limit);

/* The limit of parts with which there are none. */
#define HED_NO_PARTS SIZE_MAX

/* Forgets text of an open paste before its end arrives, and writes the number of these bytes to *count. The paste stays open. To refuse a paste
 * that is too long, the caller calls it after each read and its events until the HED_KIND_PASTE comes, and ignores that one. No memory is
 * asked for.
 *
 * Returns HED_OK, HED_NONE if no paste is open, or HED_NOT_INITIALIZED. *count is written only with HED_OK. */
hed_status hed_parser_skip_paste(hed_parser *parser, size_t *count);

/* Forgets all that is buffered, an open paste too, and the questions that are open: the next byte that is fed comes first. The text of the
 * event that was told last is kept, and no memory is freed. The rest of the reading stays.
 *
 * Returns the number of bytes that were buffered, 0 if there is no parser. */
size_t hed_parser_reset(hed_parser *parser);

/* Frees memory that holds nothing, of the buffer and of the bytes of the event that was told last. The buffer keeps its room for min_capacity
 * bytes, if it has that. What is buffered, those bytes and all later events are unchanged. A session that is quiet after a long paste calls
 * hed_parser_drop_text, and this with 0. If the smaller memory is refused, the larger is kept. If there is no parser, it does nothing. */
void hed_parser_shrink_to(hed_parser *parser, size_t min_capacity);

/* Returns the number of bytes that are buffered, 0 if there is no parser. Once hed_parser_next returned HED_NONE, it is at most 256, or an open
 * string of at most 65535 bytes, or an open paste. */
size_t hed_parser_waiting_len(const hed_parser *parser);

/* What stays buffered, as hed_parser_waiting returns it. */
enum hed_waiting {
  HED_WAITING_NOTHING = 0, /* Nothing is buffered. */
  HED_WAITING_ESCAPE = 1, /* ESC, or ESC ESC: the Escape key, alone or with Alt, unless more bytes follow. */
  HED_WAITING_SEQUENCE = 2, /* A longer prefix of a sequence, after an ESC or not. */
  HED_WAITING_CHARACTER = 3, /* A prefix of a character in UTF-8, after an ESC or not. */
  HED_WAITING_PASTE = 4, /* An open paste: its start, and its text so far. */
  HED_WAITING_STRING = 5 /* An open string: its opening, and its bytes so far. */
};

/* Returns what stays buffered, an enum hed_waiting, so that a program can show or log it. It is HED_WAITING_NOTHING if there is no parser. How
 * long the bytes may wait is what hed_parser_timeout answers.
 *
 * The caller calls it after HED_NONE: before that, events may still be next. The beginning of a control sequence, of a title or of the opening of
 * a string is a HED_WAITING_SEQUENCE. With HED_WAITING_STRING the opening is whole, and the string's end is still to come. */
uint32_t hed_parser_waiting(const hed_parser *parser);

/* Which byte the Backspace key sends: the field erase of a hed_reading. A program takes it from its terminal's settings: VERASE of termios is 8
 * or 127. hedrugal_terminal.c does that. */
enum hed_erase {
  HED_ERASE_DELETE = 0, /* 127, as most terminals send it. Byte 8 is Ctrl-H. */
  HED_ERASE_BACKSPACE = 1 /* 8. Byte 127 is Ctrl-Backspace. */
};

/* What byte 10 is: the field newline of a hed_reading. It is Enter while the terminal's settings turn CR into LF (ICRNL of termios), or if the
 * input is no terminal. In raw mode, as hedrugal_terminal.c sets it, it is Ctrl-J. */
enum hed_newline {
  HED_NEWLINE_CTRL_J = 0, /* Ctrl-J. The Enter key sends the byte 13. */
  HED_NEWLINE_ENTER = 1 /* The Enter key: the terminal's settings turn CR into it (ICRNL), or the input is no terminal. */
};

/* How a parser reads. A new one has its dialect, and the rest is 0: Backspace sends 127, and byte 10 is Ctrl-J. */
typedef struct hed_reading {
  uint32_t dialect; /* an enum hed_dialect. With HED_DIALECT_TERMWIZ the other fields say nothing */
  uint32_t erase; /* an enum hed_erase: which byte the Backspace key sends */
  uint32_t newline; /* an enum hed_newline: what byte 10 is */
  bool x10_mouse; /* X10 mouse reports are read: ESC [M and three bytes. Without it ESC [M is a control sequence */
  uint8_t questions; /* how many questions for the cursor's position are open */
} hed_reading;

/* Has the parser read as *reading says from now on, also what is buffered. A flush that began goes on. A program that changes one field begins
 * with what hed_parser_reading wrote.
 *
 * Returns HED_OK, HED_NOT_INITIALIZED, or HED_BAD_NUMBER if dialect is no enum hed_dialect, erase no enum hed_erase or newline no enum
 * hed_newline. */
hed_status hed_parser_set_reading(hed_parser *parser, const hed_reading *reading);

/* Writes how the parser reads to *reading. Returns HED_OK or HED_NOT_INITIALIZED. */
hed_status hed_parser_reading(const hed_parser *parser, hed_reading *reading);

/* Expects one more reply to a question for the cursor's position, up to 255: call it with each ESC [6n that is written. While a reply is
 * expected, ESC [1;5R and the like are HED_KIND_CURSOR_POSITION, and not F3 with modifiers; each such event answers one question. */
void hed_parser_expect_position(hed_parser *parser);

/* Expects no reply any more to questions for the cursor's position: call it when one is overdue, or when a later question was answered. */
void hed_parser_forget_positions(hed_parser *parser);

/* How long each kind of bytes may stay buffered, in milliseconds: then they are due to be flushed. 0 is the usual limit, so a program names
 * only those that it changes, as in `{ .escape = 25 }`. 1 is the least limit, and HED_LIMIT_MOST the most. A negative one is for ever.
 *
 * Some terminals drop the end of some pastes: a program that must not hang gives pastes a limit such as 10000. */
typedef struct hed_policy {
  int32_t escape; /* ESC or ESC ESC, since its last byte: usually 50 */
  int32_t alt_key; /* ESC and one byte that may begin a sequence, else that byte's key with Alt, since the ESC: usually 100 */
  int32_t sequence; /* a longer prefix of a sequence, since its first byte: usually 1000 */
  int32_t string; /* a string without its end, since its first byte: usually 5000; each byte that is buffered adds a millisecond */
  int32_t character; /* a prefix of a character, since its first byte: usually for ever */
  int32_t paste; /* an open paste, since bytes last came: usually for ever */
} hed_policy;

/* The usual limits: those of a parser for which none were set. */
#define HED_POLICY_USUAL \
  { 50, 100, 1000, 5000, -1, -1 }

/* The most milliseconds of a limit: what hed_parser_timeout can tell, also of the longest string. */
#define HED_LIMIT_MOST 2147418111

/* Sets the limits of a parser. They hold from now on, also for what is buffered.
 *
 * Returns HED_OK, HED_NOT_INITIALIZED, or HED_BAD_NUMBER if a limit is above HED_LIMIT_MOST. */
hed_status hed_parser_set_policy(hed_parser *parser, const hed_policy *policy);

/* Some entries of the sequence table, one after another. Each parser has this table of the sequences that it reads as keys: entries of bytes and
 * a key, in the order of their bytes. The first place is 0. */
typedef struct hed_entries {
  size_t first; /* the place of the first */
  size_t count; /* how many there are */
  bool with_alt; /* whether their keys get HED_KITTY_MOD_ALT */
} hed_entries;

#define HED_ENTRY_COUNT 2937 /* How many entries the sequence table has. */
#define HED_ENTRY_MOST 11 /* The most bytes of an entry. */

/* Tells the entry at a place: the bytes of a sequence, and its key, as HED_DIALECT_TERMWIZ reads it. Writes as many of the bytes as capacity says,
 * and the key to *event, a HED_KIND_KEY. The start and the end of a paste are entries too, with the keys HED_KEY_INTERNAL_PASTE_START and
 * HED_KEY_INTERNAL_PASTE_END.
 *
 * Returns how many bytes the entry has, 0 if place isn't below HED_ENTRY_COUNT or there is no parser; then nothing is written. The parser
 * is unchanged, and no memory is needed. */
size_t hed_parser_entry(const hed_parser *parser, size_t place, uint8_t *bytes, size_t capacity, hed_event *event);

/* Tells which entries would complete what stays buffered, so that a program can show the keys that may follow: those that begin with it and are
 * longer. If there are none, they are those that begin with what follows its ESC, and with_alt is true. Ask while hed_parser_waiting is
 * HED_WAITING_ESCAPE or HED_WAITING_SEQUENCE.
 *
 * A mouse report and a character aren't entries, and after an ESC any character follows as a key with HED_KITTY_MOD_ALT. Only the start of a
 * paste gets no modifier after ESC: that ESC is the Escape key.
 *
 * Returns HED_OK or HED_NOT_INITIALIZED. The parser is unchanged, and no memory is needed. */
hed_status hed_parser_completions(const hed_parser *parser, hed_entries *entries);

/* ---- hedrugal_bindings(3): presses, names of keys, and bindings of chords ---- */

/* The press of a key: the key and the modifiers held with it, the same however the terminal reports the key. A program compares presses,
 * field by field, and looks up by them what a key does.
 *
 * Letters, digits and signs are the characters that they type: Shift with `a` is HED_KEY_CHAR with `A`. Where CTRL, SUPER, HYPER or META is
 * held too, a letter that has a capital keeps HED_KITTY_MOD_SHIFT. So does a digit, or any other character, of which the terminal doesn't tell
 * what it types with Shift. A sign such as `!` never has it. The keypad and the arrows in application mode are the keys of the main block. A
 * control character is its key, or a character with HED_KITTY_MOD_CTRL: U+0008 is `ctrl+h`, and U+000A `ctrl+j`. U+007F is `ctrl+backspace`. */
typedef struct hed_key_press {
  uint16_t key; /* an enum hed_key, or 0 for a key that has no name there */
  uint8_t held; /* a set of HED_KITTY_MOD_.., without the locks */
  uint32_t detail; /* as in a hed_event; 0 for a key that has none */
} hed_key_press;

/* Writes the press of the event that hed_parser_next told last to *press. event is that event. A repeat counts as a press. Ask before
 * hed_parser_drop_text, since the press is by the text that the key types.
 *
 * A program that turns Kitty's protocol on asks for HED_KITTY_FLAG_DISAMBIGUATE_ESCAPE_CODES and HED_KITTY_FLAG_REPORT_ALTERNATE_KEYS, and
 * with HED_KITTY_FLAG_REPORT_ALL_KEYS_AS_ESCAPE_CODES for HED_KITTY_FLAG_REPORT_ASSOCIATED_TEXT too. Otherwise Ctrl, Shift and `1` is `1` with
 * HED_KITTY_MOD_CTRL and HED_KITTY_MOD_SHIFT, and not `!`.
 *
 * Returns HED_OK, HED_NONE if the event has no press, HED_BAD_NUMBER if a number names nothing, HED_BAD_TEXT if its text isn't UTF-8, which the
 * parser's own is, or HED_NOT_INITIALIZED. *press is written only with HED_OK. These have no press:
 *
 * - An event that is no HED_KIND_KEY, and a release.
 * - A key that is a modifier or a lock by itself, the mark of a paste, or no key of Kitty's table.
 * - A key that types several characters: a program inserts them as it inserts a paste. */
hed_status hed_parser_press(const hed_parser *parser, const hed_event *event, hed_key_press *press);

/* Writes a second press of the event that was told last to *press, for a program in which the first one leads nowhere. It is the first of these:
 *
 * - With ALT, CTRL, SUPER, HYPER or META, a character that isn't of ASCII, and base told: the key at the same place of a PC-101 keyboard, with
 *   the same modifiers. So Ctrl with a Cyrillic letter is tried as Ctrl with a Latin one.
 * - With one of these and Shift, a digit or another character that keeps Shift if nothing is told, and another one told as shifted: the press
 *   with Shift. So Ctrl with `!` is tried as Ctrl, Shift and `1`.
 * - U+0008 and U+000A, which are the bytes 8 and 10: Backspace with CTRL, and Enter, with what else is held. Some terminals send these keys so.
 *
 * Returns what hed_parser_press does, HED_NONE if there is none. Call it for an event that has a press. */
hed_status hed_parser_second(const hed_parser *parser, const hed_event *event, hed_key_press *press);

/* Writes the press of any event to *press, such as one that hed_parser_next_events wrote. text is what the key types, text_len bytes of UTF-8 or
 * none. A text with control characters counts as none.
 *
 * Returns what hed_parser_press does. */
hed_status hed_event_press(const hed_event *event, const uint8_t *text, size_t text_len, hed_key_press *press);

/* Writes the second press of any event to *press, and returns what hed_parser_second does. */
hed_status hed_event_second(const hed_event *event, hed_key_press *press);

/* Copies the character that a press types to out, at most len bytes of it: in UTF-8, which has 1 to 4 bytes. If a byte more fits, a final 0 follows.
 * The rest of out is unchanged. A program inserts it if the press does nothing else. A press types one if nothing is held, or HED_KITTY_MOD_SHIFT
 * with the space alone. Enter and Tab type none.
 *
 * Returns the number of its bytes without the 0. For a press that types none, or numbers that are those of no press, it returns 0, and out is
 * unchanged. */
size_t hed_press_text(const hed_key_press *press, uint8_t *out, size_t len);

/* Writes the name of a press to out, and its length to *name_len: what hed_key_print writes for a chord of it alone. If a byte more fits, a final 0
 * follows, so with 64 bytes every name is a string.
 *
 * Returns what hed_key_print does. */
hed_status hed_press_print(const hed_key_press *press, uint8_t *out, size_t len, size_t *name_len);

/* Reads the name of a chord, text_len bytes of UTF-8. A chord is a list of 1 to HED_CHORD_MOST presses, to which a program binds a command, as
 * Ctrl-X and then Ctrl-S. Its keys are parted by spaces and tabs. A key is a character, a word such as `up`, `f5`, `pageup` or `space`, or a
 * number such as `U+0441`. Modifiers stand before it in one of three ways, and words in any case:
 *
 * - `ctrl+x`, `Ctrl-Shift-Up`: the words ctrl or control, alt or option, shift, super, cmd or win, hyper and meta, each with + or - behind it.
 * - `C-x`, `C-M-<f5>`: Emacs's letters, C for ctrl, M or A for alt, S for shift, s for super and H for hyper.
 * - `<C-W>`, `<c-s-Up>`: Vim's letters, c for ctrl, s for shift, m or a for alt, d for super and t for meta.
 *
 * The presses are those that hed_parser_press tells, whichever way they are written. With CTRL a letter is the same in any case, as in
 * Emacs and Vim. "Names" of crates/termwiz_bindings/README.md has all words and rules.
 *
 * Returns HED_OK: *count is the number of the presses, keys has as many of them as room says, and *at is 0. A keys with room for HED_CHORD_MOST has
 * room for all. Otherwise it is one of HED_NAME_.., or HED_BAD_TEXT if the text isn't UTF-8. Then *count is 0, keys is unchanged, and *at is the
 * byte of the text at which the part that is wrong starts, for a message to the user. No memory is needed. */
hed_status hed_key_read(const uint8_t *text, size_t text_len, hed_key_press *keys, size_t room, size_t *count, size_t *at);

/* The most presses that a chord has. */
#define HED_CHORD_MOST 32

/* The bytes and the length of a string literal, for the calls that take both. */
#define HED_TEXT(literal) (const uint8_t *)("" literal), sizeof(literal) - 1

/* Writes the name of a chord to out, and its length to *name_len: of count presses, 1 to HED_CHORD_MOST, as hed_key_read or hed_parser_press
 * writes them. The name is UTF-8 without a final 0. Its keys are parted by a space, and their modifiers are in the order super+, hyper+, meta+,
 * ctrl+, alt+, shift+, as in `ctrl+x ctrl+s`, `alt+<`, `shift+f5` and `U+200B`. hed_key_read reads the same presses from it.
 *
 * Returns HED_OK: *name_len is the length of the whole name, and out has as many of its bytes as len says. If *name_len is above len, call again
 * with more room. The rest of out is unchanged. Otherwise *name_len is 0 and out is unchanged: HED_NO_MEMORY, or HED_BAD_NUMBER if the numbers of a
 * key are those of no press, or count isn't 1 to HED_CHORD_MOST. */
hed_status hed_key_print(const hed_key_press *keys, size_t count, uint8_t *out, size_t len, size_t *name_len);

/* Bindings, or none: a map from chords to numbers, by which a program tells what it does at which keys. One chord may begin another one. Its
 * fields are the library's, and it may be moved as a hed_parser may. */
typedef struct hed_bindings {
  bool live;
  void *state;
} hed_bindings;

/* The value of a hed_bindings that is none. */
#define HED_BINDINGS_NONE \
  { false, NULL }

/* Makes bindings of no chord. If there were some, they are freed. The caller owes a hed_bindings_free.
 *
 * Returns HED_OK or HED_NO_MEMORY. */
hed_status hed_bindings_init(hed_bindings *bindings);

/* Frees what the bindings own, and leaves HED_BINDINGS_NONE. If there are none, it does nothing, so it may be called twice. */
void hed_bindings_free(hed_bindings *bindings);

/* Sets the value of a chord of count presses, 1 to HED_CHORD_MOST, in place of the one that it has, if any. The presses are those that
 * hed_key_read reads, or that hed_parser_press tells, and are copied. Every other chord keeps its value, also one that begins with this one.
 *
 * Returns HED_OK, HED_NO_MEMORY, HED_BAD_NUMBER if the numbers of a press are those of none, or count isn't 1 to HED_CHORD_MOST, or
 * HED_NOT_INITIALIZED. */
hed_status hed_bindings_bind(hed_bindings *bindings, const hed_key_press *keys, size_t count, uint64_t value);

/* Sets the value of the chord that has this name, text_len bytes of UTF-8, as hed_key_read reads it:
 *
 *     hed_bindings_bind_name(&bindings, HED_TEXT("C-x C-s"), SAVE, &at);
 *
 * Returns HED_OK, what hed_key_read returns of a text that is no name, HED_NO_MEMORY or HED_NOT_INITIALIZED. *at is the byte at which the wrong part
 * of the text starts, and 0 with HED_OK, HED_NO_MEMORY and HED_NOT_INITIALIZED. */
hed_status hed_bindings_bind_name(hed_bindings *bindings, const uint8_t *text, size_t text_len, uint64_t value, size_t *at);

/* Takes the value of a chord of count presses away. Every other chord keeps its value. No memory is needed.
 *
 * Returns HED_OK, and *value is the value that it had. Otherwise *value isn't written: HED_NONE if the chord has no value, HED_BAD_NUMBER or
 * HED_NOT_INITIALIZED, as hed_bindings_bind. */
hed_status hed_bindings_unbind(hed_bindings *bindings, const hed_key_press *keys, size_t count, uint64_t *value);

/* Finds the value of a chord of count presses. A program that reads keys as chords takes a hed_matcher.
 *
 * Returns HED_OK, and *value is the chord's value. Otherwise *value isn't written: HED_NONE if the chord has no value, HED_BAD_NUMBER or
 * HED_NOT_INITIALIZED, as hed_bindings_bind. */
hed_status hed_bindings_lookup(const hed_bindings *bindings, const hed_key_press *keys, size_t count, uint64_t *value);

/* Returns the number of chords that have a value, 0 if there are no bindings. */
size_t hed_bindings_len(const hed_bindings *bindings);

/* Shows the chord at a place and its value. The places are 0 up to hed_bindings_len. Chords are ordered by their presses, and a press by its
 * key, its detail and held: one that begins another comes before it. A call that binds or unbinds moves them.
 *
 * Returns HED_OK: *count is the number of the chord's presses, keys has as many of them as room says, and *value is its value. A keys with room
 * for HED_CHORD_MOST has room for all. Otherwise *count is 0, and keys and *value aren't written: HED_NONE if the place is past the last chord, or
 * HED_NOT_INITIALIZED. */
hed_status hed_bindings_entry(const hed_bindings *bindings, size_t place, hed_key_press *keys, size_t room, size_t *count, uint64_t *value);

/* Tells which chords begin with count presses, at most HED_CHORD_MOST, and are longer, as for a menu of the keys that may follow. They stand
 * next to each other: at the places from *first up to, but without, *end. For count 0 they are all chords.
 *
 * Returns HED_OK if there are such chords. Otherwise *first and *end are 0: HED_NONE if there are none, HED_BAD_NUMBER if the numbers of a press
 * are those of none or count is above HED_CHORD_MOST, or HED_NOT_INITIALIZED. */
hed_status hed_bindings_continuations(const hed_bindings *bindings, const hed_key_press *keys, size_t count, size_t *first, size_t *end);

/* The most bytes that the codes of a chord have: five for each press. */
#define HED_CODES_MOST 160

/* A matcher: it reads presses as chords and as single keys, and holds those that aren't decided yet. It owns no memory, and may be copied.
 *
 * The bindings are passed to each call. So a program may keep several, as for its modes, and change them at any time: what is pending is read
 * by those of the call. For each key a program calls hed_matcher_press, and then hed_matcher_next until that returns HED_NONE. */
typedef struct hed_matcher {
  size_t count; /* the number of presses that are pending */
  uint8_t codes[HED_CODES_MOST]; /* the library's: their codes, which hed_matcher_pending shows as presses */
} hed_matcher;

/* The value of a hed_matcher with nothing pending: all zero. */
#define HED_MATCHER_NONE \
  {                      \
    0, {                 \
      0                  \
    }                    \
  }

/* The kinds of outcomes: the field kind of a hed_outcome. */
enum hed_outcome_kind {
  HED_OUTCOME_BOUND = 1, /* A chord was pressed. */
  HED_OUTCOME_UNBOUND = 2 /* The first press begins no chord that was pressed. */
};

/* What the first of the pending presses do. What an outcome has no use for is 0. */
typedef struct hed_outcome {
  size_t keys; /* how many presses it takes: 1 with HED_OUTCOME_UNBOUND */
  uint64_t value; /* HED_OUTCOME_BOUND: the value of the chord */
  hed_key_press press; /* HED_OUTCOME_UNBOUND: the press, whose text a program may insert */
  uint32_t kind; /* an enum hed_outcome_kind */
} hed_outcome;

/* Puts a press behind those that are pending. No call of a matcher needs memory.
 *
 * Returns HED_OK, HED_FULL if HED_CHORD_MOST are pending, which isn't so after hed_matcher_next returned HED_NONE, or HED_BAD_NUMBER if the numbers
 * are those of no press, or the matcher's bytes the codes of no presses. */
hed_status hed_matcher_press(hed_matcher *matcher, const hed_key_press *press);

/* Puts one of two presses behind those that are pending: the second if only that leads on, and else the first. A press leads on if some chord
 * begins with what is pending and it. If neither does, the same is asked as if nothing were pending. presses has the press that
 * hed_parser_press wrote, and behind it that of hed_parser_second, if there is one: count is 1 or 2. So Ctrl with a Cyrillic letter runs the
 * command of the Latin letter at its place, unless it has one of its own.
 *
 * Returns what hed_matcher_press does, also HED_BAD_NUMBER for another count, or HED_NOT_INITIALIZED if there are no bindings. */
hed_status hed_matcher_press_either(hed_matcher *matcher, const hed_bindings *bindings, const hed_key_press *presses, size_t count);

/* Takes what comes first of the presses that are pending: the longest chord that they begin with, or else the first press. Pass maybe_more as
 * true while more presses may come: then it waits while the presses may become a longer chord. A program whose user paused for long enough,
 * as a hed_timer tells, gives up: it makes this call with maybe_more as false until that returns HED_NONE.
 *
 * Returns HED_OK, and *outcome tells which chord or which press. Otherwise *outcome isn't written: HED_NONE if nothing is pending, or it waits,
 * HED_BAD_NUMBER if the matcher's bytes are the codes of no presses, or HED_NOT_INITIALIZED if there are no bindings. */
hed_status hed_matcher_next(hed_matcher *matcher, const hed_bindings *bindings, bool maybe_more, hed_outcome *outcome);

/* Tells what giving up would decide first: what hed_matcher_next with maybe_more as false would write and return. It takes nothing. While that is
 * HED_OUTCOME_UNBOUND, a program may prefer to wait for ever, since the press may still begin a chord. */
hed_status hed_matcher_on_pause(const hed_matcher *matcher, const hed_bindings *bindings, hed_outcome *outcome);

/* Returns whether what is pending is a mistake of several presses: no chord begins with them, and they begin with no chord. A program that
 * takes `ctrl+x z` as one mistake, as Emacs does, asks this after hed_matcher_press, and calls hed_matcher_cancel.
 *
 * Returns false if the matcher's bytes are the codes of no presses, or there are no bindings. */
bool hed_matcher_is_dead_end(const hed_matcher *matcher, const hed_bindings *bindings);

/* Copies the presses that are pending to keys, as many as room says, and returns how many they are: at most HED_CHORD_MOST. The rest of keys
 * is unchanged. Returns 0 if the matcher's bytes are the codes of no presses. */
size_t hed_matcher_pending(const hed_matcher *matcher, hed_key_press *keys, size_t room);

/* Does what hed_matcher_pending does, and leaves nothing pending, also if the bytes were the codes of no presses. */
size_t hed_matcher_cancel(hed_matcher *matcher, hed_key_press *keys, size_t room);

/* The two ages of what is pending, by which a hed_timer limits it: the field by of a hed_seen. */
enum hed_age {
  HED_AGE_LAST = 0, /* How long ago something was fed last. */
  HED_AGE_FRONT = 1 /* How long ago the first of what is pending came to the front. */
};

/* What a program tells a hed_timer: what is pending now, and what happened since the last note. */
typedef struct hed_seen {
  int32_t limit; /* how long what is pending may wait, in milliseconds. Negative: for ever */
  uint8_t by; /* an enum hed_age: the age that the limit is for */
  bool fed; /* whether something was fed since the last note, as a press to a matcher */
  bool taken; /* whether something was taken since the last note, as an outcome of a matcher */
  bool empty; /* whether nothing is pending now */
} hed_seen;

/* A timer, by which a program keeps a limit in time of its own beside its parser's. An example is the pause of a chord, after which the
 * presses that are pending in a hed_matcher are given up. It owns no memory, and may be copied. Its fields are the library's. */
typedef struct hed_timer {
  uint64_t last;
  uint64_t front;
  uint64_t noted;
  uint64_t millis;
  uint8_t by;
  bool has_noted;
  bool has_limit;
  bool holds;
} hed_timer;

/* The value of a new hed_timer: all zero. */
#define HED_TIMER_NONE \
  { 0, 0, 0, 0, 0, false, false, false }

/* Tells the timer what time it is and what was seen. Both ages grow by the time since the last note. Then HED_AGE_LAST is 0 if something was
 * fed, and HED_AGE_FRONT is 0 if something was taken, or if nothing was pending at the last note. The pause of a chord is limited by
 * HED_AGE_LAST: the caller notes each press, once hed_matcher_next has returned HED_NONE.
 *
 * now is in milliseconds, as for hed_parser_feed: if it is before the time of the last note, no time has passed.
 *
 * Returns HED_OK, or HED_BAD_NUMBER if by is no enum hed_age, in *seen or in *timer. */
hed_status hed_timer_note(hed_timer *timer, uint64_t now, const hed_seen *seen);

/* Returns how many milliseconds what is pending may still wait, as poll takes it: 0 if its age has reached the limit, and -1 if it may wait
 * for ever. It is also -1 if by is no enum hed_age in *timer. The timer is unchanged.
 *
 * A program waits for no longer than this and hed_parser_timeout say. If no key came and this is 0, it gives up the chord: it calls
 * hed_matcher_next with maybe_more as false. */
int32_t hed_timer_timeout(const hed_timer *timer, uint64_t now);

/* A map from byte strings to numbers, or none. Its fields are the library's, and it may be moved as a hed_parser may. A program keeps its
 * key bindings in one: the bytes of each, and the number of what it does. */
typedef struct hed_keymap {
  bool live;
  void *state;
} hed_keymap;

/* The value of a hed_keymap that is none. */
#define HED_KEYMAP_NONE \
  { false, NULL }

/* A key that hed_keymap_lookup found. */
typedef struct hed_match {
  size_t len; /* the number of its bytes */
  uint64_t value; /* its value */
} hed_match;

/* Makes an empty map. If there was one, it is freed. The caller owes a hed_keymap_free.
 *
 * Returns HED_OK or HED_NO_MEMORY. */
hed_status hed_keymap_init(hed_keymap *map);

/* Frees what the map owns, and leaves HED_KEYMAP_NONE. If there is no map, it does nothing, so it may be called twice. */
void hed_keymap_free(hed_keymap *map);

/* Sets the value of the key that has these len bytes, in place of the one that it has, if any. The bytes are copied. The empty key is a
 * key like any other, and is a prefix of every text.
 *
 * Returns HED_OK, HED_NO_MEMORY or HED_NOT_INITIALIZED. */
hed_status hed_keymap_insert(hed_keymap *map, const uint8_t *key, size_t len, uint64_t value);

/* Finds the longest key that is a prefix of a text of len bytes. Pass maybe_more as true while more of the text may come. The caller of
 * a HED_OK consumes as many bytes as match->len says, and looks up the rest.
 *
 * Returns HED_OK: the longest key that is a prefix of the text was written to *match. HED_AMBIGUOUS: the same, but the text is a prefix of a
 * longer key too. HED_NEED_DATA: no key is a prefix of the text, but the text is a prefix of some key. HED_NONE: neither. HED_NOT_INITIALIZED.
 * *match is written only with the first two. Without maybe_more the longest key is always HED_OK. The map is unchanged, and no memory is
 * needed. */
hed_status hed_keymap_lookup(const hed_keymap *map, const uint8_t *text, size_t len, bool maybe_more, hed_match *match);

/* Returns the number of keys, 0 if there is no map. */
size_t hed_keymap_len(const hed_keymap *map);

/* ---- hedrugal_encoders(3): the bytes that a terminal sends for an event ---- */

/* A terminal, a multiplexer or a test calls these. Each encoder writes bytes to out, at most len of them, and the number of all bytes to its last
 * argument. If that is above len, call again with more room. The rest of out is unchanged. A text has no final 0. With another answer than HED_OK
 * the number is 0, and out is unchanged. */

/* Writes what a terminal sends for a key if the program asked for these flags of Kitty's keyboard protocol: the other way from a HED_KIND_KEY. The
 * bytes are UTF-8. There are none for a key that isn't sent, such as a release without HED_KITTY_FLAG_REPORT_EVENT_TYPES. A sequence has at most
 * 256 bytes; a key that is sent as its text alone may have more.
 *
 * The rules are those of Kitty's page "Comprehensive keyboard handling in terminals" (https://sw.kovidgoyal.net/kitty/keyboard-protocol/), as
 * "Keys to bytes" of docs/EXTENDED.md lists them. With neither HED_KITTY_FLAG_DISAMBIGUATE_ESCAPE_CODES nor
 * HED_KITTY_FLAG_REPORT_ALL_KEYS_AS_ESCAPE_CODES, that is what terminals sent before the protocol: a control character for a letter with
 * HED_KITTY_MOD_CTRL, and the key's report for what has no such text.
 *
 * event is a HED_KIND_KEY as hed_parser_next writes it. Only the fields of a key are read, text_len isn't, and detail isn't for a key that has none.
 * text is what the key types, text_len bytes of UTF-8, or nothing if that isn't known. A text with control characters counts as none. flags is a
 * set of HED_KITTY_FLAG_... What no flag asks for isn't sent.
 *
 * Returns HED_OK, HED_NO_MEMORY, or one of these:
 *
 * - HED_REFUSED_KEY if the key's report would be sent and the protocol has no number for the key.
 * - HED_TOO_LONG if the sequence would have more than 256 bytes.
 * - HED_BAD_TEXT if the text isn't UTF-8.
 * - HED_BAD_NUMBER if event is no HED_KIND_KEY, or a number names nothing: no key has it, a function key's is above 255, detail, shifted or base is
 *   no Unicode scalar value, key_event_kind no enum hed_key_event_kind, or a bit of flags has no name. */
hed_status hed_encode_kitty(const hed_event *event, const uint8_t *text, size_t text_len, uint8_t flags, uint8_t *out, size_t len,
                            size_t *sent_len);

/* Writes what a terminal sends for a pasted text: the other way from a HED_KIND_PASTE. text is any text_len bytes, read as UTF-8, with U+FFFD for
 * each piece that is none. The bytes are UTF-8, at most three for each byte of the text and twelve more.
 *
 * The text is made safe. LF, and CR LF as one, become CR, which Enter sends. HT and CR stay. Any other control character becomes a character that
 * does nothing: those below U+0020 and U+007F their pictures, and U+0080 to U+009F U+FFFD. If bracketed is true, the program turned bracketed paste
 * mode on (mode 2004): ESC [200~ comes before the text, and ESC [201~ after it. Since no ESC is left in the text, no text can end its paste.
 *
 * Returns HED_OK or HED_NO_MEMORY. */
hed_status hed_encode_paste(const uint8_t *text, size_t text_len, bool bracketed, uint8_t *out, size_t len, size_t *sent_len);

/* What a mouse report that is sent says: the field button of a hed_sent_mouse. */
enum hed_mouse {
  HED_MOUSE_NONE = 0, /* The mouse was moved while no button was down. */
  HED_MOUSE_BUTTON1_PRESS = 1, /* The left button was pressed. */
  HED_MOUSE_BUTTON2_PRESS = 2, /* The middle button was pressed. */
  HED_MOUSE_BUTTON3_PRESS = 3, /* The right button was pressed. */
  HED_MOUSE_BUTTON4_PRESS = 4, /* A wheel was turned up. */
  HED_MOUSE_BUTTON5_PRESS = 5, /* A wheel was turned down. */
  HED_MOUSE_BUTTON6_PRESS = 6, /* A wheel was turned left. */
  HED_MOUSE_BUTTON7_PRESS = 7, /* A wheel was turned right. */
  HED_MOUSE_BUTTON1_RELEASE = 8, /* The left button was released. */
  HED_MOUSE_BUTTON2_RELEASE = 9, /* The middle button was released. */
  HED_MOUSE_BUTTON3_RELEASE = 10, /* The right button was released. */
  HED_MOUSE_BUTTON4_RELEASE = 11, /* The end of turning a wheel up, which few terminals report. */
  HED_MOUSE_BUTTON5_RELEASE = 12, /* The end of turning a wheel down, which few terminals report. */
  HED_MOUSE_BUTTON6_RELEASE = 13, /* The end of turning a wheel left, which few terminals report. */
  HED_MOUSE_BUTTON7_RELEASE = 14, /* The end of turning a wheel right, which few terminals report. */
  HED_MOUSE_BUTTON1_DRAG = 15, /* The mouse was moved while the left button was down. */
  HED_MOUSE_BUTTON2_DRAG = 16, /* The mouse was moved while the middle button was down. */
  HED_MOUSE_BUTTON3_DRAG = 17 /* The mouse was moved while the right button was down. */
};

/* The mouse reports that a program asked for, by xterm's modes: what hed_encode_mouse is given. */
enum hed_mouse_tracking {
  HED_MOUSE_TRACKING_X10 = 0, /* Mode 9: presses, of wheels too, without modifiers. */
  HED_MOUSE_TRACKING_NORMAL = 1, /* Mode 1000: presses and releases. */
  HED_MOUSE_TRACKING_BUTTON = 2, /* Mode 1002: also moves while a button is down. */
  HED_MOUSE_TRACKING_ANY = 3 /* Mode 1003: also moves while none is. */
};

/* How mouse reports are written: what hed_encode_mouse is given. */
enum hed_mouse_encoding {
  HED_MOUSE_ENCODING_DEFAULT = 0, /* ESC [M and three bytes, which can't tell a place above 223. */
  HED_MOUSE_ENCODING_URXVT = 1, /* Mode 1015, from urxvt: the same in decimal numbers. */
  HED_MOUSE_ENCODING_SGR = 2 /* Mode 1006, and 1016 with a place in pixels: decimal numbers, and a release tells its button. */
};

/* A mouse report that is sent. */
typedef struct hed_sent_mouse {
  uint16_t x; /* the column: the leftmost is 1; in mode 1016 the distance from the left in pixels */
  uint16_t y; /* the row: the topmost is 1; in mode 1016 the distance from the top in pixels */
  uint8_t modifiers; /* a set of HED_KITTY_MOD_.., of which only SHIFT, ALT, CTRL and SUPER are allowed */
  uint8_t button; /* an enum hed_mouse */
} hed_sent_mouse;

/* Writes what a terminal sends for a mouse report: the other way from a HED_KIND_MOUSE. tracking, an enum hed_mouse_tracking, is which reports the
 * program asked for: there are no bytes for one that it doesn't get. encoding is an enum hed_mouse_encoding. Of the modifiers HED_KITTY_MOD_SHIFT,
 * ALT and CTRL are sent, and with HED_MOUSE_TRACKING_X10 none. Without HED_MOUSE_ENCODING_SGR the report of a release doesn't tell its button.
 *
 * Returns HED_OK; HED_TOO_FAR if the program gets the report, and x or y is above 223 with HED_MOUSE_ENCODING_DEFAULT; HED_NO_MEMORY; or
 * HED_BAD_NUMBER if button, tracking or encoding names nothing, or modifiers has another bit. */
hed_status hed_encode_mouse(const hed_sent_mouse *report, uint32_t tracking, uint32_t encoding, uint8_t *out, size_t len, size_t *sent_len);

/* Writes bytes that the parser reads as the event: the other way from hed_parser_next, whatever the terminal sent. A multiplexer passes replies on
 * by it, and a test or a recorder writes what it feeds to a parser.
 *
 * event and text, text_len bytes, are as hed_parser_next and hed_parser_text give them. Only the fields are read that the event's kind has, and the
 * text for a paste, a key, a control sequence and a string. The parser says how bytes are read, by its reading and its sequence table. It is
 * unchanged, and what it has buffered doesn't matter.
 *
 * With no more to come the bytes are that event alone, and nothing stays buffered. That is so with more to come too, but for seven texts that
 * may begin a sequence: ESC, ESC ESC, and ESC with [, O, P, ] or _. A key is written as hed_encode does, as its character, as a row of the
 * sequence table, or in the form of Kitty's protocol: the first of these that is read as this very event. A mouse report is written in SGR's
 * form. But a release that names no button is written in urxvt's, since SGR's always names one.
 *
 * Returns HED_OK, HED_NOT_INITIALIZED, HED_NO_MEMORY, or one of these:
 *
 * - HED_NO_TEXT if no bytes are read as the event. Such are HED_KIND_STRING_PART, HED_KIND_STRING_CUT, and a paste that has ESC [201~
 *   in it. Such is also an event that no parser makes, as a position with a 0.
 * - HED_TOO_LONG if the sequence would have more than 256 bytes, or the string 65535 before its end.
 * - HED_BAD_TEXT if the text of a paste or a key isn't UTF-8.
 * - HED_BAD_NUMBER if a number names nothing, as the kind HED_KIND_PASTE_PART does here, or a mouse report has modifiers but SHIFT, ALT, CTRL and
 *   SUPER. */
hed_status hed_encode_event(const hed_event *event, const uint8_t *text, size_t text_len, const hed_parser *parser, uint8_t *out,
                            size_t len, size_t *sent_len);

/* Writes what a terminal replies to a question for the position of its cursor: ESC [, the row, a semicolon, the column and R. private_reply says
 * that the question was ESC [?6n, not ESC [6n: then ? comes before the row. The first row and the first column are 1: a parser reads a reply with a
 * 0 as a HED_KIND_CSI. Without the ? a reply for row 1 and the columns 1 to 256 has the bytes of F3 with modifiers.
 *
 * Returns HED_OK or HED_NO_MEMORY. */
hed_status hed_encode_cursor_position(uint16_t row, uint16_t column, bool private_reply, uint8_t *out, size_t len, size_t *sent_len);

/* Writes what a terminal sends when its colours change, and replies to ESC [?996n: ESC [?997;1n if its colours are dark, and else ESC [?997;2n.
 *
 * Returns HED_OK or HED_NO_MEMORY. */
hed_status hed_encode_colour_scheme(bool dark, uint8_t *out, size_t len, size_t *sent_len);

/* Writes what a terminal replies to the question for its attributes (ESC [c): ESC [?, the count numbers parted by semicolons, and c. The first
 * number is the terminal's class, such as 62.
 *
 * Returns HED_OK, HED_NO_MEMORY, or HED_TOO_LONG if the reply would have more than 256 bytes. */
hed_status hed_encode_device_attributes(const uint16_t *numbers, size_t count, uint8_t *out, size_t len, size_t *sent_len);

/* The encodings of keys: the field encoding of a hed_modes. */
enum hed_encoding {
  HED_ENCODING_XTERM = 0, /* The characters themselves, and xterm's control sequences. */
  HED_ENCODING_CSI_U = 1, /* The same, but a character with modifiers that it can't show is sent as ESC [ c ; m u (fixterms). */
  HED_ENCODING_WIN32 = 2, /* Records of the Windows console. Keys are encoded as with XTERM. */
  HED_ENCODING_KITTY = 3 /* kitty's keyboard protocol. Keys are encoded as with XTERM. */
};

/* The modifiers by termwiz's bits, as a set: what hed_encode is given. Everything else has those of enum hed_kitty_mod. */
enum hed_termwiz_mod {
  HED_TERMWIZ_MOD_NONE = 0, /* No modifier. */
  HED_TERMWIZ_MOD_SHIFT = 2, /* Shift. */
  HED_TERMWIZ_MOD_ALT = 4, /* Alt. */
  HED_TERMWIZ_MOD_CTRL = 8, /* Ctrl. */
  HED_TERMWIZ_MOD_SUPER = 16, /* Super: the key with the Windows logo, or Command. */
  HED_TERMWIZ_MOD_LEFT_ALT = 32, /* The left Alt key. */
  HED_TERMWIZ_MOD_RIGHT_ALT = 64, /* The right Alt key. */
  HED_TERMWIZ_MOD_LEADER = 128, /* A leader key, for programs that define one. */
  HED_TERMWIZ_MOD_LEFT_CTRL = 256, /* The left Ctrl key. */
  HED_TERMWIZ_MOD_RIGHT_CTRL = 512, /* The right Ctrl key. */
  HED_TERMWIZ_MOD_LEFT_SHIFT = 1024, /* The left Shift key. */
  HED_TERMWIZ_MOD_RIGHT_SHIFT = 2048 /* The right Shift key. */
};

/* The modes of a terminal that change the text of a key: what hed_encode is given. All zero is xterm with every mode off. */
typedef struct hed_modes {
  int64_t modify_other_keys; /* the level of xterm's modifyOtherKeys; not read if has_modify_other_keys is false */
  uint8_t encoding; /* an enum hed_encoding */
  uint8_t kitty_flags; /* a set of HED_KITTY_FLAG_..; read only with HED_ENCODING_KITTY */
  bool application_cursor_keys; /* the arrows, Home and End send ESC O in place of ESC [ (DECCKM) */
  bool newline_mode; /* Enter sends a line feed after the carriage return (LNM) */
  bool has_modify_other_keys; /* modifyOtherKeys is on, at the level above */
} hed_modes;

/* Writes the text that a terminal in these modes sends for a key, as termwiz does. The text is UTF-8. It is empty for a key that sends nothing, and
 * for every key that is up (is_down is false), which needs no memory.
 *
 * key is an enum hed_key. detail is its code point if it is HED_KEY_CHAR, its number if it is HED_KEY_FUNCTION, and isn't read for other keys.
 * modifiers is a set of HED_TERMWIZ_MOD_...
 *
 * Returns HED_OK, HED_NO_MEMORY, HED_REFUSED_KEY for a function key, down, that isn't one of F1 to F24, or HED_BAD_NUMBER if a number names
 * nothing. So it is if no key has the number, detail is no Unicode scalar value, or a function key's number is above 255. So it is too if modifiers,
 * encoding or, with HED_ENCODING_KITTY, kitty_flags have a value or a bit without a name. */
hed_status hed_encode(uint16_t key, uint32_t detail, uint16_t modifiers, bool is_down, const hed_modes *modes, uint8_t *out, size_t len,
                      size_t *text_len);

/* Writes what a terminal in these modes sends for named presses, one after another, so that a program's keys are tested without a terminal. text is
 * the name of a chord, text_len bytes of UTF-8, as hed_key_read reads it: `ctrl+x ctrl+s`.
 *
 * With HED_ENCODING_KITTY each press is sent as hed_encode_kitty does under kitty_flags, with the text that the press types. A capital is its letter
 * with Shift, as a keyboard has it, and a sign is a key of its own. Otherwise each press is sent as hed_encode does, with HED_KITTY_MOD_SHIFT, ALT,
 * CTRL and SUPER as termwiz's bits.
 *
 * Many keys send the bytes of another one: `ctrl+i` those of `tab`. What follows an ESC may go on with it: the bytes of `escape x` are those of
 * `alt+x`. So pass what comes after `escape` in a call of its own, and feed it later.
 *
 * Returns HED_OK, HED_NO_MEMORY, or HED_BAD_NUMBER if modes has a number that names nothing, as for hed_encode. *at is 0 then. Otherwise it is one
 * of these, and *at is a byte of the text:
 *
 * - HED_NAME_.. or HED_BAD_TEXT, as hed_key_read returns it, and where the part that is wrong starts.
 * - HED_REFUSED_KEY, and where the name of the first press starts that sends nothing: a key or a modifier that has no bytes in these modes, as
 *   `hyper+x` without Kitty's protocol. */
hed_status hed_send_names(const uint8_t *text, size_t text_len, const hed_modes *modes, uint8_t *out, size_t len, size_t *sent_len,
                          size_t *at);

/* ---- hedrugal_replies(3): replies of a terminal, and the questions that they answer ---- */

/* The kinds of replies: the field kind of a hed_reply. */
enum hed_reply_kind {
  HED_REPLY_DEVICE_ATTRIBUTES = 1, /* The terminal's attributes (DA1, DA2, DA3): some numbers. */
  HED_REPLY_MODE = 2, /* The state of a mode (DECRPM). */
  HED_REPLY_COLOUR = 3, /* A colour (OSC 4, 10, 11 and 12). */
  HED_REPLY_VERSION = 4, /* The terminal's name and version (XTVERSION): some bytes. */
  HED_REPLY_WINDOW_SIZE = 5, /* The size of the window in characters. */
  HED_REPLY_COLOUR_SCHEME = 6, /* The preferred colour scheme. */
  HED_REPLY_CLIPBOARD = 7 /* What is in the clipboard or in a selection (OSC 52): some bytes. */
};

/* Which report of a terminal's attributes it is: the field report of a hed_reply. */
enum hed_device_attributes {
  HED_DEVICE_ATTRIBUTES_PRIMARY = 1, /* DA1: the class of the terminal, such as 62 for a VT220, and what it can do, such as 4 for sixels. */
  HED_DEVICE_ATTRIBUTES_SECONDARY = 2, /* DA2: the type of the terminal, its version, and 0. */
  HED_DEVICE_ATTRIBUTES_TERTIARY = 3 /* DA3: the bytes of the unit's number, mostly four. */
};

/* The states of a mode: the field state of a hed_reply. */
enum hed_mode_state {
  HED_MODE_STATE_NOT_RECOGNIZED = 0, /* The terminal doesn't know the mode. */
  HED_MODE_STATE_SET = 1, /* The mode is on. */
  HED_MODE_STATE_RESET = 2, /* The mode is off. */
  HED_MODE_STATE_PERMANENTLY_SET = 3, /* The mode is on and can't be switched off. */
  HED_MODE_STATE_PERMANENTLY_RESET = 4 /* The mode is off and can't be switched on. */
};

/* The colours that a terminal is asked for: the field name of a hed_reply. */
enum hed_colour_name {
  HED_COLOUR_NAME_PALETTE = 4, /* A colour of the palette, by its index. */
  HED_COLOUR_NAME_FOREGROUND = 10, /* The colour of text. */
  HED_COLOUR_NAME_BACKGROUND = 11, /* The colour behind text. */
  HED_COLOUR_NAME_CURSOR = 12 /* The colour of the cursor. */
};

/* The colour schemes: the field scheme of a hed_reply. */
enum hed_colour_scheme {
  HED_COLOUR_SCHEME_DARK = 1, /* Bright text on a dark background. */
  HED_COLOUR_SCHEME_LIGHT = 2 /* Dark text on a bright background. */
};

/* What a terminal's reply says. What its kind has no use for is 0. */
typedef struct hed_reply {
  uint8_t kind; /* an enum hed_reply_kind */
  uint8_t report; /* HED_REPLY_DEVICE_ATTRIBUTES: an enum hed_device_attributes */
  uint8_t state; /* HED_REPLY_MODE: an enum hed_mode_state */
  bool is_private; /* HED_REPLY_MODE: whether the mode is a private one, asked for with a question mark, and not an ANSI mode */
  uint8_t name; /* HED_REPLY_COLOUR: an enum hed_colour_name */
  uint8_t scheme; /* HED_REPLY_COLOUR_SCHEME: an enum hed_colour_scheme */
  uint8_t selection; /* HED_REPLY_CLIPBOARD: the selection: one of c, p, q, s and 0 to 7, or 0 if the terminal left it out */
  uint16_t index; /* HED_REPLY_COLOUR: with HED_COLOUR_NAME_PALETTE the index of the colour */
  uint16_t red; /* HED_REPLY_COLOUR: how red it is, from 0 to 65535 */
  uint16_t green; /* HED_REPLY_COLOUR: how green it is */
  uint16_t blue; /* HED_REPLY_COLOUR: how blue it is */
  uint16_t rows; /* HED_REPLY_WINDOW_SIZE: the number of rows */
  uint16_t columns; /* HED_REPLY_WINDOW_SIZE: the number of columns */
  uint32_t mode; /* HED_REPLY_MODE: the number of the mode */
  size_t len; /* how many numbers a HED_REPLY_DEVICE_ATTRIBUTES has, or how many bytes a HED_REPLY_VERSION or _CLIPBOARD */
} hed_reply;

/* Reads what a terminal replied to a question. The caller passes the kind of an event that hed_parser_next wrote, and its bytes, as
 * hed_parser_text copied them. Only a HED_KIND_CSI, a HED_KIND_OSC and a HED_KIND_DCS can be a reply. "Replies" of docs/EXTENDED.md says
 * which bytes are, and where their rules come from. A position of the cursor, a new size and the flags of Kitty's protocol come as events
 * of their own.
 *
 * Writes what the reply says to *reply. The numbers of a HED_REPLY_DEVICE_ATTRIBUTES go to numbers, at most numbers_capacity of them. The
 * bytes of a HED_REPLY_VERSION and of a HED_REPLY_CLIPBOARD, decoded from base64, go to out, at most capacity of them. reply->len is the
 * number of all of them, which is never more than len: a caller whose room was short can call again. The rest of numbers and out is
 * unchanged.
 *
 * Returns HED_OK, HED_NONE if the event is no such reply, or HED_NO_MEMORY, which only a reply with numbers or bytes can meet. */
hed_status hed_read_reply(uint8_t kind, const uint8_t *bytes, size_t len, hed_reply *reply, uint32_t *numbers, size_t numbers_capacity,
                          uint8_t *out, size_t capacity);

/* A question that is open: what one call of hed_questions_ask told, until its last reply. Times are those that the calls were given. */
typedef struct hed_question {
  uint64_t number; /* its number, as hed_questions_ask wrote it */
  uint64_t asked; /* when it was asked */
  uint64_t until; /* from when on it isn't open any more */
  uint32_t positions; /* how many positions of the cursor are still to come for it */
} hed_question;

/* The most questions that are open at once. */
#define HED_QUESTIONS_MOST 16

/* The questions that a program has asked its terminal. A program keeps one beside its parser, HED_QUESTIONS_NONE at first. It owns no memory, and
 * may be copied. Its fields may be read; the calls write them. */
typedef struct hed_questions {
  uint64_t asked; /* the number of the question that was asked last, 0 before the first */
  uint64_t answered; /* the number of the question that was answered last, 0 if none was */
  uint64_t slowest; /* how many milliseconds the slowest answer took, 0 if there was none */
  uint32_t count; /* how many questions are open */
  hed_question open[HED_QUESTIONS_MOST]; /* those, the oldest first. What is behind them says nothing */
} hed_questions;

/* The questions before the first is asked: all zero. */
#define HED_QUESTIONS_NONE \
  {                        \
    0, 0, 0, 0, {          \
      { 0, 0, 0, 0 }       \
    }                      \
  }

/* Notes that the program asks its terminal now. text is what it writes, such as ESC [6n or ESC ]11;? ESC \, which may be several questions. Behind
 * it the program writes ESC [c (DA1), which nearly every terminal answers. Replies come in the order of the questions, so a reply that hasn't come
 * before that to DA1 won't come. A question is open until the reply to DA1 comes, or for so many milliseconds, at least 2000: some terminals never
 * answer. What is overdue by now isn't open any more, as after hed_questions_expire. For each ESC [6n the parser expects a position of the cursor.
 *
 * Returns HED_OK, and writes the number of the question to *number: 1 for the first, and 1 more for each further one. HED_FULL: HED_QUESTIONS_MOST
 * are open. HED_BAD_NUMBER: count is above HED_QUESTIONS_MOST. HED_NOT_INITIALIZED: there is no parser. */
hed_status hed_questions_ask(hed_questions *questions, hed_parser *parser, uint64_t now, uint64_t milliseconds, const uint8_t *text,
                             size_t text_len, uint64_t *number);

/* Notes an event of the parser, and writes to *number which question it is a reply to: the oldest one that is open, or 0 if it is none. While one is
 * open, these are replies: HED_KIND_CURSOR_POSITION, _KEYBOARD_FLAGS, _CSI, _OSC, _DCS, _APC, _STRING_PART and _STRING_CUT. The reply to DA1, ESC [?
 * with a digit, and then digits and ; up to c, is the last one: it answers the question, which isn't open any more, and the parser expects no position for it.
 *
 * The caller passes each event, in the order in which they are told, with the bytes that it brought, as hed_parser_text copies them. Only those of a
 * HED_KIND_CSI are read, and the first 256 of them are enough.
 *
 * Returns HED_OK; HED_BAD_NUMBER: count is above HED_QUESTIONS_MOST; or HED_NOT_INITIALIZED: there is no parser. */
hed_status hed_questions_note(hed_questions *questions, hed_parser *parser, uint64_t now, const hed_event *event, const uint8_t *text,
                              size_t text_len, uint64_t *number);

/* Ends the questions that are overdue by now. A program calls it with hed_parser_idle. The parser expects the positions of the questions that are
 * still open, and no other: so the program makes this call after hed_parser_interrupted too, if a question was asked meanwhile.
 *
 * Returns HED_OK, HED_BAD_NUMBER or HED_NOT_INITIALIZED, as hed_questions_note. */
hed_status hed_questions_expire(hed_questions *questions, hed_parser *parser, uint64_t now);

/* Ends all questions, as when another program had the terminal: it may have read the replies. The parser expects no position. Without a parser the
 * questions end too. */
void hed_questions_forget(hed_questions *questions, hed_parser *parser);

/* Returns how many milliseconds are left until hed_questions_expire ends a question, as poll takes it: -1 if none is open, or count is above
 * HED_QUESTIONS_MOST. A program waits for the shorter of this time and hed_parser_timeout. */
int32_t hed_questions_timeout(const hed_questions *questions, uint64_t now);

/* The layouts that the library was proved with. A line that doesn't compile says that this machine has others. */
#define HED_IS(name, holds) typedef char hed_is_##name[(holds) ? 1 : -1]
HED_IS(parser, sizeof(hed_parser) == 16 && offsetof(hed_parser, state) == 8);
HED_IS(event, sizeof(hed_event) == 48 && offsetof(hed_event, string_kind) == 7 && offsetof(hed_event, key) == 8);
HED_IS(event_width, offsetof(hed_event, width) == 24);
HED_IS(event_end, offsetof(hed_event, detail) == 28 && offsetof(hed_event, base) == 36 && offsetof(hed_event, text_len) == 40);
HED_IS(keymap, sizeof(hed_keymap) == 16 && offsetof(hed_keymap, state) == 8);
HED_IS(bindings, sizeof(hed_bindings) == 16 && offsetof(hed_bindings, state) == 8);
HED_IS(matcher, sizeof(hed_matcher) == 168 && offsetof(hed_matcher, codes) == 8);
HED_IS(outcome, sizeof(hed_outcome) == 32 && offsetof(hed_outcome, press) == 16 && offsetof(hed_outcome, kind) == 24);
HED_IS(entries, sizeof(hed_entries) == 24 && offsetof(hed_entries, count) == 8 && offsetof(hed_entries, with_alt) == 16);
HED_IS(match, sizeof(hed_match) == 16 && offsetof(hed_match, value) == 8);
HED_IS(policy, sizeof(hed_policy) == 24 && offsetof(hed_policy, string) == 12 && offsetof(hed_policy, paste) == 20);
HED_IS(seen, sizeof(hed_seen) == 8 && offsetof(hed_seen, by) == 4 && offsetof(hed_seen, empty) == 7);
HED_IS(timer, sizeof(hed_timer) == 40 && offsetof(hed_timer, millis) == 24 && offsetof(hed_timer, holds) == 35);
HED_IS(press, sizeof(hed_key_press) == 8 && offsetof(hed_key_press, held) == 2 && offsetof(hed_key_press, detail) == 4);
HED_IS(reading, sizeof(hed_reading) == 16 && offsetof(hed_reading, erase) == 4 && offsetof(hed_reading, newline) == 8);
HED_IS(reading_end, offsetof(hed_reading, x10_mouse) == 12 && offsetof(hed_reading, questions) == 13);
HED_IS(sent_mouse, sizeof(hed_sent_mouse) == 6 && offsetof(hed_sent_mouse, modifiers) == 4 && offsetof(hed_sent_mouse, button) == 5);
HED_IS(reply, sizeof(hed_reply) == 32 && offsetof(hed_reply, is_private) == 3 && offsetof(hed_reply, selection) == 6);
HED_IS(reply_index, offsetof(hed_reply, index) == 8 && offsetof(hed_reply, columns) == 18);
HED_IS(reply_end, offsetof(hed_reply, mode) == 20 && offsetof(hed_reply, len) == 24);
HED_IS(question, sizeof(hed_question) == 32 && offsetof(hed_question, positions) == 24);
HED_IS(questions, sizeof(hed_questions) == 544 && offsetof(hed_questions, count) == 24 && offsetof(hed_questions, open) == 32);
HED_IS(modes, sizeof(hed_modes) == 16 && offsetof(hed_modes, encoding) == 8 && offsetof(hed_modes, has_modify_other_keys) == 12);
#undef HED_IS

#ifdef __cplusplus
}
#endif
#endif
