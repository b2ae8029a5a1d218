// The declarations of c/hedrugal.h, which `make numbers` writes at marked places. Here the
// library's proof ends.

use std::ffi::c_void;
use std::mem::{offset_of, size_of};

// hedrugal.h: rust numbers
pub const ENTRY_MOST: usize = 11;
pub const CHORD_MOST: usize = 32;
pub const CODES_MOST: usize = 160;
pub const QUESTIONS_MOST: usize = 16;
pub const NO_CODE: u32 = u32::MAX;
pub const NO_PARTS: usize = usize::MAX;
pub const LIMIT_MOST: i32 = 2_147_418_111;

// What a call did: HED_OK, or why it did nothing.
pub const STATUS_OK: u32 = 0;
pub const STATUS_NONE: u32 = 1;
pub const STATUS_NO_MEMORY: u32 = 2;
pub const STATUS_BAD_NUMBER: u32 = 3;
pub const STATUS_BUSY: u32 = 4;
pub const STATUS_NOT_INITIALIZED: u32 = 5;
pub const STATUS_REFUSED_KEY: u32 = 6;
pub const STATUS_NO_TEXT: u32 = 7;
pub const STATUS_TOO_LONG: u32 = 8;
pub const STATUS_TOO_FAR: u32 = 10;
pub const STATUS_AMBIGUOUS: u32 = 11;
pub const STATUS_NEED_DATA: u32 = 12;
pub const STATUS_FULL: u32 = 13;
pub const STATUS_NAME_CONTROL_CHARACTER: u32 = 20;
pub const STATUS_NAME_MODIFIER_TWICE: u32 = 21;
pub const STATUS_NAME_UNKNOWN_MODIFIER: u32 = 22;
pub const STATUS_NAME_MISSING_KEY: u32 = 23;
pub const STATUS_NAME_BAD_NUMBER: u32 = 24;
pub const STATUS_NAME_UNKNOWN_NAME: u32 = 25;
pub const STATUS_NAME_AMBIGUOUS: u32 = 26;
pub const STATUS_NAME_NOT_A_KEY: u32 = 27;
pub const STATUS_NAME_SHIFTED_CHARACTER: u32 = 28;
pub const STATUS_NAME_TOO_LONG: u32 = 29;
pub const STATUS_NAME_EMPTY: u32 = 30;

// The kinds of events: the field kind of a hed_event.
pub const KIND_OTHER: u8 = 0;
pub const KIND_KEY: u8 = 1;
pub const KIND_MOUSE: u8 = 2;
pub const KIND_PASTE: u8 = 3;
pub const KIND_FOCUS_GAINED: u8 = 5;
pub const KIND_FOCUS_LOST: u8 = 6;
pub const KIND_CURSOR_POSITION: u8 = 7;
pub const KIND_RESIZED: u8 = 8;
pub const KIND_KEYBOARD_FLAGS: u8 = 9;
pub const KIND_CSI: u8 = 10;
pub const KIND_OSC: u8 = 11;
pub const KIND_DCS: u8 = 12;
pub const KIND_APC: u8 = 13;
pub const KIND_PASTE_PART: u8 = 14;
pub const KIND_STRING_PART: u8 = 15;
pub const KIND_STRING_CUT: u8 = 16;

// What happened to a key: the field key_event_kind of a hed_event.
pub const KEY_EVENT_KIND_PRESS: u8 = 1;
pub const KEY_EVENT_KIND_REPEAT: u8 = 2;
pub const KEY_EVENT_KIND_RELEASE: u8 = 3;

// What happened to the mouse: the field mouse_kind of a hed_event.
pub const MOUSE_KIND_PRESS: u8 = 1;
pub const MOUSE_KIND_RELEASE: u8 = 2;
pub const MOUSE_KIND_DRAG: u8 = 3;
pub const MOUSE_KIND_MOVE: u8 = 4;
pub const MOUSE_KIND_WHEEL: u8 = 5;

// By which grammar a parser reads: what hed_parser_init is given.
pub const DIALECT_EXTENDED: u32 = 0;
pub const DIALECT_TERMWIZ: u32 = 1;

// What stays buffered, as hed_parser_waiting returns it.
pub const WAITING_NOTHING: u32 = 0;
pub const WAITING_ESCAPE: u32 = 1;
pub const WAITING_SEQUENCE: u32 = 2;
pub const WAITING_CHARACTER: u32 = 3;
pub const WAITING_PASTE: u32 = 4;
pub const WAITING_STRING: u32 = 5;

// Which byte the Backspace key sends: the field erase of a hed_reading.
pub const ERASE_DELETE: u32 = 0;
pub const ERASE_BACKSPACE: u32 = 1;

// What byte 10 is: the field newline of a hed_reading.
pub const NEWLINE_CTRL_J: u32 = 0;
pub const NEWLINE_ENTER: u32 = 1;

// The kinds of outcomes: the field kind of a hed_outcome.
pub const OUTCOME_BOUND: u32 = 1;
pub const OUTCOME_UNBOUND: u32 = 2;

// The two ages of what is pending, by which a hed_timer limits it: the field by of a hed_seen.
pub const AGE_LAST: u8 = 0;
pub const AGE_FRONT: u8 = 1;

// What a mouse report that is sent says: the field button of a hed_sent_mouse.
pub const MOUSE_NONE: u8 = 0;
pub const MOUSE_BUTTON1_PRESS: u8 = 1;
pub const MOUSE_BUTTON2_PRESS: u8 = 2;
pub const MOUSE_BUTTON3_PRESS: u8 = 3;
pub const MOUSE_BUTTON4_PRESS: u8 = 4;
pub const MOUSE_BUTTON5_PRESS: u8 = 5;
pub const MOUSE_BUTTON6_PRESS: u8 = 6;
pub const MOUSE_BUTTON7_PRESS: u8 = 7;
pub const MOUSE_BUTTON1_RELEASE: u8 = 8;
pub const MOUSE_BUTTON2_RELEASE: u8 = 9;
pub const MOUSE_BUTTON3_RELEASE: u8 = 10;
pub const MOUSE_BUTTON4_RELEASE: u8 = 11;
pub const MOUSE_BUTTON5_RELEASE: u8 = 12;
pub const MOUSE_BUTTON6_RELEASE: u8 = 13;
pub const MOUSE_BUTTON7_RELEASE: u8 = 14;
pub const MOUSE_BUTTON1_DRAG: u8 = 15;
pub const MOUSE_BUTTON2_DRAG: u8 = 16;
pub const MOUSE_BUTTON3_DRAG: u8 = 17;

// The mouse reports that a program asked for, by xterm's modes: what hed_encode_mouse is given.
pub const MOUSE_TRACKING_X10: u32 = 0;
pub const MOUSE_TRACKING_NORMAL: u32 = 1;
pub const MOUSE_TRACKING_BUTTON: u32 = 2;
pub const MOUSE_TRACKING_ANY: u32 = 3;

// How mouse reports are written: what hed_encode_mouse is given.
pub const MOUSE_ENCODING_DEFAULT: u32 = 0;
pub const MOUSE_ENCODING_URXVT: u32 = 1;
pub const MOUSE_ENCODING_SGR: u32 = 2;

// The encodings of keys: the field encoding of a hed_modes.
pub const ENCODING_XTERM: u8 = 0;
pub const ENCODING_CSI_U: u8 = 1;
pub const ENCODING_WIN32: u8 = 2;
pub const ENCODING_KITTY: u8 = 3;

// The kinds of replies: the field kind of a hed_reply.
pub const REPLY_DEVICE_ATTRIBUTES: u8 = 1;
pub const REPLY_MODE: u8 = 2;
pub const REPLY_COLOUR: u8 = 3;
pub const REPLY_VERSION: u8 = 4;
pub const REPLY_WINDOW_SIZE: u8 = 5;
pub const REPLY_COLOUR_SCHEME: u8 = 6;
pub const REPLY_CLIPBOARD: u8 = 7;

// Which report of a terminal's attributes it is: the field report of a hed_reply.
pub const DEVICE_ATTRIBUTES_PRIMARY: u8 = 1;
pub const DEVICE_ATTRIBUTES_SECONDARY: u8 = 2;
pub const DEVICE_ATTRIBUTES_TERTIARY: u8 = 3;

// The states of a mode: the field state of a hed_reply.
pub const MODE_STATE_NOT_RECOGNIZED: u8 = 0;
pub const MODE_STATE_SET: u8 = 1;
pub const MODE_STATE_RESET: u8 = 2;
pub const MODE_STATE_PERMANENTLY_SET: u8 = 3;
pub const MODE_STATE_PERMANENTLY_RESET: u8 = 4;

// The colours that a terminal is asked for: the field name of a hed_reply.
pub const COLOUR_NAME_PALETTE: u8 = 4;
pub const COLOUR_NAME_FOREGROUND: u8 = 10;
pub const COLOUR_NAME_BACKGROUND: u8 = 11;
pub const COLOUR_NAME_CURSOR: u8 = 12;

// The colour schemes: the field scheme of a hed_reply.
pub const COLOUR_SCHEME_DARK: u8 = 1;
pub const COLOUR_SCHEME_LIGHT: u8 = 2;
// hedrugal.h: end

// Declares structs. One without fields is a handle, which leads to what the library owns.
macro_rules! structs {
    ($(#[$about:meta])* $name:ident {}) => {
        $(#[$about])*
        #[repr(C)]
        pub struct $name {
            live: bool,
            state: *mut c_void,
        }

        impl $name {
            /// None.
            pub const NONE: $name = $name {
                live: false,
                state: std::ptr::null_mut(),
            };
        }

        // SAFETY: `Send` of the library's handle is proved. What it owns is reached through it
        // alone, but for a table that parsers share. No call changes that, and the library counts
        // these parsers atomically.
        unsafe impl Send for $name {}
    };
    (@declared $(#[$about:meta])* $name:ident { $($field:ident: $of:ty),+ }) => {
        $(#[$about])*
        #[repr(C)]
        #[derive(Debug, Clone, Copy, PartialEq, Eq, Hash)]
        pub struct $name {
            $(pub $field: $of,)+
        }
    };
    // Its array is longer than those that have a `Default`.
    ($(#[$about:meta])* Matcher $fields:tt) => {
        structs! { @declared $(#[$about])* Matcher $fields }
    };
    ($(#[$about:meta])* $name:ident { $($field:ident: $of:ty),+ }) => {
        structs! { @declared $(#[$about])* #[derive(Default)] $name { $($field: $of),+ } }
    };
    ($($(#[$about:meta])* $name:ident $fields:tt)+) => {
        $(structs! { $(#[$about])* $name $fields })+
    };
}

structs! {
    // hedrugal.h: rust structs
    /// An event.
    Event { kind: u8, modifiers: u8, key_event_kind: u8, mouse_kind: u8, button: u8, buttons: u8,
        flags: u8, string_kind: u8, key: u16, x: u16, y: u16, row: u16, column: u16, rows: u16,
        columns: u16, height: u16, width: u16, detail: u32, shifted: u32, base: u32,
        text_len: usize }
    /// A parser, or none.
    Parser {}
    /// How a parser reads.
    Reading { dialect: u32, erase: u32, newline: u32, x10_mouse: bool, questions: u8 }
    /// How long each kind of bytes may stay buffered, in milliseconds: then they are due to be
    /// flushed.
    Policy { escape: i32, alt_key: i32, sequence: i32, string: i32, character: i32, paste: i32 }
    /// Some entries of the sequence table, one after another.
    Entries { first: usize, count: usize, with_alt: bool }
    /// The press of a key: the key and the modifiers held with it, the same however the terminal
    /// reports the key.
    KeyPress { key: u16, held: u8, detail: u32 }
    /// Bindings, or none: a map from chords to numbers, by which a program tells what it does at
    /// which keys.
    Bindings {}
    /// A matcher: it reads presses as chords and as single keys, and holds those that aren't
    /// decided yet.
    Matcher { count: usize, codes: [u8; CODES_MOST] }
    /// What the first of the pending presses do.
    Outcome { keys: usize, value: u64, press: KeyPress, kind: u32 }
    /// What a program tells a hed_timer: what is pending now, and what happened since the last
    /// note.
    Seen { limit: i32, by: u8, fed: bool, taken: bool, empty: bool }
    /// A timer, by which a program keeps a limit in time of its own beside its parser's.
    Timer { last: u64, front: u64, noted: u64, millis: u64, by: u8, has_noted: bool,
        has_limit: bool, holds: bool }
    /// A map from byte strings to numbers, or none.
    KeyMap {}
    /// A key that hed_keymap_lookup found.
    Match { len: usize, value: u64 }
    /// A mouse report that is sent.
    SentMouse { x: u16, y: u16, modifiers: u8, button: u8 }
    /// The modes of a terminal that change the text of a key: what hed_encode is given.
    Modes { modify_other_keys: i64, encoding: u8, kitty_flags: u8, application_cursor_keys: bool,
        newline_mode: bool, has_modify_other_keys: bool }
    /// What a terminal's reply says.
    Reply { kind: u8, report: u8, state: u8, is_private: bool, name: u8, scheme: u8, selection: u8,
        index: u16, red: u16, green: u16, blue: u16, rows: u16, columns: u16, mode: u32,
        len: usize }
    /// A question that is open: what one call of hed_questions_ask told, until its last reply.
    Question { number: u64, asked: u64, until: u64, positions: u32 }
    /// The questions that a program has asked its terminal.
    Questions { asked: u64, answered: u64, slowest: u64, count: u32,
        open: [Question; QUESTIONS_MOST] }
    // hedrugal.h: end
}

// The layouts by C's rules: the size of a struct, and where its fields are.
macro_rules! is_laid_out {
    ($name:ident $size:literal $($field:ident $at:literal)*) => {
        assert!(size_of::<$name>() == $size);
        $(assert!(offset_of!($name, $field) == $at);)*
    };
}

#[rustfmt::skip]
const _: () = {
    // hedrugal.h: rust layouts
    is_laid_out!(Event 48 kind 0 modifiers 1 key_event_kind 2 mouse_kind 3 button 4 buttons 5
        flags 6 string_kind 7 key 8 x 10 y 12 row 14 column 16 rows 18 columns 20 height 22 width 24
        detail 28 shifted 32 base 36 text_len 40);
    is_laid_out!(Parser 16 live 0 state 8);
    is_laid_out!(Reading 16 dialect 0 erase 4 newline 8 x10_mouse 12 questions 13);
    is_laid_out!(Policy 24 escape 0 alt_key 4 sequence 8 string 12 character 16 paste 20);
    is_laid_out!(Entries 24 first 0 count 8 with_alt 16);
    is_laid_out!(KeyPress 8 key 0 held 2 detail 4);
    is_laid_out!(Bindings 16 live 0 state 8);
    is_laid_out!(Matcher 168 count 0 codes 8);
    is_laid_out!(Outcome 32 keys 0 value 8 press 16 kind 24);
    is_laid_out!(Seen 8 limit 0 by 4 fed 5 taken 6 empty 7);
    is_laid_out!(Timer 40 last 0 front 8 noted 16 millis 24 by 32 has_noted 33 has_limit 34
        holds 35);
    is_laid_out!(KeyMap 16 live 0 state 8);
    is_laid_out!(Match 16 len 0 value 8);
    is_laid_out!(SentMouse 6 x 0 y 2 modifiers 4 button 5);
    is_laid_out!(Modes 16 modify_other_keys 0 encoding 8 kitty_flags 9 application_cursor_keys 10
        newline_mode 11 has_modify_other_keys 12);
    is_laid_out!(Reply 32 kind 0 report 1 state 2 is_private 3 name 4 scheme 5 selection 6 index 8
        red 10 green 12 blue 14 rows 16 columns 18 mode 20 len 24);
    is_laid_out!(Question 32 number 0 asked 8 until 16 positions 24);
    is_laid_out!(Questions 544 asked 0 answered 8 slowest 16 count 24 open 32);
    // hedrugal.h: end
};

// tools/interface knows which calls have no use here.
#[rustfmt::skip]
#[allow(dead_code)]
extern "C" {
    // hedrugal.h: rust calls
    pub fn hed_version() -> u32;
    pub fn hed_key_name(key: u16, out: *mut u8, len: usize) -> usize;
    pub fn hed_parser_init(parser: *mut Parser, dialect: u32) -> u32;
    pub fn hed_parser_init_sharing(parser: *mut Parser, dialect: u32, other: *const Parser) -> u32;
    pub fn hed_parser_free(parser: *mut Parser);
    pub fn hed_parser_feed(parser: *mut Parser, now: u64, bytes: *const u8, len: usize) -> u32;
    pub fn hed_parser_next(parser: *mut Parser, event: *mut Event) -> u32;
    pub fn hed_parser_next_events(parser: *mut Parser, events: *mut Event, room: usize,
        text: *mut u8, text_room: usize, count: *mut usize) -> u32;
    pub fn hed_parser_text(parser: *const Parser, out: *mut u8, len: usize) -> usize;
    pub fn hed_parser_drop_text(parser: *mut Parser);
    pub fn hed_paste_lines(text: *const u8, text_len: usize, out: *mut u8, len: usize) -> usize;
    pub fn hed_parser_timeout(parser: *const Parser, now: u64) -> i32;
    pub fn hed_parser_idle(parser: *mut Parser, now: u64);
    pub fn hed_parser_flush(parser: *mut Parser);
    pub fn hed_parser_end(parser: *mut Parser);
    pub fn hed_parser_interrupted(parser: *mut Parser, now: u64) -> u32;
    pub fn hed_parser_set_parts(parser: *mut Parser, limit: usize);
    pub fn hed_parser_skip_paste(parser: *mut Parser, count: *mut usize) -> u32;
    pub fn hed_parser_reset(parser: *mut Parser) -> usize;
    pub fn hed_parser_shrink_to(parser: *mut Parser, min_capacity: usize);
    pub fn hed_parser_waiting_len(parser: *const Parser) -> usize;
    pub fn hed_parser_waiting(parser: *const Parser) -> u32;
    pub fn hed_parser_set_reading(parser: *mut Parser, reading: *const Reading) -> u32;
    pub fn hed_parser_reading(parser: *const Parser, reading: *mut Reading) -> u32;
    pub fn hed_parser_expect_position(parser: *mut Parser);
    pub fn hed_parser_forget_positions(parser: *mut Parser);
    pub fn hed_parser_set_policy(parser: *mut Parser, policy: *const Policy) -> u32;
    pub fn hed_parser_entry(parser: *const Parser, place: usize, bytes: *mut u8, capacity: usize,
        event: *mut Event) -> usize;
    pub fn hed_parser_completions(parser: *const Parser, entries: *mut Entries) -> u32;
    pub fn hed_parser_press(parser: *const Parser, event: *const Event,
        press: *mut KeyPress) -> u32;
    pub fn hed_parser_second(parser: *const Parser, event: *const Event,
        press: *mut KeyPress) -> u32;
    pub fn hed_event_press(event: *const Event, text: *const u8, text_len: usize,
        press: *mut KeyPress) -> u32;
    pub fn hed_event_second(event: *const Event, press: *mut KeyPress) -> u32;
    pub fn hed_press_text(press: *const KeyPress, out: *mut u8, len: usize) -> usize;
    pub fn hed_press_print(press: *const KeyPress, out: *mut u8, len: usize,
        name_len: *mut usize) -> u32;
    pub fn hed_key_read(text: *const u8, text_len: usize, keys: *mut KeyPress, room: usize,
        count: *mut usize, at: *mut usize) -> u32;
    pub fn hed_key_print(keys: *const KeyPress, count: usize, out: *mut u8, len: usize,
        name_len: *mut usize) -> u32;
    pub fn hed_bindings_init(bindings: *mut Bindings) -> u32;
    pub fn hed_bindings_free(bindings: *mut Bindings);
    pub fn hed_bindings_bind(bindings: *mut Bindings, keys: *const KeyPress, count: usize,
        value: u64) -> u32;
    pub fn hed_bindings_bind_name(bindings: *mut Bindings, text: *const u8, text_len: usize,
        value: u64, at: *mut usize) -> u32;
    pub fn hed_bindings_unbind(bindings: *mut Bindings, keys: *const KeyPress, count: usize,
        value: *mut u64) -> u32;
    pub fn hed_bindings_lookup(bindings: *const Bindings, keys: *const KeyPress, count: usize,
        value: *mut u64) -> u32;
    pub fn hed_bindings_len(bindings: *const Bindings) -> usize;
    pub fn hed_bindings_entry(bindings: *const Bindings, place: usize, keys: *mut KeyPress,
        room: usize, count: *mut usize, value: *mut u64) -> u32;
    pub fn hed_bindings_continuations(bindings: *const Bindings, keys: *const KeyPress,
        count: usize, first: *mut usize, end: *mut usize) -> u32;
    pub fn hed_matcher_press(matcher: *mut Matcher, press: *const KeyPress) -> u32;
    pub fn hed_matcher_press_either(matcher: *mut Matcher, bindings: *const Bindings,
        presses: *const KeyPress, count: usize) -> u32;
    pub fn hed_matcher_next(matcher: *mut Matcher, bindings: *const Bindings, maybe_more: bool,
        outcome: *mut Outcome) -> u32;
    pub fn hed_matcher_on_pause(matcher: *const Matcher, bindings: *const Bindings,
        outcome: *mut Outcome) -> u32;
    pub fn hed_matcher_is_dead_end(matcher: *const Matcher, bindings: *const Bindings) -> bool;
    pub fn hed_matcher_pending(matcher: *const Matcher, keys: *mut KeyPress, room: usize) -> usize;
    pub fn hed_matcher_cancel(matcher: *mut Matcher, keys: *mut KeyPress, room: usize) -> usize;
    pub fn hed_timer_note(timer: *mut Timer, now: u64, seen: *const Seen) -> u32;
    pub fn hed_timer_timeout(timer: *const Timer, now: u64) -> i32;
    pub fn hed_keymap_init(map: *mut KeyMap) -> u32;
    pub fn hed_keymap_free(map: *mut KeyMap);
    pub fn hed_keymap_insert(map: *mut KeyMap, key: *const u8, len: usize, value: u64) -> u32;
    pub fn hed_keymap_lookup(map: *const KeyMap, text: *const u8, len: usize, maybe_more: bool,
        found: *mut Match) -> u32;
    pub fn hed_keymap_len(map: *const KeyMap) -> usize;
    pub fn hed_encode_kitty(event: *const Event, text: *const u8, text_len: usize, flags: u8,
        out: *mut u8, len: usize, sent_len: *mut usize) -> u32;
    pub fn hed_encode_paste(text: *const u8, text_len: usize, bracketed: bool, out: *mut u8,
        len: usize, sent_len: *mut usize) -> u32;
    pub fn hed_encode_mouse(report: *const SentMouse, tracking: u32, encoding: u32, out: *mut u8,
        len: usize, sent_len: *mut usize) -> u32;
    pub fn hed_encode_event(event: *const Event, text: *const u8, text_len: usize,
        parser: *const Parser, out: *mut u8, len: usize, sent_len: *mut usize) -> u32;
    pub fn hed_encode_cursor_position(row: u16, column: u16, private_reply: bool, out: *mut u8,
        len: usize, sent_len: *mut usize) -> u32;
    pub fn hed_encode_colour_scheme(dark: bool, out: *mut u8, len: usize,
        sent_len: *mut usize) -> u32;
    pub fn hed_encode_device_attributes(numbers: *const u16, count: usize, out: *mut u8, len: usize,
        sent_len: *mut usize) -> u32;
    pub fn hed_encode(key: u16, detail: u32, modifiers: u16, is_down: bool, modes: *const Modes,
        out: *mut u8, len: usize, text_len: *mut usize) -> u32;
    pub fn hed_send_names(text: *const u8, text_len: usize, modes: *const Modes, out: *mut u8,
        len: usize, sent_len: *mut usize, at: *mut usize) -> u32;
    pub fn hed_read_reply(kind: u8, bytes: *const u8, len: usize, reply: *mut Reply,
        numbers: *mut u32, numbers_capacity: usize, out: *mut u8, capacity: usize) -> u32;
    pub fn hed_questions_ask(questions: *mut Questions, parser: *mut Parser, now: u64,
        milliseconds: u64, text: *const u8, text_len: usize, number: *mut u64) -> u32;
    pub fn hed_questions_note(questions: *mut Questions, parser: *mut Parser, now: u64,
        event: *const Event, text: *const u8, text_len: usize, number: *mut u64) -> u32;
    pub fn hed_questions_expire(questions: *mut Questions, parser: *mut Parser, now: u64) -> u32;
    pub fn hed_questions_forget(questions: *mut Questions, parser: *mut Parser);
    pub fn hed_questions_timeout(questions: *const Questions, now: u64) -> i32;
    // hedrugal.h: end
}
