// What happens at a terminal, and what it replies.
use crate::error::{numbered, FAULT};
use crate::{
    raw, KeyCode, KeyPress, KittyKeyboardFlags, KittyModifiers, Modifiers, MouseButtons,
    SequenceBytes,
};

/// What happened to a key.
#[derive(Debug, Clone, Copy, PartialEq, Eq, Hash)]
#[cfg_attr(feature = "serde", derive(serde::Serialize, serde::Deserialize))]
pub enum KeyEventKind {
    /// It was pressed.
    Press,
    /// It was held down so long that it repeats.
    Repeat,
    /// It was released.
    Release,
}

/// The key of a report.
#[derive(Debug, Clone, Copy, PartialEq, Eq, Hash)]
#[cfg_attr(feature = "serde", derive(serde::Serialize, serde::Deserialize))]
pub enum ReportedKey {
    /// A key that has a name or types a character.
    Named(KeyCode),
    /// A key for which [`KeyCode`] has no name, by its number in Kitty's table of functional keys.
    /// The number 0 stands for text that no key typed.
    Functional(u32),
}

/// A key that was pressed, held or released, with all that the terminal tells of it. Beyond the key
/// and SHIFT, ALT and CTRL, mostly Kitty's keyboard protocol tells that.
///
/// ```
/// use hedrugal::{Dialect, KeyCode, KeyEventKind, Parser, ReportedKey};
/// use std::time::Instant;
///
/// let mut parser = Parser::new(Dialect::Extended);
/// parser.feed(Instant::now(), b"\x1b[97:65;2:3u");
/// let event = parser.next().unwrap();
/// let report = event.key().unwrap();
/// assert_eq!(report.key, ReportedKey::Named(KeyCode::Char('a')));
/// assert_eq!((report.kind, report.shifted), (KeyEventKind::Release, Some('A')));
/// ```
#[derive(Debug, Clone, PartialEq, Eq)]
#[cfg_attr(feature = "serde", derive(serde::Serialize, serde::Deserialize))]
pub struct KeyReport {
    /// The key.
    pub key: ReportedKey,
    /// The modifiers.
    pub modifiers: KittyModifiers,
    /// Whether it was pressed, held or released.
    pub kind: KeyEventKind,
    /// What the key types with Shift, if the terminal reported it.
    pub shifted: Option<char>,
    /// What the key at this place types on the standard layout (PC-101), if the terminal reported
    /// it.
    pub base: Option<char>,
    /// The text that the key types, if the terminal reported it; otherwise empty.
    pub text: String,
}

/// The kind of a string, by what introduces it.
#[derive(Debug, Clone, Copy, PartialEq, Eq, Hash)]
#[cfg_attr(feature = "serde", derive(serde::Serialize, serde::Deserialize))]
pub enum StringKind {
    /// An operating system command, after ESC `]`.
    Osc,
    /// A device control string, after ESC `P`.
    Dcs,
    /// An application program command, after ESC `_`.
    Apc,
}

/// What happened to the mouse.
#[derive(Debug, Clone, Copy, PartialEq, Eq, Hash)]
#[cfg_attr(feature = "serde", derive(serde::Serialize, serde::Deserialize))]
pub enum MouseKind {
    /// A button was pressed.
    Press,
    /// A button was released. Only SGR reports (mode 1006) tell which one.
    Release,
    /// The mouse was moved while a button was down.
    Drag,
    /// The mouse was moved while no button was down.
    Move,
    /// A wheel was turned.
    Wheel,
}

/// A mouse report, with the position in cells, or in pixels with mode 1016.
#[derive(Debug, Clone, Copy, PartialEq, Eq)]
#[cfg_attr(feature = "serde", derive(serde::Serialize, serde::Deserialize))]
pub struct MouseReport {
    /// The column, as the terminal sent it: the leftmost is 1.
    pub x: u16,
    /// The row, as the terminal sent it: the topmost is 1.
    pub y: u16,
    /// The modifier keys that were held: SHIFT, ALT and CTRL.
    pub modifiers: Modifiers,
    /// The button that is down, or the wheel that was turned, as in a
    /// [`MouseEvent`](crate::input::MouseEvent). Empty after a release, for a move with no button
    /// down, and for a side button.
    pub buttons: MouseButtons,
    /// What happened.
    pub kind: MouseKind,
    /// The button that the report names, if it names one. 1 to 3 are the left, the middle and the
    /// right one. 4 to 7 are the wheel, turned up, down, to the left and to the right. 8 to 11 are
    /// the side buttons.
    pub button: Option<u8>,
}

/// The size of a terminal.
#[derive(Debug, Clone, Copy, PartialEq, Eq, Hash, Default)]
#[cfg_attr(feature = "serde", derive(serde::Serialize, serde::Deserialize))]
pub struct Size {
    /// The number of columns.
    pub columns: u16,
    /// The number of rows.
    pub rows: u16,
    /// The width in pixels, 0 if it isn't known.
    pub width: u16,
    /// The height in pixels, 0 if it isn't known.
    pub height: u16,
}

/// Something that happened at the terminal, or that it replied.
///
/// ```
/// use hedrugal::{Dialect, Event, Parser};
/// use std::time::Instant;
///
/// let mut parser = Parser::new(Dialect::Extended);
/// parser.feed(Instant::now(), b"\x1b[I\x1b[?62;22c");
/// assert!(parser.eq([Event::FocusGained, Event::Csi(b"?62;22c".into())]));
/// ```
#[derive(Debug, Clone, PartialEq, Eq)]
#[cfg_attr(feature = "serde", derive(serde::Serialize, serde::Deserialize))]
pub enum Event {
    /// A key, typed or reported.
    Key(KeyReport),
    /// A mouse report.
    Mouse(MouseReport),
    /// Text was pasted, in bracketed paste mode.
    Paste(String),
    /// Text of a paste whose end is still to come: see [`Parser::set_parts`](crate::Parser::set_parts).
    PastePart(String),
    /// The terminal's window gained the focus (mode 1004).
    FocusGained,
    /// The terminal's window lost the focus.
    FocusLost,
    /// The reply to a question for the cursor's position (DSR 6), as it was sent: the first row and
    /// the first column are 1.
    CursorPosition {
        /// The row.
        row: u16,
        /// The column.
        column: u16,
    },
    /// The terminal has a new size. A parser tells it in mode 2048, and a
    /// [`Terminal`](crate::terminal::Terminal) always.
    Resized(Size),
    /// The reply to a question for the flags of Kitty's keyboard protocol.
    KeyboardFlags(KittyKeyboardFlags),
    /// Any other control sequence: its bytes after ESC `[`.
    Csi(SequenceBytes),
    /// An operating system command: its bytes after ESC `]`, without its end.
    Osc(SequenceBytes),
    /// A device control string: its bytes after ESC `P`, without its end.
    Dcs(SequenceBytes),
    /// An application program command: its bytes after ESC `_`, without its end.
    Apc(SequenceBytes),
    /// The first bytes of a long string whose end is still to come. The next such event, or the
    /// string's own, goes on with it. Its bytes begin with those that opened the string once more,
    /// such as `52;`.
    StringPart {
        /// The kind of the string.
        kind: StringKind,
        /// The bytes after its introducer, 65533 of them.
        bytes: SequenceBytes,
    },
    /// A string that was cut off: another sequence followed it, or nothing for too long.
    StringCut {
        /// The kind of the string.
        kind: StringKind,
        /// Its bytes after its introducer.
        bytes: SequenceBytes,
    },
    /// Another program had the terminal while this one was stopped, so draw all of it. `Resized`
    /// follows, since the size may be new. Only a [`Terminal`](crate::terminal::Terminal) tells it.
    Resumed,
}

impl Event {
    /// Returns the report of a key, and `None` for any other event.
    #[must_use]
    pub fn key(&self) -> Option<&KeyReport> {
        match self {
            Event::Key(report) => Some(report),
            _ => None,
        }
    }

    /// Returns the press of a key, by which a program looks up what the key does:
    /// [`KeyPress::of_report`]. A release and a modifier alone have none.
    #[must_use]
    pub fn press(&self) -> Option<KeyPress> {
        self.key().and_then(KeyPress::of_report)
    }

    /// Returns a second press of a key, for a program in which the first one leads nowhere:
    /// [`KeyPress::second`].
    #[must_use]
    pub fn second(&self) -> Option<KeyPress> {
        self.key().and_then(KeyPress::second)
    }

    // A key of the library whose text wasn't reported, and `None` for another event. In an event that
    // is no key nothing happened to a key.
    #[inline]
    pub(crate) fn of_plain_key(event: &raw::Event) -> Option<Event> {
        let kind = KeyEventKind::of(event.key_event_kind)?;
        if event.text_len > 0 {
            return None;
        }
        KeyReport::of(event, kind, String::new()).map(Event::Key)
    }

    // An event of the library that brings neither text nor bytes, and `None` for another one, as for
    // every key.
    #[inline]
    pub(crate) fn of_numbers(event: &raw::Event) -> Option<Event> {
        Some(match event.kind {
            raw::KIND_MOUSE => Event::Mouse(MouseReport::of(event)),
            raw::KIND_FOCUS_GAINED => Event::FocusGained,
            raw::KIND_FOCUS_LOST => Event::FocusLost,
            raw::KIND_CURSOR_POSITION => Event::CursorPosition {
                row: event.row,
                column: event.column,
            },
            raw::KIND_RESIZED => Event::Resized(Size {
                columns: event.columns,
                rows: event.rows,
                width: event.width,
                height: event.height,
            }),
            raw::KIND_KEYBOARD_FLAGS => {
                Event::KeyboardFlags(KittyKeyboardFlags::from_bits_retain(event.flags.into()))
            }
            _ => return None,
        })
    }

    // A key or a paste of the library, and its text.
    pub(crate) fn of_text(event: &raw::Event, text: String) -> Event {
        match event.kind {
            raw::KIND_KEY => {
                let kind = KeyEventKind::of(event.key_event_kind).expect(FAULT);
                Event::Key(KeyReport::of(event, kind, text).expect(FAULT))
            }
            raw::KIND_PASTE => Event::Paste(text),
            raw::KIND_PASTE_PART => Event::PastePart(text),
            _ => unreachable!("{FAULT}"),
        }
    }

    // A control sequence or a string of the library, and its bytes.
    #[inline]
    pub(crate) fn of_bytes(event: &raw::Event, bytes: SequenceBytes) -> Event {
        match event.kind {
            raw::KIND_CSI => Event::Csi(bytes),
            raw::KIND_OSC => Event::Osc(bytes),
            raw::KIND_DCS => Event::Dcs(bytes),
            raw::KIND_APC => Event::Apc(bytes),
            raw::KIND_STRING_PART => Event::StringPart {
                kind: StringKind::of(event.string_kind).expect(FAULT),
                bytes,
            },
            raw::KIND_STRING_CUT => Event::StringCut {
                kind: StringKind::of(event.string_kind).expect(FAULT),
                bytes,
            },
            _ => unreachable!("{FAULT}"),
        }
    }

    // The bytes of a control sequence or a string, to be written.
    #[inline]
    pub(crate) fn bytes_mut(&mut self) -> &mut [u8] {
        match self {
            Event::Csi(bytes)
            | Event::Osc(bytes)
            | Event::Dcs(bytes)
            | Event::Apc(bytes)
            | Event::StringPart { bytes, .. }
            | Event::StringCut { bytes, .. } => bytes.as_mut_slice(),
            _ => &mut [],
        }
    }

    // The bytes that the event brings.
    pub(crate) fn bytes(&self) -> &[u8] {
        match self {
            Event::Paste(text) | Event::PastePart(text) => text.as_bytes(),
            Event::Key(report) => report.text.as_bytes(),
            Event::Csi(bytes)
            | Event::Osc(bytes)
            | Event::Dcs(bytes)
            | Event::Apc(bytes)
            | Event::StringPart { bytes, .. }
            | Event::StringCut { bytes, .. } => bytes,
            _ => &[],
        }
    }

    // The event as the library has it. Its bytes are passed beside it.
    pub(crate) fn raw(&self) -> raw::Event {
        let none = raw::Event::default();
        match self {
            Event::Key(report) => report.raw(),
            Event::Mouse(report) => report.raw(),
            Event::Paste(_) => of_kind(raw::KIND_PASTE),
            Event::PastePart(_) => of_kind(raw::KIND_PASTE_PART),
            Event::FocusGained => of_kind(raw::KIND_FOCUS_GAINED),
            Event::FocusLost => of_kind(raw::KIND_FOCUS_LOST),
            Event::CursorPosition { row, column } => raw::Event {
                kind: raw::KIND_CURSOR_POSITION,
                row: *row,
                column: *column,
                ..none
            },
            Event::Resized(size) => raw::Event {
                kind: raw::KIND_RESIZED,
                rows: size.rows,
                columns: size.columns,
                height: size.height,
                width: size.width,
                ..none
            },
            Event::KeyboardFlags(flags) => raw::Event {
                kind: raw::KIND_KEYBOARD_FLAGS,
                flags: flags.bits() as u8, // `try_encode` refuses higher ones
                ..none
            },
            Event::Csi(_) => of_kind(raw::KIND_CSI),
            Event::Osc(_) => of_kind(raw::KIND_OSC),
            Event::Dcs(_) => of_kind(raw::KIND_DCS),
            Event::Apc(_) => of_kind(raw::KIND_APC),
            Event::StringPart { kind, .. } => raw::Event {
                string_kind: kind.number(),
                ..of_kind(raw::KIND_STRING_PART)
            },
            Event::StringCut { kind, .. } => raw::Event {
                string_kind: kind.number(),
                ..of_kind(raw::KIND_STRING_CUT)
            },
            Event::Resumed => of_kind(raw::KIND_OTHER),
        }
    }
}

// An event of which only the kind is told.
fn of_kind(kind: u8) -> raw::Event {
    raw::Event {
        kind,
        ..raw::Event::default()
    }
}

impl raw::Event {
    // Whether what the event brings is text, and not bytes.
    #[inline]
    pub(crate) fn brings_text(&self) -> bool {
        matches!(
            self.kind,
            raw::KIND_KEY | raw::KIND_PASTE | raw::KIND_PASTE_PART
        )
    }
}

numbered!(MouseKind u8:
    Press MOUSE_KIND_PRESS,
    Release MOUSE_KIND_RELEASE,
    Drag MOUSE_KIND_DRAG,
    Move MOUSE_KIND_MOVE,
    Wheel MOUSE_KIND_WHEEL,
);

impl MouseReport {
    // A report of the library.
    #[inline]
    fn of(report: &raw::Event) -> MouseReport {
        MouseReport {
            x: report.x,
            y: report.y,
            modifiers: Modifiers::of_kitty(report.modifiers),
            buttons: MouseButtons::from_bits(report.buttons).expect(FAULT),
            kind: MouseKind::of(report.mouse_kind).expect(FAULT),
            button: (report.button != 0).then_some(report.button),
        }
    }

    // The report as the library has it. No button has the number 0.
    fn raw(&self) -> raw::Event {
        raw::Event {
            kind: raw::KIND_MOUSE,
            mouse_kind: self.kind.number(),
            button: self.button.unwrap_or(0),
            buttons: self.buttons.bits(),
            modifiers: self.modifiers.kitty().0,
            x: self.x,
            y: self.y,
            ..raw::Event::default()
        }
    }
}

numbered!(StringKind u8: Osc KIND_OSC, Dcs KIND_DCS, Apc KIND_APC,);

numbered!(KeyEventKind u8:
    Press KEY_EVENT_KIND_PRESS,
    Repeat KEY_EVENT_KIND_REPEAT,
    Release KEY_EVENT_KIND_RELEASE,
);

impl ReportedKey {
    // The key of a number of the library and what it carries, if there is such a key.
    #[inline]
    pub(crate) fn of(number: u16, detail: u32) -> Option<ReportedKey> {
        match number {
            0 => Some(functional(detail)),
            key => KeyCode::of(key, detail).map(ReportedKey::Named),
        }
    }

    // The number that the library has for the key, and what it carries.
    pub(crate) fn numbers(self) -> (u16, u32) {
        match self {
            ReportedKey::Named(key) => (key.number(), key.detail()),
            ReportedKey::Functional(number) => (0, number),
        }
    }
}

// A key without a name. Since this is said to be rare, the program tests for other keys first.
#[cold]
#[inline(never)]
fn functional(number: u32) -> ReportedKey {
    ReportedKey::Functional(number)
}

impl KeyReport {
    // A report of the library, what happened to the key, and the text that it types. `None` if there
    // is no such key.
    #[inline]
    fn of(event: &raw::Event, kind: KeyEventKind, text: String) -> Option<KeyReport> {
        Some(KeyReport {
            kind,
            key: ReportedKey::of(event.key, event.detail)?,
            modifiers: KittyModifiers::from_bits(event.modifiers)?,
            // NO_CODE is no character.
            shifted: char::from_u32(event.shifted),
            base: char::from_u32(event.base),
            text,
        })
    }
}
