// One name for a key, however its terminal reports it.
use crate::error::FAULT;
use crate::input::KeyEvent;
use crate::{
    names, raw, KeyEventKind, KeyNameError, KeyNameErrorKind, KeyReport, KittyModifiers,
    ReportedKey,
};
use std::cmp::Ordering;
use std::fmt;
use std::str::FromStr;

/// A key that was pressed, and the modifiers held with it: one name for the key, whatever mode the
/// terminal is in and whichever protocol it speaks. A program looks up by it what a key does.
///
/// Letters, digits and signs are the characters that they type: Shift with `a` is `A`, and with `1`
/// on many keyboards `!`. Where CTRL, SUPER, HYPER or META is held too, a letter that has a capital
/// keeps SHIFT. So do digits and signs, where the terminal doesn't tell what they type with Shift.
/// The keypad and the arrows in application mode are the keys of the main block, and the locks are
/// never held. The rules are on the page of the crate `termwiz_bindings` of the repository.
///
/// A program that turns Kitty's keyboard protocol on should ask for `DISAMBIGUATE_ESCAPE_CODES` and
/// `REPORT_ALTERNATE_KEYS`, and with `REPORT_ALL_KEYS_AS_ESCAPE_CODES` for `REPORT_ASSOCIATED_TEXT`
/// too. Otherwise Ctrl, Shift and `1` come without the `!`, and are `1` with CTRL and SHIFT.
///
/// A press is printed by its name, as `ctrl+shift+up`, and read from one. A text has the names of a
/// [`Chord`](crate::Chord), which says how they are written.
///
/// Presses are ordered by the numbers of their keys in the C library, then by their characters, and
/// then by their modifiers.
///
/// ```
/// use hedrugal::{Dialect, KeyCode, KittyModifiers, Parser, ReportedKey};
/// use std::time::Instant;
///
/// // Ctrl, Shift and a, as xterm reports it, and as kitty does with Caps Lock on.
/// let mut parser = Parser::new(Dialect::Extended);
/// parser.feed(Instant::now(), b"\x1b[65;5u\x1b[97;70u");
/// for press in parser.filter_map(|event| event.press()) {
///     assert_eq!(press.key(), ReportedKey::Named(KeyCode::Char('a')));
///     assert_eq!(press.held(), KittyModifiers::CTRL.union(KittyModifiers::SHIFT));
///     assert_eq!(press.to_string(), "ctrl+shift+a");
///     assert_eq!("C-S-a".parse(), Ok(press));
/// }
/// ```
#[derive(Debug, Clone, Copy, PartialEq, Eq, Hash)]
pub struct KeyPress {
    key: ReportedKey,
    held: KittyModifiers,
}

impl KeyPress {
    /// Returns the press of a key and of the modifiers held with it. A key by another name is that
    /// of the main block, `A` with SHIFT is `A`, and the locks don't count. `None` is for a
    /// modifier or a lock by itself, for the marks of a paste, and for a number that isn't in
    /// Kitty's table.
    ///
    /// ```
    /// use hedrugal::{KeyCode, KeyPress, KittyModifiers, ReportedKey};
    ///
    /// let of = |key| KeyPress::new(ReportedKey::Named(key), KittyModifiers::SHIFT);
    /// assert_eq!(of(KeyCode::ApplicationUpArrow).unwrap().to_string(), "shift+up");
    /// assert_eq!(of(KeyCode::Char('a')), "A".parse().ok());
    /// assert_eq!(of(KeyCode::LeftShift), None);
    /// ```
    #[must_use]
    pub fn new(key: ReportedKey, held: KittyModifiers) -> Option<KeyPress> {
        KeyPress::of_report(&KeyReport {
            key,
            modifiers: held,
            kind: KeyEventKind::Press,
            shifted: None,
            base: None,
            text: String::new(),
        })
    }

    /// Returns the press of a key event, or `None` for a modifier or a lock by itself, and for the
    /// marks of a paste. Of the modifiers SHIFT, ALT, CTRL and SUPER count: not LEADER, nor which of
    /// two keys is held.
    ///
    /// ```
    /// use hedrugal::{KeyPress, KittyModifiers, ReportedKey};
    /// use hedrugal::input::{KeyCode, KeyEvent, Modifiers};
    ///
    /// let of = |key, modifiers| KeyPress::of_event(&KeyEvent { key, modifiers });
    /// let up = of(KeyCode::ApplicationUpArrow, Modifiers::CTRL).unwrap();
    /// assert_eq!(up.key(), ReportedKey::Named(KeyCode::UpArrow));
    /// assert_eq!(up.held(), KittyModifiers::CTRL);
    /// assert_eq!(of(KeyCode::LeftControl, Modifiers::CTRL), None);
    /// ```
    #[must_use]
    pub fn of_event(event: &KeyEvent) -> Option<KeyPress> {
        let event = raw::Event {
            kind: raw::KIND_KEY,
            modifiers: event.modifiers.kitty().0,
            key_event_kind: raw::KEY_EVENT_KIND_PRESS,
            key: event.key.number(),
            detail: event.key.detail(),
            shifted: raw::NO_CODE,
            base: raw::NO_CODE,
            ..raw::Event::default()
        };
        KeyPress::typing(&event, "")
    }

    /// Returns the press of a key report. `None` is for a release, for a modifier or a lock by
    /// itself, and for a report that types several characters: [`typed_text`] returns these. A
    /// repeat counts as a press.
    #[must_use]
    pub fn of_report(report: &KeyReport) -> Option<KeyPress> {
        KeyPress::typing(&report.raw(), &report.text)
    }

    /// Returns a second press of a key report, for a program in which the first one leads nowhere.
    /// With ALT, CTRL, SUPER, HYPER or META, a character that isn't of ASCII has that of the key at
    /// the same place of a PC-101 keyboard, if the terminal told it (`REPORT_ALTERNATE_KEYS`). A digit
    /// or a sign whose character with Shift was told has the press with SHIFT: Ctrl with `!` is tried
    /// as Ctrl, Shift and `1`. U+0008 is tried as Backspace with CTRL, and U+000A as Enter.
    ///
    /// Look at the press first: where the report types its text, this says nothing of it.
    ///
    /// ```
    /// use hedrugal::{Dialect, Parser};
    /// use std::time::Instant;
    ///
    /// // Ctrl with the Cyrillic letter es, which is where c is on a PC-101 keyboard.
    /// let mut parser = Parser::new(Dialect::Extended);
    /// parser.feed(Instant::now(), b"\x1b[1089::99;5u");
    /// let second = parser.next().and_then(|event| event.second());
    /// assert_eq!(second, "ctrl+c".parse().ok());
    /// ```
    #[must_use]
    pub fn second(report: &KeyReport) -> Option<KeyPress> {
        let report = report.raw();
        KeyPress::written(|press| {
            // SAFETY: the pointers lead to values of their types that live through the call.
            unsafe { raw::hed_event_second(&report, press) }
        })
    }

    /// Returns the key.
    #[must_use]
    pub fn key(self) -> ReportedKey {
        self.key
    }

    /// Returns the modifiers, without the locks.
    #[must_use]
    pub fn held(self) -> KittyModifiers {
        self.held
    }

    /// Returns the character that the press types, if it does: nothing is held, or SHIFT with the
    /// space alone. A program inserts it if the press does nothing else. Enter and Tab type none.
    #[must_use]
    pub fn text(self) -> Option<char> {
        let mut text = [0; 4];
        // SAFETY: the pointers lead to a press and to as many bytes, which live through the call.
        let len = unsafe { raw::hed_press_text(&self.raw(), text.as_mut_ptr(), text.len()) };
        std::str::from_utf8(&text[..len])
            .expect(FAULT)
            .chars()
            .next()
    }

    // The press of a key that types this text.
    fn typing(event: &raw::Event, text: &str) -> Option<KeyPress> {
        KeyPress::written(|press| {
            // SAFETY: the pointers lead to values of their types that live through the call, with as
            // many bytes as the length says.
            unsafe { raw::hed_event_press(event, text.as_ptr(), text.len(), press) }
        })
    }

    // The press that a call wrote, if it did.
    fn written(call: impl FnOnce(&mut raw::KeyPress) -> u32) -> Option<KeyPress> {
        let mut press = raw::KeyPress::default();
        (call(&mut press) == raw::STATUS_OK).then(|| KeyPress::of_raw(press))
    }

    // A press of the library.
    pub(crate) fn of_raw(press: raw::KeyPress) -> KeyPress {
        KeyPress {
            key: ReportedKey::of(press.key, press.detail).expect(FAULT),
            held: KittyModifiers::from_bits(press.held).expect(FAULT),
        }
    }

    // The press as the library has it.
    pub(crate) fn raw(self) -> raw::KeyPress {
        let (key, detail) = self.key.numbers();
        raw::KeyPress {
            key,
            held: self.held.bits(),
            detail,
        }
    }
}

/// Prints the name of the press. Fails only if memory is refused.
impl fmt::Display for KeyPress {
    fn fmt(&self, f: &mut fmt::Formatter<'_>) -> fmt::Result {
        names::print(&[self.raw()], f)
    }
}

/// Reads the name of one press. A second key is `TooLong`.
impl FromStr for KeyPress {
    type Err = KeyNameError;

    fn from_str(text: &str) -> Result<KeyPress, KeyNameError> {
        let (keys, count) = names::read(text)?;
        if count > 1 {
            return Err(KeyNameError {
                kind: KeyNameErrorKind::TooLong,
                at: second_key(text),
            });
        }
        Ok(KeyPress::of_raw(keys[0]))
    }
}

// The byte where the second key of a text starts. Blanks part its keys.
fn second_key(text: &str) -> usize {
    let first = text.trim_start_matches(names::is_blank);
    let behind = first.trim_start_matches(|c| !names::is_blank(c));
    text.len() - behind.trim_start_matches(names::is_blank).len()
}

impl PartialOrd for KeyPress {
    fn partial_cmp(&self, other: &KeyPress) -> Option<Ordering> {
        Some(self.cmp(other))
    }
}

impl Ord for KeyPress {
    fn cmp(&self, other: &KeyPress) -> Ordering {
        let place = |press: &KeyPress| (press.key.numbers(), press.held);
        place(self).cmp(&place(other))
    }
}

/// Returns the text of a report that has no press because it types several characters, as a compose
/// key or an input method may. It is to be inserted as a paste is. The text of any other report is
/// empty here.
///
/// ```
/// use hedrugal::{typed_text, Dialect, Parser};
/// use std::time::Instant;
///
/// let mut parser = Parser::new(Dialect::Extended);
/// parser.feed(Instant::now(), b"\x1b[0;;102:105u");
/// let typed = parser.next().unwrap();
/// assert_eq!(typed.key().map(typed_text), Some("fi"));
/// ```
#[must_use]
pub fn typed_text(report: &KeyReport) -> &str {
    // With a text of one character such a report has a press. A release has none, and neither has a
    // modifier.
    let types =
        KeyPress::of_report(report).is_none() && KeyPress::typing(&report.raw(), "a").is_some();
    if types && !report.text.chars().any(char::is_control) {
        &report.text
    } else {
        ""
    }
}
