// What happens at a terminal.
use super::{KeyCode, Modifiers, MouseButtons};
use crate::error::FAULT;
use crate::raw;

/// A key press: which key, and the modifiers held with it.
///
/// ```
/// use hedrugal::input::{KeyCode, KeyEvent, Modifiers};
///
/// let event = KeyEvent {
///     key: KeyCode::Char('x'),
///     modifiers: Modifiers::ALT,
/// };
/// assert_eq!(format!("{event:?}"), "KeyEvent { key: Char('x'), modifiers: Modifiers(ALT) }");
/// ```
///
/// It is printed by the [name](crate::Chord) of its [press](crate::KeyPress), and
/// read from one:
///
/// ```
/// use hedrugal::input::{KeyCode, KeyEvent, Modifiers};
///
/// let event: KeyEvent = "C-S-a".parse().unwrap();
/// assert_eq!(event.key, KeyCode::Char('a'));
/// assert_eq!(event.modifiers, Modifiers::CTRL.union(Modifiers::SHIFT));
/// assert_eq!(event.to_string(), "ctrl+shift+a");
/// ```
#[derive(Debug, Clone, PartialEq, Eq, Hash)]
#[cfg_attr(feature = "serde", derive(serde::Serialize, serde::Deserialize))]
pub struct KeyEvent {
    /// The key that was pressed.
    pub key: KeyCode,
    /// The modifier keys that were held.
    pub modifiers: Modifiers,
}

/// A mouse report, with the position in cells.
///
/// ```
/// use hedrugal::input::{InputEvent, InputParser, Modifiers, MouseButtons, MouseEvent};
///
/// let event = MouseEvent {
///     x: 3,
///     y: 4,
///     mouse_buttons: MouseButtons::LEFT,
///     modifiers: Modifiers::NONE,
/// };
/// assert_eq!(InputParser::new().parse_as_vec(b"\x1b[<0;3;4M", true), [InputEvent::Mouse(event)]);
/// ```
#[derive(Debug, Clone, PartialEq, Eq)]
#[cfg_attr(feature = "serde", derive(serde::Serialize, serde::Deserialize))]
pub struct MouseEvent {
    /// The column, as the terminal sent it: the leftmost is 1.
    pub x: u16,
    /// The row, as the terminal sent it: the topmost is 1.
    pub y: u16,
    /// The button that is down, or the wheel that was turned. Empty after a release, and for a move
    /// with no button down.
    pub mouse_buttons: MouseButtons,
    /// The modifier keys that were held.
    pub modifiers: Modifiers,
}

/// A mouse report, with the position in pixels. The parser never makes one.
///
/// ```
/// use hedrugal::input::{Modifiers, MouseButtons, PixelMouseEvent};
///
/// let event = PixelMouseEvent {
///     x_pixels: 300,
///     y_pixels: 40,
///     mouse_buttons: MouseButtons::RIGHT,
///     modifiers: Modifiers::CTRL,
/// };
/// assert!(event.mouse_buttons.contains(MouseButtons::RIGHT));
/// ```
#[derive(Debug, Clone, PartialEq, Eq)]
#[cfg_attr(feature = "serde", derive(serde::Serialize, serde::Deserialize))]
pub struct PixelMouseEvent {
    /// The distance from the left, in pixels.
    pub x_pixels: u16,
    /// The distance from the top, in pixels.
    pub y_pixels: u16,
    /// The button that is down, or the wheel that was turned. Empty after a release, and for a move
    /// with no button down.
    pub mouse_buttons: MouseButtons,
    /// The modifier keys that were held.
    pub modifiers: Modifiers,
}

/// Something that happened at the terminal. The parser makes keys, mouse reports and pastes; the
/// other events are for programs that put input from elsewhere into the same stream.
///
/// ```
/// use hedrugal::input::{InputEvent, InputParser};
///
/// let events = InputParser::new().parse_as_vec(b"\x1b[200~text\x1b[201~", true);
/// assert_eq!(events, [InputEvent::Paste("text".to_string())]);
/// ```
#[derive(Debug, Clone, PartialEq, Eq)]
#[cfg_attr(feature = "serde", derive(serde::Serialize, serde::Deserialize))]
pub enum InputEvent {
    /// A key was pressed.
    Key(KeyEvent),
    /// The mouse was moved, one of its buttons was pressed or released, or a wheel was turned.
    Mouse(MouseEvent),
    /// The same, with the position in pixels.
    PixelMouse(PixelMouseEvent),
    /// The terminal has a new size.
    Resized {
        /// The number of columns.
        cols: usize,
        /// The number of rows.
        rows: usize,
    },
    /// Text was pasted, in bracketed paste mode.
    Paste(String),
    /// Another part of the program woke the one that waits for input.
    Wake,
}

impl KeyEvent {
    // The key of an event of the library.
    pub(crate) fn of(event: &raw::Event) -> KeyEvent {
        KeyEvent {
            key: KeyCode::of(event.key, event.detail).expect(FAULT),
            modifiers: Modifiers::of_kitty(event.modifiers),
        }
    }
}

impl InputEvent {
    // An event of the library in termwiz's dialect, and its text.
    pub(crate) fn of(event: &raw::Event, text: String) -> InputEvent {
        match event.kind {
            raw::KIND_KEY => InputEvent::Key(KeyEvent::of(event)),
            raw::KIND_MOUSE => InputEvent::Mouse(MouseEvent {
                x: event.x,
                y: event.y,
                mouse_buttons: MouseButtons::from_bits(event.buttons).expect(FAULT),
                modifiers: Modifiers::of_kitty(event.modifiers),
            }),
            raw::KIND_PASTE => InputEvent::Paste(text),
            _ => unreachable!("{FAULT}"),
        }
    }
}
