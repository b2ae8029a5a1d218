// crossterm's events, of those of this package.
use crate::{
    typed_text, Event, KeyCode, KeyEventKind, KeyPress, KeyReport, KittyModifiers, Modifiers,
    MouseKind, MouseReport, ReportedKey,
};
use ::crossterm::event as theirs;

/// Converts events to crossterm's. Some mouse reports don't tell which button was released. So this
/// keeps which one was down before. [`TryFrom`] takes the left one for that, as crossterm does.
///
/// ```
/// use crossterm::event::{Event, MouseButton, MouseEventKind};
/// use hedrugal::crossterm::Converter;
/// use hedrugal::{Dialect, Parser};
/// use std::time::Instant;
///
/// let mut parser = Parser::new(Dialect::Extended);
/// parser.feed(Instant::now(), b"\x1b[<2;1;1M\x1b[<34;2;1M\x1b[35;2;1M");
/// let mut converter = Converter::default();
/// let mut kinds = Vec::new();
/// for event in parser {
///     if let Ok(Event::Mouse(mouse)) = converter.convert(event) {
///         kinds.push(mouse.kind);
///     }
/// }
/// let right = MouseButton::Right;
/// assert_eq!(
///     kinds,
///     [MouseEventKind::Down(right), MouseEventKind::Drag(right), MouseEventKind::Up(right)]
/// );
/// ```
#[derive(Debug, Clone, Copy, Default)]
pub struct Converter {
    down: Option<theirs::MouseButton>,
}

impl Converter {
    /// Converts an event. A part of a paste is a paste.
    ///
    /// ```
    /// use crossterm::event::Event;
    /// use hedrugal::crossterm::Converter;
    ///
    /// let mut converter = Converter::default();
    /// assert_eq!(converter.convert(hedrugal::Event::FocusLost), Ok(Event::FocusLost));
    /// ```
    ///
    /// # Errors
    ///
    /// The event, if crossterm's type can't say it.
    pub fn convert(&mut self, event: Event) -> Result<theirs::Event, Event> {
        #[cfg(feature = "crossterm")]
        if let Event::Paste(text) | Event::PastePart(text) = event {
            return Ok(theirs::Event::Paste(text));
        }
        let converted = match &event {
            Event::Key(report) => match typed_text(report) {
                "" => key(report).map(theirs::Event::Key),
                text => pasted(text),
            },
            Event::Mouse(report) => self.mouse(report).map(theirs::Event::Mouse),
            Event::FocusGained => Some(theirs::Event::FocusGained),
            Event::FocusLost => Some(theirs::Event::FocusLost),
            Event::Resized(size) => Some(theirs::Event::Resize(size.columns, size.rows)),
            _ => None,
        };
        converted.ok_or(event)
    }

    fn mouse(&mut self, report: &MouseReport) -> Option<theirs::MouseEvent> {
        Some(theirs::MouseEvent {
            kind: self.mouse_kind(report)?,
            column: report.x.saturating_sub(1),
            row: report.y.saturating_sub(1),
            modifiers: modifiers(xterm_modifiers(report.modifiers)),
        })
    }

    fn mouse_kind(&mut self, report: &MouseReport) -> Option<theirs::MouseEventKind> {
        let named = report.button.map(button_of);
        Some(match report.kind {
            MouseKind::Press => theirs::MouseEventKind::Down(*self.down.insert(named??)),
            MouseKind::Drag => theirs::MouseEventKind::Drag(*self.down.insert(named??)),
            MouseKind::Release => {
                let button = match named {
                    Some(button) => button?,
                    None => self.down.unwrap_or(theirs::MouseButton::Left),
                };
                self.down = self.down.filter(|down| *down != button);
                theirs::MouseEventKind::Up(button)
            }
            MouseKind::Move => theirs::MouseEventKind::Moved,
            MouseKind::Wheel => match report.button {
                Some(4) => theirs::MouseEventKind::ScrollUp,
                Some(5) => theirs::MouseEventKind::ScrollDown,
                _ => return None,
            },
        })
    }
}

#[cfg(feature = "crossterm")]
#[allow(clippy::unnecessary_wraps)]
fn pasted(text: &str) -> Option<theirs::Event> {
    Some(theirs::Event::Paste(text.to_string()))
}

#[cfg(not(feature = "crossterm"))]
fn pasted(_: &str) -> Option<theirs::Event> {
    None
}

fn button_of(number: u8) -> Option<theirs::MouseButton> {
    match number {
        1 => Some(theirs::MouseButton::Left),
        2 => Some(theirs::MouseButton::Middle),
        3 => Some(theirs::MouseButton::Right),
        _ => None,
    }
}

// SHIFT, ALT and CTRL have the same bits in xterm's number.
fn xterm_modifiers(modifiers: Modifiers) -> KittyModifiers {
    KittyModifiers::from_bits_retain(modifiers.encode_xterm())
}

fn modifiers(held: KittyModifiers) -> theirs::KeyModifiers {
    [
        (KittyModifiers::SHIFT, theirs::KeyModifiers::SHIFT),
        (KittyModifiers::ALT, theirs::KeyModifiers::ALT),
        (KittyModifiers::CTRL, theirs::KeyModifiers::CONTROL),
        (KittyModifiers::SUPER, theirs::KeyModifiers::SUPER),
        (KittyModifiers::HYPER, theirs::KeyModifiers::HYPER),
        (KittyModifiers::META, theirs::KeyModifiers::META),
    ]
    .into_iter()
    .filter(|(flag, _)| held.contains(*flag))
    .map(|(_, modifier)| modifier)
    .collect()
}

fn state(held: KittyModifiers, is_keypad: bool) -> theirs::KeyEventState {
    let mut state = theirs::KeyEventState::NONE;
    state.set(theirs::KeyEventState::KEYPAD, is_keypad);
    if held.contains(KittyModifiers::CAPS_LOCK) {
        state.insert(theirs::KeyEventState::CAPS_LOCK);
    }
    if held.contains(KittyModifiers::NUM_LOCK) {
        state.insert(theirs::KeyEventState::NUM_LOCK);
    }
    state
}

// Text without a key. One character is the key that types it.
const TEXT: ReportedKey = ReportedKey::Functional(0);

fn key(report: &KeyReport) -> Option<theirs::KeyEvent> {
    let (key, held) = match report.key {
        ReportedKey::Named(KeyCode::Char(c)) if c.is_ascii_control() => {
            control_key(c, report.modifiers)?
        }
        TEXT => (KeyPress::of_report(report)?.key(), report.modifiers),
        key => (key, report.modifiers),
    };
    let (code, is_keypad) = code_of(key)?;
    let mut modifiers = modifiers(held);
    let code = match code {
        theirs::KeyCode::Tab if modifiers.contains(theirs::KeyModifiers::SHIFT) => {
            theirs::KeyCode::BackTab
        }
        // crossterm says so of an upper case letter that is typed.
        theirs::KeyCode::Char(c) if c.is_uppercase() => {
            modifiers.insert(theirs::KeyModifiers::SHIFT);
            code
        }
        // And it has a modifier held with its own key.
        theirs::KeyCode::Modifier(key) => {
            modifiers.insert(modifier_of(key));
            code
        }
        code => code,
    };
    Some(theirs::KeyEvent {
        code,
        modifiers,
        kind: match report.kind {
            KeyEventKind::Press => theirs::KeyEventKind::Press,
            KeyEventKind::Repeat => theirs::KeyEventKind::Repeat,
            KeyEventKind::Release => theirs::KeyEventKind::Release,
        },
        state: state(held, is_keypad),
    })
}

fn modifier_of(key: theirs::ModifierKeyCode) -> theirs::KeyModifiers {
    use theirs::ModifierKeyCode as Key;
    match key {
        Key::LeftShift | Key::RightShift => theirs::KeyModifiers::SHIFT,
        Key::LeftControl | Key::RightControl => theirs::KeyModifiers::CONTROL,
        Key::LeftAlt | Key::RightAlt => theirs::KeyModifiers::ALT,
        Key::LeftSuper | Key::RightSuper => theirs::KeyModifiers::SUPER,
        Key::LeftHyper | Key::RightHyper => theirs::KeyModifiers::HYPER,
        Key::LeftMeta | Key::RightMeta => theirs::KeyModifiers::META,
        Key::IsoLevel3Shift | Key::IsoLevel5Shift => theirs::KeyModifiers::NONE,
    }
}

// The key that sends a control character, and what is held with it. crossterm calls the last four
// Ctrl with 4 to 7.
fn control_key(c: char, held: KittyModifiers) -> Option<(ReportedKey, KittyModifiers)> {
    let press = KeyPress::new(ReportedKey::Named(KeyCode::Char(c)), held)?;
    let key = match c {
        '\x1c'..='\x1f' => ReportedKey::Named(KeyCode::Char(char::from(c as u8 - 0x1c + b'4'))),
        _ => press.key(),
    };
    Some((key, held.union(press.held())))
}

// A key's code, and whether it is of the keypad.
fn code_of(key: ReportedKey) -> Option<(theirs::KeyCode, bool)> {
    match key {
        ReportedKey::Named(key) => match keypad_code(key) {
            Some(code) => Some((code, true)),
            None => Some((named_code(key)?, false)),
        },
        ReportedKey::Functional(number) => functional_code(number),
    }
}

// A key of the keypad, by what it types or does.
fn keypad_code(key: KeyCode) -> Option<theirs::KeyCode> {
    use theirs::KeyCode::{Char, End, Home, KeypadBegin, PageDown, PageUp};
    Some(match key {
        KeyCode::Numpad0 => Char('0'),
        KeyCode::Numpad1 => Char('1'),
        KeyCode::Numpad2 => Char('2'),
        KeyCode::Numpad3 => Char('3'),
        KeyCode::Numpad4 => Char('4'),
        KeyCode::Numpad5 => Char('5'),
        KeyCode::Numpad6 => Char('6'),
        KeyCode::Numpad7 => Char('7'),
        KeyCode::Numpad8 => Char('8'),
        KeyCode::Numpad9 => Char('9'),
        KeyCode::Multiply => Char('*'),
        KeyCode::Add => Char('+'),
        KeyCode::Separator => Char(','),
        KeyCode::Subtract => Char('-'),
        KeyCode::Decimal => Char('.'),
        KeyCode::Divide => Char('/'),
        KeyCode::KeyPadHome => Home,
        KeyCode::KeyPadEnd => End,
        KeyCode::KeyPadPageUp => PageUp,
        KeyCode::KeyPadPageDown => PageDown,
        KeyCode::KeyPadBegin => KeypadBegin,
        _ => return None,
    })
}

fn named_code(key: KeyCode) -> Option<theirs::KeyCode> {
    use theirs::KeyCode::{Media, Modifier};
    use theirs::{MediaKeyCode, ModifierKeyCode};
    Some(match key {
        KeyCode::Char(c) => theirs::KeyCode::Char(c),
        KeyCode::Function(number) => theirs::KeyCode::F(number),
        KeyCode::Backspace => theirs::KeyCode::Backspace,
        KeyCode::Tab => theirs::KeyCode::Tab,
        KeyCode::Enter => theirs::KeyCode::Enter,
        KeyCode::Escape => theirs::KeyCode::Esc,
        KeyCode::Insert => theirs::KeyCode::Insert,
        KeyCode::Delete => theirs::KeyCode::Delete,
        KeyCode::PageUp => theirs::KeyCode::PageUp,
        KeyCode::PageDown => theirs::KeyCode::PageDown,
        KeyCode::Home => theirs::KeyCode::Home,
        KeyCode::End => theirs::KeyCode::End,
        KeyCode::LeftArrow | KeyCode::ApplicationLeftArrow => theirs::KeyCode::Left,
        KeyCode::RightArrow | KeyCode::ApplicationRightArrow => theirs::KeyCode::Right,
        KeyCode::UpArrow | KeyCode::ApplicationUpArrow => theirs::KeyCode::Up,
        KeyCode::DownArrow | KeyCode::ApplicationDownArrow => theirs::KeyCode::Down,
        KeyCode::CapsLock => theirs::KeyCode::CapsLock,
        KeyCode::ScrollLock => theirs::KeyCode::ScrollLock,
        KeyCode::NumLock => theirs::KeyCode::NumLock,
        KeyCode::PrintScreen => theirs::KeyCode::PrintScreen,
        KeyCode::Pause => theirs::KeyCode::Pause,
        KeyCode::Menu | KeyCode::LeftMenu | KeyCode::RightMenu | KeyCode::Applications => {
            theirs::KeyCode::Menu
        }
        KeyCode::LeftShift => Modifier(ModifierKeyCode::LeftShift),
        KeyCode::RightShift => Modifier(ModifierKeyCode::RightShift),
        KeyCode::LeftControl => Modifier(ModifierKeyCode::LeftControl),
        KeyCode::RightControl => Modifier(ModifierKeyCode::RightControl),
        KeyCode::LeftAlt => Modifier(ModifierKeyCode::LeftAlt),
        KeyCode::RightAlt => Modifier(ModifierKeyCode::RightAlt),
        KeyCode::LeftWindows => Modifier(ModifierKeyCode::LeftSuper),
        KeyCode::RightWindows => Modifier(ModifierKeyCode::RightSuper),
        KeyCode::VolumeMute => Media(MediaKeyCode::MuteVolume),
        KeyCode::VolumeDown => Media(MediaKeyCode::LowerVolume),
        KeyCode::VolumeUp => Media(MediaKeyCode::RaiseVolume),
        KeyCode::MediaNextTrack => Media(MediaKeyCode::TrackNext),
        KeyCode::MediaPrevTrack => Media(MediaKeyCode::TrackPrevious),
        KeyCode::MediaStop => Media(MediaKeyCode::Stop),
        KeyCode::MediaPlayPause => Media(MediaKeyCode::PlayPause),
        _ => return None,
    })
}

// A key for which `KeyCode` has no name, and whether it is of the keypad.
fn functional_code(number: u32) -> Option<(theirs::KeyCode, bool)> {
    use theirs::KeyCode::{Char, Delete, Down, Enter, Insert, Left, Media, Modifier, Right, Up};
    use theirs::{MediaKeyCode, ModifierKeyCode};
    Some(match number {
        57414 => (Enter, true),
        57415 => (Char('='), true),
        57417 => (Left, true),
        57418 => (Right, true),
        57419 => (Up, true),
        57420 => (Down, true),
        57425 => (Insert, true),
        57426 => (Delete, true),
        57428 => (Media(MediaKeyCode::Play), false),
        57429 => (Media(MediaKeyCode::Pause), false),
        57431 => (Media(MediaKeyCode::Reverse), false),
        57433 => (Media(MediaKeyCode::FastForward), false),
        57434 => (Media(MediaKeyCode::Rewind), false),
        57437 => (Media(MediaKeyCode::Record), false),
        57445 => (Modifier(ModifierKeyCode::LeftHyper), false),
        57446 => (Modifier(ModifierKeyCode::LeftMeta), false),
        57451 => (Modifier(ModifierKeyCode::RightHyper), false),
        57452 => (Modifier(ModifierKeyCode::RightMeta), false),
        57453 => (Modifier(ModifierKeyCode::IsoLevel3Shift), false),
        57454 => (Modifier(ModifierKeyCode::IsoLevel5Shift), false),
        _ => return None,
    })
}

impl TryFrom<Event> for theirs::Event {
    type Error = Event;

    /// Does what a [`Converter`] does, of which no mouse button was down before.
    fn try_from(event: Event) -> Result<theirs::Event, Event> {
        Converter::default().convert(event)
    }
}
