// What a terminal sends that is no key: pasted texts and mouse reports; and the lines of a paste.
use crate::error::FAULT;
use crate::{raw, AllocError, Modifiers, MouseKind, MouseReport};
use std::{error, fmt};

/// Returns what a terminal sends for a pasted text, made safe: the other way from
/// [`Event::Paste`](crate::Event::Paste). A terminal or a multiplexer calls it.
/// `bracketed` is whether the program asked for bracketed pastes (mode 2004).
///
/// The text is read as UTF-8, with U+FFFD for each piece that is none. Each end of a line becomes
/// CR, which Enter sends, and HT stays. Any other control character becomes a character that does
/// nothing. So no text can end its paste.
///
/// ```
/// use hedrugal::encode_paste;
///
/// assert_eq!(encode_paste(b"two\nlines\x1b[201~", true), "\x1b[200~two\rlines␛[201~\x1b[201~");
/// assert_eq!(encode_paste(b"two\nlines", false), "two\rlines");
/// ```
///
/// # Panics
///
/// If memory is refused.
#[must_use]
pub fn encode_paste(text: &[u8], bracketed: bool) -> String {
    try_encode_paste(text, bracketed).expect("out of memory")
}

/// Returns what [`encode_paste`] returns.
///
/// # Errors
///
/// If memory is refused.
pub fn try_encode_paste(text: &[u8], bracketed: bool) -> Result<String, AllocError> {
    let call = |out: &mut [u8], len: &mut usize| {
        // SAFETY: the pointers lead to values of their types that live through the call, with as
        // many bytes as the lengths say.
        unsafe {
            raw::hed_encode_paste(
                text.as_ptr(),
                text.len(),
                bracketed,
                out.as_mut_ptr(),
                out.len(),
                len,
            )
        }
    };
    match sent(call)? {
        (raw::STATUS_OK, bytes) => Ok(String::from_utf8(bytes).expect(FAULT)),
        (raw::STATUS_NO_MEMORY, _) => Err(AllocError),
        _ => unreachable!("{FAULT}"),
    }
}

/// Returns a pasted text with LF in the place of each CR and of each CR LF. Terminals send CR for
/// the end of a line in an [`Event::Paste`](crate::Event::Paste). Every other character stays.
///
/// ```
/// assert_eq!(hedrugal::paste_lines("one\rtwo\r\nthree"), "one\ntwo\nthree");
/// ```
///
/// Of a paste that comes in parts, join the parts first: a CR at the end of a part and an LF at the
/// start of the next one become two LF.
///
/// # Panics
///
/// If memory is refused.
#[must_use]
pub fn paste_lines(text: &str) -> String {
    try_paste_lines(text).expect("out of memory")
}

/// Returns what [`paste_lines`] returns.
///
/// # Errors
///
/// If memory is refused.
pub fn try_paste_lines(text: &str) -> Result<String, AllocError> {
    let mut bytes = Vec::new();
    bytes
        .try_reserve_exact(text.len())
        .map_err(|_| AllocError)?;
    bytes.resize(text.len(), 0);
    // SAFETY: the pointers lead to as many bytes as the lengths say.
    let len =
        unsafe { raw::hed_paste_lines(text.as_ptr(), text.len(), bytes.as_mut_ptr(), bytes.len()) };
    bytes.truncate(len);
    Ok(String::from_utf8(bytes).expect(FAULT))
}

/// What happened to which button of the mouse, in a [`SentMouse`].
#[derive(Debug, Clone, Copy, PartialEq, Eq, Hash)]
#[repr(u8)]
pub enum MouseButton {
    // hedrugal.h: mouse raw
    /// The mouse was moved while no button was down.
    None = raw::MOUSE_NONE,
    /// The left button was pressed.
    Button1Press = raw::MOUSE_BUTTON1_PRESS,
    /// The middle button was pressed.
    Button2Press = raw::MOUSE_BUTTON2_PRESS,
    /// The right button was pressed.
    Button3Press = raw::MOUSE_BUTTON3_PRESS,
    /// A wheel was turned up.
    Button4Press = raw::MOUSE_BUTTON4_PRESS,
    /// A wheel was turned down.
    Button5Press = raw::MOUSE_BUTTON5_PRESS,
    /// A wheel was turned left.
    Button6Press = raw::MOUSE_BUTTON6_PRESS,
    /// A wheel was turned right.
    Button7Press = raw::MOUSE_BUTTON7_PRESS,
    /// The left button was released.
    Button1Release = raw::MOUSE_BUTTON1_RELEASE,
    /// The middle button was released.
    Button2Release = raw::MOUSE_BUTTON2_RELEASE,
    /// The right button was released.
    Button3Release = raw::MOUSE_BUTTON3_RELEASE,
    /// The end of turning a wheel up, which few terminals report.
    Button4Release = raw::MOUSE_BUTTON4_RELEASE,
    /// The end of turning a wheel down, which few terminals report.
    Button5Release = raw::MOUSE_BUTTON5_RELEASE,
    /// The end of turning a wheel left, which few terminals report.
    Button6Release = raw::MOUSE_BUTTON6_RELEASE,
    /// The end of turning a wheel right, which few terminals report.
    Button7Release = raw::MOUSE_BUTTON7_RELEASE,
    /// The mouse was moved while the left button was down.
    Button1Drag = raw::MOUSE_BUTTON1_DRAG,
    /// The mouse was moved while the middle button was down.
    Button2Drag = raw::MOUSE_BUTTON2_DRAG,
    /// The mouse was moved while the right button was down.
    Button3Drag = raw::MOUSE_BUTTON3_DRAG,
    // hedrugal.h: end
}

/// Which mouse reports a program asked for, by xterm's modes.
#[derive(Debug, Clone, Copy, PartialEq, Eq, Hash)]
#[repr(u32)]
pub enum MouseTracking {
    /// Mode 9: presses, of wheels too, without modifiers.
    X10 = raw::MOUSE_TRACKING_X10,
    /// Mode 1000: presses and releases.
    Normal = raw::MOUSE_TRACKING_NORMAL,
    /// Mode 1002: also moves while a button is down.
    Button = raw::MOUSE_TRACKING_BUTTON,
    /// Mode 1003: also moves while none is.
    Any = raw::MOUSE_TRACKING_ANY,
}

/// How mouse reports are written.
///
/// ```
/// use hedrugal::{Modifiers, MouseButton, MouseEncoding, SentMouse, MouseTracking};
///
/// let (x, y, button, modifiers) = (1, 2, MouseButton::Button1Press, Modifiers::NONE);
/// let pressed = SentMouse { x, y, button, modifiers };
/// let sent = |encoding| pressed.encode(MouseTracking::Normal, encoding).unwrap();
/// assert_eq!(sent(MouseEncoding::Default), b"\x1b[M !\"");
/// assert_eq!(sent(MouseEncoding::Urxvt), b"\x1b[32;1;2M");
/// assert_eq!(sent(MouseEncoding::Sgr), b"\x1b[<0;1;2M");
/// ```
#[derive(Debug, Clone, Copy, PartialEq, Eq, Hash)]
#[repr(u32)]
pub enum MouseEncoding {
    /// ESC `[M` and three bytes, which can't tell a place above 223.
    Default = raw::MOUSE_ENCODING_DEFAULT,
    /// Mode 1015, from urxvt: the same in decimal numbers.
    Urxvt = raw::MOUSE_ENCODING_URXVT,
    /// Mode 1006, and 1016 with a place in pixels: decimal numbers, and a release tells its button.
    Sgr = raw::MOUSE_ENCODING_SGR,
}

/// Why [`SentMouse::try_encode`] made no bytes.
#[derive(Debug, Clone, Copy, PartialEq, Eq)]
pub enum MouseError {
    /// The column or the row is above 223, which the encoding can't tell.
    TooFar,
    /// The modifiers have a bit that no flag has.
    UnnamedBits,
    /// Memory was refused. The call may be made again.
    Memory,
}

impl fmt::Display for MouseError {
    fn fmt(&self, f: &mut fmt::Formatter<'_>) -> fmt::Result {
        f.write_str(match self {
            MouseError::TooFar => "the place is too far",
            MouseError::UnnamedBits => "a bit has no name",
            MouseError::Memory => "out of memory",
        })
    }
}

impl error::Error for MouseError {}

impl From<AllocError> for MouseError {
    fn from(_: AllocError) -> Self {
        MouseError::Memory
    }
}

/// A mouse report that a terminal sends: see [`SentMouse::encode`].
#[derive(Debug, Clone, Copy, PartialEq, Eq)]
pub struct SentMouse {
    /// The column: the leftmost is 1.
    pub x: u16,
    /// The row: the topmost is 1.
    pub y: u16,
    /// What happened to which button.
    pub button: MouseButton,
    /// The modifiers that are held, of which SHIFT, ALT and CTRL are sent.
    pub modifiers: Modifiers,
}

impl SentMouse {
    /// Returns what sends a report on, as a program between two terminals does. There is none for a
    /// side button, nor for a release that doesn't tell its button.
    ///
    /// ```
    /// use hedrugal::{Dialect, Event, MouseButton, Parser, SentMouse};
    /// use std::time::Instant;
    ///
    /// let mut parser = Parser::new(Dialect::Extended);
    /// parser.feed(Instant::now(), b"\x1b[<2;80;24m\x1b[<128;80;24M");
    /// let mut sent = parser.map(|event| match event {
    ///     Event::Mouse(report) => SentMouse::of(&report).map(|sent| sent.button),
    ///     _ => None,
    /// });
    /// assert_eq!(sent.next(), Some(Some(MouseButton::Button3Release)));
    /// assert_eq!(sent.next(), Some(None));
    /// ```
    #[must_use]
    pub fn of(report: &MouseReport) -> Option<SentMouse> {
        use MouseButton as Button;
        use MouseKind::{Drag, Move, Press, Release, Wheel};
        let button = match (report.kind, report.button) {
            (Move, _) => Button::None,
            (Press, Some(1)) => Button::Button1Press,
            (Press, Some(2)) => Button::Button2Press,
            (Press, Some(3)) => Button::Button3Press,
            (Wheel, Some(4)) => Button::Button4Press,
            (Wheel, Some(5)) => Button::Button5Press,
            (Wheel, Some(6)) => Button::Button6Press,
            (Wheel, Some(7)) => Button::Button7Press,
            (Release, Some(1)) => Button::Button1Release,
            (Release, Some(2)) => Button::Button2Release,
            (Release, Some(3)) => Button::Button3Release,
            (Release, Some(4)) => Button::Button4Release,
            (Release, Some(5)) => Button::Button5Release,
            (Release, Some(6)) => Button::Button6Release,
            (Release, Some(7)) => Button::Button7Release,
            (Drag, Some(1)) => Button::Button1Drag,
            (Drag, Some(2)) => Button::Button2Drag,
            (Drag, Some(3)) => Button::Button3Drag,
            _ => return None,
        };
        Some(SentMouse {
            x: report.x,
            y: report.y,
            button,
            modifiers: report.modifiers,
        })
    }

    /// Returns what a terminal sends for the report: the other way from
    /// [`Event::Mouse`](crate::Event::Mouse). There are no bytes for a report that
    /// the program doesn't get.
    ///
    /// ```
    /// use hedrugal::{Modifiers, MouseButton, MouseEncoding, SentMouse, MouseTracking};
    ///
    /// let report = SentMouse {
    ///     x: 80,
    ///     y: 24,
    ///     button: MouseButton::Button2Drag,
    ///     modifiers: Modifiers::SHIFT,
    /// };
    /// let sent = |tracking| report.encode(tracking, MouseEncoding::Sgr).unwrap();
    /// assert_eq!(sent(MouseTracking::Button), b"\x1b[<37;80;24M");
    /// assert_eq!(sent(MouseTracking::Normal), b"");
    /// ```
    ///
    /// # Errors
    ///
    /// `TooFar` if the program gets the report, and its place is above 223 with
    /// [`MouseEncoding::Default`]. `UnnamedBits` for modifiers with a bit that no flag has.
    ///
    /// # Panics
    ///
    /// If memory is refused.
    pub fn encode(
        &self,
        tracking: MouseTracking,
        encoding: MouseEncoding,
    ) -> Result<Vec<u8>, MouseError> {
        let sent = self.try_encode(tracking, encoding);
        assert!(sent != Err(MouseError::Memory), "out of memory");
        sent
    }

    /// Returns what [`SentMouse::encode`] returns.
    ///
    /// # Errors
    ///
    /// The same, and `Memory` if memory is refused.
    pub fn try_encode(
        &self,
        tracking: MouseTracking,
        encoding: MouseEncoding,
    ) -> Result<Vec<u8>, MouseError> {
        if !Modifiers::all().contains(self.modifiers) {
            return Err(MouseError::UnnamedBits);
        }
        let report = raw::SentMouse {
            x: self.x,
            y: self.y,
            modifiers: self.modifiers.kitty().0,
            button: self.button as u8,
        };
        let call = |out: &mut [u8], len: &mut usize| {
            // SAFETY: the pointers lead to values of their types that live through the call, and
            // `out` has as many bytes as it says.
            unsafe {
                raw::hed_encode_mouse(
                    &report,
                    tracking as u32,
                    encoding as u32,
                    out.as_mut_ptr(),
                    out.len(),
                    len,
                )
            }
        };
        match sent(call)? {
            (raw::STATUS_OK, bytes) => Ok(bytes),
            (raw::STATUS_TOO_FAR, _) => Err(MouseError::TooFar),
            (raw::STATUS_NO_MEMORY, _) => Err(MouseError::Memory),
            _ => unreachable!("{FAULT}"),
        }
    }
}

// As much room as most of what is sent needs.
const ROOM: usize = 256;

// What a call of the library that sends bytes answers, and the bytes. It is made again if the room
// was too short.
pub(crate) fn sent(
    call: impl Fn(&mut [u8], &mut usize) -> u32,
) -> Result<(u32, Vec<u8>), AllocError> {
    let mut room = [0; ROOM];
    let mut len = 0;
    let answer = call(&mut room, &mut len);
    let mut bytes = Vec::new();
    bytes.try_reserve_exact(len).map_err(|_| AllocError)?;
    if let Some(sent) = room.get(..len) {
        bytes.extend_from_slice(sent);
        return Ok((answer, bytes));
    }
    bytes.resize(len, 0);
    let answer = call(&mut bytes, &mut len);
    bytes.truncate(len);
    Ok((answer, bytes))
}
