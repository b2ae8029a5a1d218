// What a terminal's replies say.
use crate::error::FAULT;
use crate::{raw, AllocError, Event};
use std::str;

/// Which report of a terminal's attributes it is.
#[derive(Debug, Clone, Copy, PartialEq, Eq, Hash)]
#[cfg_attr(feature = "serde", derive(serde::Serialize, serde::Deserialize))]
pub enum DeviceAttributes {
    /// DA1, asked for by ESC `[c`: the class of the terminal, such as 62 for a VT220, and what it
    /// can do, such as 4 for sixels.
    Primary,
    /// DA2, asked for by ESC `[>c`: the type of the terminal, its version, and 0.
    Secondary,
    /// DA3, asked for by ESC `[=c`: the bytes of the unit's number, mostly four.
    Tertiary,
}

/// The state of a mode.
#[derive(Debug, Clone, Copy, PartialEq, Eq, Hash)]
#[cfg_attr(feature = "serde", derive(serde::Serialize, serde::Deserialize))]
pub enum ModeState {
    /// The terminal doesn't know the mode.
    NotRecognized,
    /// The mode is on.
    Set,
    /// The mode is off.
    Reset,
    /// The mode is on and can't be switched off.
    PermanentlySet,
    /// The mode is off and can't be switched on.
    PermanentlyReset,
}

/// Which colour a reply is about.
#[derive(Debug, Clone, Copy, PartialEq, Eq, Hash)]
#[cfg_attr(feature = "serde", derive(serde::Serialize, serde::Deserialize))]
pub enum ColourName {
    /// A colour of the palette, by its index (OSC 4).
    Palette(u16),
    /// The colour of text (OSC 10).
    Foreground,
    /// The colour behind text (OSC 11).
    Background,
    /// The colour of the cursor (OSC 12).
    Cursor,
}

/// A colour. Each part is from 0 to 65535, however many digits the terminal wrote.
#[derive(Debug, Clone, Copy, PartialEq, Eq, Hash)]
#[cfg_attr(feature = "serde", derive(serde::Serialize, serde::Deserialize))]
pub struct Colour {
    /// How red it is.
    pub red: u16,
    /// How green it is.
    pub green: u16,
    /// How blue it is.
    pub blue: u16,
}

/// The colour scheme that the terminal's user prefers.
#[derive(Debug, Clone, Copy, PartialEq, Eq, Hash)]
#[cfg_attr(feature = "serde", derive(serde::Serialize, serde::Deserialize))]
pub enum ColourScheme {
    /// Bright text on a dark background.
    Dark,
    /// Dark text on a bright background.
    Light,
}

/// What a terminal replied to a question, in values. The position of the cursor, a new size and the
/// flags of Kitty's keyboard protocol are events of their own.
#[derive(Debug, Clone, PartialEq, Eq)]
#[cfg_attr(feature = "serde", derive(serde::Serialize, serde::Deserialize))]
pub enum Reply {
    /// The terminal's attributes (DA1, DA2, DA3).
    DeviceAttributes {
        /// Which report it is.
        report: DeviceAttributes,
        /// Its numbers.
        numbers: Vec<u32>,
    },
    /// The state of a mode (DECRPM), asked for by ESC `[?` mode `$p`, or without the question mark
    /// for an ANSI mode.
    Mode {
        /// The number of the mode.
        mode: u32,
        /// Whether it is a private mode, which has a question mark, and not an ANSI mode.
        is_private: bool,
        /// Its state.
        state: ModeState,
    },
    /// A colour (OSC 4, 10, 11 and 12).
    Colour {
        /// Which colour it is.
        name: ColourName,
        /// The colour.
        colour: Colour,
    },
    /// The terminal's name and version (XTVERSION), asked for by ESC `[>q`. What isn't UTF-8 is
    /// U+FFFD.
    Version(String),
    /// The size of the window in characters, asked for by ESC `[18t`.
    WindowSize {
        /// The number of rows.
        rows: u16,
        /// The number of columns.
        columns: u16,
    },
    /// The preferred colour scheme, asked for by ESC `[?996n` or reported with mode 2031.
    ColourScheme(ColourScheme),
    /// What is in the clipboard or in a selection (OSC 52).
    Clipboard {
        /// The selection: `c`, `p`, `q`, `s`, or `0` to `7`. `None` if the terminal left it out.
        selection: Option<char>,
        /// What it holds, decoded from base64.
        bytes: Vec<u8>,
    },
}

impl Event {
    /// Returns what the event says as a terminal's reply, if it is one: a `Csi`, an `Osc` or a
    /// `Dcs`. Returns `None` for any other event. "Replies" of docs/EXTENDED.md says which bytes
    /// are a reply.
    ///
    /// ```
    /// use hedrugal::{Dialect, Parser, Reply};
    /// use std::time::Instant;
    ///
    /// let mut parser = Parser::new(Dialect::Extended);
    /// parser.feed(Instant::now(), b"\x1b[8;24;80t\x1b]52;c;Y2xpcA==\x07q");
    /// let replies: Vec<_> = parser.map(|event| event.reply()).collect();
    /// assert_eq!(replies[0], Some(Reply::WindowSize { rows: 24, columns: 80 }));
    /// let bytes = b"clip".to_vec();
    /// let selection = Some('c');
    /// assert_eq!(replies[1], Some(Reply::Clipboard { selection, bytes }));
    /// assert_eq!(replies[2], None);
    /// ```
    ///
    /// # Panics
    ///
    /// If memory is refused.
    #[must_use]
    pub fn reply(&self) -> Option<Reply> {
        self.try_reply().expect("out of memory")
    }

    /// Returns what [`Event::reply`] returns.
    ///
    /// # Errors
    ///
    /// If memory is refused. The call may be made again.
    pub fn try_reply(&self) -> Result<Option<Reply>, AllocError> {
        let (kind, bytes) = match self {
            Event::Csi(bytes) => (raw::KIND_CSI, bytes),
            Event::Osc(bytes) => (raw::KIND_OSC, bytes),
            Event::Dcs(bytes) => (raw::KIND_DCS, bytes),
            _ => return Ok(None),
        };
        // A command has no numbers, and a control sequence brings no bytes. There are never more of
        // either than bytes of the event.
        let mut numbers = zeros(if kind == raw::KIND_OSC {
            0
        } else {
            bytes.len()
        })?;
        let mut out = zeros(if kind == raw::KIND_CSI {
            0
        } else {
            bytes.len()
        })?;
        let mut reply = raw::Reply::default();
        // SAFETY: the pointers lead to values of their types that live through the call, with as
        // many of them as the lengths say.
        let answer = unsafe {
            raw::hed_read_reply(
                kind,
                bytes.as_ptr(),
                bytes.len(),
                &mut reply,
                numbers.as_mut_ptr(),
                numbers.len(),
                out.as_mut_ptr(),
                out.len(),
            )
        };
        match answer {
            raw::STATUS_NONE => Ok(None),
            raw::STATUS_OK => Reply::of(&reply, numbers, out).map(Some),
            raw::STATUS_NO_MEMORY => Err(AllocError),
            _ => unreachable!("{FAULT}"),
        }
    }
}

// So many zeros.
fn zeros<T: Clone + Default>(count: usize) -> Result<Vec<T>, AllocError> {
    let mut made = Vec::new();
    made.try_reserve_exact(count).map_err(|_| AllocError)?;
    made.resize(count, T::default());
    Ok(made)
}

// The text of bytes, in which U+FFFD stands for what isn't UTF-8.
fn lossy(bytes: Vec<u8>) -> Result<String, AllocError> {
    String::from_utf8(bytes).or_else(|error| {
        let mut text = String::new();
        let mut rest = error.as_bytes();
        while let Err(error) = str::from_utf8(rest) {
            let (valid, more) = rest.split_at(error.valid_up_to());
            push(&mut text, str::from_utf8(valid).expect(FAULT))?;
            push(&mut text, "\u{fffd}")?;
            rest = &more[error.error_len().unwrap_or(more.len())..];
        }
        push(&mut text, str::from_utf8(rest).expect(FAULT))?;
        Ok(text)
    })
}

fn push(text: &mut String, more: &str) -> Result<(), AllocError> {
    text.try_reserve(more.len()).map_err(|_| AllocError)?;
    text.push_str(more);
    Ok(())
}

impl Reply {
    // A reply of the library, with room that has its numbers and its bytes.
    fn of(
        reply: &raw::Reply,
        mut numbers: Vec<u32>,
        mut out: Vec<u8>,
    ) -> Result<Reply, AllocError> {
        numbers.truncate(reply.len);
        out.truncate(reply.len);
        Ok(match reply.kind {
            raw::REPLY_DEVICE_ATTRIBUTES => Reply::DeviceAttributes {
                report: DeviceAttributes::of(reply.report),
                numbers,
            },
            raw::REPLY_MODE => Reply::Mode {
                mode: reply.mode,
                is_private: reply.is_private,
                state: ModeState::of(reply.state),
            },
            raw::REPLY_COLOUR => Reply::Colour {
                name: ColourName::of(reply),
                colour: Colour {
                    red: reply.red,
                    green: reply.green,
                    blue: reply.blue,
                },
            },
            raw::REPLY_VERSION => Reply::Version(lossy(out)?),
            raw::REPLY_WINDOW_SIZE => Reply::WindowSize {
                rows: reply.rows,
                columns: reply.columns,
            },
            raw::REPLY_COLOUR_SCHEME => Reply::ColourScheme(ColourScheme::of(reply.scheme)),
            raw::REPLY_CLIPBOARD => Reply::Clipboard {
                selection: (reply.selection != 0).then(|| char::from(reply.selection)),
                bytes: out,
            },
            _ => unreachable!("{FAULT}"),
        })
    }
}

impl DeviceAttributes {
    fn of(report: u8) -> DeviceAttributes {
        match report {
            raw::DEVICE_ATTRIBUTES_PRIMARY => DeviceAttributes::Primary,
            raw::DEVICE_ATTRIBUTES_SECONDARY => DeviceAttributes::Secondary,
            raw::DEVICE_ATTRIBUTES_TERTIARY => DeviceAttributes::Tertiary,
            _ => unreachable!("{FAULT}"),
        }
    }
}

impl ModeState {
    fn of(state: u8) -> ModeState {
        match state {
            raw::MODE_STATE_NOT_RECOGNIZED => ModeState::NotRecognized,
            raw::MODE_STATE_SET => ModeState::Set,
            raw::MODE_STATE_RESET => ModeState::Reset,
            raw::MODE_STATE_PERMANENTLY_SET => ModeState::PermanentlySet,
            raw::MODE_STATE_PERMANENTLY_RESET => ModeState::PermanentlyReset,
            _ => unreachable!("{FAULT}"),
        }
    }
}

impl ColourName {
    fn of(reply: &raw::Reply) -> ColourName {
        match reply.name {
            raw::COLOUR_NAME_PALETTE => ColourName::Palette(reply.index),
            raw::COLOUR_NAME_FOREGROUND => ColourName::Foreground,
            raw::COLOUR_NAME_BACKGROUND => ColourName::Background,
            raw::COLOUR_NAME_CURSOR => ColourName::Cursor,
            _ => unreachable!("{FAULT}"),
        }
    }
}

impl ColourScheme {
    fn of(scheme: u8) -> ColourScheme {
        match scheme {
            raw::COLOUR_SCHEME_DARK => ColourScheme::Dark,
            raw::COLOUR_SCHEME_LIGHT => ColourScheme::Light,
            _ => unreachable!("{FAULT}"),
        }
    }
}
