// How a parser reads.
use crate::error::{numbered, FAULT};
use crate::raw;

/// By which grammar a [`Parser`](crate::Parser) reads.
#[derive(Debug, Clone, Copy, PartialEq, Eq, Hash, Default)]
pub enum Dialect {
    /// What terminals send, in any mode and by any keyboard protocol. For every program.
    #[default]
    Extended,
    /// What [`InputParser`](crate::input::InputParser) reads, and nothing else. The other fields of
    /// the [`Reading`] say nothing then.
    Termwiz,
}

numbered!(Dialect u32: Extended DIALECT_EXTENDED, Termwiz DIALECT_TERMWIZ,);

/// Which byte the Backspace key sends. Of 8 and 127, the other one is typed with Ctrl. A program
/// takes it from its terminal's settings (VERASE), as a [`Terminal`](crate::terminal::Terminal)
/// does.
#[derive(Debug, Clone, Copy, PartialEq, Eq, Hash, Default)]
pub enum EraseByte {
    /// 127, as most terminals send it. Byte 8 is Ctrl-H.
    #[default]
    Delete,
    /// 8. Byte 127 is Ctrl-Backspace.
    Backspace,
}

numbered!(EraseByte u32: Delete ERASE_DELETE, Backspace ERASE_BACKSPACE,);

/// What byte 10 is.
#[derive(Debug, Clone, Copy, PartialEq, Eq, Hash, Default)]
pub enum NewlineByte {
    /// Ctrl-J. The Enter key sends byte 13.
    #[default]
    CtrlJ,
    /// The Enter key. The terminal's settings turn CR into it (ICRNL), or the input is no terminal.
    Enter,
}

numbered!(NewlineByte u32: CtrlJ NEWLINE_CTRL_J, Enter NEWLINE_ENTER,);

/// How a [`Parser`](crate::Parser) reads. A program may change it between any two calls.
///
/// ```
/// use hedrugal::{Dialect, Event, Parser, Reading};
/// use std::time::Instant;
///
/// // A program that turned mode 1000 on at a terminal without SGR reports.
/// let mut parser = Parser::new(Dialect::Extended);
/// parser.set_reading(Reading { x10_mouse: true, ..parser.reading() });
/// parser.feed(Instant::now(), b"\x1b[M !\"");
/// assert!(matches!(parser.next(), Some(Event::Mouse(report)) if report.button == Some(1)));
/// ```
#[derive(Debug, Clone, Copy, PartialEq, Eq, Hash, Default)]
pub struct Reading {
    /// By which grammar.
    pub dialect: Dialect,
    /// X10 mouse reports are read: ESC `[M` and three bytes. Without it ESC `[M` is a control
    /// sequence. For programs that turn a mouse mode on, and neither SGR reports (mode 1006) nor
    /// urxvt's (1015).
    pub x10_mouse: bool,
    /// How many questions for the cursor's position are open: see
    /// [`Parser::expect_position`](crate::Parser::expect_position).
    pub questions: u8,
    /// Which byte the Backspace key sends.
    pub erase: EraseByte,
    /// What byte 10 is.
    pub newline: NewlineByte,
}

impl Reading {
    /// Reads by this dialect, without X10 mouse reports and open questions. Backspace sends byte
    /// 127, and byte 10 is Ctrl-J.
    #[must_use]
    pub const fn new(dialect: Dialect) -> Reading {
        Reading {
            dialect,
            x10_mouse: false,
            questions: 0,
            erase: EraseByte::Delete,
            newline: NewlineByte::CtrlJ,
        }
    }

    // The reading as the library has it.
    pub(crate) fn raw(self) -> raw::Reading {
        raw::Reading {
            dialect: self.dialect.number(),
            erase: self.erase.number(),
            newline: self.newline.number(),
            x10_mouse: self.x10_mouse,
            questions: self.questions,
        }
    }

    // The reading that the library has.
    pub(crate) fn of(raw: &raw::Reading) -> Reading {
        Reading {
            dialect: Dialect::of(raw.dialect).expect(FAULT),
            x10_mouse: raw.x10_mouse,
            questions: raw.questions,
            erase: EraseByte::of(raw.erase).expect(FAULT),
            newline: NewlineByte::of(raw.newline).expect(FAULT),
        }
    }
}
