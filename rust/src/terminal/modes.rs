// What a program turns on at its terminal.
use crate::{KittyKeyboardFlags, MouseTracking};

/// What a program turns on at its terminal beside raw mode. [`RawMode`](super::RawMode) writes what
/// turns it on, and in the opposite order what turns it off.
///
/// ```
/// use hedrugal::terminal::Modes;
/// use hedrugal::{KittyKeyboardFlags, MouseTracking};
///
/// let modes = Modes {
///     mouse: Some(MouseTracking::Normal),
///     kitty: KittyKeyboardFlags::DISAMBIGUATE_ESCAPE_CODES,
///     ..Modes::default()
/// };
/// assert_eq!(modes.on(), "\x1b[?2004h\x1b[?1000h\x1b[?1006h\x1b[>1u");
/// assert_eq!(modes.off(), "\x1b[<u\x1b[?1006l\x1b[?1000l\x1b[?2004l");
/// ```
#[derive(Debug, Clone, Copy, PartialEq, Eq)]
pub struct Modes {
    /// Pastes come as such (mode 2004). Without it a pasted text counts as typed. On by default.
    pub paste: bool,
    /// Which mouse reports come. They are written as SGR reports (mode 1006), and keep most
    /// terminals from selecting text.
    pub mouse: Option<MouseTracking>,
    /// The terminal tells when it gains or loses the focus (mode 1004).
    pub focus: bool,
    /// The flags of Kitty's keyboard protocol. A terminal without the protocol ignores them, and its
    /// keys are read all the same. Ask ESC `[?u` to know which of them the terminal has.
    pub kitty: KittyKeyboardFlags,
    /// The level of xterm's modifyOtherKeys: at 2 keys are reported that have no sequence of their
    /// own. 0 is off.
    pub modify_other_keys: u8,
    /// What else is written first, such as ESC `[?1049h` for the alternate screen.
    pub enter: &'static str,
    /// What is written last, to turn that off.
    pub leave: &'static str,
}

impl Modes {
    /// Raw mode alone.
    pub const NONE: Modes = Modes {
        paste: false,
        mouse: None,
        focus: false,
        kitty: KittyKeyboardFlags::NONE,
        modify_other_keys: 0,
        enter: "",
        leave: "",
    };

    /// Returns what turns the modes on.
    ///
    /// ```
    /// assert_eq!(hedrugal::terminal::Modes::default().on(), "\x1b[?2004h");
    /// ```
    #[must_use]
    pub fn on(&self) -> String {
        let switches = self.switches().into_iter().map(|(on, _)| on);
        self.enter.to_string() + &switches.collect::<String>()
    }

    /// Returns what turns the modes off.
    ///
    /// ```
    /// assert_eq!(hedrugal::terminal::Modes::default().off(), "\x1b[?2004l");
    /// ```
    #[must_use]
    pub fn off(&self) -> String {
        let switches = self.switches().into_iter().rev().map(|(_, off)| off);
        switches.collect::<String>() + self.leave
    }

    // What turns each mode on, and what turns it off.
    fn switches(&self) -> Vec<(String, String)> {
        let numbered = |number: u16| (format!("\x1b[?{number}h"), format!("\x1b[?{number}l"));
        let mut switches = Vec::new();
        if self.paste {
            switches.push(numbered(2004));
        }
        if let Some(tracking) = self.mouse {
            switches.extend([numbered(mode_of(tracking)), numbered(1006)]);
        }
        if self.focus {
            switches.push(numbered(1004));
        }
        if self.modify_other_keys > 0 {
            let on = format!("\x1b[>4;{}m", self.modify_other_keys);
            switches.push((on, "\x1b[>4m".to_string()));
        }
        if !self.kitty.is_empty() {
            let on = format!("\x1b[>{}u", self.kitty.bits());
            switches.push((on, "\x1b[<u".to_string()));
        }
        switches
    }
}

impl Default for Modes {
    fn default() -> Modes {
        Modes {
            paste: true,
            ..Modes::NONE
        }
    }
}

fn mode_of(tracking: MouseTracking) -> u16 {
    match tracking {
        MouseTracking::X10 => 9,
        MouseTracking::Normal => 1000,
        MouseTracking::Button => 1002,
        MouseTracking::Any => 1003,
    }
}
