//! What the child writes, on its way to the terminal, and the modes that the terminal is in.
use crate::modes::{ChildModes, Effect, Wanted};
use crate::scanner::{Piece, Scanner};
use hedrugal::terminal::Modes;

/// The modes in which a terminal tells most of keys and pastes: the keypad's own codes, bracketed
/// pastes and modifyOtherKeys.
const KEYS: Modes = Modes {
    paste: true,
    modify_other_keys: 2,
    enter: "\x1b=",
    leave: "\x1b>",
    ..Modes::NONE
};
/// These, and all of Kitty's flags, of which each screen has a stack. They aren't those of the guard,
/// which would ask for them anew within a paste.
pub const MODES: Modes = Modes {
    enter: "\x1b=\x1b[>31u",
    leave: "\x1b[<u\x1b>",
    ..KEYS
};
const PUSH: &str = "\x1b[>31u";
const POP: &str = "\x1b[<u";
/// Sets the flags without a new entry of the stack.
const SET: &str = "\x1b[=31;1u";

impl Wanted {
    /// Switches on what the child wants beside [`MODES`].
    pub fn on(&self) -> String {
        let screen = self.alternate.map(|mode| format!("\x1b[?{mode}h{PUSH}"));
        screen.unwrap_or_default() + &self.reports_on()
    }

    /// Switches it off again.
    pub fn off(&self) -> String {
        let screen = self.alternate.map(|mode| format!("{POP}\x1b[?{mode}l"));
        self.reports_off() + &screen.unwrap_or_default()
    }

    /// Mouse reports are always those of mode 1006, which tell most.
    fn reports_on(&self) -> String {
        let mouse = self.mouse.map(|mode| format!("\x1b[?{mode}h\x1b[?1006h"));
        let pixels = if self.pixels { "\x1b[?1016h" } else { "" };
        let focus = if self.focus { "\x1b[?1004h" } else { "" };
        format!("{}{pixels}{focus}", mouse.unwrap_or_default())
    }

    fn reports_off(&self) -> String {
        let focus = if self.focus { "\x1b[?1004l" } else { "" };
        let pixels = if self.pixels { "\x1b[?1016l" } else { "" };
        let mouse = self.mouse.map(|mode| format!("\x1b[?1006l\x1b[?{mode}l"));
        format!("{focus}{pixels}{}", mouse.unwrap_or_default())
    }
}

/// Passes on what the child writes.
#[derive(Default)]
pub struct Output {
    scanner: Scanner,
    pub modes: ChildModes,
}

/// What comes of the bytes that the child wrote.
#[derive(Default)]
pub struct Passed {
    pub to_terminal: Vec<u8>,
    pub to_child: Vec<u8>,
    /// How many questions for the cursor's position are among them.
    pub questions: usize,
}

impl Output {
    pub fn pass(&mut self, bytes: &[u8]) -> Passed {
        let mut passed = Passed::default();
        let modes = &mut self.modes;
        self.scanner.scan(bytes, |piece| match piece {
            Piece::Other(bytes) => passed.to_terminal.extend_from_slice(bytes),
            Piece::Sequence(sequence) => passed.add(modes, sequence),
        });
        passed
    }

    /// Returns the beginning of a sequence that the child never ended.
    pub fn rest(&mut self) -> Vec<u8> {
        self.scanner.rest()
    }
}

impl Passed {
    fn add(&mut self, modes: &mut ChildModes, sequence: &[u8]) {
        let before = modes.wanted();
        let effect = modes.apply(sequence);
        let after = modes.wanted();
        // Each screen has flags of its own, so they are popped before the child leaves one.
        if before.alternate.is_some() && after.alternate.is_none() {
            self.tell(POP);
        }
        match &effect {
            Effect::Passed | Effect::Question | Effect::Reset => {
                self.to_terminal.extend_from_slice(sequence);
            }
            Effect::Kept { passed, reply } => {
                self.tell(passed);
                self.to_child.extend_from_slice(reply.as_bytes());
            }
        }
        if before.alternate.is_none() && after.alternate.is_some() {
            self.tell(PUSH);
        }
        match effect {
            Effect::Question => self.questions += 1,
            Effect::Reset => self.tell(&format!("{}{SET}{}", KEYS.on(), after.reports_on())),
            _ if before.reports_on() != after.reports_on() => {
                self.tell(&before.reports_off());
                self.tell(&after.reports_on());
            }
            _ => {}
        }
    }

    fn tell(&mut self, text: &str) {
        self.to_terminal.extend_from_slice(text.as_bytes());
    }
}

#[cfg(test)]
mod tests {
    use super::Output;
    use hedrugal::{MouseEncoding, MouseTracking};

    /// What a child has written so far, in reads of a length.
    struct Run {
        output: Output,
        to_terminal: String,
        to_child: String,
        questions: usize,
    }

    fn run(text: &str, len: usize) -> Run {
        let mut run = Run {
            output: Output::default(),
            to_terminal: String::new(),
            to_child: String::new(),
            questions: 0,
        };
        for read in text.as_bytes().chunks(len) {
            let passed = run.output.pass(read);
            run.to_terminal += &passed.to_terminal.escape_ascii().to_string();
            run.to_child += &passed.to_child.escape_ascii().to_string();
            run.questions += passed.questions;
        }
        run
    }

    /// What the terminal and the child get, however reads cut what the child writes.
    fn check(text: &str, to_terminal: &str, to_child: &str) {
        for len in 1..=text.len() {
            let run = run(text, len);
            assert_eq!(run.to_terminal, to_terminal, "{text:?}");
            assert_eq!(run.to_child, to_child, "{text:?}");
        }
    }

    #[test]
    fn other_sequences_are_passed_on() {
        for text in [
            "a\x1b[1;31mb\x1b[?25l\x1b[?25;7h\x1b[s\x1b[u\x1b[4h\x1b[?1$q",
            "\x1b[c\x1b[>c\x1b[?996n\x1b[5n\x1b[14t\x1b[?2048h\x1b[?2026$p",
            "\x1b]0;\x1b\\\x1b(B\x1b7\x1b8\x1b[>1;2m\x1b[>1n\x1b[38:2::1:2:3m\x1b[?99999h",
            "\x1b]52;c;[?1h\x07\x1bP+q\x1b\\",
        ] {
            check(text, &text.as_bytes().escape_ascii().to_string(), "");
        }
    }

    #[test]
    fn modes_are_kept() {
        check(
            "a\x1b[?1h\x1b[?2004h\x1b[?66;1;1005lb\x1b=\x1b>c",
            "abc",
            "",
        );
        check("\x1b[?25;2004;7h", r"\x1b[?25;7h", "");
        check("\x1b[?1;25s\x1b[?1;25r", r"\x1b[?25s\x1b[?25r", "");
        check(
            "\x1b[>4;2m\x1b[?4m\x1b[>4m\x1b[?4m",
            "",
            r"\x1b[>4;2m\x1b[>4;0m",
        );
        check("\x1b[>4;1m\x1b[>4n\x1b[?4m", "", r"\x1b[>4;0m");
    }

    #[test]
    fn the_state_of_modes_is_told() {
        let asks = "\x1b[?1$p\x1b[?2004$p\x1b[?1005$p";
        check(asks, "", r"\x1b[?1;2$y\x1b[?2004;2$y\x1b[?1005;4$y");
        check(
            "\x1b[?1;1002;1006h\x1b[?1002$p\x1b[?1000$p\x1b[?1006$p",
            r"\x1b[?1002h\x1b[?1006h",
            r"\x1b[?1002;1$y\x1b[?1000;2$y\x1b[?1006;1$y",
        );
        check(
            "\x1b[?2004h\x1b[?2004s\x1b[?2004l\x1b[?2004r\x1b[?2004$p",
            "",
            r"\x1b[?2004;1$y",
        );
        check("\x1b[?2004h\x1b[?2004r\x1b[?2004$p", "", r"\x1b[?2004;1$y");
    }

    #[test]
    fn mouse_and_focus_are_asked_for() {
        check(
            "\x1b[?1000h\x1b[?1000l",
            r"\x1b[?1000h\x1b[?1006h\x1b[?1006l\x1b[?1000l",
            "",
        );
        check("\x1b[?9h", r"\x1b[?1000h\x1b[?1006h", "");
        check("\x1b[?1006h\x1b[?1015h\x1b[?1015l", "", "");
        check("\x1b[?1000;1002;1006h", r"\x1b[?1002h\x1b[?1006h", "");
        check(
            "\x1b[?1002h\x1b[?1003h",
            r"\x1b[?1002h\x1b[?1006h\x1b[?1006l\x1b[?1002l\x1b[?1003h\x1b[?1006h",
            "",
        );
        check(
            "\x1b[?1003;1016h\x1b[?1016l",
            concat!(
                r"\x1b[?1003h\x1b[?1006h\x1b[?1016h",
                r"\x1b[?1016l\x1b[?1006l\x1b[?1003l\x1b[?1003h\x1b[?1006h"
            ),
            "",
        );
        check("\x1b[?1004h\x1b[?1004l", r"\x1b[?1004h\x1b[?1004l", "");
    }

    #[test]
    fn mouse_modes_end_each_other() {
        let modes = |text| {
            let modes = run(text, 1).output.modes;
            (modes.mouse_tracking(), modes.mouse_encoding())
        };
        for (text, tracking, encoding) in [
            ("\x1b[?9h", Some(MouseTracking::X10), MouseEncoding::Default),
            (
                "\x1b[?1000;1015h",
                Some(MouseTracking::Normal),
                MouseEncoding::Urxvt,
            ),
            (
                "\x1b[?1003;1002;1015;1006h",
                Some(MouseTracking::Button),
                MouseEncoding::Sgr,
            ),
            (
                "\x1b[?1003;1016h\x1b[?1006l",
                Some(MouseTracking::Any),
                MouseEncoding::Sgr,
            ),
            (
                "\x1b[?1003;1006h\x1b[?1006;1000l",
                None,
                MouseEncoding::Default,
            ),
        ] {
            assert_eq!(modes(text), (tracking, encoding), "{text:?}");
        }
    }

    #[test]
    fn kitty_flags_are_stacked() {
        for (text, told) in [
            ("\x1b[?u", r"\x1b[?0u"),
            (
                "\x1b[>5u\x1b[?u\x1b[>31u\x1b[?u\x1b[<u\x1b[?u",
                r"\x1b[?5u\x1b[?31u\x1b[?5u",
            ),
            (
                "\x1b[>1u\x1b[>2u\x1b[>3u\x1b[<2u\x1b[?u\x1b[<9u\x1b[?u",
                r"\x1b[?1u\x1b[?0u",
            ),
            (
                "\x1b[=5u\x1b[?u\x1b[=2;2u\x1b[?u\x1b[=4;3u\x1b[?u",
                r"\x1b[?5u\x1b[?7u\x1b[?3u",
            ),
            (
                "\x1b[=1;1u\x1b[>u\x1b[?u\x1b[<u\x1b[?u",
                r"\x1b[?0u\x1b[?1u",
            ),
            ("\x1b[>255u\x1b[?u", r"\x1b[?31u"),
        ] {
            check(text, "", told);
        }
        let deep = "\x1b[>1u".repeat(16) + "\x1b[>2u\x1b[<15u\x1b[?u";
        assert_eq!(run(&deep, 7).to_child, r"\x1b[?1u");
        let deeper = "\x1b[>1u".repeat(17) + "\x1b[<16u\x1b[?u";
        assert_eq!(run(&deeper, 7).to_child, r"\x1b[?0u");
    }

    #[test]
    fn each_screen_has_flags() {
        check(
            "\x1b[>1u\x1b[?25;1049h\x1b[?u\x1b[>2u\x1b[?1049h\x1b[?1049l\x1b[?u\x1b[?47h\x1b[?u",
            concat!(
                r"\x1b[?25;1049h\x1b[>31u\x1b[?1049h\x1b[<u\x1b[?1049l",
                r"\x1b[?47h\x1b[>31u"
            ),
            r"\x1b[?0u\x1b[?1u\x1b[?2u",
        );
        let run = run("\x1b[?1049h\x1b[?1003h", 1);
        let wanted = run.output.modes.wanted();
        assert_eq!(wanted.on(), "\x1b[?1049h\x1b[>31u\x1b[?1003h\x1b[?1006h");
        assert_eq!(wanted.off(), "\x1b[?1006l\x1b[?1003l\x1b[<u\x1b[?1049l");
    }

    #[test]
    fn a_reset_leaves_the_terminal_told() {
        let told = r"\x1b=\x1b[?2004h\x1b[>4;2m\x1b[=31;1u";
        check(
            "\x1b[?1;2004;1004h\x1b[>5u\x1bc\x1b[?1$p\x1b[?2004$p\x1b[?u",
            &format!(r"\x1b[?1004h\x1bc{told}"),
            r"\x1b[?1;2$y\x1b[?2004;2$y\x1b[?0u",
        );
        check(
            "\x1b[?1;2004;1004h\x1b[>5u\x1b[!p\x1b[?1$p\x1b[?2004$p\x1b[?u",
            &format!(r"\x1b[?1004h\x1b[!p{told}\x1b[?1004h"),
            r"\x1b[?1;2$y\x1b[?2004;1$y\x1b[?0u",
        );
        check(
            "\x1b[?1049h\x1bc",
            &format!(r"\x1b[?1049h\x1b[>31u\x1b[<u\x1bc{told}"),
            "",
        );
        check(
            "\x1b[>4;2m\x1b[>m\x1b[?4m",
            &format!(r"\x1b[>m{told}"),
            r"\x1b[>4;0m",
        );
    }

    #[test]
    fn questions_for_the_position_are_counted() {
        for (text, count, is_private) in [
            ("\x1b[6n\x1b[6n", 2, false),
            ("\x1b[?6n\x1b[6n", 1, false),
            ("\x1b[6n\x1b[?6n", 1, true),
        ] {
            let run = run(text, 3);
            assert_eq!(
                (run.questions, run.output.modes.asks_privately),
                (count, is_private)
            );
        }
    }
}
