//! Where the sequences are in what a program writes to its terminal, however reads cut it. What a
//! sequence means is in `modes.rs`.

pub const ESC: u8 = 0x1b;
const BEL: u8 = 0x07;
/// Each of these ends whatever it is in.
const CAN: u8 = 0x18;
const SUB: u8 = 0x1a;
/// A longer control sequence is passed on as text: none that sets a mode is so long.
const LONGEST: usize = 256;

/// A part of what a program writes.
#[derive(Debug, PartialEq)]
pub enum Piece<'a> {
    /// Text, strings such as that of a title, and what is left of broken sequences.
    Other(&'a [u8]),
    /// ESC and another byte, or a control sequence.
    Sequence(&'a [u8]),
}

#[derive(Clone, Copy, Default)]
enum State {
    #[default]
    Text,
    /// After ESC.
    Escape,
    /// After ESC `[`.
    Control,
    /// In a string. BEL ends those of ESC `]`.
    String { by_bell: bool },
}

/// What becomes of a byte and of those that are held, and the state after that.
enum Step {
    Hold(State),
    Other(State),
    Sequence,
    /// The byte is passed on before those that are held.
    Before,
}

/// Cuts what a program writes into pieces. The beginning of a sequence is held until its end comes.
#[derive(Default)]
pub struct Scanner {
    state: State,
    held: Vec<u8>,
}

impl Scanner {
    /// Calls `take` with each piece that is whole.
    pub fn scan(&mut self, bytes: &[u8], mut take: impl FnMut(Piece)) {
        let mut rest = bytes;
        while let Some(&first) = rest.first() {
            let len = self.other_len(rest);
            if len == 0 {
                self.step(first, &mut take);
            } else {
                take(Piece::Other(&rest[..len]));
            }
            rest = &rest[len.max(1)..];
        }
    }

    /// Returns what is held at the end.
    pub fn rest(&mut self) -> Vec<u8> {
        self.state = State::Text;
        std::mem::take(&mut self.held)
    }

    /// Returns how many bytes belong to no sequence, nor end a string.
    fn other_len(&self, bytes: &[u8]) -> usize {
        let end = match self.state {
            State::Text => bytes.iter().position(|byte| *byte == ESC),
            State::String { by_bell } => bytes.iter().position(|byte| match *byte {
                BEL => by_bell,
                byte => matches!(byte, ESC | CAN | SUB),
            }),
            State::Escape | State::Control => Some(0),
        };
        end.unwrap_or(bytes.len())
    }

    fn step(&mut self, byte: u8, take: &mut impl FnMut(Piece)) {
        let step = self.next(byte);
        if byte == ESC && !self.held.is_empty() {
            take(Piece::Other(&self.held));
            self.held.clear();
        }
        self.held.push(byte);
        match step {
            Step::Hold(state) => self.state = state,
            Step::Other(state) => {
                take(Piece::Other(&self.held));
                self.held.clear();
                self.state = state;
            }
            Step::Sequence => {
                take(Piece::Sequence(&self.held));
                self.held.clear();
                self.state = State::Text;
            }
            Step::Before => {
                self.held.pop();
                take(Piece::Other(&[byte]));
            }
        }
    }

    fn next(&self, byte: u8) -> Step {
        match (self.state, byte) {
            (_, ESC) => Step::Hold(State::Escape),
            (State::Text | State::String { .. }, _) | (_, CAN | SUB) => Step::Other(State::Text),
            // Terminals obey a control character within a sequence, and go on with that.
            (_, 0..=0x1f | 0x7f) => Step::Before,
            _ if self.held.len() >= LONGEST => Step::Other(State::Text),
            (State::Escape, b'[') => Step::Hold(State::Control),
            (State::Escape, b']') => Step::Other(State::String { by_bell: true }),
            (State::Escape, b'P' | b'X' | b'^' | b'_') => {
                Step::Other(State::String { by_bell: false })
            }
            (State::Control, 0x20..=0x3f) => Step::Hold(State::Control),
            (State::Escape, _) | (State::Control, 0x40..=0x7e) => Step::Sequence,
            (State::Control, _) => Step::Other(State::Text),
        }
    }
}

#[cfg(test)]
mod tests {
    use super::{Piece, Scanner};

    /// Returns the sequences of a text that is read in pieces of a length, and all its bytes.
    fn scanned(text: &[u8], len: usize) -> (Vec<String>, Vec<u8>) {
        let (mut scanner, mut found, mut all) = (Scanner::default(), Vec::new(), Vec::new());
        for read in text.chunks(len) {
            scanner.scan(read, |piece| match piece {
                Piece::Other(bytes) => all.extend_from_slice(bytes),
                Piece::Sequence(bytes) => {
                    all.extend_from_slice(bytes);
                    found.push(bytes.escape_ascii().to_string());
                }
            });
        }
        all.append(&mut scanner.rest());
        (found, all)
    }

    #[test]
    fn sequences_are_found() {
        for (text, sequences) in [
            (&b"a\x1b[?1;2hb\x1b=c"[..], &[r"\x1b[?1;2h", r"\x1b="][..]),
            (b"\x1b[!p\x1b[?1$p", &[r"\x1b[!p", r"\x1b[?1$p"]),
            (b"\x1b[\x1b[2\x1b\x1bc", &[r"\x1bc"]),
            (b"\x1b[1\x18m\x1b\x1ac", &[]),
            (b"\x1b[1\xc3\xa9m", &[]),
            (b"\x1b]0;a\x1b[?1h", &[r"\x1b[?1h"]),
            (b"\x1b]0;\x07\x1b[?1h", &[r"\x1b[?1h"]),
            (b"\x1bPq\x07c\x1b\\=", &[r"\x1b\\"]),
            (b"\x1bPq[?1h\x18\x1b(c", &[r"\x1b("]),
        ] {
            for len in 1..=text.len() {
                let (found, all) = scanned(text, len);
                assert_eq!(found, sequences, "{}", text.escape_ascii());
                assert_eq!(all, text);
            }
        }
    }

    #[test]
    fn a_control_character_comes_before_its_sequence() {
        let (found, all) = scanned(b"\x1b\n[?1\r\x7f;2h", 1);
        assert_eq!(found, [r"\x1b[?1;2h"]);
        assert_eq!(all, b"\n\r\x7f\x1b[?1;2h");
    }

    #[test]
    fn a_long_sequence_is_not_held() {
        let text = [b"\x1b[", &[b'1'; 300][..], b"h\x1b[?1h"].concat();
        assert_eq!(
            scanned(&text, 7),
            (vec![r"\x1b[?1h".to_string()], text.clone())
        );
        let mut scanner = Scanner::default();
        scanner.scan(&text[..290], |_| ());
        assert_eq!(scanner.rest(), b"");
    }
}
