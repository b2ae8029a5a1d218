//! The modes that a child sets for its input, by the sequences that it writes. Those of xterm are
//! in its list of control sequences, and Kitty's keyboard flags on the page of that protocol.
use hedrugal::input::{KeyCodeEncodeModes, KeyboardEncoding};
use hedrugal::{KittyKeyboardFlags, MouseEncoding, MouseTracking};
use std::collections::BTreeMap;

/// A stack of Kitty's flags loses its oldest ones beyond so many.
const MOST_FLAGS: usize = 16;

/// What becomes of a sequence that the child writes.
#[derive(Debug, PartialEq)]
pub enum Effect {
    /// The terminal gets it.
    Passed,
    /// The terminal gets it, and replies by the cursor's position, which may look like a key.
    Question,
    /// The terminal gets it, and resets modes that aren't the child's too.
    Reset,
    /// The terminal gets this part of it, and the child this reply.
    Kept { passed: String, reply: String },
}

impl Effect {
    fn reply(reply: String) -> Effect {
        Effect::Kept {
            passed: String::new(),
            reply,
        }
    }
}

/// The modes of a child.
#[derive(Default)]
pub struct ChildModes {
    pub keys: KeyModes,
    /// The modes that say which mouse reports the child gets, and how they are written. As in
    /// xterm the one that was set last counts.
    tracking: Option<u16>,
    encoding: Option<u16>,
    pub focus: bool,
    pub paste: bool,
    /// The mode by which the child went to the alternate screen, while it is there.
    alternate: Option<u16>,
    /// Whether the child last asked for the cursor's position by ESC [?6n. The reply to that has
    /// a question mark too.
    pub asks_privately: bool,
    /// Modes that the child saved, to restore them later.
    saved: BTreeMap<u16, bool>,
}

/// The modes that say what keys send.
#[derive(Default)]
pub struct KeyModes {
    cursor: bool,
    /// Whether the keypad is in application mode.
    pub keypad: bool,
    newline: bool,
    modify_other_keys: Option<i64>,
    /// Kitty's flags, on the main screen and on the alternate one. The last ones count.
    flags: [Vec<u8>; 2],
}

/// What the terminal has to be told of a child's modes.
#[derive(Clone, Copy, Debug, Default, PartialEq)]
pub struct Wanted {
    /// 1000, 1002 or 1003.
    pub mouse: Option<u16>,
    /// The mouse's place is wanted in pixels.
    pub pixels: bool,
    pub focus: bool,
    /// The alternate screen, by the mode that goes there.
    pub alternate: Option<u16>,
}

/// What follows ESC [ in a control sequence.
struct Control<'a> {
    /// One of `<=>?`, if it begins so.
    marker: Option<u8>,
    /// A number that is missing counts as 0.
    numbers: Vec<u16>,
    /// What is behind the numbers.
    end: &'a [u8],
}

impl<'a> Control<'a> {
    /// `None` is for a sequence whose numbers aren't parted by `;`, or are too large.
    fn of(text: &'a [u8]) -> Option<Control<'a>> {
        let marker = text.first().copied().filter(|it| b"<=>?".contains(it));
        let text = &text[marker.iter().len()..];
        let len = text
            .iter()
            .position(|it| !matches!(it, b'0'..=b'9' | b';'))?;
        let (numbers, end) = text.split_at(len);
        let numbers = std::str::from_utf8(numbers).ok()?.split(';');
        let number = |it: &str| if it.is_empty() { Ok(0) } else { it.parse() };
        Some(Control {
            marker,
            numbers: numbers.map(number).collect::<Result<_, _>>().ok()?,
            end,
        })
    }

    /// Returns a number, or what stands for it where it is missing or 0.
    fn number(&self, place: usize, usual: u16) -> u16 {
        let number = self.numbers.get(place).copied();
        number.filter(|it| *it > 0).unwrap_or(usual)
    }
}

impl ChildModes {
    /// Sets what a sequence sets.
    pub fn apply(&mut self, sequence: &[u8]) -> Effect {
        match &sequence[1..] {
            b"=" | b">" => self.keys.keypad = sequence.ends_with(b"="),
            b"c" => {
                *self = ChildModes::default();
                return Effect::Reset;
            }
            [b'[', control @ ..] => {
                let control = Control::of(control);
                return control.map_or(Effect::Passed, |it| self.apply_control(&it));
            }
            _ => return Effect::Passed,
        }
        Effect::reply(String::new())
    }

    fn apply_control(&mut self, control: &Control) -> Effect {
        match (control.marker, control.end) {
            (Some(b'?'), [change @ (b'h' | b'l' | b's' | b'r')]) => {
                return self.change(*change, &control.numbers);
            }
            (Some(b'?'), b"$p") => return self.tell_state(control.number(0, 0)),
            (None, b"h" | b"l") if control.numbers.contains(&20) => {
                // The end of lines that are written depends on it too.
                self.keys.newline = control.end == b"h";
                return Effect::Passed;
            }
            (None, b"!p") => {
                self.keys = KeyModes::default();
                return Effect::Reset;
            }
            (None | Some(b'?'), b"n") if control.numbers == [6] => {
                self.asks_privately = control.marker.is_some();
                return if self.asks_privately {
                    Effect::Passed
                } else {
                    Effect::Question
                };
            }
            (Some(b'>'), b"m" | b"n") => return self.set_modify_keys(control),
            (Some(b'?'), b"m") if control.numbers == [4] => {
                let level = self.keys.modify_other_keys.unwrap_or(0);
                return Effect::reply(format!("\x1b[>4;{level}m"));
            }
            (Some(b'?'), b"u") => {
                let flags = self.kitty_flags().bits();
                return Effect::reply(format!("\x1b[?{flags}u"));
            }
            (Some(b'>' | b'<' | b'='), b"u") => self.change_flags(control),
            _ => return Effect::Passed,
        }
        Effect::reply(String::new())
    }

    /// Sets, resets, saves or restores modes. Those that aren't kept here are the terminal's.
    fn change(&mut self, change: u8, modes: &[u16]) -> Effect {
        let mut passed = modes.to_vec();
        passed.retain(|mode| {
            let is_kept = match change {
                b's' => self.save(*mode),
                b'r' => self.restore(*mode),
                _ => self.set(*mode, change == b'h'),
            };
            !is_kept
        });
        if passed.len() == modes.len() {
            return Effect::Passed;
        }
        let passed: Vec<_> = passed.iter().map(u16::to_string).collect();
        Effect::Kept {
            passed: match passed.is_empty() {
                true => String::new(),
                false => format!("\x1b[?{}{}", passed.join(";"), char::from(change)),
            },
            reply: String::new(),
        }
    }

    /// Returns whether the mode is kept here.
    fn set(&mut self, mode: u16, on: bool) -> bool {
        match mode {
            1 => self.keys.cursor = on,
            66 => self.keys.keypad = on,
            9 | 1000 | 1002 | 1003 => self.tracking = on.then_some(mode),
            1004 => self.focus = on,
            1005 => {}
            1006 | 1015 | 1016 if on => self.encoding = Some(mode),
            1006 | 1015 | 1016 => self.encoding = self.encoding.filter(|it| *it != mode),
            2004 => self.paste = on,
            47 | 1047 | 1049 => {
                let before = self.alternate.filter(|_| on);
                self.alternate = before.or(on.then_some(mode));
                return false;
            }
            _ => return false,
        }
        true
    }

    /// Returns whether a mode that is kept here is set.
    fn state(&self, mode: u16) -> Option<bool> {
        Some(match mode {
            1 => self.keys.cursor,
            66 => self.keys.keypad,
            9 | 1000 | 1002 | 1003 => self.tracking == Some(mode),
            1004 => self.focus,
            1005 => false,
            1006 | 1015 | 1016 => self.encoding == Some(mode),
            2004 => self.paste,
            _ => return None,
        })
    }

    fn save(&mut self, mode: u16) -> bool {
        let state = self.state(mode);
        self.saved.extend(state.map(|state| (mode, state)));
        state.is_some()
    }

    fn restore(&mut self, mode: u16) -> bool {
        match self.saved.get(&mode) {
            Some(on) => self.set(mode, *on),
            None => self.state(mode).is_some(),
        }
    }

    /// Replies to the question for the state of a mode (DECRQM): 1 is set, 2 is reset, and 4 that
    /// it can't be set.
    fn tell_state(&self, mode: u16) -> Effect {
        let state = match self.state(mode) {
            None => return Effect::Passed,
            Some(_) if mode == 1005 => 4,
            Some(true) => 1,
            Some(false) => 2,
        };
        Effect::reply(format!("\x1b[?{mode};{state}$y"))
    }

    /// modifyOtherKeys is the fourth of several settings; without a number all are reset.
    fn set_modify_keys(&mut self, control: &Control) -> Effect {
        let is_set = control.end == b"m";
        match control.numbers[0] {
            4 => {
                let level = i64::from(control.number(1, 0));
                self.keys.modify_other_keys = Some(level).filter(|it| is_set && *it > 0);
                Effect::reply(String::new())
            }
            0 if is_set && control.numbers.len() == 1 => {
                self.keys.modify_other_keys = None;
                Effect::Reset
            }
            _ => Effect::Passed,
        }
    }

    fn change_flags(&mut self, control: &Control) {
        let flags = (control.number(0, 0) & 31) as u8;
        let stack = &mut self.keys.flags[usize::from(self.alternate.is_some())];
        let before = stack.last().copied().unwrap_or(0);
        match control.marker {
            Some(b'<') => {
                let count = usize::from(control.number(0, 1));
                stack.truncate(stack.len().saturating_sub(count));
            }
            Some(b'>') => {
                stack.push(flags);
                stack.drain(..stack.len().saturating_sub(MOST_FLAGS));
            }
            _ => {
                stack.pop();
                stack.push(match control.number(1, 1) {
                    2 => before | flags,
                    3 => before & !flags,
                    _ => flags,
                });
            }
        }
    }

    /// Returns the flags of Kitty's protocol that count on the screen of the child.
    pub fn kitty_flags(&self) -> KittyKeyboardFlags {
        let stack = &self.keys.flags[usize::from(self.alternate.is_some())];
        KittyKeyboardFlags::from_bits_truncate(stack.last().copied().unwrap_or(0).into())
    }

    /// Returns how keys are sent without Kitty's flags. Newline mode is the terminal's too, so it adds
    /// the line feed itself, unless it tells Enter by Kitty's protocol.
    pub fn key_encoding(&self, has_kitty: bool) -> KeyCodeEncodeModes {
        KeyCodeEncodeModes {
            encoding: KeyboardEncoding::Xterm,
            application_cursor_keys: self.keys.cursor,
            newline_mode: self.keys.newline && has_kitty,
            modify_other_keys: self.keys.modify_other_keys,
        }
    }

    /// Returns which mouse reports the child gets, if any.
    pub fn mouse_tracking(&self) -> Option<MouseTracking> {
        self.tracking.map(|mode| match mode {
            9 => MouseTracking::X10,
            1000 => MouseTracking::Normal,
            1002 => MouseTracking::Button,
            _ => MouseTracking::Any,
        })
    }

    pub fn mouse_encoding(&self) -> MouseEncoding {
        match self.encoding {
            None => MouseEncoding::Default,
            Some(1015) => MouseEncoding::Urxvt,
            Some(_) => MouseEncoding::Sgr,
        }
    }

    /// Returns what the terminal has to be told. Few terminals have mode 9, so the mouse is told by
    /// another one.
    pub fn wanted(&self) -> Wanted {
        Wanted {
            mouse: self.tracking.map(|mode| mode.max(1000)),
            pixels: self.tracking.is_some() && self.encoding == Some(1016),
            focus: self.focus,
            alternate: self.alternate,
        }
    }
}
