// Texts that look random, and are the same in each run.
#[path = "../numbers.rs"]
pub mod numbers;

use super::lines::unquoted;
use super::plain::PlainReader;
use std::collections::BTreeMap;
use std::sync::OnceLock;

// The symbols of a list of tests/symbols.txt.
pub fn symbols(list: &str) -> &'static [Vec<u8>] {
    static LISTS: OnceLock<BTreeMap<&str, Vec<Vec<u8>>>> = OnceLock::new();
    let lists = LISTS.get_or_init(|| {
        let lists = include_str!("../symbols.txt").split("\n# ").skip(1);
        let parts = lists.filter_map(|it| it.split_once('\n'));
        let symbols = |words: &'static str| words.split_whitespace().map(unquoted).collect();
        parts
            .map(|(title, words)| (title.split(':').next().unwrap_or(title), symbols(words)))
            .collect()
    });
    &lists[list]
}

// Limits of the lengths of pieces: below 2 a piece is a byte or empty, and below 61 most texts are
// one piece or two.
const LIMITS: &[usize] = &[2, 4, 8, 16, 61];

// Numbers that are drawn, and the rows of the sequence table, from which texts are made.
pub struct Draws {
    numbers: numbers::Draws,
    rows: Vec<Vec<u8>>,
}

impl Draws {
    pub fn new(seed: u64, reader: &PlainReader) -> Draws {
        Draws {
            numbers: numbers::Draws::new(seed),
            rows: reader.rows().keys().cloned().collect(),
        }
    }

    // A number below the limit.
    pub fn below(&mut self, limit: usize) -> usize {
        self.numbers.below(limit)
    }

    fn symbol(&mut self) -> &'static [u8] {
        let symbol = self.numbers.one_of(symbols("port"));
        symbol
    }

    // A text of `count` symbols.
    pub fn symbols(&mut self, count: usize) -> Vec<u8> {
        (0..count).flat_map(|_| self.symbol()).copied().collect()
    }

    fn row(&mut self) -> Vec<u8> {
        self.numbers.one_of(&self.rows).clone()
    }

    // A mouse report; in some draws a number is past its limit or has six digits, so that it is
    // none.
    fn mouse_report(&mut self) -> Vec<u8> {
        let code = self.below(100);
        let x = self.below(70000) >> self.below(16);
        let y = self.below(70000) >> self.below(16);
        let last = if self.below(2) == 0 { 'M' } else { 'm' };
        match self.below(8) {
            0 => format!("\x1b[<{code:05};{x:05};{y:05}{last}"),
            1 => format!("\x1b[<{code};{x:06};{y}{last}"),
            _ => format!("\x1b[<{code};{x};{y}{last}"),
        }
        .into_bytes()
    }

    // A character, of each length in UTF-8 about as often.
    fn character(&mut self) -> Vec<u8> {
        let code = self.below(0x110000) >> (5 * self.below(4));
        let character = char::from_u32(code as u32).unwrap_or('\u{fffd}');
        character.to_string().into_bytes()
    }

    // A paste of symbols and of any bytes.
    fn paste(&mut self) -> Vec<u8> {
        let mut text = b"\x1b[200~".to_vec();
        for _ in 0..self.below(4) {
            text.extend_from_slice(self.symbol());
            text.push(self.below(256) as u8);
        }
        text.extend_from_slice(b"\x1b[201~");
        text
    }

    // A part of a text, often only its beginning.
    fn part(&mut self) -> Vec<u8> {
        let mut part = match self.below(8) {
            0 => self.mouse_report(),
            1 => self.paste(),
            2 => self.character(),
            3 => vec![self.below(256) as u8],
            4 | 5 => self.row(),
            _ => self.symbol().to_vec(),
        };
        if self.below(3) == 0 {
            part.truncate(1 + self.below(part.len()));
        }
        part
    }

    // A text of 1 to 60 bytes.
    pub fn text(&mut self) -> Vec<u8> {
        let len = 1 + self.below(60);
        let mut text = Vec::new();
        while text.len() < len {
            if self.below(4) == 0 {
                text.push(b'\x1b');
            }
            text.extend(self.part());
        }
        text.truncate(len);
        text
    }
    // The text in pieces shorter than a limit, some of them empty. The last has what is left.
    pub fn pieces<'a>(&mut self, text: &'a [u8]) -> Vec<&'a [u8]> {
        let limit = LIMITS[self.below(LIMITS.len())];
        let mut pieces = Vec::new();
        let mut left = text;
        for _ in 0..text.len() {
            let len = self.below(limit);
            if len > left.len() {
                break;
            }
            let (piece, after) = left.split_at(len);
            pieces.push(piece);
            left = after;
        }
        pieces.push(left);
        pieces
    }
}
