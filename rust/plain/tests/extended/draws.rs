// Texts and readings that look random, and are the same in each run.
use crate::port::draws::symbols;
use hedrugal::{Dialect, EraseByte, NewlineByte, Reading};

pub use crate::port::draws::numbers::Draws;

impl Draws {
    // A place in the text, and 0 in an empty one.
    pub fn place_in(&mut self, text: &[u8]) -> usize {
        self.below(text.len().max(1))
    }

    // A reading by this dialect, often with open questions.
    pub fn reading(&mut self, dialect: Dialect) -> Reading {
        Reading {
            dialect,
            x10_mouse: self.below(2) == 0,
            questions: [0, 0, 1, 2, 255][self.below(5)],
            erase: [EraseByte::Delete, EraseByte::Backspace][self.below(2)],
            newline: [NewlineByte::CtrlJ, NewlineByte::Enter][self.below(2)],
        }
    }

    // A text of so many symbols of a list.
    pub fn text(&mut self, count: usize, list: &str) -> Vec<u8> {
        let symbols = symbols(list);
        (0..count)
            .flat_map(|_| self.one_of(symbols).clone())
            .collect()
    }
}
