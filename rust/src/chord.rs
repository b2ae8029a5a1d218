// Lists of presses.
use crate::{names, raw, KeyNameError, KeyPress};
use std::cmp::Ordering;
use std::fmt;
use std::iter::FusedIterator;
use std::ops::Range;
use std::str::FromStr;

/// A chord: the presses to which a program binds a command, one after another, as Ctrl-X and then
/// Ctrl-S. It has at most [`Chord::MAX_KEYS`] of them, and takes no memory beside its own.
///
/// A program reads chords from its settings, and shows them to its user. The text of a chord has
/// its keys parted by blanks. Modifiers are words (`ctrl+x`), or letters as those of Emacs (`C-x`)
/// or Vim (`<C-x>`). Words are read in any case, and the page of the crate `termwiz_bindings` of
/// the repository lists them. A chord is printed in one way alone, which reads as the same chord.
///
/// Chords are ordered by their first press, then by the second, and so on. One that begins another
/// comes before it.
///
/// ```
/// use hedrugal::{Chord, KeyNameErrorKind};
///
/// let save: Chord = "C-x C-s".parse()?;
/// assert_eq!(save.to_string(), "ctrl+x ctrl+s");
/// assert_eq!("<C-x> Ctrl-S".parse(), Ok(save));
///
/// let error = "ctrl+x foo".parse::<Chord>().unwrap_err();
/// assert_eq!((error.kind, error.at), (KeyNameErrorKind::UnknownName, 7));
/// # Ok::<(), hedrugal::KeyNameError>(())
/// ```
#[derive(Clone, Copy, PartialEq, Eq, Hash)]
pub struct Chord {
    // The presses, and zeros after them.
    keys: [raw::KeyPress; Chord::MAX_KEYS],
    len: usize,
}

impl Chord {
    /// The most presses that a chord has.
    pub const MAX_KEYS: usize = raw::CHORD_MOST;

    /// Returns a chord without presses.
    ///
    /// ```
    /// use hedrugal::{Chord, Dialect, Parser};
    /// use std::time::Instant;
    ///
    /// let mut parser = Parser::new(Dialect::Extended);
    /// parser.feed(Instant::now(), b"\x18\x13");
    /// let mut chord = Chord::new();
    /// for press in parser.filter_map(|event| event.press()) {
    ///     assert!(chord.push(press));
    /// }
    /// assert_eq!(chord.to_string(), "ctrl+x ctrl+s");
    /// ```
    #[must_use]
    pub fn new() -> Chord {
        Chord {
            keys: [raw::KeyPress::default(); Chord::MAX_KEYS],
            len: 0,
        }
    }

    /// Puts a press behind the others. Returns false, and the chord is unchanged, if there are
    /// [`Chord::MAX_KEYS`] already.
    #[must_use = "a full chord is unchanged"]
    pub fn push(&mut self, press: KeyPress) -> bool {
        let Some(place) = self.keys.get_mut(self.len) else {
            return false;
        };
        *place = press.raw();
        self.len += 1;
        true
    }

    /// Returns the number of presses.
    #[must_use]
    pub fn len(&self) -> usize {
        self.len
    }

    /// Returns whether there are no presses, as in [`Chord::new`] alone. A chord that was read has
    /// some.
    #[must_use]
    pub fn is_empty(&self) -> bool {
        self.len == 0
    }

    /// Returns the press at a place, or `None` from [`Chord::len`] on. The first place is 0.
    ///
    /// ```
    /// use hedrugal::{Chord, KittyModifiers};
    ///
    /// let chord: Chord = "ctrl+x 5".parse().unwrap();
    /// assert_eq!(chord.get(0).unwrap().held(), KittyModifiers::CTRL);
    /// assert_eq!(chord.get(1).unwrap().text(), Some('5'));
    /// assert_eq!(chord.get(2), None);
    /// ```
    #[must_use]
    pub fn get(&self, place: usize) -> Option<KeyPress> {
        self.held().get(place).copied().map(KeyPress::of_raw)
    }

    /// Returns an iterator over the presses.
    #[must_use]
    pub fn iter(&self) -> Presses {
        Presses {
            chord: *self,
            places: 0..self.len,
        }
    }

    // The chord whose presses a call wrote; it returns how many they are.
    pub(crate) fn written(call: impl FnOnce(&mut [raw::KeyPress]) -> usize) -> Chord {
        let mut chord = Chord::new();
        chord.len = call(&mut chord.keys);
        chord
    }

    // The presses that it has.
    pub(crate) fn held(&self) -> &[raw::KeyPress] {
        &self.keys[..self.len]
    }
}

impl Default for Chord {
    fn default() -> Chord {
        Chord::new()
    }
}

impl fmt::Debug for Chord {
    fn fmt(&self, f: &mut fmt::Formatter<'_>) -> fmt::Result {
        f.debug_list().entries(self).finish()
    }
}

/// Prints the name of the chord: those of its presses, with a space between them. That of a chord
/// without presses is empty. Fails only if memory is refused.
impl fmt::Display for Chord {
    fn fmt(&self, f: &mut fmt::Formatter<'_>) -> fmt::Result {
        if self.is_empty() {
            return f.pad("");
        }
        names::print(self.held(), f)
    }
}

/// Reads the name of a chord, which has at least one key.
impl FromStr for Chord {
    type Err = KeyNameError;

    fn from_str(text: &str) -> Result<Chord, KeyNameError> {
        let (keys, len) = names::read(text)?;
        Ok(Chord { keys, len })
    }
}

impl From<KeyPress> for Chord {
    fn from(press: KeyPress) -> Chord {
        let mut chord = Chord::new();
        chord.keys[0] = press.raw();
        chord.len = 1;
        chord
    }
}

impl PartialOrd for Chord {
    fn partial_cmp(&self, other: &Chord) -> Option<Ordering> {
        Some(self.cmp(other))
    }
}

impl Ord for Chord {
    fn cmp(&self, other: &Chord) -> Ordering {
        self.iter().cmp(other.iter())
    }
}

/// The presses of a [`Chord`], from its first on.
#[derive(Debug, Clone)]
pub struct Presses {
    chord: Chord,
    places: Range<usize>,
}

impl Iterator for Presses {
    type Item = KeyPress;

    fn next(&mut self) -> Option<KeyPress> {
        self.chord.get(self.places.next()?)
    }

    fn size_hint(&self) -> (usize, Option<usize>) {
        self.places.size_hint()
    }
}

impl DoubleEndedIterator for Presses {
    fn next_back(&mut self) -> Option<KeyPress> {
        self.chord.get(self.places.next_back()?)
    }
}

impl ExactSizeIterator for Presses {}

impl FusedIterator for Presses {}

impl IntoIterator for Chord {
    type Item = KeyPress;
    type IntoIter = Presses;

    fn into_iter(self) -> Presses {
        self.iter()
    }
}

impl IntoIterator for &Chord {
    type Item = KeyPress;
    type IntoIter = Presses;

    fn into_iter(self) -> Presses {
        self.iter()
    }
}
