// What a program does at which keys: a map from chords to values.
use crate::error::{granted, AllocError, FAULT};
use crate::{raw, Chord};
use std::error;
use std::fmt::{self, Debug};
use std::iter::FusedIterator;
use std::ops::Range;
use std::sync::{Mutex, MutexGuard, PoisonError};

/// Why [`Bindings::try_bind`] refused.
#[derive(Debug, Clone, Copy, PartialEq, Eq)]
pub enum BindErrorKind {
    /// The chord has no presses.
    Empty,
    /// Memory was refused.
    Memory,
}

/// [`Bindings::try_bind`] refused. The bindings are unchanged, and `value` is what was to be bound.
///
/// ```
/// use hedrugal::{BindErrorKind, Bindings, Chord};
///
/// let error = Bindings::new().try_bind(&Chord::new(), "quit").unwrap_err();
/// assert_eq!((error.kind, error.value), (BindErrorKind::Empty, "quit"));
/// assert_eq!(error.to_string(), "a chord needs a key");
/// ```
#[derive(Debug, Clone, PartialEq, Eq)]
pub struct BindError<V> {
    /// Why it refused.
    pub kind: BindErrorKind,
    /// The value that wasn't bound.
    pub value: V,
}

impl<V> fmt::Display for BindError<V> {
    fn fmt(&self, f: &mut fmt::Formatter<'_>) -> fmt::Result {
        match self.kind {
            BindErrorKind::Empty => f.pad("a chord needs a key"),
            BindErrorKind::Memory => fmt::Display::fmt(&AllocError, f),
        }
    }
}

impl<V: Debug> error::Error for BindError<V> {}

/// A map from chords to values: what a program does at which keys. One chord may begin another one.
/// A [`Matcher`](crate::Matcher) reads keys by it.
///
/// ```
/// use hedrugal::{Bindings, Chord, Matcher, Outcome};
///
/// let bindings: Bindings<&str> = [("C-x C-s", "save"), ("g", "go"), ("g g", "top")]
///     .into_iter()
///     .map(|(keys, command)| (keys.parse::<Chord>().unwrap(), command))
///     .collect();
/// assert_eq!(bindings.lookup(&"ctrl+x ctrl+s".parse().unwrap()), Some(&"save"));
///
/// let mut matcher = Matcher::new();
/// let mut commands = Vec::new();
/// for key in "ctrl+x ctrl+s g g".parse::<Chord>().unwrap() {
///     for outcome in matcher.press_all(key, &bindings) {
///         match outcome {
///             Outcome::Bound { value, .. } => commands.push(*value),
///             Outcome::Unbound(press) => panic!("{press} does nothing"),
///         }
///     }
/// }
/// assert_eq!(commands, ["save", "top"]);
/// ```
pub struct Bindings<V> {
    // By chord the place of its value in `slots`.
    places: Places,
    slots: Vec<Slot<V>>,
    // The first of the free places, each of which tells the next one.
    free: Option<usize>,
}

enum Slot<V> {
    Taken(V),
    Free(Option<usize>),
}

impl<V> Bindings<V> {
    /// Makes bindings of no chord.
    ///
    /// ```
    /// use hedrugal::{Bindings, Chord};
    ///
    /// let mut bindings = Bindings::new();
    /// let quit: Chord = "ctrl+q".parse()?;
    /// bindings.bind(&quit, 1);
    /// bindings.bind(&quit, 2);
    /// assert_eq!(bindings.lookup(&quit), Some(&2));
    /// # Ok::<(), hedrugal::KeyNameError>(())
    /// ```
    ///
    /// # Panics
    ///
    /// If memory is refused.
    #[must_use]
    pub fn new() -> Bindings<V> {
        Bindings::try_new().expect("bindings are made")
    }

    /// Does what [`Bindings::new`] does.
    ///
    /// # Errors
    ///
    /// If memory is refused.
    pub fn try_new() -> Result<Bindings<V>, AllocError> {
        Ok(Bindings {
            places: Places::new()?,
            slots: Vec::new(),
            free: None,
        })
    }

    /// Binds a value to a chord. The value that it had is dropped. Every other chord keeps its
    /// value, also one that begins with this one.
    ///
    /// # Panics
    ///
    /// If the chord has no presses, or if memory is refused. A chord that was read has some.
    pub fn bind(&mut self, chord: &Chord, value: V) {
        if let Err(BindError { kind, .. }) = self.try_bind(chord, value) {
            panic!("the chord is bound: {kind:?}");
        }
    }

    /// Does what [`Bindings::bind`] does.
    ///
    /// ```
    /// use hedrugal::{Bindings, Chord};
    ///
    /// let mut bindings = Bindings::new();
    /// assert_eq!(bindings.try_bind(&"f5".parse().unwrap(), "run"), Ok(()));
    /// ```
    ///
    /// # Errors
    ///
    /// If the chord has no presses, or if memory is refused. The bindings are unchanged, and the
    /// error has the value.
    pub fn try_bind(&mut self, chord: &Chord, value: V) -> Result<(), BindError<V>> {
        if chord.is_empty() {
            let kind = BindErrorKind::Empty;
            return Err(BindError { kind, value });
        }
        if let Some(place) = self.places.of(chord) {
            self.slots[place] = Slot::Taken(value);
            return Ok(());
        }
        let kind = BindErrorKind::Memory;
        // There is room for the value before the library has the chord, so that nothing is refused
        // afterwards.
        let place = self.free.unwrap_or(self.slots.len());
        let has_room = self.free.is_some() || self.slots.try_reserve(1).is_ok();
        if !has_room || self.places.bind(chord, place).is_err() {
            return Err(BindError { kind, value });
        }
        match self.slots.get_mut(place) {
            None => self.slots.push(Slot::Taken(value)),
            Some(slot) => match std::mem::replace(slot, Slot::Taken(value)) {
                Slot::Free(next) => self.free = next,
                Slot::Taken(_) => unreachable!("{FAULT}"),
            },
        }
        Ok(())
    }

    /// Takes the value of a chord away and returns it, or `None` if it has none. Every other chord
    /// keeps its value. No memory is needed.
    ///
    /// ```
    /// use hedrugal::{Bindings, Chord};
    ///
    /// let chord: Chord = "ctrl+x ctrl+s".parse()?;
    /// let mut bindings = Bindings::from_iter([(chord, "save")]);
    /// assert_eq!(bindings.unbind(&chord), Some("save"));
    /// assert_eq!(bindings.unbind(&chord), None);
    /// # Ok::<(), hedrugal::KeyNameError>(())
    /// ```
    pub fn unbind(&mut self, chord: &Chord) -> Option<V> {
        let place = self.places.unbind(chord)?;
        match std::mem::replace(&mut self.slots[place], Slot::Free(self.free)) {
            Slot::Taken(value) => {
                self.free = Some(place);
                Some(value)
            }
            Slot::Free(_) => unreachable!("{FAULT}"),
        }
    }

    /// Returns the value of a chord, or `None` if it has none.
    #[must_use]
    pub fn lookup(&self, chord: &Chord) -> Option<&V> {
        self.places.of(chord).map(|place| self.at(place as u64))
    }

    /// Returns the number of chords that have a value.
    #[must_use]
    pub fn len(&self) -> usize {
        self.places.len()
    }

    /// Returns whether no chord has a value.
    #[must_use]
    pub fn is_empty(&self) -> bool {
        self.len() == 0
    }

    /// Returns an iterator over the chords and their values, in the order of the chords.
    ///
    /// ```
    /// use hedrugal::{Bindings, Chord};
    ///
    /// let names = ["g g", "a", "g"];
    /// let chords = names.map(|name| name.parse::<Chord>().unwrap());
    /// let bindings: Bindings<()> = chords.map(|chord| (chord, ())).into_iter().collect();
    /// let listed: Vec<String> = bindings.iter().map(|(chord, ())| chord.to_string()).collect();
    /// assert_eq!(listed, ["a", "g", "g g"]);
    /// ```
    #[must_use]
    pub fn iter(&self) -> Iter<'_, V> {
        Iter {
            bindings: self,
            places: 0..self.len(),
        }
    }

    /// Returns an iterator over the chords that begin with these presses and are longer, and their
    /// values: what may follow, as for a menu. For the chord without presses it has all.
    ///
    /// ```
    /// use hedrugal::{Bindings, Chord};
    ///
    /// let mut bindings = Bindings::new();
    /// for (keys, command) in [("ctrl+x", "cut"), ("ctrl+x 1", "one"), ("ctrl+x ctrl+c", "quit")] {
    ///     bindings.bind(&keys.parse()?, command);
    /// }
    /// let after: Chord = "ctrl+x".parse()?;
    /// let commands: Vec<&str> = bindings.continuations(&after).map(|(_, it)| *it).collect();
    /// assert_eq!(commands, ["one", "quit"]);
    /// # Ok::<(), hedrugal::KeyNameError>(())
    /// ```
    #[must_use]
    pub fn continuations(&self, keys: &Chord) -> Iter<'_, V> {
        Iter {
            bindings: self,
            places: self.places.continuations(keys),
        }
    }

    // The value at a place of `slots`.
    pub(crate) fn at(&self, place: u64) -> &V {
        match &self.slots[place as usize] {
            Slot::Taken(value) => value,
            Slot::Free(_) => unreachable!("{FAULT}"),
        }
    }

    // The library's bindings, for one call.
    pub(crate) fn lock(&self) -> MutexGuard<'_, raw::Bindings> {
        self.places.lock()
    }
}

/// It panics if memory is refused.
impl<V> Default for Bindings<V> {
    fn default() -> Bindings<V> {
        Bindings::new()
    }
}

/// It panics if memory is refused.
impl<V: Clone> Clone for Bindings<V> {
    fn clone(&self) -> Bindings<V> {
        let copied = |(chord, value): (Chord, &V)| (chord, value.clone());
        self.iter().map(copied).collect()
    }
}

/// The names of the chords with their values, in the order of the chords.
impl<V: Debug> Debug for Bindings<V> {
    fn fmt(&self, f: &mut fmt::Formatter<'_>) -> fmt::Result {
        let named = self.iter().map(|(chord, value)| (chord.to_string(), value));
        f.debug_map().entries(named).finish()
    }
}

/// Binds each value to its chord, as [`Bindings::bind`] does. So of two values of a chord it keeps
/// the last one.
impl<V> Extend<(Chord, V)> for Bindings<V> {
    fn extend<T: IntoIterator<Item = (Chord, V)>>(&mut self, entries: T) {
        for (chord, value) in entries {
            self.bind(&chord, value);
        }
    }
}

impl<V> FromIterator<(Chord, V)> for Bindings<V> {
    fn from_iter<T: IntoIterator<Item = (Chord, V)>>(entries: T) -> Bindings<V> {
        let mut bindings = Bindings::new();
        bindings.extend(entries);
        bindings
    }
}

impl<'a, V> IntoIterator for &'a Bindings<V> {
    type Item = (Chord, &'a V);
    type IntoIter = Iter<'a, V>;

    fn into_iter(self) -> Iter<'a, V> {
        self.iter()
    }
}

/// Chords of some [`Bindings`] and their values, in the order of the chords.
pub struct Iter<'a, V> {
    bindings: &'a Bindings<V>,
    places: Range<usize>,
}

impl<'a, V> Iter<'a, V> {
    fn entry(&self, place: usize) -> (Chord, &'a V) {
        let (chord, value) = self.bindings.places.entry(place);
        (chord, self.bindings.at(value))
    }
}

impl<V> Clone for Iter<'_, V> {
    fn clone(&self) -> Self {
        Iter {
            bindings: self.bindings,
            places: self.places.clone(),
        }
    }
}

impl<V: Debug> Debug for Iter<'_, V> {
    fn fmt(&self, f: &mut fmt::Formatter<'_>) -> fmt::Result {
        f.debug_list().entries(self.clone()).finish()
    }
}

impl<'a, V> Iterator for Iter<'a, V> {
    type Item = (Chord, &'a V);

    fn next(&mut self) -> Option<(Chord, &'a V)> {
        let place = self.places.next()?;
        Some(self.entry(place))
    }

    fn size_hint(&self) -> (usize, Option<usize>) {
        self.places.size_hint()
    }
}

impl<V> DoubleEndedIterator for Iter<'_, V> {
    fn next_back(&mut self) -> Option<Self::Item> {
        let place = self.places.next_back()?;
        Some(self.entry(place))
    }
}

impl<V> ExactSizeIterator for Iter<'_, V> {}

impl<V> FusedIterator for Iter<'_, V> {}

// Bindings of the library, from chords to places in a list. The library allows one thread at a time,
// also in a lookup, so a call through a shared reference locks them.
struct Places(Mutex<raw::Bindings>);

impl Places {
    fn new() -> Result<Places, AllocError> {
        let mut bindings = raw::Bindings::NONE;
        // SAFETY: the pointer leads to bindings that are none.
        granted(unsafe { raw::hed_bindings_init(&mut bindings) })?;
        Ok(Places(Mutex::new(bindings)))
    }

    fn lock(&self) -> MutexGuard<'_, raw::Bindings> {
        self.0.lock().unwrap_or_else(PoisonError::into_inner)
    }

    // The library's bindings, for a call that has these alone.
    fn raw(&mut self) -> &mut raw::Bindings {
        self.0.get_mut().unwrap_or_else(PoisonError::into_inner)
    }

    // Has a chord lead to a place.
    fn bind(&mut self, chord: &Chord, place: usize) -> Result<(), AllocError> {
        let keys = chord.held();
        // SAFETY: the slice's pointer leads to as many presses as the length says.
        granted(unsafe {
            raw::hed_bindings_bind(self.raw(), keys.as_ptr(), keys.len(), place as u64)
        })
    }

    // Has a chord lead nowhere, and returns the place to which it led.
    fn unbind(&mut self, chord: &Chord) -> Option<usize> {
        let keys = chord.held();
        let mut place = 0;
        // SAFETY: as above, and `place` is another value.
        let answer =
            unsafe { raw::hed_bindings_unbind(self.raw(), keys.as_ptr(), keys.len(), &mut place) };
        (answer == raw::STATUS_OK).then_some(place as usize)
    }

    // The place to which a chord leads, if it leads to one.
    fn of(&self, chord: &Chord) -> Option<usize> {
        let keys = chord.held();
        let mut place = 0;
        // SAFETY: as above.
        let answer = unsafe {
            raw::hed_bindings_lookup(&*self.lock(), keys.as_ptr(), keys.len(), &mut place)
        };
        (answer == raw::STATUS_OK).then_some(place as usize)
    }

    fn len(&self) -> usize {
        // SAFETY: these are bindings of the library.
        unsafe { raw::hed_bindings_len(&*self.lock()) }
    }

    // The chord at a place in the order of chords, and the place to which it leads.
    fn entry(&self, place: usize) -> (Chord, u64) {
        let mut leads_to = 0;
        let chord = Chord::written(|keys| {
            let mut count = 0;
            // SAFETY: `keys` has as much room as its length says, and the others are other values.
            let answer = unsafe {
                raw::hed_bindings_entry(
                    &*self.lock(),
                    place,
                    keys.as_mut_ptr(),
                    keys.len(),
                    &mut count,
                    &mut leads_to,
                )
            };
            assert!(answer == raw::STATUS_OK, "{FAULT}");
            count
        });
        (chord, leads_to)
    }

    // The places of the chords that begin with these presses and are longer.
    fn continuations(&self, chord: &Chord) -> Range<usize> {
        let keys = chord.held();
        let mut places = 0..0;
        // SAFETY: as above.
        unsafe {
            raw::hed_bindings_continuations(
                &*self.lock(),
                keys.as_ptr(),
                keys.len(),
                &mut places.start,
                &mut places.end,
            )
        };
        places
    }
}

impl Drop for Places {
    fn drop(&mut self) {
        // SAFETY: these are bindings of the library, and aren't used again.
        unsafe { raw::hed_bindings_free(self.raw()) }
    }
}
