// What keys do, one after another, by bindings.
use crate::error::FAULT;
use crate::{raw, Bindings, Chord, KeyPress};
use std::fmt::{self, Debug};
use std::iter::FusedIterator;

/// What the first of some presses do.
#[derive(Debug, Clone, Copy, PartialEq, Eq, Hash)]
pub enum Outcome<V> {
    /// A chord was pressed.
    Bound {
        /// How many presses the chord has.
        keys: usize,
        /// The value that it is bound to.
        value: V,
    },
    /// This press begins no chord that was pressed. A program may insert its
    /// [`text`](KeyPress::text).
    Unbound(KeyPress),
}

impl<V> Outcome<V> {
    /// Returns how many presses it takes: 1 if it is unbound.
    #[must_use]
    pub fn keys(&self) -> usize {
        match self {
            Outcome::Bound { keys, .. } => *keys,
            Outcome::Unbound(_) => 1,
        }
    }
}

/// Reads presses as chords and as single keys. It holds those that aren't decided yet, and nothing
/// else.
///
/// The [`Bindings`] are passed to each call. So a program may keep several, as for its modes, and
/// change them at any time: what is pending is read by those of the call.
///
/// The longest chord counts. While a longer one is still possible the matcher waits, and a program
/// whose user pauses for a second or so calls [`Matcher::give_up`].
///
/// ```
/// use hedrugal::{Bindings, Matcher, Outcome};
///
/// let mut bindings = Bindings::new();
/// bindings.bind(&"g".parse()?, "go");
/// bindings.bind(&"g g".parse()?, "top");
/// let mut matcher = Matcher::new();
/// assert_eq!(matcher.press_all("g".parse()?, &bindings).count(), 0);
/// assert_eq!(matcher.pending().to_string(), "g");
/// let x = "x".parse()?;
/// let outcomes: Vec<_> = matcher.press_all(x, &bindings).collect();
/// assert_eq!(outcomes, [Outcome::Bound { keys: 1, value: &"go" }, Outcome::Unbound(x)]);
/// # Ok::<(), hedrugal::KeyNameError>(())
/// ```
#[derive(Clone)]
pub struct Matcher(raw::Matcher);

impl Matcher {
    /// Makes a matcher with nothing pending.
    #[must_use]
    pub fn new() -> Matcher {
        Matcher(raw::Matcher {
            count: 0,
            codes: [0; raw::CODES_MOST],
        })
    }

    /// Puts a press behind those that are pending, and returns an iterator over what is decided by
    /// it. What the iterator hasn't returned stays pending.
    ///
    /// ```
    /// use hedrugal::{Bindings, Chord, Matcher, Outcome};
    ///
    /// let chord = |text: &str| text.parse::<Chord>().unwrap();
    /// let bindings = Bindings::from_iter([(chord("a b c"), 1), (chord("b"), 2)]);
    /// let mut matcher = Matcher::new();
    /// let mut told = Vec::new();
    /// for key in chord("a b x") {
    ///     for outcome in matcher.press_all(key, &bindings) {
    ///         told.push(match outcome {
    ///             Outcome::Bound { value, .. } => value.to_string(),
    ///             Outcome::Unbound(press) => format!("?{press}"),
    ///         });
    ///     }
    /// }
    /// assert_eq!(told, ["?a", "2", "?x"]);
    /// ```
    ///
    /// # Panics
    ///
    /// If [`Chord::MAX_KEYS`] presses are pending, which isn't so if the iterators of earlier calls
    /// were used up.
    pub fn press_all<'a, V>(
        &'a mut self,
        press: KeyPress,
        bindings: &'a Bindings<V>,
    ) -> Outcomes<'a, V> {
        assert!(self.press(press), "as many presses are pending as may be");
        Outcomes {
            matcher: self,
            bindings,
            maybe_more: true,
        }
    }

    /// Decides all that is pending, and returns an iterator over it. A program calls this when it
    /// waited long enough for another key, or when there is none to come.
    ///
    /// ```
    /// use hedrugal::{Bindings, Matcher, Outcome};
    ///
    /// let mut bindings = Bindings::new();
    /// bindings.bind(&"j k".parse()?, "escape");
    /// let mut matcher = Matcher::new();
    /// let j = "j".parse()?;
    /// assert_eq!(matcher.press_all(j, &bindings).next(), None);
    /// assert_eq!(matcher.give_up(&bindings).next(), Some(Outcome::Unbound(j)));
    /// # Ok::<(), hedrugal::KeyNameError>(())
    /// ```
    pub fn give_up<'a, V>(&'a mut self, bindings: &'a Bindings<V>) -> Outcomes<'a, V> {
        Outcomes {
            matcher: self,
            bindings,
            maybe_more: false,
        }
    }

    /// Puts a press behind those that are pending. Returns false, and nothing changes, if
    /// [`Chord::MAX_KEYS`] are pending, which isn't so after [`Matcher::next`] returned `None`.
    #[must_use = "a full matcher is unchanged"]
    pub fn press(&mut self, press: KeyPress) -> bool {
        // SAFETY: the pointers lead to values of their types that live through the call.
        pressed(unsafe { raw::hed_matcher_press(&mut self.0, &press.raw()) })
    }

    /// Puts one of two presses behind those that are pending: the second if only that leads on, and
    /// else the first. A press leads on if some chord begins with what is pending and it. If neither
    /// does, the same is asked as if nothing were pending.
    ///
    /// The second press of a report is [`KeyPress::second`]. So Ctrl with a Cyrillic letter runs the
    /// command of the Latin letter at its place, unless it has one of its own.
    ///
    /// Returns what [`Matcher::press`] does.
    ///
    /// ```
    /// use hedrugal::{Bindings, Matcher, Outcome};
    ///
    /// let mut bindings = Bindings::new();
    /// bindings.bind(&"ctrl+c".parse()?, "copy");
    /// let mut matcher = Matcher::new();
    /// assert!(matcher.press_either(&bindings, "ctrl+с".parse()?, Some("ctrl+c".parse()?)));
    /// let copied = Outcome::Bound { keys: 1, value: &"copy" };
    /// assert_eq!(matcher.next(&bindings, true), Some(copied));
    /// # Ok::<(), hedrugal::KeyNameError>(())
    /// ```
    #[must_use = "a full matcher is unchanged"]
    pub fn press_either<V>(
        &mut self,
        bindings: &Bindings<V>,
        first: KeyPress,
        second: Option<KeyPress>,
    ) -> bool {
        let presses = [first, second.unwrap_or(first)].map(KeyPress::raw);
        let count = 1 + usize::from(second.is_some());
        // SAFETY: as above, and `presses` has at least `count`.
        pressed(unsafe {
            raw::hed_matcher_press_either(&mut self.0, &*bindings.lock(), presses.as_ptr(), count)
        })
    }

    /// Takes what comes first of the presses that are pending: the longest chord that they begin
    /// with, or else the first press. Pass `maybe_more` as true while more presses may come: it
    /// returns `None` while the presses may become a longer chord, and if there are none.
    pub fn next<'b, V>(
        &mut self,
        bindings: &'b Bindings<V>,
        maybe_more: bool,
    ) -> Option<Outcome<&'b V>> {
        let mut outcome = raw::Outcome::default();
        // SAFETY: the pointers lead to different values of their types that live through the call.
        let answer = unsafe {
            raw::hed_matcher_next(&mut self.0, &*bindings.lock(), maybe_more, &mut outcome)
        };
        told(answer, &outcome, bindings)
    }

    /// Returns what giving up would decide first, and takes nothing. While that is unbound, a
    /// program may prefer to wait for ever: the press may still begin a chord.
    #[must_use]
    pub fn on_pause<'b, V>(&self, bindings: &'b Bindings<V>) -> Option<Outcome<&'b V>> {
        let mut outcome = raw::Outcome::default();
        // SAFETY: as above.
        let answer = unsafe { raw::hed_matcher_on_pause(&self.0, &*bindings.lock(), &mut outcome) };
        told(answer, &outcome, bindings)
    }

    /// Returns whether more than one press is pending, no chord begins with them all, and they begin
    /// with no chord. A program that takes such presses as one mistake, as Emacs does, asks this
    /// after [`Matcher::press`], and calls [`Matcher::cancel`].
    #[must_use]
    pub fn is_dead_end<V>(&self, bindings: &Bindings<V>) -> bool {
        // SAFETY: as above.
        unsafe { raw::hed_matcher_is_dead_end(&self.0, &*bindings.lock()) }
    }

    /// Returns the presses that are pending, in the order in which they were pressed.
    #[must_use]
    pub fn pending(&self) -> Chord {
        Chord::written(|keys| {
            // SAFETY: `keys` has as much room as its length says.
            unsafe { raw::hed_matcher_pending(&self.0, keys.as_mut_ptr(), keys.len()) }
        })
    }

    /// Returns what is pending, and leaves nothing.
    pub fn cancel(&mut self) -> Chord {
        Chord::written(|keys| {
            // SAFETY: as above.
            unsafe { raw::hed_matcher_cancel(&mut self.0, keys.as_mut_ptr(), keys.len()) }
        })
    }
}

impl Default for Matcher {
    fn default() -> Matcher {
        Matcher::new()
    }
}

/// What is pending.
impl Debug for Matcher {
    fn fmt(&self, f: &mut fmt::Formatter<'_>) -> fmt::Result {
        f.debug_tuple("Matcher").field(&self.pending()).finish()
    }
}

// Whether a press is pending, by the library's answer.
fn pressed(answer: u32) -> bool {
    match answer {
        raw::STATUS_OK => true,
        raw::STATUS_FULL => false,
        _ => unreachable!("{FAULT}"),
    }
}

// The outcome that the library wrote.
fn told<'b, V>(
    answer: u32,
    outcome: &raw::Outcome,
    bindings: &'b Bindings<V>,
) -> Option<Outcome<&'b V>> {
    match (answer, outcome.kind) {
        (raw::STATUS_NONE, _) => None,
        (raw::STATUS_OK, raw::OUTCOME_BOUND) => Some(Outcome::Bound {
            keys: outcome.keys,
            value: bindings.at(outcome.value),
        }),
        (raw::STATUS_OK, raw::OUTCOME_UNBOUND) => {
            Some(Outcome::Unbound(KeyPress::of_raw(outcome.press)))
        }
        _ => unreachable!("{FAULT}"),
    }
}

/// What is decided of the presses of a [`Matcher`], one outcome after another. What it hasn't
/// returned stays pending.
#[must_use = "what isn't taken stays pending"]
pub struct Outcomes<'a, V> {
    matcher: &'a mut Matcher,
    bindings: &'a Bindings<V>,
    maybe_more: bool,
}

impl<'a, V> Iterator for Outcomes<'a, V> {
    type Item = Outcome<&'a V>;

    fn next(&mut self) -> Option<Outcome<&'a V>> {
        self.matcher.next(self.bindings, self.maybe_more)
    }
}

impl<V> FusedIterator for Outcomes<'_, V> {}
