// A timer for a limit in time of a program's own.
use crate::error::{granted, FAULT};
use crate::raw;
use crate::times::{limit_millis, wait_of, Clock};
use std::time::{Duration, Instant};

/// One of the two ages of what is pending, by which a [`Timer`] limits it.
#[derive(Debug, Clone, Copy, PartialEq, Eq, Default)]
pub enum Age {
    /// How long ago something was fed last.
    #[default]
    Last,
    /// How long ago the first of what is pending came to the front: since it was fed, or since what
    /// was before it was taken.
    Front,
}

impl Age {
    fn number(self) -> u8 {
        match self {
            Age::Last => raw::AGE_LAST,
            Age::Front => raw::AGE_FRONT,
        }
    }
}

/// What a program tells a [`Timer`]: what is pending now, and what happened since the last note. By
/// default nothing happened, and there is no limit.
#[derive(Debug, Clone, Copy, PartialEq, Eq, Default)]
pub struct Seen {
    /// How long what is pending may wait. Whole milliseconds count, and at most `i32::MAX` of them.
    /// `None` is forever.
    pub limit: Option<Duration>,
    /// The age that the limit is for.
    pub by: Age,
    /// Whether something was fed since the last note, as a press to a matcher.
    pub fed: bool,
    /// Whether something was taken since the last note, as an outcome of a matcher.
    pub taken: bool,
    /// Whether nothing is pending now.
    pub empty: bool,
}

/// A timer, by which a program keeps a limit in time of its own beside its parser's.
///
/// It is a value that knows what it was told, and reads no clock. With it a program times the pause
/// of a chord, after which it calls [`Matcher::give_up`]:
///
/// [`Matcher::give_up`]: crate::Matcher::give_up
///
/// ```
/// use hedrugal::{Bindings, Matcher, Outcome};
/// use hedrugal::{Seen, Timer};
/// use std::time::{Duration, Instant};
///
/// let mut bindings = Bindings::new();
/// bindings.bind(&"g".parse()?, "go");
/// bindings.bind(&"g g".parse()?, "top");
/// let (mut matcher, mut pause) = (Matcher::new(), Timer::new());
/// let start = Instant::now();
///
/// // Each press begins the pause again. Nothing is decided by this one.
/// let taken = matcher.press_all("g".parse()?, &bindings).count() > 0;
/// let empty = matcher.pending().is_empty();
/// let limit = (!empty).then_some(Duration::from_secs(1));
/// pause.note(start, Seen { limit, fed: true, taken, empty, ..Seen::default() });
/// assert_eq!(pause.timeout(start), Some(Duration::from_secs(1)));
///
/// // The program waits as long for a key, or as its parser says. Then the pause is over.
/// let later = start + Duration::from_secs(1);
/// assert!(pause.is_due(later));
/// let outcomes: Vec<_> = matcher.give_up(&bindings).collect();
/// assert_eq!(outcomes, [Outcome::Bound { keys: 1, value: &"go" }]);
/// pause.note(later, Seen { taken: true, empty: true, ..Seen::default() });
/// assert_eq!(pause.timeout(later), None);
/// # Ok::<(), hedrugal::KeyNameError>(())
/// ```
#[derive(Debug, Clone, Copy, PartialEq, Eq, Default)]
pub struct Timer {
    raw: raw::Timer,
    clock: Clock,
}

impl Timer {
    /// Makes a timer with nothing pending.
    ///
    /// ```
    /// use hedrugal::Timer;
    /// use std::time::Instant;
    ///
    /// assert_eq!(Timer::new().timeout(Instant::now()), None);
    /// ```
    #[must_use]
    pub fn new() -> Timer {
        Timer::default()
    }

    /// Tells the timer what time it is and what was seen. Both ages grow by the time since the last
    /// note; if `now` is before that, no time has passed. Then [`Age::Last`] is 0 if something was
    /// fed, and [`Age::Front`] if something was taken, or if nothing was pending at the last note.
    ///
    /// ```
    /// use hedrugal::{Age, Seen, Timer};
    /// use std::time::{Duration, Instant};
    ///
    /// let second = Duration::from_secs(1);
    /// let start = Instant::now();
    /// let mut timer = Timer::new();
    /// let seen = Seen { limit: Some(3 * second), by: Age::Front, fed: true, ..Seen::default() };
    /// timer.note(start, seen);
    /// timer.note(start + 2 * second, seen);
    /// // What was fed later doesn't put off what is at the front.
    /// assert_eq!(timer.timeout(start + 2 * second), Some(second));
    /// ```
    pub fn note(&mut self, now: Instant, seen: Seen) {
        let now = self.clock.begin(now);
        let seen = raw::Seen {
            limit: limit_millis(seen.limit),
            by: seen.by.number(),
            fed: seen.fed,
            taken: seen.taken,
            empty: seen.empty,
        };
        // SAFETY: the pointers lead to values of their types that live through the call.
        let noted = granted(unsafe { raw::hed_timer_note(&mut self.raw, now, &seen) });
        noted.expect(FAULT);
    }

    /// Returns how long what is pending may still wait: [`Duration::ZERO`] if it is due, and `None`
    /// if it may wait forever.
    ///
    /// ```
    /// use hedrugal::{Seen, Timer};
    /// use std::time::{Duration, Instant};
    ///
    /// let start = Instant::now();
    /// let mut timer = Timer::new();
    /// let limit = Some(Duration::from_millis(500));
    /// timer.note(start, Seen { limit, fed: true, ..Seen::default() });
    /// let later = start + Duration::from_millis(200);
    /// assert_eq!(timer.timeout(later), Some(Duration::from_millis(300)));
    /// ```
    #[must_use]
    pub fn timeout(&self, now: Instant) -> Option<Duration> {
        let now = self.clock.millis(now);
        // SAFETY: the pointer leads to a timer that lives through the call.
        wait_of(unsafe { raw::hed_timer_timeout(&self.raw, now) })
    }

    /// Returns whether what is pending has waited for as long as its limit.
    ///
    /// ```
    /// use hedrugal::{Seen, Timer};
    /// use std::time::{Duration, Instant};
    ///
    /// let start = Instant::now();
    /// let mut timer = Timer::new();
    /// let limit = Some(Duration::from_millis(500));
    /// timer.note(start, Seen { limit, fed: true, ..Seen::default() });
    /// assert!(!timer.is_due(start + Duration::from_millis(499)));
    /// assert!(timer.is_due(start + Duration::from_millis(500)));
    /// ```
    #[must_use]
    pub fn is_due(&self, now: Instant) -> bool {
        self.timeout(now) == Some(Duration::ZERO)
    }
}
