//! What presses do by the bindings, and the pause that ends a chord.
use crate::commands::Command;
use hedrugal::{Age, Bindings, Chord, KeyPress, Matcher, Outcome, Seen, Timer};
use std::iter;
use std::time::{Duration, Instant};

/// How long a chord waits for its next key.
const PAUSE: Duration = Duration::from_secs(1);

pub struct Chords {
    bindings: Bindings<Command>,
    matcher: Matcher,
    timer: Timer,
}

impl Chords {
    pub fn new(bindings: Bindings<Command>) -> Chords {
        Chords {
            bindings,
            matcher: Matcher::new(),
            timer: Timer::new(),
        }
    }

    /// Returns the first chord of a command.
    pub fn of(&self, command: Command) -> Option<Chord> {
        let mut bound = self.bindings.iter();
        bound
            .find(|(_, it)| **it == command)
            .map(|(chord, _)| chord)
    }

    /// Returns what is decided by a key, of which the second press may lead on where the first
    /// doesn't.
    pub fn press(&mut self, first: KeyPress, second: Option<KeyPress>) -> Vec<Outcome<&Command>> {
        let is_pending = self.matcher.press_either(&self.bindings, first, second);
        assert!(is_pending, "what was decided before was taken");
        self.take(true)
    }

    /// Decides all that is pending.
    pub fn give_up(&mut self) -> Vec<Outcome<&Command>> {
        self.take(false)
    }

    /// Takes what is decided, and tells the timer. More may come behind a press alone.
    fn take(&mut self, is_press: bool) -> Vec<Outcome<&Command>> {
        let next = || self.matcher.next(&self.bindings, is_press);
        let outcomes: Vec<_> = iter::from_fn(next).collect();
        let empty = self.matcher.pending().is_empty();
        let seen = Seen {
            limit: (!empty).then_some(PAUSE),
            by: Age::Last,
            fed: is_press,
            taken: !outcomes.is_empty(),
            empty,
        };
        self.timer.note(Instant::now(), seen);
        outcomes
    }

    /// Returns how long what is pending may still wait.
    pub fn timeout(&self, now: Instant) -> Option<Duration> {
        self.timer.timeout(now)
    }

    /// Returns a line of what is pending, if anything is, and one for each chord that continues it.
    pub fn menu(&self) -> Vec<String> {
        let pending = self.matcher.pending();
        if pending.is_empty() {
            return Vec::new();
        }
        let continued = |(chord, command): (Chord, &Command)| {
            let rest = chord.iter().skip(pending.len());
            let names: Vec<_> = rest.map(|press| press.to_string()).collect();
            format!("  {}  {command}", names.join(" "))
        };
        let continuations = self.bindings.continuations(&pending).map(continued);
        iter::once(format!("pending: {pending}"))
            .chain(continuations)
            .collect()
    }
}
