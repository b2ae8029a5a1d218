// A timer for a limit of a program's own, against a plain one.
use crate::draws::Draws;
use crate::feeder::at;
use crate::plain::PlainReader;
use hedrugal::{Age, Seen, Timer};
use std::time::{Duration, Instant};

// The letters of `what` say whether something was fed or taken, and whether nothing is pending.
fn seen(limit: Option<u64>, by: Age, what: &str) -> Seen {
    Seen {
        limit: limit.map(Duration::from_millis),
        by,
        fed: what.contains('f'),
        taken: what.contains('t'),
        empty: what.contains('e'),
    }
}

fn left(timer: &Timer, now: Instant) -> Option<u128> {
    let left = timer.timeout(now);
    assert_eq!(timer.is_due(now), left == Some(Duration::ZERO));
    left.map(|left| left.as_millis())
}

#[test]
fn takes_any_instant() {
    let (mut timer, start) = (Timer::new(), Instant::now());
    timer.note(start, seen(Some(1000), Age::Last, "f"));
    let long = Duration::from_secs(1 << 54); // more than 2^63 ms
    for now in [start.checked_sub(long), start.checked_add(long)] {
        let wanted = now.map(|now| u128::from(now < start) * 1000);
        assert_eq!(now.and_then(|now| left(&timer, now)), wanted);
    }
}

// When something was fed last, and when the first of what is pending came to the front.
struct PlainTimer {
    fed: u64,
    front: u64,
    seen: Seen,
}

impl PlainTimer {
    fn note(&mut self, now: u64, seen: Seen) {
        if seen.fed {
            self.fed = now;
        }
        if seen.taken || self.seen.empty {
            self.front = now;
        }
        self.seen = seen;
    }

    fn left(&self, now: u64) -> Option<u128> {
        let since = match self.seen.by {
            Age::Last => self.fed,
            Age::Front => self.front,
        };
        let limit = self.seen.limit?.as_millis();
        Some(limit.saturating_sub(u128::from(now - since)))
    }
}

fn draw_seen(draws: &mut Draws) -> Seen {
    let limit = [None, Some(0), Some(1), Some(50), Some(1000), Some(60000)][draws.below(6)];
    let by = [Age::Last, Age::Front][draws.below(2)];
    let what = ["", "f", "t", "ft", "e", "fe", "te", "fte"][draws.below(8)];
    seen(limit, by, what)
}

#[test]
fn agrees_with_a_plain_timer() {
    let mut draws = Draws::new(7, &PlainReader::new());
    for start in 0..200 {
        let mut now = start;
        let first = draw_seen(&mut draws);
        let mut timer = Timer::new();
        timer.note(at(now), first);
        let (fed, front) = (now, now);
        let mut plain = PlainTimer {
            fed,
            front,
            seen: first,
        };
        for _ in 0..100 {
            assert_eq!(left(&timer, at(now)), plain.left(now));
            now += draws.below(1500) as u64 >> draws.below(11);
            assert_eq!(left(&timer, at(now)), plain.left(now));
            let seen = draw_seen(&mut draws);
            timer.note(at(now), seen);
            plain.note(now, seen);
        }
    }
}

// A timer is a value, whose copy knows what it knew.
#[test]
fn is_a_value() {
    let mut timer = Timer::new();
    assert_eq!(timer, Timer::default());
    timer.note(at(10), seen(Some(50), Age::Last, "f"));
    let copy = timer;
    assert_ne!(copy, Timer::new());
    timer.note(at(30), seen(None, Age::Last, "e"));
    assert_eq!(left(&copy, at(30)), Some(30));
    assert_eq!(left(&timer, at(30)), None);
}

// Whole milliseconds of a limit count, up to the most that the library has.
#[test]
fn limits_are_milliseconds() {
    let most = u128::from(i32::MAX.unsigned_abs());
    for (limit, wanted) in [
        (Duration::from_micros(1999), 1),
        (Duration::from_secs(1 << 40), most),
        (Duration::MAX, most),
    ] {
        let mut timer = Timer::new();
        let seen = Seen {
            limit: Some(limit),
            ..Seen::default()
        };
        timer.note(at(0), seen);
        assert_eq!(left(&timer, at(0)), Some(wanted));
    }
}
