// Runs of calls that look random, of which `Parser` and the slow parser with a clock answer the same. Clocks step back,
// and calls come a millisecond before and after a limit.
use crate::calls::BOTH;
use crate::cases::LIMITS;
use crate::draws::Draws;
use crate::generated::any_text;
use crate::plain::timed::PlainTimed;
use crate::port::feeder::at;
use hedrugal::Parser;
use std::time::Duration;

struct Run {
    parser: Parser,
    plain: PlainTimed,
    draws: Draws,
    now: u64,
}

impl Run {
    fn new(seed: u64) -> Run {
        let mut draws = Draws::new(seed);
        let dialect = BOTH[usize::from(draws.below(4) == 0)];
        Run {
            parser: Parser::new(dialect),
            plain: PlainTimed::new(dialect),
            draws,
            now: 10_000,
        }
    }

    // Time passes, or the clock steps back.
    fn pass(&mut self) {
        const STEPS: &[u64] = &[
            0, 0, 1, 5, 30, 49, 50, 51, 99, 100, 101, 300, 999, 1000, 5000,
        ];
        let step = STEPS[self.draws.below(STEPS.len())];
        self.now = match self.draws.below(12) {
            0 => self.now.saturating_sub(step),
            _ => self.now + step,
        };
    }

    // The next event, or that there is none.
    fn tell_one(&mut self) -> bool {
        let event = self.plain.next();
        assert_eq!(self.parser.next(), event);
        event.is_some()
    }

    fn feed(&mut self) {
        self.pass();
        let text = any_text(&mut self.draws);
        let piece = &text[self.draws.place_in(&text)..];
        let taken = self.parser.try_feed(at(self.now), piece).is_ok();
        assert_eq!(taken, self.plain.feed(self.now, piece).is_ok());
    }

    // Nothing comes until what is buffered is due, or somewhat longer or less. Returns whether it was due.
    fn wait(&mut self) -> bool {
        if self.draws.below(5) > 0 {
            while self.tell_one() {}
        }
        let left = self.plain.timeout(self.now);
        let timeout = self.parser.timeout(at(self.now));
        assert_eq!(timeout, left.map(Duration::from_millis));
        match left {
            Some(left) => self.now = (self.now + left + self.draws.below(3) as u64) - 1,
            None => self.pass(),
        }
        let was_told = self.plain.waiting().is_some();
        self.parser.idle(at(self.now));
        self.plain.idle(self.now);
        was_told && self.plain.waiting().is_none()
    }

    fn interrupt(&mut self) {
        self.pass();
        let taken = self.parser.interrupted(at(self.now)).is_ok();
        assert_eq!(taken, self.plain.interrupted(self.now).is_ok());
    }

    fn limit(&mut self) {
        let limit = [None, Some(1), Some(50), Some(300), Some(1000)][self.draws.below(5)];
        let (name, field) = LIMITS[self.draws.below(LIMITS.len())];
        let mut policy = self.parser.policy();
        *field(&mut policy) = limit.map(|it| Duration::from_millis(u64::from(it)));
        self.plain.set_limit(name, limit);
        self.parser.set_policy(policy);
    }

    fn set(&mut self) {
        match self.draws.below(6) {
            0 => {
                let limit = [None, Some(1), Some(4), Some(9)][self.draws.below(4)];
                self.parser.set_parts(limit);
                self.plain.set_parts(limit);
            }
            1 => self.limit(),
            2 => {
                let dialect = BOTH[usize::from(self.draws.below(4) == 0)];
                let reading = self.draws.reading(dialect);
                self.parser.set_reading(reading);
                self.plain.set_reading(reading);
            }
            3 => {
                self.parser.expect_position();
                self.plain.expect_position();
            }
            4 => {
                self.parser.forget_positions();
                self.plain.forget_positions();
            }
            _ => assert_eq!(self.parser.skip_paste(), self.plain.skip_paste()),
        }
    }

    // A call. Returns whether something was due.
    fn step(&mut self) -> bool {
        match self.draws.below(24) {
            0..=6 => self.feed(),
            7..=12 => while self.tell_one() {},
            13 => drop(self.tell_one()),
            14..=17 => return self.wait(),
            18 => self.interrupt(),
            19 => {
                self.parser.flush();
                self.plain.flush();
            }
            20 => {
                self.parser.end();
                self.plain.end();
            }
            21 => assert_eq!(self.parser.reset(), self.plain.reset()),
            _ => self.set(),
        }
        false
    }

    fn check(&self) {
        assert_eq!(self.parser.waiting_len(), self.plain.waiting_len());
        assert_eq!(self.parser.reading(), self.plain.reading());
        if let Some(kind) = self.plain.waiting() {
            assert_eq!(self.parser.waiting(), kind);
        }
    }
}

#[test]
fn runs_as_the_slow_parser() {
    let mut due = 0;
    for seed in 0..3000 {
        let mut run = Run::new(seed);
        for _ in 0..40 {
            due += usize::from(run.step());
            run.check();
        }
    }
    assert!(due > 1000, "{due}");
}
