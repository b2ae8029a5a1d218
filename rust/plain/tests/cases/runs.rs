// Calls that follow one another, at times.
use super::events::{Call, Models};
use super::{each_case, reading, sides};
use crate::calls::{begin, taken, CALLS};
use crate::lines::{lines, unquoted};
use crate::port::feeder::at;
use hedrugal::{Dialect, FeedError, Parser, Policy, Reading};
use std::mem::take;
use std::time::Duration;

// By how many milliseconds each step of a run is later when it is made again.
const LATER: u64 = 1_000_000;

// A limit of a policy.
pub type Field = fn(&mut Policy) -> &mut Option<Duration>;

// The limits by their names.
pub const LIMITS: &[(&str, Field)] = &[
    // hedrugal.h: rust limits
    ("escape", |it| &mut it.escape),
    ("alt_key", |it| &mut it.alt_key),
    ("sequence", |it| &mut it.sequence),
    ("string", |it| &mut it.string),
    ("character", |it| &mut it.character),
    ("paste", |it| &mut it.paste),
    // hedrugal.h: end
];

pub fn limit_named(name: &str) -> Field {
    let row = LIMITS.iter().find(|(it, _)| *it == name);
    row.unwrap_or_else(|| panic!("{name} is no limit")).1
}

// The words of a call, and what is told after it.
struct Step<'a>(Vec<&'a str>, Option<&'a str>);

impl Step<'_> {
    fn new(step: &str) -> Step<'_> {
        let (call, told) = match step.split_once(": ") {
            Some((call, told)) => (call, Some(told)),
            None => (step, None),
        };
        Step(call.split(' ').collect(), told)
    }
}

// A run, and how it is made.
struct Run<'a> {
    reading: Reading,
    limits: Vec<&'a str>,
    steps: Vec<Step<'a>>,
}

// By which call events are taken, and how what comes is cut: what is before a place in pieces of a
// size, and the rest.
#[derive(Debug, Clone, Copy)]
struct Way {
    call: usize,
    place: usize,
    size: usize,
}

// Sets a limit, as `escape=25`, `paste=-1` or `parts=4`.
fn set_limit(parser: &mut Parser, word: &str) {
    let (name, number) = word.split_once('=').expect("a limit has a number");
    if name == "parts" {
        parser.set_parts(Some(number.parse().expect("a number of bytes")));
        return;
    }
    let (mut policy, field) = (parser.policy(), limit_named(name));
    *field(&mut policy) = match number {
        "-1" => None,
        _ => Some(Duration::from_millis(number.parse().expect("milliseconds"))),
    };
    parser.set_policy(policy);
}

// What a parser tells of a step, whose times are counted from a time.
fn made(parser: &mut Parser, from: u64, way: Way, Step(words, told): &Step) -> String {
    let time = |word: &str| at(from.saturating_add(word.parse().expect("a time")));
    let busy = told == &Some("busy");
    let mut events = Vec::new();
    match (&words[..], told) {
        (["feed", now, bytes], _) if busy => {
            let fed = parser.try_feed(time(now), &unquoted(bytes));
            assert_eq!(fed, Err(FeedError::Busy));
        }
        (["feed", now, bytes], _) => {
            let bytes = unquoted(bytes);
            let (front, last) = bytes.split_at(way.place.min(bytes.len().saturating_sub(1)));
            for piece in front.chunks(way.size).chain([last]) {
                assert_eq!(parser.try_feed(time(now), piece), Ok(()));
                if told.is_some() {
                    events.extend(taken(way.call, parser));
                }
            }
        }
        (["interrupted", now], _) => {
            let wanted = if busy { Err(FeedError::Busy) } else { Ok(()) };
            assert_eq!(parser.interrupted(time(now)), wanted);
        }
        (["idle", now], _) => parser.idle(time(now)),
        (["flush"], _) => parser.flush(),
        (["end"], _) => parser.end(),
        (["next"], Some(_)) => (),
        (["timeout", now], Some(_)) => {
            let left = parser.timeout(time(now));
            return left.map_or("forever".to_string(), |it| it.as_millis().to_string());
        }
        (["waiting"], Some(_)) => {
            let kind = format!("{:?}", parser.waiting()).to_lowercase();
            return format!("{kind} {}", parser.waiting_len());
        }
        (["skip"], Some(_)) => {
            let skipped = parser.skip_paste();
            return skipped.map_or("none".to_string(), |it| it.to_string());
        }
        (["reset"], Some(_)) => return parser.reset().to_string(),
        (["policy", limits @ ..], None) => limits.iter().for_each(|it| set_limit(parser, it)),
        (["expect", count], None) => {
            let count: usize = count.parse().expect("a count");
            (0..count).for_each(|_| parser.expect_position());
        }
        (["forget"], None) => parser.forget_positions(),
        (["set", by], None) => parser.set_reading(reading(by)),
        (["reading"], Some(by)) => {
            assert_eq!(parser.reading(), reading(by));
            return by.to_string();
        }
        _ => panic!("{words:?} is no step"),
    }
    if busy {
        return "busy".to_string();
    }
    if told.is_some() {
        events.extend(taken(way.call, parser));
    }
    lines(&events)
}

impl Run<'_> {
    fn new(line: &str) -> Run<'_> {
        let (given, steps) = sides(line);
        let mut words = given.split(' ');
        Run {
            reading: reading(words.next().expect("a reading")),
            limits: words.collect(),
            steps: steps.split(" | ").map(Step::new).collect(),
        }
    }

    // Makes the run, with times from this one on.
    fn make(&self, parser: &mut Parser, from: u64, way: Way) {
        begin(parser, self.reading);
        // A new parser has the library's own limits.
        if parser.policy() != Policy::usual() {
            parser.set_policy(Policy::usual());
        }
        parser.set_parts(None);
        for limit in &self.limits {
            set_limit(parser, limit);
        }
        for (number, step) in (1..).zip(&self.steps) {
            let told = made(parser, from, way, step);
            assert_eq!(told, step.1.unwrap_or("nothing"), "step {number}, {way:?}");
        }
    }

    // The ways to make the run: by each call whole, and cut at each place.
    fn ways(&self) -> Vec<Way> {
        let whole = (0..CALLS).map(|call| (call, 0, 1));
        let cuts = (1..self.longest()).flat_map(|place| [(0, place, 1), (0, place, place)]);
        let ways = whole.chain(cuts);
        ways.map(|(call, place, size)| Way { call, place, size })
            .collect()
    }

    // The length of the longest text that comes at once. Parts of a paste come by how it is cut.
    fn longest(&self) -> usize {
        if self.limits.iter().any(|it| it.starts_with("parts=")) {
            return 0;
        }
        let texts = self.steps.iter().filter_map(|Step(words, _)| words.get(2));
        texts.map(|it| unquoted(it).len()).max().unwrap_or(0)
    }

    // The calls of a run that has no others than `feed` and `flush`, at one time.
    fn calls(&self) -> Option<Vec<Call>> {
        let (mut calls, mut came) = (Vec::new(), Vec::new());
        for Step(words, told) in &self.steps {
            match (&words[..], told) {
                (["feed", "0", bytes], told) if told != &Some("busy") => {
                    came.extend(unquoted(bytes));
                    if told.is_some() {
                        calls.push((take(&mut came), true));
                    }
                }
                (["flush"], Some(_)) => calls.push((take(&mut came), false)),
                (["waiting"], _) => (),
                _ => return None,
            }
        }
        Some(calls)
    }
}

// `READING LIMITS = STEP | STEP | ..`.
pub fn check() -> impl FnMut(&str) {
    let mut models = Models::new();
    move |line| {
        let mut parser = Parser::new(Dialect::Extended);
        let run = Run::new(line);
        for (number, way) in (0..).zip(run.ways()) {
            run.make(&mut parser, number * LATER, way);
        }
        if let Some(mut calls) = run.calls() {
            models.check(run.reading, &calls);
            if let Some((_, more)) = calls.last_mut() {
                *more = false;
                models.check(run.reading, &calls);
            }
        }
    }
}

// Calls with each text that stays buffered whole, of the runs that tell no more.
pub fn each_rest(mut check: impl FnMut(Reading, &[u8])) {
    each_case("runs.txt", |line| {
        let run = Run::new(line);
        if let [Step(feed, Some("nothing")), Step(waiting, Some(_))] = &run.steps[..] {
            if let (["feed", "0", bytes], ["waiting"]) = (&feed[..], &waiting[..]) {
                check(run.reading, &unquoted(bytes));
            }
        }
    });
}
