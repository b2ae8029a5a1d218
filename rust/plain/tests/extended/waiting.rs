// What stays buffered, and what a flush, time and a reset do with it.
use crate::calls::{parser_by, Calls};
use crate::cases::{each_rest, limit_named, LIMITS};
use crate::lines::lines;
use crate::plain::timed;
use crate::port::feeder::at;
use hedrugal::{Dialect, Parser, Policy, Waiting};
use std::time::Duration;

fn check_rest(parser: &Parser, rest: &[u8], kind: Waiting) {
    let waiting = (parser.waiting_len(), parser.waiting());
    assert_eq!(waiting, (rest.len(), kind), "{}", rest.escape_ascii());
    assert_eq!(parser.is_paste_open(), kind == Waiting::Paste);
}

// Calls with a parser, and each text that stays buffered in it and its kind.
fn for_each_rest(check: impl Fn(&mut Parser, &[u8], Waiting)) {
    each_rest(|reading, rest| {
        let mut parser = parser_by(reading);
        assert_eq!(parser.read(rest, true), []);
        let kind = parser.waiting();
        check_rest(&parser, rest, kind);
        check(&mut parser, rest, kind);
    });
}

#[test]
fn tells_kinds() {
    for_each_rest(|parser, rest, kind| {
        let reading = parser.reading();
        assert_eq!((parser.reset(), parser.reset()), (rest.len(), 0));
        check_rest(parser, b"", Waiting::Nothing);
        parser.set_reading(reading);
        for byte in rest.chunks(1) {
            assert_eq!(parser.read(byte, true), []);
        }
        check_rest(parser, rest, kind);
        parser.reset();
        assert_eq!(lines(&parser.read(b"q", true)), "key U+0071 NONE");
    });
}

#[test]
fn flushes() {
    for_each_rest(|parser, rest, kind| {
        let events = parser.read(b"", false);
        match kind {
            Waiting::Nothing => assert_eq!(events, []),
            Waiting::Paste => check_rest(parser, rest, Waiting::Paste),
            _ => {
                assert_ne!(events, []);
                check_rest(parser, b"", Waiting::Nothing);
            }
        }
    });
}

// A policy of different limits.
pub fn different_limits() -> Policy {
    let mut policy = Policy::usual();
    for (number, (_, field)) in (1..).zip(LIMITS) {
        *field(&mut policy) = Some(Duration::from_millis(10 * number));
    }
    policy
}

// How long a rest of this kind may wait.
fn limit_of(mut policy: Policy, rest: &[u8], kind: Waiting) -> Option<Duration> {
    let name = timed::limit_of(kind, rest.len())?;
    let more = if name == "string" { rest.len() } else { 0 };
    let limit = *limit_named(name)(&mut policy);
    limit.map(|limit| limit + Duration::from_millis(more as u64))
}

// A rest is flushed, or an open paste ended, when its limit has passed, and not before.
#[test]
fn is_due_by_each_limit() {
    for policy in [Policy::usual(), different_limits()] {
        for_each_rest(|ended, rest, kind| {
            let mut parser = Parser::new(Dialect::Extended);
            parser.set_reading(ended.reading());
            ended.end();
            parser.set_policy(policy);
            assert_eq!(parser.policy(), policy);
            parser.feed(at(7), rest);
            assert_eq!(parser.timeout(at(7)), Some(Duration::ZERO));
            assert_eq!(parser.next(), None);
            let limit = limit_of(policy, rest, kind);
            assert_eq!(parser.timeout(at(7)), limit, "{}", rest.escape_ascii());
            parser.idle(at(6) + limit.unwrap_or(Duration::from_secs(1 << 30)));
            assert_eq!(parser.next(), None);
            check_rest(&parser, rest, kind);
            if let Some(limit) = limit {
                parser.idle(at(7) + limit);
                assert!(parser.by_ref().eq(ended));
                assert_eq!(parser.timeout(at(7) + limit), None);
                check_rest(&parser, b"", Waiting::Nothing);
            }
        });
    }
}

// Of a limit whole milliseconds count: at least one, and at most so many.
#[test]
fn rounds_limits() {
    const MOST: u64 = 2_147_418_111;
    let mut parser = Parser::new(Dialect::Extended);
    assert_eq!(parser.read(b"\x1b", true), []);
    for (limit, wanted) in [
        (Duration::ZERO, 1),
        (Duration::from_micros(999), 1),
        (Duration::from_micros(1999), 1),
        (Duration::from_millis(MOST), MOST),
        (Duration::from_millis(MOST + 1), MOST),
        (Duration::MAX, MOST),
    ] {
        let escape = Some(limit);
        parser.set_policy(Policy {
            escape,
            ..Policy::usual()
        });
        assert_eq!(parser.timeout(at(0)), Some(Duration::from_millis(wanted)));
    }
}
