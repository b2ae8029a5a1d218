// Bindings of chords, and matchers.
use crate::cases::sides;
use crate::draws::Draws;
use crate::plain::chords::{chord, either, is_continued, is_dead_end, read, Chords};
use hedrugal::{BindError, BindErrorKind, Bindings, Chord, KeyPress, Matcher, Outcome};
use std::collections::BTreeMap;
use std::iter;
use std::rc::Rc;
use std::thread;

fn read_chord(text: &str) -> Chord {
    text.parse().unwrap()
}

// The values 1, 2 .. of chords that are parted by commas, or of `nothing`.
fn numbered(texts: &str) -> Bindings<usize> {
    let texts = texts.split(", ").filter(|it| *it != "nothing");
    texts.map(read_chord).zip(1..).collect()
}

// What a matcher tells in one word: a value, or `?` and the press.
fn told(outcome: Outcome<&usize>) -> String {
    match outcome {
        Outcome::Bound { value, .. } => value.to_string(),
        Outcome::Unbound(press) => format!("?{press}"),
    }
}

// `CHORD, CHORD ..: WORD WORD .. = OUTCOME, OUTCOME .. | PENDING`.
pub fn check_commands(line: &str) {
    let (given, wanted) = sides(line);
    let (chords, words) = given.split_once(": ").expect("chords and words");
    let (mut bindings, mut matcher) = (numbered(chords), Matcher::new());
    let (is_cancelled, mut all) = (words.ends_with("CANCEL"), Vec::new());
    for word in words.split(' ') {
        match (word, word.split_once('/')) {
            ("PAUSE", _) => {
                let first = matcher.on_pause(&bindings).map(told);
                let given: Vec<String> = matcher.give_up(&bindings).map(told).collect();
                assert_eq!(first.as_ref(), given.first());
                all.extend(given);
            }
            ("CANCEL", _) => {
                assert!(matcher.is_dead_end(&bindings));
                all.push(format!("cancelled {}", matcher.cancel()));
            }
            ("UNBIND", _) => {
                let first = chords.split(", ").next().map(read_chord).unwrap();
                assert!(bindings.unbind(&first).is_some());
            }
            (_, Some((key, second))) => {
                let [key, second] = [key, second].map(|it| it.parse().unwrap());
                assert!(matcher.press_either(&bindings, key, Some(second)));
            }
            _ if is_cancelled => assert!(matcher.press(word.parse().unwrap())),
            _ => {
                let press = word.parse().unwrap();
                all.extend(matcher.press_all(press, &bindings).map(told));
            }
        }
        if !is_cancelled {
            all.extend(iter::from_fn(|| matcher.next(&bindings, true).map(told)));
        }
    }
    let line = format!("{} | {}", all.join(", "), matcher.pending());
    assert_eq!(line, wanted.replace("nothing", ""));
}

#[test]
fn values_are_of_any_type() {
    let (first, second) = (Rc::new("first"), Rc::new("second"));
    let mut bindings = Bindings::new();
    let keys = read_chord("g g");
    assert_eq!(bindings.try_bind(&keys, Rc::clone(&first)), Ok(()));
    bindings.bind(&keys, Rc::clone(&second));
    assert_eq!((Rc::strong_count(&first), bindings.len()), (1, 1));
    let copy = bindings.clone();
    assert_eq!(Rc::strong_count(&second), 3);
    assert_eq!(bindings.unbind(&keys), Some(Rc::clone(&second)));
    assert!(bindings.is_empty() && bindings.lookup(&keys).is_none());
    assert_eq!(copy.lookup(&keys), Some(&second));
    drop((bindings, copy));
    assert_eq!(Rc::strong_count(&second), 1);
}

#[test]
fn a_chord_without_keys_is_refused() {
    let mut bindings = numbered("a, b");
    let (kind, value) = (BindErrorKind::Empty, 3);
    let bound = bindings.try_bind(&Chord::new(), value);
    assert_eq!(bound, Err(BindError { kind, value }));
    assert_eq!(format!("{bindings:?}"), r#"{"a": 1, "b": 2}"#);
    assert_eq!(bindings.lookup(&Chord::new()), None);
    assert_eq!(bindings.unbind(&Chord::new()), None);
}

#[test]
fn a_full_matcher_refuses() {
    let bindings = numbered("b");
    let mut matcher = Matcher::new();
    let a = "a".parse().unwrap();
    while matcher.press(a) {}
    assert_eq!(matcher.pending().len(), Chord::MAX_KEYS);
    assert!(!matcher.press_either(&bindings, a, None));
    assert_eq!(matcher.give_up(&bindings).count(), Chord::MAX_KEYS);
    assert_eq!(matcher.cancel(), Chord::new());
    assert_eq!(matcher.on_pause(&bindings), None);
}

#[test]
fn threads_share_bindings() {
    let bindings = numbered("a, b, a b");
    thread::scope(|scope| {
        for _ in 0..4 {
            scope.spawn(|| {
                let mut matcher = Matcher::new();
                for _ in 0..200 {
                    let keys = read_chord("a b b");
                    let all = keys.into_iter().flat_map(|key| {
                        let outcomes = matcher.press_all(key, &bindings);
                        outcomes.map(told).collect::<Vec<_>>()
                    });
                    assert_eq!(all.collect::<Vec<_>>(), ["3", "2"]);
                }
            });
        }
    });
}

#[test]
fn binds_20000_chords() {
    let all = '\u{4e00}'..'\u{9c20}';
    let bindings: Bindings<char> = all.map(|it| (read_chord(&it.to_string()), it)).collect();
    assert_eq!(bindings.len(), 20_000);
}

// A drawn list of presses, of few different keys.
fn drawn_presses(draws: &mut Draws, most: usize) -> Vec<KeyPress> {
    let keys = ["a", "b", "ctrl+a", "up"].map(|name| name.parse().unwrap());
    let count = 1 + draws.below(most);
    (0..count).map(|_| keys[draws.below(keys.len())]).collect()
}

// A thousand lists of drawn chords are bound, listed, read by and unbound, as a slow matcher does it.
#[test]
fn drawn_chords_are_as_the_slow_matcher_says() {
    let mut draws = Draws::new(17);
    for _ in 0..1000 {
        let mut bindings = Bindings::new();
        let mut map: BTreeMap<Chord, usize> = BTreeMap::new();
        for value in 0..draws.below(12) {
            let keys = chord(&drawn_presses(&mut draws, 4));
            bindings.bind(&keys, value);
            map.insert(keys, value);
            if draws.below(4) == 0 {
                let keys = chord(&drawn_presses(&mut draws, 2));
                assert_eq!(bindings.unbind(&keys), map.remove(&keys));
            }
        }
        let entries = || map.iter().map(|(it, value)| (*it, value));
        assert!(bindings.iter().eq(entries()), "{bindings:?} {map:?}");
        assert!(bindings.iter().rev().eq(entries().rev()));
        assert_eq!(bindings.len(), map.len());
        let chords = entries().map(|(it, value)| (it.iter().collect(), *value));
        let chords: Chords = chords.collect();
        compare(&mut draws, &bindings, &chords);
    }
}

fn compare(draws: &mut Draws, bindings: &Bindings<usize>, chords: &Chords) {
    let (mut matcher, mut pending) = (Matcher::new(), Vec::new());
    for first in drawn_presses(draws, 12) {
        let second = drawn_presses(draws, 1)[0];
        let mut press = first;
        if draws.below(2) == 0 {
            press = either(chords, &pending, first, second);
            assert!(matcher.press_either(bindings, first, Some(second)));
        } else {
            assert!(matcher.press(first));
        }
        pending.push(press);
        let begins = |it: &[KeyPress]| it.starts_with(&pending) && *it != pending;
        let longer = bindings.continuations(&chord(&pending)).count();
        assert_eq!(longer > 0, is_continued(chords, &pending));
        assert_eq!(longer, chords.iter().filter(|(it, _)| begins(it)).count());
        assert_eq!(matcher.is_dead_end(bindings), is_dead_end(chords, &pending));
        let more = draws.below(5) > 0;
        let (first, _) = read(chords, &pending, false);
        assert_eq!(matcher.on_pause(bindings), first.first().map(lent));
        let (wanted, left) = read(chords, &pending, more);
        let outcomes: Vec<_> = iter::from_fn(|| matcher.next(bindings, more)).collect();
        assert_eq!(outcomes, wanted.iter().map(lent).collect::<Vec<_>>());
        assert_eq!(matcher.pending(), chord(&left));
        pending = left;
    }
    assert_eq!(matcher.clone().cancel(), chord(&pending));
    let given: Vec<_> = matcher.give_up(bindings).collect();
    let (wanted, _) = read(chords, &pending, false);
    assert_eq!(given, wanted.iter().map(lent).collect::<Vec<_>>());
}

fn lent(outcome: &Outcome<usize>) -> Outcome<&usize> {
    match outcome {
        Outcome::Bound { keys, value } => Outcome::Bound { keys: *keys, value },
        Outcome::Unbound(press) => Outcome::Unbound(*press),
    }
}
