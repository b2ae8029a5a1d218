// The key map: termwiz's own cases, worked examples, and lookups in generated maps against a plain
// map.
mod numbers;

use hedrugal::keymap::Found::{self, Ambiguous, Exact, NeedData};
use hedrugal::keymap::KeyMap;
use numbers::Draws;
use std::collections::BTreeMap;
use std::fmt::Debug;
use std::ops::Bound::{Excluded, Unbounded};
use std::rc::Rc;

// Three keys of which each is a prefix of the next, and one that is apart.
const NESTED: &[(&str, bool)] = &[
    ("boa", false),
    ("boo", false),
    ("boom", true),
    ("boom!!", false),
];

// Inserts the entries, from the first to the last or backwards.
fn filled<'a, Key: AsRef<[u8]> + 'a>(
    entries: impl Iterator<Item = &'a (Key, bool)>,
) -> KeyMap<bool> {
    let mut map = KeyMap::new();
    for (key, value) in entries {
        map.insert(key, *value);
    }
    map
}

// Entries whose keys are all different, in a map, in a clone of it, and in a map into which they were
// inserted in reverse order; and what lookups return: the text, whether more of it may follow, and
// the answer.
fn check<Key: AsRef<[u8]>>(entries: &[(Key, bool)], lookups: &[(Key, bool, Found<bool>)]) {
    let map = filled(entries.iter());
    for map in [&map, &map.clone(), &filled(entries.iter().rev())] {
        for (text, maybe_more, answer) in lookups {
            let (shown, found) = (text.as_ref().escape_ascii(), map.lookup(text, *maybe_more));
            assert_eq!(found, *answer, "{shown} {maybe_more}");
        }
    }
}

#[test]
fn lookup_empty() {
    check(
        &[],
        &[("boo", true, Found::None), ("boo", false, Found::None)],
    );
}

#[test]
fn lookup() {
    check(
        &[("boa", true), ("boo", true), ("boom", false)],
        &[
            ("b", true, NeedData),
            ("bo", true, NeedData),
            ("boa", true, Exact(3, true)),
            ("boo", true, Ambiguous(3, true)),
            ("boom", true, Exact(4, false)),
            ("boom!", true, Exact(4, false)),
        ],
    );
}

#[test]
fn lookup_with_multiple_ambiguous_matches_without_additional_input() {
    check(NESTED, &[("boom!", false, Exact(4, true))]);
}

#[test]
fn lookup_with_multiple_ambiguous_matches_with_potential_additional_input() {
    check(NESTED, &[("boom!", true, Ambiguous(4, true))]);
}

#[test]
fn sequence() {
    check(
        &[("\x03", true), ("\x27", true), ("\x03XYZ", true)],
        &[
            ("\x03", true, Ambiguous(1, true)),
            ("\x03foo", true, Exact(1, true)),
            ("\x03X", true, Ambiguous(1, true)),
        ],
    );
}

#[test]
fn lookup_past_dead_ends() {
    check(
        NESTED,
        &[
            ("bz", true, Found::None),
            ("boom!x", true, Exact(4, true)),
            ("boo", false, Exact(3, false)),
            ("bo", false, NeedData),
            ("", true, NeedData),
        ],
    );
    check(
        &[("boa", true), ("boo", true), ("boom", true)],
        &[("bz", true, Found::None), ("bo", true, NeedData)],
    );
}

#[test]
fn lookup_of_the_empty_key() {
    check(&[], &[("", true, Found::None)]);
    check(&[("", true)], &[("x", true, Exact(0, true))]);
    check(
        &[("", true), ("ab", false)],
        &[
            ("x", true, Exact(0, true)),
            ("", true, Ambiguous(0, true)),
            ("", false, Exact(0, true)),
            ("a", true, Ambiguous(0, true)),
            ("ab", true, Exact(2, false)),
        ],
    );
}

// The first bytes of a text that doesn't repeat before 251 of them.
fn long_text(len: usize) -> Vec<u8> {
    (0..=250).cycle().take(len).collect()
}

#[test]
fn has_a_long_key() {
    let key = long_text(100_000);
    let mut map = KeyMap::new();
    map.insert(&key, 1);
    map.insert(&key[..5000], 2);
    assert_eq!(map.lookup(&key, true), Exact(100_000, 1));
    assert_eq!(map.lookup(&key[..6000], false), Exact(5000, 2));
}

// A key of 300 bytes, and one of 100 bytes that is a prefix of it.
#[test]
fn lookup_of_long_keys() {
    check(
        &[(long_text(300), true), (long_text(100), false)],
        &[
            (long_text(99), true, NeedData),
            (long_text(100), true, Ambiguous(100, false)),
            (long_text(299), true, Ambiguous(100, false)),
            (long_text(300), true, Exact(300, true)),
            (long_text(301), true, Exact(300, true)),
        ],
    );
}

#[test]
fn later_insert_wins() {
    let mut map = KeyMap::new();
    map.insert("ab", 1);
    map.insert("ab", 2);
    assert_eq!(map.lookup("ab", true), Exact(2, 2));
    assert_eq!(map.clone().lookup("ab", true), Exact(2, 2));
}

// Numbers under their two bytes, in the order in which they are inserted.
fn numbered(numbers: impl Iterator<Item = u16>) -> KeyMap<u16> {
    let mut map = KeyMap::new();
    for number in numbers {
        map.insert(number.to_be_bytes(), number);
    }
    map
}

// The map has the numbers below a limit, and no other.
fn check_numbers(map: &KeyMap<u16>, limit: u16) {
    for number in 0..limit {
        let found = map.lookup(number.to_be_bytes(), true);
        assert_eq!(found, Exact(2, number));
    }
    assert_eq!(map.lookup(limit.to_be_bytes(), true), Found::None);
}

#[test]
fn has_many_keys() {
    let map = numbered(0..20_000);
    check_numbers(&map, 20_000);
    check_numbers(&map.clone(), 20_000);
}

// Keys come alternately from both ends of their order, so that each insert is far from the one
// before.
#[test]
fn has_keys_that_were_inserted_far_apart() {
    let numbers = (0..3000).flat_map(|number| [number, 5999 - number]);
    check_numbers(&numbered(numbers), 6000);
}

#[test]
fn accepts_every_form_of_bytes() {
    let mut map = KeyMap::default();
    map.insert("a", 1);
    map.insert(b"b", 2);
    map.insert(vec![b'c', 0, 0xff], 3);
    map.insert(String::from("d"), 4);
    assert_eq!(map.lookup(String::from("a"), false), Exact(1, 1));
    assert_eq!(map.lookup([b'b'], false), Exact(1, 2));
    assert_eq!(map.lookup(b"c\x00\xff", false), Exact(3, 3));
    assert_eq!(map.lookup("d", false), Exact(1, 4));
}

#[test]
fn shows_its_entries() {
    let mut map = KeyMap::new();
    assert_eq!(format!("{map:?}"), "{}");
    map.insert(b"\x1b[\"\xff", Some("x"));
    map.insert("", None);
    map.insert(b"\x1b[\"\xff", Some("y"));
    let wanted = r#"{b"\x1b[\"\xff": Some("y"), b"": None}"#;
    assert_eq!(format!("{map:?}"), wanted);
}

// A map is read by two threads at once, and moved to a third.
#[test]
fn is_shared_between_threads() {
    fn is_shared<T: Send + Sync + std::panic::UnwindSafe + std::panic::RefUnwindSafe>(_: &T) {}
    let map = filled(NESTED.iter());
    is_shared(&map);
    std::thread::scope(|scope| {
        for _ in 0..2 {
            scope.spawn(|| {
                (0..1000).for_each(|_| assert_eq!(map.lookup("boom!", true), Ambiguous(4, true)))
            });
        }
    });
    let moved = std::thread::spawn(move || map.lookup("boa", true)).join();
    assert_eq!(moved.ok(), Some(Exact(3, false)));
}

impl Draws {
    // Up to `len` of these bytes.
    fn bytes(&mut self, len: usize, of: &[u8]) -> Vec<u8> {
        (0..self.below(len + 1)).map(|_| *self.one_of(of)).collect()
    }

    // A text of at most six bytes, of three different ones.
    fn letters(&mut self) -> Vec<u8> {
        self.bytes(6, b"abc")
    }

    // A text that begins as all of its kind do, and goes on with at most three of four bytes.
    fn nested(&mut self) -> Vec<u8> {
        [
            &b"a common beginning"[..self.below(19)],
            &self.bytes(3, b"\x00\x01\xfe\xff"),
        ]
        .concat()
    }

    // Five bytes, of which the last three are any of four.
    fn five(&mut self) -> Vec<u8> {
        let last = [(); 3].map(|()| b"\x00\x01\xfe\xff"[self.below(4)]);
        [&b"\x00\xff"[..], &last].concat()
    }

    // A text of some 300 bytes.
    fn long(&mut self) -> Vec<u8> {
        [long_text(298 + self.below(4)), self.bytes(2, b"\x00\xff")].concat()
    }

    // A text of any of these kinds but the third.
    fn text(&mut self) -> Vec<u8> {
        match self.below(8) {
            0..=3 => self.letters(),
            4..=6 => self.nested(),
            _ => self.long(),
        }
    }
}

// Draws a text of one kind.
type Kind = fn(&mut Draws) -> Vec<u8>;

// A lookup by the rule itself: the longest key that is a prefix of the text, and whether the text
// is a prefix of a longer key.
fn plain_lookup(map: &BTreeMap<Vec<u8>, u32>, text: &[u8], maybe_more: bool) -> Found<u32> {
    let longest = (0..=text.len())
        .rev()
        .find_map(|len| map.get(&text[..len]).map(|value| (len, *value)));
    let mut later = map.range::<[u8], _>((Excluded(text), Unbounded));
    let is_extended = later.next().is_some_and(|(key, _)| key.starts_with(text));
    match longest {
        Some((len, value)) if is_extended && maybe_more => Ambiguous(len, value),
        Some((len, value)) => Exact(len, value),
        None if is_extended => NeedData,
        None => Found::None,
    }
}

// A value that is counted: the token has one owner more for each value that isn't dropped.
#[derive(Debug, Clone)]
struct Counted(u32, #[allow(dead_code)] Rc<()>);

// The number in an answer.
fn number(found: Found<Counted>) -> Found<u32> {
    match found {
        Found::None => Found::None,
        Exact(len, value) => Exact(len, value.0),
        Ambiguous(len, value) => Ambiguous(len, value.0),
        NeedData => NeedData,
    }
}

// The plain map with what is inserted into a map, the token of that map's values, and how many
// answers were of each kind.
#[derive(Default)]
struct Plain {
    token: Rc<()>,
    map: BTreeMap<Vec<u8>, u32>,
    answers: [usize; 4],
}

impl Plain {
    fn counted(&self, value: u32) -> Counted {
        Counted(value, Rc::clone(&self.token))
    }

    fn insert(&mut self, map: &mut KeyMap<Counted>, key: Vec<u8>, value: u32) {
        map.insert(&key, self.counted(value));
        self.map.insert(key, value);
        assert_eq!(Rc::strong_count(&self.token), 1 + self.map.len());
    }

    // Looks a text up in both.
    fn check_text(&mut self, map: &KeyMap<Counted>, text: &[u8], maybe_more: bool) {
        let answer = plain_lookup(&self.map, text, maybe_more);
        self.answers[place_of(&answer)] += 1;
        let shown = text.escape_ascii();
        let found = number(map.lookup(text, maybe_more));
        assert_eq!(found, answer, "{shown} {maybe_more}");
    }

    // Looks texts of a kind up in both.
    fn check(&mut self, map: &KeyMap<Counted>, draws: &mut Draws, kind: Kind, count: usize) {
        for _ in 0..count {
            let text = kind(draws);
            self.check_text(map, &text, draws.below(2) == 0);
        }
    }
}

// The place of an answer's kind among the counts.
fn place_of(found: &Found<u32>) -> usize {
    match found {
        Found::None => 0,
        Exact(..) => 1,
        Ambiguous(..) => 2,
        NeedData => 3,
    }
}

// Inserts a hundred keys of a kind, some of them several times, and looks texts up after each.
fn grown(plain: &mut Plain, draws: &mut Draws, kind: Kind, has_empty: bool) -> KeyMap<Counted> {
    let mut map = KeyMap::new();
    for value in 0..100 {
        let key = kind(draws);
        if has_empty || !key.is_empty() {
            plain.insert(&mut map, key, value);
        }
        plain.check(&map, draws, kind, 10);
    }
    map
}

// A clone has the same entries, and doesn't see what is inserted into the other map.
fn check_clone(mut map: KeyMap<Counted>, plain: &mut Plain, draws: &mut Draws, kind: Kind) {
    let copy = map.clone();
    assert_eq!(Rc::strong_count(&plain.token), 1 + 2 * plain.map.len());
    map.insert("", plain.counted(100));
    map.insert("a new key", plain.counted(101));
    plain.check(&copy, draws, kind, 100);
    assert_ne!(number(copy.lookup("", false)), Exact(0, 100));
    assert_eq!(number(map.lookup("a new key", false)), Exact(9, 101));
    drop(map);
    plain.check(&copy, draws, kind, 100);
}

// Every second map has no empty key, which is a prefix of each text. tests/test_rattle.py draws such
// texts for a map that remembers ranges.
#[test]
fn agrees_with_a_plain_map() {
    let (mut draws, mut answers) = (Draws::new(1), [0; 4]);
    for (kind, rounds) in [
        (Draws::text as Kind, 30),
        (Draws::letters, 8),
        (Draws::nested, 8),
        (Draws::five, 8),
        (Draws::long, 2),
    ] {
        for round in 0..rounds {
            let mut plain = Plain::default();
            let map = grown(&mut plain, &mut draws, kind, round % 2 == 0);
            assert!((20..100).contains(&plain.map.len()), "{}", plain.map.len());
            check_clone(map, &mut plain, &mut draws, kind);
            assert_eq!(Rc::strong_count(&plain.token), 1);
            for (sum, count) in answers.iter_mut().zip(plain.answers) {
                *sum += count;
            }
        }
    }
    assert!(answers.iter().all(|count| *count > 500), "{answers:?}");
}

// Decimal numbers are inserted in reverse order. They are looked up without their last byte, and
// with a byte after it.
#[test]
fn agrees_with_a_plain_map_on_decimal_numbers() {
    let (mut plain, mut map) = (Plain::default(), KeyMap::new());
    for value in 0..300 {
        plain.insert(&mut map, format!("#{}~", 299 - value).into_bytes(), value);
    }
    for map in [&map, &map.clone()] {
        for number in 0..310 {
            for text in [format!("#{number}"), format!("#{number}~#")] {
                plain.check_text(map, text.as_bytes(), true);
                plain.check_text(map, text.as_bytes(), false);
            }
        }
    }
}

// A type without bytes, a large one, and one that owns memory.
#[test]
fn has_values_of_every_type() {
    fn check<Value: Debug + Clone + PartialEq>(value: Value) {
        let mut map = KeyMap::new();
        map.insert("a", value.clone());
        assert_eq!(map.lookup("a", true), Exact(1, value));
    }
    check(());
    check([u64::MAX; 100]);
    check(vec![String::from("text")]);
}
