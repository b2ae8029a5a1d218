// The sets of flags.
use crate::names::{BUTTONS, MODIFIERS};
use hedrugal::input::{KittyKeyboardFlags, Modifiers, MouseButtons};
use std::collections::BTreeSet;

// Tries the operations of a type on every pair of sets of at most two flags. A model of a set is
// the set of its bits' places.
macro_rules! tries_pairs {
    ($test:ident, $name:ident: $bits:ty, $places:expr) => {
        #[test]
        fn $test() {
            let flags: Vec<u32> = $places.collect();
            let set_of = |model: &BTreeSet<u32>| {
                let bits = model.iter().map(|place| (1 as $bits) << place).sum();
                $name::from_bits(bits).expect("each place has a flag")
            };
            let changed = |before: &BTreeSet<u32>, change: &dyn Fn(&mut $name)| {
                let mut set = set_of(before);
                change(&mut set);
                set
            };
            let whole: BTreeSet<u32> = flags.iter().copied().collect();
            assert_eq!(set_of(&whole), $name::all());
            let models = small_sets(&flags);
            for a in &models {
                let x = set_of(a);
                let complement = set_of(&(&whole - a));
                assert_eq!(x.complement(), complement, "complement of {a:?}");
                assert_eq!(!x, complement, "! of {a:?}");
                assert_eq!(x.is_empty(), a.is_empty(), "is_empty of {a:?}");
                assert_eq!(x.is_all(), *a == whole, "is_all of {a:?}");
                let truncated = $name::from_bits_truncate(x.bits());
                assert_eq!(truncated, x, "from_bits_truncate of {a:?}");
                for b in &models {
                    let (y, pair) = (set_of(b), format!("{a:?} and {b:?}"));
                    let (either, both) = (set_of(&(a | b)), set_of(&(a & b)));
                    let (first_alone, one_alone) = (set_of(&(a - b)), set_of(&(a ^ b)));
                    assert_eq!(x == y, a == b, "== on {pair}");
                    assert_eq!(x.intersects(y), !a.is_disjoint(b), "intersects on {pair}");
                    assert_eq!(x.contains(y), a.is_superset(b), "contains on {pair}");
                    for (operation, came, wanted) in [
                        ("union", x.union(y), either),
                        ("intersection", x.intersection(y), both),
                        ("difference", x.difference(y), first_alone),
                        ("symmetric_difference", x.symmetric_difference(y), one_alone),
                        ("|", x | y, either),
                        ("&", x & y, both),
                        ("-", x - y, first_alone),
                        ("^", x ^ y, one_alone),
                        ("|=", changed(a, &|set| *set |= y), either),
                        ("&=", changed(a, &|set| *set &= y), both),
                        ("-=", changed(a, &|set| *set -= y), first_alone),
                        ("^=", changed(a, &|set| *set ^= y), one_alone),
                        ("insert", changed(a, &|set| set.insert(y)), either),
                        ("remove", changed(a, &|set| set.remove(y)), first_alone),
                        ("toggle", changed(a, &|set| set.toggle(y)), one_alone),
                        ("set(true)", changed(a, &|set| set.set(y, true)), either),
                        (
                            "set(false)",
                            changed(a, &|set| set.set(y, false)),
                            first_alone,
                        ),
                    ] {
                        assert_eq!(came, wanted, "{operation} on {pair}");
                    }
                }
            }
        }
    };
}

tries_pairs!(computes_as_sets_of_modifiers, Modifiers: u16, 1..=11);
tries_pairs!(computes_as_sets_of_buttons, MouseButtons: u8, 1..=6);
tries_pairs!(computes_as_sets_of_kitty_flags, KittyKeyboardFlags: u16, 0..=4);

// The sets of none, one and two of these.
fn small_sets(flags: &[u32]) -> BTreeSet<BTreeSet<u32>> {
    let pairs = flags
        .iter()
        .flat_map(|a| flags.iter().map(move |b| BTreeSet::from([*a, *b])));
    pairs.chain([BTreeSet::new()]).collect()
}

const SHIFT: Modifiers = Modifiers::SHIFT;

const CTRL: Modifiers = Modifiers::CTRL;

#[test]
fn computes_with_sets() {
    let both = SHIFT | CTRL;
    assert_eq!((both.bits(), !!both), (10, both));
    assert!(Modifiers::empty().is_empty() && Modifiers::all().is_all());
}

#[test]
fn changes_sets() {
    let mut set = SHIFT;
    set.insert(CTRL);
    set |= Modifiers::ALT;
    set.remove(SHIFT);
    set.toggle(Modifiers::SUPER);
    set.set(Modifiers::LEADER, true);
    set.set(Modifiers::ALT, false);
    assert_eq!(set, CTRL | Modifiers::SUPER | Modifiers::LEADER);
    set -= Modifiers::LEADER;
    set ^= Modifiers::SUPER;
    set &= CTRL | SHIFT;
    assert_eq!(set, CTRL);
}

#[test]
fn drops_or_keeps_bits_without_a_name() {
    assert_eq!(Modifiers::from_bits(1), None);
    assert_eq!(Modifiers::from_bits(2), Some(SHIFT));
    assert_eq!(Modifiers::from_bits_truncate(0xf003), SHIFT);
    assert_eq!(Modifiers::from_bits_retain(0xf003).bits(), 0xf003);
    assert_eq!((!Modifiers::from_bits_retain(0xf000)).bits(), 0x0ffe);
    assert!(!Modifiers::from_bits_retain(1).is_empty());
    assert!(Modifiers::from_bits_retain(0xffff).is_all());
    assert_eq!(Modifiers::all().bits(), 0x0ffe);
    let named: u8 = BUTTONS.iter().map(|(_, flag)| flag.bits()).sum();
    assert_eq!(MouseButtons::all().bits(), named);
    assert_eq!(MouseButtons::from_bits(1), None);
    assert_eq!(KittyKeyboardFlags::all().bits(), 0x1f);
    let others = KittyKeyboardFlags::from_bits_truncate(0xfffd);
    assert_eq!(!KittyKeyboardFlags::REPORT_EVENT_TYPES, others);
}

#[test]
fn finds_flags_by_name() {
    for (name, flag) in MODIFIERS {
        assert_eq!(Modifiers::from_name(name), Some(*flag), "{name}");
    }
    for (name, flag) in BUTTONS {
        assert_eq!(MouseButtons::from_name(name), Some(*flag), "{name}");
    }
    assert_eq!(Modifiers::from_name("NONE"), Some(Modifiers::NONE));
    let types = KittyKeyboardFlags::from_name("REPORT_EVENT_TYPES");
    assert_eq!(types, Some(KittyKeyboardFlags::REPORT_EVENT_TYPES));
    for name in ["", "shift", "SHIFT ", "SHIFT|CTRL", "CMD", "LEFT"] {
        assert_eq!(Modifiers::from_name(name), None, "{name}");
    }
}

#[test]
fn iterates() {
    let unnamed = Modifiers::from_bits_retain(0x8001);
    let set = CTRL | unnamed | SHIFT;
    assert_eq!(set.iter().collect::<Vec<_>>(), [SHIFT, CTRL, unnamed]);
    assert_eq!(set.into_iter().collect::<Vec<_>>(), [SHIFT, CTRL, unnamed]);
    let names: Vec<_> = set.iter_names().collect();
    assert_eq!(names, [("SHIFT", SHIFT), ("CTRL", CTRL)]);
    assert_eq!(Modifiers::all().iter_names().collect::<Vec<_>>(), MODIFIERS);
    let buttons: Vec<_> = MouseButtons::all().iter_names().collect();
    assert_eq!(buttons, BUTTONS);
    assert_eq!(Modifiers::NONE.iter().next(), None);
    assert_eq!(Modifiers::NONE.iter_names().next(), None);
    let mut names = set.iter_names();
    assert_eq!(names.by_ref().count(), 2);
    assert_eq!(names.remaining(), &unnamed);
    let mut flags = set.iter();
    assert_eq!((flags.by_ref().count(), flags.next()), (3, None));
}

#[test]
fn collects() {
    assert_eq!(Modifiers::from_iter([SHIFT, CTRL, SHIFT]), SHIFT | CTRL);
    assert_eq!(Modifiers::from_iter([]), Modifiers::NONE);
    let mut set = SHIFT;
    set.extend([CTRL, Modifiers::ALT]);
    assert_eq!(set, SHIFT | CTRL | Modifiers::ALT);
    for bits in (0..=u16::MAX).step_by(13) {
        let set = Modifiers::from_bits_retain(bits);
        assert_eq!(set.iter().collect::<Modifiers>(), set);
    }
}

#[test]
fn shows_names() {
    let wheel = MouseButtons::VERT_WHEEL | MouseButtons::WHEEL_POSITIVE;
    let (both, none) = (SHIFT | CTRL, Modifiers::NONE);
    let [unnamed, alone] = [0x8003, 1].map(Modifiers::from_bits_retain);
    for (shown, wanted) in [
        (format!("{both:?}"), "Modifiers(SHIFT | CTRL)"),
        (format!("{none:?}"), "Modifiers(0x0)"),
        (format!("{unnamed:?}"), "Modifiers(SHIFT | 0x8001)"),
        (format!("{alone:?}"), "Modifiers(0x1)"),
        (
            format!("{wheel:?}"),
            "MouseButtons(VERT_WHEEL | WHEEL_POSITIVE)",
        ),
        (format!("{both:#?}"), "Modifiers(\n    SHIFT | CTRL,\n)"),
        (format!("{both} {none}"), "SHIFT|CTRL NONE"),
        (format!("{wheel}"), "VERT_WHEEL|WHEEL_POSITIVE"),
        (unnamed.to_string(), "SHIFT|0x8001"),
        (String::from(&CTRL), "CTRL"),
    ] {
        assert_eq!(shown, wanted);
    }
}

#[test]
fn shows_numbers() {
    let set = SHIFT | CTRL;
    assert_eq!(format!("{set:x} {set:X} {set:o} {set:b}"), "a A 12 1010");
    let shown = format!("{set:#06x} {set:#X} {set:#o} {set:#b}");
    assert_eq!(shown, "0x000a 0xA 0o12 0b1010");
    let (right, all) = (MouseButtons::RIGHT, KittyKeyboardFlags::all());
    assert_eq!(format!("{right:x} {all:b}"), "4 11111");
}

#[test]
fn reads_names() {
    for bits in (0..=u16::MAX).step_by(13) {
        let set = Modifiers::from_bits_retain(bits);
        assert_eq!(set.to_string().parse(), Ok(set));
    }
    for (text, set) in [
        ("", Modifiers::NONE),
        (" ", Modifiers::NONE),
        ("NONE", Modifiers::NONE),
        ("CTRL|SHIFT", SHIFT | CTRL),
        (" SHIFT | CTRL ", SHIFT | CTRL),
        ("META|CMD", Modifiers::ALT | Modifiers::SUPER),
        ("OPT|WIN", Modifiers::ALT | Modifiers::SUPER),
        ("0xa", SHIFT | CTRL),
        ("NONE|LEADER", Modifiers::LEADER),
    ] {
        assert_eq!(text.parse(), Ok(set), "{text}");
        assert_eq!(Modifiers::try_from(text.to_string()), Ok(set), "{text}");
    }
    for (text, name) in [
        ("SHFT", "SHFT"),
        ("SHIFT|", ""),
        ("CTRL|shift", "shift"),
        ("0x", "0x"),
        ("0x10000", "0x10000"),
    ] {
        let error = text.parse::<Modifiers>().expect_err(text);
        assert_eq!(error.to_string(), format!("no flag is named {name}"));
        let tried = Modifiers::try_from(text.to_string());
        assert_eq!(tried, Err(error.to_string()));
    }
    assert!("CMD".parse::<MouseButtons>().is_err());
}

#[test]
fn removes_positional_modifiers() {
    let others = SHIFT | Modifiers::ALT | CTRL | Modifiers::SUPER | Modifiers::LEADER;
    assert_eq!(Modifiers::all().remove_positional_mods(), others);
}

#[test]
fn numbers_modifiers() {
    assert_eq!(Modifiers::NONE.encode_xterm(), 0);
    assert_eq!(SHIFT.encode_xterm(), 1);
    assert_eq!(Modifiers::ALT.encode_xterm(), 2);
    assert_eq!(CTRL.encode_xterm(), 4);
    assert_eq!(Modifiers::all().encode_xterm(), 7);
    assert_eq!((!(SHIFT | Modifiers::ALT | CTRL)).encode_xterm(), 0);
}
