// The names of keys, read and printed.
use crate::draws::Draws;
use crate::plain::names::{print, read};
use crate::presses::drawn_key;
use hedrugal::input::{KeyCode, KeyEvent, Modifiers};
use hedrugal::{Chord, KeyNameError, KeyNameErrorKind, KeyPress, KittyModifiers, ReportedKey};
use std::collections::{BTreeSet, HashSet};

#[test]
fn chords_have_32_keys_at_most() {
    let most = vec!["g"; 32].join(" ");
    let chord: Chord = most.parse().unwrap();
    assert_eq!((chord.len(), chord.to_string()), (32, most.clone()));
    let kind = KeyNameErrorKind::TooLong;
    let refused = format!(" {most}\tx").parse::<Chord>();
    assert_eq!(refused, Err(KeyNameError { kind, at: 65 }));
    let long = "ctrl+f12 ".repeat(1112);
    assert_eq!(long.parse::<Chord>(), Err(KeyNameError { kind, at: 288 }));
    let mut full = chord;
    assert!(!full.push("x".parse().unwrap()));
    assert_eq!(full, chord);
    // A press is one key.
    let two = " g \tx y".parse::<KeyPress>();
    assert_eq!(two, Err(KeyNameError { kind, at: 4 }));
    assert_eq!("\té ".parse::<KeyPress>().unwrap().text(), Some('é'));
}

// A chord is a list of presses.
#[test]
fn chords_are_lists() {
    let press = |text: &str| text.parse::<KeyPress>().unwrap();
    let presses = [press("ctrl+x"), press("5"), press("kitty57428")];
    let mut chord = Chord::new();
    assert!(chord.is_empty() && chord.to_string().is_empty() && chord == Chord::default());
    for press in presses {
        assert!(chord.push(press));
    }
    assert_eq!(chord, "ctrl+x 5 kitty57428".parse().unwrap());
    assert_eq!(chord.get(1), Some(presses[1]));
    assert_eq!((chord.len(), chord.get(3)), (3, None));
    assert!(chord.into_iter().eq(presses));
    assert!((&chord).into_iter().rev().eq(presses.into_iter().rev()));
    assert_eq!(chord.iter().len(), 3);
    assert_eq!(format!("{chord:?}"), format!("{presses:?}"));
    let aligned = format!("{chord:>22}|{:4}|", presses[1]);
    assert_eq!(aligned, "   ctrl+x 5 kitty57428|5   |");
    assert_eq!(Chord::from(presses[0]), "C-x".parse().unwrap());
    // In order, a chord is before those that begin with it.
    let sorted = "kitty57428,5,5 5,5 x,x,ctrl+x,ctrl+x 5,enter";
    let sorted: Vec<Chord> = sorted.split(',').map(|it| it.parse().unwrap()).collect();
    let set: BTreeSet<Chord> = sorted.iter().rev().copied().collect();
    assert!(set.iter().eq(&sorted));
    let set: HashSet<Chord> = sorted.into_iter().collect();
    assert!(set.len() == 8 && set.contains(&"<C-x> 5".parse().unwrap()));
}

#[test]
fn keys_and_modifiers_make_presses() {
    let press = |key, held| KeyPress::new(ReportedKey::Named(key), held);
    let name = |key, held| press(key, held).map_or("none".to_string(), |it| it.to_string());
    let shift = KittyModifiers::SHIFT;
    assert_eq!(name(KeyCode::Char('a'), shift), "A");
    assert_eq!(name(KeyCode::KeyPadHome, shift), "shift+home");
    assert_eq!(name(KeyCode::Enter, KittyModifiers::all()).len(), 37);
    assert_eq!(press(KeyCode::Control, shift), None);
    assert_eq!(KeyPress::new(ReportedKey::Functional(63744), shift), None);
    let event = |modifiers| KeyEvent {
        key: KeyCode::UpArrow,
        modifiers,
    };
    let events: HashSet<KeyEvent> = [Modifiers::CTRL, Modifiers::ALT, Modifiers::CTRL]
        .map(event)
        .into();
    assert_eq!(events.len(), 2);
}

// Keys and events of the port are printed by their presses, and read from their names.
#[test]
fn keys_and_events_have_names() {
    let event = |key, modifiers| KeyEvent { key, modifiers };
    let (none, ctrl) = (Modifiers::NONE, Modifiers::CTRL);
    let all = [Modifiers::SHIFT, Modifiers::ALT, Modifiers::SUPER];
    let all = all.into_iter().fold(ctrl, Modifiers::union);
    let left_ctrl = ctrl.union(Modifiers::LEFT_CTRL);
    for (key, modifiers, name) in [
        (KeyCode::Char('x'), ctrl, "ctrl+x"),
        (KeyCode::Char('\t'), none, "tab"),
        (KeyCode::ApplicationUpArrow, all, "super+ctrl+alt+shift+up"),
        (KeyCode::Char('a'), Modifiers::SHIFT, "A"),
        (KeyCode::Char('a'), left_ctrl, "ctrl+a"),
        (KeyCode::Function(5), none, "f5"),
    ] {
        let (event, read) = (event(key, modifiers), name.parse::<KeyEvent>().unwrap());
        assert_eq!(
            (event.to_string(), read.to_string()),
            (name.into(), name.into())
        );
        let presses = [event, read].map(|it| KeyPress::of_event(&it));
        assert_eq!(presses[0], presses[1], "{name}");
    }
    assert_eq!(event(KeyCode::LeftShift, ctrl).to_string(), "leftshift");
    assert_eq!(" C-Up".parse(), Ok(event(KeyCode::UpArrow, ctrl)));
    assert_eq!(KeyCode::Numpad5.to_string(), "5");
    assert_eq!(KeyCode::CapsLock.to_string(), "capslock");
    assert_eq!(format!("{:>6}", KeyCode::Tab), "   tab");
    assert_eq!("numpad5".parse(), Ok(KeyCode::Char('5')));
    assert_eq!("begin".parse(), Ok(KeyCode::KeyPadBegin));
    let wrong = |kind, at| KeyNameError { kind, at };
    let no_key = wrong(KeyNameErrorKind::NotAKey, 1);
    for text in ["\thyper+x", "\tmeta+x", "\tkitty57428", "\tcapslock"] {
        assert_eq!(text.parse::<KeyEvent>(), Err(no_key), "{text}");
        assert_eq!(text.parse::<KeyCode>(), Err(no_key), "{text}");
    }
    let held = wrong(KeyNameErrorKind::NotAKey, 0);
    assert_eq!("ctrl+x".parse::<KeyCode>(), Err(held));
    let two = wrong(KeyNameErrorKind::TooLong, 2);
    assert_eq!("a b".parse::<KeyCode>(), Err(two));
    let shifted = wrong(KeyNameErrorKind::ShiftedCharacter, 6);
    assert_eq!("shift+!".parse::<KeyEvent>(), Err(shifted));
}

// Each press is printed as the rules say, and read back.
#[test]
fn presses_are_read_back() {
    let mut draws = Draws::new(1);
    let mut names = HashSet::new();
    for _ in 0..100_000 {
        let character = |code| char::from_u32(code as u32).map(KeyCode::Char);
        let named = match draws.below(4) {
            0 => character(draws.below(0x3100)),
            1 => character(draws.below(0x110000)),
            2 => Some(KeyCode::Function(draws.below(256) as u8)),
            _ => None,
        };
        let key = named.map_or_else(|| drawn_key(&mut draws), ReportedKey::Named);
        let held = KittyModifiers::from_bits_retain(draws.below(256) as u8);
        let Some(press) = KeyPress::new(key, held) else {
            continue;
        };
        let name = press.to_string();
        assert_eq!(name, print((press.key(), press.held())));
        assert_eq!(name.parse(), Ok(press), "{name}");
        assert_eq!(read(&name), Ok(vec![(press.key(), press.held())]), "{name}");
        names.insert(name);
    }
    assert!(names.len() > 20_000);
}

// Texts of parts of names are read as the rules say.
#[test]
fn texts_are_read_as_the_rules_say() {
    let mut draws = Draws::new(2);
    let mut named = 0;
    for _ in 0..200_000 {
        let count = 1 + draws.below(7);
        let text = String::from_utf8(draws.text(count, "names")).unwrap();
        let found = text.parse::<Chord>();
        let parts = |it: KeyPress| (it.key(), it.held());
        let told = found.map(|chord| chord.iter().map(parts).collect::<Vec<_>>());
        let told = told.map_err(|error| (error.kind, error.at));
        assert_eq!(told, read(&text), "{text:?}");
        if let Ok(chord) = found {
            assert_eq!(chord.to_string().parse(), Ok(chord), "{text:?}");
            named += 1;
        }
    }
    assert!(named > 10_000);
}
