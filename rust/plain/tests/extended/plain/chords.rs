// A slow matcher. It follows the page of the crate termwiz_bindings sentence by sentence, over a
// list of chords that are texts.
use hedrugal::{Chord, KeyPress, Outcome};

// Chords and their values.
pub type Chords = Vec<(Vec<KeyPress>, usize)>;

// Whether some chord is longer than the presses, and begins with them.
pub fn is_continued(chords: &Chords, presses: &[KeyPress]) -> bool {
    chords
        .iter()
        .any(|(chord, _)| chord.len() > presses.len() && chord.starts_with(presses))
}

// The longest chord with which the presses begin: how many presses it has, and its value.
fn longest(chords: &Chords, presses: &[KeyPress]) -> Option<(usize, usize)> {
    chords
        .iter()
        .filter(|(chord, _)| presses.starts_with(chord))
        .map(|(chord, value)| (chord.len(), *value))
        .max_by_key(|(count, _)| *count)
}

// The outcomes of presses, and what stays pending.
pub fn read(
    chords: &Chords,
    presses: &[KeyPress],
    more: bool,
) -> (Vec<Outcome<usize>>, Vec<KeyPress>) {
    let (mut outcomes, mut rest) = (Vec::new(), presses);
    while let Some((&first, behind)) = rest.split_first() {
        if more && is_continued(chords, rest) {
            break;
        }
        if let Some((keys, value)) = longest(chords, rest) {
            outcomes.push(Outcome::Bound { keys, value });
            rest = &rest[keys..];
        } else {
            outcomes.push(Outcome::Unbound(first));
            rest = behind;
        }
    }
    (outcomes, rest.to_vec())
}

// Whether some chord begins with the presses and this one.
fn leads_on(chords: &Chords, presses: &[KeyPress], press: KeyPress) -> bool {
    let longer = [presses, &[press]].concat();
    chords.iter().any(|(chord, _)| chord.starts_with(&longer))
}

// The one of two presses that is taken.
pub fn either(
    chords: &Chords,
    pending: &[KeyPress],
    first: KeyPress,
    second: KeyPress,
) -> KeyPress {
    for presses in [pending, &[]] {
        if leads_on(chords, presses, first) {
            return first;
        }
        if leads_on(chords, presses, second) {
            return second;
        }
    }
    first
}

// Whether what is pending is a mistake of several presses.
pub fn is_dead_end(chords: &Chords, pending: &[KeyPress]) -> bool {
    pending.len() > 1 && !is_continued(chords, pending) && longest(chords, pending).is_none()
}

// The chord with these presses.
pub fn chord(presses: &[KeyPress]) -> Chord {
    let mut chord = Chord::new();
    for press in presses {
        assert!(chord.push(*press));
    }
    chord
}
