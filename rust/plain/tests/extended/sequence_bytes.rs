// The bytes of control sequences and strings: few, which are kept in place, and many.
use crate::calls::Calls;
use hedrugal::{Dialect, Event, Parser, SequenceBytes, StringKind};
use std::collections::hash_map::RandomState;
use std::hash::BuildHasher;
use std::mem::size_of;

const LENGTHS: [usize; 7] = [0, 1, 22, 23, 24, 4096, 100_000];

fn counted(len: usize) -> Vec<u8> {
    (0..=255).cycle().take(len).collect()
}

// The same bytes, of each type that they are made of.
fn made_of(bytes: &[u8]) -> [SequenceBytes; 3] {
    let mut roomy = Vec::with_capacity(bytes.len() * 2 + 1);
    roomy.extend_from_slice(bytes);
    [bytes.into(), bytes.to_vec().into(), roomy.into()]
}

#[test]
fn bytes_are_those_they_are_made_of() {
    for len in LENGTHS {
        let wanted = counted(len);
        for made in made_of(&wanted) {
            assert_eq!((&*made, made.as_ref()), (&wanted[..], &wanted[..]));
            assert_eq!(format!("{made:?}"), format!("{wanted:?}"));
            let copy = made.clone();
            assert_eq!(Vec::from(made), wanted);
            assert_eq!(copy, wanted);
        }
    }
    assert_eq!(SequenceBytes::default(), b"");
    assert_eq!(SequenceBytes::from(&[7; 30]), [7; 30]);
}

#[test]
fn bytes_are_compared_and_hashed_as_slices() {
    let hashes = RandomState::new();
    for len in LENGTHS {
        let bytes = counted(len);
        let [made, other, _] = made_of(&bytes);
        assert!(made == other && made == bytes && made == bytes[..]);
        assert_eq!(hashes.hash_one(&made), hashes.hash_one(&bytes[..]));
        assert_ne!(made, counted(len + 1));
        for place in [0, len / 2, len.saturating_sub(1)]
            .into_iter()
            .filter(|it| *it < len)
        {
            let mut changed = bytes.clone();
            changed[place] ^= 1;
            assert_ne!(made, SequenceBytes::from(changed));
        }
    }
}

#[test]
fn bytes_take_no_more_than_a_vector() {
    assert_eq!(size_of::<SequenceBytes>(), size_of::<Vec<u8>>());
    assert_eq!((size_of::<Event>(), size_of::<Option<Event>>()), (48, 48));
}

// A text of so many bytes that these begin.
fn text(opening: &str, len: usize) -> SequenceBytes {
    let rest = (b'0'..=b'9').cycle().skip(opening.len());
    let text: Vec<u8> = opening.bytes().chain(rest).take(len).collect();
    text.into()
}

// Each kind of event that has bytes, with those of so many as it may have.
#[test]
fn events_have_few_bytes_or_many() {
    for len in [3, 4, 21, 22, 23, 24, 100, 254, 4096, 4097, 65_532] {
        let (osc, dcs, apc) = (text("4;", len), text(">|", len), text("Gi=", len));
        let (kind, bytes) = (StringKind::Osc, osc.clone());
        let mut cases = vec![
            ("\x1b]", &osc, "\x07", Event::Osc(osc.clone())),
            ("\x1bP", &dcs, "\x1b\\", Event::Dcs(dcs.clone())),
            ("\x1b_", &apc, "\x1b\\", Event::Apc(apc.clone())),
            ("\x1b]", &osc, "", Event::StringCut { kind, bytes }),
        ];
        let csi = SequenceBytes::from([&text("?", len - 1), &b"c"[..]].concat());
        if len <= 254 {
            cases.push(("\x1b[", &csi, "", Event::Csi(csi.clone())));
        }
        let mut parser = Parser::new(Dialect::Extended);
        for (introducer, bytes, end, event) in cases {
            let sent = [introducer.as_bytes(), bytes, end.as_bytes()].concat();
            for _ in 0..2 {
                assert!(
                    parser.read(&sent, false) == [event.clone()],
                    "{introducer:?} {len}"
                );
            }
        }
    }
}
