// Texts at the limits of the forms: the longest of each, and those that are a byte longer.
use crate::calls::{given, read_cut, MORE};
use hedrugal::{Dialect, Parser};

// How often what stands in braces is repeated, a text, and what it gives with more to come.
pub type LongExample = (usize, &'static [u8], &'static str);

// The longest string of each kind, also after an ESC, and the longest text that stays buffered.
const STRINGS: &[LongExample] = &[
    (65530, b"\x1b]1;{x}\x07", "osc \"1;{x}\""),
    (65530, b"\x1b]1;{x}\x1b\\", "osc \"1;{x}\""),
    (65530, b"\x1bP>|{x}\x1b\\", "dcs \">|{x}\""),
    (65529, b"\x1b_Gi={x}\x1b\\", "apc \"Gi={x}\""),
    (
        65530,
        b"\x1b\x1b]1;{x}\x07",
        "key Escape NONE, osc \"1;{x}\"",
    ),
    (65530, b"\x1b]1;{x}\x1b", "nothing; 65535"),
];

// Strings that are a byte longer, ended or not: a part comes first, and the opening is put back.
const PARTS: &[LongExample] = &[
    (65531, b"\x1b]1;{x}\x07", r#"osc part "1;{x}", osc "1;""#),
    (
        65531,
        b"\x1b]1;{x}{x}yz\x1b\\q",
        r#"osc part "1;{x}", osc part "1;{x}", osc "1;yz", key U+0071 NONE"#,
    ),
    (
        65531,
        b"\x1bP>|{x}\x1b\x1b",
        r#"dcs part ">|{x}", dcs cut ">|"; 1"#,
    ),
    (
        65530,
        b"\x1b\x1b_Gi={x}",
        r#"key Escape NONE, apc part "Gi={x}"; 5"#,
    ),
    (
        65530,
        b"\x1b]52;{A}B\x07",
        r#"osc part "52;{A}", osc "52;B""#,
    ),
    (
        65530,
        b"\x1b]52;{A}\x1bOA",
        r#"osc part "52;{A}", osc cut "52;", key ApplicationUpArrow NONE"#,
    ),
];

// The longest title that can be typed, and the shortest that can't.
const TITLES: &[LongExample] = &[
    (251, b"\x1b]l{t}\x1b", "nothing; 255"),
    (251, b"\x1b]l{t}\x1b\\", "osc \"l{t}\""),
    (
        251,
        b"\x1b]L{t}\x1b[I",
        "key U+005D ALT, key U+004C NONE{, key U+0074 NONE}, focus gained",
    ),
    (
        252,
        b"\x1b]l{t}\r\x1b[I",
        r#"osc cut "l{t}\r", focus gained"#,
    ),
    (252, b"\x1b]l{t}\x07", "osc \"l{t}\""),
];

// The same for control sequences, whose limit is 256 bytes; the second is a key report with as long
// a text as fits.
const CONTROLS: &[LongExample] = &[
    (253, b"\x1b[{1}x", "csi \"{1}x\""),
    (
        82,
        b"\x1b[97;;{65:}229u",
        r#"key U+0061 NONE text "{A}\xc3\xa5""#,
    ),
    (
        254,
        b"\x1b[{1}x",
        "key U+005B ALT{, key U+0031 NONE}, key U+0078 NONE",
    ),
    (253, b"\x1b[{1}", "nothing; 255"),
    (254, b"\x1b[{1}", "key U+005B ALT{, key U+0031 NONE}"),
];

// A text in which what stands in braces is repeated.
pub fn repeated(text: &[u8], times: usize) -> Vec<u8> {
    let mut parts = text.split(|byte| matches!(byte, b'{' | b'}'));
    let mut whole = parts.next().unwrap_or_default().to_vec();
    while let (Some(part), Some(after)) = (parts.next(), parts.next()) {
        whole.extend([&part.repeat(times), after].concat());
    }
    whole
}

// The parser reads the text of an example by one call, and in pieces of 64 bytes, with its last
// byte alone or not.
fn check(parser: &mut Parser, (times, text, wanted): &LongExample) {
    let shown = text.escape_ascii();
    let [text, wanted] = [text, wanted.as_bytes()].map(|it| repeated(it, *times));
    for place in [0, text.len() - 1, text.len()] {
        parser.reset();
        let events = read_cut(parser, &text, MORE, place, 64);
        let given = given(&events, parser);
        assert!(given.as_bytes() == wanted, "{shown}, to {place}");
    }
}

pub fn check_all(examples: &[LongExample]) {
    let mut parser = Parser::new(Dialect::Extended);
    for example in examples {
        check(&mut parser, example);
    }
}

#[test]
fn reads_strings_up_to_their_limit() {
    check_all(STRINGS);
}

#[test]
fn reads_longer_strings_in_parts() {
    check_all(PARTS);
}

#[test]
fn reads_titles_up_to_their_limit() {
    check_all(TITLES);
}

#[test]
fn reads_control_sequences_up_to_their_limit() {
    check_all(CONTROLS);
}
