// What the slow parser with a clock answers. tests/test_timed.py asks it. It reads the commands of the program in
// crates/test_calls, a name, a number and bytes on a line, and answers in that program's words. If it is called with an
// argument, it tells events in those of tests/cases. While something isn't told, the answer of `waiting` is a question mark.
#[allow(dead_code, unused_imports)]
mod lines;
#[allow(dead_code)]
mod plain;

#[allow(dead_code)]
#[path = "../parser"]
mod port {
    pub mod lines;
    pub mod names;
    pub mod plain;
}

use hedrugal::{Dialect, EraseByte, Event, KeyReport, MouseReport, NewlineByte};
use plain::timed::PlainTimed;
use port::lines::{bytes, hex};
use std::fmt::Debug;
use std::io::{self, BufRead, Write};

fn key(report: &KeyReport) -> String {
    format!(
        "Key(KeyReport {{ key: {:?}, modifiers: {}, kind: {:?}, shifted: {:?}, base: {:?}, text: KeyText {{ inner: {:?} }} }})",
        report.key,
        report.modifiers.bits(),
        report.kind,
        report.shifted,
        report.base,
        report.text
    )
}

fn mouse(report: &MouseReport) -> String {
    format!(
        "Mouse(MouseReport {{ x: {}, y: {}, modifiers: Modifiers({}), buttons: MouseButtons({}), kind: {:?}, button: {:?} }})",
        report.x,
        report.y,
        report.modifiers.bits(),
        report.buttons.bits(),
        report.kind,
        report.button
    )
}

fn sequence(bytes: &[u8]) -> String {
    format!("SequenceBytes {{ inner: {bytes:?} }}")
}

fn event(event: &Event) -> String {
    match event {
        Event::Key(report) => key(report),
        Event::Mouse(report) => mouse(report),
        Event::Paste(text) => format!("paste {}:{}", text.len(), hex(text.as_bytes())),
        Event::PastePart(text) => format!("part of paste {}:{}", text.len(), hex(text.as_bytes())),
        Event::Resized(size) => format!(
            "Resized {{ rows: {}, columns: {}, height: {}, width: {} }}",
            size.rows, size.columns, size.height, size.width
        ),
        Event::KeyboardFlags(flags) => format!("KeyboardFlags({})", flags.bits()),
        Event::Csi(text) => format!("Csi({})", sequence(text)),
        Event::Osc(text) => format!("Osc({})", sequence(text)),
        Event::Dcs(text) => format!("Dcs({})", sequence(text)),
        Event::Apc(text) => format!("Apc({})", sequence(text)),
        Event::StringPart { kind, bytes } => {
            format!(
                "StringPart {{ kind: {kind:?}, bytes: {} }}",
                sequence(bytes)
            )
        }
        Event::StringCut { kind, bytes } => {
            format!("StringCut {{ kind: {kind:?}, bytes: {} }}", sequence(bytes))
        }
        _ => format!("{event:?}"),
    }
}

fn number_or_none<Number: ToString>(number: Option<Number>) -> String {
    number.map_or("None".to_string(), |it| it.to_string())
}

fn unless_busy<Error>(taken: Result<(), Error>) -> String {
    taken.map_or("busy".to_string(), |()| String::new())
}

fn shown(it: impl Debug) -> String {
    format!("{it:?}")
}

fn policy(limits: &[(&str, Option<u32>)]) -> String {
    let limits = limits
        .iter()
        .map(|(name, limit)| format!("{name}: {limit:?}"));
    format!("Policy {{ {} }}", limits.collect::<Vec<_>>().join(", "))
}

fn dialect_of(number: u64) -> Dialect {
    match number {
        0 => Dialect::Extended,
        _ => Dialect::Termwiz,
    }
}

// Sets a field of the reading, or a limit. A number that is too large for a limit is none.
fn set(parser: &mut PlainTimed, name: &str, number: u64) {
    let mut reading = parser.reading();
    match (name, number) {
        ("dialect", _) => reading.dialect = dialect_of(number),
        ("x10_mouse", _) => reading.x10_mouse = number == 1,
        ("questions", _) => reading.questions = number as u8,
        ("erase", 8) => reading.erase = EraseByte::Backspace,
        ("erase", _) => reading.erase = EraseByte::Delete,
        ("newline", 0) => reading.newline = NewlineByte::CtrlJ,
        ("newline", _) => reading.newline = NewlineByte::Enter,
        _ => return parser.set_limit(name, u32::try_from(number).ok()),
    }
    parser.set_reading(reading);
}

// Makes a call that answers nothing.
fn call(parser: &mut PlainTimed, name: &str, number: u64) {
    match name {
        "new" | "sharing" => *parser = PlainTimed::new(dialect_of(number)),
        "idle" => parser.idle(number),
        "flush" => parser.flush(),
        "end" => parser.end(),
        "expect" => parser.expect_position(),
        "forget" => parser.forget_positions(),
        "parts" => parser.set_parts(Some(number as usize)),
        "no-parts" => parser.set_parts(None),
        "shrink" => (),
        _ => set(parser, name, number),
    }
}

fn answer(parser: &mut PlainTimed, line: &str, told: fn(&Event) -> String) -> String {
    let words: Vec<&str> = line.split(' ').collect();
    let (name, number) = (words[0], words[1].parse().expect(line));
    match name {
        "feed" => unless_busy(parser.feed(number, &bytes(words[2]))),
        "interrupted" => unless_busy(parser.interrupted(number)),
        "next" => parser.next().as_ref().map_or("none".to_string(), told),
        "timeout" => number_or_none(parser.timeout(number)),
        "skip" => number_or_none(parser.skip_paste()),
        "reset" => parser.reset().to_string(),
        "waiting" => parser.waiting().map_or("?".to_string(), shown),
        "waiting_len" => parser.waiting_len().to_string(),
        "reading" => shown(parser.reading()),
        "policy" => policy(&parser.limits),
        _ => {
            call(parser, name, number);
            String::new()
        }
    }
}

fn main() {
    let mut parser = PlainTimed::new(Dialect::Extended);
    let in_words = std::env::args().len() > 1;
    let told = if in_words { lines::line } else { event };
    for line in io::stdin().lock().lines() {
        let line = line.expect("a line of text");
        println!("{}", answer(&mut parser, &line, told));
        io::stdout().flush().expect("an open output");
    }
}
