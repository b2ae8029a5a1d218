// Random streams: this crate's events against the lines that keyshow prints, both in pieces of the
// same sizes.
//
// A process for each stream would take minutes. So the streams are joined to one: after each comes
// the end of a paste, after which nothing is buffered, whatever came before, and then a mouse
// report with the number of the stream, by which a difference is told from where it is. What a
// flush does in the middle of a sequence is tested on some of the streams, each in a process of its
// own.
use crate::calls::Buffer;
use crate::draws::Draws;
use crate::lines::{hex, line};
use crate::plain::{PlainReader, END};
use hedrugal::input::{InputEvent, InputParser};
use std::io::Write;
use std::path::{Path, PathBuf};
use std::process::{Command, Stdio};
use std::sync::{Mutex, OnceLock};
use std::{env, thread};

const PIECES: &[usize] = &[1, 7, 64];

const STREAMS: usize = 20000;

// One of so many streams is also read alone.
const ALONE: usize = 100;

// The program: what KEYSHOW names, or the one that rt built in this repository, or else the prebuilt
// one, which cc links.
fn keyshow() -> &'static Path {
    static PROGRAM: OnceLock<PathBuf> = OnceLock::new();
    PROGRAM.get_or_init(|| {
        let top = Path::new(env!("CARGO_MANIFEST_DIR")).join("../..");
        let built = top.join("crates/keyshow/out/keyshow");
        let named = env::var_os("KEYSHOW").map(PathBuf::from);
        let prebuilt = top.join(format!("prebuilt/{}-linux/keyshow.o", env::consts::ARCH));
        named
            .or_else(|| built.is_file().then_some(built))
            .unwrap_or_else(|| linked(&prebuilt))
    })
}

// The program that cc makes of an object.
fn linked(object: &Path) -> PathBuf {
    let program = Path::new(env!("CARGO_TARGET_TMPDIR")).join("keyshow");
    let words = [object, Path::new("-o"), &program];
    let cc = Command::new("cc").args(words).status();
    assert!(
        cc.is_ok_and(|status| status.success()),
        "cc can't link {}: name the program keyshow in KEYSHOW",
        object.display()
    );
    program
}

// The lines that keyshow prints.
fn shown(text: &[u8], piece: usize) -> Vec<String> {
    let mut child = Command::new(keyshow())
        .arg(piece.to_string())
        .stdin(Stdio::piped())
        .stdout(Stdio::piped())
        .spawn()
        .expect("keyshow starts");
    let mut input = child.stdin.take().expect("its input is a pipe");
    let output = thread::scope(|scope| {
        scope.spawn(move || input.write_all(text).expect("keyshow reads"));
        child.wait_with_output().expect("keyshow ends")
    });
    assert!(output.status.success(), "{:?}", output.status);
    let lines = String::from_utf8(output.stdout).expect("lines are ASCII");
    lines.lines().map(str::to_string).collect()
}

// The lines of this crate's events, and of what is buffered.
fn parsed(text: &[u8], piece: usize) -> Vec<String> {
    let mut parser = InputParser::new();
    let mut lines = Vec::new();
    let mut show = |event: InputEvent| lines.push(line(&event));
    for bytes in text.chunks(piece) {
        parser.parse(bytes, &mut show, true);
    }
    parser.parse(b"", &mut show, false);
    if parser.waiting_len() > 0 {
        lines.push(format!("waiting {}", parser.waiting_len()));
    }
    lines
}

fn streams() -> Vec<Vec<u8>> {
    let mut draws = Draws::new(22, &PlainReader::new());
    (0..STREAMS).map(|_| draws.text()).collect()
}

// The mark after a stream.
fn mark(number: usize) -> (String, String) {
    let line = format!("mouse {number} 65535 HORZ_WHEEL SHIFT+ALT+CTRL");
    (format!("\x1b[<95;{number};65535M"), line)
}

// The lines of each stream, up to its mark.
fn parted(lines: &[String]) -> Vec<&[String]> {
    let (mut rest, mut parts) = (lines, Vec::new());
    for number in 0..STREAMS {
        let (_, line) = mark(number);
        let end = rest.iter().position(|other| *other == line);
        let (part, after) = rest.split_at(end.expect(&line) + 1);
        parts.push(part);
        rest = after;
    }
    assert_eq!(rest, [] as [String; 0]);
    parts
}

#[test]
fn joined() {
    let streams = streams();
    let mut text = Vec::new();
    for (number, stream) in streams.iter().enumerate() {
        text.extend([&stream[..], END, mark(number).0.as_bytes()].concat());
    }
    for piece in PIECES {
        let (wanted, given) = (shown(&text, *piece), parsed(&text, *piece));
        for ((stream, wanted), given) in streams.iter().zip(parted(&wanted)).zip(parted(&given)) {
            assert_eq!(given, wanted, "pieces of {piece}: {}", hex(stream));
        }
    }
}

#[test]
fn alone() {
    let streams = streams();
    let left = Mutex::new(streams.iter().step_by(ALONE));
    let check = || {
        while let Some(stream) = { left.lock().expect("no panic").next() } {
            for piece in PIECES {
                let (given, wanted) = (parsed(stream, *piece), shown(stream, *piece));
                assert_eq!(given, wanted, "pieces of {piece}: {}", hex(stream));
            }
        }
    };
    thread::scope(|scope| {
        for _ in 0..4 {
            scope.spawn(check);
        }
    });
}
