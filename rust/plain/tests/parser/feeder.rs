// Recorded answers, fed to a parser in every way that they speak of. tests/recorded/README.md has
// the forms of a line.
use super::lines::{bytes, hex};
use std::fs;
use std::path::Path;
use std::sync::OnceLock;
use std::time::{Duration, Instant};

// A parser that is fed.
pub trait Reader {
    // Empties the buffer.
    fn reset(&mut self);

    // The lines of a call's events.
    fn call(&mut self, bytes: &[u8], more: bool) -> Vec<String>;

    fn waiting_len(&self) -> usize;

    // After the calls since the last reset the parser may give this answer in place of the recorded
    // one. Most may not.
    fn check_other(&mut self, came: &str, _waiting: &[u8], wanted: &str) {
        panic!("{came}, and not {wanted}");
    }
}

// The time of so many milliseconds.
pub fn at(millis: u64) -> Instant {
    static START: OnceLock<Instant> = OnceLock::new();
    *START.get_or_init(Instant::now) + Duration::from_millis(millis)
}

// How many lines a file has, how many answers were compared for them, and how many lines a parser
// answers otherwise.
#[derive(Default, PartialEq, Debug)]
pub struct Counts {
    pub lines: usize,
    pub feedings: usize,
    pub others: usize,
}

pub fn data(file: &str) -> String {
    let folder = Path::new(env!("CARGO_MANIFEST_DIR")).join("tests/recorded");
    fs::read_to_string(folder.join(file)).unwrap_or_else(|error| panic!("{file}: {error}"))
}

// The counts of a file, as the table of tests/recorded/README.md tells them.
pub fn told(file: &str) -> Counts {
    let (table, begin) = (data("README.md"), format!("| `{file}` |"));
    let mut lines = table.lines();
    let line = lines.find(|line| line.starts_with(&begin)).expect(file);
    let cells: Vec<&str> = line.split('|').map(str::trim).collect();
    let number = |column: usize| cells[column].parse().expect(line);
    Counts {
        lines: number(2),
        feedings: number(3),
        others: number(4),
    }
}

// The answer of lines of events and buffered bytes.
pub fn answer(events: &[String], waiting: &[u8]) -> String {
    match (events, waiting) {
        ([], []) => "nothing".to_string(),
        (events, []) => events.join(","),
        ([], waiting) => format!("; {}", hex(waiting)),
        (events, waiting) => format!("{} ; {}", events.join(","), hex(waiting)),
    }
}

// A parser, and what it was fed since the last reset.
pub struct Feeder<'a, R> {
    reader: &'a mut R,
    fed: Vec<u8>,
    feedings: usize,
    pub is_other: bool,
}

impl<R: Reader> Feeder<'_, R> {
    pub fn new(reader: &mut R) -> Feeder<'_, R> {
        Feeder {
            reader,
            fed: Vec::new(),
            feedings: 0,
            is_other: false,
        }
    }

    fn begin(&mut self) {
        self.reader.reset();
        self.fed.clear();
    }

    fn call(&mut self, bytes: &[u8], more: bool) -> Vec<String> {
        self.fed.extend_from_slice(bytes);
        self.reader.call(bytes, more)
    }

    // Compares the events, and what is buffered, with the recorded answer.
    fn compare(&mut self, events: &[String], wanted: &str) {
        let waiting = &self.fed[self.fed.len() - self.reader.waiting_len()..];
        let came = answer(events, waiting);
        if came != wanted {
            self.is_other = true;
            self.reader.check_other(&came, waiting, wanted);
        }
    }

    // Feeds parts, each with its flag, and compares all that they give.
    fn check(&mut self, parts: &[(&[u8], bool)], wanted: &str) {
        self.begin();
        self.feedings += 1;
        let mut events = Vec::new();
        for (bytes, more) in parts {
            events.extend(self.call(bytes, *more));
        }
        self.compare(&events, wanted);
    }

    // Feeds a text whole, cut in two at each place, and byte by byte.
    pub fn check_whole(&mut self, text: &[u8], wanted: &str) {
        self.check(&[(text, false)], wanted);
        self.check(&[(text, true), (b"", false)], wanted);
        for place in 1..text.len() {
            let (first, second) = text.split_at(place);
            self.check(&[(first, true), (second, false)], wanted);
            self.check(&[(first, true), (second, true), (b"", false)], wanted);
        }
        let mut single: Vec<(&[u8], bool)> = text.chunks(1).map(|byte| (byte, true)).collect();
        single.push((b"", false));
        self.check(&single, wanted);
    }

    // Every proper beginning of a row gives no event, and stays buffered, alone and after ESC.
    fn check_beginnings(&mut self, row: &[u8]) {
        for len in 1..row.len() {
            for front in [&b""[..], b"\x1b"] {
                let beginning = [front, &row[..len]].concat();
                self.check(&[(&beginning, true)], &format!("; {}", hex(&beginning)));
            }
        }
    }

    // `ROW,ROW.. = NEXT = A = B = C`.
    fn check_rows(&mut self, line: &str) {
        let [rows, next, alone, after_escape, before_next] =
            line.split(" = ").collect::<Vec<_>>()[..]
        else {
            panic!("{line}");
        };
        for row in rows.split(',').map(bytes) {
            let escaped = [b"\x1b", &row[..]].concat();
            let followed = [&row[..], &bytes(next)].concat();
            let texts = [&row, &escaped, &followed].into_iter();
            for (text, wanted) in texts.zip([alone, after_escape, before_next]) {
                if wanted != "-" {
                    self.check_whole(text, wanted);
                }
            }
            self.check_beginnings(&row);
        }
    }

    // `+HEX -HEX.. = ANSWER | ANSWER..`.
    fn check_calls(&mut self, calls: &str, answers: &str) {
        self.begin();
        let answers: Vec<&str> = answers.split(" | ").collect();
        assert_eq!(calls.split(' ').count(), answers.len(), "{calls}");
        for (call, wanted) in calls.split(' ').zip(answers) {
            self.feedings += 1;
            let (flag, text) = call.split_at(1);
            let events = self.call(&bytes(text), flag == "+");
            self.compare(&events, wanted);
        }
    }

    fn check_line(&mut self, line: &str) {
        let (given, answers) = line.split_once(" = ").expect(line);
        match given.as_bytes()[0] {
            b'*' => self.check_whole(&bytes(&given[1..]), answers),
            b'+' | b'-' => self.check_calls(given, answers),
            _ => self.check_rows(line),
        }
    }
}

// Feeds each line of a file to a parser.
pub fn feed_file(reader: &mut impl Reader, file: &str) -> Counts {
    let mut counts = Counts::default();
    for line in data(file).lines().filter(|line| !line.starts_with('#')) {
        let mut feeder = Feeder::new(reader);
        feeder.check_line(line);
        counts.lines += 1;
        counts.feedings += feeder.feedings;
        counts.others += usize::from(feeder.is_other);
    }
    counts
}

// Each line of the file is answered as it was recorded.
pub fn check_file(reader: &mut impl Reader, file: &str) {
    let mut wanted = told(file);
    wanted.others = 0;
    assert_eq!(feed_file(reader, file), wanted, "{file}");
}
