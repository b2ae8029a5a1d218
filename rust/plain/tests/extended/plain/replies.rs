// What replies say, by the rules of docs/EXTENDED.md, read slowly and with nothing of the library.
use hedrugal::{Colour, ColourName, ColourScheme, DeviceAttributes, ModeState, Reply};
use std::fmt::Debug;

// A number of at most so many digits, up to the limit.
fn number(text: &str, most: usize, limit: u32) -> Option<u32> {
    let is_number = !text.is_empty() && text.len() <= most;
    if !is_number || !text.bytes().all(|byte| byte.is_ascii_digit()) {
        return None;
    }
    text.parse().ok().filter(|number| *number <= limit)
}

fn long(text: &str) -> Option<u32> {
    number(text, 7, 9_999_999)
}

fn short(text: &str) -> Option<u16> {
    number(text, 5, 65535).map(|number| number as u16)
}

fn attributes(report: DeviceAttributes, numbers: Option<Vec<u32>>) -> Option<Reply> {
    numbers.map(|numbers| Reply::DeviceAttributes { report, numbers })
}

fn mode(text: &str) -> Option<Reply> {
    let body = text.strip_suffix("$y")?;
    let fields: Vec<&str> = body.trim_start_matches('?').split(';').collect();
    if body.starts_with("??") || fields.len() != 2 {
        return None;
    }
    Some(Reply::Mode {
        mode: long(fields[0])?,
        is_private: body.starts_with('?'),
        state: match number(fields[1], 7, 4)? {
            0 => ModeState::NotRecognized,
            1 => ModeState::Set,
            2 => ModeState::Reset,
            3 => ModeState::PermanentlySet,
            _ => ModeState::PermanentlyReset,
        },
    })
}

fn control_sequence(text: &str) -> Option<Reply> {
    if text.ends_with("$y") {
        return mode(text);
    }
    if let Some(body) = text.strip_suffix('t') {
        let fields: Vec<&str> = body.split(';').collect();
        return match fields[..] {
            ["8", rows, columns] => Some(Reply::WindowSize {
                rows: short(rows)?,
                columns: short(columns)?,
            }),
            _ => None,
        };
    }
    match text {
        "?997;1n" => return Some(Reply::ColourScheme(ColourScheme::Dark)),
        "?997;2n" => return Some(Reply::ColourScheme(ColourScheme::Light)),
        _ => (),
    }
    let body = text.strip_suffix('c')?;
    if let Some(body) = body.strip_prefix('?') {
        let is_first = |(place, field): &(usize, &str)| *place == 0 || !field.is_empty();
        let fields = body.split(';').enumerate().filter(is_first);
        let numbers = fields.map(|(_, field)| long(field)).collect();
        return attributes(DeviceAttributes::Primary, numbers);
    }
    let numbers: Option<Vec<u32>> = body.strip_prefix('>')?.split(';').map(long).collect();
    let three = numbers.filter(|numbers| numbers.len() == 3);
    attributes(DeviceAttributes::Secondary, three)
}

// One to four hexadecimal digits.
fn part(text: &str) -> Option<u16> {
    let is_hex = text.bytes().all(|byte| byte.is_ascii_hexdigit());
    if !is_hex || text.is_empty() || text.len() > 4 {
        return None;
    }
    let largest = u64::from_str_radix(&"f".repeat(text.len()), 16).ok()?;
    let share = u64::from_str_radix(text, 16).ok()? * 65535 / largest;
    Some(share as u16)
}

fn colour(name: ColourName, text: &str) -> Option<Reply> {
    let parts: Vec<&str> = text.strip_prefix("rgb:")?.split('/').collect();
    let [red, green, blue] = parts[..] else {
        return None;
    };
    let colour = Colour {
        red: part(red)?,
        green: part(green)?,
        blue: part(blue)?,
    };
    Some(Reply::Colour { name, colour })
}

const ALPHABET: &[u8; 64] = b"ABCDEFGHIJKLMNOPQRSTUVWXYZabcdefghijklmnopqrstuvwxyz0123456789+/";

// Base64 of bytes, bit by bit.
fn encoded(bytes: &[u8]) -> String {
    let bits: Vec<bool> = bytes
        .iter()
        .flat_map(|byte| (0..8).rev().map(move |bit| byte >> bit & 1 == 1))
        .collect();
    let mut text: String = bits
        .chunks(6)
        .map(|chunk| {
            let filled = chunk.iter().chain([false; 6].iter()).take(6);
            let place = filled.fold(0, |place, bit| place * 2 + usize::from(*bit));
            char::from(ALPHABET[place])
        })
        .collect();
    while text.len() % 4 != 0 {
        text.push('=');
    }
    text
}

// The bytes whose base64 the text is: it is taken apart without care, and compared.
fn decoded(text: &str) -> Option<Vec<u8>> {
    let places = text
        .bytes()
        .map_while(|byte| ALPHABET.iter().position(|letter| *letter == byte));
    let bits: Vec<usize> = places
        .flat_map(|place| (0..6).rev().map(move |bit| place >> bit & 1))
        .collect();
    let bytes: Vec<u8> = bits
        .chunks_exact(8)
        .map(|chunk| chunk.iter().fold(0, |byte, bit| byte * 2 + *bit) as u8)
        .collect();
    (encoded(&bytes) == text).then_some(bytes)
}

fn command(text: &str) -> Option<Reply> {
    let fields: Vec<&str> = text.split(';').collect();
    match fields[..] {
        ["10", text] => colour(ColourName::Foreground, text),
        ["11", text] => colour(ColourName::Background, text),
        ["12", text] => colour(ColourName::Cursor, text),
        ["4", index, text] => colour(ColourName::Palette(short(index)?), text),
        ["52", selection, text] => {
            let known = [
                "", "c", "p", "q", "s", "0", "1", "2", "3", "4", "5", "6", "7",
            ];
            let bytes = decoded(text).filter(|_| known.contains(&selection))?;
            let selection = selection.chars().next();
            Some(Reply::Clipboard { selection, bytes })
        }
        _ => None,
    }
}

fn device_control_string(bytes: &[u8]) -> Option<Reply> {
    if let Some(name) = bytes.strip_prefix(b">|") {
        return Some(Reply::Version(String::from_utf8_lossy(name).into_owned()));
    }
    let digits = bytes.strip_prefix(b"!|").filter(|it| !it.is_empty())?;
    let of = |pair: &[u8]| {
        let digit = |byte: &u8| char::from(*byte).to_digit(16);
        match pair {
            [high, low] => Some(digit(high)? * 16 + digit(low)?),
            _ => None,
        }
    };
    attributes(
        DeviceAttributes::Tertiary,
        digits.chunks(2).map(of).collect(),
    )
}

// What an event with these bytes says, by the byte that follows its ESC.
pub fn reply(introducer: u8, bytes: &[u8]) -> Option<Reply> {
    // Each byte of a text that isn't ASCII is no part of a reply but of a version.
    let text: String = bytes.iter().map(|byte| char::from(*byte)).collect();
    match introducer {
        b'[' => control_sequence(&text),
        b']' => command(&text),
        b'P' => device_control_string(bytes),
        _ => None,
    }
}

// left_arrow of LeftArrow.
pub fn snake(name: &str) -> String {
    let mut snake = String::new();
    for letter in name.chars() {
        if letter.is_uppercase() && !snake.is_empty() {
            snake.push('_');
        }
        snake.push(letter.to_ascii_lowercase());
    }
    snake
}

// The name of a variant, as the header has it.
fn name_of(it: impl Debug) -> String {
    let name = format!("{it:?}");
    let end = name.find(|it: char| !it.is_alphanumeric());
    snake(&name[..end.unwrap_or(name.len())])
}

// A reply in words: its kind, the fields that it has, and its numbers. Behind them come its bytes.
pub fn words(reply: &Reply) -> (String, &[u8]) {
    let (mut fields, mut brought) = (String::new(), &[][..]);
    match reply {
        Reply::DeviceAttributes { report, numbers } => {
            fields = format!(" report={}", name_of(report));
            fields.extend(numbers.iter().map(|it| format!(" {it}")));
        }
        Reply::Mode {
            mode,
            is_private,
            state,
        } => {
            let (state, is_private) = (name_of(state), u8::from(*is_private));
            fields = format!(" state={state} is_private={is_private} mode={mode}");
        }
        Reply::Colour { name, colour } => {
            let index = match name {
                ColourName::Palette(index) => *index,
                _ => 0,
            };
            let Colour { red, green, blue } = colour;
            let name = name_of(name);
            fields = format!(" name={name} index={index} red={red} green={green} blue={blue}");
        }
        Reply::Version(text) => brought = text.as_bytes(),
        Reply::WindowSize { rows, columns } => fields = format!(" rows={rows} columns={columns}"),
        Reply::ColourScheme(scheme) => fields = format!(" scheme={}", name_of(scheme)),
        Reply::Clipboard { selection, bytes } => {
            fields = format!(" selection={}", selection.iter().collect::<String>());
            brought = bytes;
        }
    }
    (name_of(reply) + &fields, brought)
}
