// A slow reader and printer of the names of keys. It follows the part "Names" of the page of the crate
// termwiz_bindings sentence by sentence, and shares nothing with the library but the types.
use super::keys::listed;
use super::pressed;
use super::presses::{is_sign_of_shift, said_of, Press, Said};
use crate::port::lines::Keys;
use crate::port::names::PLAIN_KEYS;
use hedrugal::input::KeyCode::{self, Char};
use hedrugal::{KeyNameErrorKind as Fault, KittyModifiers as Held, ReportedKey};

// What is wrong, and the byte where that part starts.
pub type Wrong = (Fault, usize);

type Row = (
    Held,
    &'static str,
    &'static [&'static str],
    &'static str,
    &'static str,
);

// The modifiers, in the order in which they are printed: each by its word, by its further words, by the
// letters of Emacs and by those of Vim.
const MODIFIERS: &[Row] = &[
    (Held::SUPER, "super", &["cmd", "win"], "s", "d"),
    (Held::HYPER, "hyper", &[], "H", ""),
    (Held::META, "meta", &[], "", "t"),
    (Held::CTRL, "ctrl", &["control"], "C", "c"),
    (Held::ALT, "alt", &["option"], "MA", "ma"),
    (Held::SHIFT, "shift", &[], "S", "s"),
];

// Words for keys beside the names of their codes. A modifier by itself is the name of its key.
static WORDS: Keys = Keys::new(
    "space: U+0020 spc: U+0020 up: UpArrow down: DownArrow left: LeftArrow right: RightArrow \
     begin: KeyPadBegin menu: Applications esc: Escape return: Enter ret: Enter cr: Enter \
     kpenter: Enter del: Delete ins: Insert bs: Backspace pgup: PageUp prior: PageUp pgdn: PageDown \
     next: PageDown plus: + minus: - comma: , less: < lt: < greater: > gt: > bar: | bslash: \\ \
     kpequal: = ctrl: Control option: Alt cmd: Super win: Super",
);

// The characters that are printed as they are, but for those of ASCII: the first and the last of each range.
const SHOWN: &str = "\u{a1}\u{ac}\u{ae}\u{2ff}\u{370}\u{377}\u{37a}\u{37f}\u{384}\u{38a}\u{38c}\u{38c}\
    \u{38e}\u{3a1}\u{3a3}\u{482}\u{48a}\u{52f}\u{5d0}\u{5ea}\u{620}\u{64a}\u{10d0}\u{10ff}\u{1e00}\u{1eff}\
    \u{20a0}\u{20bf}\u{3041}\u{3096}\u{30a1}\u{30fa}\u{4e00}\u{9ffc}\u{ac00}\u{d7a3}";

// The keys that have a name of their own: all but characters, function keys and Windows' Menu.
fn named_keys() -> impl Iterator<Item = KeyCode> {
    let keys = PLAIN_KEYS.iter().copied();
    keys.filter(|key| *key != KeyCode::Menu)
}

fn lower_name(key: KeyCode) -> String {
    format!("{key:?}").to_ascii_lowercase()
}

// The key of a word, which is read in any case.
fn key_of_word(word: &str) -> Option<KeyCode> {
    let word = word.to_ascii_lowercase();
    listed(&WORDS, &word).or_else(|| named_keys().find(|key| lower_name(*key) == word))
}

// The number behind this word, if the name is the word and digits. The number may be wrong.
fn numbered(name: &str, word: &str, least: u32, most: u32) -> Option<Result<u32, Fault>> {
    let front = name.get(..word.len())?;
    let digits = &name[word.len()..];
    if !front.eq_ignore_ascii_case(word)
        || digits.is_empty()
        || !digits.bytes().all(|byte| byte.is_ascii_digit())
    {
        return None;
    }
    let number = digits.parse::<u32>().ok();
    let number = number.filter(|n| n.to_string() == digits && (least..=most).contains(n));
    Some(number.ok_or(Fault::BadNumber))
}

// The character by its number, if the name is U+ and 4 to 6 hexadecimal digits.
fn code_point(name: &str) -> Option<Result<ReportedKey, Fault>> {
    let digits = name.strip_prefix("U+").or(name.strip_prefix("u+"))?;
    let is_number =
        (4..=6).contains(&digits.len()) && digits.bytes().all(|b| b.is_ascii_hexdigit());
    let number = is_number.then(|| u32::from_str_radix(digits, 16).unwrap())?;
    let c = char::from_u32(number).ok_or(Fault::BadNumber);
    Some(c.map(|c| ReportedKey::Named(Char(c))))
}

// A word, or a number.
fn word(name: &str) -> Result<ReportedKey, Fault> {
    if name == "DEL" {
        return Err(Fault::Ambiguous);
    }
    if let Some(number) = numbered(name, "f", 0, 255) {
        return Ok(ReportedKey::Named(KeyCode::Function(number? as u8)));
    }
    if let Some(number) = numbered(name, "kitty", 57344, 63743) {
        return Ok(ReportedKey::Functional(number?));
    }
    let key = key_of_word(name).ok_or(Fault::UnknownName)?;
    Ok(ReportedKey::Named(key))
}

fn spelled(name: &str) -> Result<ReportedKey, Fault> {
    code_point(name).unwrap_or_else(|| word(name))
}

fn one_character(text: &str) -> Option<char> {
    let mut characters = text.chars();
    characters.next().filter(|_| characters.next().is_none())
}

fn any_name(name: &str) -> Result<ReportedKey, Fault> {
    match one_character(name) {
        Some(c) => Ok(ReportedKey::Named(Char(c))),
        None => spelled(name),
    }
}

fn press_of(key: ReportedKey, held: Held) -> Option<Press> {
    match said_of(&pressed(key, held)) {
        Said::Press(press) => Some(press),
        _ => None,
    }
}

// The press of a key that was read, with its modifiers.
fn press(key: Result<ReportedKey, Fault>, held: Held) -> Result<Press, Fault> {
    let mut key = key?;
    // What the key types without modifiers: it may be one of the keypad.
    if let Some((ReportedKey::Named(Char(c)), bare)) = press_of(key, Held::NONE) {
        if bare == Held::NONE && held.contains(Held::SHIFT) && is_sign_of_shift(c) {
            return Err(Fault::ShiftedCharacter);
        }
    }
    if let ReportedKey::Named(Char(c)) = key {
        if held.contains(Held::CTRL) {
            key = ReportedKey::Named(Char(c.to_ascii_lowercase()));
        }
    }
    press_of(key, held).ok_or(Fault::NotAKey)
}

// One more modifier, which stands at this byte.
fn with(held: Held, modifier: Held, at: usize) -> Result<Held, Wrong> {
    if held.contains(modifier) {
        return Err((Fault::ModifierTwice, at));
    }
    Ok(held.union(modifier))
}

// The modifier of a row.
fn modifier_of(is: impl Fn(&Row) -> bool) -> Option<Held> {
    let row = MODIFIERS.iter().find(|row| is(row));
    row.map(|row| row.0)
}

fn of_word(word: &str) -> Option<Held> {
    let is = |known: &&str| known.eq_ignore_ascii_case(word);
    modifier_of(|row| is(&row.1) || row.2.iter().any(is))
}

fn of_emacs_letter(letter: char) -> Option<Held> {
    modifier_of(|row| row.3.contains(letter))
}

fn of_vim_letter(letter: char) -> Option<Held> {
    modifier_of(|row| row.4.contains(letter.to_ascii_lowercase()))
}

// The letters in front of a name, each with `-` behind it: what they stand for, and where the name is.
fn letters(text: &str, of: impl Fn(char) -> Option<Held>) -> Result<(Held, usize), Wrong> {
    let (mut held, mut at) = (Held::NONE, 0);
    while let [letter, b'-', ..] = text.as_bytes()[at..] {
        let Some(modifier) = of(char::from(letter)) else {
            break;
        };
        // Where nothing stands behind the letters the key is missing.
        if text.len() == at + 2 {
            return Err((Fault::MissingKey, at + 2));
        }
        held = with(held, modifier, at)?;
        at += 2;
    }
    Ok((held, at))
}

// What stands between brackets.
fn in_brackets(text: &str) -> Option<&str> {
    let inner = text.strip_prefix('<')?.strip_suffix('>')?;
    Some(inner).filter(|inner| !inner.is_empty())
}

// `<C-x>`
fn vim_key(inner: &str) -> Result<Press, Wrong> {
    let (held, at) = letters(inner, of_vim_letter)?;
    let name = &inner[at..];
    // A character stands only behind a letter.
    let key = match at {
        0 => spelled(name),
        _ => any_name(name),
    };
    press(key, held).map_err(|fault| (fault, at))
}

// `C-x`, `C-<f5>`
fn emacs_key(text: &str) -> Result<Press, Wrong> {
    let (held, at) = letters(text, of_emacs_letter)?;
    let name = &text[at..];
    match in_brackets(name) {
        Some(inner) => press(spelled(inner), held).map_err(|fault| (fault, at + 1)),
        None => press(any_name(name), held).map_err(|fault| (fault, at)),
    }
}

// `ctrl+x`
fn worded_key(text: &str) -> Result<Press, Wrong> {
    let (mut held, mut at) = (Held::NONE, 0);
    loop {
        let rest = &text[at..];
        // A separator has a word in front of it.
        let mut behind = rest.char_indices().skip(1);
        let separator = behind.find(|(_, c)| matches!(c, '+' | '-'));
        let is_word = |end: &usize| one_character(&rest[..*end]).is_none();
        let Some(end) = separator.map(|(end, _)| end).filter(is_word) else {
            break;
        };
        let Some(modifier) = of_word(&rest[..end]) else {
            return Err((Fault::UnknownModifier, at));
        };
        held = with(held, modifier, at)?;
        at += end + 1;
    }
    let name = &text[at..];
    if name.is_empty() {
        return Err((Fault::MissingKey, at));
    }
    press(any_name(name), held).map_err(|fault| (fault, at))
}

fn key(text: &str) -> Result<Press, Wrong> {
    if let Some(inner) = in_brackets(text) {
        return vim_key(inner).map_err(|(fault, at)| (fault, at + 1));
    }
    let mut characters = text.chars();
    let begins = characters.next().and_then(of_emacs_letter).is_some();
    if begins && characters.next() == Some('-') && characters.next().is_some() {
        return emacs_key(text);
    }
    worded_key(text)
}

// The presses that a text names.
pub fn read(text: &str) -> Result<Vec<Press>, Wrong> {
    let is_blank = |c: char| c == ' ' || c == '\t';
    let is_control = |(_, c): &(usize, char)| c.is_control() && *c != '\t';
    if let Some((at, _)) = text.char_indices().find(is_control) {
        return Err((Fault::ControlCharacter, at));
    }
    let mut presses = Vec::new();
    let mut at = 0;
    loop {
        let rest = &text[at..];
        let Some(start) = rest.find(|c| !is_blank(c)) else {
            break;
        };
        at += start;
        if presses.len() == 32 {
            return Err((Fault::TooLong, at));
        }
        let rest = &text[at..];
        let end = rest.find(is_blank).unwrap_or(rest.len());
        presses.push(key(&rest[..end]).map_err(|(fault, inside)| (fault, at + inside))?);
        at += end;
    }
    if presses.is_empty() {
        return Err((Fault::Empty, 0));
    }
    Ok(presses)
}

fn printed_key(key: ReportedKey) -> String {
    match key {
        ReportedKey::Functional(number) => format!("kitty{number}"),
        ReportedKey::Named(Char(' ')) => "space".to_string(),
        ReportedKey::Named(Char(c)) => {
            let number = u32::from(c);
            let ends: Vec<char> = SHOWN.chars().collect();
            let is_shown = ends.chunks(2).any(|it| (it[0]..=it[1]).contains(&c));
            if c.is_ascii_graphic() || is_shown {
                c.to_string()
            } else {
                format!("U+{number:04X}")
            }
        }
        ReportedKey::Named(KeyCode::Function(number)) => format!("f{number}"),
        ReportedKey::Named(KeyCode::UpArrow) => "up".to_string(),
        ReportedKey::Named(KeyCode::DownArrow) => "down".to_string(),
        ReportedKey::Named(KeyCode::LeftArrow) => "left".to_string(),
        ReportedKey::Named(KeyCode::RightArrow) => "right".to_string(),
        ReportedKey::Named(KeyCode::KeyPadBegin) => "begin".to_string(),
        ReportedKey::Named(KeyCode::Applications) => "menu".to_string(),
        ReportedKey::Named(key) => lower_name(key),
    }
}

// The name of a press.
pub fn print((key, held): Press) -> String {
    let modifiers = MODIFIERS.iter().filter(|row| held.contains(row.0));
    let modifiers: String = modifiers.map(|row| format!("{}+", row.1)).collect();
    modifiers + &printed_key(key)
}
