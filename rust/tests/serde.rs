// The derives behind the feature `serde`.
use hedrugal::input::{InputEvent, KeyEvent, MouseEvent, PixelMouseEvent};
use hedrugal::{
    Event, KeyCode, KeyEventKind, KeyReport, KittyKeyboardFlags, KittyModifiers, Modifiers,
    MouseButtons, MouseKind, MouseReport, Policy, ReportedKey, SequenceBytes, Size, StringKind,
};
use serde::de::DeserializeOwned;
use serde::Serialize;
use std::fmt::Debug;
use std::time::Duration;

// A value and its JSON, in both directions.
fn check<T: Serialize + DeserializeOwned + PartialEq + Debug>(value: T, json: &str) {
    let written = serde_json::to_string(&value).expect("JSON is written");
    assert_eq!(written, json);
    let read: T = serde_json::from_str(json).expect("JSON is read");
    assert_eq!(read, value);
}

const BOTH: Modifiers = Modifiers::SHIFT.union(Modifiers::CTRL);

#[test]
fn writes_and_reads_flags() {
    check(BOTH, "\"SHIFT | CTRL\"");
    check(Modifiers::NONE, "\"\"");
    check(Modifiers::from_bits_retain(0x8002), "\"SHIFT | 0x8000\"");
    check(MouseButtons::VERT_WHEEL, "\"VERT_WHEEL\"");
    let types = KittyKeyboardFlags::REPORT_EVENT_TYPES;
    check(types, "\"REPORT_EVENT_TYPES\"");
    assert!(serde_json::from_str::<Modifiers>("\"SHFT\"").is_err());
    assert!(serde_json::from_str::<Modifiers>("2").is_err());
}

#[test]
fn writes_and_reads_keys() {
    check(KeyCode::Char('é'), "{\"Char\":\"é\"}");
    check(KeyCode::Function(12), "{\"Function\":12}");
    check(KeyCode::KeyPadBegin, "\"KeyPadBegin\"");
}

#[test]
fn writes_and_reads_events() {
    let (key, modifiers) = (KeyCode::UpArrow, BOTH);
    check(
        InputEvent::Key(KeyEvent { key, modifiers }),
        r#"{"Key":{"key":"UpArrow","modifiers":"SHIFT | CTRL"}}"#,
    );
    let mouse_buttons = MouseButtons::LEFT;
    check(
        InputEvent::Mouse(MouseEvent {
            x: 3,
            y: 4,
            mouse_buttons,
            modifiers,
        }),
        r#"{"Mouse":{"x":3,"y":4,"mouse_buttons":"LEFT","modifiers":"SHIFT | CTRL"}}"#,
    );
    check(
        InputEvent::PixelMouse(PixelMouseEvent {
            x_pixels: 30,
            y_pixels: 40,
            mouse_buttons,
            modifiers,
        }),
        r#"{"PixelMouse":{"x_pixels":30,"y_pixels":40,"mouse_buttons":"LEFT","modifiers":"SHIFT | CTRL"}}"#,
    );
    let resized = InputEvent::Resized { cols: 80, rows: 24 };
    check(resized, r#"{"Resized":{"cols":80,"rows":24}}"#);
    check(InputEvent::Paste("text".to_string()), r#"{"Paste":"text"}"#);
    check(InputEvent::Wake, "\"Wake\"");
}

#[test]
fn writes_and_reads_policies() {
    let policy = Policy {
        paste: Some(Duration::from_secs(10)),
        sequence: None,
        ..Policy::usual()
    };
    let json = serde_json::to_value(policy).expect("JSON is written");
    for (limit, wanted) in [
        ("escape", r#"{"nanos":50000000,"secs":0}"#),
        ("alt_key", r#"{"nanos":100000000,"secs":0}"#),
        ("sequence", "null"),
        ("string", r#"{"nanos":0,"secs":5}"#),
        ("character", "null"),
        ("paste", r#"{"nanos":0,"secs":10}"#),
    ] {
        assert_eq!(json[limit].to_string(), wanted, "{limit}");
    }
    let json = serde_json::to_string(&policy).expect("JSON is written");
    check(policy, &json);
}

#[test]
fn writes_and_reads_extended_events() {
    let report = KeyReport {
        key: ReportedKey::Functional(57428),
        modifiers: KittyModifiers::SHIFT | KittyModifiers::NUM_LOCK,
        kind: KeyEventKind::Release,
        shifted: Some('A'),
        base: None,
        text: String::new(),
    };
    check(
        Event::Key(report),
        r#"{"Key":{"key":{"Functional":57428},"modifiers":"SHIFT | NUM_LOCK","kind":"Release","shifted":"A","base":null,"text":""}}"#,
    );
    check(Event::Paste("text".to_string()), r#"{"Paste":"text"}"#);
    let (row, column) = (24, 80);
    let position = Event::CursorPosition { row, column };
    check(position, r#"{"CursorPosition":{"row":24,"column":80}}"#);
    check(
        Event::Mouse(MouseReport {
            x: 3,
            y: 4,
            modifiers: BOTH,
            buttons: MouseButtons::LEFT,
            kind: MouseKind::Drag,
            button: Some(1),
        }),
        r#"{"Mouse":{"x":3,"y":4,"modifiers":"SHIFT | CTRL","buttons":"LEFT","kind":"Drag","button":1}}"#,
    );
    check(
        Event::Resized(Size {
            columns: 80,
            rows: 24,
            width: 0,
            height: 0,
        }),
        r#"{"Resized":{"columns":80,"rows":24,"width":0,"height":0}}"#,
    );
    let flags = Event::KeyboardFlags(KittyKeyboardFlags::REPORT_EVENT_TYPES);
    check(flags, r#"{"KeyboardFlags":"REPORT_EVENT_TYPES"}"#);
    check(Event::Osc(b"1;".into()), r#"{"Osc":[49,59]}"#);
    let many = vec![7; 4096];
    let json = serde_json::to_string(&many).expect("JSON is written");
    check(Event::Apc(many.into()), &format!("{{\"Apc\":{json}}}"));
    let (kind, bytes) = (StringKind::Dcs, SequenceBytes::from(b">|"));
    let cut = Event::StringCut {
        kind,
        bytes: bytes.clone(),
    };
    check(cut, r#"{"StringCut":{"kind":"Dcs","bytes":[62,124]}}"#);
    let part = Event::StringPart { kind, bytes };
    check(part, r#"{"StringPart":{"kind":"Dcs","bytes":[62,124]}}"#);
}
