// What is sent for mouse reports and pastes. It follows docs/SENDERS.md sentence by sentence, and shares nothing
// with the library but the types of reports.
use crate::port::names::named;
use hedrugal::{Modifiers, MouseButton, MouseEncoding, MouseError, MouseTracking, SentMouse};
use Action::{Drag, Move, Press, Release};

// What happens to a button, or to none.
#[derive(Clone, Copy, PartialEq)]
enum Action {
    Press,
    Release,
    Drag,
    Move,
}

pub const TRACKINGS: &[(&str, MouseTracking)] = named![MouseTracking: X10 Normal Button Any];

pub const ENCODINGS: &[(&str, MouseEncoding)] = named![MouseEncoding: Default Urxvt Sgr];

pub const BUTTONS: &[(&str, MouseButton)] = named![MouseButton: None
    Button1Press Button2Press Button3Press Button4Press Button5Press Button6Press Button7Press
    Button1Release Button2Release Button3Release Button4Release Button5Release Button6Release
    Button7Release Button1Drag Button2Drag Button3Drag
];

// What the name of a button says, and the button's code: 0 to 2 of the first three, 64 to 67 of the wheels.
fn meaning(button: MouseButton) -> (Action, u8) {
    let row = BUTTONS.iter().find(|(_, it)| *it == button);
    let name = row.expect("each button has a name").0;
    let Some(said) = name.strip_prefix("Button") else {
        return (Move, 3);
    };
    let (number, action) = said.split_at(1);
    let code = [0, 1, 2, 64, 65, 66, 67][number.parse::<usize>().expect(name) - 1];
    let action = match action {
        "Press" => Press,
        "Release" => Release,
        _ => Drag,
    };
    (action, code)
}

// The bytes of a report, none if the program didn't ask for it.
pub fn mouse(
    report: SentMouse,
    tracking: MouseTracking,
    encoding: MouseEncoding,
) -> Result<Vec<u8>, MouseError> {
    let (action, button) = meaning(report.button);
    let is_asked = match tracking {
        MouseTracking::X10 => action == Press,
        MouseTracking::Normal => matches!(action, Press | Release),
        MouseTracking::Button => action != Move,
        MouseTracking::Any => true,
    };
    if !is_asked {
        return Ok(Vec::new());
    }
    let mut code = match action {
        Drag | Move => button + 32,
        Release if encoding != MouseEncoding::Sgr => 3,
        Press | Release => button,
    };
    for (modifier, more) in [
        (Modifiers::SHIFT, 4),
        (Modifiers::ALT, 8),
        (Modifiers::CTRL, 16),
    ] {
        if report.modifiers.contains(modifier) && tracking != MouseTracking::X10 {
            code += more;
        }
    }
    let SentMouse { x, y, .. } = report;
    Ok(match encoding {
        MouseEncoding::Default if x > 223 || y > 223 => return Err(MouseError::TooFar),
        MouseEncoding::Default => vec![0x1b, b'[', b'M', 32 + code, 32 + x as u8, 32 + y as u8],
        MouseEncoding::Urxvt => format!("\x1b[{};{x};{y}M", 32 + code).into_bytes(),
        MouseEncoding::Sgr => {
            let end = if action == Release { 'm' } else { 'M' };
            format!("\x1b[<{code};{x};{y}{end}").into_bytes()
        }
    })
}

// The safe text of a paste.
pub fn safe(text: &str) -> String {
    let safe = text.replace("\r\n", "\r");
    let safe = safe.chars().map(|it| match u32::from(it) {
        10 => '\r',
        9 | 13 => it,
        code @ 0..=31 => char::from_u32(0x2400 + code).expect("a picture"),
        127 => '\u{2421}',
        128..=159 => '\u{fffd}',
        _ => it,
    });
    safe.collect()
}
