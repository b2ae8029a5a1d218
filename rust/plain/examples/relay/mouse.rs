//! What the child gets for a mouse report.
use crate::modes::ChildModes;
use hedrugal::{
    Event, Modifiers, MouseEncoding, MouseKind, MouseReport, MouseTracking, Parser, SentMouse,
};

/// Returns what the child gets for a report.
pub fn mouse_bytes(report: &MouseReport, modes: &ChildModes, parser: &Parser) -> Vec<u8> {
    let Some(tracking) = modes.mouse_tracking() else {
        return Vec::new();
    };
    let encoding = modes.mouse_encoding();
    // The terminal reports by mode 1006, where each release tells its button.
    let sent = match SentMouse::of(report) {
        // A place that the child's encoding can't tell isn't sent.
        Some(sent) => sent.encode(tracking, encoding).ok(),
        None if gets_side_button(report, tracking, encoding) => {
            Event::Mouse(*report).encode(parser).ok()
        }
        None => None,
    };
    sent.unwrap_or_default()
}

/// Whether the child gets a report of a side button. Only by mode 1006 such a report is written.
fn gets_side_button(
    report: &MouseReport,
    tracking: MouseTracking,
    encoding: MouseEncoding,
) -> bool {
    let is_tracked = match tracking {
        MouseTracking::X10 => {
            report.kind == MouseKind::Press && report.modifiers == Modifiers::NONE
        }
        MouseTracking::Normal => report.kind != MouseKind::Drag,
        MouseTracking::Button | MouseTracking::Any => true,
    };
    is_tracked && encoding == MouseEncoding::Sgr
}
