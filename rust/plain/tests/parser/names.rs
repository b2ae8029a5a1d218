// The flags and the keys by their names.
use hedrugal::input::{KeyCode, Modifiers, MouseButtons};

// Values of a type, each with its name there.
macro_rules! named {
    ($type:ident: $($name:ident)*) => { &[$((stringify!($name), $type::$name)),*] };
}

// Keys by the names of their codes.
macro_rules! keys {
    ($($name:ident)*) => { [$(hedrugal::input::KeyCode::$name),*] };
}

#[allow(unused_imports)] // not each program with this module uses both
pub(crate) use {keys, named};

pub const MODIFIERS: &[(&str, Modifiers)] = named! { Modifiers:
    // hedrugal.h: termwiz_mod named
    SHIFT ALT CTRL SUPER LEFT_ALT RIGHT_ALT LEADER LEFT_CTRL RIGHT_CTRL LEFT_SHIFT RIGHT_SHIFT
    // hedrugal.h: end
};

pub const BUTTONS: &[(&str, MouseButtons)] = named! { MouseButtons:
    // hedrugal.h: button named
    LEFT RIGHT MIDDLE VERT_WHEEL HORZ_WHEEL WHEEL_POSITIVE
    // hedrugal.h: end
};

// The keys that carry nothing.
pub const PLAIN_KEYS: &[KeyCode] = &keys! {
    // hedrugal.h: key plain
    Hyper Super Meta Cancel Backspace Tab Clear Enter Shift Escape LeftShift RightShift Control
    LeftControl RightControl Alt LeftAlt RightAlt Menu LeftMenu RightMenu Pause CapsLock PageUp
    PageDown End Home LeftArrow RightArrow UpArrow DownArrow Select Print Execute PrintScreen Insert
    Delete Help LeftWindows RightWindows Applications Sleep Numpad0 Numpad1 Numpad2 Numpad3 Numpad4
    Numpad5 Numpad6 Numpad7 Numpad8 Numpad9 Multiply Add Separator Subtract Decimal Divide NumLock
    ScrollLock Copy Cut Paste BrowserBack BrowserForward BrowserRefresh BrowserStop BrowserSearch
    BrowserFavorites BrowserHome VolumeMute VolumeDown VolumeUp MediaNextTrack MediaPrevTrack
    MediaStop MediaPlayPause ApplicationLeftArrow ApplicationRightArrow ApplicationUpArrow
    ApplicationDownArrow KeyPadHome KeyPadEnd KeyPadPageUp KeyPadPageDown KeyPadBegin
    InternalPasteStart InternalPasteEnd
    // hedrugal.h: end
};
