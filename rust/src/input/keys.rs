// Keys, and their numbers in the C library.

/// A key: by the character that it types, or by its name.
///
/// Terminals report only some of these keys; the rest are for programs that have keys from
/// elsewhere, such as a window system.
///
/// ```
/// use hedrugal::input::KeyCode;
///
/// assert_eq!(format!("{:?}", KeyCode::Function(5)), "Function(5)");
/// assert_ne!(KeyCode::Char('a'), KeyCode::Char('A'));
/// ```
///
/// A key is printed by its [name](crate::Chord), and read from one. That is the key of its
/// [press](crate::KeyPress):
///
/// ```
/// use hedrugal::input::KeyCode;
///
/// assert_eq!(KeyCode::ApplicationUpArrow.to_string(), "up");
/// assert_eq!("pgdn".parse(), Ok(KeyCode::PageDown));
/// ```
#[derive(Debug, Clone, Copy, PartialEq, Eq, PartialOrd, Ord, Hash)]
#[cfg_attr(feature = "serde", derive(serde::Serialize, serde::Deserialize))]
pub enum KeyCode {
    // hedrugal.h: key variant
    /// A key that types a character: `A` is what Shift-A types, and Ctrl-C is `c` with CTRL.
    Char(char),
    /// Hyper, a modifier key.
    Hyper,
    /// Super, a modifier key: on most keyboards the one with the Windows logo, or Command.
    Super,
    /// Meta, a modifier key. The key that is labelled Alt is `Alt`.
    Meta,
    /// Cancel, which on PC keyboards is Ctrl-Break.
    Cancel,
    /// Backspace, which deletes the character before the cursor.
    Backspace,
    /// Tab. Shift-Tab is this key with SHIFT.
    Tab,
    /// Clear, which on PC keyboards is the 5 of the keypad while Num Lock is off.
    Clear,
    /// Enter, also called Return.
    Enter,
    /// Shift, where it isn't known which of the two.
    Shift,
    /// Escape.
    Escape,
    /// The left Shift key.
    LeftShift,
    /// The right Shift key.
    RightShift,
    /// Ctrl, where it isn't known which of the two.
    Control,
    /// The left Ctrl key.
    LeftControl,
    /// The right Ctrl key.
    RightControl,
    /// Alt, or Option, where it isn't known which of the two.
    Alt,
    /// The left Alt key.
    LeftAlt,
    /// The right Alt key, also called AltGr.
    RightAlt,
    /// Menu, Windows' name for Alt (`VK_MENU`). The key that opens a context menu is `Applications`.
    Menu,
    /// Windows' name for the left Alt key (`VK_LMENU`).
    LeftMenu,
    /// Windows' name for the right Alt key (`VK_RMENU`).
    RightMenu,
    /// Pause.
    Pause,
    /// Caps Lock.
    CapsLock,
    /// Page Up.
    PageUp,
    /// Page Down.
    PageDown,
    /// End.
    End,
    /// Home.
    Home,
    /// The left arrow key.
    LeftArrow,
    /// The right arrow key.
    RightArrow,
    /// The up arrow key.
    UpArrow,
    /// The down arrow key.
    DownArrow,
    /// Select, as on the VT220's editing keypad.
    Select,
    /// Print (`VK_PRINT`), which few keyboards have. It isn't `PrintScreen`.
    Print,
    /// Execute (`VK_EXECUTE`), which few keyboards have.
    Execute,
    /// Print Screen.
    PrintScreen,
    /// Insert.
    Insert,
    /// Delete, which deletes the character at the cursor.
    Delete,
    /// Help.
    Help,
    /// The left key with the Windows logo.
    LeftWindows,
    /// The right key with the Windows logo.
    RightWindows,
    /// The Applications key, which opens a context menu.
    Applications,
    /// Sleep, which suspends the computer.
    Sleep,
    /// The 0 of the numeric keypad, while Num Lock is on.
    Numpad0,
    /// The 1 of the numeric keypad, while Num Lock is on.
    Numpad1,
    /// The 2 of the numeric keypad, while Num Lock is on.
    Numpad2,
    /// The 3 of the numeric keypad, while Num Lock is on.
    Numpad3,
    /// The 4 of the numeric keypad, while Num Lock is on.
    Numpad4,
    /// The 5 of the numeric keypad, while Num Lock is on.
    Numpad5,
    /// The 6 of the numeric keypad, while Num Lock is on.
    Numpad6,
    /// The 7 of the numeric keypad, while Num Lock is on.
    Numpad7,
    /// The 8 of the numeric keypad, while Num Lock is on.
    Numpad8,
    /// The 9 of the numeric keypad, while Num Lock is on.
    Numpad9,
    /// The `*` of the numeric keypad.
    Multiply,
    /// The `+` of the numeric keypad.
    Add,
    /// The thousands separator of the numeric keypad, on keyboards that have one.
    Separator,
    /// The `-` of the numeric keypad.
    Subtract,
    /// The decimal point of the numeric keypad.
    Decimal,
    /// The `/` of the numeric keypad.
    Divide,
    /// A function key, by its number: F1 has the number 1.
    Function(u8),
    /// Num Lock.
    NumLock,
    /// Scroll Lock.
    ScrollLock,
    /// A key of its own for copying.
    Copy,
    /// A key of its own for cutting.
    Cut,
    /// A key of its own for pasting. Text that was pasted comes as an event of its own kind.
    Paste,
    /// Back, for a web browser.
    BrowserBack,
    /// Forward, for a web browser.
    BrowserForward,
    /// Refresh, for a web browser.
    BrowserRefresh,
    /// Stop loading, for a web browser.
    BrowserStop,
    /// Search, for a web browser.
    BrowserSearch,
    /// Favorites, for a web browser.
    BrowserFavorites,
    /// Home page, for a web browser.
    BrowserHome,
    /// Mute the sound.
    VolumeMute,
    /// Turn the volume down.
    VolumeDown,
    /// Turn the volume up.
    VolumeUp,
    /// Skip to the next track.
    MediaNextTrack,
    /// Skip to the previous track.
    MediaPrevTrack,
    /// Stop playing.
    MediaStop,
    /// Play, or pause.
    MediaPlayPause,
    /// The left arrow key while the terminal is in application cursor mode (DECCKM).
    ApplicationLeftArrow,
    /// The right arrow key in application cursor mode.
    ApplicationRightArrow,
    /// The up arrow key in application cursor mode.
    ApplicationUpArrow,
    /// The down arrow key in application cursor mode.
    ApplicationDownArrow,
    /// Home on the numeric keypad: the 7 while Num Lock is off.
    KeyPadHome,
    /// End on the numeric keypad: the 1 while Num Lock is off.
    KeyPadEnd,
    /// Page Up on the numeric keypad: the 9 while Num Lock is off.
    KeyPadPageUp,
    /// Page Down on the numeric keypad: the 3 while Num Lock is off.
    KeyPadPageDown,
    /// Begin on the numeric keypad: the 5 while Num Lock is off.
    KeyPadBegin,
    /// The start of a bracketed paste. No event carries it: the paste comes as one event.
    InternalPasteStart,
    /// The end of a bracketed paste, where none was started.
    InternalPasteEnd,
    // hedrugal.h: end
}

impl KeyCode {
    // The number of the key in the C library.
    #[inline]
    pub(crate) const fn number(self) -> u16 {
        match self {
            // hedrugal.h: key number
            KeyCode::Char(_) => 1,
            KeyCode::Hyper => 2,
            KeyCode::Super => 3,
            KeyCode::Meta => 4,
            KeyCode::Cancel => 5,
            KeyCode::Backspace => 6,
            KeyCode::Tab => 7,
            KeyCode::Clear => 8,
            KeyCode::Enter => 9,
            KeyCode::Shift => 10,
            KeyCode::Escape => 11,
            KeyCode::LeftShift => 12,
            KeyCode::RightShift => 13,
            KeyCode::Control => 14,
            KeyCode::LeftControl => 15,
            KeyCode::RightControl => 16,
            KeyCode::Alt => 17,
            KeyCode::LeftAlt => 18,
            KeyCode::RightAlt => 19,
            KeyCode::Menu => 20,
            KeyCode::LeftMenu => 21,
            KeyCode::RightMenu => 22,
            KeyCode::Pause => 23,
            KeyCode::CapsLock => 24,
            KeyCode::PageUp => 25,
            KeyCode::PageDown => 26,
            KeyCode::End => 27,
            KeyCode::Home => 28,
            KeyCode::LeftArrow => 29,
            KeyCode::RightArrow => 30,
            KeyCode::UpArrow => 31,
            KeyCode::DownArrow => 32,
            KeyCode::Select => 33,
            KeyCode::Print => 34,
            KeyCode::Execute => 35,
            KeyCode::PrintScreen => 36,
            KeyCode::Insert => 37,
            KeyCode::Delete => 38,
            KeyCode::Help => 39,
            KeyCode::LeftWindows => 40,
            KeyCode::RightWindows => 41,
            KeyCode::Applications => 42,
            KeyCode::Sleep => 43,
            KeyCode::Numpad0 => 44,
            KeyCode::Numpad1 => 45,
            KeyCode::Numpad2 => 46,
            KeyCode::Numpad3 => 47,
            KeyCode::Numpad4 => 48,
            KeyCode::Numpad5 => 49,
            KeyCode::Numpad6 => 50,
            KeyCode::Numpad7 => 51,
            KeyCode::Numpad8 => 52,
            KeyCode::Numpad9 => 53,
            KeyCode::Multiply => 54,
            KeyCode::Add => 55,
            KeyCode::Separator => 56,
            KeyCode::Subtract => 57,
            KeyCode::Decimal => 58,
            KeyCode::Divide => 59,
            KeyCode::Function(_) => 60,
            KeyCode::NumLock => 61,
            KeyCode::ScrollLock => 62,
            KeyCode::Copy => 63,
            KeyCode::Cut => 64,
            KeyCode::Paste => 65,
            KeyCode::BrowserBack => 66,
            KeyCode::BrowserForward => 67,
            KeyCode::BrowserRefresh => 68,
            KeyCode::BrowserStop => 69,
            KeyCode::BrowserSearch => 70,
            KeyCode::BrowserFavorites => 71,
            KeyCode::BrowserHome => 72,
            KeyCode::VolumeMute => 73,
            KeyCode::VolumeDown => 74,
            KeyCode::VolumeUp => 75,
            KeyCode::MediaNextTrack => 76,
            KeyCode::MediaPrevTrack => 77,
            KeyCode::MediaStop => 78,
            KeyCode::MediaPlayPause => 79,
            KeyCode::ApplicationLeftArrow => 80,
            KeyCode::ApplicationRightArrow => 81,
            KeyCode::ApplicationUpArrow => 82,
            KeyCode::ApplicationDownArrow => 83,
            KeyCode::KeyPadHome => 84,
            KeyCode::KeyPadEnd => 85,
            KeyCode::KeyPadPageUp => 86,
            KeyCode::KeyPadPageDown => 87,
            KeyCode::KeyPadBegin => 88,
            KeyCode::InternalPasteStart => 89,
            KeyCode::InternalPasteEnd => 90,
            // hedrugal.h: end
        }
    }

    // What the key carries: a code point, or the number of a function key.
    pub(crate) fn detail(self) -> u32 {
        match self {
            KeyCode::Char(character) => u32::from(character),
            KeyCode::Function(number) => u32::from(number),
            _ => 0,
        }
    }

    // The key of a number and what it carries, or `None` if there is no such key. Most keys are
    // characters, which come first.
    #[inline]
    pub(crate) fn of(number: u16, detail: u32) -> Option<KeyCode> {
        const CHAR: u16 = KeyCode::Char('\0').number();
        const FUNCTION: u16 = KeyCode::Function(0).number();
        match number {
            CHAR => char::from_u32(detail).map(KeyCode::Char),
            FUNCTION => u8::try_from(detail).ok().map(KeyCode::Function),
            _ => KEYS.get(usize::from(number)).copied().flatten(),
        }
    }

    // The key of a number, whatever it carries.
    const fn of_number(number: usize) -> Option<KeyCode> {
        Some(match number {
            // hedrugal.h: key of
            1 => KeyCode::Char('\0'),
            2 => KeyCode::Hyper,
            3 => KeyCode::Super,
            4 => KeyCode::Meta,
            5 => KeyCode::Cancel,
            6 => KeyCode::Backspace,
            7 => KeyCode::Tab,
            8 => KeyCode::Clear,
            9 => KeyCode::Enter,
            10 => KeyCode::Shift,
            11 => KeyCode::Escape,
            12 => KeyCode::LeftShift,
            13 => KeyCode::RightShift,
            14 => KeyCode::Control,
            15 => KeyCode::LeftControl,
            16 => KeyCode::RightControl,
            17 => KeyCode::Alt,
            18 => KeyCode::LeftAlt,
            19 => KeyCode::RightAlt,
            20 => KeyCode::Menu,
            21 => KeyCode::LeftMenu,
            22 => KeyCode::RightMenu,
            23 => KeyCode::Pause,
            24 => KeyCode::CapsLock,
            25 => KeyCode::PageUp,
            26 => KeyCode::PageDown,
            27 => KeyCode::End,
            28 => KeyCode::Home,
            29 => KeyCode::LeftArrow,
            30 => KeyCode::RightArrow,
            31 => KeyCode::UpArrow,
            32 => KeyCode::DownArrow,
            33 => KeyCode::Select,
            34 => KeyCode::Print,
            35 => KeyCode::Execute,
            36 => KeyCode::PrintScreen,
            37 => KeyCode::Insert,
            38 => KeyCode::Delete,
            39 => KeyCode::Help,
            40 => KeyCode::LeftWindows,
            41 => KeyCode::RightWindows,
            42 => KeyCode::Applications,
            43 => KeyCode::Sleep,
            44 => KeyCode::Numpad0,
            45 => KeyCode::Numpad1,
            46 => KeyCode::Numpad2,
            47 => KeyCode::Numpad3,
            48 => KeyCode::Numpad4,
            49 => KeyCode::Numpad5,
            50 => KeyCode::Numpad6,
            51 => KeyCode::Numpad7,
            52 => KeyCode::Numpad8,
            53 => KeyCode::Numpad9,
            54 => KeyCode::Multiply,
            55 => KeyCode::Add,
            56 => KeyCode::Separator,
            57 => KeyCode::Subtract,
            58 => KeyCode::Decimal,
            59 => KeyCode::Divide,
            60 => KeyCode::Function(0),
            61 => KeyCode::NumLock,
            62 => KeyCode::ScrollLock,
            63 => KeyCode::Copy,
            64 => KeyCode::Cut,
            65 => KeyCode::Paste,
            66 => KeyCode::BrowserBack,
            67 => KeyCode::BrowserForward,
            68 => KeyCode::BrowserRefresh,
            69 => KeyCode::BrowserStop,
            70 => KeyCode::BrowserSearch,
            71 => KeyCode::BrowserFavorites,
            72 => KeyCode::BrowserHome,
            73 => KeyCode::VolumeMute,
            74 => KeyCode::VolumeDown,
            75 => KeyCode::VolumeUp,
            76 => KeyCode::MediaNextTrack,
            77 => KeyCode::MediaPrevTrack,
            78 => KeyCode::MediaStop,
            79 => KeyCode::MediaPlayPause,
            80 => KeyCode::ApplicationLeftArrow,
            81 => KeyCode::ApplicationRightArrow,
            82 => KeyCode::ApplicationUpArrow,
            83 => KeyCode::ApplicationDownArrow,
            84 => KeyCode::KeyPadHome,
            85 => KeyCode::KeyPadEnd,
            86 => KeyCode::KeyPadPageUp,
            87 => KeyCode::KeyPadPageDown,
            88 => KeyCode::KeyPadBegin,
            89 => KeyCode::InternalPasteStart,
            90 => KeyCode::InternalPasteEnd,
            // hedrugal.h: end
            _ => return None,
        })
    }
}

// The keys by their numbers, with room for further ones. A look into a table takes less time than a
// match of so many arms.
static KEYS: [Option<KeyCode>; 128] = {
    let (mut keys, mut number) = ([None; 128], 0);
    while number < keys.len() {
        keys[number] = KeyCode::of_number(number);
        number += 1;
    }
    keys
};
