// Sets of flags, each a number whose bits have names.
use crate::error::FAULT;
use std::ops::{
    BitAnd, BitAndAssign, BitOr, BitOrAssign, BitXor, BitXorAssign, Not, Sub, SubAssign,
};
use std::str::FromStr;
use std::{error, fmt};

/// A text names a flag that isn't there.
///
/// ```
/// use hedrugal::input::Modifiers;
///
/// let error = "CTRL|SHFT".parse::<Modifiers>().unwrap_err();
/// assert_eq!(error.to_string(), "no flag is named SHFT");
/// ```
#[derive(Debug, Clone, PartialEq, Eq)]
pub struct ParseFlagsError {
    name: String,
}

impl fmt::Display for ParseFlagsError {
    fn fmt(&self, f: &mut fmt::Formatter<'_>) -> fmt::Result {
        write!(f, "no flag is named {}", self.name)
    }
}

impl error::Error for ParseFlagsError {}

/// The flags of a set one by one, lowest first, as `iter` returns them. Bits that no flag has come
/// last, together.
///
/// ```
/// use hedrugal::input::Modifiers;
///
/// let set = Modifiers::CTRL | Modifiers::SHIFT | Modifiers::from_bits_retain(1);
/// let flags: Vec<Modifiers> = set.iter().collect();
/// assert_eq!(flags, [Modifiers::SHIFT, Modifiers::CTRL, Modifiers::from_bits_retain(1)]);
/// ```
#[derive(Debug, Clone)]
pub struct FlagIter<Flags> {
    names: FlagNames<Flags>,
}

/// The flags of a set with their names, lowest first, as `iter_names` returns them.
///
/// ```
/// use hedrugal::input::MouseButtons;
///
/// let names: Vec<&str> = MouseButtons::all().iter_names().map(|(name, _)| name).collect();
/// assert_eq!(names.join(" "), "LEFT RIGHT MIDDLE VERT_WHEEL HORZ_WHEEL WHEEL_POSITIVE");
/// ```
#[derive(Debug, Clone)]
pub struct FlagNames<Flags> {
    rest: Flags,
    next: usize,
}

impl<Flags> FlagNames<Flags> {
    /// Returns the flags that are still to come, and the bits that no flag has.
    ///
    /// ```
    /// use hedrugal::input::Modifiers;
    ///
    /// let mut names = (Modifiers::CTRL | Modifiers::SHIFT).iter_names();
    /// assert_eq!(names.next(), Some(("SHIFT", Modifiers::SHIFT)));
    /// assert_eq!(names.remaining(), &Modifiers::CTRL);
    /// ```
    #[must_use]
    pub const fn remaining(&self) -> &Flags {
        &self.rest
    }
}

// An operator on two sets, and its assigning form.
macro_rules! operator {
    ($name:ident, $method:ident: $operator:ident $call:ident, $assigning:ident $assign:ident) => {
        impl $operator for $name {
            type Output = $name;

            fn $call(self, other: $name) -> $name {
                self.$method(other)
            }
        }

        impl $assigning for $name {
            fn $assign(&mut self, other: $name) {
                *self = self.$method(other);
            }
        }
    };
}

// Printing of the number, in another base.
macro_rules! base {
    ($name:ident: $($base:ident)*) => {
        $(impl fmt::$base for $name {
            fn fmt(&self, f: &mut fmt::Formatter<'_>) -> fmt::Result {
                fmt::$base::fmt(&self.0, f)
            }
        })*
    };
}

// A type of sets, with the calls and operators that such a type has in termwiz. `head` begins its
// example: it makes two flags, a and b.
macro_rules! flags {
    (
        $head:literal
        $(#[$about:meta])*
        $name:ident: $bits:ty { $($(#[$meaning:meta])* const $flag:ident = $value:literal;)* }
        also named { $($alias:literal => $named:ident,)* }
    ) => {
        $(#[$about])*
        ///
        /// ```
        #[doc = $head]
        /// let both = a | b;
        /// assert!(both.contains(a) && both - a == b);
        /// assert_eq!(both.to_string().parse(), Ok(both));
        /// ```
        #[derive(Clone, Copy, Default, PartialEq, Eq, PartialOrd, Ord, Hash)]
        pub struct $name($bits);

        impl $name {
            $(
                $(#[$meaning])*
                pub const $flag: $name = $name($value);
            )*

            const NAMES: &'static [(&'static str, $bits)] = &[$((stringify!($flag), $value)),*];

            /// Returns the set as a number.
            #[must_use]
            pub const fn bits(&self) -> $bits {
                self.0
            }

            /// Returns the set of a number, or `None` if it has a bit that no flag has.
            #[must_use]
            pub const fn from_bits(bits: $bits) -> Option<$name> {
                if bits & !$name::all().0 == 0 {
                    Some($name(bits))
                } else {
                    None
                }
            }

            /// Returns the set of a number, without the bits that no flag has.
            #[must_use]
            pub const fn from_bits_truncate(bits: $bits) -> $name {
                $name(bits & $name::all().0)
            }

            /// Returns the set of a number, with the bits that no flag has too.
            #[must_use]
            pub const fn from_bits_retain(bits: $bits) -> $name {
                $name(bits)
            }

            /// Returns the flag with a name, or `None` if there is none.
            #[must_use]
            pub fn from_name(name: &str) -> Option<$name> {
                let found = $name::NAMES.iter().find(|(known, _)| *known == name)?;
                Some($name(found.1))
            }

            /// Returns the flags of the set one by one, lowest first. Bits that no flag has come
            /// last, together.
            #[must_use]
            pub const fn iter(&self) -> FlagIter<$name> {
                FlagIter { names: self.iter_names() }
            }

            /// Returns the flags of the set with their names, lowest first.
            #[must_use]
            pub const fn iter_names(&self) -> FlagNames<$name> {
                FlagNames { rest: *self, next: 0 }
            }

            /// Returns the set that has no flag.
            #[must_use]
            pub const fn empty() -> $name {
                $name(0)
            }

            /// Returns the set that has every flag.
            #[must_use]
            pub const fn all() -> $name {
                $name(0 $(| $value)*)
            }

            /// Returns whether the set has no bit.
            #[must_use]
            pub const fn is_empty(&self) -> bool {
                self.0 == 0
            }

            /// Returns whether the set has every flag.
            #[must_use]
            pub const fn is_all(&self) -> bool {
                self.contains($name::all())
            }

            /// Returns whether the set has a flag that `other` has too.
            #[must_use]
            pub const fn intersects(&self, other: $name) -> bool {
                self.0 & other.0 != 0
            }

            /// Returns whether the set has every flag that `other` has.
            #[must_use]
            pub const fn contains(&self, other: $name) -> bool {
                self.0 & other.0 == other.0
            }

            /// Adds the flags of `other`.
            pub fn insert(&mut self, other: $name) {
                self.0 |= other.0;
            }

            /// Removes the flags of `other`.
            pub fn remove(&mut self, other: $name) {
                self.0 &= !other.0;
            }

            /// Adds the flags of `other` that the set doesn't have, and removes the others.
            pub fn toggle(&mut self, other: $name) {
                self.0 ^= other.0;
            }

            /// Adds the flags of `other` if `value` is true, and removes them if not.
            pub fn set(&mut self, other: $name, value: bool) {
                if value {
                    self.insert(other);
                } else {
                    self.remove(other);
                }
            }

            /// Returns the flags that either set has.
            #[must_use]
            pub const fn union(self, other: $name) -> $name {
                $name(self.0 | other.0)
            }

            /// Returns the flags that both sets have.
            #[must_use]
            pub const fn intersection(self, other: $name) -> $name {
                $name(self.0 & other.0)
            }

            /// Returns the flags that `other` doesn't have.
            #[must_use]
            pub const fn difference(self, other: $name) -> $name {
                $name(self.0 & !other.0)
            }

            /// Returns the flags that exactly one of the sets has.
            #[must_use]
            pub const fn symmetric_difference(self, other: $name) -> $name {
                $name(self.0 ^ other.0)
            }

            /// Returns the flags that the set doesn't have.
            #[must_use]
            pub const fn complement(self) -> $name {
                $name(!self.0 & $name::all().0)
            }

            // Writes the names with a text between them, and after them the bits without a name in
            // hexadecimal. Returns whether there was anything to write.
            fn write_names(
                self,
                f: &mut fmt::Formatter<'_>,
                between: &str,
            ) -> Result<bool, fmt::Error> {
                let mut names = self.iter_names();
                let mut is_first = true;
                for (name, _) in &mut names {
                    f.write_str(if is_first { "" } else { between })?;
                    f.write_str(name)?;
                    is_first = false;
                }
                if names.rest.0 != 0 {
                    f.write_str(if is_first { "" } else { between })?;
                    write!(f, "{:#x}", names.rest.0)?;
                }
                Ok(self.0 != 0)
            }
        }

        impl Iterator for FlagNames<$name> {
            type Item = (&'static str, $name);

            fn next(&mut self) -> Option<Self::Item> {
                while let Some((name, value)) = $name::NAMES.get(self.next) {
                    self.next += 1;
                    if self.rest.0 & value != 0 {
                        self.rest.0 &= !value;
                        return Some((name, $name(*value)));
                    }
                }
                None
            }
        }

        impl Iterator for FlagIter<$name> {
            type Item = $name;

            fn next(&mut self) -> Option<$name> {
                if let Some((_, flag)) = self.names.next() {
                    return Some(flag);
                }
                let rest = std::mem::take(&mut self.names.rest);
                (rest.0 != 0).then_some(rest)
            }
        }

        impl IntoIterator for $name {
            type Item = $name;
            type IntoIter = FlagIter<$name>;

            fn into_iter(self) -> FlagIter<$name> {
                self.iter()
            }
        }

        /// The union of the sets.
        impl FromIterator<$name> for $name {
            fn from_iter<Sets: IntoIterator<Item = $name>>(sets: Sets) -> $name {
                let mut all = $name::empty();
                all.extend(sets);
                all
            }
        }

        impl Extend<$name> for $name {
            fn extend<Sets: IntoIterator<Item = $name>>(&mut self, sets: Sets) {
                for set in sets {
                    self.insert(set);
                }
            }
        }

        /// The type's name and, in parentheses, the names of the flags joined by ` | `, or `0x0` if
        /// there are none. Bits that no flag has come last, in hexadecimal.
        impl fmt::Debug for $name {
            fn fmt(&self, f: &mut fmt::Formatter<'_>) -> fmt::Result {
                // The names as one value, which `{:#?}` puts on a line of its own.
                struct Names($name);

                impl fmt::Debug for Names {
                    fn fmt(&self, f: &mut fmt::Formatter<'_>) -> fmt::Result {
                        if !self.0.write_names(f, " | ")? {
                            f.write_str("0x0")?;
                        }
                        Ok(())
                    }
                }

                f.debug_tuple(stringify!($name)).field(&Names(*self)).finish()
            }
        }

        /// The names of the flags joined by `|`; `NONE` if there are none. Bits that no flag has
        /// come last, in hexadecimal.
        impl fmt::Display for $name {
            fn fmt(&self, f: &mut fmt::Formatter<'_>) -> fmt::Result {
                if !self.write_names(f, "|")? {
                    f.write_str("NONE")?;
                }
                Ok(())
            }
        }

        base!($name: Binary Octal LowerHex UpperHex);

        /// Reads names joined by `|`, with or without spaces around them. `NONE` and no text at all
        /// name no flag; a number in hexadecimal, as in `0x8`, is the set with these bits.
        impl FromStr for $name {
            type Err = ParseFlagsError;

            fn from_str(text: &str) -> Result<$name, ParseFlagsError> {
                let mut set = $name::empty();
                if text.trim().is_empty() {
                    return Ok(set);
                }
                for name in text.split('|').map(str::trim) {
                    let digits = name.strip_prefix("0x");
                    let number = digits.and_then(|it| <$bits>::from_str_radix(it, 16).ok());
                    let found = match name {
                        $($alias => Some($name::$named),)*
                        _ => number.map($name).or_else(|| $name::from_name(name)),
                    };
                    set |= found.ok_or_else(|| ParseFlagsError { name: name.to_string() })?;
                }
                Ok(set)
            }
        }

        impl TryFrom<String> for $name {
            type Error = String;

            fn try_from(text: String) -> Result<$name, String> {
                text.parse().map_err(|error: ParseFlagsError| error.to_string())
            }
        }

        impl From<&$name> for String {
            fn from(set: &$name) -> String {
                set.to_string()
            }
        }

        operator!($name, union: BitOr bitor, BitOrAssign bitor_assign);
        operator!($name, intersection: BitAnd bitand, BitAndAssign bitand_assign);
        operator!($name, symmetric_difference: BitXor bitxor, BitXorAssign bitxor_assign);
        operator!($name, difference: Sub sub, SubAssign sub_assign);

        impl Not for $name {
            type Output = $name;

            fn not(self) -> $name {
                self.complement()
            }
        }

        // The names joined by ` | ` where people read the format, and the number elsewhere.
        #[cfg(feature = "serde")]
        impl serde::Serialize for $name {
            fn serialize<To: serde::Serializer>(&self, to: To) -> Result<To::Ok, To::Error> {
                // A set as the names alone.
                struct Names($name);

                impl fmt::Display for Names {
                    fn fmt(&self, f: &mut fmt::Formatter<'_>) -> fmt::Result {
                        self.0.write_names(f, " | ").map(|_| ())
                    }
                }

                if to.is_human_readable() {
                    to.collect_str(&Names(*self))
                } else {
                    self.0.serialize(to)
                }
            }
        }

        #[cfg(feature = "serde")]
        impl<'de> serde::Deserialize<'de> for $name {
            fn deserialize<From>(from: From) -> Result<$name, From::Error>
            where
                From: serde::Deserializer<'de>,
            {
                use serde::de::Error;
                if from.is_human_readable() {
                    String::deserialize(from)?.parse().map_err(From::Error::custom)
                } else {
                    <$bits>::deserialize(from).map($name)
                }
            }
        }
    };
}

flags! {
    "use hedrugal::input::Modifiers as Flags;\nlet (a, b) = (Flags::SHIFT, Flags::CTRL);"
    /// A set of modifier keys, such as those held while another key is pressed.
    Modifiers: u16 {
        // hedrugal.h: termwiz_mod flag
        /// No modifier.
        const NONE = 0;
        /// Shift.
        const SHIFT = 2;
        /// Alt.
        const ALT = 4;
        /// Ctrl.
        const CTRL = 8;
        /// Super: the key with the Windows logo, or Command.
        const SUPER = 16;
        /// The left Alt key.
        const LEFT_ALT = 32;
        /// The right Alt key.
        const RIGHT_ALT = 64;
        /// A leader key, for programs that define one.
        const LEADER = 128;
        /// The left Ctrl key.
        const LEFT_CTRL = 256;
        /// The right Ctrl key.
        const RIGHT_CTRL = 512;
        /// The left Shift key.
        const LEFT_SHIFT = 1024;
        /// The right Shift key.
        const RIGHT_SHIFT = 2048;
        // hedrugal.h: end
    }
    also named {
        "META" => ALT,
        "OPT" => ALT,
        "CMD" => SUPER,
        "WIN" => SUPER,
    }
}

impl Modifiers {
    /// Returns the modifiers without the six flags that name a left or a right key. The other flags
    /// are unchanged: a caller that doesn't care which Alt key is held looks at ALT alone.
    ///
    /// ```
    /// use hedrugal::input::Modifiers;
    ///
    /// let held = Modifiers::ALT | Modifiers::LEFT_ALT;
    /// assert_eq!(held.remove_positional_mods(), Modifiers::ALT);
    /// ```
    #[must_use]
    pub const fn remove_positional_mods(self) -> Modifiers {
        self.difference(Modifiers::LEFT_ALT.union(Modifiers::RIGHT_ALT))
            .difference(Modifiers::LEFT_CTRL.union(Modifiers::RIGHT_CTRL))
            .difference(Modifiers::LEFT_SHIFT.union(Modifiers::RIGHT_SHIFT))
    }

    /// Returns the number by which xterm's key sequences tell these modifiers: 1 for SHIFT plus 2
    /// for ALT plus 4 for CTRL. Other flags don't count. The parameter in a sequence is one more
    /// than this number.
    ///
    /// ```
    /// use hedrugal::input::Modifiers;
    ///
    /// assert_eq!((Modifiers::CTRL | Modifiers::SHIFT).encode_xterm(), 5);
    /// ```
    #[must_use]
    pub fn encode_xterm(self) -> u8 {
        u8::from(self.contains(Modifiers::SHIFT))
            + 2 * u8::from(self.contains(Modifiers::ALT))
            + 4 * u8::from(self.contains(Modifiers::CTRL))
    }

    // The modifiers that have a bit in Kitty's protocol, which is half of theirs.
    const OF_KITTY: Modifiers = Modifiers::SHIFT
        .union(Modifiers::ALT)
        .union(Modifiers::CTRL)
        .union(Modifiers::SUPER);

    // The set of Kitty's bits, of which the library has these alone.
    #[inline]
    pub(crate) fn of_kitty(bits: u8) -> Modifiers {
        let set = Modifiers(u16::from(bits) << 1);
        assert!(Modifiers::OF_KITTY.contains(set), "{FAULT}");
        set
    }

    // Kitty's bits of the set, and whether it has no other modifier.
    pub(crate) fn kitty(self) -> (u8, bool) {
        let set = self.intersection(Modifiers::OF_KITTY);
        ((set.0 >> 1) as u8, set == self)
    }
}

flags! {
    "use hedrugal::input::MouseButtons as Flags;\nlet (a, b) = (Flags::LEFT, Flags::VERT_WHEEL);"
    /// A set of mouse buttons and wheels.
    MouseButtons: u8 {
        // hedrugal.h: button flag
        /// No button and no wheel.
        const NONE = 0;
        /// The left button.
        const LEFT = 2;
        /// The right button.
        const RIGHT = 4;
        /// The middle button.
        const MIDDLE = 8;
        /// The wheel that scrolls up and down. It was turned up if WHEEL_POSITIVE is set too, and down if not.
        const VERT_WHEEL = 16;
        /// The wheel that scrolls to the sides. It was turned left if WHEEL_POSITIVE is set too, and right if not.
        const HORZ_WHEEL = 32;
        /// Set with a wheel that was turned up or left.
        const WHEEL_POSITIVE = 64;
        // hedrugal.h: end
    }
    also named {}
}

flags! {
    "use hedrugal::input::KittyKeyboardFlags as Flags;\n\
     let (a, b) = (Flags::DISAMBIGUATE_ESCAPE_CODES, Flags::REPORT_EVENT_TYPES);"
    /// What a program asks of a terminal in kitty's keyboard protocol.
    KittyKeyboardFlags: u16 {
        // hedrugal.h: kitty_flag flag
        /// Nothing is asked for.
        const NONE = 0;
        /// Keys whose plain text is ambiguous, as that of Escape, are reported as escape codes.
        const DISAMBIGUATE_ESCAPE_CODES = 1;
        /// Repeats and releases of a key are reported, and not presses alone.
        const REPORT_EVENT_TYPES = 2;
        /// A key is reported with its shifted code and with its code on the standard layout.
        const REPORT_ALTERNATE_KEYS = 4;
        /// Keys that make text are reported as escape codes too.
        const REPORT_ALL_KEYS_AS_ESCAPE_CODES = 8;
        /// A key that makes text is reported with that text.
        const REPORT_ASSOCIATED_TEXT = 16;
        // hedrugal.h: end
    }
    also named {}
}

flags! {
    "use hedrugal::KittyModifiers as Flags;\nlet (a, b) = (Flags::SHIFT, Flags::CTRL);"
    /// A set of modifiers, as Kitty's keyboard protocol reports them: keys that are held, and locks
    /// that are on.
    KittyModifiers: u8 {
        // hedrugal.h: kitty_mod flag
        /// No modifier.
        const NONE = 0;
        /// Shift.
        const SHIFT = 1;
        /// Alt.
        const ALT = 2;
        /// Ctrl.
        const CTRL = 4;
        /// Super: the key with the Windows logo, or Command.
        const SUPER = 8;
        /// Hyper.
        const HYPER = 16;
        /// Meta.
        const META = 32;
        /// Caps Lock is on.
        const CAPS_LOCK = 64;
        /// Num Lock is on.
        const NUM_LOCK = 128;
        // hedrugal.h: end
    }
    also named {}
}
