//! Of termwiz's module for escape sequences, what the text of keys needs.
//!
//! ```
//! use hedrugal::escape::csi;
//!
//! assert!(csi::KittyKeyboardFlags::NONE.is_empty());
//! ```

pub mod csi {
    //! Of termwiz's module for control sequences, what the text of keys needs.
    //!
    //! ```
    //! use hedrugal::escape::csi::KittyKeyboardFlags;
    //! use hedrugal::input::KeyboardEncoding;
    //!
    //! let encoding = KeyboardEncoding::Kitty(KittyKeyboardFlags::REPORT_EVENT_TYPES);
    //! assert_ne!(encoding, KeyboardEncoding::Kitty(KittyKeyboardFlags::NONE));
    //! ```
    pub use crate::input::KittyKeyboardFlags;
}
