//! A map from byte strings, such as the sequences of keys, to values.
//!
//! ```
//! use hedrugal::keymap::{Found, KeyMap};
//!
//! let mut map = KeyMap::new();
//! map.insert("\x1b", "escape");
//! map.insert("\x1b[A", "up");
//! assert_eq!(map.lookup("\x1b[A and more", true), Found::Exact(3, "up"));
//! assert_eq!(map.lookup("\x1b[", true), Found::Ambiguous(1, "escape"));
//! assert_eq!(map.lookup("a", true), Found::None);
//! ```
use crate::error::{granted, AllocError, FAULT};
use crate::raw;
use std::error;
use std::fmt::{self, Debug};
use std::sync::{Mutex, PoisonError};

/// What [`KeyMap::lookup`] returns.
///
/// ```
/// use hedrugal::keymap::{Found, KeyMap};
///
/// let mut map = KeyMap::new();
/// map.insert("ab", 1);
/// let text = "abc";
/// if let Found::Exact(len, value) = map.lookup(text, true) {
///     assert_eq!((value, &text[len..]), (1, "c"));
/// }
/// ```
#[derive(Debug, Clone, PartialEq, Eq)]
pub enum Found<Value> {
    /// No key is a prefix of the text, and the text is a prefix of no key.
    None,
    /// The length in bytes and the value of the longest key that is a prefix of the text.
    Exact(usize, Value),
    /// As `Exact`, but more of the text may follow, and the text is a prefix of a longer key too.
    Ambiguous(usize, Value),
    /// No key is a prefix of the text, but the text is a prefix of some key.
    NeedData,
}

impl<Value> Found<Value> {
    // The same answer with another value.
    fn map<Other>(self, change: impl FnOnce(Value) -> Other) -> Found<Other> {
        match self {
            Found::None => Found::None,
            Found::Exact(len, value) => Found::Exact(len, change(value)),
            Found::Ambiguous(len, value) => Found::Ambiguous(len, change(value)),
            Found::NeedData => Found::NeedData,
        }
    }
}

/// [`KeyMap::try_insert`] was refused memory. The map is unchanged, and `value` is what was to be
/// inserted.
///
/// ```
/// use hedrugal::keymap::InsertError;
///
/// assert_eq!(InsertError { value: 1 }.to_string(), "out of memory");
/// ```
#[derive(Debug, Clone, PartialEq, Eq)]
pub struct InsertError<Value> {
    /// The value that wasn't inserted.
    pub value: Value,
}

impl<Value> fmt::Display for InsertError<Value> {
    fn fmt(&self, f: &mut fmt::Formatter<'_>) -> fmt::Result {
        fmt::Display::fmt(&AllocError, f)
    }
}

impl<Value: Debug> error::Error for InsertError<Value> {}

/// A map from byte strings to values. A lookup finds the longest key that is a prefix of a text,
/// and tells whether a longer key may still follow.
///
/// The library holds the keys, each with the place of its entry in a list of keys and values;
/// lookups are the library's. A map that is empty owns no memory.
///
/// ```
/// use hedrugal::keymap::{Found, KeyMap};
///
/// let mut map = KeyMap::new();
/// map.insert([0x1b, b'O', b'P'], "F1");
/// assert_eq!(map.lookup(b"\x1bOP", true), Found::Exact(3, "F1"));
/// assert_eq!(format!("{map:?}"), r#"{b"\x1bOP": "F1"}"#);
/// ```
pub struct KeyMap<Value: Debug + Clone> {
    places: Places,
    entries: Vec<Entry<Value>>,
}

struct Entry<Value> {
    key: Vec<u8>,
    value: Value,
}

impl<Value: Debug + Clone> KeyMap<Value> {
    /// Makes an empty map. It asks for no memory.
    ///
    /// ```
    /// use hedrugal::keymap::{Found, KeyMap};
    ///
    /// assert_eq!(KeyMap::<u32>::new().lookup("a", true), Found::None);
    /// ```
    #[must_use]
    pub const fn new() -> KeyMap<Value> {
        KeyMap {
            places: Places(Mutex::new(raw::KeyMap::NONE)),
            entries: Vec::new(),
        }
    }

    /// Sets the value of a key. The value that it had is dropped. The empty key is a key as any
    /// other.
    ///
    /// ```
    /// use hedrugal::keymap::{Found, KeyMap};
    ///
    /// let mut map = KeyMap::new();
    /// map.insert("a", 1);
    /// map.insert("a", 2);
    /// assert_eq!(map.lookup("a", false), Found::Exact(1, 2));
    /// ```
    ///
    /// # Panics
    ///
    /// If memory is refused.
    pub fn insert<K: AsRef<[u8]>>(&mut self, key: K, value: Value) {
        self.try_insert(key, value).expect("the key is inserted");
    }

    /// Does what [`KeyMap::insert`] does.
    ///
    /// ```
    /// use hedrugal::keymap::KeyMap;
    ///
    /// let mut map = KeyMap::new();
    /// assert_eq!(map.try_insert("a", 1), Ok(()));
    /// ```
    ///
    /// # Errors
    ///
    /// If memory is refused. The map is unchanged, and the error has the value. A key that the map
    /// has already needs no memory.
    pub fn try_insert<K: AsRef<[u8]>>(
        &mut self,
        key: K,
        value: Value,
    ) -> Result<(), InsertError<Value>> {
        let key = key.as_ref();
        if let Some(place) = self.places.of(key) {
            self.entries[place].value = value;
            return Ok(());
        }
        match self.add_place(key) {
            Ok(key) => {
                self.entries.push(Entry { key, value });
                Ok(())
            }
            Err(AllocError) => Err(InsertError { value }),
        }
    }

    /// Finds the longest key that is a prefix of `key`, and returns its length and a clone of its
    /// value. Pass `maybe_more` as true while more of the text may follow: the answer is
    /// `Ambiguous` if the text is a prefix of a longer key too. An `Exact` answer then holds
    /// however the text goes on.
    ///
    /// ```
    /// use hedrugal::keymap::{Found, KeyMap};
    ///
    /// let mut map = KeyMap::new();
    /// map.insert("boo", 1);
    /// map.insert("boom", 2);
    /// assert_eq!(map.lookup("bo", true), Found::NeedData);
    /// assert_eq!(map.lookup("boo", true), Found::Ambiguous(3, 1));
    /// assert_eq!(map.lookup("boo", false), Found::Exact(3, 1));
    /// assert_eq!(map.lookup("book", true), Found::Exact(3, 1));
    /// ```
    #[must_use]
    pub fn lookup<S: AsRef<[u8]>>(&self, key: S, maybe_more: bool) -> Found<Value> {
        let found = self.places.lookup(key.as_ref(), maybe_more);
        found.map(|place| self.entries[place].value.clone())
    }

    // Has a new key lead to the end of the list, and returns its copy for the entry there. There is
    // room for the entry before the library has the key, so that nothing is refused afterwards.
    fn add_place(&mut self, key: &[u8]) -> Result<Vec<u8>, AllocError> {
        self.entries.try_reserve(1).map_err(|_| AllocError)?;
        let mut copy = Vec::new();
        copy.try_reserve_exact(key.len()).map_err(|_| AllocError)?;
        copy.extend_from_slice(key);
        self.places.insert(key, self.entries.len())?;
        Ok(copy)
    }
}

impl<Value: Debug + Clone> Default for KeyMap<Value> {
    fn default() -> KeyMap<Value> {
        KeyMap::new()
    }
}

/// It panics if memory is refused.
impl<Value: Debug + Clone> Clone for KeyMap<Value> {
    fn clone(&self) -> KeyMap<Value> {
        let mut copy = KeyMap::new();
        for entry in &self.entries {
            copy.insert(&entry.key, entry.value.clone());
        }
        copy
    }
}

/// The keys with their values, in the order in which the keys were inserted first.
impl<Value: Debug + Clone> Debug for KeyMap<Value> {
    fn fmt(&self, f: &mut fmt::Formatter<'_>) -> fmt::Result {
        let entries = self
            .entries
            .iter()
            .map(|entry| (Text(&entry.key), &entry.value));
        f.debug_map().entries(entries).finish()
    }
}

// Bytes, which Debug writes as a literal.
struct Text<'a>(&'a [u8]);

impl Debug for Text<'_> {
    fn fmt(&self, f: &mut fmt::Formatter<'_>) -> fmt::Result {
        write!(f, "b\"{}\"", self.0.escape_ascii())
    }
}

// A map of the library, from keys to places in a list. There is none until the first key is
// inserted. The library allows one thread at a time, also in a lookup, so a call through a shared
// reference locks it.
struct Places(Mutex<raw::KeyMap>);

impl Places {
    // Has a key lead to a place. At place 0 a map is made first, in place of one that has no key.
    fn insert(&mut self, key: &[u8], place: usize) -> Result<(), AllocError> {
        let map = self.raw();
        // SAFETY: `map` is a map or none. A slice's pointer isn't null, also if the slice is empty,
        // and leads to as many bytes.
        unsafe {
            if place == 0 {
                granted(raw::hed_keymap_init(map))?;
            }
            granted(raw::hed_keymap_insert(
                map,
                key.as_ptr(),
                key.len(),
                place as u64,
            ))
        }
    }

    // The place to which the longest key leads that is a prefix of the text.
    fn lookup(&self, text: &[u8], maybe_more: bool) -> Found<usize> {
        let mut found = raw::Match::default();
        let map = self.0.lock().unwrap_or_else(PoisonError::into_inner);
        // SAFETY: `map` is a map or none, `found` another value, and the slice's pointer leads to
        // as many bytes.
        let answer = unsafe {
            raw::hed_keymap_lookup(&*map, text.as_ptr(), text.len(), maybe_more, &mut found)
        };
        let place = found.value as usize;
        match answer {
            raw::STATUS_NONE | raw::STATUS_NOT_INITIALIZED => Found::None,
            raw::STATUS_OK => Found::Exact(found.len, place),
            raw::STATUS_AMBIGUOUS => Found::Ambiguous(found.len, place),
            raw::STATUS_NEED_DATA => Found::NeedData,
            _ => unreachable!("{FAULT}"),
        }
    }

    // The place to which a key leads, or `None` if the map doesn't have it.
    fn of(&self, key: &[u8]) -> Option<usize> {
        match self.lookup(key, false) {
            Found::Exact(len, place) if len == key.len() => Some(place),
            _ => None,
        }
    }

    // The library's map, for a call that has this one alone.
    fn raw(&mut self) -> &mut raw::KeyMap {
        self.0.get_mut().unwrap_or_else(PoisonError::into_inner)
    }
}

impl Drop for Places {
    fn drop(&mut self) {
        // SAFETY: this is a map or none, and isn't used again.
        unsafe { raw::hed_keymap_free(self.raw()) }
    }
}
