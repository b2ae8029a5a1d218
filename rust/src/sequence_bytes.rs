// The bytes of control sequences and strings, as events have them.
use std::fmt;
use std::hash::{Hash, Hasher};
use std::mem::size_of;
use std::ops::Deref;

// So many bytes at most are kept in place. With their number and what tells both places apart they
// take as much as a vector.
const FEW: usize = 22;

/// The bytes of a control sequence or of a string, as an [`Event`](crate::Event) has them. 22 bytes
/// or fewer are kept in place, so such an event asks for no memory. More are on the heap.
///
/// They are read as a slice, and are made of one or of a vector:
///
/// ```
/// use hedrugal::{Dialect, Event, Parser, SequenceBytes};
/// use std::time::Instant;
///
/// let mut parser = Parser::new(Dialect::Extended);
/// parser.feed(Instant::now(), b"\x1b[?62;22c");
/// let Some(Event::Csi(bytes)) = parser.next() else { panic!() };
/// assert!(bytes.starts_with(b"?62;") && bytes == b"?62;22c");
/// assert_eq!(bytes, SequenceBytes::from(b"?62;22c"));
/// assert_eq!(Vec::from(bytes), b"?62;22c");
/// ```
#[derive(Clone)]
#[cfg_attr(feature = "serde", derive(serde::Deserialize))]
#[cfg_attr(feature = "serde", serde(from = "Vec<u8>"))]
pub struct SequenceBytes(Kept);

const _: () = assert!(size_of::<SequenceBytes>() == size_of::<Vec<u8>>());

#[derive(Clone)]
enum Kept {
    // What follows the first `len` bytes is 0.
    Few { len: u8, bytes: [u8; FEW] },
    Many(Box<[u8]>),
}

impl SequenceBytes {
    // So many zeros, if they can be kept in place.
    #[inline]
    pub(crate) fn few_zeros(count: usize) -> Option<SequenceBytes> {
        let len = u8::try_from(count).ok().filter(|_| count <= FEW)?;
        let bytes = [0; FEW];
        Some(SequenceBytes(Kept::Few { len, bytes }))
    }

    // The bytes, to be written.
    #[inline]
    pub(crate) fn as_mut_slice(&mut self) -> &mut [u8] {
        match &mut self.0 {
            Kept::Few { len, bytes } => &mut bytes[..usize::from(*len)],
            Kept::Many(bytes) => bytes,
        }
    }
}

/// No bytes.
impl Default for SequenceBytes {
    fn default() -> SequenceBytes {
        SequenceBytes::from(&[])
    }
}

impl From<&[u8]> for SequenceBytes {
    fn from(bytes: &[u8]) -> SequenceBytes {
        match SequenceBytes::few_zeros(bytes.len()) {
            Some(mut few) => {
                few.as_mut_slice().copy_from_slice(bytes);
                few
            }
            None => SequenceBytes(Kept::Many(bytes.into())),
        }
    }
}

impl<const N: usize> From<&[u8; N]> for SequenceBytes {
    fn from(bytes: &[u8; N]) -> SequenceBytes {
        SequenceBytes::from(&bytes[..])
    }
}

/// A vector without room to spare isn't copied, unless its bytes are few.
impl From<Vec<u8>> for SequenceBytes {
    fn from(bytes: Vec<u8>) -> SequenceBytes {
        if bytes.len() <= FEW {
            SequenceBytes::from(&bytes[..])
        } else {
            SequenceBytes(Kept::Many(bytes.into_boxed_slice()))
        }
    }
}

impl From<SequenceBytes> for Vec<u8> {
    fn from(bytes: SequenceBytes) -> Vec<u8> {
        match bytes.0 {
            Kept::Few { .. } => bytes.to_vec(),
            Kept::Many(bytes) => bytes.into_vec(),
        }
    }
}

impl Deref for SequenceBytes {
    type Target = [u8];

    #[inline]
    fn deref(&self) -> &[u8] {
        match &self.0 {
            Kept::Few { len, bytes } => &bytes[..usize::from(*len)],
            Kept::Many(bytes) => bytes,
        }
    }
}

impl AsRef<[u8]> for SequenceBytes {
    fn as_ref(&self) -> &[u8] {
        self
    }
}

/// Compares the bytes with any others: those of an event, of a slice, of an array or of a vector.
impl<Bytes: AsRef<[u8]> + ?Sized> PartialEq<Bytes> for SequenceBytes {
    fn eq(&self, other: &Bytes) -> bool {
        **self == *other.as_ref()
    }
}

impl Eq for SequenceBytes {}

/// Hashes what a slice of the bytes hashes.
impl Hash for SequenceBytes {
    fn hash<H: Hasher>(&self, state: &mut H) {
        (**self).hash(state);
    }
}

/// Prints what a slice of the bytes prints: a list of numbers.
impl fmt::Debug for SequenceBytes {
    fn fmt(&self, f: &mut fmt::Formatter<'_>) -> fmt::Result {
        (**self).fmt(f)
    }
}

/// A list of numbers, as of a vector.
#[cfg(feature = "serde")]
impl serde::Serialize for SequenceBytes {
    fn serialize<S: serde::Serializer>(&self, serializer: S) -> Result<S::Ok, S::Error> {
        (**self).serialize(serializer)
    }
}
