//! Names of keys and of peers.

use std::fmt;

/// A name of `N` bytes, of a key or of a peer: a digest, a public key, or a number.
///
/// Names are ordered as their bytes are, so numbers are spelled with their high byte first:
///
/// ```
/// use resolver::Name;
///
/// let seven: Name = Name::numbered(7);
/// assert!(seven < Name::numbered(256));
/// assert_eq!(seven.0[31], 7);
/// ```
#[derive(Clone, Copy, PartialEq, Eq, PartialOrd, Ord, Hash)]
pub struct Name<const N: usize = 32>(pub [u8; N]);

impl<const N: usize> Name<N>
where
    Name<N>: Width,
{
    /// The name that has a number in its last eight bytes, and zeros before it.
    pub const fn numbered(number: u64) -> Name<N> {
        let mut name = [0; N];
        let bytes = number.to_be_bytes();
        let mut at = 0;
        while at < 8 {
            name[N - 8 + at] = bytes[at];
            at += 1;
        }
        Name(name)
    }
}

impl<const N: usize> From<[u8; N]> for Name<N> {
    fn from(bytes: [u8; N]) -> Self {
        Name(bytes)
    }
}

impl<const N: usize> AsRef<[u8]> for Name<N> {
    fn as_ref(&self) -> &[u8] {
        &self.0
    }
}

/// In hexadecimal digits.
impl<const N: usize> fmt::Display for Name<N> {
    fn fmt(&self, f: &mut fmt::Formatter<'_>) -> fmt::Result {
        self.0.iter().try_for_each(|byte| write!(f, "{byte:02x}"))
    }
}

impl<const N: usize> fmt::Debug for Name<N> {
    fn fmt(&self, f: &mut fmt::Formatter<'_>) -> fmt::Result {
        write!(f, "{self}")
    }
}

/// The widths of names that the archive has machines for: 32 and 8 bytes.
///
/// Only this crate says of a width that it is one.
pub trait Width: sealed::Sealed {
    #[doc(hidden)]
    const CORE: u8;
    #[doc(hidden)]
    const ACTOR: u8;
}

impl Width for Name<32> {
    const CORE: u8 = 0;
    const ACTOR: u8 = 1;
}

impl Width for Name<8> {
    const CORE: u8 = 2;
    const ACTOR: u8 = 3;
}

mod sealed {
    pub trait Sealed {}

    impl Sealed for super::Name<32> {}

    impl Sealed for super::Name<8> {}
}
