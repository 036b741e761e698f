//! Bytes, piece by piece: what inputs are made of, and what effects and rows are read from. Numbers lie
//! with their low byte first.

use crate::name::Name;
use std::marker::PhantomData;

pub(crate) fn put_number(out: &mut Vec<u8>, number: u64) {
    out.extend_from_slice(&number.to_le_bytes());
}

pub(crate) fn put_wide(out: &mut Vec<u8>, number: u128) {
    out.extend_from_slice(&number.to_le_bytes());
}

/// How many there are. A list of more than `u32::MAX` has no spelling: what is written is refused.
pub(crate) fn put_count(out: &mut Vec<u8>, count: usize) {
    out.extend_from_slice(&u32::try_from(count).unwrap_or(u32::MAX).to_le_bytes());
}

pub(crate) fn put_names<const N: usize>(out: &mut Vec<u8>, names: &[Name<N>]) {
    put_count(out, names.len());
    for name in names {
        out.extend_from_slice(&name.0);
    }
}

pub(crate) fn put_subscribers(out: &mut Vec<u8>, subscribers: &[(u64, u64)]) {
    put_count(out, subscribers.len());
    for (subscriber, mark) in subscribers {
        put_number(out, *subscriber);
        put_number(out, *mark);
    }
}

/// The pairs of a key and a subscriber that leave.
pub(crate) fn put_pairs<const N: usize>(out: &mut Vec<u8>, pairs: &[(Name<N>, u64)]) {
    put_count(out, pairs.len());
    for (key, subscriber) in pairs {
        put_pair(out, key, *subscriber);
    }
}

pub(crate) fn put_pair<const N: usize>(out: &mut Vec<u8>, key: &Name<N>, subscriber: u64) {
    out.extend_from_slice(&key.0);
    put_number(out, subscriber);
}

/// A value, which is all that is left, behind a flag.
pub(crate) fn put_value(out: &mut Vec<u8>, value: Option<&[u8]>) {
    out.push(u8::from(value.is_some()));
    out.extend_from_slice(value.unwrap_or(&[]));
}

/// What is left to be read.
#[derive(Clone, Copy, Debug)]
pub struct Reader<'a> {
    rest: &'a [u8],
}

impl<'a> Reader<'a> {
    pub(crate) fn chunk<const N: usize>(&mut self) -> Option<[u8; N]> {
        let (front, rest) = self.rest.split_first_chunk()?;
        self.rest = rest;
        Some(*front)
    }

    pub(crate) fn octet(&mut self) -> Option<u8> {
        self.chunk().map(|[octet]| octet)
    }

    pub(crate) fn flag(&mut self) -> Option<bool> {
        match self.octet()? {
            0 => Some(false),
            1 => Some(true),
            _ => None,
        }
    }

    pub(crate) fn number(&mut self) -> Option<u64> {
        self.chunk().map(u64::from_le_bytes)
    }

    pub(crate) fn wide(&mut self) -> Option<u128> {
        self.chunk().map(u128::from_le_bytes)
    }

    pub(crate) fn name<const N: usize>(&mut self) -> Option<Name<N>> {
        self.chunk().map(Name)
    }

    fn bytes(&mut self, count: usize) -> Option<&'a [u8]> {
        let (front, rest) = self.rest.split_at_checked(count)?;
        self.rest = rest;
        Some(front)
    }

    /// Bytes behind their number.
    pub(crate) fn value(&mut self) -> Option<&'a [u8]> {
        let count = usize::try_from(self.number()?).ok()?;
        self.bytes(count)
    }

    /// Subscribers behind their number.
    pub(crate) fn subscribers(&mut self) -> Option<Subscribers<'a>> {
        let count = usize::try_from(self.number()?).ok()?;
        let bytes = self.bytes(count.checked_mul(16)?)?;
        let (pairs, _) = bytes.as_chunks();
        Some(Subscribers { pairs })
    }
}

/// Subscribers, each with its mark, as they lie in the room of a step.
#[derive(Clone, Copy, PartialEq, Eq)]
pub struct Subscribers<'a> {
    pairs: &'a [[u8; 16]],
}

impl<'a> Subscribers<'a> {
    /// How many there are: at least one.
    #[allow(clippy::len_without_is_empty)]
    pub fn len(&self) -> usize {
        self.pairs.len()
    }

    /// Each subscriber with its mark, in the order of the subscribers.
    pub fn iter(&self) -> impl ExactSizeIterator<Item = (u64, u64)> + 'a {
        self.pairs.iter().map(|pair| {
            let both = u128::from_le_bytes(*pair);
            (both as u64, (both >> 64) as u64)
        })
    }
}

impl std::fmt::Debug for Subscribers<'_> {
    fn fmt(&self, f: &mut std::fmt::Formatter<'_>) -> std::fmt::Result {
        f.debug_list().entries(self.iter()).finish()
    }
}

/// What is read from bytes: an effect, or a row.
pub trait Record<'a>: Sized + sealed::Sealed {
    #[doc(hidden)]
    fn read(reader: &mut Reader<'a>) -> Option<Self>;
}

pub(crate) mod sealed {
    pub trait Sealed {}
}

/// Effects or rows, one behind the other, each read as it is asked for. Nothing is copied but
/// names and numbers.
#[derive(Clone, Copy, Debug)]
pub struct Records<'a, T> {
    reader: Reader<'a>,
    of: PhantomData<fn() -> T>,
}

impl<'a, T: Record<'a>> Records<'a, T> {
    /// What these bytes spell, all of them; `None` where they spell no such list. So a list that
    /// was kept, as in a log, is read again.
    pub fn of(bytes: &'a [u8]) -> Option<Self> {
        let mut reader = Reader { rest: bytes };
        while !reader.rest.is_empty() {
            T::read(&mut reader)?;
        }
        Some(Records::told(bytes))
    }

    /// What the machine told.
    pub(crate) fn told(bytes: &'a [u8]) -> Self {
        Records { reader: Reader { rest: bytes }, of: PhantomData }
    }

    /// The bytes of what wasn't read yet.
    pub fn bytes(&self) -> &'a [u8] {
        self.reader.rest
    }
}

impl<'a, T: Record<'a>> Iterator for Records<'a, T> {
    type Item = T;

    /// The next one.
    ///
    /// # Panics
    ///
    /// Where the archive spells otherwise than this crate reads: then it is of another version.
    fn next(&mut self) -> Option<T> {
        if self.reader.rest.is_empty() {
            return None;
        }
        let one = T::read(&mut self.reader);
        Some(one.expect("the archive of this version spells so"))
    }
}
