//! How inputs are read and effects are spelled, for tests: the other side of what the crate does, written
//! from the definitions in crates/resolver_flat*/specs.
#![allow(dead_code)]

use resolver::{Name, Outcome};

/// A subscriber and its mark.
pub type Subscriber = (u64, u64);

#[derive(Clone, Debug, PartialEq, Eq)]
pub struct Item<const N: usize> {
    pub key: Name<N>,
    pub subscribers: Vec<Subscriber>,
    pub targets: Option<Vec<Name<N>>>,
}

/// What a machine takes, of either kind.
#[derive(Clone, Debug, PartialEq, Eq)]
pub enum Taken<const N: usize> {
    Fetch(Vec<Item<N>>),
    Retain(Vec<(Name<N>, u64)>),
    PeerSet(u64, Vec<Name<N>>),
    Blocked(Vec<Name<N>>),
    ActiveDue,
    PendingDue,
    Verdict(u64, Option<Outcome>),
    Served(u64, Option<Vec<u8>>),
    Net(Name<N>, Vec<u8>),
    Fetched(u64, Option<Vec<u8>>),
    RetriesDue,
    End,
    Drawn(u128),
    Checked(Option<u128>),
    Sent(bool),
}

/// What is read from the front of bytes.
struct Front<'a>(&'a [u8]);

const MOMENTS: u128 = 1 << 94;

impl Front<'_> {
    fn chunk<const M: usize>(&mut self) -> Option<[u8; M]> {
        let (front, rest) = self.0.split_first_chunk()?;
        self.0 = rest;
        Some(*front)
    }

    fn octet(&mut self) -> Option<u8> {
        self.chunk().map(|[octet]| octet)
    }

    fn flag(&mut self) -> Option<bool> {
        match self.octet()? {
            0 => Some(false),
            1 => Some(true),
            _ => None,
        }
    }

    fn number(&mut self) -> Option<u64> {
        self.chunk().map(u64::from_le_bytes)
    }

    fn moment(&mut self) -> Option<u128> {
        let moment = u128::from_le_bytes(self.chunk()?);
        (moment < MOMENTS).then_some(moment)
    }

    fn list<T>(&mut self, mut one: impl FnMut(&mut Self) -> Option<T>) -> Option<Vec<T>> {
        let count = u32::from_le_bytes(self.chunk()?);
        let mut list = Vec::new();
        for _ in 0..count {
            list.push(one(self)?);
        }
        Some(list)
    }

    fn some<T>(&mut self, one: impl FnMut(&mut Self) -> Option<T>) -> Option<Vec<T>> {
        self.list(one).filter(|list| !list.is_empty())
    }

    fn name<const N: usize>(&mut self) -> Option<Name<N>> {
        self.chunk().map(Name)
    }

    fn rest(&mut self) -> Vec<u8> {
        std::mem::take(&mut self.0).to_vec()
    }

    fn value(&mut self) -> Option<Option<Vec<u8>>> {
        Some(if self.flag()? { Some(self.rest()) } else { None })
    }

    fn outcome(&mut self) -> Option<Option<Outcome>> {
        Some(match self.octet()? {
            0 => None,
            1 => Some(Outcome::Complete),
            2 => Some(Outcome::Partial),
            3 => Some(Outcome::Invalid),
            4 => Some(Outcome::Unresolved),
            5 => Some(Outcome::Ignored),
            _ => return None,
        })
    }

    fn subscriber(&mut self) -> Option<Subscriber> {
        Some((self.number()?, self.number()?))
    }

    fn item<const N: usize>(&mut self, has_targets: bool) -> Option<Item<N>> {
        let key = self.name()?;
        let subscribers = self.some(Self::subscriber)?;
        let targets = if has_targets && self.flag()? { Some(self.some(Self::name)?) } else { None };
        Some(Item { key, subscribers, targets })
    }

    fn pair<const N: usize>(&mut self) -> Option<(Name<N>, u64)> {
        Some((self.name()?, self.number()?))
    }

    fn core_event<const N: usize>(&mut self, tag: u8) -> Option<Taken<N>> {
        Some(match tag {
            0 => Taken::Fetch(self.list(|front| front.item(true))?),
            1 => Taken::Retain(self.list(Self::pair)?),
            2 => Taken::PeerSet(self.number()?, self.list(Self::name)?),
            3 => Taken::Blocked(self.list(Self::name)?),
            4 => Taken::ActiveDue,
            5 => Taken::PendingDue,
            6 => Taken::Verdict(self.number()?, self.outcome()?),
            7 => Taken::Served(self.number()?, self.value()?),
            8 => Taken::Net(self.name()?, self.rest()),
            9 => Taken::End,
            _ => return None,
        })
    }

    fn answer<const N: usize>(&mut self, tag: u8) -> Option<Taken<N>> {
        Some(match tag {
            16 => Taken::Drawn(u128::from_le_bytes(self.chunk()?)),
            17 => Taken::Checked(None),
            18 => Taken::Checked(Some(self.moment()?)),
            19 => Taken::Sent(self.flag()?),
            _ => return None,
        })
    }

    fn actor_event<const N: usize>(&mut self, tag: u8) -> Option<Taken<N>> {
        Some(match tag {
            0 => Taken::Fetch(self.list(|front| front.item(false))?),
            1 => Taken::Retain(self.list(Self::pair)?),
            2 => Taken::Fetched(self.number()?, self.value()?),
            3 => Taken::Verdict(self.number()?, self.outcome()?),
            4 => Taken::RetriesDue,
            5 => Taken::End,
            _ => return None,
        })
    }
}

/// The input of a core that these bytes spell, with its moment where it has one.
pub fn core_input<const N: usize>(bytes: &[u8]) -> Option<(Option<u128>, Taken<N>)> {
    let mut front = Front(bytes);
    let tag = front.octet()?;
    let input = if tag < 16 {
        let now = front.moment()?;
        (Some(now), front.core_event(tag)?)
    } else {
        (None, front.answer(tag)?)
    };
    front.0.is_empty().then_some(input)
}

/// The input of an actor that these bytes spell, with its moment.
pub fn actor_input<const N: usize>(bytes: &[u8]) -> Option<(u128, Taken<N>)> {
    let mut front = Front(bytes);
    let now = front.moment()?;
    let tag = front.octet()?;
    let input = (now, front.actor_event(tag)?);
    front.0.is_empty().then_some(input)
}

/// What an effect or a row is made of.
pub enum Piece<'a> {
    Octet(u8),
    Number(u64),
    Wide(u128),
    Name(&'a [u8]),
    Value(&'a [u8]),
    Subscribers(&'a [Subscriber]),
}

/// Appends pieces, one behind the other.
pub fn put(out: &mut Vec<u8>, pieces: &[Piece<'_>]) {
    for piece in pieces {
        match piece {
            Piece::Octet(octet) => out.push(*octet),
            Piece::Number(number) => out.extend_from_slice(&number.to_le_bytes()),
            Piece::Wide(wide) => out.extend_from_slice(&wide.to_le_bytes()),
            Piece::Name(name) => out.extend_from_slice(name),
            Piece::Value(value) => {
                out.extend_from_slice(&(value.len() as u64).to_le_bytes());
                out.extend_from_slice(value);
            }
            Piece::Subscribers(list) => {
                out.extend_from_slice(&(list.len() as u64).to_le_bytes());
                for (subscriber, mark) in *list {
                    out.extend_from_slice(&subscriber.to_le_bytes());
                    out.extend_from_slice(&mark.to_le_bytes());
                }
            }
        }
    }
}
