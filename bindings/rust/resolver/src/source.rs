//! The machine that fetches from one source, such as a database or a server.

use crate::Moment;
use crate::fault::Fault;
use crate::machine::{Machine, Outcome, Rows, moment, verdict};
use crate::name::{Name, Width};
use crate::room::Room;
use crate::spelled::{
    Reader, Record, Records, Subscribers, put_count, put_number, put_pairs, put_subscribers,
    put_value, put_wide, sealed,
};

/// A key that is wanted.
#[derive(Clone, Copy, Debug, PartialEq, Eq)]
pub struct Wanted<'a, const N: usize = 32> {
    /// The key.
    pub key: Name<N>,
    /// Who wants it, each with a mark of its own that is given back in the rows: at least one.
    pub subscribers: &'a [(u64, u64)],
}

/// What happens around an actor.
#[derive(Clone, Copy, Debug, PartialEq, Eq)]
pub enum Event<'a, const N: usize = 32> {
    /// These keys are wanted.
    Fetch(&'a [Wanted<'a, N>]),
    /// These subscribers no longer want these keys. [`Actor::retain`] finds them by a closure.
    Retain(&'a [(Name<N>, u64)]),
    /// What the source has for an attempt.
    Fetched {
        /// The number of [`Effect::Start`].
        attempt: u64,
        /// The value, if there is one. Without it the key is asked for again, after the delay.
        value: Option<&'a [u8]>,
    },
    /// What the consumer says of a delivery; without an outcome it was dropped.
    Verdict {
        /// The number of the delivery.
        number: u64,
        /// What is said of it.
        outcome: Option<Outcome>,
    },
    /// Keys that wait may be due.
    RetriesDue,
    /// No key is wanted any more, and every later event is refused as [`Fault::Ended`].
    End,
}

impl<const N: usize> Event<'_, N> {
    fn tag(&self) -> u8 {
        match self {
            Event::Fetch(_) => 0,
            Event::Retain(_) => RETAIN,
            Event::Fetched { .. } => 2,
            Event::Verdict { .. } => 3,
            Event::RetriesDue => 4,
            Event::End => 5,
        }
    }

    /// Appends the bytes that [`Actor::step`] takes for this event at this moment.
    pub fn spell(&self, now: Moment, out: &mut Vec<u8>) {
        put_head(out, self.tag(), now);
        match self {
            Event::Fetch(items) => {
                put_count(out, items.len());
                for item in *items {
                    out.extend_from_slice(&item.key.0);
                    put_subscribers(out, item.subscribers);
                }
            }
            Event::Retain(pairs) => put_pairs(out, pairs),
            Event::Fetched { attempt, value } => {
                put_number(out, *attempt);
                put_value(out, *value);
            }
            Event::Verdict { number, outcome } => {
                put_number(out, *number);
                out.push(verdict(*outcome));
            }
            Event::RetriesDue | Event::End => {}
        }
    }
}

const RETAIN: u8 = 1;

fn put_head(out: &mut Vec<u8>, tag: u8, now: Moment) {
    put_wide(out, now);
    out.push(tag);
}

/// What an actor wants done. Values lie in the room of the step.
#[derive(Clone, Copy, Debug, PartialEq, Eq)]
pub enum Effect<'a, const N: usize = 32> {
    /// The source is to be asked for a key. [`Event::Fetched`] answers it.
    Start {
        /// The number of the attempt.
        attempt: u64,
        /// The key.
        key: Name<N>,
    },
    /// An attempt is of no more use; what comes of it is passed over.
    Abort {
        /// The number of the attempt.
        attempt: u64,
    },
    /// The consumer is to judge a value. [`Event::Verdict`] answers it, at any time.
    Deliver {
        /// The number of the delivery.
        number: u64,
        /// The delivery that carried this value first: the same number, or an earlier one.
        response: u64,
        /// The key that was asked for.
        key: Name<N>,
        /// Whom it is for, with their marks.
        subscribers: Subscribers<'a>,
        /// The value.
        value: &'a [u8],
    },
    /// A delivery is of no more use. Its verdict is still wanted, and does nothing else.
    Cancel {
        /// The number of the delivery.
        number: u64,
    },
}

impl<const N: usize> sealed::Sealed for Effect<'_, N> {}

impl<'a, const N: usize> Record<'a> for Effect<'a, N> {
    fn read(reader: &mut Reader<'a>) -> Option<Self> {
        Some(match reader.octet()? {
            0 => Effect::Start { attempt: reader.number()?, key: reader.name()? },
            1 => Effect::Abort { attempt: reader.number()? },
            2 => Effect::Deliver {
                number: reader.number()?,
                response: reader.number()?,
                key: reader.name()?,
                subscribers: reader.subscribers()?,
                value: reader.value()?,
            },
            3 => Effect::Cancel { number: reader.number()? },
            _ => return None,
        })
    }
}

/// What an actor wants done, in order.
pub type Effects<'a, const N: usize = 32> = Records<'a, Effect<'a, N>>;

/// Fetches keys from one source, until no subscriber wants them.
///
/// It takes an event with its moment, and answers with effects. It has no clock and no thread, and may
/// go from one thread to another.
///
/// ```
/// use resolver::source::{Actor, Effect, Event, Wanted};
/// use resolver::{Name, Outcome, Room};
///
/// # fn main() -> Result<(), resolver::Fault> {
/// let mut actor: Actor = Actor::new(100)?;
/// let mut room = Room::new();
/// let wanted = Wanted { key: Name::numbered(1), subscribers: &[(10, 7)] };
/// for effect in actor.happens(0, &Event::Fetch(&[wanted]), &mut room)? {
///     assert_eq!(effect, Effect::Start { attempt: 0, key: Name::numbered(1) });
/// }
/// let fetched = Event::Fetched { attempt: 0, value: Some(b"hi") };
/// let first = actor.happens(5, &fetched, &mut room)?.next();
/// assert!(matches!(first, Some(Effect::Deliver { number: 0, value: b"hi", .. })));
/// let judged = Event::Verdict { number: 0, outcome: Some(Outcome::Complete) };
/// assert_eq!(actor.happens(6, &judged, &mut room)?.count(), 0);
/// assert_eq!(actor.rows(&mut room)?.count(), 0);
/// # Ok(())
/// # }
/// ```
#[derive(Debug)]
pub struct Actor<const N: usize = 32> {
    machine: Machine,
}

impl<const N: usize> Actor<N>
where
    Name<N>: Width,
{
    /// An actor without demand. A key that the source has no value for is asked for again after the
    /// delay, in nanoseconds: below 2^94, or it is refused as [`Fault::Misspelled`].
    pub fn new(retry_delay: Moment) -> Result<Actor<N>, Fault> {
        Ok(Actor { machine: Machine::open(Name::<N>::ACTOR, &retry_delay.to_le_bytes())? })
    }

    /// Something happened at this moment, which is below 2^94 nanoseconds. A refusal has no effects.
    pub fn happens<'a>(
        &mut self,
        now: Moment,
        event: &Event<'_, N>,
        room: &'a mut Room,
    ) -> Result<Effects<'a, N>, Fault> {
        self.machine.input.clear();
        event.spell(now, &mut self.machine.input);
        self.machine.step(room)
    }

    /// Takes an input that is spelled already, as from a log.
    pub fn step<'a>(&mut self, input: &[u8], room: &'a mut Room) -> Result<Effects<'a, N>, Fault> {
        self.machine.held.step(input)?;
        self.machine.told(room)
    }

    /// The effects of the last step once more. They are none after a refusal.
    pub fn told<'a>(&mut self, room: &'a mut Room) -> Result<Effects<'a, N>, Fault> {
        self.machine.told(room)
    }

    /// Lets go of every subscriber of a key that isn't kept, as [`Event::Retain`] with all of them
    /// does. The closure is asked of each subscriber of each demanded key, in their order.
    pub fn retain<'a>(
        &mut self,
        now: Moment,
        room: &'a mut Room,
        keep: impl FnMut(&Name<N>, u64) -> bool,
    ) -> Result<Effects<'a, N>, Fault> {
        self.machine.input.clear();
        put_head(&mut self.machine.input, RETAIN, now);
        self.machine.put_leaving(keep)?;
        self.machine.step(room)
    }

    /// The demanded keys in their order, each with its subscribers.
    pub fn rows<'a>(&mut self, room: &'a mut Room) -> Result<Rows<'a, N>, Fault> {
        self.machine.rows(room)
    }

    /// When [`Event::RetriesDue`] is due, if a key waits.
    pub fn next_retry(&mut self) -> Option<Moment> {
        moment(self.machine.held.deadlines().0)
    }
}
