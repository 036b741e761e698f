//! What both machines have in common.

use crate::Moment;
use crate::fault::Fault;
use crate::held::Held;
use crate::name::Name;
use crate::room::Room;
use crate::spelled::{Reader, Record, Records, Subscribers, put_pair, sealed};
use resolver_sys::Deadline;

/// What a consumer says of a delivery.
#[derive(Clone, Copy, Debug, PartialEq, Eq, Hash)]
pub enum Outcome {
    /// It is what was wanted: the subscribers that it was for are served.
    Complete,
    /// It is right, but not all of it: the key is asked for again, after the delay.
    Partial,
    /// It is wrong: its peer is to be blocked, and the key is asked for again.
    Invalid,
    /// Nothing can be said of it: the key is asked for again.
    Unresolved,
    /// It is of no interest: the key is retired for all its subscribers.
    Ignored,
}

/// The byte of a verdict. Without an outcome the delivery was dropped.
pub(crate) fn verdict(outcome: Option<Outcome>) -> u8 {
    match outcome {
        None => 0,
        Some(Outcome::Complete) => 1,
        Some(Outcome::Partial) => 2,
        Some(Outcome::Invalid) => 3,
        Some(Outcome::Unresolved) => 4,
        Some(Outcome::Ignored) => 5,
    }
}

/// A demanded key, and who wants it.
#[derive(Clone, Copy, Debug, PartialEq, Eq)]
pub struct Row<'a, const N: usize = 32> {
    /// The key.
    pub key: Name<N>,
    /// Its subscribers, with their marks.
    pub subscribers: Subscribers<'a>,
}

impl<const N: usize> sealed::Sealed for Row<'_, N> {}

impl<'a, const N: usize> Record<'a> for Row<'a, N> {
    fn read(reader: &mut Reader<'a>) -> Option<Self> {
        Some(Row { key: reader.name()?, subscribers: reader.subscribers()? })
    }
}

/// The demanded keys, in their order.
pub type Rows<'a, const N: usize = 32> = Records<'a, Row<'a, N>>;

/// A machine, the input that it takes next, and room for its rows.
#[derive(Debug)]
pub(crate) struct Machine {
    pub(crate) held: Held,
    pub(crate) input: Vec<u8>,
    listed: Room,
}

impl Machine {
    pub(crate) fn open(kind: u8, settings: &[u8]) -> Result<Machine, Fault> {
        Ok(Machine { held: Held::open(kind, settings)?, input: Vec::new(), listed: Room::new() })
    }

    /// Takes the input that is spelled.
    pub(crate) fn take(&mut self) -> Result<(), Fault> {
        self.held.step(&self.input)
    }

    /// The effects of the last step.
    pub(crate) fn told<'a, T: Record<'a>>(
        &mut self,
        room: &'a mut Room,
    ) -> Result<Records<'a, T>, Fault> {
        room.clear();
        self.held.told(room)?;
        Ok(Records::told(room.told()))
    }

    /// Takes the input that is spelled, and tells what comes of it.
    pub(crate) fn step<'a, T: Record<'a>>(
        &mut self,
        room: &'a mut Room,
    ) -> Result<Records<'a, T>, Fault> {
        self.take()?;
        self.told(room)
    }

    pub(crate) fn rows<'a, const N: usize>(
        &mut self,
        room: &'a mut Room,
    ) -> Result<Rows<'a, N>, Fault> {
        room.clear();
        self.held.rows(room)?;
        Ok(Records::told(room.told()))
    }

    /// Puts the pairs that leave behind the input. A machine that has failed has no rows, and refuses
    /// the step.
    pub(crate) fn put_leaving<const N: usize>(
        &mut self,
        mut keep: impl FnMut(&Name<N>, u64) -> bool,
    ) -> Result<(), Fault> {
        self.listed.clear();
        match self.held.rows(&mut self.listed) {
            Ok(()) | Err(Fault::Failed) => {}
            Err(Fault::Untold) => return Err(Fault::Unread),
            Err(fault) => return Err(fault),
        }
        let start = self.input.len();
        self.input.extend_from_slice(&[0; 4]);
        let mut count = 0_u32;
        for Row { key, subscribers } in Records::<Row<'_, N>>::told(self.listed.told()) {
            for (subscriber, _) in subscribers.iter() {
                if !keep(&key, subscriber) {
                    put_pair(&mut self.input, &key, subscriber);
                    count = count.saturating_add(1);
                }
            }
        }
        self.input[start..start + 4].copy_from_slice(&count.to_le_bytes());
        Ok(())
    }
}

/// A moment that the archive answered, if it did.
pub(crate) fn moment(deadline: Deadline) -> Option<Moment> {
    let wide = || Moment::from(deadline.low) | Moment::from(deadline.high) << 64;
    deadline.is.then(wide)
}
