//! Why a call was refused.

use std::error::Error;
use std::fmt;

/// Why a call was refused, and what it left.
#[derive(Clone, Copy, Debug, PartialEq, Eq, Hash)]
#[non_exhaustive]
pub enum Fault {
    /// Memory was wanting in this step: the machine has failed, and every later step is refused as
    /// [`Fault::Failed`]. Of a machine that is opened: there is none.
    OutOfMemory,
    /// The machine ran out of memory or of numbers in an earlier step.
    Failed,
    /// The machine was told to end.
    Ended,
    /// An event came while a scan expects an answer. Nothing changed.
    Busy,
    /// An answer came that no scan expects, or of another kind than the one expected. Nothing changed.
    Unasked,
    /// A drawn number is not below the bound that was asked for. Nothing changed.
    OutOfRange,
    /// A number past `u64::MAX` is needed: the machine has failed.
    Exhausted,
    /// A message has too few bytes.
    EndOfBuffer,
    /// A message has a tag other than 0, 1 and 2.
    InvalidTag,
    /// A length is not in its shortest spelling, or past `u32::MAX`.
    InvalidVarint,
    /// Bytes are left after a whole message.
    ExtraData,
    /// The bytes are no key.
    Key,
    /// A list of what was taken differs from a book. No machine answers so.
    Uneven,
    /// The bytes are no input, or the settings are out of range: a moment or a duration from 2^94 on,
    /// a timeout of 0, an empty list of subscribers or of targets, or a width of names that the
    /// archive has no machine for. Nothing changed.
    Misspelled,
    /// Memory is wanting to read the input: the machine is as it was, so the same step may be tried
    /// again.
    Unread,
    /// Memory is wanting to tell what was asked, and nothing is lost: the step is taken, and `told`
    /// tells its effects later, as `rows` the rows.
    Untold,
    /// The machine counts nothing: it is an actor.
    Uncounted,
    /// A number that this crate has no name for: the archive is of another version.
    Unknown(u8),
}

impl Fault {
    /// The number of the refusal, as the archive answers it.
    pub const fn number(self) -> u8 {
        match self {
            Fault::OutOfMemory | Fault::Untold => 1,
            Fault::Failed => 2,
            Fault::Ended => 3,
            Fault::Busy => 4,
            Fault::Unasked => 5,
            Fault::OutOfRange => 6,
            Fault::Exhausted => 7,
            Fault::EndOfBuffer => 8,
            Fault::InvalidTag => 9,
            Fault::InvalidVarint => 10,
            Fault::ExtraData => 11,
            Fault::Key => 12,
            Fault::Uneven => 13,
            Fault::Misspelled => 64,
            Fault::Unread => 65,
            Fault::Uncounted => 67,
            Fault::Unknown(number) => number,
        }
    }

    /// The refusal with this number.
    pub const fn numbered(number: u8) -> Fault {
        match number {
            1 => Fault::OutOfMemory,
            2 => Fault::Failed,
            3 => Fault::Ended,
            4 => Fault::Busy,
            5 => Fault::Unasked,
            6 => Fault::OutOfRange,
            7 => Fault::Exhausted,
            8 => Fault::EndOfBuffer,
            9 => Fault::InvalidTag,
            10 => Fault::InvalidVarint,
            11 => Fault::ExtraData,
            12 => Fault::Key,
            13 => Fault::Uneven,
            64 => Fault::Misspelled,
            65 => Fault::Unread,
            67 => Fault::Uncounted,
            other => Fault::Unknown(other),
        }
    }

    /// What a call answered: 0 is no refusal.
    pub(crate) fn of(code: u8) -> Result<(), Fault> {
        match code {
            0 => Ok(()),
            code => Err(Fault::numbered(code)),
        }
    }

    /// Whether the machine is of no more use: another one has to be opened.
    pub const fn is_fatal(self) -> bool {
        matches!(self, Fault::OutOfMemory | Fault::Failed | Fault::Exhausted | Fault::Ended)
    }
}

impl fmt::Display for Fault {
    fn fmt(&self, f: &mut fmt::Formatter<'_>) -> fmt::Result {
        f.write_str(match self {
            Fault::OutOfMemory => "out of memory",
            Fault::Failed => "the machine failed in an earlier step",
            Fault::Ended => "the machine has ended",
            Fault::Busy => "a scan expects an answer",
            Fault::Unasked => "no scan expects this answer",
            Fault::OutOfRange => "a drawn number is out of range",
            Fault::Exhausted => "no number is left",
            Fault::EndOfBuffer => "too few bytes",
            Fault::InvalidTag => "no such tag",
            Fault::InvalidVarint => "a length is misspelled",
            Fault::ExtraData => "bytes are left over",
            Fault::Key => "the bytes are no key",
            Fault::Uneven => "the book says otherwise",
            Fault::Misspelled => "misspelled",
            Fault::Unread => "no memory to read the input",
            Fault::Untold => "no memory to tell what was asked",
            Fault::Uncounted => "an actor counts nothing",
            Fault::Unknown(number) => return write!(f, "refused with the number {number}"),
        })
    }
}

impl Error for Fault {}
