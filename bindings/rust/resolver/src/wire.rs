//! Messages between nodes: what a request, a response and an error are on the wire.
//!
//! A core spells its replies by itself and reads what comes; a request is spelled by who sends it. A
//! [`Driver`](crate::Driver) does that, too.

use crate::fault::Fault;
use crate::name::Name;

/// What a message says under its id.
#[derive(Clone, Copy, Debug, PartialEq, Eq)]
pub enum Payload<'a, const N: usize = 32> {
    /// A key is asked for.
    Request(Name<N>),
    /// The value of the key that was asked for under this id, of at most `u32::MAX` bytes.
    Response(&'a [u8]),
    /// There is no value for it.
    Error,
}

/// A message between two nodes.
///
/// ```
/// use resolver::Name;
/// use resolver::wire::{Message, Payload};
///
/// # fn main() -> Result<(), resolver::Fault> {
/// let request: Message = Message { id: 5, payload: Payload::Request(Name::numbered(1)) };
/// let mut bytes = Vec::new();
/// request.write(&mut bytes)?;
/// assert_eq!(bytes.len(), 8 + 1 + 32);
/// assert_eq!(Message::read(&bytes)?, request);
/// # Ok(())
/// # }
/// ```
#[derive(Clone, Copy, Debug, PartialEq, Eq)]
pub struct Message<'a, const N: usize = 32> {
    /// The id of the request, that its answer has too.
    pub id: u64,
    /// What is said.
    pub payload: Payload<'a, N>,
}

const REQUEST: u8 = 0;
const RESPONSE: u8 = 1;
const ERROR: u8 = 2;

impl<'a, const N: usize> Message<'a, N> {
    /// Appends the one spelling of the message. A response that is too long is refused as
    /// [`Fault::InvalidVarint`], and nothing is appended.
    pub fn write(&self, out: &mut Vec<u8>) -> Result<(), Fault> {
        if let Payload::Response(value) = self.payload {
            u32::try_from(value.len()).map_err(|_| Fault::InvalidVarint)?;
        }
        out.extend_from_slice(&self.id.to_be_bytes());
        match self.payload {
            Payload::Request(key) => {
                out.push(REQUEST);
                out.extend_from_slice(&key.0);
            }
            Payload::Response(value) => {
                out.push(RESPONSE);
                put_length(out, value.len());
                out.extend_from_slice(value);
            }
            Payload::Error => out.push(ERROR),
        }
        Ok(())
    }

    /// The message that these bytes spell, all of them. The first fault decides: too few bytes, a tag
    /// that is none, a length that is misspelled, or bytes that are left.
    pub fn read(bytes: &'a [u8]) -> Result<Message<'a, N>, Fault> {
        let (id, rest) = front::<8>(bytes)?;
        let (&tag, rest) = rest.split_first().ok_or(Fault::EndOfBuffer)?;
        let (payload, rest) = match tag {
            REQUEST => {
                let (key, rest) = front(rest)?;
                (Payload::Request(Name(key)), rest)
            }
            RESPONSE => {
                let (length, rest) = length(rest)?;
                let (value, rest) = rest.split_at_checked(length).ok_or(Fault::EndOfBuffer)?;
                (Payload::Response(value), rest)
            }
            ERROR => (Payload::Error, rest),
            _ => return Err(Fault::InvalidTag),
        };
        if !rest.is_empty() {
            return Err(Fault::ExtraData);
        }
        let id = u64::from_be_bytes(id);
        Ok(Message { id, payload })
    }
}

fn front<const M: usize>(bytes: &[u8]) -> Result<([u8; M], &[u8]), Fault> {
    let (front, rest) = bytes.split_first_chunk().ok_or(Fault::EndOfBuffer)?;
    Ok((*front, rest))
}

/// Appends a length, seven bits a byte, the low ones first.
fn put_length(out: &mut Vec<u8>, length: usize) {
    let mut rest = length;
    while rest >= 128 {
        out.push((rest % 128) as u8 | 128);
        rest /= 128;
    }
    out.push(rest as u8);
}

/// Reads a length in its shortest spelling: at most five bytes, of which the fifth has four bits.
fn length(bytes: &[u8]) -> Result<(usize, &[u8]), Fault> {
    let mut sum = 0_u64;
    let mut rest = bytes;
    for place in 0..5 {
        let (&byte, after) = rest.split_first().ok_or(Fault::EndOfBuffer)?;
        rest = after;
        if place == 4 && byte >= 16 || place > 0 && byte == 0 {
            return Err(Fault::InvalidVarint);
        }
        sum |= u64::from(byte & 127) << (7 * place);
        if byte < 128 {
            break;
        }
    }
    let sum = usize::try_from(sum).map_err(|_| Fault::InvalidVarint)?;
    Ok((sum, rest))
}
