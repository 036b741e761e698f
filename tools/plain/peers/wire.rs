//! Messages between peers.

/// A key that is asked for over the network.
pub trait Key: Ord + Clone {
    /// How many bytes it has.
    const SIZE: usize;

    /// The key of these bytes, which are so many.
    fn read(bytes: &[u8]) -> Option<Self>;
}

impl Key for u8 {
    const SIZE: usize = 1;

    fn read(bytes: &[u8]) -> Option<u8> {
        Some(bytes[0])
    }
}

/// What a message says under its id.
pub enum Payload<'a, K> {
    Request(K),
    Response(&'a [u8]),
    Error,
}

/// The id and what is said under it, if the bytes are a message.
pub fn decode<K: Key>(bytes: &[u8]) -> Option<(u64, Payload<'_, K>)> {
    let (id, rest) = bytes.split_first_chunk()?;
    let (tag, rest) = rest.split_first()?;
    let payload = match tag {
        0 if rest.len() == K::SIZE => Payload::Request(K::read(rest)?),
        1 => Payload::Response(value(rest)?),
        2 if rest.is_empty() => Payload::Error,
        _ => return None,
    };
    Some((u64::from_be_bytes(*id), payload))
}

/// The value behind its length, if nothing else stands there.
fn value(bytes: &[u8]) -> Option<&[u8]> {
    let end = bytes.iter().take(5).position(|byte| byte & 128 == 0)?;
    let (length, value) = bytes.split_at(end + 1);
    if end == 4 && length[4] > 15 || end > 0 && length[end] == 0 {
        return None;
    }
    let low_first = |sum, byte: &u8| sum << 7 | usize::from(byte & 127);
    (value.len() == length.iter().rev().fold(0, low_first)).then_some(value)
}

/// The answer to a request: its value, or word that there is none.
pub fn reply(id: u64, value: Option<&[u8]>) -> Vec<u8> {
    let fitting = value.and_then(|value| Some((u32::try_from(value.len()).ok()?, value)));
    let mut bytes = Vec::with_capacity(14 + value.map_or(0, <[u8]>::len));
    bytes.extend_from_slice(&id.to_be_bytes());
    let Some((mut length, value)) = fitting else {
        bytes.push(2);
        return bytes;
    };
    bytes.push(1);
    while length > 127 {
        bytes.push(length as u8 | 128);
        length >>= 7;
    }
    bytes.push(length as u8);
    bytes.extend_from_slice(value);
    bytes
}
