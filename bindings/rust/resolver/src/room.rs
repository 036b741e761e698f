//! Where a machine writes what it tells.

use crate::fault::Fault;

/// Room for what a machine tells, kept by the caller and used again for each step. It grows to what
/// was needed, so that steps allocate nothing after a while. What is told is lent from it, and not
/// from the machine, which is free meanwhile.
#[derive(Clone, Debug, Default)]
pub struct Room {
    bytes: Vec<u8>,
    used: usize,
}

/// The least room that is made.
const LEAST: usize = 512;

impl Room {
    /// No room yet.
    pub fn new() -> Room {
        Room::default()
    }

    /// Room for so many bytes.
    pub fn with_capacity(count: usize) -> Room {
        Room { bytes: vec![0; count], used: 0 }
    }

    /// How many bytes there is room for.
    pub fn capacity(&self) -> usize {
        self.bytes.len()
    }

    pub(crate) fn clear(&mut self) {
        self.used = 0;
    }

    pub(crate) fn told(&self) -> &[u8] {
        &self.bytes[..self.used]
    }

    /// What was told from here on.
    pub(crate) fn told_from(&self, start: usize) -> &[u8] {
        &self.bytes[start..self.used]
    }

    pub(crate) fn used(&self) -> usize {
        self.used
    }

    /// Forgets what was told from here on.
    pub(crate) fn cut(&mut self, start: usize) {
        self.used = start;
    }

    pub(crate) fn free(&mut self) -> &mut [u8] {
        &mut self.bytes[self.used..]
    }

    /// So many bytes were written.
    pub(crate) fn take(&mut self, count: usize) {
        self.used += count;
    }

    /// Makes room for so many bytes behind what is there.
    pub(crate) fn make(&mut self, count: usize) -> Result<(), Fault> {
        let wanted = self.used.checked_add(count).ok_or(Fault::Untold)?;
        let wanted = wanted.max(LEAST).checked_next_power_of_two();
        let wanted = wanted.ok_or(Fault::Untold)?;
        let more = wanted.saturating_sub(self.bytes.len());
        self.bytes.try_reserve(more).map_err(|_| Fault::Untold)?;
        self.bytes.resize(self.bytes.len() + more, 0);
        Ok(())
    }
}
