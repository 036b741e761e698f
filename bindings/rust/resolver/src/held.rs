//! The machine that a slot holds. Nothing else in this crate is unsafe.
//!
//! What the archive asks of its callers is kept here: a slot is opened once, while it is empty, used
//! while it has a machine, and closed once. That the declarations of `resolver-sys` are those of the archive,
//! nothing checks.
#![allow(unsafe_code)]

use crate::fault::Fault;
use crate::room::Room;
use resolver_sys as sys;

/// A list did not fit into the room.
const SHORT: u8 = 66;

/// A slot that has a machine.
#[derive(Debug)]
pub(crate) struct Held {
    slot: sys::Slot,
}

// SAFETY: what the slot points to is the machine alone, in memory of malloc, which any thread may use and
// free. That a machine may go to another thread is stated in Rattle: `resolver_open` hands each one through
// `fn sent<T: Send>(it: T) -> T` (crates/resolver_c/src/opening.rt), so its check refuses a machine that may
// not. Every call takes the slot by `&mut`.
unsafe impl Send for Held {}

type Lists = unsafe extern "C" fn(&mut sys::Slot, *mut u8, usize, &mut usize) -> u8;

impl Held {
    /// Opens a machine of a kind.
    pub(crate) fn open(kind: u8, settings: &[u8]) -> Result<Held, Fault> {
        let mut slot = sys::Slot::EMPTY;
        // SAFETY: the slot is empty, and the settings are lent for the call.
        let code =
            unsafe { sys::resolver_open(&mut slot, kind, settings.as_ptr(), settings.len()) };
        Fault::of(code)?;
        Ok(Held { slot })
    }

    pub(crate) fn step(&mut self, input: &[u8]) -> Result<(), Fault> {
        // SAFETY: the slot has a machine, from `open` to `drop`, and the input is lent for the call.
        Fault::of(unsafe { sys::resolver_step(&mut self.slot, input.as_ptr(), input.len()) })
    }

    /// Puts the effects of the last step behind what is in the room.
    pub(crate) fn told(&mut self, room: &mut Room) -> Result<(), Fault> {
        self.list(sys::resolver_told, room)
    }

    /// Puts the rows behind what is in the room.
    pub(crate) fn rows(&mut self, room: &mut Room) -> Result<(), Fault> {
        self.list(sys::resolver_rows, room)
    }

    /// Asks once for the length, if there is too little room, and then for the list.
    fn list(&mut self, lists: Lists, room: &mut Room) -> Result<(), Fault> {
        loop {
            let mut length = 0;
            let out = room.free();
            // SAFETY: the slot has a machine, `lists` is one of the archive's two functions of this type,
            // and the room is lent for the call.
            let code = unsafe { lists(&mut self.slot, out.as_mut_ptr(), out.len(), &mut length) };
            match code {
                0 => {
                    room.take(length);
                    return Ok(());
                }
                SHORT => room.make(length)?,
                1 => return Err(Fault::Untold),
                code => return Err(Fault::numbered(code)),
            }
        }
    }

    pub(crate) fn metrics(&mut self) -> Result<sys::Counts, Fault> {
        let mut counts = sys::Counts::default();
        // SAFETY: the slot has a machine.
        Fault::of(unsafe { sys::resolver_metrics(&mut self.slot, &mut counts) })?;
        Ok(counts)
    }

    pub(crate) fn deadlines(&mut self) -> (sys::Deadline, sys::Deadline) {
        let mut pending = sys::Deadline::default();
        let mut active = sys::Deadline::default();
        // SAFETY: the slot has a machine.
        unsafe { sys::resolver_deadlines(&mut self.slot, &mut pending, &mut active) };
        (pending, active)
    }
}

impl Drop for Held {
    fn drop(&mut self) {
        // SAFETY: the slot has a machine, and is never used again.
        unsafe { sys::resolver_close(&mut self.slot) }
    }
}
