//! The C functions of the proved resolver machines, as `crates/resolver_c` exports them, and the
//! three functions that give them their memory.
//!
//! Nothing compares these declarations with the archive. The crate `resolver` calls them and has
//! everything that a program wants; this one is for who makes another crate over them.
#![no_std]
#![deny(unsafe_op_in_unsafe_fn, missing_docs)]
#![forbid(clippy::undocumented_unsafe_blocks)]

mod heap;
#[cfg(feature = "refusals")]
pub mod refusals;

use core::ffi::c_void;
use core::ptr::null_mut;

/// What is kept of a machine: its address. A slot is empty at first, and after `resolver_close`.
#[repr(C)]
#[derive(Debug)]
pub struct Slot {
    /// Null where the slot is empty.
    pub at: *mut c_void,
}

impl Slot {
    /// A slot without a machine.
    pub const EMPTY: Slot = Slot { at: null_mut() };
}

/// A moment, if there is one.
#[repr(C)]
#[derive(Clone, Copy, Debug, Default)]
pub struct Deadline {
    /// Whether there is one.
    pub is: bool,
    /// The low 64 bits of its nanoseconds.
    pub low: u64,
    /// The high 64 bits.
    pub high: u64,
}

/// How often something ended in each way.
#[repr(C)]
#[derive(Clone, Copy, Debug, Default)]
pub struct Tally {
    /// With what was wanted.
    pub success: u64,
    /// In neither way.
    pub ambiguous: u64,
    /// Without it.
    pub failure: u64,
    /// Not at all.
    pub dropped: u64,
}

/// How long something took.
#[repr(C)]
#[derive(Clone, Copy, Debug, Default)]
pub struct Durations {
    /// How often it was measured.
    pub count: u64,
    /// The low 64 bits of the sum, in nanoseconds.
    pub nanoseconds_low: u64,
    /// The high 64 bits.
    pub nanoseconds_high: u64,
}

/// What a core counts. What each number is of is said at `resolver::Metrics`.
#[repr(C)]
#[derive(Clone, Copy, Debug, Default)]
#[allow(missing_docs)]
pub struct Counts {
    pub fetch_pending: u64,
    pub fetch_active: u64,
    pub serve_processing: u64,
    pub fetch: Tally,
    pub cancel: Tally,
    pub serve: Tally,
    pub requests_sent: Tally,
    pub serve_duration: Durations,
    pub fetch_duration: Durations,
    pub resolves: Durations,
}

unsafe extern "C" {
    /// Opens a machine, and answers 0, or why there is none: 1 without memory, 64 where the settings
    /// are misspelled. Kinds 0 and 1 are the core and the actor over names of 32 bytes, 2 and 3 those
    /// over names of 8.
    ///
    /// # Safety
    ///
    /// The slot is empty. The settings can be read, so many bytes of them.
    pub fn resolver_open(slot: &mut Slot, kind: u8, settings: *const u8, settings_len: usize)
    -> u8;

    /// Takes an input, and answers 0 or the number of the refusal.
    ///
    /// # Safety
    ///
    /// The slot has a machine. The input can be read, so many bytes of it.
    pub fn resolver_step(slot: &mut Slot, input: *const u8, input_len: usize) -> u8;

    /// Writes the effects of the last step, and their length. 66: there is too little room, and
    /// the length says how much is needed. 1: there is no memory to write them with. Nothing is
    /// lost by either.
    ///
    /// # Safety
    ///
    /// The slot has a machine. So many bytes can be written.
    pub fn resolver_told(slot: &mut Slot, out: *mut u8, out_len: usize, length: &mut usize) -> u8;

    /// Writes the demanded keys with their subscribers, likewise. 2: the machine has failed.
    ///
    /// # Safety
    ///
    /// The slot has a machine. So many bytes can be written.
    pub fn resolver_rows(slot: &mut Slot, out: *mut u8, out_len: usize, length: &mut usize) -> u8;

    /// Writes what a core has counted, and answers 0. 67: the machine is an actor.
    ///
    /// # Safety
    ///
    /// The slot has a machine.
    pub fn resolver_metrics(slot: &mut Slot, counts: &mut Counts) -> u8;

    /// Writes when a waiting key may be asked for, and when the time of a request is over. Of an actor
    /// the first is the next retry, and there is no second.
    ///
    /// # Safety
    ///
    /// The slot has a machine.
    pub fn resolver_deadlines(slot: &mut Slot, pending: &mut Deadline, active: &mut Deadline);

    /// Closes the machine, and leaves the slot empty.
    ///
    /// # Safety
    ///
    /// The slot has a machine.
    pub fn resolver_close(slot: &mut Slot);
}
