//! Proved machines that fetch data by key, for many local subscribers: [`Core`] from peers, and
//! [`source::Actor`] from one source.
//!
//! An event goes in with its moment, and effects come out: ask a peer, deliver a value, block. A machine
//! has no clock, no socket and no thread. What it does is proved, in Rattle, of every run;
//! this crate spells its inputs, reads its effects, and is itself not proved.
//!
//! - A [`Driver`] is what a node uses: a core whose scans are answered by a [`Transport`] and by what
//!   is drawn.
//! - A [`Room`], kept by the caller, is where effects lie. Steps allocate nothing on this side.
//! - A [`Fault`] says why a call was refused, and what it left.
//! - [`wire`] has the messages between nodes.
//!
//! Names of keys and of peers are 32 bytes, or `N` of them where a type says so.
#![deny(unsafe_code, unsafe_op_in_unsafe_fn, missing_docs)]
#![forbid(clippy::undocumented_unsafe_blocks)]

mod draws;
mod driver;
mod fault;
mod held;
mod machine;
mod metrics;
mod name;
mod peers;
mod room;
pub mod source;
mod spelled;
pub mod wire;

pub use draws::{Draws, Seeded, below};
pub use driver::{Driver, Transport};
pub use fault::Fault;
pub use machine::{Outcome, Row, Rows};
pub use metrics::{Durations, Metrics, Tally};
pub use name::{Name, Width};
pub use peers::{Answer, Ask, Check, Core, Deadlines, Effect, Effects, Event, Settings, Wanted};
pub use room::Room;
pub use source::Actor;
pub use spelled::{Records, Subscribers};

/// A moment or a duration in nanoseconds, below 2^94: on a clock of the caller's that doesn't go
/// back.
pub type Moment = u128;
