//! The ODU0 generic mapper for Rust: source, rate keeper and sink of a line card.
//!
//! Every call accepts every value of every argument and buffers of every length, and ends with an
//! answer or a [`Refusal`]. A refused call changes no buffer, no state and no tally. The library
//! keeps no state of its own; a state is plain data in the caller's hands, and nothing here
//! allocates. What is promised over whole runs of calls, and under which conditions, stands in
//! docs/PROMISES.md.
//!
//! `examples/quick.rs` maps and demaps one frame, `examples/mapper.rs` shows a whole job,
//! `examples/patterns.rs` one with inversion patterns other than the standard's,
//! `examples/mending.rs` one over a span that turns single bits over, `examples/ports.rs` a card
//! with eight ports, of which one has a bad span, and `examples/types.rs` one whose sinks check the
//! payload type, with swapped cords.

#![no_std]
#![warn(missing_docs)]

pub mod ffi;
mod keeper;
mod refusal;
mod settings;
mod sink;
mod source;
mod standing;
mod tally;

pub use keeper::{Keeper, Rate};
pub use refusal::Refusal;
pub use settings::{Patterns, Settings};
pub use sink::{Expected, Seen, Sink, Taken};
pub use source::Source;
pub use standing::Standing;
pub use tally::{Tallies, Tally, Total, PORTS};

/// The version of this crate, and of odu0.h.
pub const VERSION: &str = env!("CARGO_PKG_VERSION");
