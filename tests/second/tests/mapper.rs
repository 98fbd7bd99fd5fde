//! The library's mapper against the second implementation: the answer, the state, every byte of
//! every buffer and the tallies of each call, and demand 3 watched on whole runs; and the worked
//! cases of the papers. `second::seeds` says how to run more cases, or one case again.

#[path = "mapper/both.rs"]
mod both;
#[path = "mapper/calls.rs"]
mod calls;
#[path = "mapper/cases.rs"]
mod cases;
#[path = "mapper/even.rs"]
mod even;
#[path = "mapper/fields.rs"]
mod fields;
#[path = "mapper/given.rs"]
mod given;
#[path = "mapper/mending.rs"]
mod mending;
#[path = "mapper/nearest.rs"]
mod nearest;
#[path = "mapper/patterns.rs"]
mod patterns;
#[path = "mapper/ports.rs"]
mod ports;
#[path = "mapper/refusals.rs"]
mod refusals;
#[path = "mapper/runs.rs"]
mod runs;
#[path = "mapper/types.rs"]
mod types;
#[path = "mapper/words.rs"]
mod words;
