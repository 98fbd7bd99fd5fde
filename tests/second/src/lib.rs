//! Second implementations of what the library does, to compare it with: a module a component, and
//! for each a test binary of the same name in tests/. Beside them stands what they share: random
//! numbers, how many cases are run (`seeds` says how to run more), and buffers that are lent.

pub mod mapper;
pub mod seeds;

mod lent;
mod random;

pub use lent::Lent;
pub use random::Random;
