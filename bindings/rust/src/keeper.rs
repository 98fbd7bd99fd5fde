//! The rate keeper.

use crate::refusal::accepted;
use crate::{ffi, Refusal, Settings};

/// A rate of p / q client bytes a frame; q is 1 to 65,535.
#[derive(Clone, Copy, Debug, PartialEq, Eq)]
pub struct Rate {
    /// Client bytes in q frames.
    pub p: u32,
    /// The divisor.
    pub q: u32,
}

/// A rate keeper's state: its rate, which stays, and what is left over, in parts of q.
#[derive(Clone, Debug, PartialEq, Eq)]
pub struct Keeper {
    rate: Rate,
    remainder: u32,
}

impl Keeper {
    /// A new keeper. It begins with half of q, rounded down, as its remainder.
    pub fn new(rate: Rate) -> Keeper {
        // SAFETY: the function takes and returns a plain value, and every one is allowed.
        let remainder = unsafe { ffi::odu0_keeper_new(rate.q) };
        Keeper { rate, remainder }
    }

    /// A keeper that goes on from the rate and the remainder of another, as after a restart.
    pub const fn resume(rate: Rate, remainder: u32) -> Keeper {
        Keeper { rate, remainder }
    }

    /// Its rate.
    pub const fn rate(&self) -> Rate {
        self.rate
    }

    /// What is left over, in parts of q; below q.
    pub const fn remainder(&self) -> u32 {
        self.remainder
    }

    /// The next count. Refusals: grid, window, divisor, rate, state, patterns.
    pub fn next_count(&mut self, settings: Settings) -> Result<u32, Refusal> {
        let Rate { p, q } = self.rate;
        // SAFETY: the function takes and returns plain values, and every one of them is allowed.
        let reply = unsafe { ffi::odu0_keeper_call(settings.into(), p, q, self.remainder) };
        self.remainder = reply.remainder;
        accepted(reply.refusal)?;
        Ok(reply.count)
    }
}
