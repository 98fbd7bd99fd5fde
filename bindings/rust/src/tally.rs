//! The tallies of a card's ports, and their total.

use crate::ffi;

/// How many ports a card has. They are numbered from 1.
pub const PORTS: u32 = 8;

/// The tally of one port. A field stays at its largest value, 4,294,967,295.
#[repr(C)]
#[derive(Clone, Copy, Debug, Default, PartialEq, Eq)]
pub struct Tally {
    /// Frames taken.
    pub frames: u32,
    /// Frames that answered BADCHECK; a mended frame is none of them.
    pub badcheck: u32,
    /// Bytes handed out.
    pub bytes: u32,
}

/// The tallies of a card's eight ports, lent to the calls of all its sinks.
#[repr(C)]
#[derive(Clone, Copy, Debug, Default, PartialEq, Eq)]
pub struct Tallies {
    /// The tallies in the order of the ports: that of port p is `port[p - 1]`.
    pub port: [Tally; PORTS as usize],
}

/// The card's total: of each of the three numbers the sum over the eight ports, in 64 bits. A
/// number that has stopped at its largest value counts with that value.
#[repr(C)]
#[derive(Clone, Copy, Debug, Default, PartialEq, Eq)]
pub struct Total {
    /// Frames taken.
    pub frames: u64,
    /// Frames that answered BADCHECK; a mended frame is none of them.
    pub badcheck: u64,
    /// Bytes handed out.
    pub bytes: u64,
}

// The library is lent the tallies as 24 fields of 32 bits, one after the other.
const _: () = assert!(
    size_of::<Tallies>() == 24 * size_of::<u32>() && align_of::<Tallies>() == align_of::<u32>()
);

impl Tallies {
    /// All 24 numbers at zero.
    pub const fn new() -> Tallies {
        Tallies { port: [Tally { frames: 0, badcheck: 0, bytes: 0 }; PORTS as usize] }
    }

    /// The tally of a port, 1 to 8; none of a port that is 0 or above 8.
    pub fn of(&self, port: u32) -> Option<Tally> {
        self.port.get(port.checked_sub(1)? as usize).copied()
    }

    /// The card's total. Nothing is cut: eight times 4,294,967,295 is 34,359,738,360.
    pub fn total(&self) -> Total {
        // SAFETY: the pointer is that of live tallies with the layout of odu0_tallies (above), and
        // every number in them is allowed.
        unsafe { ffi::odu0_card_total(self) }
    }
}
