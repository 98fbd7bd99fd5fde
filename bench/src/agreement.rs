//! What the components share to see that versions agree.

use std::ops::Range;

/// Guard bytes on both sides of a buffer, more than the widest block has.
const GUARD: usize = 256;

/// A buffer between guard bytes, all of them with one value.
pub struct Guarded(Vec<u8>);

impl Guarded {
    pub const FILL: u8 = 0xEE;

    pub fn new(length: usize) -> Guarded {
        Guarded(vec![Guarded::FILL; length + 2 * GUARD])
    }

    fn inside(&self) -> Range<usize> {
        GUARD..self.0.len() - GUARD
    }

    pub fn bytes(&mut self) -> &mut [u8] {
        let inside = self.inside();
        &mut self.0[inside]
    }

    /// Whether it begins with these bytes, and has all others as they were, the guard too.
    pub fn holds(&self, bytes: &[u8]) -> bool {
        let is_fill = |part: &[u8]| part.iter().all(|byte| *byte == Guarded::FILL);
        let (before, rest) = self.0.split_at(GUARD);
        is_fill(before) && rest.starts_with(bytes) && is_fill(&rest[bytes.len()..])
    }
}

/// Numbers that look random and are the same in every run.
pub struct Random(u64);

impl Random {
    pub fn new() -> Random {
        Random(0x9E37_79B9_7F4A_7C15)
    }

    pub fn below(&mut self, n: u32) -> u32 {
        self.0 ^= self.0 << 13;
        self.0 ^= self.0 >> 7;
        self.0 ^= self.0 << 17;
        (((self.0 >> 32) * u64::from(n)) >> 32) as u32
    }

    /// True once in n times.
    pub fn seldom(&mut self, n: u32) -> bool {
        self.below(n) == 0
    }
}
