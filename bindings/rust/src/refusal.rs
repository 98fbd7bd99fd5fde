//! The refusals: their numbers and names.

use core::fmt;

/// Why a call is turned back. A call that more than one of these applies to answers the one with
/// the lowest number.
#[derive(Clone, Copy, Debug, PartialEq, Eq)]
#[non_exhaustive]
pub enum Refusal {
    /// 1: k is 0 or above 3,808.
    Grid = 1,
    /// 2: lo > hi, or hi > 4 × k.
    Window = 2,
    /// 3: q is 0 or above 65,535.
    Divisor = 3,
    /// 4: the whole part of p / q is below lo, or p > hi × q.
    Rate = 4,
    /// 5: the source's count is outside the window, or the keeper's remainder is q or more.
    State = 5,
    /// 6: the next count is outside the window.
    Count = 6,
    /// 7: the client bytes are not exactly the present count.
    Client = 7,
    /// 8: the frame buffer is not exactly 4 × k + 8 bytes.
    Frame = 8,
    /// 9: the output buffer is shorter than hi.
    Space = 9,
    /// 10: the port is 0 or above 8.
    Port = 10,
    /// 14: there are patterns; plus1 ^ plus2 is not minus1 ^ minus2, or is 0, or one of the
    /// four is above 16,383.
    Patterns = 14,
}

impl Refusal {
    /// Every refusal, in the order of their numbers.
    pub const ALL: &[Refusal] = &[
        Refusal::Grid,
        Refusal::Window,
        Refusal::Divisor,
        Refusal::Rate,
        Refusal::State,
        Refusal::Count,
        Refusal::Client,
        Refusal::Frame,
        Refusal::Space,
        Refusal::Port,
        Refusal::Patterns,
    ];

    /// Its number, 1 to 10 or 14.
    pub fn number(self) -> u32 {
        self as u32
    }

    /// Its name.
    pub fn name(self) -> &'static str {
        match self {
            Refusal::Grid => "grid",
            Refusal::Window => "window",
            Refusal::Divisor => "divisor",
            Refusal::Rate => "rate",
            Refusal::State => "state",
            Refusal::Count => "count",
            Refusal::Client => "client",
            Refusal::Frame => "frame",
            Refusal::Space => "space",
            Refusal::Port => "port",
            Refusal::Patterns => "patterns",
        }
    }
}

/// A reply's refusal by its number: 0 says that the call was accepted.
pub(crate) fn accepted(number: u32) -> Result<(), Refusal> {
    if number == 0 {
        return Ok(());
    }
    match Refusal::ALL.iter().copied().find(|refusal| refusal.number() == number) {
        Some(refusal) => Err(refusal),
        None => panic!("libodu0 answered refusal {number}, which odu0.h does not have"),
    }
}

impl fmt::Display for Refusal {
    fn fmt(&self, f: &mut fmt::Formatter<'_>) -> fmt::Result {
        write!(f, "{} (number {})", self.name(), self.number())
    }
}

impl core::error::Error for Refusal {}
