//! The settings.

use crate::ffi;

/// The settings: the grid, the window, the inversion patterns, and whether a sink mends one wrong
/// control bit. A source and its sinks need the same grid, window and patterns.
///
/// They are made by [`Settings::new`] and the functions beside it.
#[derive(Clone, Copy, Debug, PartialEq, Eq)]
#[non_exhaustive]
pub struct Settings {
    /// Payload columns in a row, 1 to 3,808.
    pub k: u32,
    /// The smallest count.
    pub lo: u32,
    /// The largest count, at most 4 × k.
    pub hi: u32,
    /// The inversion patterns; `None` says the standard's, which are never refused.
    pub patterns: Option<Patterns>,
    /// Whether a sink mends one wrong control bit. Only a sink looks at it.
    ///
    /// The remainder of the control bytes as read is JC3 ^ the remainder of JC1 and JC2. If it is 0
    /// they are read as they came. If it is that of one wrong bit among the 24, and mending is on,
    /// that bit is flipped before they are read, and the frame is told as mended. In every other
    /// case the frame is BADCHECK.
    pub mending: bool,
}

/// Four inversion patterns, with which a control word says that the count changes by +1, −1, +2 or
/// −2. Each is of 14 bits, 0 to 16,383, with C1 the highest and C14 the lowest; plus1 ^ plus2 must
/// equal minus1 ^ minus2, and must not be 0. A pattern of 0 is allowed, and so is a plus pattern
/// that equals a minus pattern.
#[derive(Clone, Copy, Debug, PartialEq, Eq)]
pub struct Patterns {
    /// The pattern of +1.
    pub plus1: u32,
    /// The pattern of −1.
    pub minus1: u32,
    /// The pattern of +2.
    pub plus2: u32,
    /// The pattern of −2.
    pub minus2: u32,
}

impl Settings {
    /// OPU0: 3,808 columns, counts 14,405 to 14,410, the standard's patterns, mending off.
    pub const OPU0: Settings = Settings::new(3808, 14405, 14410);

    /// Settings with k payload columns in a row, the window of counts lo to hi, the standard's
    /// patterns, and mending off.
    pub const fn new(k: u32, lo: u32, hi: u32) -> Settings {
        Settings { k, lo, hi, patterns: None, mending: false }
    }

    /// The same with these patterns in the place of the standard's.
    pub const fn with_patterns(self, patterns: Patterns) -> Settings {
        Settings { patterns: Some(patterns), ..self }
    }

    /// The same with mending on.
    pub const fn with_mending(self) -> Settings {
        Settings { mending: true, ..self }
    }
}

/// The type check is off in them.
impl From<Settings> for ffi::Settings {
    fn from(settings: Settings) -> ffi::Settings {
        let Settings { k, lo, hi, patterns, mending } = settings;
        let has_patterns = patterns.is_some().into();
        let Patterns { plus1, minus1, plus2, minus2 } =
            patterns.unwrap_or(Patterns { plus1: 0, minus1: 0, plus2: 0, minus2: 0 });
        let (mending, type_check) = (mending.into(), 0);
        ffi::Settings { k, lo, hi, has_patterns, plus1, minus1, plus2, minus2, mending, type_check }
    }
}
