//! The standings: their names, and the counts that they found.

use core::fmt;

/// What a sink says of a frame, with the count that it found.
#[derive(Clone, Copy, Debug, PartialEq, Eq)]
pub enum Standing {
    /// The word holds the count itself.
    Read(u32),
    /// The known count moved as the word says.
    Tracked(u32),
    /// This word and the one before it lead to the count.
    Paired(u32),
    /// The control bytes fail the check, and were not mended.
    BadCheck,
    /// No count yet: the next word is awaited.
    Waiting,
    /// The count that was reached is outside the window.
    Outside,
}

impl Standing {
    /// Its name in capitals.
    pub fn name(self) -> &'static str {
        match self {
            Standing::Read(_) => "READ",
            Standing::Tracked(_) => "TRACKED",
            Standing::Paired(_) => "PAIRED",
            Standing::BadCheck => "BADCHECK",
            Standing::Waiting => "WAITING",
            Standing::Outside => "OUTSIDE",
        }
    }

    /// The count that it found, if it found one.
    pub fn count(self) -> Option<u32> {
        match self {
            Standing::Read(count) | Standing::Tracked(count) | Standing::Paired(count) => {
                Some(count)
            }
            Standing::BadCheck | Standing::Waiting | Standing::Outside => None,
        }
    }
}

impl fmt::Display for Standing {
    fn fmt(&self, f: &mut fmt::Formatter<'_>) -> fmt::Result {
        f.pad(self.name())
    }
}
