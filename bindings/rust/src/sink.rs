//! The sink.

use crate::refusal::accepted;
use crate::{ffi, Refusal, Settings, Standing, Tallies};

/// What an accepted call of a sink answers.
#[derive(Clone, Copy, Debug, PartialEq, Eq)]
pub struct Taken {
    /// What the sink says of the frame.
    pub standing: Standing,
    /// How many bytes it handed out, at the start of the output buffer; 0 if the type check keeps
    /// them back.
    pub handed: u32,
    /// Whether the frame's control bytes were mended. Such a frame has any standing but BADCHECK. A
    /// wrong bit in JC3 is mended as well, and then the word is as it came.
    pub mended: bool,
}

/// What a sink is told if it checks the payload type.
#[repr(C)]
#[derive(Clone, Copy, Debug, PartialEq, Eq)]
pub struct Expected {
    /// The frame's multiframe number, 0 to 255; a larger one is taken modulo 256. It is the one
    /// that the source gave the frame; the frame's bytes do not have it.
    pub multiframe: u32,
    /// The payload type that is expected, any of the 256.
    pub payload_type: u8,
}

/// How often a type was seen in the last frames numbered 0 that were judged. Type 0 is one like any
/// other.
#[derive(Clone, Copy, Debug, PartialEq, Eq)]
pub enum Seen {
    /// No frame numbered 0 was judged yet.
    Never,
    /// This type once.
    Once(u8),
    /// This type twice or more running.
    Twice(u8),
}

/// A sink's state.
#[derive(Clone, Debug, PartialEq, Eq)]
pub struct Sink {
    /// The known count, if there is one. One outside the window counts as none.
    pub count: Option<u32>,
    /// The remembered word (JC1 × 256 + JC2), if there is one; of a mended frame it is the mended
    /// one. One with II = DI counts as none.
    pub word: Option<u32>,
    /// The accepted payload type, if there is one.
    pub accepted: Option<u8>,
    /// The type seen in the last frames numbered 0 that were judged.
    pub seen: Seen,
}

impl Sink {
    /// A sink that knows nothing.
    pub fn new() -> Sink {
        // SAFETY: the function takes nothing and returns plain values.
        Sink::from(unsafe { ffi::odu0_sink_new() })
    }

    /// Takes a frame. It hands out, to the start of `out`, the client bytes at the places of the
    /// count known before, and leaves the bytes after them as they were. It follows the control
    /// word. It counts the frame in the tally of the port that it names, 1 to 8, and in no other.
    /// Refusals: grid, window, frame, space, port, patterns.
    ///
    /// The payload type is not checked, and what the sink remembers of types stays as it is.
    /// Several sinks may name one port, and a sink may name another port in its next call: but for
    /// refusal 10 the port has no part in what is handed out, in the answer or in the state.
    pub fn demap_frame(
        &mut self,
        settings: Settings,
        frame: &[u8],
        out: &mut [u8],
        port: u32,
        tallies: &mut Tallies,
    ) -> Result<Taken, Refusal> {
        let nothing = Expected { multiframe: 0, payload_type: 0 };
        self.call(settings.into(), nothing, frame, out, port, tallies)
    }

    /// The same with the payload type checked: bytes are handed out only if the type accepted
    /// before the frame is the expected one. If it is not, all of `out` keeps its content and no
    /// byte is tallied; all else is as without the check.
    ///
    /// At last, if the multiframe number is 0, the frame's PSI byte is judged, the first byte of
    /// row 4, that of a BADCHECK frame too. The same type in three judged frames running becomes
    /// the accepted one; until then the earlier one, or none, stays.
    pub fn demap_frame_expecting(
        &mut self,
        settings: Settings,
        expected: Expected,
        frame: &[u8],
        out: &mut [u8],
        port: u32,
        tallies: &mut Tallies,
    ) -> Result<Taken, Refusal> {
        let checked = ffi::Settings { type_check: 1, ..settings.into() };
        self.call(checked, expected, frame, out, port, tallies)
    }

    fn call(
        &mut self,
        settings: ffi::Settings,
        expected: Expected,
        frame: &[u8],
        out: &mut [u8],
        port: u32,
        tallies: &mut Tallies,
    ) -> Result<Taken, Refusal> {
        // SAFETY: each pointer is that of a live slice and stands before its length, and `tallies`
        // has the layout of odu0_tallies; `out` and `tallies` are lent for writing, so none of them
        // overlap.
        let reply = unsafe {
            ffi::odu0_sink_call(
                settings,
                ffi::Sink::from(&*self),
                expected,
                frame.as_ptr(),
                frame.len(),
                out.as_mut_ptr(),
                out.len(),
                port,
                tallies,
            )
        };
        *self = Sink::from(reply.state);
        accepted(reply.refusal)?;
        let standing = match reply.standing {
            1 => Standing::Read(reply.count),
            2 => Standing::Tracked(reply.count),
            3 => Standing::Paired(reply.count),
            4 => Standing::BadCheck,
            5 => Standing::Waiting,
            6 => Standing::Outside,
            other => panic!("libodu0 answered standing {other}, which odu0.h does not have"),
        };
        Ok(Taken { standing, handed: reply.handed, mended: reply.mended != 0 })
    }
}

impl Default for Sink {
    fn default() -> Sink {
        Sink::new()
    }
}

impl From<ffi::Sink> for Sink {
    fn from(state: ffi::Sink) -> Sink {
        Sink {
            count: (state.known != 0).then_some(state.count),
            word: (state.remembered != 0).then_some(state.word),
            accepted: (state.accepted != 0).then_some(state.accepted_type),
            seen: match state.seen {
                0 => Seen::Never,
                1 => Seen::Once(state.seen_type),
                _ => Seen::Twice(state.seen_type),
            },
        }
    }
}

impl From<&Sink> for ffi::Sink {
    fn from(sink: &Sink) -> ffi::Sink {
        let (seen, seen_type) = match sink.seen {
            Seen::Never => (0, 0),
            Seen::Once(seen) => (1, seen),
            Seen::Twice(seen) => (2, seen),
        };
        ffi::Sink {
            known: sink.count.is_some().into(),
            count: sink.count.unwrap_or(0),
            remembered: sink.word.is_some().into(),
            word: sink.word.unwrap_or(0),
            accepted: sink.accepted.is_some().into(),
            seen,
            accepted_type: sink.accepted.unwrap_or(0),
            seen_type,
        }
    }
}
