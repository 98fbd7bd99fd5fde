//! The source.

use crate::refusal::accepted;
use crate::{ffi, Refusal, Settings};

/// A source's state.
#[repr(C)]
#[derive(Clone, Debug, PartialEq, Eq)]
pub struct Source {
    /// The present count: how many client bytes the next frame carries.
    pub count: u32,
    /// The multiframe number of the next frame, 0 to 255; a larger one is taken modulo 256.
    pub multiframe: u32,
    /// The payload type.
    pub payload_type: u8,
}

impl Source {
    /// A new source with its first count, inside the window, and its payload type. Refusals: grid,
    /// window, state, patterns.
    pub fn new(settings: Settings, first: u32, payload_type: u8) -> Result<Source, Refusal> {
        // SAFETY: the function takes and returns plain values, and every one of them is allowed.
        let reply = unsafe { ffi::odu0_source_new(settings.into(), first, payload_type) };
        accepted(reply.refusal)?;
        Ok(reply.state)
    }

    /// Writes the next frame, of 4 × k + 8 bytes, from exactly "present count" client bytes, and
    /// announces the next count in it. Refusals: grid, window, state, count, client, frame,
    /// patterns.
    pub fn map_frame(
        &mut self,
        settings: Settings,
        next: u32,
        client: &[u8],
        frame: &mut [u8],
    ) -> Result<(), Refusal> {
        // SAFETY: each pointer is that of a live slice and stands before its length; `frame` is
        // lent for writing, so they do not overlap.
        let reply = unsafe {
            ffi::odu0_source_call(
                settings.into(),
                self.clone(),
                next,
                client.as_ptr(),
                client.len(),
                frame.as_mut_ptr(),
                frame.len(),
            )
        };
        *self = reply.state;
        accepted(reply.refusal)
    }
}
