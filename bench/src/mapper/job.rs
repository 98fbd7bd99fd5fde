//! The grids and counts that are timed, and how a version is called on one.

use crate::timing::AtOffset;
use odu0::ffi::{self, SinkReply, SourceReply};
use odu0::{Expected, Settings, Sink, Source, Tallies, Total};
use std::hint::black_box;

pub type Place = unsafe extern "C" fn(*mut u8, *const u8, usize, usize);
pub type Take = unsafe extern "C" fn(*const u8, *mut u8, usize, usize);
pub type SourceCall = unsafe extern "C" fn(
    ffi::Settings,
    Source,
    u32,
    *const u8,
    usize,
    *mut u8,
    usize,
) -> SourceReply;
pub type SinkCall = unsafe extern "C" fn(
    ffi::Settings,
    ffi::Sink,
    Expected,
    *const u8,
    usize,
    *mut u8,
    usize,
    u32,
    *mut Tallies,
) -> SinkReply;

extern "C" {
    pub fn loop_place(frame: *mut u8, client: *const u8, k: usize, c: usize);
    pub fn loop_take(frame: *const u8, out: *mut u8, k: usize, c: usize);
    pub fn best_place(frame: *mut u8, client: *const u8, k: usize, c: usize);
    pub fn best_take(frame: *const u8, out: *mut u8, k: usize, c: usize);
    pub fn plain_place(frame: *mut u8, client: *const u8, k: usize, c: usize);
    pub fn plain_take(frame: *const u8, out: *mut u8, k: usize, c: usize);
    pub fn wide_here() -> i32;
    pub fn wide_at(k: usize, c: usize) -> i32;
    pub fn wide_place(frame: *mut u8, client: *const u8, k: usize, c: usize);
    pub fn wide_take(frame: *const u8, out: *mut u8, k: usize, c: usize);
    pub fn fill_tables();
    pub fn loop_total(tallies: *const Tallies) -> Total;
    pub fn whole_source_call(
        settings: ffi::Settings,
        state: Source,
        next: u32,
        client: *const u8,
        client_len: usize,
        frame: *mut u8,
        frame_len: usize,
    ) -> SourceReply;
    pub fn whole_sink_call(
        settings: ffi::Settings,
        state: ffi::Sink,
        expected: Expected,
        frame: *const u8,
        frame_len: usize,
        out: *mut u8,
        out_len: usize,
        port: u32,
        tallies: *mut Tallies,
    ) -> SinkReply;
}

/// OPU0's payload columns, and the counts that are timed on it.
pub const OPU0: u32 = 3808;
const COUNTS: [u32; 20] = [
    1, 500, 1911, 4000, 7616, 7640, 9000, 11424, 12259, 14000, 14405, 14406, 14407, 14408, 14409,
    14410, 15000, 15200, 15231, 15232,
];

/// The other grids that are timed, each with three counts: 14,407 / 15,232 of the payload, half and
/// an eighth of it.
const GRIDS: [u32; 5] = [2, 30, 119, 476, 1904];

/// Every grid and count that is timed.
pub fn all_jobs() -> impl Iterator<Item = (u32, u32)> {
    let parts = |k: u32| [4 * k * 14407 / 15232, 2 * k, k / 2];
    let grids = GRIDS.into_iter().flat_map(move |k| parts(k).map(|count| (k, count)));
    COUNTS.map(|count| (OPU0, count)).into_iter().chain(grids)
}

/// What the calls are told: that the frame is numbered 0, as it is, and its type. With the type
/// check off nothing is looked at in it.
pub const TOLD: Expected = Expected { multiframe: 0, payload_type: 7 };

/// A grid with a count: the frame that the library writes for it, with its client bytes.
pub struct Job {
    pub settings: Settings,
    pub client: AtOffset,
    pub frame: AtOffset,
}

impl Job {
    pub fn new(k: u32, count: u32) -> Self {
        let settings = Settings::new(k, 0, 4 * k);
        // No client byte is 0, as stuffing is.
        let client: Vec<u8> = (0..count).map(|i| (i % 255 + 1) as u8).collect();
        let mut frame = vec![0; 4 * k as usize + 8];
        let mut source = Source::new(settings, count, 7).unwrap();
        source.map_frame(settings, count, &client, &mut frame).unwrap();
        Job { settings, client: AtOffset::new(&client, 0), frame: AtOffset::new(&frame, 0) }
    }

    pub fn k(&self) -> usize {
        self.settings.k as usize
    }

    pub fn count(&self) -> usize {
        self.client.len()
    }

    /// A sink that holds the frame's count.
    pub fn sink(&self) -> Sink {
        Sink { count: Some(self.count() as u32), ..Sink::new() }
    }

    pub fn place(&self, place: Place, frame: &mut [u8]) {
        let (frame, client) = (black_box(frame), black_box(&self.client[..]));
        assert_eq!(frame.len(), self.frame.len());
        // SAFETY: the frame has 4k + 8 bytes, and the client as many as are told.
        unsafe { place(frame.as_mut_ptr(), client.as_ptr(), self.k(), client.len()) }
    }

    pub fn take(&self, take: Take, out: &mut [u8]) {
        let (frame, out) = (black_box(&self.frame[..]), black_box(out));
        assert!(self.count() <= out.len());
        // SAFETY: the frame has 4k + 8 bytes, and there is room for as many bytes as are told.
        unsafe { take(frame.as_ptr(), out.as_mut_ptr(), self.k(), self.count()) }
    }

    pub fn call_source(&self, call: SourceCall, frame: &mut [u8]) {
        let (frame, client) = (black_box(frame), black_box(&self.client[..]));
        let count = client.len() as u32;
        let state = Source { count, multiframe: 0, payload_type: 7 };
        let (at, length) = (frame.as_mut_ptr(), frame.len());
        let settings = ffi::Settings::from(self.settings);
        // SAFETY: the buffers are live and do not overlap.
        let reply =
            unsafe { call(settings, state, count, client.as_ptr(), client.len(), at, length) };
        assert_eq!(reply.refusal, 0);
    }

    pub fn call_sink(&self, call: SinkCall, out: &mut [u8], tallies: &mut Tallies) {
        let (frame, out) = (black_box(&self.frame[..]), black_box(out));
        let state = ffi::Sink::from(&self.sink());
        let (from, bytes) = (frame.as_ptr(), frame.len());
        let (at, length) = (out.as_mut_ptr(), out.len());
        let settings = ffi::Settings::from(self.settings);
        // SAFETY: the buffers and the tallies are live and do not overlap.
        let reply = unsafe { call(settings, state, TOLD, from, bytes, at, length, 1, tallies) };
        assert_eq!((reply.refusal, reply.handed as usize), (0, self.count()));
    }

    /// Turns over a control bit of a frame, 0 to 23 of JC1 to JC3, if there is one to turn over.
    pub fn turn_over(&self, frame: &mut [u8], bit: Option<usize>) {
        if let Some(bit) = bit {
            frame[bit / 8 * (self.k() + 2) + 1] ^= 0x80 >> (bit % 8);
        }
    }
}
