//! The C interface as bindings/c/include/odu0.h gives it: the functions of the archive, whose
//! names carry the version, and those of their types that Rust says in another way.

#![allow(missing_docs)]

use crate::{Expected, Source, Tallies, Total};

/// odu0_settings: a `has_patterns` of 0 says the standard's patterns, whatever the four numbers
/// after it are; any other value says that they are the patterns. A `mending` of 0 says off, any
/// other value on, and so does a `type_check`.
#[repr(C)]
#[derive(Clone, Copy, Debug, PartialEq, Eq)]
pub struct Settings {
    pub k: u32,
    pub lo: u32,
    pub hi: u32,
    pub has_patterns: u32,
    pub plus1: u32,
    pub minus1: u32,
    pub plus2: u32,
    pub minus2: u32,
    pub mending: u32,
    pub type_check: u32,
}

/// odu0_sink: a flag of 0, in `known`, `remembered` and `accepted`, says none, whatever stands
/// beside it. A `seen` of 0 says that no type was seen, whatever `seen_type` is, 1 says that type
/// once, and any other number twice or more running.
#[repr(C)]
#[derive(Clone, Copy, Debug, PartialEq, Eq)]
pub struct Sink {
    pub known: u32,
    pub count: u32,
    pub remembered: u32,
    pub word: u32,
    pub accepted: u32,
    pub seen: u32,
    pub accepted_type: u8,
    pub seen_type: u8,
}

/// odu0_source_reply
#[repr(C)]
#[derive(Clone, Debug, PartialEq, Eq)]
pub struct SourceReply {
    pub refusal: u32,
    pub state: Source,
}

/// odu0_v1_keeper_reply
#[repr(C)]
#[derive(Clone, Copy, Debug, PartialEq, Eq)]
pub struct KeeperReply {
    pub refusal: u32,
    pub count: u32,
    pub remainder: u32,
}

/// odu0_sink_reply
#[repr(C)]
#[derive(Clone, Copy, Debug, PartialEq, Eq)]
pub struct SinkReply {
    pub refusal: u32,
    pub standing: u32,
    pub found: u32,
    pub count: u32,
    pub handed: u32,
    pub mended: u32,
    pub state: Sink,
}

extern "C" {
    #[link_name = "odu0_v1_source_new"]
    pub fn odu0_source_new(settings: Settings, first: u32, payload_type: u8) -> SourceReply;
    #[link_name = "odu0_v1_source_call"]
    pub fn odu0_source_call(
        settings: Settings,
        state: Source,
        next: u32,
        client: *const u8,
        client_len: usize,
        frame: *mut u8,
        frame_len: usize,
    ) -> SourceReply;
    #[link_name = "odu0_v1_keeper_new"]
    pub fn odu0_keeper_new(q: u32) -> u32;
    #[link_name = "odu0_v1_keeper_call"]
    pub fn odu0_keeper_call(settings: Settings, p: u32, q: u32, remainder: u32) -> KeeperReply;
    #[link_name = "odu0_v1_sink_new"]
    pub fn odu0_sink_new() -> Sink;
    #[link_name = "odu0_v1_sink_call"]
    pub fn odu0_sink_call(
        settings: Settings,
        state: Sink,
        expected: Expected,
        frame: *const u8,
        frame_len: usize,
        out: *mut u8,
        out_len: usize,
        port: u32,
        tallies: *mut Tallies,
    ) -> SinkReply;
    #[link_name = "odu0_v1_card_total"]
    pub fn odu0_card_total(tallies: *const Tallies) -> Total;
}
