//! The fields of the C interface themselves, where they say more than the Rust types: flags of
//! every value, what stands beside a flag of 0, every field of a reply, and NULL.

use crate::both::{cases, expected_of, settings_of, sink_of, LentCard, ANY};
use crate::given::*;
use odu0::ffi;
use second::mapper::{Card, Settings, Sink, Standing, Taken};
use second::{Lent, Random};
use std::mem::offset_of;
use std::ptr::null_mut;

/// The numbers of a sink that knows nothing.
pub const NEW: ffi::Sink = ffi::Sink {
    known: 0,
    count: 0,
    remembered: 0,
    word: 0,
    accepted: 0,
    seen: 0,
    accepted_type: 0,
    seen_type: 0,
};

/// A flag that says this: 0 for no, any other value for yes.
fn any_flag(random: &mut Random, yes: bool) -> u32 {
    match random.below(3) {
        _ if !yes => 0,
        0 => random.of(&[2, 255, 256, 65536, 1 << 31, u32::MAX]),
        _ => 1,
    }
}

/// The fields of settings.
pub fn fields_of(settings: Settings) -> ffi::Settings {
    ffi::Settings { type_check: settings.type_check.into(), ..settings_of(settings).into() }
}

/// The fields of settings with any flags that say the same, and any four numbers where no patterns
/// are given.
pub fn any_fields(random: &mut Random, settings: Settings) -> ffi::Settings {
    let mut fields = fields_of(settings);
    if settings.patterns.is_none() {
        let sound = random.once_in(2);
        let four = if sound { kept(random) } else { broken(random) };
        [fields.plus1, fields.minus1, fields.plus2, fields.minus2] = four;
    }
    fields.has_patterns = any_flag(random, settings.patterns.is_some());
    fields.mending = any_flag(random, settings.mending);
    fields.type_check = any_flag(random, settings.type_check);
    fields
}

/// The fields of a sink's state with any flags that say the same, and any numbers where they say
/// none.
fn any_state(random: &mut Random, state: &Sink) -> ffi::Sink {
    let mut fields = ffi::Sink::from(&sink_of(state));
    let [count, word, types] = [(); 3].map(|()| random.u32());
    if fields.known == 0 {
        fields.count = count;
    }
    if fields.remembered == 0 {
        fields.word = word;
    }
    if fields.accepted == 0 {
        fields.accepted_type = types as u8;
    }
    match fields.seen {
        0 => fields.seen_type = (types >> 8) as u8,
        2 => fields.seen = random.of(&[2, 2, 3, 255, 256, 257, 65536, 1 << 31 | 1, u32::MAX]),
        _ => {}
    }
    fields.known = any_flag(random, fields.known == 1);
    fields.remembered = any_flag(random, fields.remembered == 1);
    fields.accepted = any_flag(random, fields.accepted == 1);
    fields
}

#[test]
fn fields_of_a_sink_call() {
    cases("fields_of_a_sink_call", 60_000, |case| {
        let random = &mut case.random;
        let settings = any_settings(random);
        let mut state = any_sink(random, settings);
        let fields = any_fields(random, settings);
        let given = any_state(random, &state);
        let expected = any_expected(random);
        let frame = any_length(random, settings.frame());
        let mut frame = random.bytes(frame);
        let control = any_control(random, settings, &state);
        put_control(settings, &mut frame, control);
        put_psi(settings, &mut frame, any_type(random));
        let out = any_length(random, u64::from(settings.hi));
        let mut out = random.bytes(out);
        let (port, tallies) = (any_port(random), any_tallies(random));
        let (mut card, mut their_card) = (Card::with(tallies), LentCard::new(tallies));

        let (mut their_frame, mut their_out) = (Lent::new(0, &frame), Lent::new(0, &out));
        // SAFETY: each pointer is that of a live buffer, before its length, and none overlap.
        let reply = unsafe {
            let (frame, out) = (their_frame.lent(), their_out.lent());
            let (frame, frame_len) = (frame.as_ptr(), frame.len());
            let (out, out_len) = (out.as_mut_ptr(), out.len());
            let (told, tallies) = (expected_of(expected), &mut their_card.tallies);
            ffi::odu0_sink_call(fields, given, told, frame, frame_len, out, out_len, port, tallies)
        };
        let answer = state.call(settings, expected, &frame, &mut out, port, &mut card);

        let (refusal, standing, count, handed, mended) = match answer {
            Err(number) => (number, 0, None, 0, 0),
            Ok(Taken { standing, handed, mended }) => {
                (0, standing_number(standing), standing.count(), handed, mended.into())
            }
        };
        let said = || {
            let given = format!("{fields:?}, {given:?}, {expected:?}, port {port}");
            format!("{given}, frame {frame:02X?}: {reply:?}")
        };
        assert_eq!((reply.refusal, reply.standing), (refusal, standing), "{}", said());
        assert_eq!(reply.found, u32::from(count.is_some()), "{}", said());
        assert_eq!(reply.count, count.unwrap_or(0), "{}", said());
        assert_eq!((reply.handed, reply.mended), (handed, mended), "{}", said());
        // A refused call returns the very numbers given, an accepted one the plain ones.
        let left = if refusal != 0 { given } else { ffi::Sink::from(&sink_of(&state)) };
        assert_eq!(reply.state, left, "{}", said());
        their_frame.must_be("frame", &frame);
        their_out.must_be("output", &out);
        their_card.must_be(&card);
        case.count_frame(settings, answer.err());
    });
}

/// A standing's number in odu0.h.
fn standing_number(standing: Standing) -> u32 {
    match standing {
        Standing::Read(_) => 1,
        Standing::Tracked(_) => 2,
        Standing::Paired(_) => 3,
        Standing::BadCheck => 4,
        Standing::Waiting => 5,
        Standing::Outside => 6,
    }
}

#[test]
fn a_buffer_of_length_0_may_be_null() {
    let settings = odu0::Settings::new(1, 0, 0);
    let source = odu0::Source::new(settings, 0, 7).unwrap();
    let settings = ffi::Settings::from(settings);
    let sink = ffi::Sink::from(&odu0::Sink::new());
    let (mut tallies, mut frame) = (odu0::Tallies::new(), [9; 12]);
    let at = frame.as_mut_ptr();
    // SAFETY: the pointer of a buffer of length 0 is not used; the other buffers are live and do
    // not overlap.
    unsafe {
        let reply = ffi::odu0_source_call(settings, source.clone(), 0, null_mut(), 0, at, 12);
        assert_eq!(reply.refusal, 0);
        let reply = ffi::odu0_source_call(settings, source, 0, null_mut(), 0, null_mut(), 0);
        assert_eq!(reply.refusal, 8);
        let mut call = |settings, frame, length, port| {
            let (out, tallies) = (null_mut(), &mut tallies);
            ffi::odu0_sink_call(settings, sink, ANY, frame, length, out, 0, port, tallies)
        };
        let reply = call(settings, at, 12, 5);
        assert_eq!((reply.refusal, reply.standing, reply.found, reply.count), (0, 1, 1, 0));
        assert_eq!(call(settings, null_mut(), 0, 5).refusal, 8);
        assert_eq!(call(settings, at, 12, 0).refusal, 10);
        assert_eq!(call(ffi::Settings { hi: 1, ..settings }, at, 12, 5).refusal, 9);
    }
    assert_eq!(frame, [0, 0, 0, 0, 0, 0, 0, 0, 0, 7, 0, 0]);
    let mut wanted = odu0::Tallies::new();
    wanted.port[5 - 1].frames = 1;
    assert_eq!(tallies, wanted);
}

#[test]
fn fields_of_calls_turned_back() {
    let settings = fields_of(Settings::OPU0);
    // SAFETY: plain values.
    let reply = unsafe { ffi::odu0_source_new(settings, 1, 7) };
    assert_eq!(reply.refusal, 5);
    assert_eq!(reply.state, odu0::Source { count: 0, multiframe: 0, payload_type: 0 });
    // SAFETY: plain values.
    let reply = unsafe { ffi::odu0_keeper_call(settings, 18671875, 1296, 1296) };
    assert_eq!((reply.refusal, reply.count, reply.remainder), (5, 0, 1296));
}

/// Where each field of the Rust declarations stands on x86-64; tests/layout.c says the same of
/// those of odu0.h.
#[test]
fn layouts() {
    use ffi::{KeeperReply, Settings, Sink, SinkReply, SourceReply};
    use odu0::{Expected, Source};
    let settings = [
        offset_of!(Settings, k),
        offset_of!(Settings, lo),
        offset_of!(Settings, hi),
        offset_of!(Settings, has_patterns),
        offset_of!(Settings, plus1),
        offset_of!(Settings, minus1),
        offset_of!(Settings, plus2),
        offset_of!(Settings, minus2),
        offset_of!(Settings, mending),
        offset_of!(Settings, type_check),
    ];
    assert_eq!(settings, [0, 4, 8, 12, 16, 20, 24, 28, 32, 36]);
    let sink = [
        offset_of!(Sink, known),
        offset_of!(Sink, count),
        offset_of!(Sink, remembered),
        offset_of!(Sink, word),
        offset_of!(Sink, accepted),
        offset_of!(Sink, seen),
        offset_of!(Sink, accepted_type),
        offset_of!(Sink, seen_type),
    ];
    assert_eq!(sink, [0, 4, 8, 12, 16, 20, 24, 25]);
    assert_eq!([offset_of!(Expected, multiframe), offset_of!(Expected, payload_type)], [0, 4]);
    let reply = [
        offset_of!(SinkReply, refusal),
        offset_of!(SinkReply, standing),
        offset_of!(SinkReply, found),
        offset_of!(SinkReply, count),
        offset_of!(SinkReply, handed),
        offset_of!(SinkReply, mended),
        offset_of!(SinkReply, state),
    ];
    assert_eq!(reply, [0, 4, 8, 12, 16, 20, 24]);
    let source = [
        offset_of!(Source, count),
        offset_of!(Source, multiframe),
        offset_of!(Source, payload_type),
        offset_of!(SourceReply, state),
    ];
    assert_eq!(source, [0, 4, 8, 4]);
    let sizes = [size_of::<Settings>(), size_of::<Sink>(), size_of::<Expected>()];
    assert_eq!(sizes, [40, 28, 8]);
    let sizes = [size_of::<SinkReply>(), size_of::<SourceReply>(), size_of::<KeeperReply>()];
    assert_eq!(sizes, [52, 16, 12]);
}

/// Of what is expected 24 bits are padding, and they do not matter.
#[test]
fn padding_of_what_is_expected() {
    let on = fields_of(Settings::new(2, 0, 8).with_type_check());
    let state = ffi::Sink { known: 1, count: 5, accepted: 1, accepted_type: 7, ..NEW };
    for (filler, payload_type) in [0, 1, 0xFF_FFFF, 0x80_0000, 0xA5_A5A5]
        .into_iter()
        .flat_map(|filler| [(filler, 7), (filler, 8)])
    {
        let bits: u64 = filler << 40 | payload_type << 32 | 256;
        // SAFETY: both have 8 bytes, and every bit is that of a number or of none.
        let told: odu0::Expected = unsafe { std::mem::transmute(bits) };
        let reply = reply(on, state, told, &[0; 16], 8, 1).0;
        let handed = if payload_type == 7 { 5 } else { 0 };
        assert_eq!((reply.refusal, reply.handed), (0, handed), "{filler:x}, {payload_type}");
        assert_eq!((reply.state.seen, reply.state.seen_type), (1, 0), "{filler:x}");
    }
}

/// What each port's tally is before.
pub const BEFORE: odu0::Tally = odu0::Tally { frames: 3, badcheck: 2, bytes: 1 };

/// The sink's reply as C gives it, with the bytes and the tallies that it leaves.
pub fn reply(
    settings: ffi::Settings,
    state: ffi::Sink,
    told: odu0::Expected,
    frame: &[u8],
    out: usize,
    port: u32,
) -> (ffi::SinkReply, Vec<u8>, [odu0::Tally; 8]) {
    let mut out = Lent::new(0, &vec![0x22; out]);
    let mut tallies = odu0::Tallies { port: [BEFORE; 8] };
    let (at, length) = (out.lent().as_mut_ptr(), out.lent().len());
    let (from, bytes) = (frame.as_ptr(), frame.len());
    // SAFETY: each pointer is that of a live buffer, before its length, and none overlap.
    let reply = unsafe {
        ffi::odu0_sink_call(settings, state, told, from, bytes, at, length, port, &mut tallies)
    };
    (reply, out.lent().to_vec(), tallies.port)
}
