//! The payload type must count (02, P4): "the same type in three such frames running, as the sink
//! takes them, becomes the accepted type, and until then the earlier one, or none, stands. While
//! the accepted type is none or not the expected one, no bytes are handed out, though counts are
//! followed."

use crate::both::{cases, Case, Outcome, TALLY};
use crate::fields::{fields_of, reply, BEFORE, NEW};
use crate::given::*;
use crate::mending::arriving;
use crate::runs::{off_the_card, source_run, watch, Written};
use odu0::ffi;
use second::mapper::{word, Card, Expected, Settings, Sink, Standing, Taken, Tally, Types};
use second::{seeds::all_cases, Random};

const EIGHT: Settings = Settings::new(2, 0, 8);

/// A frame with control bytes that a sink in this state may follow, and this PSI byte.
fn any_frame(random: &mut Random, settings: Settings, state: &Sink, psi: u8) -> Vec<u8> {
    let mut frame = random.bytes(settings.frame() as usize);
    let control = any_control(random, settings, state);
    put_control(settings, &mut frame, control);
    put_psi(settings, &mut frame, psi);
    frame
}

/// A call that is turned back, in any way.
fn refused(case: &mut Case, settings: Settings, sink: &mut Sink, told: Expected, frame: &[u8]) {
    let (mut out, mut tally) = (vec![0; settings.hi as usize], Tally::default());
    let answer = match case.random.below(4) {
        0 if settings.hi > 0 => {
            case.told(told).sink(settings, sink, frame, &mut out[1..], &mut tally)
        }
        1 => off_the_card(case.told(told), settings, sink, frame, &mut out),
        2 => {
            let wrong = settings.with_patterns(broken(&mut case.random));
            case.told(told).sink(wrong, sink, frame, &mut out, &mut tally)
        }
        _ => case.told(told).sink(settings, sink, &frame[1..], &mut out, &mut tally),
    };
    assert!(answer.is_err());
}

/// The calls of a sink one after the other, with few types, so that the same one comes often.
/// Refused calls and calls with the type check off stand among them, and leave what is remembered
/// of types.
#[test]
fn types_call_after_call() {
    let done = cases("types_call_after_call", 6_000, |case| {
        let on = small_settings(&mut case.random).with_type_check();
        let off = Settings { type_check: false, ..on };
        let mut sink = any_sink(&mut case.random, on);
        let few = [any_type(&mut case.random), any_type(&mut case.random)];
        let wanted = case.random.of(&few);
        let (mut out, mut tally) = (vec![0; on.hi as usize], any_tally(&mut case.random));
        for _ in 0..40 {
            let random = &mut case.random;
            let payload_type = if random.once_in(6) { random.of(&few) } else { wanted };
            let told = Expected { multiframe: any_multiframe(random), payload_type };
            let psi = random.of(&[few[0], few[0], few[1]]);
            let frame = any_frame(random, on, &sink, psi);
            if random.once_in(6) {
                let before = sink.clone();
                refused(case, on, &mut sink, told, &frame);
                assert_eq!(sink, before);
            }
            if case.random.once_in(6) {
                let before = sink.types.clone();
                case.told(told).sink(off, &mut sink, &frame, &mut out, &mut tally).unwrap();
                assert_eq!(sink.types, before);
            }
            case.told(told).sink(on, &mut sink, &frame, &mut out, &mut tally).unwrap();
        }
    });
    let times = [done.types, done.let_through, done.kept_back];
    assert!(times.iter().all(|times| *times > 5_000) || !all_cases(), "{times:?}");
}

/// Every state of few types, every three types in frames numbered 0, and every expected type; the
/// frames' control bytes pass, fail, or are mended. A frame's bytes go by what was accepted before
/// it.
#[test]
fn every_three_types_from_every_state() {
    const TYPES: [u8; 3] = [0, 7, 9];
    let runs = TYPES.map(|seen| [vec![seen], vec![seen; 2]]).concat();
    let runs: Vec<Vec<u8>> = [vec![]].into_iter().chain(runs).collect();
    cases("every_three_types_from_every_state", 1, |case| {
        let on = EIGHT.with_mending().with_type_check();
        for accepted in [None, Some(0), Some(7), Some(9)] {
            for (run, payload_type) in runs.iter().flat_map(|run| TYPES.map(|of| (run, of))) {
                for number in 0..27 {
                    let mut types = Types::with(accepted, run);
                    let mut judged = run.clone();
                    for psi in [number / 9, number / 3 % 3, number % 3].map(|at| TYPES[at]) {
                        let state = Sink { count: Some(5), word: None, types: types.clone() };
                        let mut frame = case.random.bytes(16);
                        // Whole, with one wrong bit, with two, and ones.
                        let controls = [[0; 3], [0, 0, 1], [0, 0, 3], [0xFF; 3]];
                        put_control(on, &mut frame, case.random.of(&controls));
                        put_psi(on, &mut frame, psi);
                        let multiframe = 256 * case.random.from_to(0, 2);
                        let told = Expected { multiframe, payload_type };
                        let before = types.accepted();
                        let Outcome { taken, state, out, tally } =
                            case.outcome(on, &state, told, &frame);
                        let handed = if before == Some(payload_type) { 5 } else { 0 };
                        assert_eq!(taken.handed, handed, "{types:?}, {told:?}");
                        assert!(handed == 5 || out == [0x5A; 9], "{types:?}, {told:?}");
                        assert_eq!(tally.bytes, TALLY.bytes + handed);
                        judged.push(psi);
                        let accepted = match judged[..] {
                            [.., x, y, z] if x == y && y == z => Some(z),
                            _ => before,
                        };
                        assert_eq!(state.types.accepted(), accepted, "{judged:?}");
                        types = state.types;
                    }
                }
            }
        }
    });
}

/// A number is 0 where it is 0 modulo 256, and in frames with other numbers nothing is judged.
#[test]
fn numbers_that_are_0() {
    cases("numbers_that_are_0", 1, |case| {
        let on = EIGHT.with_type_check();
        let powers = (1..32).flat_map(|bit| [(1 << bit) - 1, 1 << bit, (1 << bit) + 1]);
        let mut judged = 0;
        for multiframe in (0..=1030).chain(powers).chain(u32::MAX - 600..=u32::MAX) {
            let mut frame = case.random.bytes(16);
            put_psi(on, &mut frame, 9);
            let types = Types::with(None, &[9, 9]);
            let state = Sink { types, ..Sink::new() };
            let told = Expected { multiframe, payload_type: 9 };
            let after = case.outcome(on, &state, told, &frame).state.types.accepted();
            let is_0 = multiframe.trailing_zeros() >= 8;
            assert_eq!(after, is_0.then_some(9), "{multiframe}");
            judged += u32::from(is_0);
        }
        assert_eq!(judged, 5 + 2 + 24);
    });
}

/// Of the bytes of a frame only the first of row 4 is the type.
#[test]
fn the_byte_that_is_judged() {
    cases("the_byte_that_is_judged", 1, |case| {
        for k in (1..=12).chain([119, 3808]) {
            let on = Settings::new(k, 0, 4 * k).with_type_check();
            let told = Expected { multiframe: 0, payload_type: 7 };
            let row = k as usize + 2;
            let overhead = [0, 1, row, row + 1, 2 * row, 2 * row + 1, 3 * row, 3 * row + 1];
            let near = [3 * row - 1, 3 * row + 2, 4 * row - 1];
            let all =
                if k <= 12 { (0..4 * row).collect() } else { [&overhead[..], &near].concat() };
            for at in all {
                let mut frame = vec![0x55; 4 * row];
                frame[at] = 0xAA;
                let state = case.outcome(on, &Sink::new(), told, &frame).state;
                let psi = if at == 3 * row { 0xAA } else { 0x55 };
                assert_eq!(state.types, Types::with(None, &[psi]), "K = {k}, byte {at}");
            }
        }
    });
}

/// The type check keeps back bytes and does nothing else: the standing, the count, the word,
/// whether a bit was mended, and the tally's frames and BADCHECK frames are those with it off. With
/// it off all is as with a sink that knows nothing of types, and what is remembered of them stays.
#[test]
fn on_beside_off() {
    let done = cases("on_beside_off", 60_000, |case| {
        let on = small_settings(&mut case.random).with_type_check();
        let off = Settings { type_check: false, ..on };
        let state = any_sink(&mut case.random, on);
        let told = any_expected(&mut case.random);
        let psi = any_type(&mut case.random);
        let frame = any_frame(&mut case.random, on, &state, psi);

        let [with, without] = [on, off].map(|of| case.outcome(of, &state, told, &frame));
        assert_eq!(without.state.types, state.types);
        let other = any_expected(&mut case.random);
        let plain = Sink { types: Types::new(), ..state.clone() };
        let plain = case.outcome(off, &plain, other, &frame);
        let types = state.types.clone();
        assert_eq!(without, Outcome { state: Sink { types, ..plain.state }, ..plain });

        let types = with.state.types.clone();
        if state.types.accepted() == Some(told.payload_type) {
            let wanted = Sink { types, ..without.state };
            assert_eq!(with, Outcome { state: wanted, ..without });
        } else {
            let wanted = Outcome {
                taken: Taken { handed: 0, ..without.taken },
                state: Sink { types, ..without.state },
                out: vec![0x5A; on.hi as usize + 1],
                tally: Tally { bytes: TALLY.bytes, ..without.tally },
            };
            assert_eq!(with, wanted);
        }
    });
    assert!(done.let_through.min(done.kept_back) > 5_000 || !all_cases());
}

/// The run goes on over calls with the type check off, refused calls and frames with other numbers,
/// whatever their PSI bytes are; and one frame that is lent three times is three frames.
#[test]
fn what_is_between_three_frames() {
    cases("what_is_between_three_frames", 3_000, |case| {
        let on = small_settings(&mut case.random).with_type_check();
        let off = Settings { type_check: false, ..on };
        let first = any_types(&mut case.random).accepted();
        let mut sink = Sink { types: Types::with(first, &[]), ..any_sink(&mut case.random, on) };
        let psi = any_type(&mut case.random);
        let (mut out, mut tally) = (vec![0; on.hi as usize], Tally::default());
        let frame = any_frame(&mut case.random, on, &sink, psi);
        for taken in 1..=3 {
            for _ in 0..case.random.below(4) {
                let random = &mut case.random;
                let (other, mut told) = (any_type(random), any_expected(random));
                let between = any_frame(random, on, &sink, other);
                match random.below(3) {
                    0 => refused(case, on, &mut sink, told, &between),
                    1 => {
                        case.told(told)
                            .sink(off, &mut sink, &between, &mut out, &mut tally)
                            .unwrap();
                    }
                    _ => {
                        told.multiframe |= 1 << random.below(8);
                        case.told(told)
                            .sink(on, &mut sink, &between, &mut out, &mut tally)
                            .unwrap();
                    }
                }
            }
            assert_eq!(sink.types.accepted(), first);
            let told = Expected { multiframe: 0, ..any_expected(&mut case.random) };
            case.told(told).sink(on, &mut sink, &frame, &mut out, &mut tally).unwrap();
            let seen = vec![psi; taken.min(2)];
            assert_eq!(sink.types.run(), seen);
        }
        assert_eq!(sink.types.accepted(), Some(psi));
    });
}

/// How many frames numbered 0 of a type a sink in this state has to take until it is accepted.
fn needed(types: &Types, psi: u8) -> usize {
    3 - types.run().iter().filter(|seen| **seen == psi).count()
}

/// Demand 3 with the type check on: a sink in any state reads the frames of a source in succession,
/// told their own numbers and one expected type. It has the count after two frames. From the third
/// on a frame hands out its load or nothing, by the type that the sink had accepted at first, until
/// enough frames numbered 0 have come; then by the source's. So once three have come it hands out
/// its load if the source's type is the expected one, and nothing if it is another. With mending on
/// frames have up to one wrong control bit.
fn the_bytes_come_later(case: &mut Case, settings: Settings, frames: usize) {
    let on = settings.with_type_check();
    let written = source_run(case, on, frames);
    let psi = written[0].own.payload_type;
    // Frames are numbered from 1: frame n is written[n - 1].
    let m = 1 + case.random.below(300) as usize;
    let mut sink = match case.random.below(4) {
        0 => Sink::new(),
        1 => hostile_sink(&mut case.random, on, word(on, written[m - 1].old, written[m - 1].next)),
        _ => any_sink(&mut case.random, on),
    };
    let expected = if case.random.once_in(3) { any_type(&mut case.random) } else { psi };
    let (first, needed) = (sink.types.accepted(), needed(&sink.types, psi));
    let trouble = case.random.of(&[2, 20]);
    let (mut taken_0, mut tally) = (0, Tally::default());
    let mut bytes = 0;
    for n in m..=frames {
        let Written { frame, load, next, own, .. } = &written[n - 1];
        let standing = written[n - 1].followed(on);
        let random = &mut case.random;
        let (frame, wrong) = match on.mending {
            true => arriving(random, on, frame, trouble),
            false => (frame.clone(), false),
        };
        // The number says the same with any multiple of 256 more.
        let multiframe = own.multiframe + 256 * random.of(&[0, 0, 1, (1 << 24) - 1]);
        let told = Expected { multiframe, payload_type: expected };
        let before = random.bytes(on.hi as usize + 1);
        let mut out = before.clone();
        if random.once_in(16) {
            refused(case, on, &mut sink, told, &frame);
        }
        let answer = case.told(told).sink(on, &mut sink, &frame, &mut out, &mut tally).unwrap();
        assert!(n == m || sink.count == Some(*next), "after frame {n}, from frame {m}");
        let accepted = if taken_0 >= needed { Some(psi) } else { first };
        if n >= m + 2 {
            let load = if accepted == Some(expected) { &load[..] } else { &[] };
            let taken = Taken { standing, handed: load.len() as u32, mended: wrong };
            assert_eq!(answer, taken, "frame {n}, from frame {m}");
            assert!(out[..load.len()] == *load, "load {n}, from frame {m}");
            assert!(out[load.len()..] == before[load.len()..], "behind load {n}, from frame {m}");
        }
        bytes += answer.handed;
        taken_0 += usize::from(own.multiframe == 0);
    }
    assert_eq!(tally, Tally { frames: (frames + 1 - m) as u32, bad: 0, bytes });
}

#[test]
fn demand_3_with_the_type_check() {
    let done = cases("demand_3_with_the_type_check", 500, |case| {
        let settings = small_settings(&mut case.random);
        let frames = case.random.from_to(560, 1100) as usize;
        the_bytes_come_later(case, settings, frames);
        if case.index % 250 == 0 {
            let settings = varied(&mut case.random, Settings::OPU0);
            the_bytes_come_later(case, settings, 820);
        }
    });
    assert!(done.let_through.min(done.kept_back) > 50_000 || !all_cases());
}

/// The first claim with the type check on, whatever the calls are told: the sink has the count
/// after two frames, and from the third on a frame has the standing that it has with the type check
/// off, and hands out its load or nothing.
fn the_load_or_nothing(case: &mut Case, settings: Settings, frames: usize) {
    let on = settings.with_type_check();
    let written = source_run(case, on, frames);
    // Frames are numbered from 1: frame n is written[n - 1].
    let m = 1 + case.random.below(frames as u64 - 1) as usize;
    let (mut sink, mut tally) = (any_sink(&mut case.random, on), Tally::default());
    for n in m..=frames {
        let Written { frame, load, next, .. } = &written[n - 1];
        let standing = written[n - 1].followed(on);
        let random = &mut case.random;
        let mut told = any_expected(random);
        if let (Some(accepted), true) = (sink.types.accepted(), random.once_in(2)) {
            told.payload_type = accepted;
        }
        let before = random.bytes(on.hi as usize + 1);
        let mut out = before.clone();
        if random.once_in(16) {
            refused(case, on, &mut sink, told, frame);
        }
        let taken = case.told(told).sink(on, &mut sink, frame, &mut out, &mut tally).unwrap();
        assert!(n == m || sink.count == Some(*next), "after frame {n}, from frame {m}");
        if n >= m + 2 {
            let handed = taken.handed as usize;
            assert_eq!((taken.standing, taken.mended), (standing, false), "frame {n}, from {m}");
            assert!(handed == 0 || handed == load.len(), "frame {n}, from frame {m}");
            assert!(out[..handed] == load[..handed], "load {n}, from frame {m}");
            assert!(out[handed..] == before[handed..], "behind load {n}, from frame {m}");
        }
    }
}

#[test]
fn demand_3_the_load_or_nothing() {
    let done = watch("demand_3_the_load_or_nothing", 2_000, 2, the_load_or_nothing);
    assert!(done.let_through.min(done.kept_back) > 5_000 || !all_cases());
}

/// A run over OPU0's frames at the rate of 1000BASE-X, from frame 1 on: frames 1, 257 and 513 are
/// numbered 0, so the right type lets the bytes through from frame 514 on, and another none.
#[test]
fn types_of_a_run_on_opu0() {
    cases("types_of_a_run_on_opu0", 1, |case| {
        let on = Settings::OPU0.with_type_check();
        let mut keeper = case.keeper_new(1296);
        let first = case.keeper(on, &mut keeper, 18671875, 1296).unwrap();
        let mut source = case.source_new(on, first, 0x07).unwrap();
        let mut sinks = [0x07, 0x05].map(|expected| (expected, Sink::new(), Tally::default()));
        let mut bytes = 0;
        for n in 1..=530 {
            let client = case.random.bytes(source.count as usize);
            let next = case.keeper(on, &mut keeper, 18671875, 1296).unwrap();
            let (multiframe, mut frame) = (source.multiframe, vec![0xEE; 15240]);
            case.source(on, &mut source, next, &client, &mut frame).unwrap();
            for (payload_type, sink, tally) in &mut sinks {
                let told = Expected { multiframe, payload_type: *payload_type };
                let mut out = vec![0xEE; 14410];
                let taken = case.told(told).sink(on, sink, &frame, &mut out, tally).unwrap();
                assert_eq!(sink.count, (n > 1).then_some(next));
                assert_eq!(sink.types.accepted(), (n >= 513).then_some(7));
                let load = if n >= 514 && *payload_type == 7 { &client[..] } else { &[] };
                assert_eq!(taken.handed as usize, load.len());
                assert!(out.starts_with(load) && out[load.len()..].iter().all(|b| *b == 0xEE));
            }
            bytes += if n >= 514 { client.len() as u32 } else { 0 };
        }
        let [right, other] = sinks.map(|(_, _, tally)| tally);
        assert_eq!(right, Tally { frames: 530, bad: 0, bytes });
        assert_eq!(other, Tally { frames: 530, bad: 0, bytes: 0 });
    });
}

/// Any 768 frames in succession hold three that are numbered 0, and 767 need not: so a new sink
/// hands out at the latest the 769th frame that it reads. From every number at which it may begin.
#[test]
fn any_768_frames_hold_three_numbered_0() {
    cases("any_768_frames_hold_three_numbered_0", 1, |case| {
        let on = EIGHT.with_type_check();
        let mut source = case.source_new(on, 3, 0x07).unwrap();
        let mut frames = Vec::new();
        for _ in 0..256 + 770 {
            let (old, own) = (source.count, source.multiframe);
            let mut frame = [0; 16];
            case.source(on, &mut source, 7 - old, &vec![0xC0; old as usize], &mut frame).unwrap();
            assert_eq!(frame[psi_byte(on)] == 0x07, own == 0);
            frames.push((own, frame));
        }
        let zeros = |from: usize, many: usize| {
            frames[from..from + many].iter().filter(|(own, _)| *own == 0).count()
        };
        assert!((0..256).all(|from| zeros(from, 768) == 3));
        assert!((0..256).any(|from| zeros(from, 767) == 2));
        let mut latest = 0;
        for from in 0..256 {
            let (mut sink, mut tally, mut out) = (Sink::new(), Tally::default(), [0; 8]);
            for (read, (own, frame)) in (1..=770).zip(&frames[from..]) {
                let told = Expected { multiframe: *own, payload_type: 7 };
                let taken = case.told(told).sink(on, &mut sink, frame, &mut out, &mut tally);
                if taken.unwrap().handed > 0 {
                    assert_eq!(zeros(from, read - 1), 3, "from {from}");
                    assert_eq!(zeros(from, read - 2), 2, "from {from}");
                    latest = latest.max(read);
                    break;
                }
                assert!(read < 769, "from {from}");
            }
        }
        assert_eq!(latest, 769);
    });
}

/// A cord that is swapped in service, for one of a client of another type. The earlier accepted
/// type stands until three frames numbered 0 of the other client have come: until then its bytes
/// are handed out, from its third frame on exactly, and from then on nothing is.
fn swapped_in_service(case: &mut Case, settings: Settings) {
    let on = settings.with_type_check();
    let right = source_run(case, on, 1);
    let psi = right[0].own.payload_type;
    let other = loop {
        let other = source_run(case, on, 1100);
        if other[0].own.payload_type != psi {
            break other;
        }
    };
    let mut sink = Sink { types: Types::with(Some(psi), &[psi, psi]), ..Sink::new() };
    sink.count = Some(right[0].next);
    let (mut out, mut tally) = (vec![0; on.hi as usize], Tally::default());
    let m = 1 + case.random.below(256) as usize;
    let mut taken_0 = 0;
    for (n, Written { frame, load, own, .. }) in (1..).zip(&other[m - 1..]) {
        let told = Expected { payload_type: psi, ..*own };
        let taken = case.told(told).sink(on, &mut sink, frame, &mut out, &mut tally).unwrap();
        if taken_0 >= 3 {
            assert_eq!(taken.handed, 0, "its frame {n}, from {m}");
        } else if n >= 3 {
            assert!(out[..taken.handed as usize] == load[..], "its frame {n}, from {m}");
        }
        taken_0 += usize::from(own.multiframe == 0);
        assert!(taken_0 >= 3 || n < 768);
    }
}

#[test]
fn cords_swapped_in_service() {
    cases("cords_swapped_in_service", 100, |case| {
        let settings = small_settings(&mut case.random);
        swapped_in_service(case, settings);
    });
}

const TOLD: odu0::Expected = odu0::Expected { multiframe: 512, payload_type: 7 };

/// A frame of 16 bytes at the count 0, whose word says 0 again, with this PSI byte.
fn zeros(psi: u8) -> [u8; 16] {
    let mut frame = [0; 16];
    put_psi(EIGHT, &mut frame, psi);
    frame
}

/// With 0 and with other values of the field. No call refuses one.
#[test]
fn values_of_type_check() {
    let mut settings = fields_of(EIGHT);
    assert_eq!(settings.type_check, 0);
    assert_eq!(fields_of(EIGHT.with_type_check()), ffi::Settings { type_check: 1, ..settings });
    let state = ffi::Sink { known: 1, count: 8, seen: 2, seen_type: 7, ..NEW };
    for type_check in [0, 1, 2, 3, 255, 256, 65536, 1 << 31, u32::MAX] {
        settings.type_check = type_check;
        let (reply, out, tallies) = reply(settings, state, TOLD, &zeros(7), 8, 1);
        assert_eq!((reply.refusal, reply.standing, reply.count), (0, 1, 0), "{type_check}");
        let on = u32::from(type_check != 0);
        assert_eq!((reply.handed, out[0]), if on == 1 { (0, 0x22) } else { (8, 0) });
        let left = ffi::Sink { count: 0, accepted: on, accepted_type: 7 * on as u8, ..state };
        assert_eq!(reply.state, left, "{type_check}");
        let bytes = 1 + reply.handed;
        assert_eq!(tallies[0], odu0::Tally { frames: 4, badcheck: 2, bytes });
        assert_eq!(tallies[1..], [BEFORE; 7]);
    }
}

/// Every value of `accepted` and of `seen` says something, beside every type; what is returned has
/// 0 or 1, and 0, 1 or 2, and no type beside 0.
#[test]
fn values_of_what_is_remembered() {
    let settings = fields_of(EIGHT.with_type_check());
    let values = [0, 1, 2, 3, 255, 256, 257, 512, 65536, 65537, 1 << 31, u32::MAX];
    for (accepted, seen) in values.iter().flat_map(|a| values.map(|s| (*a, s))) {
        for (accepted_type, seen_type) in [(7, 9), (9, 7), (7, 7), (0, 0), (0, 7), (255, 0)] {
            let state =
                ffi::Sink { known: 1, count: 8, accepted, seen, accepted_type, seen_type, ..NEW };
            // In a frame with another number it stays.
            let other = odu0::Expected { multiframe: 1, ..TOLD };
            let (first, ..) = reply(settings, state, other, &zeros(7), 8, 1);
            let let_through = accepted != 0 && accepted_type == 7;
            assert_eq!(first.handed, if let_through { 8 } else { 0 }, "{state:?}");
            let plain = ffi::Sink {
                count: 0,
                accepted: accepted.min(1),
                seen: seen.min(2),
                accepted_type: if accepted == 0 { 0 } else { accepted_type },
                seen_type: if seen == 0 { 0 } else { seen_type },
                ..state
            };
            assert_eq!(first.state, plain, "{state:?}");
            // In one numbered 0 the type 7 is judged.
            let (then, ..) = reply(settings, state, TOLD, &zeros(7), 8, 1);
            assert_eq!(then.handed, first.handed, "{state:?}");
            let judged = match (seen, seen_type) {
                (2.., 7) => ffi::Sink { accepted: 1, accepted_type: 7, ..plain },
                (1, 7) => ffi::Sink { seen: 2, ..plain },
                _ => ffi::Sink { seen: 1, seen_type: 7, ..plain },
            };
            assert_eq!(then.state, judged, "{state:?}");
        }
    }
}

/// A refused call judges nothing, of a frame that would be the third, and returns the very numbers
/// that it was given; nor does one with the type check off judge it.
#[test]
fn refused_calls_judge_nothing() {
    let right = fields_of(EIGHT.with_type_check());
    let state = ffi::Sink {
        known: 9,
        count: 4,
        remembered: 8,
        word: 0xFFFF_0002,
        accepted: 77,
        seen: 99,
        accepted_type: 5,
        seen_type: 7,
    };
    let frame = zeros(7);
    let taken = reply(right, state, TOLD, &frame, 8, 1).0.state;
    assert_eq!((taken.accepted, taken.accepted_type, taken.seen, taken.seen_type), (1, 7, 2, 7));
    let off = reply(fields_of(EIGHT), state, TOLD, &frame, 8, 1).0.state;
    assert_eq!((off.accepted, off.accepted_type, off.seen, off.seen_type), (1, 5, 2, 7));
    let patterns = fields_of(EIGHT.with_type_check().with_patterns([0, 0, 1, 3]));
    let calls = [
        (1, ffi::Settings { k: 0, ..right }, 16, 8, 1),
        (2, ffi::Settings { hi: 9, ..right }, 16, 9, 1),
        (8, right, 15, 8, 1),
        (9, right, 16, 7, 1),
        (10, right, 16, 8, 0),
        (14, patterns, 16, 8, 1),
    ];
    for (number, settings, frame_len, out_len, port) in calls {
        let (reply, out, tallies) =
            reply(settings, state, TOLD, &frame[..frame_len], out_len, port);
        assert_eq!((reply.refusal, reply.handed, reply.state), (number, 0, state));
        assert!(out.iter().all(|byte| *byte == 0x22), "refusal {number}");
        assert_eq!(tallies, [BEFORE; 8]);
    }
}

/// With the type check off nothing that the call is told is looked at.
#[test]
fn what_is_told_with_the_check_off() {
    let told = [0, 1, 255, 256, u32::MAX].into_iter().flat_map(|multiframe| {
        [0, 5, 7, 255].map(|payload_type| odu0::Expected { multiframe, payload_type })
    });
    let types = ffi::Sink { accepted: 1, accepted_type: 7, seen: 2, seen_type: 5, ..NEW };
    let state = ffi::Sink { known: 1, count: 5, ..types };
    for told in told {
        let (taken, ..) = reply(fields_of(EIGHT), state, told, &zeros(5), 8, 1);
        assert_eq!(taken.handed, 5, "{told:?}");
        assert_eq!(taken.state, ffi::Sink { known: 1, count: 0, ..types }, "{told:?}");
    }
}

/// Two sinks of one card whose cords are changed for each other, on two ports: neither hands out a
/// byte, where neither had accepted a type before, and both hold the counts.
#[test]
fn two_cords_changed_for_each_other() {
    cases("two_cords_changed_for_each_other", 20, |case| {
        let on = small_settings(&mut case.random).with_type_check();
        let [one, another] = [(); 2].map(|()| source_run(case, on, 780));
        let types = [&one, &another].map(|run| run[0].own.payload_type);
        let same = types[0] == types[1];
        let (mut sinks, mut card) = ([Sink::new(), Sink::new()], Card::new());
        let mut out = vec![0; on.hi as usize];
        let mut bytes = [0, 0];
        for (n, frames) in (1..).zip(one.iter().zip(&another)) {
            // Port 1 is to carry the first client, and has the second's frames; so the other way.
            for (at, written) in [(0, frames.1), (1, frames.0)] {
                let told = Expected { payload_type: types[at], ..written.own };
                let (frame, port) = (&written.frame, at as u32 + 1);
                let sink = &mut sinks[at];
                let taken = case.told(told).sink_on(on, sink, frame, &mut out, port, &mut card);
                let taken = taken.unwrap();
                assert!(n < 2 || sink.count == Some(written.next), "port {port}, frame {n}");
                assert!(taken.standing != Standing::BadCheck);
                // Two clients of one type are not told apart.
                let handed = if same && n > 513 { written.load.len() as u32 } else { 0 };
                assert_eq!(taken.handed, handed, "port {port}, frame {n}");
                bytes[at] += handed;
            }
        }
        for (port, bytes) in [(1, bytes[0]), (2, bytes[1])] {
            assert_eq!(card.tally(port), Tally { frames: 780, bad: 0, bytes });
        }
    });
}
