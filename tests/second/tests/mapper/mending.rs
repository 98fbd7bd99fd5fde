//! One wrong control bit mended (02, P1): "a remainder equal to that of one wrong bit among the 24
//! has that bit flipped before reading". mapper/words.rs reads every word of 24 bits so.

use crate::both::{cases, settings_of, Case, Outcome, ANY, TALLY};
use crate::fields::{fields_of, reply, BEFORE, NEW};
use crate::given::*;
use crate::runs::{off_the_card, source_run, watch, Written};
use odu0::ffi;
use second::mapper::{
    check, read, word, Expected, Keeper, Settings, Sink, Source, Standing, Taken, Tally,
};
use second::Random;

const EIGHT: Settings = Settings::new(2, 0, 8);

/// The control bytes that say that after the count "old" comes the count "next", as 24 bits.
fn control(settings: Settings, old: u32, next: u32) -> u32 {
    let word = word(settings, old, next);
    word << 8 | check(word)
}

/// JC1, JC2 and JC3 of 24 bits.
fn bytes(bits: u32) -> [u8; 3] {
    [(bits >> 16) as u8, (bits >> 8) as u8, bits as u8]
}

/// Every choice of so many wrong bits among the 24.
fn wrong_bits(many: u32) -> Vec<u32> {
    if many == 0 {
        return vec![0];
    }
    let above = |bits: u32| (0..24).filter(move |bit| bits >> bit == 0);
    let one_more = |bits: u32| above(bits).map(move |bit| bits | 1 << bit);
    wrong_bits(many - 1).into_iter().flat_map(one_more).collect()
}

/// The next counts after a count, as far as the window holds them: the five changes, and a jump.
fn nexts(settings: Settings, old: u32) -> Vec<u32> {
    let jump = if settings.hi - old > 2 { settings.hi } else { settings.lo };
    let near = [0, 1, -1, 2, -2].map(|change| old.wrapping_add_signed(change));
    near.into_iter().chain([jump]).filter(|next| settings.holds(*next)).collect()
}

/// Sinks that read a frame of the count "old" with this word: a new one; those that hold the count,
/// that remember the word which announced it, and both; one in any state; and one that knows what
/// is false.
fn sinks(random: &mut Random, settings: Settings, old: u32, this: u32) -> [Sink; 6] {
    let before = word(settings, if old == 0 { 1 } else { old - 1 }, old);
    let types = any_types(random);
    [
        Sink::new(),
        Sink { count: Some(old), word: None, types: types.clone() },
        Sink { count: None, word: Some(before), types: types.clone() },
        Sink { count: Some(old), word: Some(before), types },
        any_sink(random, settings),
        hostile_sink(random, settings, this),
    ]
}

/// What all these calls are told, so that two of them may be compared with the type check on too.
const TOLD: Expected = Expected { multiframe: 0, payload_type: 7 };

impl Outcome {
    /// What is promised of a frame of which this is the outcome where it comes unharmed, if its
    /// control bytes are mended: nothing else is told or done.
    fn mended(&self) -> Outcome {
        Outcome { taken: Taken { mended: true, ..self.taken }, ..self.clone() }
    }

    /// And if they are not: the same bytes are handed out and its type is judged, but the count and
    /// the word are lost.
    fn bad(&self) -> Outcome {
        Outcome {
            taken: Taken { standing: Standing::BadCheck, ..self.taken },
            state: Sink { types: self.state.types.clone(), ..Sink::new() },
            out: self.out.clone(),
            tally: Tally { bad: TALLY.bad + 1, ..self.tally },
        }
    }
}

/// Which of those sinks read a frame. One that knows a count hands out bytes, which takes long on a
/// large grid.
type Which = fn(&Sink) -> bool;
const ALL: Which = |_| true;
const HUNTING: Which = |sink| sink.count.is_none();

/// Each of these errors in a frame of each word that follows a count, read by sinks with mending
/// off and on: what is promised of so many wrong bits. The payload is unharmed.
fn read_wrong(case: &mut Case, settings: Settings, old: u32, errors: &[u32], which: Which) {
    let (off, on) = (Settings { mending: false, ..settings }, settings.with_mending());
    for next in nexts(settings, old) {
        let bits = control(settings, old, next);
        let mut frame = case.random.bytes(settings.frame() as usize);
        let sinks = sinks(&mut case.random, settings, old, bits >> 8);
        for sink in sinks.into_iter().filter(which) {
            put_control(settings, &mut frame, bytes(bits));
            let whole = case.outcome(off, &sink, TOLD, &frame);
            assert!(!whole.taken.mended && whole.taken.standing != Standing::BadCheck);
            assert_eq!(case.outcome(on, &sink, TOLD, &frame), whole);
            for wrong in errors {
                let said = || format!("{settings:?}, {sink:?}, {old} to {next}, wrong {wrong:06X}");
                put_control(settings, &mut frame, bytes(bits ^ wrong));
                let outcomes =
                    [off, on].map(|settings| case.outcome(settings, &sink, TOLD, &frame));
                match (wrong.count_ones(), read(on, bytes(bits ^ wrong))) {
                    (1, _) => assert_eq!(outcomes, [whole.bad(), whole.mended()], "{}", said()),
                    (2, _) | (3, None) => {
                        assert_eq!(outcomes, [whole.bad(), whole.bad()], "{}", said())
                    }
                    // Three wrong bits may be mended, but never to what was written.
                    (3, Some((word, mended))) => {
                        assert_eq!(outcomes[0], whole.bad(), "{}", said());
                        assert!(mended && outcomes[1].taken.mended, "{}", said());
                        assert_ne!(word, bits >> 8, "{}", said());
                    }
                    _ => {}
                }
            }
        }
    }
}

/// The settings with the standard's patterns, with the table 0, 0, 1, 1, and with other given ones.
fn by_index(case: &mut Case, settings: Settings) -> Settings {
    match case.index % 3 {
        0 => settings,
        1 => settings.with_patterns([0, 0, 1, 1]),
        _ => settings.with_patterns(kept(&mut case.random)),
    }
}

/// All 24 single and all 276 double errors of many words.
#[test]
fn every_single_and_double_error() {
    let all = [wrong_bits(1), wrong_bits(2)].concat();
    assert_eq!(all.len(), 24 + 276);
    cases("every_single_and_double_error", 6, |case| {
        let settings = by_index(case, EIGHT);
        for old in [0, 3, 4, 8] {
            read_wrong(case, settings, old, &all, ALL);
        }
        let settings = small_settings(&mut case.random);
        let old = count_inside(&mut case.random, settings);
        read_wrong(case, settings, old, &all, ALL);
    });
}

#[test]
fn every_single_and_double_error_on_opu0() {
    cases("every_single_and_double_error_on_opu0", 3, |case| {
        let settings = by_index(case, Settings::OPU0);
        read_wrong(case, settings, 14407, &wrong_bits(1), ALL);
        read_wrong(case, settings, 14407, &wrong_bits(2), HUNTING);
    });
}

/// All 2,024 triple errors of many words, and as many of up to eight bits.
#[test]
fn every_triple_error() {
    let triples = wrong_bits(3);
    cases("every_triple_error", 3, |case| {
        let settings = by_index(case, EIGHT);
        read_wrong(case, settings, 3, &triples, ALL);
        let further = |_: &u32| {
            let mut control = [0; 3];
            let times = case.random.from_to(4, 8);
            flip(&mut case.random, &mut control, times);
            control.iter().fold(0, |bits, byte| bits << 8 | u32::from(*byte))
        };
        let further: Vec<u32> = triples.iter().map(further).collect();
        read_wrong(case, settings, 5, &further, ALL);
    });
}

/// Random errors on large grids, where hostile sinks have counts that a false word may continue.
#[test]
fn errors_on_large_grids() {
    cases("errors_on_large_grids", 50, |case| {
        let settings = large_settings(&mut case.random);
        let old = count_inside(&mut case.random, settings);
        let mut error = |many: u32| (0..many).fold(0, |bits, _| bits | 1 << case.random.below(24));
        let some = [1, 1, 2, 3, 3, 5].map(&mut error);
        read_wrong(case, settings, old, &some, ALL);
    });
}

/// How many errors of no bit, of one, two, three and four bits are not BADCHECK: 81 words of four
/// bits pass the check, and every three bits of such a word are mended to it.
#[test]
fn errors_that_are_not_found() {
    cases("errors_that_are_not_found", 1, |case| {
        let mut frame = [0; 16];
        let mut passing = |settings: Settings, many| {
            let passes = |bits: &u32| {
                put_control(settings, &mut frame, bytes(*bits));
                let taken = case.outcome(settings, &Sink::new(), TOLD, &frame).taken;
                assert_eq!(taken.mended, many % 2 == 1 && taken.standing != Standing::BadCheck);
                taken.standing != Standing::BadCheck
            };
            wrong_bits(many).into_iter().filter(passes).count()
        };
        assert_eq!([0, 1, 2, 3, 4].map(|many| passing(EIGHT, many)), [1, 0, 0, 0, 81]);
        let on = EIGHT.with_mending();
        assert_eq!([0, 1, 2, 3, 4].map(|many| passing(on, many)), [1, 24, 0, 4 * 81, 81]);
    });
}

/// The budget is sharp: a source at the count 0 writes 00 00 00, and a new sink holds the count 4
/// after three wrong bits with mending on, and after four with mending off.
#[test]
fn a_false_count_beyond_the_budget() {
    cases("a_false_count_beyond_the_budget", 1, |case| {
        let mut source = case.source_new(EIGHT, 0, 7).unwrap();
        let mut frame = [0; 16];
        case.source(EIGHT, &mut source, 0, &[], &mut frame).unwrap();
        assert_eq!(control_bytes(EIGHT).map(|at| frame[at]), [0, 0, 0]);
        let mut after = |settings: Settings, control| {
            put_control(settings, &mut frame, control);
            let Outcome { taken, state, .. } = case.outcome(settings, &Sink::new(), TOLD, &frame);
            (taken.standing, taken.mended, state.count)
        };
        let on = EIGHT.with_mending();
        let (three, four) = ([0x00, 0x10, 0xC0], [0x00, 0x10, 0xD0]);
        assert_eq!(after(on, three), (Standing::Read(4), true, Some(4)));
        assert_eq!(after(EIGHT, three), (Standing::BadCheck, false, None));
        assert_eq!(after(EIGHT, four), (Standing::Read(4), false, Some(4)));
        assert_eq!(after(on, four), (Standing::Read(4), false, Some(4)));
    });
}

/// A frame as it arrives, and whether one control bit of it was turned over on the way, which
/// happens once in so many times.
pub fn arriving(
    random: &mut Random,
    settings: Settings,
    sent: &[u8],
    times: u64,
) -> (Vec<u8>, bool) {
    let (mut frame, wrong) = (sent.to_vec(), random.once_in(times));
    if wrong {
        let at = random.of(&control_bytes(settings));
        flip(random, &mut frame[at..at + 1], 1);
    }
    (frame, wrong)
}

/// A sink that holds the source's count and reads frames in succession, each with at most one wrong
/// control bit, keeps the count and, with the type check off, hands out each load exactly. Without
/// mending each wrong bit puts it back to hunting.
fn the_count_is_kept(case: &mut Case, settings: Settings, frames: usize) {
    let settings = Settings { type_check: false, ..settings };
    let (off, on) = (Settings { mending: false, ..settings }, settings.with_mending());
    let written = source_run(case, settings, frames);
    // Frames are numbered from 1: frame n is written[n - 1].
    let m = 1 + case.random.below(frames as u64) as usize;
    let held = Some(written[m - 1].old);
    let mut sink = Sink { count: held, ..any_sink(&mut case.random, settings) };
    let mut hunting = sink.clone();
    let mut tally = Tally::default();
    let trouble = case.random.of(&[1, 2, 6]);
    for n in m..=frames {
        let Written { frame, load, next, .. } = &written[n - 1];
        let standing = written[n - 1].followed(settings);
        let random = &mut case.random;
        let (frame, wrong) = arriving(random, settings, frame, trouble);
        let more = random.below(3) as usize;
        let before = random.bytes(settings.hi as usize + more);
        let mut out = before.clone();
        if random.once_in(16) {
            assert_eq!(case.sink(on, &mut sink, &frame[1..], &mut out, &mut tally), Err(8));
            assert_eq!(off_the_card(case, on, &mut sink, &frame, &mut out), Err(10));
            let refused = on.with_patterns(broken(&mut case.random));
            assert_eq!(case.sink(refused, &mut sink, &frame, &mut out, &mut tally), Err(14));
        }
        let answer = case.sink(on, &mut sink, &frame, &mut out, &mut tally);
        let taken = Taken { standing, handed: load.len() as u32, mended: wrong };
        assert_eq!(answer, Ok(taken), "frame {n}, from frame {m}");
        assert_eq!(sink.count, Some(*next), "after frame {n}, from frame {m}");
        assert!(out[..load.len()] == load[..], "load {n}, from frame {m}");
        assert!(out[load.len()..] == before[load.len()..], "behind load {n}, from frame {m}");
        assert_eq!(tally.bad, 0);

        let taken = case.sink(off, &mut hunting, &frame, &mut out, &mut Tally::default()).unwrap();
        assert!(!taken.mended);
        assert_eq!(taken.standing == Standing::BadCheck, wrong, "frame {n}, from frame {m}");
        if wrong {
            let left = Sink { types: sink.types.clone(), ..Sink::new() };
            assert_eq!(hunting, left, "after frame {n}, from frame {m}");
        }
    }
}

/// From any state on, a run in which each frame has at most one wrong control bit goes as the
/// unharmed run does, but that the mended frames are told.
fn as_if_unharmed(case: &mut Case, settings: Settings, frames: usize) {
    let on = settings.with_mending();
    let written = source_run(case, settings, frames);
    let first = word(settings, written[0].old, written[0].next);
    let mut sink = match case.random.below(3) {
        0 => Sink::new(),
        1 => any_sink(&mut case.random, settings),
        _ => hostile_sink(&mut case.random, settings, first),
    };
    let mut unharmed = sink.clone();
    let trouble = case.random.of(&[1, 2, 6]);
    for (n, Written { frame, next, .. }) in (1..).zip(&written) {
        let (harmed, wrong) = arriving(&mut case.random, settings, frame, trouble);
        let wanted = case.outcome(on, &unharmed, TOLD, frame);
        let outcome = case.outcome(on, &sink, TOLD, &harmed);
        assert!(!wanted.taken.mended);
        assert_eq!(outcome, if wrong { wanted.mended() } else { wanted.clone() }, "frame {n}");
        assert!(n < 2 || outcome.state.count == Some(*next), "after frame {n}");
        (sink, unharmed) = (outcome.state, wanted.state);
    }
}

#[test]
fn a_wrong_bit_costs_nothing() {
    watch("a_wrong_bit_costs_nothing", 2_000, 1, the_count_is_kept);
}

#[test]
fn single_errors_go_as_if_unharmed() {
    watch("single_errors_go_as_if_unharmed", 2_000, 1, as_if_unharmed);
}

/// The worst line that mending can bear: every frame of OPU0 with a wrong bit, each of the 24 in
/// turn, at the rate of 1000BASE-X. With mending off not one byte comes.
#[test]
fn a_wrong_bit_in_every_frame() {
    cases("a_wrong_bit_in_every_frame", 1, |case| {
        let (off, on) = (Settings::OPU0, Settings::OPU0.with_mending());
        let mut keeper = case.keeper_new(1296);
        let first = case.keeper(on, &mut keeper, 18671875, 1296).unwrap();
        let mut source = case.source_new(on, first, 0x07).unwrap();
        let (mut sink, mut hunting) = (Sink::new(), Sink::new());
        let (mut tally, mut other) = (Tally::default(), Tally::default());
        let (mut sum, mut out) = (0, vec![0; 14410]);
        for n in 0..240 {
            let client = case.random.bytes(source.count as usize);
            let next = case.keeper(on, &mut keeper, 18671875, 1296).unwrap();
            let mut frame = vec![0xEE; 15240];
            case.source(on, &mut source, next, &client, &mut frame).unwrap();
            frame[control_bytes(on)[n / 8 % 3]] ^= 0x80 >> (n % 8);
            let taken = case.sink(on, &mut sink, &frame, &mut out, &mut tally).unwrap();
            // The first frame says only "one more", and with the second the sink holds the count.
            assert_eq!((sink.count, taken.mended), ((n > 0).then_some(next), true));
            if n >= 2 {
                assert!((taken.handed, &out[..client.len()]) == (client.len() as u32, &client));
                sum += taken.handed;
            }
            let taken = case.sink(off, &mut hunting, &frame, &mut out, &mut other).unwrap();
            assert_eq!((taken.standing, &hunting), (Standing::BadCheck, &Sink::new()));
        }
        assert_eq!(tally, Tally { frames: 240, bad: 0, bytes: sum });
        assert_eq!(other, Tally { frames: 240, bad: 240, bytes: 0 });
    });
}

/// A wrong bit in each of JC1, JC2 and JC3, with 0 and with other values of the field. No call
/// refuses one.
#[test]
fn values_of_mending() {
    let mut settings = fields_of(Settings::OPU0);
    assert_eq!(settings.mending, 0);
    assert_eq!(fields_of(Settings::OPU0.with_mending()), ffi::Settings { mending: 1, ..settings });
    let state = ffi::Sink { known: 1, count: 14407, ..NEW };
    let mut frame = vec![0; 15240];
    for control in [[0x0B, 0xB6, 0x38], [0x4B, 0xB7, 0x38], [0x4B, 0xB6, 0xB8]] {
        put_control(Settings::OPU0, &mut frame, control);
        for mending in [0, 1, 2, 3, 255, 256, 65536, 1 << 31, u32::MAX] {
            settings.mending = mending;
            let (reply, _, tallies) = reply(settings, state, ANY, &frame, 14410, 1);
            let (standing, found, count, word) =
                if mending == 0 { (4, 0, 0, None) } else { (2, 1, 14408, Some(0x4BB6)) };
            assert_eq!((reply.refusal, reply.standing), (0, standing), "{mending}");
            assert_eq!((reply.found, reply.count), (found, count), "{mending}");
            assert_eq!((reply.handed, reply.mended), (14407, found), "{mending}");
            let left = odu0::Sink::from(reply.state);
            assert_eq!((left.count, left.word), (word.map(|_| 14408), word), "{mending}");
            let bad = u32::from(mending == 0);
            assert_eq!(tallies[0], odu0::Tally { frames: 4, badcheck: 2 + bad, bytes: 14408 });
            assert_eq!(tallies[1..], [BEFORE; 7]);
            // SAFETY: plain values.
            let (source, keeper) = unsafe {
                let source = ffi::odu0_source_new(settings, 14407, 7);
                (source, ffi::odu0_keeper_call(settings, 14408, 1, 0))
            };
            assert_eq!((source.refusal, source.state.count), (0, 14407), "{mending}");
            assert_eq!((keeper.refusal, keeper.count), (0, 14408), "{mending}");
        }
    }
}

/// A refused call says that nothing was mended, of a frame that could be, and changes nothing.
#[test]
fn refused_calls_mend_nothing() {
    let right = fields_of(EIGHT.with_mending());
    let state = ffi::Sink { known: 9, count: 4, remembered: 8, word: 0xFFFF_0002, ..NEW };
    let mut frame = vec![0x77; 16];
    put_control(EIGHT, &mut frame, [0, 0x10, 0xD1]);
    assert_eq!(reply(right, state, ANY, &frame, 8, 1).0.mended, 1);
    let patterns = fields_of(EIGHT.with_mending().with_patterns([0, 0, 1, 3]));
    let calls = [
        (1, ffi::Settings { k: 0, ..right }, 16, 8, 1),
        (2, ffi::Settings { hi: 9, ..right }, 16, 9, 1),
        (8, right, 15, 8, 1),
        (9, right, 16, 7, 1),
        (10, right, 16, 8, 0),
        (14, patterns, 16, 8, 1),
    ];
    for (number, settings, frame_len, out_len, port) in calls {
        let (reply, out, tallies) = reply(settings, state, ANY, &frame[..frame_len], out_len, port);
        let nothing = ffi::SinkReply {
            refusal: number,
            standing: 0,
            found: 0,
            count: 0,
            handed: 0,
            mended: 0,
            state,
        };
        assert_eq!(reply, nothing);
        assert!(out.iter().all(|byte| *byte == 0x22), "refusal {number}");
        assert_eq!(tallies, [BEFORE; 8]);
    }
}

/// Source and rate keeper look neither at mending nor at the type check, whatever they answer.
#[test]
fn only_the_sink_looks_at_it() {
    cases("only_the_sink_looks_at_it", 20_000, |case| {
        let random = &mut case.random;
        let settings = any_settings(random);
        let count = any_count(random, settings);
        let next = next_count(random, settings, count);
        let (client, length) =
            (any_length(random, u64::from(count)), any_length(random, settings.frame()));
        let client = random.bytes(client);
        let (q, remainder) = (random.from_to(0, 9), random.from_to(0, 9));
        let both = [(false, false), (true, false), (false, true), (true, true)];
        let [off, others @ ..] = both.map(|(mending, type_check)| {
            let settings = Settings { mending, type_check, ..settings };
            let same = settings_of(settings);
            assert_eq!(same.mending, mending);
            let new = case.source_new(settings, count, 7);
            let mut source = Source { count, multiframe: 0, payload_type: 7 };
            let mut frame = vec![0xEE; length];
            let called = case.source(settings, &mut source, next, &client, &mut frame);
            let mut keeper = Keeper { remainder };
            let kept = case.keeper(settings, &mut keeper, count.wrapping_mul(q), q);
            (new, called, source, frame, kept, keeper)
        });
        assert!(others.iter().all(|on| *on == off), "{settings:?}");
    });
}
