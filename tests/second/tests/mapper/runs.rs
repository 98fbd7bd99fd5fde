//! Whole runs of a source and its sinks, and demand 3 watched on them.

use crate::both::{cases, Case, Done};
use crate::given::*;
use second::mapper::{word, Card, Expected, Settings, Sink, Standing, Taken, Tally, Types};
use second::{seeds::all_cases, Random};

/// A frame as an accepted source call wrote it.
pub struct Written {
    pub frame: Vec<u8>,
    pub load: Vec<u8>,
    /// The payload's count.
    pub old: u32,
    /// The count that the frame announces.
    pub next: u32,
    /// The number that the source gave it, and the source's type.
    pub own: Expected,
}

impl Written {
    /// What a sink that holds the frame's count says of it.
    pub fn followed(&self, settings: Settings) -> Standing {
        match word(settings, self.old, self.next) & 3 {
            1 | 2 => Standing::Tracked(self.next),
            _ => Standing::Read(self.next),
        }
    }
}

/// A source run: so many accepted calls, with refused ones between them.
pub fn source_run(case: &mut Case, settings: Settings, frames: usize) -> Vec<Written> {
    let first = count_inside(&mut case.random, settings);
    let payload_type = any_type(&mut case.random);
    let mut source = case.source_new(settings, first, payload_type).unwrap();
    // Some runs stay at a count for long, some move with nearly every frame.
    let rest = case.random.of(&[0, 2, 8]);
    let mut written = Vec::new();
    let mut frame = case.random.bytes(settings.frame() as usize);
    for n in 0..frames {
        let random = &mut case.random;
        let (old, own) = (source.count, Expected { multiframe: source.multiframe, payload_type });
        let load = random.bytes(old as usize);
        let next = if random.below(10) < rest { old } else { next_count(random, settings, old) };
        if random.once_in(16) {
            // One byte less, or one more where there is none.
            let wrong = load.len().wrapping_sub(1).min(load.len() + 1);
            let refused = match random.below(4) {
                0 => case.source(settings, &mut source, settings.hi + 1, &load, &mut frame),
                1 => case.source(settings, &mut source, next, &vec![1; wrong], &mut frame),
                2 => {
                    let settings = settings.with_patterns(broken(random));
                    case.source(settings, &mut source, next, &load, &mut frame)
                }
                _ => case.source(settings, &mut source, next, &load, &mut frame[1..]),
            };
            assert!(refused.is_err());
        }
        case.source(settings, &mut source, next, &load, &mut frame).unwrap();
        assert_eq!((source.count, source.multiframe), (next, (n as u32 + 1) % 256));
        written.push(Written { frame: frame.clone(), load, old, next, own });
    }
    written
}

/// Turns bits over in one part of a frame.
pub fn harm(case: &mut Case, settings: Settings, frame: &mut [u8]) {
    let random = &mut case.random;
    let times = random.from_to(1, 6);
    match random.below(5) {
        0 => random.fill(frame),
        1 => flip(random, frame, times),
        3 => {
            let at = random.of(&control_bytes(settings));
            flip(random, &mut frame[at..at + 1], 1);
        }
        2 => {
            // The reserved bytes and the PSI byte.
            let row = settings.k as usize + 2;
            for at in [0, row, 2 * row, 3 * row, 3 * row + 1] {
                flip(random, &mut frame[at..at + 1], 1);
            }
        }
        _ => {
            let places = control_bytes(settings);
            let mut control = places.map(|at| frame[at]);
            flip(random, &mut control, times);
            put_control(settings, frame, control);
        }
    }
}

/// The order in which frames arrive: some are lost, some come twice or once more later, some change
/// places.
fn arrivals(random: &mut Random, frames: usize, trouble: u64) -> Vec<usize> {
    let mut order = Vec::new();
    for frame in 0..frames {
        match random.below(4 * trouble) {
            0 => {}
            1 => order.extend([frame, frame]),
            2 => order.extend([frame, random.below(frame as u64 + 1) as usize]),
            3 => order.insert(order.len().saturating_sub(1), frame),
            _ => order.push(frame),
        }
    }
    order
}

/// A call that names a port that the card does not have.
pub fn off_the_card(
    case: &mut Case,
    settings: Settings,
    sink: &mut Sink,
    frame: &[u8],
    out: &mut [u8],
) -> Result<Taken, u32> {
    let mut card = Card::with(any_tallies(&mut case.random));
    let port = wrong_port(&mut case.random);
    case.sink_on(settings, sink, frame, out, port, &mut card)
}

/// One source and three sinks that are counted together, over a line that harms, loses, doubles and
/// reorders frames.
pub fn rough_line(case: &mut Case, settings: Settings, frames: usize) {
    let written = source_run(case, settings, frames);
    let mut tally =
        if case.random.once_in(4) { any_tally(&mut case.random) } else { Tally::default() };
    for sink in 0..3 {
        let mut state = if sink == 0 { Sink::new() } else { any_sink(&mut case.random, settings) };
        let more = case.random.below(4) as usize;
        let mut out = case.random.bytes(settings.hi as usize + more);
        let trouble = case.random.of(&[4, 15, 100]);
        for arriving in arrivals(&mut case.random, frames, trouble) {
            let mut frame = written[arriving].frame.clone();
            if case.random.once_in(trouble) {
                harm(case, settings, &mut frame);
            }
            if case.random.once_in(16) {
                let refused = match case.random.below(4) {
                    0 if settings.hi > 0 => {
                        let short = settings.hi as usize - 1;
                        case.sink(settings, &mut state, &frame, &mut out[..short], &mut tally)
                    }
                    1 => {
                        let settings = settings.with_patterns(broken(&mut case.random));
                        case.sink(settings, &mut state, &frame, &mut out, &mut tally)
                    }
                    2 => off_the_card(case, settings, &mut state, &frame, &mut out),
                    _ => case.sink(settings, &mut state, &frame[1..], &mut out, &mut tally),
                };
                assert!(refused.is_err());
            }
            if !case.random.once_in(8) {
                case.told(written[arriving].own);
            }
            case.sink(settings, &mut state, &frame, &mut out, &mut tally).unwrap();
        }
    }
}

#[test]
fn runs_on_small_grids() {
    let done = cases("runs_on_small_grids", 2_000, |case| {
        let settings = small_settings(&mut case.random);
        let frames = case.random.from_to(1, 300) as usize;
        rough_line(case, settings, frames);
    });
    assert!(done.small > 1_000_000 || !all_cases());
}

#[test]
fn runs_on_opu0() {
    let done = cases("runs_on_opu0", 80, |case| {
        let settings = varied(&mut case.random, Settings::OPU0);
        rough_line(case, settings, 50);
    });
    assert!(done.opu0 > 10_000 || !all_cases());
}

#[test]
fn runs_over_many_multiframes() {
    cases("runs_over_many_multiframes", 20, |case| {
        let settings = small_settings(&mut case.random);
        rough_line(case, settings, 1_100);
    });
}

#[test]
fn a_clean_run_on_opu0() {
    cases("a_clean_run_on_opu0", 2, |case| {
        let opu0 = Settings { mending: case.index == 1, ..Settings::OPU0 };
        let mut keeper = case.keeper_new(1296);
        let first = case.keeper(opu0, &mut keeper, 18671875, 1296).unwrap();
        let mut source = case.source_new(opu0, first, 0x07).unwrap();
        let (mut sink, mut tally, mut out) = (Sink::new(), Tally::default(), vec![0; 14410]);
        for n in 0..520 {
            let client = case.random.bytes(source.count as usize);
            let next = case.keeper(opu0, &mut keeper, 18671875, 1296).unwrap();
            let mut frame = vec![0xEE; 15240];
            case.source(opu0, &mut source, next, &client, &mut frame).unwrap();
            assert_eq!(frame[3 * 3810], if n % 256 == 0 { 0x07 } else { 0 });
            let taken = case.sink(opu0, &mut sink, &frame, &mut out, &mut tally).unwrap();
            // The first frame says only "one more", and with the second the sink holds the count.
            assert_eq!((sink.count, taken.mended), ((n > 0).then_some(next), false));
            assert!(
                n < 2 || (taken.handed, &out[..client.len()]) == (client.len() as u32, &client)
            );
        }
    });
}

/// The first claim, with the type check off: after two unharmed frames a sink in any state holds
/// the source's count, and then goes with a new sink from frame 1. What it remembers of types
/// stays.
pub fn back_after_two_frames(case: &mut Case, settings: Settings, frames: usize) {
    let settings = Settings { type_check: false, ..settings };
    let written = source_run(case, settings, frames);
    // Frames are numbered from 1: frame n is written[n - 1].
    let m = 1 + case.random.below(frames as u64 - 1) as usize;
    let mut new = Sink::new();
    let mut any = any_sink(&mut case.random, settings);
    if case.random.once_in(2) {
        let first = &written[m - 1];
        any = hostile_sink(&mut case.random, settings, word(settings, first.old, first.next));
    }
    let types = any.types.clone();
    let mut tally = any_tally(&mut case.random);
    for n in 1..=frames {
        let Written { frame, load, next, .. } = &written[n - 1];
        let standing = written[n - 1].followed(settings);
        for (sink, from) in [(&mut new, 1), (&mut any, m)] {
            if n < from {
                continue;
            }
            let more = case.random.below(3) as usize;
            let before = case.random.bytes(settings.hi as usize + more);
            let mut out = before.clone();
            if case.random.once_in(16) {
                assert_eq!(case.sink(settings, sink, &frame[1..], &mut out, &mut tally), Err(8));
                assert_eq!(off_the_card(case, settings, sink, frame, &mut out), Err(10));
                let wrong = settings.with_patterns(broken(&mut case.random));
                assert_eq!(case.sink(wrong, sink, frame, &mut out, &mut tally), Err(14));
            }
            let answer = case.sink(settings, sink, frame, &mut out, &mut tally);
            if n > from {
                assert_eq!(sink.count, Some(*next), "after frame {n}, from frame {from}");
            }
            if n > from + 1 {
                let taken = Taken { standing, handed: load.len() as u32, mended: false };
                assert_eq!(answer, Ok(taken), "frame {n}, from frame {from}");
                assert!(out[..load.len()] == load[..], "load {n}, from frame {from}");
                assert!(
                    out[load.len()..] == before[load.len()..],
                    "behind load {n}, from frame {from}"
                );
            }
        }
    }
    assert_eq!((new.types, any.types), (Types::new(), types));
}

/// The second claim: with at most three wrong control bits in each frame, and with mending on at
/// most two, a new sink never holds a false count, whatever it is told of types.
pub fn no_false_count(case: &mut Case, settings: Settings, frames: usize) {
    let written = source_run(case, settings, frames);
    let m = 1 + case.random.below(frames as u64) as usize;
    let mut sink = Sink::new();
    let mut tally = Tally::default();
    let mut out = vec![0; settings.hi as usize];
    let trouble = case.random.of(&[1, 2, 6]);
    for n in m..=frames {
        let mut frame = written[n - 1].frame.clone();
        let random = &mut case.random;
        if random.once_in(trouble) {
            // The other bytes may be anything.
            if random.once_in(2) {
                let places = control_bytes(settings);
                let control = places.map(|at| frame[at]);
                random.fill(&mut frame);
                put_control(settings, &mut frame, control);
            }
            for _ in 0..random.from_to(0, if settings.mending { 2 } else { 3 }) {
                let at = random.of(&control_bytes(settings));
                flip(random, &mut frame[at..at + 1], 1);
            }
        }
        if random.once_in(16) {
            assert_eq!(case.sink(settings, &mut sink, &frame[1..], &mut out, &mut tally), Err(8));
            assert_eq!(off_the_card(case, settings, &mut sink, &frame, &mut out), Err(10));
            let wrong = settings.with_patterns(broken(&mut case.random));
            assert_eq!(case.sink(wrong, &mut sink, &frame, &mut out, &mut tally), Err(14));
        }
        case.sink(settings, &mut sink, &frame, &mut out, &mut tally).unwrap();
        if let Some(count) = sink.count {
            assert_eq!(count, written[n - 1].next, "a false count after frame {n}, from frame {m}");
        }
    }
}

/// Watches a claim on so many source runs of small settings, from so many frames on, and every
/// tenth time on OPU0's and on large settings too.
pub fn watch(
    name: &'static str,
    runs: u64,
    least: u32,
    claim: fn(&mut Case, Settings, usize),
) -> Done {
    cases(name, runs, |case| {
        let settings = small_settings(&mut case.random);
        let frames = case.random.from_to(least, 60) as usize;
        claim(case, settings, frames);
        if case.index % 10 == 0 {
            let settings = varied(&mut case.random, Settings::OPU0);
            claim(case, settings, 6);
            let settings = large_settings(&mut case.random);
            claim(case, settings, 6);
        }
    })
}

#[test]
fn demand_3_back_after_two_frames() {
    watch("demand_3_back_after_two_frames", 6_000, 2, back_after_two_frames);
}

#[test]
fn demand_3_no_false_count() {
    watch("demand_3_no_false_count", 6_000, 1, no_false_count);
}
