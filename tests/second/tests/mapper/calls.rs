//! Single calls with random arguments.

use crate::both::{cases, Case};
use crate::given::*;
use second::mapper::{check, Card, Expected, Keeper, Settings, Sink, Source, Tally, Types};
use second::seeds::all_cases;

#[test]
fn random_sink_calls() {
    let done = cases("random_sink_calls", 1_200_000, |case| {
        let random = &mut case.random;
        let settings = any_settings(random);
        let mut state = any_sink(random, settings);
        let length = any_length(random, settings.frame());
        let mut frame = random.bytes(length);
        let control = any_control(random, settings, &state);
        put_control(settings, &mut frame, control);
        put_psi(settings, &mut frame, any_type(random));
        let more = if random.once_in(2) { random.below(20) } else { 0 };
        let length = any_length(random, u64::from(settings.hi) + more);
        let mut out = random.bytes(length);
        let (port, mut card) = (any_port(random), Card::with(any_tallies(random)));
        let _ = case.sink_on(settings, &mut state, &frame, &mut out, port, &mut card);
    });
    if all_cases() {
        assert!(done.standings.iter().all(|times| *times > 1000), "{:?}", done.standings);
        let [read, tracked, paired, bad, waiting, outside] = done.mended;
        assert!(
            bad == 0 && [read, tracked, paired, waiting, outside].iter().all(|times| *times > 1000),
            "{:?}",
            done.mended
        );
        let types = [done.types, done.let_through, done.kept_back];
        assert!(types.iter().all(|times| *times > 10_000), "{types:?}");
        assert!(
            [1, 2, 8, 9, 10, 14].iter().all(|number| done.refused[*number] > 1000),
            "{:?}",
            done.refused
        );
    }
}

#[test]
fn random_source_calls() {
    let done = cases("random_source_calls", 600_000, |case| {
        let random = &mut case.random;
        let settings = any_settings(random);
        let mut state = Source {
            count: any_count(random, settings),
            multiframe: match random.below(4) {
                0 => 0,
                1 => random.of(&[255, 256, 257, 511, 512, 65535, 65536, u32::MAX]),
                2 => random.u32(),
                _ => random.from_to(0, 255),
            },
            payload_type: random.u32() as u8,
        };
        let next = match random.below(4) {
            0 => any_count(random, settings),
            _ => next_count(random, settings, state.count),
        };
        let length = any_length(random, u64::from(state.count));
        let client = random.bytes(length);
        let length = any_length(random, settings.frame());
        let mut frame = random.bytes(length);
        let _ = case.source(settings, &mut state, next, &client, &mut frame);
        let (first, payload_type) =
            (any_count(&mut case.random, settings), case.random.u32() as u8);
        let _ = case.source_new(settings, first, payload_type);
    });
    if all_cases() {
        assert!(
            [1, 2, 5, 6, 7, 8, 14].iter().all(|number| done.refused[*number] > 1000),
            "{:?}",
            done.refused
        );
    }
}

/// Counts that a pattern leads to are thousands apart, so only a large grid can confuse them.
#[test]
fn hostile_states_on_large_grids() {
    let done = cases("hostile_states_on_large_grids", 40_000, |case| {
        let random = &mut case.random;
        let settings = large_settings(random);
        let old = count_inside(random, settings);
        let word = word_after(random, settings, old);
        let mut state = hostile_sink(random, settings, word);
        let mut frame = random.bytes(settings.frame() as usize);
        let mut control = [(word >> 8) as u8, word as u8, check(word) as u8];
        if random.once_in(4) {
            flip(random, &mut control, 1);
        }
        put_control(settings, &mut frame, control);
        let mut out = vec![0x5A; settings.hi as usize + random.below(3) as usize];
        let mut tally = any_tally(random);
        let _ = case.sink(settings, &mut state, &frame, &mut out, &mut tally);
    });
    if all_cases() {
        let [_, tracked, paired, _, waiting, outside] = done.standings;
        assert!(
            [tracked, paired, waiting, outside].iter().all(|times| *times > 1000),
            "{:?}",
            done.standings
        );
    }
}

/// Buffers of every length from 0 to some more than the right one.
#[test]
fn buffers_of_every_length() {
    cases("buffers_of_every_length", 1, |case| {
        for k in 1..=4 {
            for (lo, hi) in [(0, 4 * k), (2, 3), (0, 0)] {
                let settings = Settings::new(k, lo, hi);
                for frame in 0..4 * k as usize + 20 {
                    for other in 0..4 * k as usize + 6 {
                        lend(case, settings, frame, other);
                    }
                }
            }
        }
        for frame in 15230..15250 {
            for other in 14400..14415 {
                lend(case, Settings::OPU0, frame, other);
            }
        }
    });
}

/// A sink's and a source's call with buffers of these lengths.
fn lend(case: &mut Case, settings: Settings, frame: usize, other: usize) {
    let random = &mut case.random;
    let (mending, type_check) = (random.once_in(2), random.once_in(2));
    let settings = Settings { mending, type_check, ..settings };
    let count = count_inside(random, settings);
    let (mut frame, mut other) = (random.bytes(frame), random.bytes(other));
    let mut source = Source { count, multiframe: 0, payload_type: 0xFF };
    let next = next_count(random, settings, count);
    let _ = case.source(settings, &mut source, next, &other, &mut frame);
    let types = any_types(&mut case.random);
    let mut sink = Sink { count: Some(count), word: None, types };
    let _ = case.sink(settings, &mut sink, &frame, &mut other, &mut Tally::default());
}

#[test]
fn tallies_near_the_largest() {
    cases("tallies_near_the_largest", 1, |case| {
        let off = Settings::new(2, 0, 8);
        // Zeros, which are whole; ones; and zeros with one wrong bit and with two.
        let controls = [[0; 3], [0xFF; 3], [0, 0, 1], [0, 0, 3]];
        let some = [off, off.with_mending(), off.with_type_check()];
        let all = controls.map(|control| some.map(|settings| (settings, control))).concat();
        for left in (0..=10).chain([u32::MAX]) {
            for count in 0..=8 {
                for &(settings, control) in &all {
                    let mut frame = case.random.bytes(16);
                    put_control(settings, &mut frame, control);
                    let value = u32::MAX - left;
                    let mut tally = Tally { frames: value, bad: value, bytes: value };
                    let types = Types::with(Some(case.random.of(&[5, 7])), &[]);
                    let mut state = Sink { count: Some(count), word: None, types };
                    let mut out = case.random.bytes(8);
                    for multiframe in 1..=3 {
                        case.told(Expected { multiframe, payload_type: 7 });
                        let _ = case.sink(settings, &mut state, &frame, &mut out, &mut tally);
                    }
                }
            }
        }
    });
}

#[test]
fn keeper_calls_and_their_sum() {
    cases("keeper_calls_and_their_sum", 60_000, |case| {
        let random = &mut case.random;
        let settings = match random.below(4) {
            0 => varied(random, Settings::OPU0),
            1 => varied(random, WIDE),
            _ => any_settings(random),
        };
        let q = match random.below(8) {
            0 => random.of(&[0, 1, 2, 65534, 65535, 65536, u32::MAX]),
            1 => random.u32(),
            _ => random.from_to(1, 65535),
        };
        let most = u64::from(settings.hi) * u64::from(q);
        let least = u64::from(settings.lo) * u64::from(q);
        let p = match random.below(8) {
            0 => random.u32(),
            1 => (most + random.below(3)).saturating_sub(1) as u32,
            2 => (least + random.below(3)).saturating_sub(1) as u32,
            _ => (least + random.below(most.saturating_sub(least) + 1)) as u32,
        };
        let remainder = match random.below(8) {
            0 => q.wrapping_add(random.from_to(0, 1)),
            1 => q.wrapping_sub(1),
            2 => random.u32(),
            3 => 0,
            _ => random.below(u64::from(q.max(1))) as u32,
        };
        let times = 1 + random.below(20);
        let mut keeper = Keeper { remainder };
        let mut sum = 0;
        for t in 1..=times {
            // A refused call in between changes nothing.
            if case.random.once_in(6) {
                assert!(case.keeper(settings, &mut keeper.clone(), p, 0).is_err());
                let wrong = settings.with_patterns(broken(&mut case.random));
                assert!(case.keeper(wrong, &mut keeper.clone(), p, q).is_err());
            }
            let Ok(count) = case.keeper(settings, &mut keeper, p, q) else {
                assert_eq!((t, keeper.remainder), (1, remainder));
                return;
            };
            sum += u64::from(count);
            let whole = u64::from(remainder) + t * u64::from(p);
            assert_eq!(sum, whole / u64::from(q));
            assert_eq!(u64::from(keeper.remainder), whole % u64::from(q));
            assert!(settings.holds(count));
        }
    });
}
