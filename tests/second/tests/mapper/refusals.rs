//! Each refusal alone, and each with others: the lowest number is the answer.

use crate::both::cases;
use crate::given::{any_sink, any_tallies, wrong_port};
use second::mapper::{Card, Keeper, Settings, Source};
use second::seeds::all_cases;
use std::collections::BTreeSet;

/// Settings that each of grid, window and patterns applies to or not, in many ways.
fn settings_for_refusals() -> Vec<Settings> {
    let mut all = vec![Settings::OPU0];
    for k in [0, 1, 2, 3809, 1 << 30, u32::MAX] {
        let s = 4u32.wrapping_mul(k);
        let more = s.wrapping_add(1);
        let wrong = [(1, 0), (0, more), (more, s), (more, more), (0, u32::MAX)];
        for (lo, hi) in [(0, s), (s, s), (0, 0), (1, 3)].into_iter().chain(wrong) {
            all.push(Settings::new(k, lo, hi));
        }
    }
    // The paper's patterns; given ones that keep the rule, and that do not by one bit. Mending off
    // and on, which refuses nothing; nor does the type check, which is on at random below.
    let with = |settings: &Settings| {
        [*settings, settings.with_patterns([0, 0, 1, 1]), settings.with_patterns([0, 0, 1, 3])]
    };
    all.iter().flat_map(with).flat_map(|off| [off, off.with_mending()]).collect()
}

/// Lengths around a right one; some short ones where that one is too long to lend.
fn lengths(right: u64) -> Vec<usize> {
    let right = if right > 16000 { 8 } else { right as usize };
    let all = [right, right.saturating_sub(1), right + 1, 0, right + 256];
    BTreeSet::from(all).into_iter().collect()
}

/// Counts around a window.
fn counts(settings: Settings) -> [u32; 5] {
    [settings.lo, settings.hi, settings.lo.wrapping_sub(1), settings.hi.wrapping_add(1), u32::MAX]
}

/// Each of a call's refusals, by its number, was met alone, each two together, and none at all.
fn all_met(numbers: &[u32], met: &BTreeSet<Vec<u32>>) {
    if !all_cases() {
        return;
    }
    assert!(met.contains(&vec![]));
    for (at, one) in numbers.iter().enumerate() {
        assert!(met.contains(&vec![*one]), "{one} was not met alone");
        for two in &numbers[at + 1..] {
            assert!(met.contains(&vec![*one, *two]), "{one} and {two} were not met together");
        }
    }
}

/// The answer is the lowest number of those that apply.
fn lowest<T>(applying: &[u32], answer: &Result<T, u32>) {
    assert_eq!(answer.as_ref().err(), applying.iter().min());
}

#[test]
fn refusals_of_the_sink() {
    let mut met = BTreeSet::new();
    cases("refusals_of_the_sink", 1, |case| {
        for settings in settings_for_refusals() {
            for frame in lengths(settings.frame()) {
                for out in lengths(u64::from(settings.hi)) {
                    for port in [1, 8, 0, wrong_port(&mut case.random)] {
                        let type_check = case.random.once_in(2);
                        let settings = Settings { type_check, ..settings };
                        let state = any_sink(&mut case.random, settings);
                        let (frame, out) = (case.random.bytes(frame), case.random.bytes(out));
                        let card = Card::with(any_tallies(&mut case.random));
                        let (mut new_state, mut new_out, mut new_card) =
                            (state.clone(), out.clone(), card.clone());
                        let applying = state.refusals(settings, &frame, &out, port);
                        let answer = case.sink_on(
                            settings,
                            &mut new_state,
                            &frame,
                            &mut new_out,
                            port,
                            &mut new_card,
                        );
                        lowest(&applying, &answer);
                        if answer.is_err() {
                            assert!((new_state, new_out, new_card) == (state, out, card));
                        }
                        met.insert(applying);
                    }
                }
            }
        }
    });
    all_met(&[1, 2, 8, 9, 10, 14], &met);
}

#[test]
fn refusals_of_the_source() {
    let mut met = BTreeSet::new();
    let mut met_new = BTreeSet::new();
    cases("refusals_of_the_source", 1, |case| {
        for settings in settings_for_refusals() {
            for count in counts(settings) {
                let applying = Source::new_refusals(settings, count);
                lowest(&applying, &case.source_new(settings, count, 7));
                met_new.insert(applying);
                for next in counts(settings) {
                    for client in lengths(u64::from(count)) {
                        for frame in lengths(settings.frame()) {
                            let state =
                                Source { count, multiframe: case.random.u32(), payload_type: 7 };
                            let (client, frame) = (vec![0x11; client], vec![0x22; frame]);
                            let (mut new_state, mut new_frame) = (state.clone(), frame.clone());
                            let applying = state.refusals(settings, next, &client, &frame);
                            let answer = case.source(
                                settings,
                                &mut new_state,
                                next,
                                &client,
                                &mut new_frame,
                            );
                            lowest(&applying, &answer);
                            if answer.is_err() {
                                assert!((new_state, new_frame) == (state, frame));
                            }
                            met.insert(applying);
                        }
                    }
                }
            }
        }
    });
    all_met(&[1, 2, 5, 6, 7, 8, 14], &met);
    all_met(&[1, 2, 5, 14], &met_new);
}

#[test]
fn refusals_of_the_keeper() {
    let mut met = BTreeSet::new();
    cases("refusals_of_the_keeper", 1, |case| {
        for settings in settings_for_refusals() {
            for q in [0, 1, 2, 1296, 65535, 65536, 65537, u32::MAX] {
                let (least, most) = (settings.lo.wrapping_mul(q), settings.hi.wrapping_mul(q));
                for p in [0, least, least.wrapping_sub(1), most, most.wrapping_add(1), u32::MAX] {
                    for remainder in [0, q / 2, q.wrapping_sub(1), q, q.wrapping_add(1), u32::MAX] {
                        let state = Keeper { remainder };
                        let mut new_state = state.clone();
                        let applying = state.refusals(settings, p, q);
                        let answer = case.keeper(settings, &mut new_state, p, q);
                        lowest(&applying, &answer);
                        if answer.is_err() {
                            assert_eq!(new_state, state);
                        }
                        met.insert(applying);
                    }
                }
            }
        }
    });
    all_met(&[1, 2, 3, 4, 5, 14], &met);
}
