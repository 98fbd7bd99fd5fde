//! Inversion patterns from the customer (02, P11): "four patterns of 14 bits for +1, −1, +2, −2,
//! which take the place of document 01's".

use crate::both::{cases, settings_of, Case, ANY};
use crate::fields::{any_fields, fields_of, NEW};
use crate::given::*;
use crate::runs::{back_after_two_frames, no_false_count, rough_line};
use odu0::ffi;
use second::mapper::{
    check, word, Card, Keeper, Settings, Sink, Source, Standing, Tally, STANDARD,
};
use second::{seeds, Lent};

/// Runs so many frames at most on a small grid, and once in ten times some on OPU0's and on a large
/// one. All the settings carry patterns that keep the rule.
fn on_grids(case: &mut Case, most: u32, run: fn(&mut Case, Settings, usize)) {
    let random = &mut case.random;
    let settings = small_settings(random).with_patterns(kept(random));
    let frames = random.from_to(2, most) as usize;
    run(case, settings, frames);
    if case.random.once_in(10) {
        let random = &mut case.random;
        let opu0 = varied(random, Settings::OPU0).with_patterns(kept(random));
        let large = large_settings(random).with_patterns(kept(random));
        run(case, opu0, 6);
        run(case, large, 6);
    }
}

#[test]
fn runs_with_given_patterns() {
    cases("runs_with_given_patterns", 1_200, |case| on_grids(case, 100, rough_line));
}

/// "For every table that passes, two unharmed frames still find the count from any state".
#[test]
fn given_patterns_back_after_two_frames() {
    let name = "given_patterns_back_after_two_frames";
    cases(name, 4_000, |case| on_grids(case, 40, back_after_two_frames));
}

#[test]
fn given_patterns_no_false_count() {
    cases("given_patterns_no_false_count", 2_000, |case| on_grids(case, 40, no_false_count));
}

/// A frame as the library writes it, with the settings' patterns.
fn written(settings: Settings, old: u32, next: u32, client: &[u8]) -> Vec<u8> {
    let mut frame = vec![0xEE; settings.frame() as usize];
    let mut source = odu0::Source { count: old, multiframe: 0, payload_type: 7 };
    source.map_frame(settings_of(settings), next, client, &mut frame).unwrap();
    frame
}

/// Every table of patterns of two bits that keeps the rule, every three frames in succession of the
/// grid K = 1, every known count or none, and every remembered word near its counts or none: after
/// two frames the source's count is held, and the third frame's bytes come out. With mending on it
/// is the same.
#[test]
fn every_small_table_from_every_state() {
    let client = [0xC1, 0xC2, 0xC3, 0xC4];
    let near = (0..=9).chain(16380..=16383).flat_map(|bits| [bits << 2 | 1, bits << 2 | 2]);
    let words: Vec<Option<u32>> = [None].into_iter().chain(near.map(Some)).collect();
    let mut tallies = odu0::Tallies::new();
    for number in 0..96 {
        let (plus, minus, differ) = (number & 3, number >> 2 & 3, 1 + (number >> 4) % 3);
        let four = [plus, minus, plus ^ differ, minus ^ differ];
        let settings = Settings { mending: number >= 48, ..Settings::new(1, 0, 4) };
        let settings = settings.with_patterns(four);
        let frames: Vec<Vec<Vec<u8>>> = (0..=4)
            .map(|old: u32| {
                (0..=4).map(|next| written(settings, old, next, &client[..old as usize])).collect()
            })
            .collect();
        let settings = settings_of(settings);
        for counts in 0..5 * 5 * 5 {
            let [old, next, last] = [counts / 25, counts / 5 % 5, counts % 5];
            let said = format!("{four:?}: {old}, {next}, {last}");
            for known in [None, Some(0), Some(1), Some(2), Some(3), Some(4)] {
                for remembered in &words {
                    let word = *remembered;
                    let mut sink = odu0::Sink { count: known, word, ..odu0::Sink::new() };
                    let mut out = [0xEE; 4];
                    let mut call = |old: usize, next: usize| {
                        let frame = &frames[old][next];
                        sink.demap_frame(settings, frame, &mut out, 1, &mut tallies).unwrap();
                        sink.count
                    };
                    call(old, next);
                    assert_eq!(call(next, last), Some(last as u32), "{said}");
                    out = [0xEE; 4];
                    let frame = &frames[last][old];
                    let taken =
                        sink.demap_frame(settings, frame, &mut out, 1, &mut tallies).unwrap();
                    assert_eq!(
                        (taken.handed, sink.count),
                        (last as u32, Some(old as u32)),
                        "{said}"
                    );
                    assert_eq!(out[..last], client[..last], "{said}");
                    assert!(out[last..].iter().all(|byte| *byte == 0xEE), "{said}");
                }
            }
        }
    }
    assert_eq!(tallies.total().badcheck, 0);
}

/// The control bytes of each count of OPU0 with each next one, and what a sink that knows the count
/// says of them.
#[test]
fn every_word_of_opu0() {
    let mut random = seeds::random("every_word_of_opu0");
    let standard = STANDARD.map(|(_, pattern)| pattern);
    let (mut out, mut tallies) = (vec![0; 14410], odu0::Tallies::new());
    let client = random.bytes(14410);
    for table in 0..300 {
        let four = if table == 0 { standard } else { kept(&mut random) };
        let settings = Settings::OPU0.with_patterns(four);
        for old in settings.lo..=settings.hi {
            for next in settings.lo..=settings.hi {
                let frame = written(settings, old, next, &client[..old as usize]);
                let word = word(settings, old, next);
                let control = [(word >> 8) as u8, word as u8, check(word) as u8];
                let said = format!("{four:?}: {old} to {next}");
                assert_eq!(control_bytes(settings).map(|at| frame[at]), control, "{said}");
                let mut sink = odu0::Sink { count: Some(old), ..odu0::Sink::new() };
                let taken =
                    sink.demap_frame(settings_of(settings), &frame, &mut out, 1, &mut tallies);
                let standing = match next.abs_diff(old) {
                    1 | 2 => odu0::Standing::Tracked(next),
                    _ => odu0::Standing::Read(next),
                };
                let wanted = odu0::Taken { standing, handed: old, mended: false };
                assert_eq!(taken, Ok(wanted), "{said}");
                assert!(out.starts_with(&client[..old as usize]), "{said}");
            }
        }
    }
}

/// The two words of the table 0, 0, 1, 1 whose possible counts are one; a sink in step and one that
/// knows a false count follow them too.
#[test]
fn words_with_one_possible_count() {
    cases("words_with_one_possible_count", 1, |case| {
        let settings = Settings::OPU0.with_patterns([0, 0, 1, 1]);
        let mut said = |sink: &mut Sink, control| {
            let mut frame = vec![0; 15240];
            put_control(settings, &mut frame, control);
            let mut out = vec![0; 14410];
            case.sink(settings, sink, &frame, &mut out, &mut Tally::default()).unwrap().standing
        };
        let (first, then) = ([0xE1, 0x1E, 0x74], [0xE1, 0x22, 0x55]);
        let mut sink = Sink::new();
        assert_eq!(said(&mut sink, first), Standing::Waiting);
        assert_eq!(said(&mut sink, then), Standing::Paired(14409));
        let mut sink = Sink { count: Some(14407), ..Sink::new() };
        assert_eq!(said(&mut sink, first), Standing::Tracked(14408));
        assert_eq!(said(&mut sink, then), Standing::Tracked(14409));
        let mut sink = Sink { count: Some(14406), ..Sink::new() };
        assert_eq!(said(&mut sink, first), Standing::Tracked(14408));
        assert_eq!(said(&mut sink, then), Standing::Tracked(14409));
        let mut sink = Sink { count: Some(14410), ..Sink::new() };
        assert_eq!(said(&mut sink, first), Standing::Waiting);
        assert_eq!(said(&mut sink, then), Standing::Paired(14409));
    });
}

/// Tables that break the rule or exceed 14 bits in one way, made of one that keeps it and whose
/// difference has more than one bit.
fn broken_in_one_way(four: [u32; 4]) -> Vec<[u32; 4]> {
    let [plus1, minus1, ..] = four;
    let mut tables = vec![[plus1, minus1, plus1, minus1]];
    // The places, four bits each: in one pattern, in two and in all four.
    let places = (1..16_u32).filter(|places| places.count_ones() != 3);
    for (places, bit) in places.flat_map(|places| (0..32).map(move |bit| (places, bit))) {
        // Below the 15th bit two turned over would keep the rule, and four as well.
        if bit >= 14 || places.count_ones() == 1 {
            let turned = |at: u32| four[at as usize] ^ (places >> at & 1) << bit;
            tables.push([0, 1, 2, 3].map(turned));
        }
    }
    tables
}

/// What the four calls are given: one set of arguments for all, and the buffers' lengths.
#[derive(Clone)]
struct Given {
    settings: Settings,
    count: u32,
    next: u32,
    client: u32,
    frame: u32,
    p: u32,
    q: u32,
    remainder: u32,
    out: u32,
    port: u32,
}

/// A fault's number, and how arguments that have none come to it.
type Fault = (u32, fn(&mut Given));

/// Each makes one number apply, where the call has it, and no other.
const FAULTS: [Fault; 10] = [
    (1, |given| (given.settings.k, given.frame) = (3809, 15244)),
    (2, |given| {
        given.settings.hi = 4 * given.settings.k + 1;
        given.out = given.settings.hi;
    }),
    (3, |given| (given.p, given.q) = (given.settings.lo * 65536, 65536)),
    (4, |given| given.p = given.settings.hi * given.q + 1),
    (5, |given| {
        given.count = given.settings.lo - 1;
        given.client = given.count;
        given.remainder = given.q;
    }),
    (6, |given| given.next = given.settings.hi + 1),
    (7, |given| given.client += 1),
    (8, |given| given.frame -= 1),
    (9, |given| given.out = given.settings.hi - 1),
    (10, |given| given.port = 9),
];

impl Given {
    /// Arguments in which nothing is wrong but perhaps the patterns; lo is 1 at least.
    fn right(settings: Settings) -> Given {
        let (count, frame) = (settings.lo, settings.frame() as u32);
        Given {
            settings,
            count,
            next: settings.hi,
            client: count,
            frame,
            p: 5 * settings.hi,
            q: 5,
            remainder: 4,
            out: settings.hi,
            port: 8,
        }
    }

    /// Makes the calls which have a refusal of this number: each answers it, knows no other but 14
    /// beside it, and changes nothing.
    fn answers(&self, case: &mut Case, number: u32) {
        let settings = self.settings;
        let applying = if number == 14 { vec![14] } else { vec![number, 14] };
        let has = |numbers: &[u32]| number == 14 || numbers.contains(&number);
        let [client, frame, out] =
            [self.client, self.frame, self.out].map(|length| case.random.bytes(length as usize));
        if has(&[1, 2, 5]) {
            assert_eq!(Source::new_refusals(settings, self.count), applying);
            assert_eq!(case.source_new(settings, self.count, 7), Err(number));
        }
        if has(&[1, 2, 5, 6, 7, 8]) {
            let state = Source { count: self.count, multiframe: 300, payload_type: 7 };
            assert_eq!(state.refusals(settings, self.next, &client, &frame), applying);
            let (mut left, mut filled) = (state.clone(), frame.clone());
            let answer = case.source(settings, &mut left, self.next, &client, &mut filled);
            assert_eq!(answer, Err(number));
            assert!(left == state && filled == frame, "{settings:?}, refusal {number}");
        }
        if has(&[1, 2, 3, 4, 5]) {
            let state = Keeper { remainder: self.remainder };
            assert_eq!(state.refusals(settings, self.p, self.q), applying);
            let mut left = state.clone();
            assert_eq!(case.keeper(settings, &mut left, self.p, self.q), Err(number));
            assert_eq!(left, state);
        }
        if has(&[1, 2, 8, 9, 10]) {
            let state = any_sink(&mut case.random, settings);
            let card = Card::with(any_tallies(&mut case.random));
            assert_eq!(state.refusals(settings, &frame, &out, self.port), applying);
            let (mut left, mut filled, mut counted) = (state.clone(), out.clone(), card.clone());
            let answer =
                case.sink_on(settings, &mut left, &frame, &mut filled, self.port, &mut counted);
            assert_eq!(answer, Err(number));
            assert!(
                left == state && filled == out && counted == card,
                "{settings:?}, refusal {number}"
            );
        }
    }
}

/// Number 14 alone in each of the four calls, and beside each other number that the call has.
#[test]
fn broken_patterns_with_each_other_fault() {
    cases("broken_patterns_with_each_other_fault", 6, |case| {
        let settings = if case.index == 0 { Settings::OPU0 } else { Settings::new(2, 1, 7) };
        let settings = Settings { mending: case.index % 2 == 1, ..settings };
        let four = match case.index {
            0 | 1 => STANDARD.map(|(_, pattern)| pattern),
            2 => [0, 0, 3, 3],
            3 => [0x3FFF, 0, 0, 0x3FFF],
            _ => loop {
                let four = kept(&mut case.random);
                if (four[0] ^ four[2]).count_ones() > 1 {
                    break four;
                }
            },
        };
        // With the patterns that keep the rule nothing is refused.
        let right = Given::right(settings.with_patterns(four));
        assert_eq!(Source::new_refusals(right.settings, right.count), []);
        assert!(case.source_new(right.settings, right.count, 7).is_ok());
        let mut tables = broken_in_one_way(four);
        if case.index == 0 {
            tables.truncate(8);
        }
        for four in tables {
            let right = Given::right(settings.with_patterns(four));
            right.answers(case, 14);
            for (number, fault) in FAULTS {
                let mut given = right.clone();
                fault(&mut given);
                given.answers(case, number);
            }
        }
    });
}

/// The replies of all four calls as C gives them, and the bytes and the tallies that they leave.
type Replies = (
    ffi::SourceReply,
    ffi::SourceReply,
    ffi::KeeperReply,
    ffi::SinkReply,
    Vec<u8>,
    Vec<u8>,
    odu0::Tallies,
);

/// Makes all four calls with these settings, on a frame that the source fills.
fn replies(
    settings: ffi::Settings,
    count: u32,
    next: u32,
    client: &[u8],
    length: usize,
) -> Replies {
    let state = odu0::Source { count, multiframe: 0, payload_type: 7 };
    let sink = ffi::Sink { known: 1, count, ..NEW };
    let mut frame = Lent::new(0, &vec![0x11; length]);
    let mut out = Lent::new(0, &vec![0x22; settings.hi as usize]);
    let mut tallies = odu0::Tallies::new();
    let (at, behind) = (frame.lent().as_mut_ptr(), out.lent().as_mut_ptr());
    let (from, bytes, most) = (client.as_ptr(), client.len(), settings.hi as usize);
    // SAFETY: each pointer is that of a live buffer, before its length, and none overlap.
    unsafe {
        let new = ffi::odu0_source_new(settings, count, 7);
        let call = ffi::odu0_source_call(settings, state, next, from, bytes, at, length);
        let keeper = ffi::odu0_keeper_call(settings, count, 1, 0);
        let taken =
            ffi::odu0_sink_call(settings, sink, ANY, at, length, behind, most, 1, &mut tallies);
        (new, call, keeper, taken, frame.lent().to_vec(), out.lent().to_vec(), tallies)
    }
}

/// A flag of 0 says the standard's patterns, whatever the four numbers are; any other flag says
/// that these are the patterns.
#[test]
fn flags_of_given_patterns() {
    cases("flags_of_given_patterns", 20_000, |case| {
        let random = &mut case.random;
        let mut settings = small_settings(random);
        if random.once_in(3) {
            settings = settings.with_patterns(broken(random));
        }
        let count = count_inside(random, settings);
        let next = next_count(random, settings, count);
        let client = random.bytes(count as usize);
        let length = settings.frame() as usize;
        let plain = fields_of(settings);
        assert_eq!(plain.has_patterns, settings.patterns.is_some().into());
        let wanted = replies(plain, count, next, &client, length);
        let fields = any_fields(random, settings);
        assert_eq!(replies(fields, count, next, &client, length), wanted, "{fields:?}");

        // These are the answers of the second implementation.
        let mut source = Source { count, multiframe: 0, payload_type: 7 };
        let mut frame = vec![0x11; length];
        let answer = source.call(settings, next, &client, &mut frame);
        let refusal = answer.err().unwrap_or(0);
        let (new, call, keeper, taken, filled, ..) = &wanted;
        let refusals = [new.refusal, call.refusal, keeper.refusal, taken.refusal];
        assert_eq!(refusals, [refusal; 4], "{settings:?}");
        assert!(filled == &frame, "{settings:?}");
        case.count_frame(settings, answer.err());
    });
}

/// The worst four numbers beside a flag of 0 on OPU0, and a table beside flags of every kind.
#[test]
fn flags_of_worked_patterns() {
    let client = vec![0x55; 14407];
    let standard = replies(fields_of(Settings::OPU0), 14407, 14408, &client, 15240);
    assert_eq!(standard.4[1], 0x4B);
    let mut settings = fields_of(Settings::OPU0);
    for number in [0, 1, 16384, u32::MAX] {
        [settings.plus1, settings.minus1, settings.plus2, settings.minus2] = [number; 4];
        assert!(replies(settings, 14407, 14408, &client, 15240) == standard, "{settings:?}");
    }
    let mut settings = fields_of(Settings::OPU0.with_patterns([0, 0, 1, 1]));
    for given in [1, 2, 255, 256, 65536, 1 << 31, u32::MAX] {
        settings.has_patterns = given;
        let replies = replies(settings, 14407, 14408, &client, 15240);
        assert_eq!(control_bytes(Settings::OPU0).map(|at| replies.4[at]), [0xE1, 0x1E, 0x74]);
        assert_eq!((replies.1.refusal, replies.3.count), (0, 14408));
    }
}
