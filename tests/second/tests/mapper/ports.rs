//! A tally for each port (02, P2): "each sink call names its port. A call changes only its own
//! port's three numbers. The card's total is their sum, which may exceed 32 bits."

use crate::both::{cases, Case, LentCard, ANY};
use crate::fields::{fields_of, NEW};
use crate::given::*;
use crate::runs::{harm, off_the_card, source_run, watch, Written};
use odu0::ffi;
use second::mapper::{Card, Expected, Settings, Sink, Standing, Taken, Tally, PORTS};
use second::{seeds::all_cases, Random};

const EIGHT: Settings = Settings::new(2, 0, 8);

const FULL: Tally = Tally { frames: u32::MAX, bad: u32::MAX, bytes: u32::MAX };

/// A sink, what its call is given beside the port, and the card.
#[derive(Clone, Debug, PartialEq)]
struct Given {
    settings: Settings,
    sink: Sink,
    told: Expected,
    frame: Vec<u8>,
    out: Vec<u8>,
    card: Card,
}

impl Given {
    /// Nothing is refused here, whatever else is random.
    fn right(random: &mut Random) -> Given {
        let settings = small_settings(random);
        let sink = any_sink(random, settings);
        let mut frame = random.bytes(settings.frame() as usize);
        let control = any_control(random, settings, &sink);
        put_control(settings, &mut frame, control);
        let out = settings.hi as usize + random.below(4) as usize;
        let (out, card) = (random.bytes(out), Card::with(any_tallies(random)));
        Given { settings, sink, told: any_expected(random), frame, out, card }
    }

    fn call(&mut self, case: &mut Case, port: u32) -> Result<Taken, u32> {
        let Given { settings, sink, told, frame, out, card } = self;
        case.told(*told).sink_on(*settings, sink, frame, out, port, card)
    }

    /// A call that answers this number and changes no byte, state or number.
    fn is_refused(&self, case: &mut Case, port: u32, number: u32) {
        let mut after = self.clone();
        assert_eq!(after.call(case, port), Err(number));
        assert!(after == *self, "refusal {number} changed something");
    }

    /// An accepted call, which adds to the three numbers of its own port and to no other.
    fn is_counted(&mut self, case: &mut Case, port: u32) -> Taken {
        let mut wanted = self.card.tallies();
        let taken = self.call(case, port).unwrap();
        let own = &mut wanted[port as usize - 1];
        let sum = |number: u32, more: u32| {
            (u64::from(number) + u64::from(more)).min(4_294_967_295) as u32
        };
        *own = Tally {
            frames: sum(own.frames, 1),
            bad: sum(own.bad, (taken.standing == Standing::BadCheck).into()),
            bytes: sum(own.bytes, taken.handed),
        };
        assert_eq!(self.card.tallies(), wanted, "port {port}: {taken:?}");
        taken
    }
}

/// Every small number, and such as have a right one in their low 4, 8, 16 or 31 bits.
#[test]
fn ports_1_to_8_and_no_other() {
    let far = [255, 256, 257, 264, 65535, 65536, 65537, 1 << 31, 1 << 31 | 8, u32::MAX];
    cases("ports_1_to_8_and_no_other", 300, |case| {
        for port in (0..=33).chain(far) {
            let mut given = Given::right(&mut case.random);
            match port {
                1..=8 => {
                    given.is_counted(case, port);
                }
                _ => given.is_refused(case, port, 10),
            }
        }
    });
}

/// Every choice among the six faults that a sink's call can have, and nothing else wrong: the
/// lowest number is the answer. So 10 comes after 1, 2, 8 and 9 and before 14.
#[test]
fn every_choice_of_faults() {
    const NUMBERS: [u32; 6] = [1, 2, 8, 9, 10, 14];
    cases("every_choice_of_faults", 30, |case| {
        for choice in 0..1 << NUMBERS.len() {
            let faults: Vec<u32> = (0..NUMBERS.len())
                .filter(|at| choice >> at & 1 == 1)
                .map(|at| NUMBERS[at])
                .collect();
            let has = |number: u32| faults.contains(&number);
            let random = &mut case.random;
            let mut settings = varied(random, Settings::new(2, 1, 7));
            if has(1) {
                settings.k = 3809;
            }
            if has(2) {
                let above = 4 * settings.k + 1;
                (settings.lo, settings.hi) = random.of(&[(8, 7), (1, above), (above, above)]);
            }
            if has(14) {
                settings = settings.with_patterns(broken(random));
            }
            let (frame, out) = (settings.frame() as usize, settings.hi as usize);
            let frame = if has(8) { random.of(&[0, frame - 1, frame + 1]) } else { frame };
            let out = if has(9) { random.of(&[0, out - 1]) } else { out };
            let port = if has(10) { wrong_port(random) } else { random.from_to(1, PORTS) };
            let (frame, out) = (random.bytes(frame), random.bytes(out));
            let (sink, card) = (any_sink(random, settings), Card::with(any_tallies(random)));
            assert_eq!(sink.refusals(settings, &frame, &out, port), faults, "{settings:?}");
            let told = any_expected(random);
            let mut given = Given { settings, sink, told, frame, out, card };
            match faults.first() {
                None => {
                    given.is_counted(case, port);
                }
                Some(lowest) => given.is_refused(case, port, *lowest),
            }
        }
    });
}

/// From any content of the card.
#[test]
fn a_call_counts_on_its_own_port() {
    let done = cases("a_call_counts_on_its_own_port", 10_000, |case| {
        for port in 1..=PORTS {
            Given::right(&mut case.random).is_counted(case, port);
        }
    });
    assert!(done.standings.iter().all(|times| *times > 100) || !all_cases());
}

/// Each of the three numbers by itself at the largest, near it and far from it, while the other
/// ports are at the largest or at zero; whole frames and BADCHECK frames, three times each.
#[test]
fn each_number_stops_by_itself() {
    let left = [0, 1, 2, 7, 8, 9, 16, 17, u32::MAX];
    cases("each_number_stops_by_itself", 1, |case| {
        for choice in 0..left.len() * left.len() * left.len() {
            let at = |by: usize| u32::MAX - left[choice / by % left.len()];
            let near = Tally { frames: at(1), bad: at(left.len()), bytes: at(left.len().pow(2)) };
            for port in 1..=PORTS {
                for (control, count) in [([0; 3], 8), ([0xFF; 3], 8), ([0xFF; 3], 1)] {
                    let mut tallies = [case.random.of(&[FULL, Tally::default()]); 8];
                    tallies[port as usize - 1] = near;
                    let mut frame = vec![0x33; 16];
                    put_control(EIGHT, &mut frame, control);
                    let sink = Sink { count: Some(count), ..Sink::new() };
                    let (told, settings) = (any_expected(&mut case.random), EIGHT);
                    let (out, card) = (vec![0; 8], Card::with(tallies));
                    let mut given = Given { settings, sink: sink.clone(), told, frame, out, card };
                    for _ in 0..3 {
                        given.sink = sink.clone();
                        assert_eq!(given.is_counted(case, port).handed, count);
                    }
                }
            }
        }
    });
}

#[test]
fn totals_of_any_numbers() {
    cases("totals_of_any_numbers", 200_000, |case| {
        let tallies = match case.index {
            0 => [Tally::default(); 8],
            1 => [FULL; 8],
            _ => any_tallies(&mut case.random),
        };
        let card = Card::with(tallies);
        LentCard::new(tallies).must_be(&card);
        if case.index == 1 {
            assert_eq!(card.total(), [8 * 4_294_967_295; 3]);
        }
    });
}

/// The 24 numbers as C lends them: those of port 1, then those of port 2 and so on. Each is in the
/// total once, and a call adds to the three of its port.
#[test]
fn numbers_in_a_row() {
    let total = |row: &[u32; 24]| {
        // SAFETY: 24 numbers in a row are what odu0_tallies is.
        let total = unsafe { ffi::odu0_card_total(row.as_ptr().cast()) };
        [total.frames, total.badcheck, total.bytes]
    };
    for at in 0..24 {
        let (mut row, mut wanted) = ([0; 24], [0; 3]);
        row[at] = u32::MAX;
        wanted[at % 3] = u64::from(u32::MAX);
        assert_eq!(total(&row), wanted, "number {at}");
    }
    let bits: [u32; 24] = std::array::from_fn(|at| 1 << at);
    assert_eq!(total(&bits), [0o11111111, 0o22222222, 0o44444444]);

    let (frame, mut out) = ([0xFF; 16], [0; 8]);
    let (frame, out) = (frame.as_ptr(), out.as_mut_ptr());
    let sink = ffi::Sink { known: 1, count: 8, ..NEW };
    for port in 0..=9 {
        let mut row = bits;
        let tallies = row.as_mut_ptr().cast();
        // SAFETY: the buffers and the numbers are live and do not overlap.
        let reply = unsafe {
            ffi::odu0_sink_call(fields_of(EIGHT), sink, ANY, frame, 16, out, 8, port, tallies)
        };
        let mut wanted = bits;
        if let 1..=8 = port {
            assert_eq!((reply.refusal, reply.standing, reply.handed), (0, 4, 8));
            let own = 3 * (port as usize - 1);
            wanted[own] += 1;
            wanted[own + 1] += 1;
            wanted[own + 2] += 8;
        } else {
            assert_eq!((reply.refusal, reply.standing, reply.handed), (10, 0, 0));
            assert_eq!(reply.state, sink);
        }
        assert_eq!(row, wanted, "port {port}");
    }
}

/// A sink of a card, its port, and the frames of its own source that are still to come, some of
/// them harmed on the way.
struct Line {
    given: Given,
    port: u32,
    coming: Vec<Vec<u8>>,
}

impl Line {
    fn new(case: &mut Case) -> Line {
        let mut given = Given::right(&mut case.random);
        if case.random.once_in(2) {
            given.sink = Sink::new();
        }
        let frames = case.random.from_to(1, 40) as usize;
        let trouble = case.random.of(&[3, 10, 100]);
        let mut coming = Vec::new();
        for Written { mut frame, .. } in source_run(case, given.settings, frames) {
            if case.random.once_in(trouble) {
                harm(case, given.settings, &mut frame);
            }
            coming.push(frame);
        }
        coming.reverse();
        Line { given, port: case.random.from_to(1, PORTS), coming }
    }
}

/// A call that is turned back for its frame, its output buffer, its port or its patterns, or for
/// the first of these where more than one is wrong.
fn turned_back(case: &mut Case, given: &Given, port: u32) {
    let mut wrong = given.clone();
    let (mut port, mut number) = (port, 14);
    wrong.settings = wrong.settings.with_patterns(broken(&mut case.random));
    if case.random.once_in(2) {
        (port, number) = (wrong_port(&mut case.random), 10);
        if case.random.once_in(2) {
            wrong.settings = given.settings;
        }
    }
    if case.random.once_in(4) && given.settings.hi > 0 {
        wrong.out.truncate(given.settings.hi as usize - 1);
        number = 9;
    }
    if case.random.once_in(4) {
        wrong.frame.pop();
        number = 8;
    }
    wrong.is_refused(case, port, number);
}

/// Up to a dozen sinks on any ports, which call in any order, each with its own source; some now
/// and then name another port than theirs, and calls are turned back among them. A sink on another
/// port of another card says and does the same.
#[test]
fn cards_of_many_sinks() {
    let done = cases("cards_of_many_sinks", 1_000, |case| {
        let zeros = case.random.once_in(2);
        let mut card = if zeros { Card::new() } else { Card::with(any_tallies(&mut case.random)) };
        let many = case.random.from_to(1, 12);
        let mut lines: Vec<Line> = (0..many).map(|_| Line::new(case)).collect();
        let (mut frames, mut bad, mut bytes) = (0, 0, 0);
        while !lines.is_empty() {
            let at = case.random.below(lines.len() as u64) as usize;
            let Some(frame) = lines[at].coming.pop() else {
                lines.swap_remove(at);
                continue;
            };
            let Line { given, port, .. } = &mut lines[at];
            (given.frame, given.card) = (frame, card);
            given.told = any_expected(&mut case.random);
            let port = if case.random.once_in(6) { case.random.from_to(1, PORTS) } else { *port };
            if case.random.once_in(6) {
                turned_back(case, given, port);
            }

            let mut other = given.clone();
            other.card = Card::with(any_tallies(&mut case.random));
            let other_port = case.random.from_to(1, PORTS);
            let elsewhere = other.call(case, other_port).unwrap();
            let taken = given.is_counted(case, port);
            assert_eq!(taken, elsewhere, "on port {port} and on port {other_port}");
            assert_eq!(given.sink, other.sink, "on port {port} and on port {other_port}");
            assert!(given.out == other.out, "on port {port} and on port {other_port}");

            frames += 1;
            bad += u128::from(taken.standing == Standing::BadCheck);
            bytes += u128::from(taken.handed);
            card = given.card.clone();
        }
        // No number has come near the largest one here.
        if zeros {
            assert_eq!(card.total(), [frames, bad, bytes]);
        }
    });
    if all_cases() {
        assert!(done.standings.iter().all(|times| *times > 100), "{:?}", done.standings);
        assert!([8, 9, 10, 14].iter().all(|number| done.refused[*number] > 1000));
    }
}

/// A sink that names any port from call to call: after two unharmed frames in succession it holds
/// the source's count, and each further one is handed out whole, calls on ports that the card does
/// not have among them. Each frame is counted on the port that was named for it. The type check is
/// off.
fn recovers_from_port_to_port(case: &mut Case, settings: Settings, frames: usize) {
    let settings = Settings { type_check: false, ..settings };
    let written = source_run(case, settings, frames);
    let (mut sink, mut card) = (any_sink(&mut case.random, settings), Card::new());
    let trouble = case.random.of(&[2, 5, 20]);
    let (mut clean, mut taken_on) = (0, [0; 8]);
    for (n, Written { frame: sent, load, next, .. }) in written.iter().enumerate() {
        let mut frame = sent.clone();
        if case.random.once_in(trouble) {
            harm(case, settings, &mut frame);
        }
        clean = if frame == *sent { clean + 1 } else { 0 };
        let port = case.random.from_to(1, PORTS);
        let mut out = case.random.bytes(settings.hi as usize);
        if case.random.once_in(4) {
            assert_eq!(off_the_card(case, settings, &mut sink, &frame, &mut out), Err(10));
        }
        let taken = case.sink_on(settings, &mut sink, &frame, &mut out, port, &mut card).unwrap();
        taken_on[port as usize - 1] += 1;
        if clean >= 2 {
            assert_eq!(sink.count, Some(*next), "after frame {}", n + 1);
        }
        if clean >= 3 {
            let standing = written[n].followed(settings);
            let whole = Taken { standing, handed: load.len() as u32, mended: false };
            assert_eq!(taken, whole, "frame {}", n + 1);
            assert!(out[..load.len()] == load[..], "load {}", n + 1);
        }
    }
    assert_eq!(card.tallies().map(|tally| tally.frames), taken_on);
}

#[test]
fn a_sink_that_moves_from_port_to_port() {
    watch("a_sink_that_moves_from_port_to_port", 2_000, 2, recovers_from_port_to_port);
}
