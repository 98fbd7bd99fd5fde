//! The worked frames of the scope paper, the worked counts of 02's P7 and worked cases of its P1,
//! P2, P4 and P11, run against the library: those that are proved as well, and the others.

use odu0::{
    Expected, Keeper, Patterns, Rate, Refusal, Seen, Settings, Sink, Source, Standing, Taken,
    Tallies, Tally, Total, PORTS,
};

const OPU0: Settings = Settings::OPU0;
const WIDE: Settings = Settings::new(3808, 0, 15232);
const EIGHT: Settings = Settings::new(2, 0, 8);

/// The rate of 1000BASE-X.
const GIGABIT: Rate = Rate { p: 18671875, q: 1296 };

/// Where JC1, JC2 and JC3 stand.
fn control_bytes(settings: Settings) -> [usize; 3] {
    let row = settings.k as usize + 2;
    [1, row + 1, 2 * row + 1]
}

/// OPU0 with four patterns, for +1, −1, +2, −2.
fn opu0_with([plus1, minus1, plus2, minus2]: [u32; 4]) -> Settings {
    OPU0.with_patterns(Patterns { plus1, minus1, plus2, minus2 })
}

/// The control bytes that a source at the count "old" writes for the next count.
fn announced(settings: Settings, old: u32, next: u32) -> [u8; 3] {
    let mut source = Source { count: old, multiframe: 0, payload_type: 0 };
    let mut frame = vec![0xEE; 4 * settings.k as usize + 8];
    source.map_frame(settings, next, &vec![0x55; old as usize], &mut frame).unwrap();
    assert_eq!(source, Source { count: next, multiframe: 1, payload_type: 0 });
    control_bytes(settings).map(|at| frame[at])
}

/// What a sink answers to a frame with these control bytes.
fn taken(sink: &mut Sink, settings: Settings, control: [u8; 3]) -> Taken {
    let mut frame = vec![0; 4 * settings.k as usize + 8];
    for (at, byte) in control_bytes(settings).into_iter().zip(control) {
        frame[at] = byte;
    }
    let mut out = vec![0; settings.hi as usize];
    sink.demap_frame(settings, &frame, &mut out, 1, &mut Tallies::new()).unwrap()
}

/// What a sink says of such a frame, in which nothing is mended.
fn said(sink: &mut Sink, settings: Settings, control: [u8; 3]) -> Standing {
    let Taken { standing, mended, .. } = taken(sink, settings, control);
    assert!(!mended);
    standing
}

#[test]
fn words_of_a_source() {
    assert_eq!(announced(OPU0, 14407, 14407), [0xE1, 0x1C, 0x6E]);
    assert_eq!(announced(OPU0, 14407, 14408), [0x4B, 0xB6, 0x38]);
    assert_eq!(announced(OPU0, 14407, 14409), [0x87, 0x7A, 0xA7]);
    assert_eq!(announced(OPU0, 14407, 14406), [0xB4, 0x49, 0x45]);
    assert_eq!(announced(OPU0, 14407, 14405), [0x78, 0x85, 0xDA]);
    assert_eq!(announced(OPU0, 14405, 14409), [0xE1, 0x27, 0x6C]);
}

#[test]
fn a_new_sink_pairs_two_words() {
    let mut sink = Sink::new();
    assert_eq!(sink, Sink { count: None, word: None, accepted: None, seen: Seen::Never });
    assert_eq!(said(&mut sink, OPU0, [0x4B, 0xB6, 0x38]), Standing::Waiting);
    assert_eq!(said(&mut sink, OPU0, [0x4B, 0x8A, 0x19]), Standing::Paired(14409));
    assert_eq!(sink, Sink { count: Some(14409), word: Some(0x4B8A), ..Sink::new() });
}

#[test]
fn a_false_count_is_left_by_a_pair() {
    let mut sink = Sink { count: Some(2932), ..Sink::new() };
    assert_eq!(said(&mut sink, WIDE, [0x4B, 0xB6, 0x38]), Standing::Tracked(2934));
    assert_eq!(said(&mut sink, WIDE, [0x4B, 0x8A, 0x19]), Standing::Paired(14409));
}

#[test]
fn zeros_pass_the_check_and_ones_do_not() {
    assert_eq!(said(&mut Sink::new(), OPU0, [0x00; 3]), Standing::Outside);
    assert_eq!(said(&mut Sink::new(), EIGHT, [0x00; 3]), Standing::Read(0));
    for settings in [OPU0, WIDE, EIGHT] {
        let mut sink = Sink { count: Some(settings.lo), word: Some(0x4BB6), ..Sink::new() };
        assert_eq!(said(&mut sink, settings, [0xFF; 3]), Standing::BadCheck);
        assert_eq!(sink, Sink::new());
    }
}

/// The places of a count among eight payload bytes, by what a source writes there and by what a
/// sink takes from there.
#[test]
fn places_of_eight() {
    for (count, places) in [(3, &[3, 6, 8][..]), (0, &[]), (8, &[1, 2, 3, 4, 5, 6, 7, 8])] {
        let client: Vec<u8> = (0xC1..).take(count as usize).collect();
        let mut frame = [0xEE; 16];
        let mut source = Source::new(EIGHT, count, 0x07).unwrap();
        source.map_frame(EIGHT, count, &client, &mut frame).unwrap();
        // Payload byte n, from 1, is in row (n - 1) / 2, behind the row's first two bytes.
        let payload: Vec<u8> = (1..=8).map(|n| frame[(n - 1) / 2 * 4 + 2 + (n - 1) % 2]).collect();
        let mut wanted = [0; 8];
        for (place, byte) in places.iter().zip(&client) {
            wanted[usize::from(*place) - 1] = *byte;
        }
        assert_eq!(payload, wanted);
        assert_eq!((frame[0], frame[4], frame[8], frame[12], frame[13]), (0, 0, 0, 0x07, 0));

        // A frame in which each payload byte is its own place.
        let by_place = [0, 0, 1, 2, 0, 0, 3, 4, 0, 0, 5, 6, 0, 0, 7, 8];
        let (mut sink, mut tallies) = (Sink { count: Some(count), ..Sink::new() }, Tallies::new());
        let mut out = [0xEE; 9];
        let taken = sink.demap_frame(EIGHT, &by_place, &mut out, 1, &mut tallies);
        let answer = Taken { standing: Standing::Read(0), handed: count, mended: false };
        assert_eq!(taken, Ok(answer));
        assert_eq!(out[..places.len()], *places);
        assert!(out[places.len()..].iter().all(|byte| *byte == 0xEE));
        assert_eq!(tallies.of(1), Some(Tally { frames: 1, badcheck: 0, bytes: count }));
    }
}

/// 4B B6 38, with which 14407 is followed by 14408, with each of its 24 bits turned over: with
/// mending on it is read as it was written, and with mending off it costs count and word.
#[test]
fn one_wrong_bit_of_a_word() {
    for bit in 0..24 {
        let mut control = [0x4B, 0xB6, 0x38];
        control[bit / 8] ^= 0x80 >> (bit % 8);
        let mut sink = Sink { count: Some(14407), ..Sink::new() };
        let answer = Taken { standing: Standing::Tracked(14408), handed: 14407, mended: true };
        assert_eq!(taken(&mut sink, OPU0.with_mending(), control), answer, "{control:02X?}");
        assert_eq!(sink, Sink { count: Some(14408), word: Some(0x4BB6), ..Sink::new() });
        assert_eq!(said(&mut sink, OPU0, control), Standing::BadCheck, "{control:02X?}");
        assert_eq!(sink, Sink::new());
    }
}

/// Two words that lead a new sink to the count 14409, both with a wrong bit: the word that is
/// remembered is the mended one.
#[test]
fn a_mended_word_is_remembered() {
    let (on, mut sink) = (OPU0.with_mending(), Sink::new());
    let answer = Taken { standing: Standing::Waiting, handed: 0, mended: true };
    assert_eq!(taken(&mut sink, on, [0x4B, 0xB4, 0x38]), answer);
    assert_eq!(sink, Sink { count: None, word: Some(0x4BB6), ..Sink::new() });
    let answer = Taken { standing: Standing::Paired(14409), handed: 0, mended: true };
    assert_eq!(taken(&mut sink, on, [0x4B, 0x8A, 0x18]), answer);
    assert_eq!(sink, Sink { count: Some(14409), word: Some(0x4B8A), ..Sink::new() });
}

/// Two wrong bits are BADCHECK with mending on as well. Three may be mended to a false word, and
/// with mending off four may pass: of 00 00 00 come 00 10 C0 and 00 10 D0.
#[test]
fn more_than_one_wrong_bit_of_a_word() {
    let on = OPU0.with_mending();
    for control in [[0x8B, 0xB6, 0x38], [0x4B, 0xB5, 0x38], [0xCB, 0xB6, 0x39]] {
        let mut sink = Sink { count: Some(14407), word: Some(0x4BB6), ..Sink::new() };
        assert_eq!(said(&mut sink, on, control), Standing::BadCheck);
        assert_eq!(sink, Sink::new());
    }
    assert_eq!(announced(EIGHT, 0, 0), [0, 0, 0]);
    let answer = Taken { standing: Standing::Read(4), handed: 0, mended: true };
    assert_eq!(taken(&mut Sink::new(), EIGHT.with_mending(), [0x00, 0x10, 0xC0]), answer);
    assert_eq!(said(&mut Sink::new(), EIGHT, [0x00, 0x10, 0xC0]), Standing::BadCheck);
    assert_eq!(said(&mut Sink::new(), EIGHT, [0x00, 0x10, 0xD0]), Standing::Read(4));
}

/// A mended word may lead outside the window, and a wrong bit of JC3 alone is told as mended.
#[test]
fn mended_words_outside_and_whole() {
    let answer = Taken { standing: Standing::Outside, handed: 0, mended: true };
    assert_eq!(taken(&mut Sink::new(), OPU0.with_mending(), [0x00, 0x00, 0x01]), answer);
    let answer = Taken { standing: Standing::Read(0), handed: 0, mended: true };
    assert_eq!(taken(&mut Sink::new(), EIGHT.with_mending(), [0x00, 0x00, 0x01]), answer);
    assert_eq!(said(&mut Sink::new(), EIGHT.with_mending(), [0; 3]), Standing::Read(0));
}

/// The settings keep their patterns with mending on, and mending with other patterns.
#[test]
fn settings_with_both() {
    let patterns = Patterns { plus1: 0, minus1: 0, plus2: 1, minus2: 1 };
    let both = OPU0.with_patterns(patterns).with_mending();
    assert_eq!(both, OPU0.with_mending().with_patterns(patterns));
    assert_eq!((both.patterns, both.mending), (Some(patterns), true));
    assert_eq!((both.k, both.lo, both.hi), (OPU0.k, OPU0.lo, OPU0.hi));
    assert!(!OPU0.mending && !OPU0.with_patterns(patterns).mending);
    let mut sink = Sink::new();
    assert_eq!(said(&mut sink, both, [0xE1, 0x1E, 0x74]), Standing::Waiting);
    let answer = Taken { standing: Standing::Paired(14409), handed: 0, mended: true };
    assert_eq!(taken(&mut sink, both, [0xE1, 0x22, 0x45]), answer);
}

/// The table 0, 0, 1, 1: a word of +1 and one of +2 may announce the same count.
#[test]
fn a_new_sink_pairs_two_words_of_given_patterns() {
    let settings = opu0_with([0, 0, 1, 1]);
    assert_eq!(announced(settings, 14407, 14408), [0xE1, 0x1E, 0x74]);
    assert_eq!(announced(settings, 14408, 14409), [0xE1, 0x22, 0x55]);
    let mut sink = Sink::new();
    assert_eq!(said(&mut sink, settings, [0xE1, 0x1E, 0x74]), Standing::Waiting);
    assert_eq!(said(&mut sink, settings, [0xE1, 0x22, 0x55]), Standing::Paired(14409));
    assert_eq!(sink, Sink { count: Some(14409), word: Some(0xE122), ..Sink::new() });
}

/// Given patterns that are those of the standard change nothing.
#[test]
fn the_standards_patterns_as_given_ones() {
    let four = [0b10101010101010, 0b01010101010101, 0b01100110011001, 0b10011001100110];
    for (old, next) in
        (OPU0.lo..=OPU0.hi).flat_map(|old| (OPU0.lo..=OPU0.hi).map(move |next| (old, next)))
    {
        let control = announced(OPU0, old, next);
        assert_eq!(announced(opu0_with(four), old, next), control);
        let mut sink = Sink { count: Some(old), ..Sink::new() };
        assert_eq!(said(&mut sink, opu0_with(four), control).count(), Some(next));
    }
}

/// What each call says of these settings on OPU0, where all else is right: the refusals of a new
/// source, a source call, a keeper call and a sink call.
fn refused(settings: Settings) -> [Option<u32>; 4] {
    let mut source = Source { count: 14407, multiframe: 0, payload_type: 0 };
    let (client, mut frame, mut out) = (vec![0; 14407], vec![0; 15240], vec![0; 14410]);
    let mut tallies = Tallies::new();
    [
        Source::new(settings, 14407, 0).err(),
        source.map_frame(settings, 14407, &client, &mut frame).err(),
        Keeper::new(GIGABIT).next_count(settings).err(),
        Sink::new().demap_frame(settings, &frame, &mut out, 8, &mut tallies).err(),
    ]
    .map(|refusal| refusal.map(Refusal::number))
}

/// A pattern has 14 bits; the two of plus differ where the two of minus do, and somewhere. Every
/// call that is given settings asks this.
#[test]
fn the_rule_of_given_patterns() {
    let most = 16383;
    for kept in [[0, 0, 1, 1], [most, 0, 0, most], [0, most, most, 0], [5, 5, 6, 6], [5, 6, 6, 5]] {
        assert_eq!(refused(opu0_with(kept)), [None; 4], "{kept:?}");
    }
    let broken = [
        // One bit turned over in each of the four.
        [1, 0, 3, 3],
        [0, 1, 3, 3],
        [0, 0, 2, 3],
        [0, 0, 3, 2],
        // No difference.
        [0, 0, 0, 0],
        [1, 2, 1, 2],
        // More than 14 bits: in one pattern, in two, in all.
        [most + 1, 0, 0, most],
        [most + 1, most + 1, 0, 0],
        [most + 1, 0, most + 2, 1],
        [1 << 31, 1 << 31, 1 << 31 | 1, 1 << 31 | 1],
    ];
    for broken in broken {
        assert_eq!(refused(opu0_with(broken)), [Some(14); 4], "{broken:?}");
    }
}

/// Number 14 is the last of every call: beside another fault the other one is the answer.
#[test]
fn broken_patterns_are_judged_last() {
    let broken = opu0_with([0, 0, 1, 0]);
    assert_eq!(refused(broken), [Some(14); 4]);
    let mut source = Source { count: 14407, multiframe: 0, payload_type: 0 };
    let (mut frame, mut out, mut tallies) = (vec![0xEE; 15240], vec![0xEE; 14409], Tallies::new());
    let mut sink = Sink::new();
    let refusal = sink.demap_frame(broken, &frame, &mut out, 0, &mut tallies).unwrap_err();
    assert_eq!((refusal.number(), refusal.name()), (9, "space"));
    let refusal = source.map_frame(broken, 14411, &[0; 14407], &mut frame).unwrap_err();
    assert_eq!((refusal.number(), refusal.name()), (6, "count"));
    let refusal =
        Keeper::new(Rate { p: 18671875 + 10000, q: 1296 }).next_count(broken).unwrap_err();
    assert_eq!((refusal.number(), refusal.name()), (4, "rate"));
    assert_eq!(Source::new(broken, 14411, 0).unwrap_err().number(), 5);

    // The port comes before it and after the output buffer.
    out.push(0xEE);
    let refusal = sink.demap_frame(broken, &frame, &mut out, 0, &mut tallies).unwrap_err();
    assert_eq!((refusal.number(), refusal.name()), (10, "port"));

    // Alone it is the answer, and nothing is changed.
    let refusal = sink.demap_frame(broken, &frame, &mut out, 8, &mut tallies).unwrap_err();
    assert_eq!((refusal, refusal.number(), refusal.name()), (Refusal::Patterns, 14, "patterns"));
    assert_eq!(source.map_frame(broken, 14407, &[0; 14407], &mut frame), Err(Refusal::Patterns));
    assert_eq!(source, Source { count: 14407, multiframe: 0, payload_type: 0 });
    assert_eq!((sink, tallies), (Sink::new(), Tallies::new()));
    assert!(frame.iter().chain(&out).all(|byte| *byte == 0xEE));
}

#[test]
fn rate_of_1000base_x() {
    let mut keeper = Keeper::new(GIGABIT);
    assert_eq!((keeper.rate(), keeper.remainder()), (GIGABIT, 648));
    let counts = [(); 5].map(|()| keeper.next_count(OPU0));
    assert_eq!(counts, [Ok(14407), Ok(14408), Ok(14407), Ok(14407), Ok(14408)]);
}

/// 1/2, 2/2, 3/2 and 4/2 are rounded to 1, 1, 2 and 2; with an odd divisor 1/3, 2/3 and 3/3 to 0, 1
/// and 1.
#[test]
fn rates_rounded_by_hand() {
    let settings = Settings::new(1, 0, 1);
    let mut keeper = Keeper::new(Rate { p: 1, q: 2 });
    assert_eq!([(); 4].map(|()| keeper.next_count(settings)), [Ok(1), Ok(0), Ok(1), Ok(0)]);
    let mut keeper = Keeper::new(Rate { p: 1, q: 3 });
    assert_eq!([(); 3].map(|()| keeper.next_count(settings)), [Ok(0), Ok(1), Ok(0)]);
}

/// Four counts of one keeper, beside two counts and, after a restart, two more.
#[test]
fn a_restarted_keeper_begins_a_new_sum() {
    let total = |keeper: &mut Keeper, times| -> u32 {
        (0..times).map(|_| keeper.next_count(OPU0).unwrap()).sum()
    };
    assert_eq!(total(&mut Keeper::new(GIGABIT), 4), 57629);
    let mut keeper = Keeper::new(GIGABIT);
    let before = total(&mut keeper, 2);
    keeper = Keeper::new(GIGABIT);
    assert_eq!((before, total(&mut keeper, 2)), (28815, 28815));
}

#[test]
fn the_largest_grid() {
    let [last, above] = [3808, 3809].map(|k| Settings::new(k, OPU0.lo, OPU0.hi));
    let client = vec![0; 14405];
    // The frames have the right length for either grid.
    for (settings, refusal) in [(last, None), (above, Some(Refusal::Grid))] {
        let mut frame = vec![0; 4 * settings.k as usize + 8];
        let mut out = vec![0; 14410];
        let mut source = Source { count: 14405, multiframe: 0, payload_type: 0 };
        assert_eq!(Source::new(settings, 14405, 0).err(), refusal);
        assert_eq!(source.map_frame(settings, 14405, &client, &mut frame).err(), refusal);
        assert_eq!(Keeper::new(GIGABIT).next_count(settings).err(), refusal);
        assert_eq!(
            Sink::new().demap_frame(settings, &frame, &mut out, 1, &mut Tallies::new()).err(),
            refusal
        );
    }
}

#[test]
fn the_smallest_output_buffer() {
    for settings in [OPU0, WIDE, EIGHT] {
        let frame = vec![0; 4 * settings.k as usize + 8];
        let (mut out, mut tallies) = (vec![0; settings.hi as usize], Tallies::new());
        let mut call =
            |out: &mut [u8]| Sink::new().demap_frame(settings, &frame, out, 1, &mut tallies);
        assert!(call(&mut out).is_ok());
        assert_eq!(call(&mut out[1..]).err(), Some(Refusal::Space));
        assert_eq!(tallies.total().frames, 1);
    }
}

#[test]
fn a_frame_one_byte_short() {
    let (mut frame, mut out, mut tallies) = (vec![0xEE; 15239], vec![0xEE; 14410], Tallies::new());
    let refusal = Sink::new().demap_frame(OPU0, &frame, &mut out, 1, &mut tallies).unwrap_err();
    assert_eq!((refusal, refusal.number(), refusal.name()), (Refusal::Frame, 8, "frame"));
    let mut source = Source::new(OPU0, 14407, 0x07).unwrap();
    let refusal = source.map_frame(OPU0, 14407, &[0; 14407], &mut frame).unwrap_err();
    assert_eq!(refusal.number(), 8);
    assert_eq!(source, Source { count: 14407, multiframe: 0, payload_type: 0x07 });
    assert!(frame.iter().chain(&out).all(|byte| *byte == 0xEE));
    assert_eq!(tallies, Tallies::new());
}

/// Sinks on ports 1, 3 and 8 of a card, two of them on port 3: only a call's own port counts it.
#[test]
fn ports_of_a_card() {
    let mut tallies = Tallies::new();
    let mut wanted = Tallies::new();
    // The port, the count that its sink knows, which is as many bytes, and JC1 to JC3.
    let calls = [
        (1, 3, [0; 3], (1, 0, 3)),
        (3, 8, [0xFF; 3], (1, 1, 8)),
        (8, 0, [0; 3], (1, 0, 0)),
        (3, 5, [0; 3], (2, 1, 13)),
        (3, 1, [0xFF; 3], (3, 2, 14)),
    ];
    for (port, count, [jc1, jc2, jc3], (frames, badcheck, bytes)) in calls {
        let frame = [0, jc1, 1, 2, 0, jc2, 3, 4, 0, jc3, 5, 6, 0, 0, 7, 8];
        let mut sink = Sink { count: Some(count), ..Sink::new() };
        sink.demap_frame(EIGHT, &frame, &mut [0; 8], port, &mut tallies).unwrap();
        wanted.port[port as usize - 1] = Tally { frames, badcheck, bytes };
        assert_eq!(tallies, wanted);
    }
    assert_eq!(tallies.total(), Total { frames: 5, badcheck: 2, bytes: 17 });
    assert_eq!(tallies.of(3), Some(Tally { frames: 3, badcheck: 2, bytes: 14 }));
    assert_eq!([0, 9, u32::MAX].map(|port| tallies.of(port)), [None; 3]);

    // No card has a port 0 or 9.
    for port in [0, PORTS + 1] {
        let mut sink = Sink { count: Some(3), ..Sink::new() };
        let mut out = [0xEE; 8];
        let refusal = sink.demap_frame(EIGHT, &[0; 16], &mut out, port, &mut tallies).unwrap_err();
        assert_eq!((refusal, refusal.number(), refusal.name()), (Refusal::Port, 10, "port"));
        assert_eq!((sink.count, out, tallies), (Some(3), [0xEE; 8], wanted));
    }
}

/// A number stays at 4,294,967,295, and the total of eight such is not cut.
#[test]
fn the_largest_numbers_of_a_card() {
    let most = u32::MAX;
    let full = Tally { frames: most, badcheck: most, bytes: most };
    let near = Tally { frames: most, badcheck: most - 1, bytes: most - 7 };
    let mut tallies = Tallies { port: [full; 8] };
    tallies.port[4 - 1] = near;
    let mut sink = Sink { count: Some(8), ..Sink::new() };
    sink.demap_frame(EIGHT, &[0xFF; 16], &mut [0; 8], 4, &mut tallies).unwrap();
    assert_eq!(tallies, Tallies { port: [full; 8] });
    let eight = 34_359_738_360;
    assert_eq!(tallies.total(), Total { frames: eight, badcheck: eight, bytes: eight });
    assert_eq!((Tallies::new(), Tallies::new().total()), Default::default());
}

/// A frame of 16 bytes at the count 4, which stays, with this PSI byte; its client bytes are 01 to
/// 04.
fn at_four(psi: u8) -> [u8; 16] {
    let [jc1, jc2, jc3] = announced(EIGHT, 4, 4);
    [0, jc1, 0, 1, 0, jc2, 0, 2, 0, jc3, 0, 3, psi, 0, 0, 4]
}

/// A sink that holds the count 4 and expects type 07 takes frames, in this order: the number that
/// the call is told, the frame's PSI byte, how many bytes it hands out, the type that is accepted
/// after it, and what was seen.
fn takes_types(sink: &mut Sink, calls: &[(u32, u8, u32, Option<u8>, Seen)]) {
    for (at, (multiframe, psi, handed, accepted, seen)) in (1..).zip(calls) {
        let expected = Expected { multiframe: *multiframe, payload_type: 0x07 };
        let (mut out, mut tallies) = ([0xEE; 8], Tallies::new());
        let on = EIGHT;
        let taken =
            sink.demap_frame_expecting(on, expected, &at_four(*psi), &mut out, 3, &mut tallies);
        let answer = Taken { standing: Standing::Read(4), handed: *handed, mended: false };
        assert_eq!(taken, Ok(answer), "call {at}");
        let after = Sink { count: Some(4), word: None, accepted: *accepted, seen: *seen };
        assert_eq!(*sink, after, "call {at}");
        let bytes = [1, 2, 3, 4, 0xEE, 0xEE, 0xEE, 0xEE];
        assert_eq!(out, if *handed == 0 { [0xEE; 8] } else { bytes }, "call {at}");
        assert_eq!(
            tallies.of(3),
            Some(Tally { frames: 1, badcheck: 0, bytes: *handed }),
            "call {at}"
        );
    }
}

/// The same type in three frames numbered 0 running is accepted; until then the earlier one stands.
/// A frame is judged after its own bytes: those of the third are kept back still, and where another
/// type comes those of its third are handed out still.
#[test]
fn three_frames_with_one_type() {
    use Seen::{Once, Twice};
    let mut sink = Sink { count: Some(4), ..Sink::new() };
    takes_types(
        &mut sink,
        &[
            (0, 0x07, 0, None, Once(7)),
            (1, 0x00, 0, None, Once(7)),
            (255, 0x07, 0, None, Once(7)),
            (0, 0x07, 0, None, Twice(7)),
            (0, 0x07, 0, Some(7), Twice(7)),
            (1, 0x00, 4, Some(7), Twice(7)),
            (0, 0x05, 4, Some(7), Once(5)),
            (0, 0x05, 4, Some(7), Twice(5)),
            (0, 0x07, 4, Some(7), Once(7)),
            (0, 0x05, 4, Some(7), Once(5)),
            (0, 0x05, 4, Some(7), Twice(5)),
            (0, 0x05, 4, Some(5), Twice(5)),
            (1, 0x00, 0, Some(5), Twice(5)),
        ],
    );
}

/// A number is taken modulo 256, and type 00 is a type.
#[test]
fn numbers_and_types_at_their_ends() {
    use Seen::{Never, Once, Twice};
    let mut sink = Sink { count: Some(4), ..Sink::new() };
    takes_types(
        &mut sink,
        &[
            (255, 0x07, 0, None, Never),
            (256, 0x00, 0, None, Once(0)),
            (257, 0x07, 0, None, Once(0)),
            (65536, 0x00, 0, None, Twice(0)),
            (u32::MAX, 0x07, 0, None, Twice(0)),
            (u32::MAX - 255, 0x00, 0, Some(0), Twice(0)),
            (1 << 31, 0xFF, 0, Some(0), Once(255)),
        ],
    );
    let mut sink = Sink { count: Some(4), accepted: Some(0), ..Sink::new() };
    let expected = Expected { multiframe: 1, payload_type: 0x00 };
    let (on, mut out) = (EIGHT, [0; 8]);
    let taken = sink
        .demap_frame_expecting(on, expected, &at_four(0), &mut out, 1, &mut Tallies::new())
        .unwrap();
    assert_eq!((taken.handed, sink.accepted, sink.seen), (4, Some(0), Never));
}

/// From states that come from elsewhere: where the type was seen before fewer frames are enough.
#[test]
fn types_seen_before() {
    use Seen::{Once, Twice};
    let held = |accepted, seen| Sink { count: Some(4), word: None, accepted, seen };
    takes_types(&mut held(None, Twice(7)), &[(0, 7, 0, Some(7), Twice(7))]);
    let calls = [(0, 7, 0, Some(9), Twice(7)), (0, 7, 0, Some(7), Twice(7))];
    takes_types(&mut held(Some(9), Once(7)), &calls);
    let calls = [(0, 7, 4, Some(7), Once(7)), (0, 7, 4, Some(7), Twice(7))];
    takes_types(&mut held(Some(7), Twice(9)), &calls);
}

/// Each call goes by the type that it is told itself.
#[test]
fn another_type_is_expected() {
    let on = EIGHT;
    let mut sink = Sink { count: Some(4), accepted: Some(7), ..Sink::new() };
    let mut tallies = Tallies::new();
    for (payload_type, handed) in [(7, 4), (5, 0), (7, 4), (0, 0), (255, 0), (7, 4)] {
        let expected = Expected { multiframe: 1, payload_type };
        let taken =
            sink.demap_frame_expecting(on, expected, &at_four(0), &mut [0; 8], 1, &mut tallies);
        assert_eq!((taken.unwrap().handed, sink.accepted), (handed, Some(7)));
    }
}

/// With the type check off bytes are handed out whatever the type, and what is remembered of types
/// stays, so that a run goes on behind.
#[test]
fn types_with_the_check_off() {
    let (mut out, mut tallies) = ([0; 8], Tallies::new());
    for (accepted, seen) in [(None, Seen::Never), (Some(5), Seen::Once(7)), (None, Seen::Twice(7))]
    {
        let mut sink = Sink { count: Some(4), word: None, accepted, seen };
        let before = sink.clone();
        for psi in [0x07, 0x05, 0x00] {
            let taken = sink.demap_frame(EIGHT, &at_four(psi), &mut out, 1, &mut tallies);
            assert_eq!((taken.unwrap().handed, &sink), (4, &before));
        }
    }
    let mut sink = Sink { count: Some(4), seen: Seen::Twice(7), ..Sink::new() };
    sink.demap_frame(EIGHT, &at_four(0x05), &mut out, 1, &mut tallies).unwrap();
    takes_types(&mut sink, &[(0, 0x07, 0, Some(7), Seen::Twice(7))]);
}

/// The PSI byte of a BADCHECK frame is judged, and that of a refused call is not.
#[test]
fn types_of_bad_and_refused_frames() {
    let (on, mut tallies) = (EIGHT, Tallies::new());
    let expected = Expected { multiframe: 0, payload_type: 0x07 };
    let mut bad = at_four(0x07);
    bad[1] ^= 0x81;
    let mut sink = Sink { count: Some(4), word: None, accepted: Some(7), seen: Seen::Never };
    let mut call = |port: u32, frame: &[u8]| {
        let answer =
            sink.demap_frame_expecting(on, expected, frame, &mut [0; 8], port, &mut tallies);
        (answer.map(|taken| (taken.standing, taken.handed)), sink.seen, sink.accepted)
    };
    let (once, twice) = (Seen::Once(7), Seen::Twice(7));
    assert_eq!(call(1, &bad), (Ok((Standing::BadCheck, 4)), once, Some(7)));
    assert_eq!(call(0, &bad), (Err(Refusal::Port), once, Some(7)));
    assert_eq!(call(9, &at_four(0x05)), (Err(Refusal::Port), once, Some(7)));
    assert_eq!(call(1, &bad[1..]), (Err(Refusal::Frame), once, Some(7)));
    assert_eq!(call(1, &bad), (Ok((Standing::BadCheck, 0)), twice, Some(7)));
    bad[12] = 0x05;
    for (seen, accepted) in [(Seen::Once(5), 7), (Seen::Twice(5), 7), (Seen::Twice(5), 5)] {
        assert_eq!(call(1, &bad), (Ok((Standing::BadCheck, 0)), seen, Some(accepted)));
    }
    assert_eq!(tallies.of(1), Some(Tally { frames: 5, badcheck: 5, bytes: 4 }));
}

/// An alarm signal of all ones, or of 66 or 55, stands in for the frames of a port that hands out:
/// each is BADCHECK, with mending too, and its type is accepted like any other. When the frames
/// come again the count is back, and the bytes come after three of them numbered 0.
#[test]
fn types_of_alarm_signals() {
    let settings = EIGHT;
    for (signal, on) in [0xFF, 0x66, 0x55]
        .into_iter()
        .flat_map(|of| [(of, settings), (of, settings.with_mending())])
    {
        let mut sink = Sink { accepted: Some(7), seen: Seen::Twice(7), ..Sink::new() };
        let expected = Expected { multiframe: 0, payload_type: 0x07 };
        let mut call = |frame: &[u8]| {
            let taken = sink.demap_frame_expecting(
                on,
                expected,
                frame,
                &mut [0; 8],
                1,
                &mut Tallies::new(),
            );
            let Taken { standing, handed, .. } = taken.unwrap();
            (standing, handed, sink.accepted)
        };
        let four = Standing::Read(4);
        assert_eq!(call(&at_four(0x07)), (four, 0, Some(7)));
        assert_eq!(call(&at_four(0x07)), (four, 4, Some(7)));
        assert_eq!(call(&[signal; 16]), (Standing::BadCheck, 4, Some(7)));
        assert_eq!(call(&[signal; 16]), (Standing::BadCheck, 0, Some(7)));
        assert_eq!(call(&[signal; 16]), (Standing::BadCheck, 0, Some(signal)));
        assert_eq!(call(&at_four(0x07)), (four, 0, Some(signal)));
        assert_eq!(call(&at_four(0x07)), (four, 0, Some(signal)));
        assert_eq!(call(&at_four(0x07)), (four, 0, Some(7)));
        assert_eq!(call(&at_four(0x07)), (four, 4, Some(7)));
    }
}

/// A source of one type and a new sink that expects this type or another, over 800 frames: when the
/// sink held the count, when a type was accepted, and the first and the last frame that it handed
/// out.
fn cord(payload_type: u8, expected: u8) -> ([Option<u32>; 4], Tally) {
    let on = EIGHT;
    let mut source = Source::new(on, 5, payload_type).unwrap();
    let (mut sink, mut tallies) = (Sink::new(), Tallies::new());
    let (mut frame, mut out) = ([0; 16], [0; 8]);
    let [mut held, mut accepted, mut first, mut last] = [None; 4];
    for n in 1..=800 {
        let (count, multiframe) = (source.count, source.multiframe);
        source.map_frame(on, 11 - count, &[0xC0; 6][..count as usize], &mut frame).unwrap();
        let expected = Expected { multiframe, payload_type: expected };
        let taken =
            sink.demap_frame_expecting(on, expected, &frame, &mut out, 8, &mut tallies).unwrap();
        held = held.or(sink.count.map(|_| n));
        accepted = accepted.or(sink.accepted.map(|_| n));
        if taken.handed > 0 {
            (first, last) = (first.or(Some(n)), Some(n));
        }
    }
    assert_eq!(sink.accepted, Some(payload_type));
    ([held, accepted, first, last], tallies.of(8).unwrap())
}

/// Frames 1, 257 and 513 are numbered 0. Where the cord is the right one bytes come from frame 514
/// on, and where it is swapped not one.
#[test]
fn a_right_and_a_swapped_cord() {
    let bytes = (514..=800).map(|n| if n % 2 == 1 { 5 } else { 6 }).sum();
    let (events, tally) = cord(0x07, 0x07);
    assert_eq!(events, [Some(2), Some(513), Some(514), Some(800)]);
    assert_eq!(tally, Tally { frames: 800, badcheck: 0, bytes });
    let (events, tally) = cord(0x05, 0x07);
    assert_eq!(events, [Some(2), Some(513), None, None]);
    assert_eq!(tally, Tally { frames: 800, badcheck: 0, bytes: 0 });
    assert_eq!(cord(0x00, 0x00).0, [Some(2), Some(513), Some(514), Some(800)]);
    assert_eq!(cord(0x00, 0x07).0, [Some(2), Some(513), None, None]);
}

/// The frames of the program sinkshow.
#[test]
fn frames_of_sinkshow() {
    let first = [0, 0xAA, 0, 0, 0, 0xA6, 0x11, 0, 0, 0x0A, 0, 0x22, 0x07, 0, 0, 0x33];
    let second = [0, 0, 0, 0x44, 0, 0x10, 0, 0x55, 0, 0xD0, 0, 0x66, 0, 0, 0, 0x77];
    let (mut sink, mut tallies, mut out) = (Sink::new(), Tallies::new(), [0; 8]);
    let mut call = |frame: &[u8]| sink.demap_frame(EIGHT, frame, &mut out, 1, &mut tallies);
    let answer = |standing, handed| Ok(Taken { standing, handed, mended: false });
    assert_eq!(call(&first), answer(Standing::Waiting, 0));
    assert_eq!(call(&second), answer(Standing::Read(4), 0));
    assert_eq!(call(&second), answer(Standing::Read(4), 4));
    assert_eq!(out, [0x44, 0x55, 0x66, 0x77, 0, 0, 0, 0]);
    assert_eq!(tallies.of(1), Some(Tally { frames: 3, badcheck: 0, bytes: 4 }));

    // A source writes them: the first with the count 3 and the payload type 07, then 4 and 4.
    let (mut source, mut frame) = (Source::new(EIGHT, 3, 0x07).unwrap(), [0xEE; 16]);
    source.map_frame(EIGHT, 4, &[0x11, 0x22, 0x33], &mut frame).unwrap();
    assert_eq!(frame, first);
    for _ in 0..2 {
        source.map_frame(EIGHT, 4, &[0x44, 0x55, 0x66, 0x77], &mut frame).unwrap();
        assert_eq!(frame, second);
    }
}

/// The paper's names for the refusals and the standings.
#[test]
fn names_and_numbers() {
    let first = ["grid", "window", "divisor", "rate", "state"];
    let names = first.into_iter().chain(["count", "client", "frame", "space", "port"]);
    let numbered: Vec<_> = (1..).zip(names).chain([(14, "patterns")]).collect();
    let all: Vec<_> =
        Refusal::ALL.iter().map(|refusal| (refusal.number(), refusal.name())).collect();
    assert_eq!(all[..], numbered);
    let standings = [Standing::Read(1), Standing::Tracked(2), Standing::Paired(3)];
    assert_eq!(standings.map(Standing::name), ["READ", "TRACKED", "PAIRED"]);
    assert_eq!(standings.map(Standing::count), [Some(1), Some(2), Some(3)]);
    let standings = [Standing::BadCheck, Standing::Waiting, Standing::Outside];
    assert_eq!(standings.map(Standing::name), ["BADCHECK", "WAITING", "OUTSIDE"]);
    assert_eq!(standings.map(Standing::count), [None; 3]);
}
