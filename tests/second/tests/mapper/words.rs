//! The check of every control word (02, P5: "Nothing that the check says changes"), beside the
//! equations that G.709 gives for it in Table IX.1 and the division of the second implementation;
//! and every word mended (02, P1).

use crate::both::settings_of;
use crate::given::{control_bytes, put_control, WIDE};
use odu0::{Sink, Source, Standing, Taken, Tallies};
use second::mapper::{check, Settings};

/// Table IX.1: for JC1's C1 to C8 and JC2's C9 to C14, II and DI the bits of JC3, crc1 to crc8,
/// whose exclusive-or they are in; the paper's X is a 1.
const EQUATIONS: [u8; 16] = [
    0b01000101, 0b10100100, 0b01010010, 0b00101001, 0b10010010, 0b01001001, 0b10100010, 0b01010001,
    0b10101110, 0b01010111, 0b10101101, 0b11010000, 0b01101000, 0b00110100, 0b00011010, 0b00001101,
];

/// JC3 of JC1 and JC2 by those equations, each bit by itself.
fn equated(word: u16) -> u8 {
    let bit = |crc: usize| {
        let inputs = (0..16).filter(|row| EQUATIONS[*row] >> (7 - crc) & 1 == 1);
        inputs.filter(|row| word >> (15 - row) & 1 == 1).count() % 2
    };
    (0..8).fold(0, |jc3, crc| jc3 << 1 | bit(crc) as u8)
}

/// A sink says BADCHECK of every word of 24 bits whose JC3 is another, and of no other word.
#[test]
fn every_word_that_is_read() {
    let settings = Settings::new(1, 0, 4);
    let (mut frame, mut out, mut tallies) = ([0; 12], [0; 4], Tallies::new());
    for word in 0..=u16::MAX {
        let right = equated(word);
        assert_eq!(u32::from(right), check(u32::from(word)), "{word:04X}");
        let [jc1, jc2] = word.to_be_bytes();
        for jc3 in 0..=255 {
            put_control(settings, &mut frame, [jc1, jc2, jc3]);
            let (port, settings) = (1 + u32::from(jc3) % 8, settings_of(settings));
            let taken =
                Sink::new().demap_frame(settings, &frame, &mut out, port, &mut tallies).unwrap();
            let bad = taken.standing == Standing::BadCheck;
            assert_eq!((bad, taken.mended), (jc3 != right, false), "{word:04X} {jc3:02X}");
        }
    }
    let total = tallies.total();
    assert_eq!((total.frames, total.badcheck), (1 << 24, 255 << 16));
}

/// With mending on a new sink reads every 24 bits as the one word near them, if there is one. Near
/// a word are its own bits with the right JC3, and those with one of the 24 turned over.
#[test]
fn every_word_that_is_mended() {
    let mut near = vec![None; 1 << 24];
    for word in 0..=u16::MAX {
        let whole = u32::from(word) << 8 | u32::from(equated(word));
        for bits in [whole].into_iter().chain((0..24).map(|bit| whole ^ 1 << bit)) {
            let other = near[bits as usize].replace((word, bits != whole));
            assert_eq!(other, None, "{bits:06X} is near two words");
        }
    }
    let settings = settings_of(WIDE.with_mending());
    let mut frame = vec![0; WIDE.frame() as usize];
    let (mut out, mut tallies) = (vec![0; WIDE.hi as usize], Tallies::new());
    for (bits, near) in (0_u32..).zip(near) {
        let [_, jc1, jc2, jc3] = bits.to_be_bytes();
        put_control(WIDE, &mut frame, [jc1, jc2, jc3]);
        let mut sink = Sink::new();
        let port = 1 + u32::from(jc3) % 8;
        let taken = sink.demap_frame(settings, &frame, &mut out, port, &mut tallies).unwrap();
        let (word, mended) = near.map_or((None, false), |(word, mended)| (Some(word), mended));
        let count = word.map(|word| u32::from(word >> 2));
        let (standing, remembered) = match (word.map(|word| word & 3), count) {
            (Some(1 | 2), _) => (Standing::Waiting, word.map(u32::from)),
            (Some(_), Some(count)) if WIDE.holds(count) => (Standing::Read(count), None),
            (Some(_), _) => (Standing::Outside, None),
            (None, _) => (Standing::BadCheck, None),
        };
        assert_eq!(taken, Taken { standing, handed: 0, mended }, "{bits:06X}");
        assert_eq!((sink.count, sink.word), (standing.count(), remembered), "{bits:06X}");
    }
    // A word has itself and 24 others near it.
    let total = tallies.total();
    assert_eq!((total.frames, total.badcheck), (1 << 24, (256 - 25) << 16));
}

/// A source writes JC3 by the equations, for each count of the largest grid with each change that
/// has a pattern and with one more, to 15,232 less the count.
#[test]
fn every_word_that_is_written() {
    let settings = settings_of(WIDE);
    let client = vec![0x55; WIDE.hi as usize];
    let mut frame = vec![0; WIDE.frame() as usize];
    for old in 0..=WIDE.hi {
        let near = (old.saturating_sub(2)..=old + 2).filter(|next| WIDE.holds(*next));
        for next in near.chain([WIDE.hi - old]) {
            let mut source = Source { count: old, multiframe: 0, payload_type: 7 };
            source.map_frame(settings, next, &client[..old as usize], &mut frame).unwrap();
            let [jc1, jc2, jc3] = control_bytes(WIDE).map(|at| frame[at]);
            assert_eq!(jc3, equated(u16::from_be_bytes([jc1, jc2])), "{old} to {next}");
        }
    }
}
