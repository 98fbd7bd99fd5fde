//! The program sinkshow against the second implementation's lines.

use crate::feed::{pieces, run};
use second::mapper::{Card, Expected, Settings, Sink, Taken};
use second::{seeds, Random};
use std::time::Duration;

const SETTINGS: Settings = Settings::new(2, 0, 8);

const FIRST: [u8; 16] = [0, 0xAA, 0, 0, 0, 0xA6, 0x11, 0, 0, 0x0A, 0, 0x22, 0x07, 0, 0, 0x33];
const THEN: [u8; 16] = [0, 0, 0, 0x44, 0, 0x10, 0, 0x55, 0, 0xD0, 0, 0x66, 0, 0, 0, 0x77];

/// What the program shows when it is fed these pieces.
fn shown(pieces: Vec<Vec<u8>>, pause: Option<Duration>) -> String {
    let written = run("sinkshow", &[], pieces, pause);
    assert_eq!(written.said, "");
    String::from_utf8(written.out).unwrap()
}

/// The same by the second implementation.
pub fn lines(input: &[u8]) -> String {
    let (mut sink, mut card, mut out) = (Sink::new(), Card::new(), [0; 8]);
    // The type check is off: any type may be expected.
    let any = Expected { multiframe: 0, payload_type: 0 };
    let mut lines = String::new();
    let frames = input.chunks_exact(16);
    let rest = frames.remainder().len();
    for (frame_number, frame) in (1..).zip(frames) {
        let taken = sink.call(SETTINGS, any, frame, &mut out, 1, &mut card).unwrap();
        let Taken { standing, handed, .. } = taken;
        let count = standing.count().map_or("-".to_string(), |count| count.to_string());
        lines += &format!("{frame_number} {handed} {} {count}\n", standing.name());
    }
    if rest > 0 {
        lines += &format!("LEFT {rest}\n");
    }
    lines
}

/// Frames that a source writes, with some bits turned over.
fn written(random: &mut Random, frames: usize) -> Vec<u8> {
    let mut source = second::mapper::Source::new(SETTINGS, random.from_to(0, 8), 0x07).unwrap();
    let mut all = Vec::new();
    for _ in 0..frames {
        let next = (source.count + random.from_to(0, 4)).saturating_sub(2).min(8);
        let client = random.bytes(source.count as usize);
        let mut frame = [0; 16];
        source.call(SETTINGS, next, &client, &mut frame).unwrap();
        if random.once_in(8) {
            frame[random.below(16) as usize] ^= 1 << random.below(8);
        }
        if !random.once_in(16) {
            all.extend(frame);
        }
    }
    all
}

#[test]
fn the_frames_of_the_paper() {
    let wanted = "1 0 WAITING -\n2 0 READ 4\n3 4 READ 4\n";
    let input = [FIRST, THEN, THEN].concat();
    assert_eq!(lines(&input), wanted);
    assert_eq!(shown(vec![input.clone()], None), wanted);
    // Byte by byte.
    let bytes = input.iter().map(|byte| vec![*byte]).collect();
    assert_eq!(shown(bytes, Some(Duration::from_millis(1))), wanted);
}

/// Mending is off: of the paper's second and third frame, the second with each of its control bits
/// turned over is BADCHECK, and a wrong bit beside them is not seen.
#[test]
fn a_wrong_bit_is_not_mended() {
    for bit in 0..128 {
        let mut harmed = THEN;
        harmed[bit / 8] ^= 0x80 >> (bit % 8);
        let wanted = match bit / 8 {
            1 | 5 | 9 => "1 0 WAITING -\n2 0 BADCHECK -\n3 0 READ 4\n",
            _ => "1 0 WAITING -\n2 0 READ 4\n3 4 READ 4\n",
        };
        let input = [FIRST, harmed, THEN].concat();
        assert_eq!(lines(&input), wanted, "bit {bit}");
        assert_eq!(shown(vec![input], None), wanted, "bit {bit}");
    }
}

#[test]
fn nothing_and_rests() {
    assert_eq!(shown(vec![], None), "");
    for rest in 1..=15 {
        assert_eq!(shown(vec![vec![0; rest]], None), format!("LEFT {rest}\n"));
        let input = [&FIRST[..], &THEN, &THEN, &FIRST[..rest]].concat();
        let wanted = format!("1 0 WAITING -\n2 0 READ 4\n3 4 READ 4\nLEFT {rest}\n");
        assert_eq!(shown(vec![input], None), wanted);
    }
}

/// The lines of frames of zeros, in which the sink reads the count 0.
fn zero_lines(frames: usize) -> String {
    (1..=frames).map(|frame_number| format!("{frame_number} 0 READ 0\n")).collect()
}

#[test]
fn a_rest_has_a_line_exactly_from_1_to_15_bytes() {
    for frames in [0, 1, 2, 300] {
        for rest in 0..=15 {
            let last = if rest == 0 { String::new() } else { format!("LEFT {rest}\n") };
            let shown = shown(vec![vec![0; 16 * frames + rest]], None);
            assert_eq!(shown, zero_lines(frames) + &last, "{frames} frames and {rest} bytes");
        }
    }
}

#[test]
fn frames_are_numbered_from_1() {
    assert_eq!(shown(vec![vec![0; 16 * 1200]], None), zero_lines(1200));
    let shown = shown(vec![seeds::random("frames_are_numbered_from_1").bytes(16 * 700)], None);
    let numbers: Vec<_> = shown.lines().map(|line| line.split_once(' ').unwrap().0).collect();
    assert_eq!(numbers, (1..=700).map(|number| number.to_string()).collect::<Vec<_>>());
}

#[test]
fn random_input() {
    seeds::cases("random_input", 60, |index, mut random| {
        let frames = random.from_to(0, 300) as usize;
        let mut input = match index % 3 {
            0 => random.bytes(16 * frames),
            _ => written(&mut random, frames),
        };
        let rest = random.below(16) as usize;
        input.extend(random.bytes(rest));
        let wanted = lines(&input);
        assert_eq!(shown(vec![input.clone()], None), wanted, "{input:02X?}");
        let most = random.of(&[3, 16, 17, 40, 5000]);
        let pieces = pieces(&mut random, &input, most);
        assert_eq!(shown(pieces, None), wanted, "in pieces: {input:02X?}");
    });
}

/// Frame numbers of many digits, and more input than a pipe holds.
#[test]
fn a_long_input() {
    let mut random = seeds::random("a_long_input");
    let mut input = written(&mut random, 120_000);
    input.extend([0; 7]);
    let (shown, wanted) = (shown(vec![input.clone()], None), lines(&input));
    assert!(wanted.lines().count() > 100_000);
    if let Some((line, wanted)) =
        shown.lines().zip(wanted.lines()).find(|(line, wanted)| line != wanted)
    {
        panic!("the program: {line}, second: {wanted}");
    }
    assert_eq!(shown.len(), wanted.len());
}

/// Small pieces with pauses between them, so that the program reads less than a frame at a time.
#[test]
fn slow_input() {
    let mut random = seeds::random("slow_input");
    let mut input = written(&mut random, 20);
    input.extend([0xFF; 11]);
    let pieces = pieces(&mut random, &input, 9);
    assert_eq!(shown(pieces, Some(Duration::from_millis(2))), lines(&input));
}
