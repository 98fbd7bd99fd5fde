//! The filters odu0map and odu0demap against the second implementation's source, rate keeper and
//! sink at OPU0's size.

use crate::feed::{pieces, program, run, run_in_turns, run_on, Written};
use second::mapper::{Card, Expected, Keeper, Settings, Sink, Source, Taken};
use second::{seeds, Random};
use std::fs::{self, File};
use std::time::Duration;

const OPU0: Settings = Settings::OPU0;
const FRAME: usize = 15240;
/// Where JC1, JC2 and JC3 stand, and where the PSI byte does.
const CONTROL: [usize; 3] = [1, 3811, 7621];
const PSI: usize = 11430;
const TYPE: u8 = 7;
const USUAL: (u32, u32) = (18_671_875, 1296);

/// What odu0map writes, by the second implementation: the frames, and what it says of them.
pub fn mapped(input: &[u8], (p, q): (u32, u32)) -> Written {
    let mut keeper = Keeper::new(q);
    let mut source = Source::new(OPU0, keeper.call(OPU0, p, q).unwrap(), TYPE).unwrap();
    let (mut out, mut rest, mut frames) = (Vec::new(), input, 0);
    while rest.len() >= source.count as usize {
        let (load, behind) = rest.split_at(source.count as usize);
        let mut frame = vec![0; FRAME];
        source.call(OPU0, keeper.call(OPU0, p, q).unwrap(), load, &mut frame).unwrap();
        out.extend(frame);
        rest = behind;
        frames += 1;
    }
    let totals = format!("odu0map: frames {frames}, bytes {}\n", input.len() - rest.len());
    Written { out, said: left("odu0map", rest.len()) + &totals }
}

/// What odu0demap writes, by the second implementation: the client bytes; a line for each change of
/// standing and, where the argument `mend` says so, for each mended frame; where `type` and the
/// number of a type say so, one for each change of the accepted type; and the tally.
pub fn demapped(input: &[u8], arguments: &[&str]) -> Written {
    let (mending, of) = match arguments {
        ["mend", rest @ ..] => (true, rest),
        rest => (false, rest),
    };
    let expected: Option<u8> = match of {
        [] => None,
        ["type", number] => Some(number.parse().unwrap()),
        other => panic!("{other:?}"),
    };
    let settings = Settings { mending, type_check: expected.is_some(), ..OPU0 };
    let (mut sink, mut card, mut before) = (Sink::new(), Card::new(), None);
    let (mut out, mut said) = (Vec::new(), String::new());
    let frames = input.chunks_exact(FRAME);
    let rest = frames.remainder().len();
    for (frame_number, frame) in (1..).zip(frames) {
        let mut bytes = vec![0; OPU0.hi as usize];
        // The program numbers the frames itself.
        let told =
            Expected { multiframe: frame_number - 1, payload_type: expected.unwrap_or_default() };
        let accepted = sink.types.accepted();
        let taken = sink.call(settings, told, frame, &mut bytes, 1, &mut card).unwrap();
        let Taken { standing, handed, mended } = taken;
        out.extend(&bytes[..handed as usize]);
        if before != Some(standing) || mended {
            let count = standing.count().map_or("-".to_string(), |count| count.to_string());
            let mended = if mended { " mended" } else { "" };
            said += &format!("frame {frame_number}: {} {count}{mended}\n", standing.name());
        }
        if let Some(now) = sink.types.accepted().filter(|now| Some(*now) != accepted) {
            said += &format!("frame {frame_number}: accepted type {now}\n");
        }
        before = Some(standing);
    }
    said += &left("odu0demap", rest);
    let tally = card.tally(1);
    said += &format!(
        "odu0demap: frames {}, BADCHECK {}, bytes {}\n",
        tally.frames, tally.bad, tally.bytes
    );
    Written { out, said }
}

/// What a filter says of bytes that are left at the end.
fn left(name: &str, bytes: usize) -> String {
    if bytes == 0 {
        String::new()
    } else {
        format!("{name}: {bytes} bytes left at the end\n")
    }
}

/// A rate that OPU0's window holds, as p and q.
fn rate(random: &mut Random) -> (u32, u32) {
    let q = random.from_to(1, 65535);
    let (least, most) = (14405 * q, 14410 * q);
    let between = random.from_to(least, most);
    (random.of(&[least, between, most]), q)
}

/// Turns over a control bit of a frame, 1 to 24 of JC1 to JC3.
fn turn_over(frame: &mut [u8], bit: usize) {
    frame[CONTROL[(bit - 1) / 8]] ^= 0x80 >> ((bit - 1) % 8);
}

/// Frames of which some have one control bit turned over, some two, and some three.
fn single_errors(random: &mut Random, frames: &[u8]) -> Vec<u8> {
    let mut all = frames.to_vec();
    for frame in all.chunks_exact_mut(FRAME) {
        for _ in 0..random.of(&[0, 0, 0, 1, 1, 1, 1, 1, 2, 3]) {
            turn_over(frame, random.from_to(1, 24) as usize);
        }
    }
    all
}

/// Frames with some bits turned over, some lost and some doubled.
fn harmed(random: &mut Random, frames: &[u8]) -> Vec<u8> {
    let mut all = Vec::new();
    for frame in frames.chunks_exact(FRAME) {
        let mut frame = frame.to_vec();
        match random.below(8) {
            0 => frame[1] ^= 1 << random.below(8),
            1 => frame[3811] ^= random.below(256) as u8,
            2 => random.fill(&mut frame),
            3 => continue,
            4 => all.extend(frame.clone()),
            _ => {}
        }
        all.extend(frame);
    }
    all
}

#[test]
fn mapping_at_many_rates() {
    let mut random = seeds::random("mapping_at_many_rates");
    for case in 0..40 {
        let (p, q) = rate(&mut random);
        let length = random.from_to(0, 300_000) as usize;
        let input = random.bytes(length);
        let most = random.of(&[5000, 70_000, 1_000_000]);
        let fed = pieces(&mut random, &input, most);
        let written = run("odu0map", &[&p.to_string(), &q.to_string()], fed, None);
        assert!(
            written == mapped(&input, (p, q)),
            "case {case}: rate {p} / {q}, {length} bytes: {}",
            written.said
        );
    }
}

#[test]
fn mapping_at_the_usual_rate() {
    let input = seeds::random("mapping_at_the_usual_rate").bytes(14407 * 300);
    let written = run("odu0map", &[], vec![input.clone()], None);
    assert!(written == mapped(&input, USUAL), "{}", written.said);
    // More frames than a multiframe has.
    assert_eq!(written.out.len(), 299 * FRAME);
}

#[test]
fn demapping_what_was_harmed() {
    let mut random = seeds::random("demapping_what_was_harmed");
    for case in 0..20 {
        let at = rate(&mut random);
        let client = random.bytes(14407 * 30);
        let mut input = harmed(&mut random, &mapped(&client, at).out);
        let rest = random.of(&[0, 1, 15239]);
        input.extend(random.bytes(rest));
        for arguments in [&[][..], &["mend"], &["type", "7"], &["mend", "type", "0"]] {
            let fed = pieces(&mut random, &input, 40_000);
            let written = run("odu0demap", arguments, fed, None);
            assert!(
                written == demapped(&input, arguments),
                "case {case}: {arguments:?}, rate {at:?}:\n{}",
                written.said
            );
        }
    }
}

/// The argument `mend` on frames with single wrong control bits, and the same frames without it.
#[test]
fn demapping_with_single_errors() {
    let mut random = seeds::random("demapping_with_single_errors");
    for case in 0..20 {
        let at = rate(&mut random);
        let client = random.bytes(14407 * 30);
        let input = single_errors(&mut random, &mapped(&client, at).out);
        let [off, on] = [&[][..], &["mend"]].map(|arguments| {
            let written = run("odu0demap", arguments, vec![input.clone()], None);
            assert!(
                written == demapped(&input, arguments),
                "case {case}: {arguments:?}, rate {at:?}:\n{}",
                written.said
            );
            written
        });
        assert!(off.out.len() < on.out.len(), "case {case}:\n{}\n{}", off.said, on.said);
        assert!(!off.said.contains("mended"), "case {case}:\n{}", off.said);
        assert!(on.said.contains(" mended\n"), "case {case}:\n{}", on.said);
    }
}

/// Each of the 24 bits, in one frame each, at the usual rate. Every mended frame has a line, also
/// where its standing is that of the frame before.
#[test]
fn each_control_bit_in_turn() {
    let client = seeds::random("each_control_bit_in_turn").bytes(14407 * 27 + 20);
    let mut input = mapped(&client, USUAL).out;
    for (bit, frame) in (1..=24).zip(input.chunks_exact_mut(FRAME).skip(3)) {
        turn_over(frame, bit);
    }
    let written = run("odu0demap", &["mend"], vec![input.clone()], None);
    assert!(written == demapped(&input, &["mend"]), "{}", written.said);
    // All but the loads of the first two frames, for want of their counts.
    assert!(written.out == client[14407 + 14408..14407 * 27 + 8], "{}", written.said);
    let mended: Vec<&str> =
        written.said.lines().filter_map(|line| line.strip_suffix(" mended")).collect();
    assert_eq!(mended.len(), 24, "{}", written.said);
    assert_eq!(mended[..2], ["frame 4: TRACKED 14408", "frame 5: TRACKED 14407"]);
    assert!(written.said.contains("READ 14407 mended\nframe"), "{}", written.said);
    let tally = "odu0demap: frames 27, BADCHECK 0, bytes 360182\n";
    assert!(written.said.ends_with(tally), "{}", written.said);
    // Without the argument each of these frames is BADCHECK, and the first of them has the line.
    let written = run("odu0demap", &[], vec![input.clone()], None);
    let said = "frame 1: WAITING -\nframe 2: PAIRED 14407\nframe 3: READ 14407\n\
                frame 4: BADCHECK -\nodu0demap: frames 27, BADCHECK 24, bytes 28814\n";
    assert_eq!(written.said, said);
    assert!(written == demapped(&input, &[]));
}

/// The lines of mended frames at one count, where the standing stays as it is; of such frames
/// before there is a count; and of the frames behind them.
#[test]
fn lines_of_mended_frames() {
    let client = seeds::random("lines_of_mended_frames").bytes(14407 * 8);
    let frames = mapped(&client, (14407, 1)).out;
    let demapped_with = |wrong: &[(usize, usize)], said: &str| {
        let mut input = frames.clone();
        for (frame_number, bit) in wrong {
            turn_over(&mut input[(frame_number - 1) * FRAME..], *bit);
        }
        let written = run("odu0demap", &["mend"], vec![input.clone()], None);
        assert_eq!(written.said, said);
        assert!(written == demapped(&input, &["mend"]));
    };
    demapped_with(&[], "frame 1: READ 14407\nodu0demap: frames 8, BADCHECK 0, bytes 100849\n");
    demapped_with(
        &[(1, 1), (3, 9), (4, 24), (8, 17)],
        "frame 1: READ 14407 mended\nframe 3: READ 14407 mended\nframe 4: READ 14407 mended\n\
         frame 8: READ 14407 mended\nodu0demap: frames 8, BADCHECK 0, bytes 100849\n",
    );
    // Two wrong bits, then one, then a clean frame.
    demapped_with(
        &[(5, 1), (5, 2), (6, 16)],
        "frame 1: READ 14407\nframe 5: BADCHECK -\nframe 6: READ 14407 mended\n\
         odu0demap: frames 8, BADCHECK 1, bytes 86442\n",
    );
    let mut input = mapped(&client, USUAL).out;
    turn_over(&mut input, 5);
    let written = run("odu0demap", &["mend"], vec![input[..3 * FRAME].to_vec()], None);
    let said = "frame 1: WAITING - mended\nframe 2: PAIRED 14407\nframe 3: READ 14407\n\
                odu0demap: frames 3, BADCHECK 0, bytes 14407\n";
    assert_eq!(written.said, said);
}

/// The argument `type` on the frames of odu0map, which have type 7 in frames 1, 257 and 513: bytes
/// come from frame 514 on where 7 is expected, and none where another type is.
#[test]
fn types_of_mapped_frames() {
    let client = seeds::random("types_of_mapped_frames").bytes(14407 * 516);
    let frames = mapped(&client, (14407, 1)).out;
    let said = |bytes: u32| {
        format!(
            "frame 1: READ 14407\nframe 513: accepted type 7\n\
             odu0demap: frames 516, BADCHECK 0, bytes {bytes}\n"
        )
    };
    let right = run("odu0demap", &["type", "7"], vec![frames.clone()], None);
    assert_eq!(right.said, said(3 * 14407));
    assert!(right.out == client[513 * 14407..]);
    assert!(right == demapped(&frames, &["type", "7"]));
    for other in ["0", "5", "6", "8", "23", "255"] {
        let written = run("odu0demap", &["type", other], vec![frames.clone()], None);
        assert_eq!((written.said, written.out.len()), (said(0), 0), "type {other}");
    }
    // One frame less than the third numbered 0, and one less than the first that is handed out.
    for (taken, lines) in
        [(512, "frame 1: READ 14407\n"), (513, "frame 1: READ 14407\nframe 513: accepted type 7\n")]
    {
        let frames = frames[..taken * FRAME].to_vec();
        let written = run("odu0demap", &["type", "7"], vec![frames], None);
        let tally = format!("odu0demap: frames {taken}, BADCHECK 0, bytes 0\n");
        assert_eq!((written.said, written.out.len()), (lines.to_string() + &tally, 0));
    }
    // With `mend` before it a wrong bit is mended too; a mended frame has its line first.
    let mut harmed = frames;
    for (frame_number, bit) in [(2, 5), (513, 24), (515, 1)] {
        turn_over(&mut harmed[(frame_number - 1) * FRAME..], bit);
    }
    let written = run("odu0demap", &["mend", "type", "7"], vec![harmed.clone()], None);
    let said = "frame 1: READ 14407\nframe 2: READ 14407 mended\nframe 513: READ 14407 mended\n\
                frame 513: accepted type 7\nframe 515: READ 14407 mended\n\
                odu0demap: frames 516, BADCHECK 0, bytes 43221\n";
    assert_eq!(written.said, said);
    assert!(written.out == client[513 * 14407..]);
    assert!(written == demapped(&harmed, &["mend", "type", "7"]));
}

/// Frames whose type changes: 0 three times, then 7 and 0 once each, and 7 three times.
#[test]
fn types_that_change() {
    let client = seeds::random("types_that_change").bytes(14407 * 1800);
    let mut frames = mapped(&client, (14407, 1)).out;
    for (multiframe, psi) in [0, 0, 0, 7, 0, 7, 7, 7].into_iter().enumerate() {
        frames[256 * multiframe * FRAME + PSI] = psi;
    }
    // The PSI byte of a frame that is not numbered 0 is no type.
    frames[300 * FRAME + PSI] = 9;
    let lines = "frame 1: READ 14407\nframe 513: accepted type 0\nframe 1793: accepted type 7\n";
    for (of, range) in [("0", 513..1793), ("7", 1793..1800), ("9", 0..0)] {
        let written = run("odu0demap", &["type", of], vec![frames.clone()], None);
        let bytes = range.len() * 14407;
        let tally = format!("odu0demap: frames 1800, BADCHECK 0, bytes {bytes}\n");
        assert_eq!(written.said, lines.to_string() + &tally, "type {of}");
        assert!(written.out == client[range.start * 14407..range.end * 14407], "type {of}");
        assert!(written == demapped(&frames, &["type", of]), "type {of}");
    }
}

/// Types that change, in frames with wrong control bits over many multiframes, none lost.
#[test]
fn types_with_wrong_control_bits() {
    let mut random = seeds::random("types_with_wrong_control_bits");
    let at = rate(&mut random);
    let client = random.bytes(14410 * 1300);
    let mut input = single_errors(&mut random, &mapped(&client, at).out);
    for (frame, psi) in input.chunks_exact_mut(FRAME).step_by(256).zip([7, 7, 7, 0, 0, 0]) {
        frame[PSI] = psi;
    }
    for arguments in [&["type", "7"][..], &["mend", "type", "7"], &["mend", "type", "0"]] {
        let written = run("odu0demap", arguments, vec![input.clone()], None);
        assert!(written == demapped(&input, arguments), "{arguments:?}:\n{}", written.said);
        assert!(written.said.contains("frame 513: accepted type 7\n"), "{arguments:?}");
        assert!(written.said.contains("frame 1281: accepted type 0\n"), "{arguments:?}");
        assert!(!written.out.is_empty(), "{arguments:?}");
    }
}

/// The type of a harmed frame is read as it came, that of a BADCHECK frame too; a frame too
/// many moves the numbers, which the program gives by itself.
#[test]
fn types_of_harmed_frames() {
    let client = seeds::random("types_of_harmed_frames").bytes(14407 * 520);
    let frames = mapped(&client, (14407, 1)).out;
    let with = |change: &dyn Fn(&mut Vec<u8>), said: &str| {
        let mut frames = frames.clone();
        change(&mut frames);
        let written = run("odu0demap", &["type", "7"], vec![frames.clone()], None);
        assert_eq!(written.said, said);
        assert!(written == demapped(&frames, &["type", "7"]));
    };
    with(
        &|frames| (1..=3).for_each(|bit| turn_over(&mut frames[512 * FRAME..], bit)),
        "frame 1: READ 14407\nframe 513: BADCHECK -\nframe 513: accepted type 7\n\
         frame 514: READ 14407\nodu0demap: frames 520, BADCHECK 1, bytes 86442\n",
    );
    with(
        &|frames| frames[256 * FRAME + PSI] ^= 1,
        "frame 1: READ 14407\nodu0demap: frames 520, BADCHECK 0, bytes 0\n",
    );
    // The frames numbered 0 come as the second, the 258th and so on.
    with(
        &|frames| drop(frames.splice(..0, vec![0xFF; FRAME])),
        "frame 1: BADCHECK -\nframe 2: READ 14407\n\
         odu0demap: frames 521, BADCHECK 1, bytes 0\n",
    );
}

/// Through both filters: the first frame says only "one more", so a new sink hands out every load
/// but the first two, for want of their counts.
#[test]
fn there_and_back() {
    let input = seeds::random("there_and_back").bytes(14407 * 50);
    let frames = run("odu0map", &[], vec![input.clone()], None);
    let back = run("odu0demap", &[], vec![frames.out], None);
    assert!(input[14407 + 14408..].starts_with(&back.out));
    assert!(back.said.starts_with("frame 1: WAITING -\nframe 2: PAIRED 14407\n"), "{}", back.said);
    assert!(
        back.said.ends_with("odu0demap: frames 49, BADCHECK 0, bytes 677143\n"),
        "{}",
        back.said
    );
}

/// Several thousand frames through both filters: they go on until the input ends.
#[test]
fn thousands_of_frames() {
    let input = seeds::random("thousands_of_frames").bytes(14407 * 5000 + 9);
    let frames = run("odu0map", &["14407", "1"], vec![input.clone()], None);
    let said = "odu0map: 9 bytes left at the end\nodu0map: frames 5000, bytes 72035000\n";
    assert_eq!(frames.said, said);
    assert_eq!(frames.out.len(), 5000 * FRAME);
    let back = run("odu0demap", &[], vec![[&frames.out[..], &[0; 7]].concat()], None);
    // The first frame hands out nothing, for want of its count.
    let said = "frame 1: READ 14407\nodu0demap: 7 bytes left at the end\n\
                odu0demap: frames 5000, BADCHECK 0, bytes 72020593\n";
    assert_eq!(back.said, said);
    assert!(back.out == input[14407..14407 * 5000]);
}

#[test]
fn slow_pieces() {
    let mut random = seeds::random("slow_pieces");
    let client = random.bytes(14407 * 3);
    let fed = pieces(&mut random, &client, 2000);
    let frames = run("odu0map", &["14407", "1"], fed, Some(Duration::from_millis(1)));
    assert!(frames == mapped(&client, (14407, 1)), "{}", frames.said);
    let fed = pieces(&mut random, &frames.out, 2000);
    let back = run("odu0demap", &[], fed, Some(Duration::from_millis(1)));
    assert!(back == demapped(&frames.out, &[]), "{}", back.said);
}

/// Pieces of this length, the last of the rest.
fn pieces_of(length: usize, input: &[u8]) -> Vec<Vec<u8>> {
    input.chunks(length).map(<[u8]>::to_vec).collect()
}

/// Frames and loads that come in odd pieces: what is written is as if they came at once.
#[test]
fn odd_pieces() {
    let mut random = seeds::random("odd_pieces");
    let (client, at) = (random.bytes(14407 * 40 + 9), (18_671_875, 1296));
    let frames = [&harmed(&mut random, &mapped(&client, at).out)[..], &random.bytes(77)].concat();
    let lengths = [14_406, 14_408, 15_239, 15_241, 53_340, 15_240 * 16 + 1, 1_000_000];
    for (length, pause) in lengths
        .into_iter()
        .flat_map(|length| [(length, None), (length, Some(Duration::from_millis(2)))])
    {
        let written = run("odu0map", &[], pieces_of(length, &client), pause);
        assert!(written == mapped(&client, at), "pieces of {length}: {}", written.said);
        let written = run("odu0demap", &["mend"], pieces_of(length, &frames), pause);
        assert!(written == demapped(&frames, &["mend"]), "pieces of {length}:\n{}", written.said);
    }
}

#[test]
fn byte_by_byte() {
    let client = seeds::random("byte_by_byte").bytes(2 * 14407 + 11);
    let frames = run("odu0map", &["14407", "1"], pieces_of(1, &client), None);
    assert!(frames == mapped(&client, (14407, 1)), "{}", frames.said);
    let back = run("odu0demap", &[], pieces_of(1, &frames.out), None);
    assert!(back == demapped(&frames.out, &[]), "{}", back.said);
}

/// A file gives a read all the bytes that it has room for, so that 16 loads and the start of one
/// more, or 16 frames, are read at a time. A pipe gives 65,536 bytes at most.
#[test]
fn many_frames_from_a_file() {
    let mut random = seeds::random("many_frames_from_a_file");
    for loads in [15, 16, 17, 32, 33, 48, 49, 100] {
        let at = rate(&mut random);
        let client = random.bytes(loads * 14410 + 3);
        let of = [at.0.to_string(), at.1.to_string()];
        let from_file = |name: &str, arguments: &[&str], input: &[u8]| {
            let path = format!("{}/{name}_{loads}", env!("CARGO_TARGET_TMPDIR"));
            fs::write(&path, input).unwrap();
            let file = File::open(&path).unwrap();
            fs::remove_file(&path).unwrap();
            run_on(file.into(), program(name, arguments)).1
        };
        let written = from_file("odu0map", &[&of[0], &of[1]], &client);
        assert!(written == mapped(&client, at), "{loads} loads at {at:?}: {}", written.said);
        for input in [single_errors(&mut random, &written.out), harmed(&mut random, &written.out)] {
            for arguments in [&[][..], &["mend"], &["mend", "type", "7"]] {
                let written = from_file("odu0demap", arguments, &input);
                let wanted = demapped(&input, arguments);
                assert!(written == wanted, "{loads} loads, {arguments:?}:\n{}", written.said);
            }
        }
    }
}

/// On a live pipe nothing is held back: each frame comes out before the next load goes in, also
/// where the start of the next one came with it, and each load before the next frame.
#[test]
fn nothing_is_held_back() {
    let client = seeds::random("nothing_is_held_back").bytes(14407 * 20 + 300);
    let frames = mapped(&client, (14407, 1));
    for (more, turns) in [(0, 20), (300, 20)] {
        let cut = |input: &[u8], length: usize, written: &dyn Fn(usize) -> usize| {
            let end = |turn: usize| (turn * length + more).min(input.len());
            (0..turns)
                .map(|turn| {
                    let from = if turn == 0 { 0 } else { end(turn) };
                    (input[from..end(turn + 1)].to_vec(), written(turn))
                })
                .collect::<Vec<_>>()
        };
        let loads = cut(&client[..14407 * 20 + more], 14407, &|_| FRAME);
        let written = run_in_turns("odu0map", &["14407", "1"], loads);
        assert!(written == mapped(&client[..14407 * 20 + more], (14407, 1)), "{}", written.said);
        // The first frame hands out nothing, for want of its count.
        let turns = cut(&frames.out, FRAME, &|turn| if turn == 0 { 0 } else { 14407 });
        let written = run_in_turns("odu0demap", &[], turns);
        assert!(written == demapped(&frames.out, &[]), "{}", written.said);
    }
}

/// A rest is told exactly where the input ends within a load. The second has a byte more.
#[test]
fn input_that_ends_around_a_load() {
    let input = seeds::random("input_that_ends_around_a_load").bytes(57_630);
    let cases = [
        (0, "odu0map: frames 0, bytes 0\n"),
        (1, "odu0map: 1 bytes left at the end\nodu0map: frames 0, bytes 0\n"),
        (14_406, "odu0map: 14406 bytes left at the end\nodu0map: frames 0, bytes 0\n"),
        (14_407, "odu0map: frames 1, bytes 14407\n"),
        (14_408, "odu0map: 1 bytes left at the end\nodu0map: frames 1, bytes 14407\n"),
        (28_814, "odu0map: 14407 bytes left at the end\nodu0map: frames 1, bytes 14407\n"),
        (28_815, "odu0map: frames 2, bytes 28815\n"),
        (28_816, "odu0map: 1 bytes left at the end\nodu0map: frames 2, bytes 28815\n"),
        (43_221, "odu0map: 14406 bytes left at the end\nodu0map: frames 2, bytes 28815\n"),
        (43_222, "odu0map: frames 3, bytes 43222\n"),
        (57_629, "odu0map: frames 4, bytes 57629\n"),
        (57_630, "odu0map: 1 bytes left at the end\nodu0map: frames 4, bytes 57629\n"),
    ];
    for (length, said) in cases {
        let written = run("odu0map", &[], vec![input[..length].to_vec()], None);
        assert_eq!(written.said, said, "{length} bytes");
        assert!(written == mapped(&input[..length], USUAL), "{length} bytes");
    }
}

/// A rest is told exactly where the input ends within a frame.
#[test]
fn input_that_ends_around_a_frame() {
    let frames = mapped(&seeds::random("input_that_ends_around_a_frame").bytes(57_629), USUAL).out;
    let lines = ["frame 1: WAITING -\n", "frame 2: PAIRED 14407\n", "frame 3: READ 14407\n"];
    let (one, all_but_one) =
        ("odu0demap: 1 bytes left at the end\n", "odu0demap: 15239 bytes left at the end\n");
    let cases = [
        (0, "", 0, 0),
        (1, one, 0, 0),
        (15_239, all_but_one, 0, 0),
        (15_240, "", 1, 0),
        (15_241, one, 1, 0),
        (30_479, all_but_one, 1, 0),
        (30_480, "", 2, 0),
        (45_719, all_but_one, 2, 0),
        (45_720, "", 3, 14_407),
        (45_721, one, 3, 14_407),
    ];
    for (length, rest, taken, bytes) in cases {
        let totals = format!("odu0demap: frames {taken}, BADCHECK 0, bytes {bytes}\n");
        // With `mend` it is the same where nothing is wrong.
        for arguments in [&[][..], &["mend"]] {
            let written = run("odu0demap", arguments, vec![frames[..length].to_vec()], None);
            assert_eq!(written.said, lines[..taken].concat() + rest + &totals, "{length} bytes");
            assert!(written == demapped(&frames[..length], arguments), "{length} bytes");
        }
    }
}
