//! A long span that turns bits over: a source and a sink on OPU0. In four frames one control bit is
//! wrong, once in JC3, and in one frame two are. The sink reads the frames once with mending off
//! and once with mending on. bindings/c/examples/mending.c does the same and prints the same lines.

use odu0::{Refusal, Settings, Sink, Source, Tallies};

/// The count of each frame, and at last the one that the last frame announces.
const COUNTS: [u32; 13] =
    [14407, 14408, 14407, 14409, 14408, 14408, 14407, 14408, 14409, 14407, 14408, 14407, 14408];

/// The control bits that are turned over in each frame: JC1, JC2 and JC3.
const WRONG: [[u8; 3]; 12] = [
    [0, 0, 0],
    [0, 0, 0],
    [0x40, 0, 0],
    [0, 0, 0],
    [0, 0x02, 0],
    [0, 0, 0x01],
    [0, 0, 0],
    [0, 0, 0],
    [0x10, 0x01, 0],
    [0, 0x08, 0],
    [0, 0, 0],
    [0, 0, 0],
];

/// The sink's port on the card.
const PORT: u32 = 1;

fn yes(it_is: bool) -> &'static str {
    if it_is {
        "yes"
    } else {
        "no"
    }
}

/// The whole job with these settings of the sink.
fn job(settings: Settings) -> Result<(), Refusal> {
    let mut tallies = Tallies::new();
    let mut sink = Sink::new();
    let mut frame = vec![0; 15240];
    let mut out = vec![0; 14410];
    let mut whole = 0;

    // 07 is the payload type. The source does not look at mending.
    let mut source = Source::new(Settings::OPU0, COUNTS[0], 0x07)?;

    for (n, next) in COUNTS.into_iter().enumerate().skip(1) {
        // The client's bytes differ from frame to frame.
        let client: Vec<u8> = (0..source.count).map(|i| (i % 251 + n as u32) as u8).collect();

        // The frame carries them and announces the count of the next.
        source.map_frame(Settings::OPU0, next, &client, &mut frame)?;

        // On the way some control bits are turned over.
        for (row, bits) in WRONG[n - 1].into_iter().enumerate() {
            frame[row * 3810 + 1] ^= bits;
        }

        let taken = sink.demap_frame(settings, &frame, &mut out, PORT, &mut tallies)?;
        let count = taken.standing.count().map_or("-".to_string(), |count| count.to_string());
        let equal = out[..taken.handed as usize] == client[..];
        whole += u32::from(equal);
        println!(
            "frame {n}: {}, count {count}, mended {}, handed {}, equal {}",
            taken.standing,
            yes(taken.mended),
            taken.handed,
            yes(equal)
        );
    }
    let tally = tallies.of(PORT).unwrap();
    println!("tally: frames {}, badcheck {}, bytes {}", tally.frames, tally.badcheck, tally.bytes);
    println!("loads that arrived whole: {whole} of {}", WRONG.len());
    Ok(())
}

fn main() -> Result<(), Refusal> {
    println!("mending off:");
    job(Settings::OPU0)?;
    println!("mending on:");
    job(Settings::OPU0.with_mending())
}
