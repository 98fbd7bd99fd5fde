//! A small job: a rate keeper, a source and a sink on OPU0. The sink begins to read in the middle
//! of the source's run, at a frame whose word says only "one more than before"; and one frame is
//! harmed on its way. bindings/c/examples/mapper.c does the same and prints the same lines.

use odu0::{Keeper, Rate, Refusal, Settings, Sink, Source, Tallies};

/// The rate of 1000BASE-X, in client bytes a frame.
const GIGABIT: Rate = Rate { p: 18671875, q: 1296 };

/// The sink reads from frame FROM, and frame HARMED is harmed.
const FRAMES: u32 = 12;
const FROM: u32 = 4;
const HARMED: u32 = 8;

/// The sink's port on the card.
const PORT: u32 = 1;

fn main() -> Result<(), Refusal> {
    let opu0 = Settings::OPU0;
    let mut tallies = Tallies::new();
    let mut sink = Sink::new();
    let mut frame = vec![0; 15240];
    let mut out = vec![0; 14410];

    // The keeper's first count is the source's first; 07 is the payload type.
    let mut keeper = Keeper::new(GIGABIT);
    let mut source = Source::new(opu0, keeper.next_count(opu0)?, 0x07)?;

    for n in 1..=FRAMES {
        // The client's bytes are a pattern that differs from frame to frame.
        let client: Vec<u8> = (0..source.count).map(|i| (i % 251 + n) as u8).collect();

        // The frame carries "count" of them and announces the count of the next.
        let next = keeper.next_count(opu0)?;
        source.map_frame(opu0, next, &client, &mut frame)?;

        // On the way, two bits of JC1 and one of JC2 are turned over in one frame.
        if n == HARMED {
            frame[1] ^= 0x11;
            frame[3808 + 2 + 1] ^= 0x80;
        }

        if n < FROM {
            continue;
        }
        let taken = sink.demap_frame(opu0, &frame, &mut out, PORT, &mut tallies)?;
        let count = taken.standing.count().map_or("-".to_string(), |count| count.to_string());
        let equal = out[..taken.handed as usize] == client[..];
        println!(
            "frame {n}: {}, count {count}, handed {}, equal {}",
            taken.standing,
            taken.handed,
            if equal { "yes" } else { "no" }
        );
    }
    let tally = tallies.of(PORT).unwrap();
    println!("tally: frames {}, badcheck {}, bytes {}", tally.frames, tally.badcheck, tally.bytes);

    // A frame that is one byte short is turned back, and changes nothing.
    frame.pop();
    let refusal = sink.demap_frame(opu0, &frame, &mut out, PORT, &mut tallies).unwrap_err();
    println!("a frame of {} bytes: refusal {} ({})", frame.len(), refusal.number(), refusal.name());
    Ok(())
}
