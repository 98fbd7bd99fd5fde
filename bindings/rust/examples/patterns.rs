//! A card older than the standard: a source and a sink on OPU0 whose settings carry the inversion
//! patterns of a customer. The sink begins to read at the second frame. Then it is seen that a sink
//! with the standard's patterns does not follow this source, and that patterns which break the rule
//! are turned back. bindings/c/examples/patterns.c does the same and prints the same lines.

use odu0::{Patterns, Refusal, Settings, Sink, Source, Tallies};

/// The customer's table, from C1 to C14. The two for plus differ in 10100101101001, and so do the
/// two for minus.
const TABLE: Patterns = Patterns {
    plus1: 0b11110000111100,
    minus1: 0b00001111000011,
    plus2: 0b01010101010101,
    minus2: 0b10101010101010,
};

/// The count of each frame, and at last the one that the last frame announces: a step of +1, then
/// of +2, −1, −2, 0, a larger one and again −1 and −2.
const COUNTS: [u32; 9] = [14407, 14408, 14410, 14409, 14407, 14407, 14410, 14409, 14407];

/// The sink reads from frame FROM.
const FROM: usize = 2;

/// The sink's port on the card, and that of another sink.
const PORT: u32 = 1;
const OTHER: u32 = 2;

fn main() -> Result<(), Refusal> {
    let customer = Settings::OPU0.with_patterns(TABLE);
    let mut tallies = Tallies::new();
    let (mut sink, mut other) = (Sink::new(), Sink::new());
    let mut said = Vec::new();
    let mut frame = vec![0; 15240];
    let mut out = vec![0; 14410];

    // 07 is the payload type.
    let mut source = Source::new(customer, COUNTS[0], 0x07)?;

    for (n, next) in COUNTS.into_iter().enumerate().skip(1) {
        // The client's bytes differ from frame to frame.
        let client: Vec<u8> = (0..source.count).map(|i| (i % 251 + n as u32) as u8).collect();

        // The frame carries them and announces the count of the next.
        source.map_frame(customer, next, &client, &mut frame)?;
        if n < FROM {
            continue;
        }

        // Another sink reads the first two of these frames with the standard's patterns.
        if n < FROM + 2 {
            let taken = other.demap_frame(Settings::OPU0, &frame, &mut out, OTHER, &mut tallies)?;
            said.push(taken.standing);
        }

        // With the customer's patterns the count is there after two frames.
        let taken = sink.demap_frame(customer, &frame, &mut out, PORT, &mut tallies)?;
        let count = taken.standing.count().map_or("-".to_string(), |count| count.to_string());
        let equal = out[..taken.handed as usize] == client[..];
        println!(
            "frame {n}: {}, count {count}, handed {}, equal {}",
            taken.standing,
            taken.handed,
            if equal { "yes" } else { "no" }
        );
    }

    // The standard's patterns do not lead to a count: the sink goes on waiting.
    println!(
        "with the standard's patterns: frame {FROM} {}, frame {} {}",
        said[0],
        FROM + 1,
        said[1]
    );

    // With one bit of −2 turned over, the two for minus differ elsewhere than the two for plus.
    let broken = Settings::OPU0.with_patterns(Patterns { minus2: TABLE.minus2 ^ 1, ..TABLE });
    let refusal = sink.demap_frame(broken, &frame, &mut out, PORT, &mut tallies).unwrap_err();
    println!("one bit of -2 turned over: refusal {} ({})", refusal.number(), refusal.name());

    // The lowest number that applies is the answer: a short output buffer comes first.
    out.pop();
    let refusal = sink.demap_frame(broken, &frame, &mut out, PORT, &mut tallies).unwrap_err();
    println!(
        "and an output buffer of {} bytes: refusal {} ({})",
        out.len(),
        refusal.number(),
        refusal.name()
    );
    Ok(())
}
