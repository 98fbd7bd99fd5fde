//! A card with eight ports: for each a source and a sink on OPU0, and one set of tallies for the
//! card. The span of one port turns control bits over in some frames, and the tallies tell which
//! port it is. bindings/c/examples/ports.c does the same and prints the same lines.

use odu0::{Refusal, Settings, Sink, Source, Tallies, PORTS};

/// Each frame carries COUNT client bytes.
const COUNT: u32 = 14407;
const FRAMES: u32 = 40000;

/// On port BAD the frames FROM to TO are harmed.
const BAD: u32 = 3;
const FROM: u32 = 1001;
const TO: u32 = 1005;

fn main() -> Result<(), Refusal> {
    let opu0 = Settings::OPU0;
    let mut tallies = Tallies::new();
    // The client's bytes do not matter here: they stay zero.
    let client = [0; COUNT as usize];
    let mut frame = [0; 15240];
    let mut out = [0; 14410];

    // Each port with its source and its sink; 07 is the payload type.
    let mut ports = Vec::new();
    for port in 1..=PORTS {
        ports.push((port, Source::new(opu0, COUNT, 0x07)?, Sink::new()));
    }

    for n in 1..=FRAMES {
        for (port, source, sink) in &mut ports {
            source.map_frame(opu0, COUNT, &client, &mut frame)?;

            // On the way two bits of JC1 are turned over.
            if *port == BAD && (FROM..=TO).contains(&n) {
                frame[1] ^= 0x11;
            }

            // Each call names its port, and is lent the tallies of the whole card.
            sink.demap_frame(opu0, &frame, &mut out, *port, &mut tallies)?;
        }
    }

    println!("port    frames  BADCHECK       bytes");
    for (port, tally) in (1..).zip(tallies.port) {
        println!("{port:4} {:9} {:9} {:11}", tally.frames, tally.badcheck, tally.bytes);
    }

    // Here the sum of the bytes has more than 32 bits.
    let total = tallies.total();
    println!("card {:9} {:9} {:11}", total.frames, total.badcheck, total.bytes);
    for (port, tally) in (1..).zip(tallies.port) {
        if tally.badcheck > 0 {
            println!("the BADCHECK frames are on port {port}");
        }
    }

    // There is no port 9: the call is turned back, and changes nothing.
    let refusal = Sink::new().demap_frame(opu0, &frame, &mut out, 9, &mut tallies).unwrap_err();
    println!("port 9: refusal {} ({})", refusal.number(), refusal.name());
    Ok(())
}
