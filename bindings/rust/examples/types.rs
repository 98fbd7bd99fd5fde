//! A card whose sinks check the payload type, on a small grid. Two clients send at one rate, of
//! types 7 and 5, and every port is to carry the one of type 7. Port 1 has the right cord, that of
//! port 2 is swapped from the first frame on, and that of port 3 is swapped in service, after type
//! 7 was accepted. bindings/c/examples/types.c does the same and prints the same lines.

use odu0::{Expected, Refusal, Settings, Sink, Source, Tallies};

/// The types of the right client and of the other one.
const RIGHT: u8 = 7;
const OTHER: u8 = 5;

/// The cord of port 3 is swapped after frame SWAPPED.
const FRAMES: u32 = 1400;
const SWAPPED: u32 = 600;

/// The counts go up and down between these two.
const LOW: u32 = 5;
const HIGH: u32 = 6;

/// A client: its source, and the frame that it sent last.
struct Client {
    source: Source,
    frame: [u8; 16],
}

impl Client {
    fn new(settings: Settings, payload_type: u8) -> Result<Client, Refusal> {
        Ok(Client { source: Source::new(settings, LOW, payload_type)?, frame: [0; 16] })
    }

    /// Sends the next frame. Each byte of a client is its type, so that one sees whose bytes are
    /// handed out.
    fn send(&mut self, settings: Settings) -> Result<(), Refusal> {
        let Source { count, payload_type, .. } = self.source;
        let client = vec![payload_type; count as usize];
        self.source.map_frame(settings, LOW + HIGH - count, &client, &mut self.frame)
    }
}

/// A port: its sink, whether it gets the other client's frames, whether it hands out, and how many
/// of the other's bytes.
struct Port {
    sink: Sink,
    swapped: bool,
    hands_out: bool,
    others: usize,
}

fn main() -> Result<(), Refusal> {
    let settings = Settings::new(2, 0, 8);
    let mut tallies = Tallies::new();
    let mut out = [0; 8];
    let mut right = Client::new(settings, RIGHT)?;
    let mut other = Client::new(settings, OTHER)?;
    let mut ports =
        [(); 3].map(|()| Port { sink: Sink::new(), swapped: false, hands_out: false, others: 0 });

    println!("frame  port");
    for n in 1..=FRAMES {
        // Both clients' frames have one number, that of the source before its call.
        let multiframe = right.source.multiframe;
        let expected = Expected { multiframe, payload_type: RIGHT };
        right.send(settings)?;
        other.send(settings)?;

        for (port, at) in (1..).zip(&mut ports) {
            let swapped = port == 2 || port == 3 && n > SWAPPED;
            if at.swapped != swapped {
                println!("{n:5}  {port:4}  gets the other client's frames");
            }
            at.swapped = swapped;
            let frame = if swapped { &other.frame } else { &right.frame };
            let before = at.sink.clone();
            let taken = at.sink.demap_frame_expecting(
                settings,
                expected,
                frame,
                &mut out,
                port,
                &mut tallies,
            )?;
            let handed = &out[..taken.handed as usize];
            at.others += handed.iter().filter(|byte| **byte != RIGHT).count();

            // What is new on the port.
            if before.count.is_none() && at.sink.count.is_some() {
                println!("{n:5}  {port:4}  holds the count");
            }
            if let Some(accepted) = at.sink.accepted.filter(|_| at.sink.accepted != before.accepted)
            {
                println!("{n:5}  {port:4}  has accepted type {accepted}");
            }
            if at.hands_out == handed.is_empty() {
                at.hands_out = !at.hands_out;
                let what = if at.hands_out { "bytes" } else { "nothing more" };
                println!("{n:5}  {port:4}  hands out {what}");
            }
        }
    }

    println!("port    frames  BADCHECK       bytes  of the other client");
    for ((port, at), tally) in (1..).zip(&ports).zip(tallies.port) {
        println!(
            "{port:4} {:9} {:9} {:11} {:20}",
            tally.frames, tally.badcheck, tally.bytes, at.others
        );
    }
    for (port, at) in (1..).zip(&ports) {
        if let Some(accepted) = at.sink.accepted.filter(|accepted| *accepted != RIGHT) {
            println!(
                "port {port} has type {accepted}, and {RIGHT} is expected: {} bytes of the other \
                 client were handed out",
                at.others
            );
        }
    }
    Ok(())
}
