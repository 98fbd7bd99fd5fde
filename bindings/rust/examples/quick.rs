//! One frame mapped and demapped. bindings/c/examples/quick.c prints the same line.

use odu0::{Refusal, Settings, Sink, Source, Tallies};

fn main() -> Result<(), Refusal> {
    let settings = Settings::new(2, 0, 8); // 2 columns, counts 0 to 8
    let (mut frame, mut out) = ([0; 16], [0; 8]);
    // The source maps 6 bytes, and announces that the next frame has 5.
    let mut source = Source::new(settings, 6, 0x07)?;
    source.map_frame(settings, 5, b"client", &mut frame)?;
    // A sink that knows nothing needs two frames; this one is told the first count.
    let mut sink = Sink { count: Some(6), ..Sink::new() };
    let taken = sink.demap_frame(settings, &frame, &mut out, 1, &mut Tallies::new())?;
    let handed = String::from_utf8_lossy(&out[..taken.handed as usize]);
    println!("accepted: {handed}, {} {}", taken.standing, taken.standing.count().unwrap_or(0));
    Ok(())
}
