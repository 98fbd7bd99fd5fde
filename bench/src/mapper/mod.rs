//! The proved source call and sink call on frames beside the fastest versions that nobody proved,
//! the sink call with mending on beside that with mending off, with the type check on beside that
//! with it off and on eight ports beside that on one, and the card's total beside a loop in C.
//!
//! With `against BEFORE AFTER` two libraries are timed beside each other instead: `bench/against`
//! makes them and calls it so.

mod against;
mod agree;
mod best;
mod job;

use crate::refuse;
use crate::timing::{best_of_passes, race, AtOffset, Table};
use job::*;
use odu0::{ffi, Expected, Settings, Sink, Tallies, Tally, Total, PORTS};
use std::cell::{Cell, RefCell};
use std::hint::black_box;

/// An ODU0 frame lasts so long, in nanoseconds (G.709, table 7-4).
const FRAME_TIME: f64 = 98_354.0;

/// The times of a call of ours and of what stands beside it: the C byte loop, the best C and the
/// best Rust without intrinsics and that C compiled for every x86-64, as ours is, all of which only
/// place or take, the whole call in C, placing with AVX-512 where that is the faster, and one
/// memcpy of the frame.
struct Times {
    ours: f64,
    byte_loop: f64,
    best_c: f64,
    plain_c: f64,
    best_rust: f64,
    whole_c: f64,
    wide: f64,
    memcpy: f64,
}

impl Times {
    fn new(times: [f64; 8]) -> Times {
        let [ours, byte_loop, best_c, plain_c, best_rust, whole_c, wide, memcpy] = times;
        Times { ours, byte_loop, best_c, plain_c, best_rust, whole_c, wide, memcpy }
    }

    /// Whether the aims hold: at most the byte loop's time, and at most 1.3 of the best's without
    /// intrinsics.
    fn aims(&self) -> [bool; 2] {
        let best = self.best_c.min(self.plain_c).min(self.best_rust);
        [self.ours <= self.byte_loop, self.ours <= 1.3 * best]
    }
}

/// The times of a source's call. All versions are lent the same buffers, and the frame that they
/// write begins at this offset in a page.
fn measure_source(job: &Job, offset: usize) -> [f64; 8] {
    let frame = &RefCell::new(AtOffset::new(&job.frame, offset));
    let place = |version: Place| Box::new(move || job.place(version, &mut frame.borrow_mut()));
    let call = |call: SourceCall| Box::new(move || job.call_source(call, &mut frame.borrow_mut()));
    race([
        call(ffi::odu0_source_call),
        place(loop_place),
        place(best_place),
        place(plain_place),
        Box::new(|| {
            let (client, mut frame) = (black_box(&job.client[..]), frame.borrow_mut());
            best::place(black_box(&mut frame), client, job.k());
        }),
        call(whole_source_call),
        place(wide_place),
        Box::new(|| black_box(&mut frame.borrow_mut()[..]).copy_from_slice(black_box(&job.frame))),
    ])
}

/// The times of a sink's call, in the same way.
fn measure_sink(job: &Job, offset: usize) -> [f64; 8] {
    let out = &RefCell::new(AtOffset::new(&job.frame, offset));
    let tallies = &RefCell::new(Tallies::new());
    let take = |take: Take| Box::new(move || job.take(take, &mut out.borrow_mut()));
    let call = |call: SinkCall| {
        Box::new(move || job.call_sink(call, &mut out.borrow_mut(), &mut tallies.borrow_mut()))
    };
    race([
        call(ffi::odu0_sink_call),
        take(loop_take),
        take(best_take),
        take(plain_take),
        Box::new(|| {
            let (frame, mut out) = (black_box(&job.frame[..]), out.borrow_mut());
            best::take(frame, black_box(&mut out), job.k(), job.count());
        }),
        call(whole_sink_call),
        take(wide_take),
        Box::new(|| black_box(&mut out.borrow_mut()[..]).copy_from_slice(black_box(&job.frame))),
    ])
}

/// The times of the sink: with mending off; with mending on where the words are whole; and so where
/// each frame has a wrong bit, each of the 24 in turn. All three are lent the same buffers.
fn measure_mending(job: &Job) -> [f64; 3] {
    let (off, on) = (job.settings, job.settings.with_mending());
    let (sink, frame) = (RefCell::new(job.sink()), RefCell::new(job.frame.to_vec()));
    let out = RefCell::new(vec![0; job.settings.hi as usize]);
    let (tallies, turn) = (RefCell::new(Tallies::new()), Cell::new(0));
    let take = |settings: Settings, wrong: Option<usize>| {
        let mut frame = frame.borrow_mut();
        job.turn_over(&mut frame, wrong);
        let (mut out, mut tallies) = (out.borrow_mut(), tallies.borrow_mut());
        let (from, to) = (black_box(&frame[..]), black_box(&mut out[..]));
        let taken = sink.borrow_mut().demap_frame(settings, from, to, 1, &mut tallies).unwrap();
        assert_eq!(taken.mended, wrong.is_some());
        job.turn_over(&mut frame, wrong);
    };
    race([
        Box::new(|| take(off, None)),
        Box::new(|| take(on, None)),
        Box::new(|| {
            turn.set((turn.get() + 1) % 24);
            take(on, Some(turn.get()));
        }),
    ])
}

/// The times of the sink: with the type check off; with it on where the type is accepted, and each
/// frame is judged; and where another type is expected, so that nothing is handed out. All three
/// are lent the same buffers.
fn measure_types(job: &Job) -> [f64; 3] {
    let other = Expected { payload_type: 5, ..TOLD };
    let sink = RefCell::new(Sink { accepted: Some(7), ..job.sink() });
    let out = RefCell::new(vec![0; job.settings.hi as usize]);
    let tallies = RefCell::new(Tallies::new());
    let take = |told: Option<Expected>, handed: usize| {
        let (mut out, mut tallies) = (out.borrow_mut(), tallies.borrow_mut());
        let (from, to) = (black_box(&job.frame[..]), black_box(&mut out[..]));
        let (mut sink, settings) = (sink.borrow_mut(), job.settings);
        let taken = match told {
            Some(told) => sink.demap_frame_expecting(settings, told, from, to, 1, &mut tallies),
            None => sink.demap_frame(settings, from, to, 1, &mut tallies),
        };
        assert_eq!(taken.unwrap().handed as usize, handed);
    };
    let count = job.count();
    race([
        Box::new(|| take(None, count)),
        Box::new(|| take(Some(TOLD), count)),
        Box::new(|| take(Some(other), 0)),
    ])
}

/// The times of the sink on one port, and on each of the eight in turn. Both are lent the same
/// buffers and tallies.
fn measure_ports(job: &Job) -> [f64; 2] {
    let sink = RefCell::new(job.sink());
    let out = RefCell::new(vec![0; job.settings.hi as usize]);
    let (tallies, turn) = (RefCell::new(Tallies::new()), Cell::new(0));
    let take = |ports: u32| {
        turn.set((turn.get() + 1) % ports);
        let (mut out, mut tallies) = (out.borrow_mut(), tallies.borrow_mut());
        let (from, to) = (black_box(&job.frame[..]), black_box(&mut out[..]));
        let port = 1 + turn.get();
        sink.borrow_mut().demap_frame(job.settings, from, to, port, &mut tallies).unwrap();
    };
    race([Box::new(|| take(1)), Box::new(|| take(PORTS))])
}

/// Tallies whose numbers differ, up to the largest.
fn some_tallies() -> Tallies {
    let number = |i: u32| u32::MAX - i * 150_000_000;
    let tally = |i| Tally { frames: number(i), badcheck: number(i + 1), bytes: number(i + 2) };
    Tallies { port: std::array::from_fn(|port| tally(3 * port as u32)) }
}

/// The card's total in C.
fn c_total(tallies: &Tallies) -> Total {
    // SAFETY: the tallies are live.
    unsafe { loop_total(tallies) }
}

/// The times of the card's total: ours, and that in C.
fn measure_total() -> [f64; 2] {
    const TOTALS: u32 = 100;
    let tallies = some_tallies();
    let many = |total: fn(&Tallies) -> Total| {
        for _ in 0..TOTALS {
            black_box(total(black_box(&tallies)));
        }
    };
    let times = race([Box::new(|| many(Tallies::total)), Box::new(|| many(c_total))]);
    times.map(|time| time / f64::from(TOTALS))
}

/// A grid, a count and the times of a call on it.
type Row = (u32, u32, Times);

/// A call's times on every grid and count.
fn measure_all(measure: fn(&Job, usize) -> [f64; 8]) -> Vec<Row> {
    let jobs: Vec<Job> = all_jobs().map(|(k, count)| Job::new(k, count)).collect();
    let times = best_of_passes(&jobs, measure).into_iter().map(Times::new);
    all_jobs().zip(times).map(|((k, count), times)| (k, count, times)).collect()
}

/// Shows a call's times, ours in nanoseconds and then in parts of each other's, and whether the
/// aims hold.
fn show_table(title: &str, rows: &[Row], is_wide: bool) {
    println!("\n{title}, ours in ns, and in parts of the others' time:\n");
    let wide = if is_wide { &["AVX-512"][..] } else { &[] };
    let heads = ["   K", "count", "   ours", "C byte loop", "best C", "C for x86-64", "best Rust"];
    let last = ["memcpy", "<= byte loop", "<= 1.3 best"];
    let table = Table::new(0, &[&heads[..], &["whole C"], wide, &last].concat());
    for (k, count, times) in rows {
        let part = |other: f64| format!("{:.2}", times.ours / other);
        let mut row = vec![k.to_string(), count.to_string(), format!("{:.1}", times.ours)];
        row.extend([times.byte_loop, times.best_c, times.plain_c].map(part));
        row.extend([times.best_rust, times.whole_c].map(part));
        if is_wide {
            // SAFETY: it looks at the two numbers alone.
            let is_faster = unsafe { wide_at(*k as usize, *count as usize) } != 0;
            row.push(if is_faster { part(times.wide) } else { "-".to_string() });
        }
        row.push(part(times.memcpy));
        row.extend(times.aims().map(|holds| if holds { "yes" } else { "no" }.to_string()));
        table.row(&row);
    }
}

/// How many ports one core carries, each with a source and a sink, at 14,407 client bytes a frame.
/// The buffers are those of one port and stay in the cache.
fn show_ports(sources: &[Row], sinks: &[Row]) {
    let opu0 = |rows: &[Row], time: fn(&Times) -> f64| {
        time(&rows.iter().find(|(k, count, _)| (*k, *count) == (OPU0, 14407)).unwrap().2)
    };
    let ports = |time| FRAME_TIME / (opu0(sources, time) + opu0(sinks, time));
    println!("\nPorts a core, source and sink, at {FRAME_TIME} ns a frame and 14,407 bytes:\n");
    let heads = ["ours", "whole C", "best C, placing alone", "C for x86-64, placing alone"];
    let times =
        [ports(|t| t.ours), ports(|t| t.whole_c), ports(|t| t.best_c), ports(|t| t.plain_c)];
    Table::new(0, &heads).row(&times.map(|number| format!("{number:.1}")));
}

/// The sink call with mending on, with the type check on and on each port in turn, and the card's
/// total.
fn show_rest() {
    println!("\nsink call with mending on:");
    for (k, count) in [(OPU0, 14407), (119, 450), (1, 4), (1, 0)] {
        let [off, whole, wrong] = measure_mending(&Job::new(k, count));
        println!(
            "{:<28} {whole:>9.0} ns   {:.2} of mending off, {:.2} with a wrong bit in each frame",
            format!("  K = {k}, {count}"),
            whole / off,
            wrong / off
        );
    }
    println!("sink call with the type check on:");
    for (k, count) in [(OPU0, 14407), (119, 450), (1, 4), (1, 0)] {
        let [off, typed, other] = measure_types(&Job::new(k, count));
        println!(
            "{:<28} {typed:>9.0} ns   {:.2} of the type check off, {:.2} where another is expected",
            format!("  K = {k}, {count}"),
            typed / off,
            other / off
        );
    }
    println!("sink call on each port in turn:");
    for (k, count) in [(OPU0, 14407), (1, 4), (1, 0)] {
        let [one, eight] = measure_ports(&Job::new(k, count));
        let title = format!("  K = {k}, {count}");
        println!("{title:<28} {eight:>9.0} ns   {:.2} of one port", eight / one);
    }
    let [ours, plain] = measure_total();
    println!("{:<28} {ours:>9.1} ns   {:.2} of a C loop", "the card's total", ours / plain);
}

fn show_all(is_wide: bool) {
    let (sources, sinks) = (measure_all(measure_source), measure_all(measure_sink));
    show_table("Source call", &sources, is_wide);
    show_table("Sink call", &sinks, is_wide);
    show_ports(&sources, &sinks);
    show_rest();
}

pub fn main(arguments: &[&str]) {
    if !matches!(arguments, [] | ["check"] | ["against", _, _]) {
        refuse("mapper takes no arguments, or `check`, or `against BEFORE AFTER`");
    }
    // SAFETY: no other thread looks at the tables, or at what the processor has.
    let is_wide = unsafe {
        fill_tables();
        wide_here() != 0
    };
    agree::main();
    println!("mapper: all versions agree");
    match arguments {
        [] => show_all(is_wide),
        ["against", before, after] => against::main(before, after),
        _ => {}
    }
}
