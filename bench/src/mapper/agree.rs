//! All versions agree: on the places, on the bytes taken, and, of whole calls, on every answer.

use super::job::*;
use super::{best, c_total, some_tallies};
use crate::agreement::{Guarded, Random};
use odu0::ffi::{self, odu0_sink_call, odu0_source_call};
use odu0::{Expected, Patterns, Settings, Source, Tallies};

/// A version: its name, and what it does with the buffer that it is lent.
type Placing<'a> = (&'a str, &'a dyn Fn(&mut [u8]));

/// All versions place and take the same bytes and touch no other.
fn agree_on_places(job: &Job) {
    let (k, count) = (job.k(), job.count());
    // The places alone: the overhead keeps its content.
    let mut payload = job.frame.to_vec();
    for row in 0..4 {
        payload[row * (k + 2)..][..2].fill(Guarded::FILL);
    }
    let placing: [Placing; 5] = [
        ("C byte loop", &|frame| job.place(loop_place, frame)),
        ("best C", &|frame| job.place(best_place, frame)),
        ("C for x86-64", &|frame| job.place(plain_place, frame)),
        ("AVX-512", &|frame| job.place(wide_place, frame)),
        ("best Rust", &|frame| best::place(frame, &job.client, k)),
    ];
    for (name, place) in placing {
        let mut frame = Guarded::new(payload.len());
        place(frame.bytes());
        assert!(frame.holds(&payload), "placing differs: {name}, K = {k}, {count}");
    }
    let mut frame = Guarded::new(payload.len());
    job.call_source(whole_source_call, frame.bytes());
    assert!(frame.holds(&job.frame), "the frame differs: K = {k}, {count}");

    let taking: [Placing; 5] = [
        ("C byte loop", &|out| job.take(loop_take, out)),
        ("best C", &|out| job.take(best_take, out)),
        ("C for x86-64", &|out| job.take(plain_take, out)),
        ("AVX-512", &|out| job.take(wide_take, out)),
        ("best Rust", &|out| best::take(&job.frame, out, k, count)),
    ];
    // A call needs room for as many bytes as the window allows.
    let calls: [Placing; 2] = [
        ("whole C", &|out| job.call_sink(whole_sink_call, out, &mut Tallies::new())),
        ("ours", &|out| job.call_sink(odu0_sink_call, out, &mut Tallies::new())),
    ];
    let taking = taking.map(|version| (count, version));
    for (room, (name, take)) in taking.into_iter().chain(calls.map(|version| (4 * k, version))) {
        let mut out = Guarded::new(room);
        take(out.bytes());
        assert!(out.holds(&job.client), "taking differs: {name}, K = {k}, {count}");
    }
}

/// With the type check on the fourth frame is handed out, and the three before it are not.
fn agree_typed(job: &Job) {
    let (on, mut sink, count) = (job.settings, job.sink(), job.count());
    let mut out = vec![0; 4 * job.k()];
    for frame in 1..=4 {
        out.fill(0);
        let taken =
            sink.demap_frame_expecting(on, TOLD, &job.frame, &mut out, 1, &mut Tallies::new());
        let taken = taken.unwrap();
        let handed = if frame == 4 { count } else { 0 };
        assert_eq!(taken.handed as usize, handed, "k {}, count {count}, frame {frame}", on.k);
        assert!(out[..handed] == job.client[..handed], "k {}, count {count}", on.k);
    }
}

/// With mending on the frame is taken as well, and also with each of its control bits wrong.
fn agree_mended(job: &Job) {
    let (on, count) = (job.settings.with_mending(), job.count() as u32);
    let (mut sink, mut frame, mut out) = (job.sink(), job.frame.to_vec(), vec![0; 4 * job.k()]);
    for wrong in (0..24).map(Some).chain([None]) {
        out.fill(0);
        job.turn_over(&mut frame, wrong);
        let taken = sink.demap_frame(on, &frame, &mut out, 1, &mut Tallies::new()).unwrap();
        job.turn_over(&mut frame, wrong);
        assert_eq!((taken.mended, sink.count), (wrong.is_some(), Some(count)), "{wrong:?}");
        assert!(out.starts_with(&job.client), "k {}, count {count}, {wrong:?}", on.k);
    }
}

fn any_settings(random: &mut Random) -> ffi::Settings {
    let k = 1 + random.below(12);
    let lo = random.below(4 * k + 1);
    let mut settings = Settings::new(k, lo, lo + random.below(4 * k - lo + 1));
    if random.seldom(3) {
        let [plus1, plus2, minus1] = [(); 3].map(|_| random.below(16384));
        let patterns = Patterns { plus1, minus1, plus2, minus2: plus1 ^ plus2 ^ minus1 };
        settings = settings.with_patterns(patterns);
    }
    settings.mending = random.seldom(2);
    ffi::Settings { type_check: random.seldom(2).into(), ..settings.into() }
}

/// A count near another, or any.
fn any_count(random: &mut Random, settings: ffi::Settings, count: u32) -> u32 {
    match random.below(4) {
        0 => random.below(4 * settings.k + 2),
        _ => (count + random.below(5)).saturating_sub(2).clamp(settings.lo, settings.hi),
    }
}

/// The whole calls in C and ours give the same answers, in runs of frames of which some are harmed,
/// and with wrong settings and states among them.
fn agree_on_calls(random: &mut Random) {
    let settings = any_settings(random);
    let length = 4 * settings.k as usize + 8;
    let payload_type = random.below(256) as u8;
    let mut source = Source { count: settings.lo, multiframe: random.below(300), payload_type };
    // SAFETY: it takes nothing and returns plain values.
    let mut sink = unsafe { ffi::odu0_sink_new() };
    let mut tallies = [Tallies::new(), Tallies::new()];
    let mut frames = [vec![0; length], vec![0; length]];
    for _ in 0..40 {
        let next = any_count(random, settings, source.count);
        let client: Vec<u8> = (0..source.count).map(|_| random.below(256) as u8).collect();
        let mut asked = settings;
        match random.below(60) {
            0 => asked.k = random.below(4000),
            1 => asked.lo = random.below(60),
            2 => asked.hi = random.below(60),
            3 => asked.minus2 ^= 1,
            4 => source.count = random.below(60),
            5 => sink.count = random.below(20_000),
            6 => sink.word = random.below(100_000),
            7 => sink.seen = random.below(4),
            8 => sink.accepted = random.below(3),
            _ => {}
        }
        let given = client.len() - usize::from(random.seldom(40) && !client.is_empty());
        let calls = [odu0_source_call, whole_source_call as SourceCall];
        let replies = [0, 1].map(|i| {
            // SAFETY: the buffers are live and do not overlap.
            unsafe {
                let (from, to) = (client.as_ptr(), frames[i].as_mut_ptr());
                calls[i](asked, source.clone(), next, from, given, to, length)
            }
        });
        assert_eq!(replies[0], replies[1], "{asked:?}, {source:?}, {next}");
        assert!(frames[0] == frames[1], "{asked:?}, {source:?}, {next}");
        let told = Expected {
            multiframe: if random.seldom(2) { 0 } else { source.multiframe },
            payload_type: if random.seldom(9) { 1 } else { payload_type },
        };
        source = replies[0].state.clone();

        let mut harmed = frames[0].clone();
        for _ in 0..random.below(10).saturating_sub(6) {
            let (bit, row) = (random.below(8), random.below(4) as usize);
            harmed[row * (settings.k as usize + 2) + random.below(2) as usize] ^= 1 << bit;
        }
        let port = if random.seldom(30) { random.below(12) } else { 1 + random.below(8) };
        let space = settings.hi as usize - usize::from(random.seldom(40) && settings.hi > 0);
        let mut outs = [vec![0; space], vec![0; space]];
        let calls = [odu0_sink_call, whole_sink_call as SinkCall];
        let replies = [0, 1].map(|i| {
            // SAFETY: the buffers and the tallies are live and do not overlap.
            unsafe {
                let (from, to) = (harmed.as_ptr(), outs[i].as_mut_ptr());
                calls[i](asked, sink, told, from, length, to, space, port, &mut tallies[i])
            }
        });
        assert_eq!(replies[0], replies[1], "{asked:?}, {sink:?}, {told:?}");
        assert!(outs[0] == outs[1] && tallies[0] == tallies[1], "{asked:?}, {sink:?}, {told:?}");
        sink = replies[0].state;
    }
}

pub fn main() {
    for k in 1..40 {
        for count in 0..=4 * k {
            let job = Job::new(k, count);
            agree_on_places(&job);
            agree_mended(&job);
            agree_typed(&job);
        }
    }
    let mut random = Random::new();
    let drawn = |k: u32, random: &mut Random| {
        let number = if k == OPU0 { 400 } else { 300 };
        (0..number).map(|_| (k, random.below(4 * k + 1))).collect::<Vec<_>>()
    };
    let others = [64, 119, 128, 476, 1904, OPU0].map(|k| drawn(k, &mut random)).concat();
    for (k, count) in all_jobs().chain(others) {
        agree_on_places(&Job::new(k, count));
    }
    let opu0 = Job::new(OPU0, 14407);
    agree_mended(&opu0);
    agree_typed(&opu0);
    for _ in 0..3000 {
        agree_on_calls(&mut random);
    }
    assert_eq!(some_tallies().total(), c_total(&some_tallies()), "the totals differ");
}
