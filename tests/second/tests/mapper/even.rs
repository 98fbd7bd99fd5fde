//! How evenly the client bytes lie (02, P9): "in any run of L successive payload bytes of one
//! frame, the client bytes differ from L × C / S by less than one".

use crate::both::{cases, Case};
use crate::given::WIDE;
use second::mapper::{clients_in, Settings, Source};

/// The payload of a frame as the library and the second implementation write it, every client byte
/// being 1.
fn payload(case: &mut Case, settings: Settings, count: u32) -> Vec<u8> {
    let mut frame = vec![0xEE; settings.frame() as usize];
    let mut source = Source { count, multiframe: 0, payload_type: 0xFF };
    case.source(settings, &mut source, count, &vec![1; count as usize], &mut frame).unwrap();
    frame.chunks(settings.k as usize + 2).flat_map(|row| &row[2..]).copied().collect()
}

/// By how much S × the client bytes of the payload bytes a + 1 to a + L is more than L × C, counted
/// over a written payload and over the places, both byte by byte. It must be less than S on either
/// side.
fn excess(payload: &[u8], count: u32, a: usize, l: usize) -> i64 {
    let (count, s) = (u64::from(count), payload.len() as u64);
    let clients = clients_in(a as u64 + 1..=(a + l) as u64, count, s);
    let written: u64 = payload[a..a + l].iter().map(|byte| u64::from(*byte)).sum();
    assert_eq!(written, clients, "count {count}, payload bytes {} to {}", a + 1, a + l);
    let (taken, line) = (s * clients, l as u64 * count);
    assert!(taken.abs_diff(line) < s, "count {count}, payload bytes {} to {}", a + 1, a + l);
    let whole = line / s;
    assert!(clients == whole || clients == whole + 1);
    taken as i64 - line as i64
}

/// Every run of every count; on each grid S − 1 is reached on both sides.
#[test]
fn runs_of_small_grids() {
    cases("runs_of_small_grids", 1, |case| {
        for k in 1..=6 {
            let s = 4 * k;
            let settings = Settings::new(k, 0, s);
            let (mut least, mut most) = (0, 0);
            for count in 0..=s {
                let payload = payload(case, settings, count);
                for a in 0..=payload.len() {
                    for l in 0..=payload.len() - a {
                        let excess = excess(&payload, count, a, l);
                        (least, most) = (excess.min(least), excess.max(most));
                    }
                }
            }
            assert_eq!((least, most), (1 - i64::from(s), i64::from(s) - 1), "K = {k}");
        }
    });
}

/// The two runs for S = 8 that the contract names.
#[test]
fn sharp_runs_of_eight() {
    cases("sharp_runs_of_eight", 1, |case| {
        let eight = Settings::new(2, 0, 8);
        assert_eq!(excess(&payload(case, eight, 7), 7, 0, 1), -7);
        assert_eq!(excess(&payload(case, eight, 1), 1, 7, 1), 7);
    });
}

#[test]
fn runs_of_opu0() {
    cases("runs_of_opu0", 600, |case| {
        let settings = case.random.of(&[Settings::OPU0, WIDE]);
        let count = case.random.from_to(settings.lo, settings.hi);
        let payload = payload(case, settings, count);
        let s = payload.len();
        assert_eq!(excess(&payload, count, 0, s), 0);
        for _ in 0..40 {
            let a = case.random.below(s as u64 + 1) as usize;
            let l = match case.random.below(4) {
                0 => s - a,
                1 => case.random.below(40).min((s - a) as u64) as usize,
                _ => case.random.below((s - a) as u64 + 1) as usize,
            };
            excess(&payload, count, a, l);
        }
    });
}

/// The case of docs/CARD.md over a frame border, where it is not less than one.
#[test]
fn two_frames_of_opu0() {
    let clients: u64 = [14407, 14408].map(|count| clients_in(1..=15232, count, 15232)).iter().sum();
    assert_eq!((clients, 30464 * 14407 / 15232, 30464 * 14407 % 15232), (28815, 28814, 0));
}
