//! What the components share to take times and to show them.

use std::ops::{Deref, DerefMut, Range};
use std::time::{Duration, Instant};

/// How many bytes a page has.
const PAGE: usize = 4096;

/// A buffer that begins at a given offset in a page, since it matters where a buffer stands.
pub struct AtOffset {
    bytes: Vec<u8>,
    range: Range<usize>,
}

impl AtOffset {
    pub fn new(content: &[u8], offset: usize) -> AtOffset {
        let mut bytes = vec![0; content.len() + PAGE];
        let begin = offset.wrapping_sub(bytes.as_ptr() as usize) % PAGE;
        let range = begin..begin + content.len();
        bytes[range.clone()].copy_from_slice(content);
        AtOffset { bytes, range }
    }
}

impl Deref for AtOffset {
    type Target = [u8];

    fn deref(&self) -> &[u8] {
        &self.bytes[self.range.clone()]
    }
}

impl DerefMut for AtOffset {
    fn deref_mut(&mut self) -> &mut [u8] {
        &mut self.bytes[self.range.clone()]
    }
}

/// Nanoseconds for one call of each version: the best of several rounds, in each of which every
/// version has its turn. A turn has so many calls as take a quarter of a millisecond, after one
/// that is not timed.
pub fn race<const N: usize>(mut versions: [Box<dyn FnMut() + '_>; N]) -> [f64; N] {
    const TURN: Duration = Duration::from_micros(250);
    let mut timed = |version: usize, calls: u32| {
        let call = &mut versions[version];
        call();
        let began = Instant::now();
        (0..calls).for_each(|_| call());
        began.elapsed()
    };
    let calls: [u32; N] = std::array::from_fn(|version| {
        let took = (0..3).map(|_| timed(version, 10)).min().unwrap().as_nanos().max(1);
        (10 * TURN.as_nanos() / took).clamp(5, 20_000) as u32
    });
    let mut best = [f64::MAX; N];
    for _ in 0..40 {
        for version in 0..N {
            let took = timed(version, calls[version]).as_nanos() as f64;
            best[version] = best[version].min(took / f64::from(calls[version]));
        }
    }
    best
}

/// The times of each job: the best of several passes over all of them, so that what else the
/// machine does falls on other jobs in each. In each pass the buffer that is written begins at
/// another offset in a page, which the race is told, and each version has its best.
pub fn best_of_passes<Job, const N: usize>(
    jobs: &[Job],
    race_at: impl Fn(&Job, usize) -> [f64; N],
) -> Vec<[f64; N]> {
    const PASSES: usize = 10;
    let mut best = vec![[f64::MAX; N]; jobs.len()];
    for pass in 0..PASSES {
        for (job, best) in jobs.iter().zip(&mut best) {
            let times = race_at(job, pass * PAGE / PASSES);
            *best = std::array::from_fn(|version| best[version].min(times[version]));
        }
    }
    best
}

/// The times of the race in the middle of an odd number of them, by the second version's part of
/// the first one's. In each the buffer that is written begins at another offset in a page, which
/// the race is told.
pub fn middle<const N: usize>(race_at: impl Fn(usize) -> [f64; N]) -> [f64; N] {
    const RACES: usize = 21;
    let ratio = |times: &[f64; N]| times[1] / times[0];
    let mut races: Vec<[f64; N]> = (0..RACES).map(|i| race_at(i * PAGE / RACES)).collect();
    races.sort_by(|one, other| ratio(one).total_cmp(&ratio(other)));
    races[RACES / 2]
}

/// A table in Markdown that is shown row by row. Its columns are as wide as their heads.
pub struct Table {
    words: usize,
    widths: Vec<usize>,
}

impl Table {
    /// Shows the heads. So many columns, the first ones, hold words and the others numbers.
    pub fn new(words: usize, heads: &[&str]) -> Table {
        println!("| {} |", heads.join(" | "));
        println!("|{}{}", ":---|".repeat(words), "---:|".repeat(heads.len() - words));
        Table { words, widths: heads.iter().map(|head| head.chars().count()).collect() }
    }

    pub fn row(&self, cells: &[String]) {
        assert_eq!(cells.len(), self.widths.len());
        let padded = cells.iter().zip(&self.widths).enumerate().map(|(column, (cell, width))| {
            if column < self.words {
                format!("{cell:<width$}")
            } else {
                format!("{cell:>width$}")
            }
        });
        println!("| {} |", padded.collect::<Vec<_>>().join(" | "));
    }
}
