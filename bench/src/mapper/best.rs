//! The placing and the taking of client bytes as fast as Rust goes without intrinsics: best.c's
//! way. With s payload bytes and d = s - c stuffing bytes, stuffing byte t (from 0) is payload byte
//! t * s / d (from 0), rounded down, and client byte j is payload byte ((j + 1) * s - 1) / c; both
//! are stepped by one addition in fixed point. Each run is copied as one block of a fixed width,
//! whose end the next run overwrites. The functions are compiled for a processor with AVX2 and
//! BMI2, and as they are where it has none.

use std::hint::black_box;
use std::ptr::copy_nonoverlapping;

/// Bits after the point: 28 would be enough for 15,232 hops, each of which is up to 1 too long.
const POINT: u32 = 40;

fn hop_of(s: usize, parts: usize) -> u64 {
    ((s as u64) << POINT) / parts as u64 + 1
}

fn whole(x: u64) -> usize {
    (x >> POINT) as usize
}

/// Copies N bytes, from one buffer to the other.
///
/// # Safety
/// There are N bytes to be read and N to be written.
#[inline(always)]
unsafe fn copy<const N: usize>(from: *const u8, to: *mut u8) {
    // SAFETY: as above.
    unsafe { copy_nonoverlapping(from, to, N) };
}

/// Copies exactly m bytes, as two blocks that may lie over each other.
///
/// # Safety
/// There are m bytes to be read and m to be written.
#[inline(always)]
unsafe fn copy_exactly(from: *const u8, to: *mut u8, m: usize) {
    // SAFETY: both blocks lie within the m bytes.
    unsafe {
        match m {
            0..4 => (0..m).for_each(|i| *to.add(i) = *from.add(i)),
            4..8 => {
                copy::<4>(from, to);
                copy::<4>(from.add(m - 4), to.add(m - 4));
            }
            8..16 => {
                copy::<8>(from, to);
                copy::<8>(from.add(m - 8), to.add(m - 8));
            }
            16..32 => {
                copy::<16>(from, to);
                copy::<16>(from.add(m - 16), to.add(m - 16));
            }
            _ => copy_nonoverlapping(from, to, m),
        }
    }
}

/// Clears the first of 32 bytes. The compiler is not told what it is: it would take the block apart
/// to write the one byte that it knows by itself.
fn clearing() -> [u8; 32] {
    let mut mask = [0xFF; 32];
    mask[0] = 0;
    black_box(mask)
}

/// Writes a stuffing byte and N - 1 client bytes after it, with one store for the first 32: they
/// are read from one byte before, which is then cleared.
///
/// # Safety
/// There are N - 1 client bytes, and one byte before them; there are N bytes to be written. N is 16
/// or at least 32.
#[inline(always)]
unsafe fn put_run<const N: usize>(client: *const u8, to: *mut u8, clearing: &[u8; 32]) {
    // SAFETY: as above.
    unsafe {
        let before = client.sub(1);
        if N == 16 {
            let block = u128::from_le_bytes(before.cast::<[u8; 16]>().read()) & !0xFF;
            to.cast::<[u8; 16]>().write(block.to_le_bytes());
        } else {
            let mut block = before.cast::<[u8; 32]>().read();
            block.iter_mut().zip(clearing).for_each(|(byte, mask)| *byte &= mask);
            to.cast::<[u8; 32]>().write(block);
            copy_nonoverlapping(before.add(32), to.add(32), N - 32);
        }
    }
}

/// How many of the d runs can be copied as blocks. The last of these and those after it have more
/// than `width` client bytes, as a run has c / d at least. On a grid that is no wider than a block
/// none can.
fn block_runs(k: usize, c: usize, width: usize) -> usize {
    let d = 4 * k - c;
    let kept = width / (c as u32 / d as u32) as usize;
    if k <= width {
        0
    } else {
        d.saturating_sub(kept)
    }
}

/// Runs of less than N client bytes.
#[inline(always)]
fn place_blocks<const N: usize>(frame: &mut [u8], client: &[u8], k: usize) {
    let c = client.len();
    let (s, d, blocks) = (4 * k, 4 * k - c, block_runs(k, c, N));
    let (hop, mut x, mut t) = (hop_of(s, d), 0, 0);
    let clearing = clearing();
    let (frame, client) = (frame.as_mut_ptr(), client.as_ptr());
    for row in 0..4 {
        let (mut i, end) = (row * k, (row + 1) * k);
        let row_runs = ((row + 1) * d).div_ceil(4);
        let stop = row_runs.min(blocks);
        // SAFETY: payload byte i of the frame, counted through all rows, is row_at[i], and client
        // byte i - t is the one that stands there where t stuffing bytes are before it. `blocks`
        // keeps every block within the payload and the client bytes; the one that reaches into the
        // next row does not reach its end, as k is more than N.
        unsafe {
            let row_at = frame.add(2 * (row + 1));
            if t < stop {
                // The last block may reach into the next row, whose overhead is put back.
                let kept = row_at.add(end).cast::<[u8; 2]>();
                let overhead = if row < 3 { kept.read() } else { [0; 2] };
                copy::<N>(client.add(i - t), row_at.add(i));
                if t == 0 {
                    *row_at = 0;
                    copy::<N>(client, row_at.add(1));
                    (t, x) = (1, x + hop);
                }
                while t + 4 <= stop {
                    for n in 0..4 {
                        let next = whole(x + n as u64 * hop);
                        put_run::<N>(client.add(next - t - n), row_at.add(next), &clearing);
                    }
                    (t, x) = (t + 4, x + 4 * hop);
                }
                while t < stop {
                    put_run::<N>(client.add(whole(x) - t), row_at.add(whole(x)), &clearing);
                    (t, x) = (t + 1, x + hop);
                }
                if row < 3 {
                    kept.write(overhead);
                }
                i = whole(x - hop) + 1;
            }
            if t < blocks {
                continue;
            }
            while t < row_runs {
                let next = whole(x);
                copy_exactly(client.add(i - t), row_at.add(i), next - i);
                *row_at.add(next) = 0;
                (i, t, x) = (next + 1, t + 1, x + hop);
            }
            copy_exactly(client.add(i - t), row_at.add(i), end - i);
        }
    }
}

/// Runs of at most N client bytes.
#[inline(always)]
fn take_blocks<const N: usize>(frame: &[u8], out: &mut [u8], k: usize, c: usize) {
    let (s, d, blocks) = (4 * k, 4 * k - c, block_runs(k, c, N));
    let (hop, mut x, mut t) = (hop_of(s, d), 0, 0);
    let (frame, out) = (frame.as_ptr(), out.as_mut_ptr());
    for row in 0..4 {
        let (mut i, end) = (row * k, (row + 1) * k);
        let row_runs = ((row + 1) * d).div_ceil(4);
        let stop = row_runs.min(blocks);
        // SAFETY: as in place_blocks.
        unsafe {
            let row_at = frame.add(2 * (row + 1));
            if t < stop {
                copy::<N>(row_at.add(i), out.add(i - t));
                while t + 4 <= stop {
                    for n in 0..4 {
                        let next = whole(x + n as u64 * hop);
                        copy::<N>(row_at.add(next + 1), out.add(next - t - n));
                    }
                    (t, x) = (t + 4, x + 4 * hop);
                }
                while t < stop {
                    copy::<N>(row_at.add(whole(x) + 1), out.add(whole(x) - t));
                    (t, x) = (t + 1, x + hop);
                }
                i = whole(x - hop) + 1;
            }
            if t < blocks {
                continue;
            }
            while t < row_runs {
                let next = whole(x);
                copy_exactly(row_at.add(i), out.add(i - t), next - i);
                (i, t, x) = (next + 1, t + 1, x + hop);
            }
            copy_exactly(row_at.add(i), out.add(i - t), end - i);
        }
    }
}

/// Calls `copy` with each long run, or full row: its place in the frame, the number of its first
/// client byte, its length, whether a stuffing byte follows, and whether a block may reach beyond
/// the run by up to 64 bytes, which are of the same row and overwritten later.
#[inline(always)]
fn each_long_run(k: usize, c: usize, mut copy: impl FnMut(usize, usize, usize, bool, bool)) {
    let d = 4 * k - c;
    let (hop, mut x, mut t) = (if d > 0 { hop_of(4 * k, d) } else { 0 }, 0, 0);
    for row in 0..4 {
        let (mut i, end, overhead) = (row * k, (row + 1) * k, 2 * (row + 1));
        while t < ((row + 1) * d).div_ceil(4) {
            let next = whole(x);
            let is_room = next + 64 <= end && next - t + 64 <= c;
            copy(i + overhead, i - t, next - i, true, is_room);
            (i, t, x) = (next + 1, t + 1, x + hop);
        }
        copy(i + overhead, i - t, end - i, false, false);
    }
}

/// Copies m bytes, in blocks of N where they may reach beyond.
///
/// # Safety
/// There are m bytes to be read and m to be written, and N more where they may reach beyond.
#[inline(always)]
unsafe fn copy_long<const N: usize>(from: *const u8, to: *mut u8, m: usize, is_room: bool) {
    // SAFETY: as above.
    unsafe {
        if !is_room {
            return copy_nonoverlapping(from, to, m);
        }
        let mut i = 0;
        while i < m {
            copy::<N>(from.add(i), to.add(i));
            i += N;
        }
    }
}

#[inline(always)]
fn place_long(frame: &mut [u8], client: &[u8], k: usize) {
    let (c, frame, client) = (client.len(), frame.as_mut_ptr(), client.as_ptr());
    // SAFETY: a run stands in its row and among the client bytes.
    each_long_run(k, c, |at, used, m, stuffing, is_room| unsafe {
        copy_long::<32>(client.add(used), frame.add(at), m, is_room);
        if stuffing {
            *frame.add(at + m) = 0;
        }
    });
}

#[inline(always)]
fn take_long(frame: &[u8], out: &mut [u8], k: usize, c: usize) {
    let (frame, out) = (frame.as_ptr(), out.as_mut_ptr());
    // SAFETY: a run stands in its row and among the client bytes.
    each_long_run(k, c, |at, used, m, _, is_room| unsafe {
        copy_long::<64>(frame.add(at), out.add(used), m, is_room);
    });
}

/// The places of client bytes, one after the other, in fixed point: a hop, and the first place.
fn byte_hops(k: usize, c: usize) -> (u64, u64) {
    if c == 0 {
        (0, 0)
    } else {
        (hop_of(4 * k, c), hop_of(4 * k - 1, c))
    }
}

/// Puts single client bytes among stuffing.
#[inline(always)]
fn place_bytes(frame: &mut [u8], client: &[u8], k: usize) {
    let (c, mut j) = (client.len(), 0);
    let (hop, mut x) = byte_hops(k, c);
    for row in 0..4 {
        frame[row * (k + 2) + 2..(row + 1) * (k + 2)].fill(0);
        let (row_at, row_bytes) = (&mut frame[2 * (row + 1)..], (row + 1) * c / 4);
        // SAFETY: there are as many client bytes, and each has its place in the row.
        let mut put = |x: u64, j: usize| unsafe {
            *row_at.get_unchecked_mut(whole(x)) = *client.get_unchecked(j);
        };
        while j + 8 <= row_bytes {
            (0..8).for_each(|n| put(x + n as u64 * hop, j + n));
            (j, x) = (j + 8, x + 8 * hop);
        }
        while j < row_bytes {
            put(x, j);
            (j, x) = (j + 1, x + hop);
        }
    }
}

/// Takes single client bytes.
#[inline(always)]
fn take_bytes(frame: &[u8], out: &mut [u8], k: usize, c: usize) {
    let (hop, mut x) = byte_hops(k, c);
    let mut j = 0;
    for row in 0..4 {
        let (row_at, row_bytes) = (&frame[2 * (row + 1)..], (row + 1) * c / 4);
        // SAFETY: there is room for as many client bytes, and each has its place in the row.
        let mut take = |j: usize| unsafe {
            *out.get_unchecked_mut(j) = *row_at.get_unchecked(whole(x));
            x += hop;
        };
        while j + 8 <= row_bytes {
            (j..j + 8).for_each(&mut take);
            j += 8;
        }
        (j..row_bytes).for_each(&mut take);
        j = row_bytes;
    }
}

/// Byte by byte, as on a tiny grid nothing has less to set up.
#[inline(always)]
fn each_payload_byte(k: usize, c: usize, mut each: impl FnMut(usize, bool)) {
    let mut phase = 0;
    for row in 0..4 {
        for i in 0..k {
            phase += c;
            let is_place = phase >= 4 * k;
            phase -= if is_place { 4 * k } else { 0 };
            each(row * (k + 2) + 2 + i, is_place);
        }
    }
}

#[inline(always)]
fn place_any(frame: &mut [u8], client: &[u8], k: usize) {
    let (c, d) = (client.len(), 4 * k - client.len());
    if k <= 8 {
        let mut client = client.iter();
        each_payload_byte(k, c, |at, is_place| {
            frame[at] = if is_place { *client.next().unwrap() } else { 0 };
        });
    } else if 25 * c < 13 * 4 * k {
        place_bytes(frame, client, k);
    } else if c <= 15 * d {
        place_blocks::<16>(frame, client, k);
    } else if c <= 31 * d {
        place_blocks::<32>(frame, client, k);
    } else if c <= 47 * d {
        place_blocks::<48>(frame, client, k);
    } else if c <= 63 * d {
        place_blocks::<64>(frame, client, k);
    } else if c <= 71 * d {
        place_blocks::<72>(frame, client, k);
    } else if c <= 95 * d {
        place_blocks::<96>(frame, client, k);
    } else {
        place_long(frame, client, k);
    }
}

#[inline(always)]
fn take_any(frame: &[u8], out: &mut [u8], k: usize, c: usize) {
    let d = 4 * k - c;
    if k <= 8 {
        let mut j = 0;
        each_payload_byte(k, c, |at, is_place| {
            if is_place {
                out[j] = frame[at];
                j += 1;
            }
        });
    } else if 15 * c < 8 * 4 * k {
        take_bytes(frame, out, k, c);
    } else if c <= 8 * d {
        take_blocks::<8>(frame, out, k, c);
    } else if c <= 16 * d {
        take_blocks::<16>(frame, out, k, c);
    } else if c <= 32 * d {
        take_blocks::<32>(frame, out, k, c);
    } else if c <= 48 * d {
        take_blocks::<48>(frame, out, k, c);
    } else if c <= 64 * d {
        take_blocks::<64>(frame, out, k, c);
    } else if c <= 72 * d {
        take_blocks::<72>(frame, out, k, c);
    } else if c <= 96 * d {
        take_blocks::<96>(frame, out, k, c);
    } else {
        take_long(frame, out, k, c);
    }
}

#[cfg(target_arch = "x86_64")]
#[target_feature(enable = "avx2,bmi1,bmi2")]
fn place_compiled(frame: &mut [u8], client: &[u8], k: usize) {
    place_any(frame, client, k);
}

#[cfg(target_arch = "x86_64")]
#[target_feature(enable = "avx2,bmi1,bmi2")]
fn take_compiled(frame: &[u8], out: &mut [u8], k: usize, c: usize) {
    take_any(frame, out, k, c);
}

/// Whether the processor has what the two above are compiled for.
#[cfg(target_arch = "x86_64")]
fn has_features() -> bool {
    is_x86_feature_detected!("avx2")
        && is_x86_feature_detected!("bmi1")
        && is_x86_feature_detected!("bmi2")
}

fn check_lengths(frame: &[u8], k: usize, c: usize) {
    assert!((1..=3808).contains(&k) && c <= 4 * k && frame.len() == 4 * k + 8);
}

/// Lays the payload of a frame of 4k + 8 bytes.
pub fn place(frame: &mut [u8], client: &[u8], k: usize) {
    check_lengths(frame, k, client.len());
    #[cfg(target_arch = "x86_64")]
    if has_features() {
        // SAFETY: the processor has the features.
        return unsafe { place_compiled(frame, client, k) };
    }
    place_any(frame, client, k);
}

/// Hands out the c client bytes of a frame to the start of a buffer.
pub fn take(frame: &[u8], out: &mut [u8], k: usize, c: usize) {
    check_lengths(frame, k, c);
    assert!(c <= out.len());
    #[cfg(target_arch = "x86_64")]
    if has_features() {
        // SAFETY: the processor has the features.
        return unsafe { take_compiled(frame, out, k, c) };
    }
    take_any(frame, out, k, c);
}
