//! What the calls are given: random arguments, most of them near what is accepted or expected, and
//! hostile ones.

use second::mapper::{
    check, pattern, possible, word, Expected, Settings, Sink, Tally, Types, PORTS,
};
use second::Random;

/// The widest window.
pub const WIDE: Settings = Settings::new(3808, 0, 15232);

/// Changes that have a pattern.
const CHANGES: [i64; 5] = [0, 1, -1, 2, -2];

/// Four patterns, for +1, −1, +2, −2, that keep the rule (02, P11). Many have a few low bits only:
/// such patterns lead from one count of a small window to another.
pub fn kept(random: &mut Random) -> [u32; 4] {
    let bits = random.of(&[0x1, 0x3, 0x7, 0xF, 0xFF, 0x3FFF, 0x3FFF]);
    let [one, other, differ] = [(); 3].map(|()| random.u32() & bits);
    let differ = differ.max(1);
    let (plus, minus) = match random.below(9) {
        0 => (0, 0),
        1 => (0, other),
        2 => (one, 0),
        // The patterns of plus are those of minus; then so, but 1 and 2 change places.
        3 => (one, one),
        4 => (one, one ^ differ),
        _ => (one, other),
    };
    [plus, minus, plus ^ differ, minus ^ differ]
}

/// Four patterns that break the rule or exceed 14 bits.
pub fn broken(random: &mut Random) -> [u32; 4] {
    let mut four = kept(random);
    let (one, another) = (random.below(4) as usize, random.below(4) as usize);
    let above = 1 << random.from_to(14, 31);
    match random.below(6) {
        0 => four[one] ^= 1 << random.below(14),
        1 => (four[2], four[3]) = (four[0], four[1]),
        2 => four[one] |= above,
        3 => [one, another].iter().for_each(|at| four[*at] |= above),
        4 => four.iter_mut().for_each(|pattern| *pattern |= above),
        _ => {
            four = [(); 4].map(|()| random.u32());
            four[one] |= above;
        }
    }
    four
}

/// The settings, half the time with patterns that keep the rule, half the time with mending on and
/// half the time with the type check on.
pub fn varied(random: &mut Random, settings: Settings) -> Settings {
    let (mending, type_check) = (random.once_in(2), random.once_in(2));
    let settings = Settings { mending, type_check, ..settings };
    if random.once_in(2) {
        settings.with_patterns(kept(random))
    } else {
        settings
    }
}

/// Settings that are accepted, on a small grid.
pub fn small_settings(random: &mut Random) -> Settings {
    let k = if random.once_in(4) { random.from_to(7, 40) } else { random.from_to(1, 6) };
    let s = 4 * k;
    let (one, two) = (random.from_to(0, s), random.from_to(0, s));
    let (lo, hi) = match random.below(7) {
        0 => (0, s),
        1 => (one, one),
        2 => (0, one),
        3 => (one, s),
        4 => random.of(&[(0, 0), (s, s)]),
        _ => (one.min(two), one.max(two)),
    };
    varied(random, Settings::new(k, lo, hi))
}

/// Settings of every sort, most of them accepted.
pub fn any_settings(random: &mut Random) -> Settings {
    let mut settings = small_settings(random);
    if random.once_in(10) {
        // At 2^30 and above, 4 × K does not fit 32 bits.
        let odd = random.u32();
        let grids =
            [0, 3808, 3809, 3810, 0x3FFF_FFFF, 1 << 30, (1 << 30) + 1, 1 << 31, u32::MAX, odd];
        settings.k = random.of(&grids);
    }
    if random.once_in(10) {
        let (lo, hi) = (settings.lo, settings.hi);
        let s = settings.k.wrapping_mul(4);
        let odd = (random.u32(), random.u32());
        let windows = [
            (hi.wrapping_add(1), hi),
            (hi, lo),
            (lo, s.wrapping_add(1)),
            (s.wrapping_add(1), s.wrapping_add(1)),
            (lo, u32::MAX),
            (u32::MAX, hi),
            (u32::MAX, u32::MAX),
            odd,
        ];
        (settings.lo, settings.hi) = random.of(&windows);
    }
    if random.once_in(10) {
        settings = settings.with_patterns(broken(random));
    }
    settings
}

/// A count that the window holds, where it holds one.
pub fn count_inside(random: &mut Random, settings: Settings) -> u32 {
    if settings.lo <= settings.hi {
        random.from_to(settings.lo, settings.hi)
    } else {
        settings.lo
    }
}

/// Mostly a count inside the window, else one beside it, one that only equals such a count modulo
/// 16,384 or 65,536, or any.
pub fn any_count(random: &mut Random, settings: Settings) -> u32 {
    let inside = count_inside(random, settings);
    match random.below(24) {
        0 => settings.lo.wrapping_sub(random.from_to(1, 2)),
        1 => settings.hi.wrapping_add(random.from_to(1, 2)),
        2 => inside.wrapping_add(16384 << random.below(18)),
        3 => random.of(&[0, 16383, 16384, 65535, 65536, 1 << 31, u32::MAX]),
        4 => random.u32(),
        _ => inside,
    }
}

/// A count near another, mostly inside the window.
pub fn next_count(random: &mut Random, settings: Settings, count: u32) -> u32 {
    let next = (i64::from(count) + random.of(&CHANGES)) as u32;
    if settings.holds(next) && !random.once_in(8) {
        next
    } else {
        count_inside(random, settings)
    }
}

/// A word that follows a count by a change, or by another count.
pub fn word_after(random: &mut Random, settings: Settings, count: u32) -> u32 {
    let count = count % 16384;
    let next = match random.below(8) {
        0 => count_inside(random, settings) % 16384,
        _ => (i64::from(count) + random.of(&CHANGES)).rem_euclid(16384) as u32,
    };
    word(settings, count, next)
}

/// A sink's state of any sort: counts outside the window, words with II = DI, words above 16 bits.
pub fn any_sink(random: &mut Random, settings: Settings) -> Sink {
    let count = any_count(random, settings);
    let inside = count_inside(random, settings);
    let word = match random.below(8) {
        0 => random.u32(),
        1 => random.u32() & 0xFFFF,
        2 => word_after(random, settings, inside) | random.u32() << 16,
        3 => word(settings, 0, inside % 16384),
        _ => word_after(random, settings, inside),
    };
    Sink {
        count: (!random.once_in(4)).then_some(count),
        word: (!random.once_in(3)).then_some(word),
        types: any_types(random),
    }
}

/// A payload type; a few come often, so that they meet.
pub fn any_type(random: &mut Random) -> u8 {
    let any = random.u32() as u8;
    random.of(&[0, 0, 7, 7, 7, 7, 5, 255, any])
}

/// What a sink may know of types: a type that was accepted, or none, and a type seen never, once,
/// twice or more often, at times behind others.
pub fn any_types(random: &mut Random) -> Types {
    let began = (!random.once_in(3)).then(|| any_type(random));
    let mut judged = vec![any_type(random); random.from_to(0, 2) as usize];
    if random.once_in(4) {
        judged = (0..random.from_to(0, 8)).map(|_| random.of(&[0, 7])).chain(judged).collect();
    }
    Types::with(began, &judged)
}

/// A multiframe number: mostly one that is 0 modulo 256, or near such a one.
pub fn any_multiframe(random: &mut Random) -> u32 {
    let any = random.u32();
    match random.below(6) {
        0 | 1 => 0,
        2 => 256 << random.below(24),
        3 => any & !255,
        4 => random.of(&[1, 128, 254, 255, 257, 511, 513, 65535, 1 << 31 | 1, u32::MAX]),
        _ => any,
    }
}

/// What a call may be told.
pub fn any_expected(random: &mut Random) -> Expected {
    Expected { multiframe: any_multiframe(random), payload_type: any_type(random) }
}

pub fn any_tally(random: &mut Random) -> Tally {
    let mut value = || match random.below(4) {
        0 => 0,
        1 => u32::MAX - random.from_to(0, 12),
        2 => u32::MAX,
        _ => random.u32(),
    };
    Tally { frames: value(), bad: value(), bytes: value() }
}

/// The tallies of all ports.
pub fn any_tallies(random: &mut Random) -> [Tally; 8] {
    [(); 8].map(|()| any_tally(random))
}

/// A port that the card does not have: one beside the right ones, one that 8, 16 or 31 bits would
/// make a right one of, or any.
pub fn wrong_port(random: &mut Random) -> u32 {
    let right = random.from_to(1, PORTS);
    let any = random.from_to(PORTS + 1, u32::MAX);
    random.of(&[0, 9, 10, 1 << 31, u32::MAX, 256 + right, 65536 + right, 1 << 31 | right, any])
}

/// Mostly a port that the card has.
pub fn any_port(random: &mut Random) -> u32 {
    if random.once_in(10) {
        wrong_port(random)
    } else {
        random.from_to(1, PORTS)
    }
}

/// Control bytes of the worked frames.
const WORKED: [[u8; 3]; 8] = [
    [0x00; 3],
    [0xFF; 3],
    [0x4B, 0xB6, 0x38],
    [0x4B, 0x8A, 0x19],
    [0xE1, 0x1E, 0x74],
    [0xE1, 0x22, 0x55],
    [0x00, 0x10, 0xC0],
    [0x00, 0x10, 0xD0],
];

/// Three control bytes that a sink in this state may well follow, or not.
pub fn any_control(random: &mut Random, settings: Settings, state: &Sink) -> [u8; 3] {
    let choice = random.below(16);
    let old = match (choice, state) {
        // A count which the remembered word may have announced.
        (0..=4, Sink { word: Some(before), .. }) if before & 1 != before >> 1 & 1 => {
            random.of(&possible(settings, *before))
        }
        (5..=9, Sink { count: Some(count), .. }) => *count,
        _ => count_inside(random, settings),
    };
    let word = match choice {
        10 => random.u32() & 0xFFFF,
        11 => return random.of(&WORKED),
        12 => return random.bytes(3).try_into().unwrap(),
        _ => word_after(random, settings, old),
    };
    let mut control = [(word >> 8) as u8, word as u8, check(word) as u8];
    match choice {
        13 => {
            let times = random.from_to(1, 5);
            flip(random, &mut control, times);
        }
        // One wrong bit, in a word that a sink in this state follows, or in another.
        4 | 9 | 14 => flip(random, &mut control, 1),
        _ => {}
    }
    control
}

/// Turns so many bits over; one may be turned back again.
pub fn flip(random: &mut Random, bytes: &mut [u8], times: u32) {
    for _ in 0..times {
        let at = random.below(bytes.len() as u64) as usize;
        bytes[at] ^= 1 << random.below(8);
    }
}

/// Where JC1, JC2 and JC3 stand.
pub fn control_bytes(settings: Settings) -> [usize; 3] {
    let row = settings.k as usize + 2;
    [1, row + 1, 2 * row + 1]
}

/// Writes control bytes, as far as the frame has them.
pub fn put_control(settings: Settings, frame: &mut [u8], control: [u8; 3]) {
    if settings.k < 5000 {
        for (at, byte) in control_bytes(settings).into_iter().zip(control) {
            if let Some(place) = frame.get_mut(at) {
                *place = byte;
            }
        }
    }
}

/// Where the PSI byte stands, the first of row 4.
pub fn psi_byte(settings: Settings) -> usize {
    3 * (settings.k as usize + 2)
}

/// Writes the PSI byte, if the frame has it.
pub fn put_psi(settings: Settings, frame: &mut [u8], psi: u8) {
    if settings.k < 5000 {
        if let Some(place) = frame.get_mut(psi_byte(settings)) {
            *place = psi;
        }
    }
}

/// The right length, or what 32 bits would make of it, or one near it.
pub fn any_length(random: &mut Random, right: u64) -> usize {
    let right = [right, right % (1 << 32), 8].into_iter().find(|length| *length <= 16000).unwrap();
    let odd = random.below(64);
    let length = match random.below(40) {
        0 => right.saturating_sub(1),
        1 => right + 1,
        2 => right.saturating_sub(random.below(9)),
        3 => right + random.below(9),
        4 => random.of(&[0, 1, 7, 8, odd]),
        _ => right,
    };
    length as usize
}

/// A word's C bits exclusive-or any of the four patterns: the counts that it continues, and those
/// that it would with the other sign.
pub fn near_misses(settings: Settings, word: u32) -> [u32; 4] {
    [1, -1, 2, -2].map(|change| word >> 2 & 0x3FFF ^ pattern(settings, change))
}

/// Settings on a grid so large that the window can hold a count and others that a pattern leads to
/// from it.
pub fn large_settings(random: &mut Random) -> Settings {
    let k = if random.once_in(2) { 3808 } else { random.from_to(1400, 3807) };
    let (one, two) = (random.from_to(0, 4 * k), random.from_to(0, 4 * k));
    let settings = match random.below(3) {
        0 => Settings::new(k, one.min(two), one.max(two)),
        _ => Settings::new(k, 0, 4 * k),
    };
    varied(random, settings)
}

/// A false count which a word may seem to continue, and a false word before it.
pub fn hostile_sink(random: &mut Random, settings: Settings, word: u32) -> Sink {
    let mut near_miss = || match random.below(8) {
        0 => count_inside(random, settings),
        _ => random.of(&near_misses(settings, word)),
    };
    let (count, announced) = (near_miss(), near_miss());
    let change = random.of(&[1, -1, 2, -2]);
    let before = (i64::from(announced) - change).rem_euclid(16384) as u32;
    Sink {
        count: random.once_in(2).then_some(count),
        word: (!random.once_in(4)).then_some(second::mapper::word(settings, before, announced)),
        types: any_types(random),
    }
}
