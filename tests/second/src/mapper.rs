//! A second implementation of the ODU0 generic mapper.
//!
//! It is written from the scope paper and the change requests that have come (02), in the paper's
//! own order and with no thought of speed: every place is tested by n × C mod S < C, the check is a
//! long division bit by bit, a wrong control bit is looked for by turning each of the 24 over, the
//! rule of given patterns is asked at each bit, the sink is the paper's rules 1 to 3 one after the
//! other, the accepted type is looked up in a book of all types judged, and the card's tallies are
//! worked out from a book of all accepted calls. Where the paper is silent it goes by odu0.h: a
//! multiframe number above 255 is taken modulo 256; the PSI byte of a BADCHECK frame is judged too,
//! and calls that are refused or have the type check off neither count nor end a run of types. Of a
//! remembered word only the 16 bits that a word has are looked at.

use std::ops::RangeInclusive;

/// Each change that has a pattern, and its pattern, C1 to C14.
pub type Patterns = [(i32, u32); 4];

/// The patterns of the paper's table.
pub const STANDARD: Patterns =
    [(1, 0b10101010101010), (-1, 0b01010101010101), (2, 0b01100110011001), (-2, 0b10011001100110)];

/// The settings: K payload columns in a row, the window of counts, the patterns that take the place
/// of the paper's, if there are some (02, P11), whether the sink mends one wrong control bit (02,
/// P1), and whether it checks the payload type (02, P4).
#[derive(Clone, Copy, Debug, PartialEq, Eq)]
pub struct Settings {
    pub k: u32,
    pub lo: u32,
    pub hi: u32,
    pub patterns: Option<Patterns>,
    pub mending: bool,
    pub type_check: bool,
}

impl Settings {
    pub const OPU0: Settings = Settings::new(3808, 14405, 14410);

    pub const fn new(k: u32, lo: u32, hi: u32) -> Settings {
        Settings { k, lo, hi, patterns: None, mending: false, type_check: false }
    }

    /// The same with four patterns, in the order of P11: for +1, −1, +2, −2.
    pub const fn with_patterns(self, four: [u32; 4]) -> Settings {
        let patterns = [(1, four[0]), (-1, four[1]), (2, four[2]), (-2, four[3])];
        Settings { patterns: Some(patterns), ..self }
    }

    /// The same with mending on.
    pub const fn with_mending(self) -> Settings {
        Settings { mending: true, ..self }
    }

    /// The same with the type check on.
    pub const fn with_type_check(self) -> Settings {
        Settings { type_check: true, ..self }
    }

    /// S: how many payload bytes a frame has.
    pub fn payload(self) -> u64 {
        4 * u64::from(self.k)
    }

    /// How many bytes a frame has.
    pub fn frame(self) -> u64 {
        self.payload() + 8
    }

    /// Whether the window holds a count.
    pub fn holds(self, count: u32) -> bool {
        self.lo <= count && count <= self.hi
    }

    fn grid_is_wrong(self) -> bool {
        self.k == 0 || self.k > 3808
    }

    fn window_is_wrong(self) -> bool {
        self.lo > self.hi || u64::from(self.hi) > self.payload()
    }

    /// Four patterns that break P11's rule or exceed 14 bits. The rule, at each bit: the two plus
    /// patterns differ there exactly if the two minus patterns do; and they differ somewhere.
    fn patterns_are_wrong(self) -> bool {
        if self.patterns.is_none() {
            return false;
        }
        let has = |change: i32, bit: u32| pattern(self, change) & 1 << bit != 0;
        let plus_differ = |bit: u32| has(1, bit) != has(2, bit);
        let minus_differ = |bit: u32| has(-1, bit) != has(-2, bit);
        let apart = (0..32).any(|bit| plus_differ(bit) != minus_differ(bit));
        let nowhere = !(0..32).any(plus_differ);
        let too_long = (14..32).any(|bit| [1, -1, 2, -2].iter().any(|change| has(*change, bit)));
        apart || nowhere || too_long
    }
}

/// Whether payload byte n, from 1, carries a client byte.
pub fn carries(n: u64, count: u64, s: u64) -> bool {
    n * count % s < count
}

/// How many payload bytes of a run carry client bytes; of each the rule above is asked.
pub fn clients_in(run: RangeInclusive<u64>, count: u64, s: u64) -> u64 {
    run.filter(|n| carries(*n, count, s)).count() as u64
}

/// Where the payload bytes 1 to S stand in a frame, from 0.
fn payload_bytes(k: u32) -> impl Iterator<Item = usize> {
    let k = k as usize;
    (0..4).flat_map(move |row| (0..k).map(move |column| row * (k + 2) + 2 + column))
}

/// The remainder of 16 bits times x^8 by x^8 + x^3 + x^2 + 1.
pub fn check(word: u32) -> u32 {
    let divisor = 0b1_0000_1101;
    let mut rest = (word & 0xFFFF) << 8;
    for power in (8..24).rev() {
        if rest >> power & 1 == 1 {
            rest ^= divisor << (power - 8);
        }
    }
    rest
}

/// What the control bytes are read as: the word, and whether it was mended; none where they fail
/// the check. JC1, JC2 and JC3 are taken as one number of 24 bits, which passes if dividing its
/// first two bytes leaves the third. With mending on, one that fails is read with a bit turned over
/// where that makes it pass, and no other bit does (02, P1).
pub fn read(settings: Settings, control: [u8; 3]) -> Option<(u32, bool)> {
    let came = control.iter().fold(0, |bits, byte| bits << 8 | u32::from(*byte));
    let passes = |bits: &u32| check(bits >> 8) == bits & 0xFF;
    if passes(&came) {
        return Some((came >> 8, false));
    }
    let turned = (0..24).map(|bit| came ^ 1 << bit);
    match turned.filter(passes).collect::<Vec<u32>>()[..] {
        [mended] if settings.mending => Some((mended >> 8, true)),
        _ => None,
    }
}

/// The pattern of a change other than 0: that of the settings where they carry patterns.
pub fn pattern(settings: Settings, change: i32) -> u32 {
    for (of, pattern) in settings.patterns.unwrap_or(STANDARD) {
        if of == change {
            return pattern;
        }
    }
    panic!("{change} has no pattern");
}

/// A count moved by a change, modulo 16,384, which divides 2^32.
fn moved(count: u32, change: i32) -> u32 {
    count.wrapping_add_signed(change) % 16384
}

/// The 16 bits C1 to C14, II, DI which say that after the count "old" comes the count "new".
pub fn word(settings: Settings, old: u32, new: u32) -> u32 {
    let change = i64::from(new) - i64::from(old);
    let (bits, ii, di) = match change {
        0 => (old, 0, 0),
        1 | 2 => (old ^ pattern(settings, change as i32), 1, 0),
        -1 | -2 => (old ^ pattern(settings, change as i32), 0, 1),
        _ => (new, 1, 1),
    };
    bits << 2 | ii << 1 | di
}

fn c_bits(word: u32) -> u32 {
    word >> 2 & 0x3FFF
}

fn ii(word: u32) -> u32 {
    word >> 1 & 1
}

fn di(word: u32) -> u32 {
    word & 1
}

/// The two changes of a word's sign, II ≠ DI.
fn changes(word: u32) -> [i32; 2] {
    if ii(word) == 1 {
        [1, 2]
    } else {
        [-1, -2]
    }
}

/// Where a word leads that continues a count by a pattern of its sign.
fn continued(settings: Settings, count: u32, word: u32) -> Option<u32> {
    for change in changes(word) {
        if c_bits(word) ^ count == pattern(settings, change) {
            return Some(moved(count, change));
        }
    }
    None
}

/// The two counts that a remembered word may have announced.
pub fn possible(settings: Settings, word: u32) -> [u32; 2] {
    changes(word).map(|change| moved(c_bits(word) ^ pattern(settings, change), change))
}

/// The refusal with the lowest number, of those that apply.
fn turn_back(applying: Vec<u32>) -> Result<(), u32> {
    match applying.into_iter().min() {
        Some(number) => Err(number),
        None => Ok(()),
    }
}

/// The numbers of the refusals whose condition is true.
fn applying<const N: usize>(table: [(u32, bool); N]) -> Vec<u32> {
    table.into_iter().filter(|line| line.1).map(|line| line.0).collect()
}

/// A source's state.
#[derive(Clone, Debug, PartialEq, Eq)]
pub struct Source {
    pub count: u32,
    pub multiframe: u32,
    pub payload_type: u8,
}

impl Source {
    /// Every refusal of a new source, by its number.
    pub fn new_refusals(settings: Settings, first: u32) -> Vec<u32> {
        applying([
            (1, settings.grid_is_wrong()),
            (2, settings.window_is_wrong()),
            (5, !settings.holds(first)),
            (14, settings.patterns_are_wrong()),
        ])
    }

    pub fn new(settings: Settings, first: u32, payload_type: u8) -> Result<Source, u32> {
        turn_back(Source::new_refusals(settings, first))?;
        Ok(Source { count: first, multiframe: 0, payload_type })
    }

    /// Every refusal of a call, by its number.
    pub fn refusals(&self, settings: Settings, next: u32, client: &[u8], frame: &[u8]) -> Vec<u32> {
        applying([
            (1, settings.grid_is_wrong()),
            (2, settings.window_is_wrong()),
            (5, !settings.holds(self.count)),
            (6, !settings.holds(next)),
            (7, client.len() as u64 != u64::from(self.count)),
            (8, frame.len() as u64 != settings.frame()),
            (14, settings.patterns_are_wrong()),
        ])
    }

    pub fn call(
        &mut self,
        settings: Settings,
        next: u32,
        client: &[u8],
        frame: &mut [u8],
    ) -> Result<(), u32> {
        turn_back(self.refusals(settings, next, client, frame))?;
        frame.fill(0);
        let row = settings.k as usize + 2;
        let announced = word(settings, self.count, next);
        frame[1] = (announced >> 8) as u8;
        frame[row + 1] = announced as u8;
        frame[2 * row + 1] = check(announced) as u8;
        let multiframe = self.multiframe % 256;
        if multiframe == 0 {
            frame[3 * row] = self.payload_type;
        }
        let mut client = client.iter();
        for (n, at) in (1..).zip(payload_bytes(settings.k)) {
            if carries(n, u64::from(self.count), settings.payload()) {
                frame[at] = *client.next().expect("there are exactly C places");
            }
        }
        assert!(client.next().is_none(), "there are exactly C places");
        self.count = next;
        self.multiframe = (multiframe + 1) % 256;
        Ok(())
    }
}

/// A rate keeper's state.
#[derive(Clone, Debug, PartialEq, Eq)]
pub struct Keeper {
    pub remainder: u32,
}

impl Keeper {
    /// Starts with half q, rounded down: what the half rounded up leaves of q (02, P7).
    pub fn new(q: u32) -> Keeper {
        Keeper { remainder: q - q.div_ceil(2) }
    }

    /// Every refusal of a call, by its number. Nothing is divided by zero: refusal 3 is below
    /// refusal 4.
    pub fn refusals(&self, settings: Settings, p: u32, q: u32) -> Vec<u32> {
        let (whole, most) = (p.checked_div(q), u64::from(settings.hi) * u64::from(q));
        applying([
            (1, settings.grid_is_wrong()),
            (2, settings.window_is_wrong()),
            (3, q == 0 || q > 65535),
            (4, whole.is_some_and(|whole| whole < settings.lo) || u64::from(p) > most),
            (5, self.remainder >= q),
            (14, settings.patterns_are_wrong()),
        ])
    }

    pub fn call(&mut self, settings: Settings, p: u32, q: u32) -> Result<u32, u32> {
        turn_back(self.refusals(settings, p, q))?;
        let sum = u64::from(self.remainder) + u64::from(p);
        self.remainder = (sum % u64::from(q)) as u32;
        Ok((sum / u64::from(q)) as u32)
    }
}

/// The whole number nearest to n / q, exact halves going up (02, P7): of the numbers around n / q
/// that at the least distance, and of two at one distance the greater.
pub fn nearest(n: u64, q: u64) -> u64 {
    let around = (n / q).saturating_sub(1)..=n / q + 2;
    around
        .rev()
        .min_by_key(|total| (total * q).abs_diff(n))
        .expect("four numbers at most, not none")
}

/// What a sink says of a frame.
#[derive(Clone, Copy, Debug, PartialEq, Eq)]
pub enum Standing {
    Read(u32),
    Tracked(u32),
    Paired(u32),
    BadCheck,
    Waiting,
    Outside,
}

impl Standing {
    /// The paper's name for it.
    pub fn name(self) -> &'static str {
        match self {
            Standing::Read(_) => "READ",
            Standing::Tracked(_) => "TRACKED",
            Standing::Paired(_) => "PAIRED",
            Standing::BadCheck => "BADCHECK",
            Standing::Waiting => "WAITING",
            Standing::Outside => "OUTSIDE",
        }
    }

    /// The count that it found.
    pub fn count(self) -> Option<u32> {
        match self {
            Standing::Read(count) | Standing::Tracked(count) | Standing::Paired(count) => {
                Some(count)
            }
            _ => None,
        }
    }
}

/// What a sink answers: the standing, how many bytes it handed out, and whether it mended the
/// control bytes.
#[derive(Clone, Copy, Debug, PartialEq, Eq)]
pub struct Taken {
    pub standing: Standing,
    pub handed: u32,
    pub mended: bool,
}

/// The three numbers of a port.
#[derive(Clone, Copy, Debug, Default, PartialEq, Eq)]
pub struct Tally {
    pub frames: u32,
    pub bad: u32,
    pub bytes: u32,
}

/// A card has so many ports, numbered from 1 (02, P2).
pub const PORTS: u32 = 8;

/// The tallies of a card, kept as a book: the numbers that its ports began with, and an entry for
/// each accepted call of a sink. A port's numbers are worked out when they are asked for.
#[derive(Clone, Debug, Default, PartialEq, Eq)]
pub struct Card {
    began: [Tally; PORTS as usize],
    entries: Vec<Entry>,
}

/// An accepted call: the port that it named, and what it is counted for.
#[derive(Clone, Copy, Debug, PartialEq, Eq)]
struct Entry {
    port: u32,
    bad: bool,
    handed: u32,
}

impl Card {
    pub fn new() -> Card {
        Card::default()
    }

    /// A card whose ports began with these numbers.
    pub fn with(began: [Tally; PORTS as usize]) -> Card {
        Card { began, entries: Vec::new() }
    }

    /// The numbers of a port: what it began with and all its entries, or the largest number.
    pub fn tally(&self, port: u32) -> Tally {
        let began = self.began[port as usize - 1];
        let own = || self.entries.iter().filter(|entry| entry.port == port);
        let staying = |began: u32, more: u64| {
            let sum = u64::from(began) + more;
            u32::try_from(sum).unwrap_or(u32::MAX)
        };
        Tally {
            frames: staying(began.frames, own().count() as u64),
            bad: staying(began.bad, own().filter(|entry| entry.bad).count() as u64),
            bytes: staying(began.bytes, own().map(|entry| u64::from(entry.handed)).sum()),
        }
    }

    pub fn tallies(&self) -> [Tally; PORTS as usize] {
        [1, 2, 3, 4, 5, 6, 7, 8].map(|port| self.tally(port))
    }

    /// The card's total: the sums of the ports' frames, of their BADCHECK frames and of their
    /// bytes.
    pub fn total(&self) -> [u128; 3] {
        let numbers: [fn(&Tally) -> u32; 3] = [|of| of.frames, |of| of.bad, |of| of.bytes];
        let tallies = self.tallies();
        numbers.map(|number| tallies.iter().map(|tally| u128::from(number(tally))).sum())
    }
}

/// What a sink is told with the type check on: the multiframe number and the type expected (02,
/// P4).
#[derive(Clone, Copy, Debug, PartialEq, Eq)]
pub struct Expected {
    pub multiframe: u32,
    pub payload_type: u8,
}

/// What a sink knows of types, kept as a book: the type that was accepted when it was begun, if
/// there was one, and an entry for each PSI byte that was judged. The accepted type is looked up
/// when it is asked for (02, P4).
#[derive(Clone, Debug, Default)]
pub struct Types {
    began: Option<u8>,
    judged: Vec<u8>,
}

impl Types {
    pub fn new() -> Types {
        Types::default()
    }

    /// A book that was begun with this accepted type, or none, and has these entries.
    pub fn with(began: Option<u8>, judged: &[u8]) -> Types {
        Types { began, judged: judged.to_vec() }
    }

    /// The accepted type: that of the last three entries running which are the same, or if there
    /// are no such three the earlier one, or none.
    pub fn accepted(&self) -> Option<u8> {
        let the_same = |three: &&[u8]| three[0] == three[1] && three[0] == three[2];
        let last = self.judged.windows(3).rfind(the_same);
        last.map(|three| three[0]).or(self.began)
    }

    /// The last entry, and the one before it too where it is the same. Nothing else of the book
    /// counts for what comes, but the accepted type.
    pub fn run(&self) -> &[u8] {
        let two = &self.judged[self.judged.len().saturating_sub(2)..];
        match two {
            [before, last] if before != last => &two[1..],
            _ => two,
        }
    }
}

impl PartialEq for Types {
    fn eq(&self, other: &Types) -> bool {
        (self.accepted(), self.run()) == (other.accepted(), other.run())
    }
}

impl Eq for Types {}

/// A sink's state: a known count or none, a remembered word or none, and what it knows of types.
#[derive(Clone, Debug, Default, PartialEq, Eq)]
pub struct Sink {
    pub count: Option<u32>,
    pub word: Option<u32>,
    pub types: Types,
}

impl Sink {
    pub fn new() -> Sink {
        Sink::default()
    }

    /// Every refusal of a call, by its number.
    pub fn refusals(&self, settings: Settings, frame: &[u8], out: &[u8], port: u32) -> Vec<u32> {
        applying([
            (1, settings.grid_is_wrong()),
            (2, settings.window_is_wrong()),
            (8, frame.len() as u64 != settings.frame()),
            (9, (out.len() as u64) < u64::from(settings.hi)),
            (10, (1..=PORTS).all(|right| port != right)),
            (14, settings.patterns_are_wrong()),
        ])
    }

    pub fn call(
        &mut self,
        settings: Settings,
        expected: Expected,
        frame: &[u8],
        out: &mut [u8],
        port: u32,
        card: &mut Card,
    ) -> Result<Taken, u32> {
        turn_back(self.refusals(settings, frame, out, port))?;

        // A count outside the window counts as none, and so does a remembered word with II = DI.
        let known = self.count.filter(|count| settings.holds(*count));
        let before = self.word.filter(|word| ii(*word) != di(*word));

        // First the client bytes, by the count known before; none while the accepted type is none
        // or not the expected one.
        let kept_back = settings.type_check && self.types.accepted() != Some(expected.payload_type);
        let mut handed = 0;
        if let (Some(count), false) = (known, kept_back) {
            for (n, at) in (1..).zip(payload_bytes(settings.k)) {
                if carries(n, u64::from(count), settings.payload()) {
                    out[handed] = frame[at];
                    handed += 1;
                }
            }
        }

        // Then the control word, as it came or mended.
        let row = settings.k as usize + 2;
        let control = read(settings, [1, row + 1, 2 * row + 1].map(|at| frame[at]));
        let mended = control.is_some_and(|(_, mended)| mended);
        let mut standing;
        match control {
            None => {
                standing = Standing::BadCheck;
                self.word = None;
            }
            Some((word, _)) if ii(word) == di(word) => {
                standing = Standing::Read(c_bits(word));
                self.word = None;
            }
            Some((word, _)) => {
                let tracked = known.and_then(|count| continued(settings, count, word));
                let mut paired = None;
                if let Some(before) = before {
                    for count in possible(settings, before) {
                        paired = paired.or(continued(settings, count, word));
                    }
                }
                standing = match (tracked, paired) {
                    (Some(count), _) => Standing::Tracked(count),
                    (None, Some(count)) => Standing::Paired(count),
                    (None, None) => Standing::Waiting,
                };
                self.word = Some(word);
            }
        }
        if standing.count().is_some_and(|count| !settings.holds(count)) {
            standing = Standing::Outside;
        }
        self.count = standing.count();

        // At last the PSI byte, in frames numbered 0.
        let multiframe = expected.multiframe % 256;
        if settings.type_check && multiframe == 0 {
            self.types.judged.push(frame[3 * row]);
        }

        let handed = handed as u32;
        card.entries.push(Entry { port, bad: standing == Standing::BadCheck, handed });
        Ok(Taken { standing, handed, mended })
    }
}

#[cfg(test)]
mod tests {
    use super::*;
    use crate::seeds;

    /// Patterns with which the two possible counts of a word may be one.
    const ONE: Settings = Settings::OPU0.with_patterns([0, 0, 1, 1]);

    fn control(settings: Settings, old: u32, next: u32) -> [u8; 3] {
        let word = word(settings, old, next);
        [(word >> 8) as u8, word as u8, check(word) as u8]
    }

    fn frame(settings: Settings, control: [u8; 3]) -> Vec<u8> {
        let mut frame = vec![0; settings.frame() as usize];
        for (row, byte) in control.into_iter().enumerate() {
            frame[row * (settings.k as usize + 2) + 1] = byte;
        }
        frame
    }

    /// Where the type check is off nothing is looked at in this.
    const ANY: Expected = Expected { multiframe: 0, payload_type: 0 };

    fn taken(sink: &mut Sink, settings: Settings, control: [u8; 3]) -> Taken {
        let mut out = vec![0; settings.hi as usize];
        sink.call(settings, ANY, &frame(settings, control), &mut out, 1, &mut Card::new()).unwrap()
    }

    fn standing(sink: &mut Sink, settings: Settings, control: [u8; 3]) -> Standing {
        taken(sink, settings, control).standing
    }

    #[test]
    fn worked_words() {
        let control = |old, next| control(Settings::OPU0, old, next);
        assert_eq!(control(14407, 14407), [0xE1, 0x1C, 0x6E]);
        assert_eq!(control(14407, 14408), [0x4B, 0xB6, 0x38]);
        assert_eq!(control(14407, 14409), [0x87, 0x7A, 0xA7]);
        assert_eq!(control(14407, 14406), [0xB4, 0x49, 0x45]);
        assert_eq!(control(14407, 14405), [0x78, 0x85, 0xDA]);
        assert_eq!(control(14405, 14409), [0xE1, 0x27, 0x6C]);
    }

    /// With the table 0, 0, 1, 1 both possible counts of the first word are 14408.
    #[test]
    fn worked_patterns() {
        let (first, then) = ([0xE1, 0x1E, 0x74], [0xE1, 0x22, 0x55]);
        assert_eq!([control(ONE, 14407, 14408), control(ONE, 14408, 14409)], [first, then]);
        assert_eq!(possible(ONE, 0xE11E), [14408, 14408]);
        let mut sink = Sink::new();
        assert_eq!(standing(&mut sink, ONE, first), Standing::Waiting);
        assert_eq!(standing(&mut sink, ONE, then), Standing::Paired(14409));
        // To a sink with the paper's patterns the second word is no later one.
        let mut sink = Sink::new();
        assert_eq!(standing(&mut sink, Settings::OPU0, first), Standing::Waiting);
        assert_eq!(standing(&mut sink, Settings::OPU0, then), Standing::Waiting);
    }

    /// Every table of four patterns of 2 bits, by the exclusive-ors of P11; then bits above the
    /// 14th, which break nothing but the length where they stand in an even number of patterns.
    #[test]
    fn worked_rule() {
        let wrong = |four: [u32; 4]| Settings::OPU0.with_patterns(four).patterns_are_wrong();
        for number in 0..256 {
            let four @ [plus1, minus1, plus2, minus2] = [0, 2, 4, 6].map(|at| number >> at & 3);
            let rule = plus1 ^ plus2 == minus1 ^ minus2 && plus1 ^ plus2 != 0;
            assert_eq!(wrong(four), !rule, "{four:?}");
        }
        assert!(!wrong(STANDARD.map(|(_, pattern)| pattern)));
        assert!(!wrong([0x3FFF, 0, 0, 0x3FFF]));
        for bit in 14..32 {
            for places in 1..16 {
                let at = |place: u32| u32::from(places >> place & 1 == 1) << bit;
                assert!(wrong([at(0), 1 | at(1), 1 | at(2), at(3)]), "{bit} {places:04b}");
            }
        }
        assert!(!Settings::OPU0.patterns_are_wrong());
    }

    /// Number 14 is the last: each other number that applies comes before it.
    #[test]
    fn wrong_patterns_come_last() {
        let wrong = Settings::OPU0.with_patterns([0, 0, 1, 0]);
        let (frame, client) = (vec![0; 15240], vec![0; 14407]);
        let source = Source { count: 14407, multiframe: 0, payload_type: 0 };
        let keeper = Keeper { remainder: 0 };
        assert_eq!(Source::new_refusals(wrong, 14407), [14]);
        assert_eq!(Source::new_refusals(wrong, 14411), [5, 14]);
        assert_eq!(source.refusals(wrong, 14407, &client, &frame), [14]);
        assert_eq!(source.refusals(wrong, 14411, &client, &frame), [6, 14]);
        assert_eq!(keeper.refusals(wrong, 14407, 1), [14]);
        assert_eq!(keeper.refusals(wrong, 14411, 1), [4, 14]);
        assert_eq!(Sink::new().refusals(wrong, &frame, &[0; 14410], 8), [14]);
        assert_eq!(Sink::new().refusals(wrong, &frame, &[0; 14410], 9), [10, 14]);
        assert_eq!(Sink::new().refusals(wrong, &frame, &[0; 14409], 8), [9, 14]);
    }

    #[test]
    fn worked_sinks() {
        let (first, then) = ([0x4B, 0xB6, 0x38], [0x4B, 0x8A, 0x19]);
        let mut sink = Sink::new();
        assert_eq!(standing(&mut sink, Settings::OPU0, first), Standing::Waiting);
        assert_eq!(standing(&mut sink, Settings::OPU0, then), Standing::Paired(14409));

        let (wide, small) = (Settings::new(3808, 0, 15232), Settings::new(2, 0, 8));
        let mut sink = Sink { count: Some(2932), ..Sink::new() };
        assert_eq!(standing(&mut sink, wide, first), Standing::Tracked(2934));
        assert_eq!(standing(&mut sink, wide, then), Standing::Paired(14409));

        assert_eq!(standing(&mut Sink::new(), Settings::OPU0, [0; 3]), Standing::Outside);
        assert_eq!(standing(&mut Sink::new(), small, [0; 3]), Standing::Read(0));
        assert_eq!(standing(&mut Sink::new(), small, [0xFF; 3]), Standing::BadCheck);
    }

    /// 4B B6 38 with a bit of JC1 turned over, one of JC2 and one of JC3, and with two; then three
    /// wrong bits that lead to another word, and four that pass.
    #[test]
    fn worked_mending() {
        let (off, on) = (Settings::OPU0, Settings::OPU0.with_mending());
        assert_eq!(read(on, [0x4B, 0xB6, 0x38]), Some((0x4BB6, false)));
        for control in [[0x0B, 0xB6, 0x38], [0x4B, 0xB7, 0x38], [0x4B, 0xB6, 0xB8]] {
            assert_eq!(read(off, control), None);
            assert_eq!(read(on, control), Some((0x4BB6, true)));
            let mut sink = Sink { count: Some(14407), ..Sink::new() };
            let standing = Standing::Tracked(14408);
            let answer = Taken { standing, handed: 14407, mended: true };
            assert_eq!(taken(&mut sink, on, control), answer);
            assert_eq!(sink, Sink { count: Some(14408), word: Some(0x4BB6), ..Sink::new() });
            let answer = Taken { standing: Standing::BadCheck, handed: 14408, mended: false };
            assert_eq!(taken(&mut sink, off, control), answer);
            assert_eq!(sink, Sink::new());
        }
        assert_eq!(read(on, [0x0B, 0xB7, 0x38]), None);
        let small = Settings::new(2, 0, 8);
        assert_eq!(read(small, [0x00, 0x10, 0xC0]), None);
        let answer = Taken { standing: Standing::Read(4), handed: 0, mended: true };
        let control = [0x00, 0x10, 0xC0];
        assert_eq!(taken(&mut Sink::new(), small.with_mending(), control), answer);
        assert_eq!(standing(&mut Sink::new(), small, [0x00, 0x10, 0xD0]), Standing::Read(4));
    }

    /// Sinks on port 2, which begins at zeros, and on port 7, which begins near the largest number
    /// and stops there. A call that is turned back is in no tally.
    #[test]
    fn worked_ports() {
        let largest = u32::MAX;
        let near = Tally { frames: largest - 2, bad: largest, bytes: largest - 2 };
        let mut began = [Tally::default(); 8];
        began[7 - 1] = near;
        let mut card = Card::with(began);
        let eight = Settings::new(2, 0, 8);
        let mut call = |port: u32, count: u32, control: [u8; 3]| {
            let mut sink = Sink { count: Some(count), ..Sink::new() };
            sink.call(eight, ANY, &frame(eight, control), &mut [0; 8], port, &mut card)
                .map(|taken| taken.handed)
        };
        assert_eq!(call(2, 3, [0; 3]), Ok(3));
        assert_eq!(call(7, 2, [0; 3]), Ok(2));
        assert_eq!(call(0, 5, [0; 3]), Err(10));
        assert_eq!(call(9, 5, [0; 3]), Err(10));
        assert_eq!(call(2, 8, [0xFF; 3]), Ok(8));
        assert_eq!(call(7, 1, [0xFF; 3]), Ok(1));
        assert_eq!(call(7, 0, [0; 3]), Ok(0));
        let mut wanted = [Tally::default(); 8];
        wanted[2 - 1] = Tally { frames: 2, bad: 1, bytes: 11 };
        wanted[7 - 1] = Tally { frames: largest, bad: largest, bytes: largest };
        assert_eq!(card.tallies(), wanted);
        let largest = u128::from(largest);
        assert_eq!(card.total(), [largest + 2, largest + 1, largest + 11]);
        assert_eq!(Card::with([wanted[7 - 1]; 8]).total(), [34_359_738_360; 3]);
    }

    /// A sink at the count 4 that expects type 7: how much it hands out of frames with such numbers
    /// and PSI bytes, and the type that is accepted after each.
    #[test]
    fn worked_types() {
        let on = Settings::new(2, 0, 8).with_type_check();
        let mut sink = Sink { count: Some(4), ..Sink::new() };
        let mut call = |settings: Settings, multiframe: u32, psi: u8| {
            let mut frame = frame(settings, control(settings, 4, 4));
            frame[12] = psi;
            let expected = Expected { multiframe, payload_type: 7 };
            let taken = sink.call(settings, expected, &frame, &mut [0; 8], 1, &mut Card::new());
            (taken.unwrap().handed, sink.types.accepted())
        };
        assert_eq!(call(on, 0, 7), (0, None));
        assert_eq!(call(on, 1, 0), (0, None));
        assert_eq!(call(on, 256, 7), (0, None));
        // Frames with the type check off are handed out, and neither count nor end the run.
        let off = Settings { type_check: false, ..on };
        assert_eq!(call(off, 0, 9), (4, None));
        assert_eq!(call(off, 0, 7), (4, None));
        // The third: its own bytes are not handed out yet.
        assert_eq!(call(on, 512, 7), (0, Some(7)));
        assert_eq!(call(on, 513, 0), (4, Some(7)));
        // Another type twice, and after a break three times: its third frame is handed out still.
        assert_eq!(call(on, 0, 0), (4, Some(7)));
        assert_eq!(call(on, 0, 0), (4, Some(7)));
        assert_eq!(call(on, 0, 5), (4, Some(7)));
        assert_eq!(call(on, 0, 0), (4, Some(7)));
        assert_eq!(call(on, 0, 0), (4, Some(7)));
        assert_eq!(call(on, 0, 0), (4, Some(0)));
        assert_eq!(call(on, 0, 0), (0, Some(0)));
        assert_eq!(call(on, 1, 0), (0, Some(0)));
    }

    /// What counts of a book: the accepted type and the run at its end, two being as good as more.
    #[test]
    fn worked_books() {
        let book = |judged: &[u8]| Types::with(Some(1), judged);
        assert_eq!((book(&[]).accepted(), book(&[]).run()), (Some(1), &[][..]));
        assert_eq!((book(&[7]).accepted(), book(&[7]).run()), (Some(1), &[7][..]));
        assert_eq!((book(&[7, 7]).accepted(), book(&[7, 7]).run()), (Some(1), &[7, 7][..]));
        assert_eq!(book(&[7, 7, 8]), book(&[8]));
        assert_eq!(book(&[7, 7, 7]), Types::with(Some(7), &[7, 7]));
        assert_eq!(book(&[7, 7, 7, 7]), book(&[7, 7, 7]));
        assert_eq!(book(&[7, 7, 7, 8, 8]), Types::with(Some(7), &[8, 8]));
        assert_eq!(book(&[7, 7, 7, 8, 8, 8, 9]), Types::with(Some(8), &[9]));
        assert_ne!(book(&[7, 7]), book(&[7]));
        assert_ne!(book(&[7]), book(&[]));
        assert_ne!(book(&[0]), book(&[]));
        assert_ne!(Types::with(Some(0), &[]), Types::new());
    }

    #[test]
    fn worked_places() {
        let places = |count| (1..=8).filter(|n| carries(*n, count, 8)).collect::<Vec<_>>();
        assert_eq!(places(3), [3, 6, 8]);
        assert_eq!(places(0), []);
        assert_eq!(places(8), [1, 2, 3, 4, 5, 6, 7, 8]);
    }

    #[test]
    fn exactly_c_places_and_the_whole_part_among_the_first_n() {
        for s in (4..=80).step_by(4) {
            for count in 0..=s {
                let mut met = 0;
                for n in 1..=s {
                    met += u64::from(carries(n, count, s));
                    assert_eq!(met, n * count / s);
                }
                assert_eq!(met, count);
            }
        }
    }

    #[test]
    fn worked_rate() {
        let mut keeper = Keeper::new(1296);
        let counts = [(); 5].map(|()| keeper.call(Settings::OPU0, 18671875, 1296).unwrap());
        assert_eq!(counts, [14407, 14408, 14407, 14407, 14408]);
    }

    #[test]
    fn worked_roundings() {
        assert_eq!([0, 1, 2, 3, 4, 5].map(|n| nearest(n, 2)), [0, 1, 1, 2, 2, 3]);
        assert_eq!([0, 1, 2, 3, 4, 5].map(|n| nearest(n, 3)), [0, 0, 1, 1, 1, 2]);
        assert_eq!([0, 1, 2, 3].map(|n| nearest(n, 1)), [0, 1, 2, 3]);
    }

    /// The four words that continue a count: by each pattern of each sign.
    fn continuing(settings: Settings, count: u32) -> [u32; 4] {
        let word = |change| (count ^ pattern(settings, change)) << 2;
        [word(1) | 2, word(2) | 2, word(-1) | 1, word(-2) | 1]
    }

    /// The paper says "the one which this word continues": with the paper's patterns no word
    /// continues both possible counts of another.
    #[test]
    fn a_pair_of_words_leads_to_one_count() {
        let mut both_end_in_11 = 0;
        for before in (0..=0xFFFF).filter(|word| ii(*word) != di(*word)) {
            let [one, two] = possible(Settings::OPU0, before);
            assert_ne!(one, two);
            both_end_in_11 += u32::from(one & 3 == 3 && two & 3 == 3);
            for word in continuing(Settings::OPU0, one) {
                assert!(continued(Settings::OPU0, one, word).is_some());
                assert_eq!(continued(Settings::OPU0, two, word), None, "{before:04X} {word:04X}");
            }
        }
        assert!(both_end_in_11 > 0);
    }

    /// With any patterns that keep P11's rule a word may continue both, but only to one count.
    #[test]
    fn a_pair_of_words_leads_to_one_count_by_the_rule() {
        let mut random = seeds::random("a_pair_of_words_leads_to_one_count_by_the_rule");
        let mut both = 0;
        for _ in 0..100_000 {
            // Patterns of a few low bits are those that bring two possible counts together.
            let bits = random.of(&[0x1, 0x3, 0x7, 0xF, 0xFF, 0x3FFF]);
            let [plus, minus, differ, before] = [(); 4].map(|()| random.u32());
            let (plus, minus, differ) = (plus & bits, minus & bits, (differ & bits).max(1));
            let settings = ONE.with_patterns([plus, minus, plus ^ differ, minus ^ differ]);
            assert!(!settings.patterns_are_wrong(), "{settings:?}");
            let before = before & 0xFFFC | random.from_to(1, 2);
            let [one, two] = possible(settings, before);
            for word in continuing(settings, one) {
                let lead = [one, two].map(|count| continued(settings, count, word));
                assert!(lead[0].is_some());
                assert!(lead[1].is_none() || lead[1] == lead[0], "{settings:?} {before:04X}");
                both += u32::from(lead[1].is_some());
            }
        }
        assert!(both > 10_000, "{both}");
    }

    /// Four wrong bits may pass the check; one, two or three do not.
    #[test]
    fn up_to_three_wrong_bits_fail_the_check() {
        // The check is a division, so a word's errors pass if and only if they pass on the word 0.
        let passes = |bits: u32| check(bits >> 8) == bits & 0xFF;
        let (mut fewest, mut seen) = (24, 0);
        for bits in 1..1 << 24 {
            if passes(bits) {
                fewest = fewest.min(u32::count_ones(bits));
                seen += 1;
            }
        }
        assert_eq!((fewest, seen), (4, 65535));
    }

    /// With mending on a wrong bit is mended and two fail. Of three some are mended, each to a
    /// false word.
    #[test]
    fn up_to_two_wrong_bits_are_mended_or_fail() {
        // Again the errors of every word are those of the word 0.
        let (mut single, mut triple) = (0, 0);
        for bits in (0..1 << 24).filter(|bits| u32::count_ones(*bits) <= 3) {
            let control = [(bits >> 16) as u8, (bits >> 8) as u8, bits as u8];
            match (read(Settings::OPU0.with_mending(), control), bits.count_ones()) {
                (Some((0, false)), 0) | (None, 2 | 3) => {}
                (Some((0, true)), 1) => single += 1,
                (Some((1.., true)), 3) => triple += 1,
                (other, wrong) => panic!("{control:02X?}, {wrong} wrong bits: {other:?}"),
            }
        }
        assert_eq!((single, triple), (24, 324));
    }
}
