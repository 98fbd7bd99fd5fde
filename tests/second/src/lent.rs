/// A copy of a buffer for the library, with bytes before and behind it that it has to leave alone.
pub struct Lent {
    bytes: Vec<u8>,
    before: usize,
    length: usize,
}

const BEHIND: usize = 24;

impl Lent {
    /// The case's index moves the buffer's address, so that every one of 16 comes up.
    pub fn new(index: u64, bytes: &[u8]) -> Lent {
        let before = BEHIND + index as usize % 16;
        let mut all = vec![0xA5; before + bytes.len() + BEHIND];
        all[before..before + bytes.len()].copy_from_slice(bytes);
        Lent { bytes: all, before, length: bytes.len() }
    }

    pub fn lent(&mut self) -> &mut [u8] {
        &mut self.bytes[self.before..self.before + self.length]
    }

    pub fn must_be(&self, name: &str, wanted: &[u8]) {
        let end = self.before + self.length;
        for (at, byte) in self.bytes[..self.before].iter().chain(&self.bytes[end..]).enumerate() {
            assert!(*byte == 0xA5, "the library wrote outside the {name}, at edge byte {at}");
        }
        if self.bytes[self.before..end] != *wanted {
            let at = (0..wanted.len()).find(|at| self.bytes[self.before + at] != wanted[*at]);
            let at = at.expect("they differ, and have one length");
            let (theirs, ours) = (self.bytes[self.before + at], wanted[at]);
            panic!("the {name}, byte {at} from 0: library {theirs:02X}, second {ours:02X}");
        }
    }
}
