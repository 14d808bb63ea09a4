//! Chance that is the same again for the same seed, on every machine.

/// Reasons 56 to 63, which op 7 doesn't count.
const NOTES: u64 = 0xff << 56;

/// Vigna's splitmix64: small, and good enough to draw sessions with.
pub struct Chance {
    state: u64,
}

impl Chance {
    pub fn new(seed: u64) -> Self {
        Chance { state: seed }
    }

    pub fn word(&mut self) -> u64 {
        self.state = self.state.wrapping_add(0x9e37_79b9_7f4a_7c15);
        let mut word = self.state;
        word = (word ^ (word >> 30)).wrapping_mul(0xbf58_476d_1ce4_e5b9);
        word = (word ^ (word >> 27)).wrapping_mul(0x94d0_49bb_1331_11eb);
        word ^ (word >> 31)
    }

    /// A number below `limit`, which isn't zero.
    pub fn below(&mut self, limit: usize) -> usize {
        (self.word() % limit as u64) as usize
    }

    /// A number from `low` to `high`, both included.
    pub fn between(&mut self, low: usize, high: usize) -> usize {
        low + self.below(high - low + 1)
    }

    pub fn one_in(&mut self, times: usize) -> bool {
        self.below(times) == 0
    }

    pub fn pick<T: Copy>(&mut self, row: &[T]) -> T {
        row[self.below(row.len())]
    }

    pub fn byte(&mut self) -> u8 {
        self.word() as u8
    }

    /// A reason set: empty, one reason, a few, many, all, or about as many as op 7 can count.
    pub fn set(&mut self) -> u64 {
        match self.below(10) {
            0 | 1 => 0,
            2 | 3 => 1 << self.below(64),
            4 => self.word() & 15,
            5 => self.word() & self.word() & self.word(),
            6 => self.word(),
            7 => self.notes() | self.word() & 3,
            8 => self.notes() | self.nearly_all(),
            _ => self.pick(&[1, 2, 3, 1 << 55, 1 << 56, 1 << 63, u64::MAX]),
        }
    }

    /// Notes alone: none, one, some or all.
    fn notes(&mut self) -> u64 {
        let one = 1 << self.between(56, 63);
        let some = self.word();
        self.pick(&[0, one, some, u64::MAX]) & NOTES
    }

    /// All reasons that aren't notes, but for up to three.
    fn nearly_all(&mut self) -> u64 {
        let missing = self.below(4);
        (0..missing).fold(!NOTES, |set, _| set & !(1 << self.below(56)))
    }
}
