//! Numbers that look random and follow from a seed (splitmix64).
pub struct Random(u64);

impl Random {
    /// Case `case` of a run: any case can be made again without those before it.
    pub fn new(seed: u64, case: u64) -> Self {
        let mut r = Random(seed);
        Random(r.number() ^ case.wrapping_mul(0x9E37_79B9_7F4A_7C15))
    }

    pub fn number(&mut self) -> u64 {
        self.0 = self.0.wrapping_add(0x9E37_79B9_7F4A_7C15);
        let mut z = self.0;
        z = (z ^ z >> 30).wrapping_mul(0xBF58_476D_1CE4_E5B9);
        z = (z ^ z >> 27).wrapping_mul(0x94D0_49BB_1331_11EB);
        z ^ z >> 31
    }

    /// 0 to `n` - 1.
    pub fn below(&mut self, n: usize) -> usize {
        (self.number() % n as u64) as usize
    }

    pub fn from(&mut self, range: std::ops::RangeInclusive<usize>) -> usize {
        range.start() + self.below(range.end() - range.start() + 1)
    }

    pub fn one_in(&mut self, n: usize) -> bool {
        self.below(n) == 0
    }

    pub fn pick<T: Clone>(&mut self, from: &[T]) -> T {
        from[self.below(from.len())].clone()
    }

    pub fn shuffle<T>(&mut self, all: &mut [T]) {
        for i in (1..all.len()).rev() {
            all.swap(i, self.below(i + 1));
        }
    }

    /// Some of 1 to `n`, rising.
    pub fn some_of(&mut self, n: usize, how_many: usize) -> Vec<i16> {
        let mut all: Vec<i16> = (1..=n as i16).collect();
        for i in 0..how_many.min(n) {
            let other = self.from(i..=n - 1);
            all.swap(i, other);
        }
        all.truncate(how_many);
        all.sort();
        all
    }

    pub fn sign(&mut self, v: i16) -> i16 {
        if self.one_in(2) {
            v
        } else {
            -v
        }
    }
}
