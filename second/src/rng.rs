//! A small generator of made-up numbers (splitmix64), the same for the same seed everywhere.

pub struct Rng(u64);

impl Rng {
    /// One stream for each (seed, index), so that any piece can be made again alone.
    pub fn new(seed: u64, index: u64) -> Rng {
        let mut rng = Rng(seed.wrapping_mul(0x9E37_79B9_7F4A_7C15) ^ index.wrapping_mul(0xD1B5_4A32_D192_ED03));
        rng.any();
        rng
    }

    pub fn any(&mut self) -> u64 {
        self.0 = self.0.wrapping_add(0x9E37_79B9_7F4A_7C15);
        let z = (self.0 ^ (self.0 >> 30)).wrapping_mul(0xBF58_476D_1CE4_E5B9);
        let z = (z ^ (z >> 27)).wrapping_mul(0x94D0_49BB_1331_11EB);
        z ^ (z >> 31)
    }

    /// 0 to bound - 1; 0 for bound 0.
    pub fn below(&mut self, bound: u64) -> u64 {
        if bound == 0 {
            0
        } else {
            self.any() % bound
        }
    }

    /// low to high, both included; low where high is less.
    pub fn between(&mut self, low: i64, high: i64) -> i64 {
        if high <= low {
            return low;
        }
        let span = low.abs_diff(high).saturating_add(1);
        low.wrapping_add_unsigned(self.below(span))
    }

    /// True in so many of a hundred cases.
    pub fn percent(&mut self, of_hundred: u64) -> bool {
        self.below(100) < of_hundred
    }

    pub fn one_of<T: Copy>(&mut self, all: &[T], else_this: T) -> T {
        let at = self.below(all.len() as u64) as usize;
        all.get(at).copied().unwrap_or(else_this)
    }
}
