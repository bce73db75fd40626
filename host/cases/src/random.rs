//! Random numbers from a fixed seed (splitmix64).

pub struct Random(u64);

impl Random {
    pub fn new(seed: u64) -> Self {
        Random(seed)
    }

    pub fn bits(&mut self) -> u64 {
        self.0 = self.0.wrapping_add(0x9e37_79b9_7f4a_7c15);
        let mut mixed = self.0;
        mixed = (mixed ^ (mixed >> 30)).wrapping_mul(0xbf58_476d_1ce4_e5b9);
        mixed = (mixed ^ (mixed >> 27)).wrapping_mul(0x94d0_49bb_1331_11eb);
        mixed ^ (mixed >> 31)
    }

    /// A number of the range, both ends included.
    pub fn within(&mut self, least: u32, most: u32) -> u32 {
        let span = u64::from(most - least) + 1;
        least + ((self.bits() >> 32) % span) as u32
    }

    /// A number of the range, each order of magnitude about as often.
    pub fn spread(&mut self, least: u32, most: u32) -> u32 {
        let power = self.within(least.ilog2(), most.ilog2());
        let low = 1u32 << power;
        let high = low + (low - 1);
        self.within(low.max(least), high.min(most))
    }

    pub fn one_in(&mut self, count: u32) -> bool {
        self.within(1, count) == 1
    }

    pub fn pick<T: Copy>(&mut self, of: &[T]) -> T {
        of[self.within(0, of.len() as u32 - 1) as usize]
    }
}
