//! Numbers from a seed, always the same ones: SplitMix64, in whole numbers alone.

/// A generator of our own, so that a sample's bytes depend on nothing but its seed.
pub struct Dice(u64);

impl Dice {
    pub fn new(seed: u64) -> Dice {
        Dice(seed)
    }

    /// 64 bits.
    pub fn next(&mut self) -> u64 {
        self.0 = self.0.wrapping_add(0x9e37_79b9_7f4a_7c15);
        let mut z = self.0;
        z = (z ^ (z >> 30)).wrapping_mul(0xbf58_476d_1ce4_e5b9);
        z = (z ^ (z >> 27)).wrapping_mul(0x94d0_49bb_1331_11eb);
        z ^ (z >> 31)
    }

    /// A number below another, which is above 0.
    pub fn below(&mut self, most: u64) -> u64 {
        let product = u128::from(self.next()) * u128::from(most);
        (product >> 64) as u64
    }

    /// A number from -most to most, those near 0 the likelier: three thrown, and their middle.
    pub fn around(&mut self, most: i32) -> i32 {
        let width = 2 * most.unsigned_abs() + 1;
        let thrown: i64 = (0..3).map(|_| self.below(width.into()) as i64).sum();
        (thrown / 3) as i32 - most
    }

    /// The numbers from 0 to below `count`, in an order of their own.
    pub fn shuffled(&mut self, count: u32) -> Vec<u32> {
        let mut numbers: Vec<u32> = (0..count).collect();
        for at in (1..numbers.len()).rev() {
            numbers.swap(at, self.below(at as u64 + 1) as usize);
        }
        numbers
    }
}

#[cfg(test)]
mod tests {
    use super::*;

    /// The first numbers of SplitMix64 as its authors' program gives them.
    #[test]
    fn as_published() {
        let mut dice = Dice::new(1_234_567);
        let numbers = [(); 3].map(|()| dice.next());
        assert_eq!(
            numbers,
            [
                6_457_827_717_110_365_317,
                3_203_168_211_198_807_973,
                9_817_491_932_198_370_423
            ]
        );
    }

    #[test]
    fn within_their_bounds() {
        let mut dice = Dice::new(1);
        for _ in 0..10_000 {
            assert!(dice.below(7) < 7 && dice.around(5).abs() <= 5);
        }
        assert_eq!((dice.below(1), dice.around(0)), (0, 0));
        let mut all = dice.shuffled(1_000);
        assert_ne!(all, (0..1_000).collect::<Vec<_>>());
        all.sort_unstable();
        assert_eq!(all, (0..1_000).collect::<Vec<_>>());
        assert!(dice.shuffled(0).is_empty());
    }
}
