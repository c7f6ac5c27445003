//! A generator of its own (splitmix64), so that a seed gives the same draws everywhere.

pub struct Rng(u64);

impl Rng {
    pub fn new(seed: u64) -> Rng {
        Rng(seed)
    }

    pub fn number(&mut self) -> u64 {
        self.0 = self.0.wrapping_add(0x9e37_79b9_7f4a_7c15);
        let mixed = (self.0 ^ self.0 >> 30).wrapping_mul(0xbf58_476d_1ce4_e5b9);
        let mixed = (mixed ^ mixed >> 27).wrapping_mul(0x94d0_49bb_1331_11eb);
        mixed ^ mixed >> 31
    }

    /// From 0 up to but without the limit; 0 where the limit is 0.
    pub fn below(&mut self, limit: usize) -> usize {
        let drawn = self.number() >> 11;
        drawn.checked_rem(limit as u64).unwrap_or(0) as usize
    }

    pub fn percent(&mut self, chance: usize) -> bool {
        self.below(100) < chance
    }

    pub fn pick<T: Copy, const N: usize>(&mut self, from: [T; N]) -> T {
        const { assert!(N > 0) };
        from[self.below(N)]
    }

    pub fn byte(&mut self) -> u8 {
        self.below(256) as u8
    }

    pub fn word(&mut self) -> u32 {
        (self.number() >> 32) as u32
    }

    /// Mostly any bytes, sometimes one byte over and over.
    pub fn bytes(&mut self, length: usize) -> Vec<u8> {
        if self.percent(10) {
            return vec![self.pick([0x00, 0x80, 0xff]); length];
        }
        (0..length).map(|_| self.byte()).collect()
    }
}

#[cfg(test)]
mod tests {
    use super::*;

    #[test]
    fn first_numbers_of_the_published_generator() {
        let mut rng = Rng::new(1_234_567);
        assert_eq!(rng.number(), 6_457_827_717_110_365_317);
        assert_eq!(rng.number(), 3_203_168_211_198_807_973);
    }

    #[test]
    fn draws_stay_below_their_limit() {
        let mut rng = Rng::new(1);
        assert_eq!(rng.below(0), 0);
        assert!((0..1000).all(|_| rng.below(3) < 3));
    }
}
