//! A small seeded generator (splitmix64), so that every run can be repeated.

pub struct Rng(u64);

impl Rng {
    pub fn new(seed: u64) -> Self {
        Rng(seed)
    }

    /// A generator for the `index`-th input of a run: any input can be made
    /// again without the ones before it.
    pub fn for_input(seed: u64, index: u64) -> Self {
        let mut outer = Rng(seed);
        let mut inner = Rng(outer.draw() ^ index.wrapping_mul(0xD134_2543_DE82_EF95));
        Rng(inner.draw())
    }

    pub fn draw(&mut self) -> u64 {
        self.0 = self.0.wrapping_add(0x9E37_79B9_7F4A_7C15);
        let mut z = self.0;
        z = (z ^ (z >> 30)).wrapping_mul(0xBF58_476D_1CE4_E5B9);
        z = (z ^ (z >> 27)).wrapping_mul(0x94D0_49BB_1331_11EB);
        z ^ (z >> 31)
    }

    pub fn word(&mut self) -> u32 {
        (self.draw() >> 32) as u32
    }

    pub fn byte(&mut self) -> u8 {
        (self.draw() >> 56) as u8
    }

    /// A byte that is not zero.
    pub fn nonzero_byte(&mut self) -> u8 {
        match self.below(4) {
            0 => 1,
            1 => 128,
            2 => 255,
            _ => 1 + self.below(255) as u8,
        }
    }

    /// A number below `n`, which must not be zero.
    pub fn below(&mut self, n: usize) -> usize {
        debug_assert!(n > 0);
        ((u128::from(self.draw()) * n as u128) >> 64) as usize
    }

    /// A number from `low` to `high`, both included.
    pub fn from_to(&mut self, low: u32, high: u32) -> u32 {
        low + self.below((high - low) as usize + 1) as u32
    }

    pub fn one_in(&mut self, n: usize) -> bool {
        self.below(n) == 0
    }

    pub fn pick<T: Copy>(&mut self, from: &[T]) -> T {
        from[self.below(from.len())]
    }

    pub fn fill(&mut self, bytes: &mut [u8]) {
        for part in bytes.chunks_mut(8) {
            let drawn = self.draw().to_le_bytes();
            part.copy_from_slice(&drawn[..part.len()]);
        }
    }
}

#[cfg(test)]
mod tests {
    use super::Rng;

    #[test]
    fn same_seed_same_numbers() {
        let mut a = Rng::for_input(5, 9);
        let mut b = Rng::for_input(5, 9);
        let mut c = Rng::for_input(5, 10);
        let first = a.draw();
        assert_eq!(first, b.draw());
        assert_ne!(first, c.draw());
    }

    #[test]
    fn both_ends_are_reached() {
        let mut rng = Rng::new(1);
        let drawn: Vec<u32> = (0..200).map(|_| rng.from_to(3, 5)).collect();
        assert_eq!(drawn.iter().min(), Some(&3));
        assert_eq!(drawn.iter().max(), Some(&5));
        assert!((0..50).any(|_| rng.from_to(0, u32::MAX) > u32::MAX / 2));
    }
}
