//! Seeded dice: the same seed, the same life.

pub struct Dice(u64);

impl Dice {
    pub fn new(seed: u64) -> Dice {
        Dice(seed)
    }

    /// splitmix64
    pub fn word(&mut self) -> u64 {
        self.0 = self.0.wrapping_add(0x9E37_79B9_7F4A_7C15);
        let mut z = self.0;
        z = (z ^ (z >> 30)).wrapping_mul(0xBF58_476D_1CE4_E5B9);
        z = (z ^ (z >> 27)).wrapping_mul(0x94D0_49BB_1331_11EB);
        z ^ (z >> 31)
    }

    /// From 0 to n - 1.
    pub fn below(&mut self, n: u64) -> u64 {
        self.word() % n
    }

    pub fn index(&mut self, n: usize) -> usize {
        self.below(n as u64) as usize
    }

    pub fn byte(&mut self) -> u8 {
        self.word() as u8
    }

    /// One time in n.
    pub fn one_in(&mut self, n: u64) -> bool {
        self.below(n) == 0
    }

    pub fn pick<'a, T>(&mut self, from: &'a [T]) -> &'a T {
        &from[self.index(from.len())]
    }

    pub fn bytes(&mut self, n: usize) -> Vec<u8> {
        (0..n).map(|_| self.byte()).collect()
    }

    /// A number at an edge: of `near`, of the widths, or any.
    pub fn edge(&mut self, near: u64) -> u64 {
        let fixed = [
            0,
            1,
            2,
            7,
            8,
            9,
            1 << 31,
            1 << 32,
            (1 << 63) - 1,
            1 << 63,
            (1 << 63) + 1,
            u64::MAX - 7,
            u64::MAX - 1,
            u64::MAX,
        ];
        match self.below(8) {
            0..=2 => near.wrapping_add(self.below(5)).wrapping_sub(2),
            3 => near.wrapping_add(self.below(33)).wrapping_sub(16),
            4..=5 => *self.pick(&fixed),
            // a sum with `near` that wraps
            6 => near.wrapping_neg().wrapping_add(self.below(17)),
            _ => self.word(),
        }
    }
}
