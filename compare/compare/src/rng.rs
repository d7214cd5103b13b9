//! A small seeded source of random numbers: splitmix64.

pub struct Rng(u64);

impl Rng {
    /// Each group draws from its own source, so that running one group alone
    /// gives the cases it has in a full run.
    pub fn new(seed: u64, group: &str) -> Self {
        let mut rng = Rng(seed);
        for byte in group.bytes() {
            rng.0 ^= u64::from(byte);
            rng.any();
        }
        rng
    }

    pub fn any(&mut self) -> u64 {
        self.0 = self.0.wrapping_add(0x9E37_79B9_7F4A_7C15);
        let mut z = self.0;
        z = (z ^ (z >> 30)).wrapping_mul(0xBF58_476D_1CE4_E5B9);
        z = (z ^ (z >> 27)).wrapping_mul(0x94D0_49BB_1331_11EB);
        z ^ (z >> 31)
    }

    /// A number below `end`, which is not 0.
    pub fn below(&mut self, end: u64) -> u64 {
        self.any() % end
    }

    /// An index or a length below `end`, which is not 0.
    pub fn index(&mut self, end: usize) -> usize {
        self.below(end as u64) as usize
    }

    pub fn byte(&mut self) -> u8 {
        self.any() as u8
    }

    /// True once in `n` times.
    pub fn once_in(&mut self, n: u64) -> bool {
        self.below(n) == 0
    }

    pub fn pick<T: Copy>(&mut self, from: &[T]) -> T {
        from[self.index(from.len())]
    }

    /// A number of any size: every count of bits is as likely as another.
    pub fn sized(&mut self) -> u64 {
        let shift = self.below(64);
        self.any() >> shift
    }
}
