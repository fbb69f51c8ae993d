//! A small generator (xorshift64*).

pub struct Random(u64);

impl Random {
    pub fn new(seed: u64) -> Random {
        // Neighbouring seeds are spread, and none is 0.
        Random(seed.wrapping_mul(0x9e37_79b9_7f4a_7c15) ^ 0x5851_f42d_4c95_7f2d | 1)
    }

    fn next(&mut self) -> u64 {
        self.0 ^= self.0 >> 12;
        self.0 ^= self.0 << 25;
        self.0 ^= self.0 >> 27;
        self.0.wrapping_mul(0x2545_f491_4f6c_dd1d)
    }

    /// A number below `bound`.
    pub fn below(&mut self, bound: u32) -> u32 {
        ((self.next() >> 32) * u64::from(bound) >> 32) as u32
    }

    /// A place below `bound`.
    pub fn place(&mut self, bound: usize) -> usize {
        self.below(bound as u32) as usize
    }

    pub fn one_of<T: Copy>(&mut self, choice: &[T]) -> T {
        choice[self.place(choice.len())]
    }

    pub fn residues(&mut self, count: usize, m: u32) -> Vec<u32> {
        (0..count).map(|_| self.below(m)).collect()
    }

    /// Any numbers of 32 bits.
    pub fn words(&mut self, count: usize) -> Vec<u32> {
        (0..count).map(|_| (self.next() >> 32) as u32).collect()
    }

    /// Parts from -32,767 to 32,767.
    pub fn parts(&mut self, count: usize) -> Vec<i32> {
        (0..count)
            .map(|_| self.below(65535) as i32 - 32767)
            .collect()
    }
}
