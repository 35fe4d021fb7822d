//! Random numbers from a seed: xoshiro256++, seeded by splitmix64.

pub struct Random {
    state: [u64; 4],
}

impl Random {
    pub fn new(seed: u64) -> Random {
        let mut mix = seed;
        let state = std::array::from_fn(|_| {
            mix = mix.wrapping_add(0x9E37_79B9_7F4A_7C15);
            let z = (mix ^ mix >> 30).wrapping_mul(0xBF58_476D_1CE4_E5B9);
            let z = (z ^ z >> 27).wrapping_mul(0x94D0_49BB_1331_11EB);
            z ^ z >> 31
        });
        Random { state }
    }

    pub fn next(&mut self) -> u64 {
        let s = &mut self.state;
        let result = s[0].wrapping_add(s[3]).rotate_left(23).wrapping_add(s[0]);
        let t = s[1] << 17;
        s[2] ^= s[0];
        s[3] ^= s[1];
        s[1] ^= s[2];
        s[0] ^= s[3];
        s[2] ^= t;
        s[3] = s[3].rotate_left(45);
        result
    }

    pub fn word(&mut self) -> u32 {
        (self.next() >> 32) as u32
    }

    /// A number below `limit`, which is not 0.
    pub fn below(&mut self, limit: u32) -> u32 {
        ((u64::from(self.word()) * u64::from(limit)) >> 32) as u32
    }

    /// True `share` times in a hundred.
    pub fn chance(&mut self, share: u32) -> bool {
        self.below(100) < share
    }

    pub fn pick<T: Copy>(&mut self, from: &[T]) -> T {
        from[self.below(from.len() as u32) as usize]
    }

    pub fn fill(&mut self, bytes: &mut [u8]) {
        for chunk in bytes.chunks_mut(8) {
            let length = chunk.len();
            chunk.copy_from_slice(&self.next().to_le_bytes()[..length]);
        }
    }

    /// A 16-bit count, often near its ends.
    pub fn count(&mut self) -> u32 {
        match self.below(8) {
            0 | 1 => 0,
            2 => 0xFFFF,
            3 => 0xFFFE,
            4 => 1 + self.below(3),
            _ => self.below(0x1_0000),
        }
    }

    /// A 32-bit number, often near its ends or near the limits of 8 and 16 bits.
    pub fn number(&mut self) -> u32 {
        const NEAR: [u32; 9] = [0, 1, 0xFE, 0xFF, 0x100, 0xFFFF, 0x1_0000, u32::MAX - 1, u32::MAX];
        match self.below(8) {
            0..=3 => self.pick(&NEAR),
            4 => u32::MAX - self.below(300),
            5 | 6 => self.below(300),
            _ => self.word(),
        }
    }
}
