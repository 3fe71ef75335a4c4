//! The numbers that all messages are made of, as crates/capnp_classic/src/random.rt makes them.

pub struct Random {
    state: u64,
}

impl Random {
    pub fn new(seed: u32) -> Random {
        Random {
            state: (seed as u64).wrapping_mul(0x9e37_79b9_7f4a_7c15) | 1,
        }
    }

    fn next(&mut self) -> u32 {
        self.state ^= self.state >> 12;
        self.state ^= self.state << 25;
        self.state ^= self.state >> 27;
        (self.state.wrapping_mul(0x2545_f491_4f6c_dd1d) >> 32) as u32
    }

    #[inline]
    pub fn below(&mut self, bound: u32) -> u32 {
        self.next() % bound
    }

    #[inline]
    pub fn flag(&mut self) -> bool {
        self.below(2) == 1
    }

    #[inline]
    pub fn up_to(&mut self, bound: f32) -> f32 {
        (self.next() >> 16) as f32 * bound / 65535.0
    }
}
