//! Random numbers: xoshiro256**, its state filled by splitmix64. The same seed gives the same numbers everywhere.

#[derive(Clone)]
pub struct Random {
    state: [u64; 4],
}

fn splitmix(state: &mut u64) -> u64 {
    *state = state.wrapping_add(0x9e37_79b9_7f4a_7c15);
    let mut z = *state;
    z = (z ^ z >> 30).wrapping_mul(0xbf58_476d_1ce4_e5b9);
    z = (z ^ z >> 27).wrapping_mul(0x94d0_49bb_1331_11eb);
    z ^ z >> 31
}

impl Random {
    /// The stream with this number of this seed.
    pub fn new(seed: u64, stream: u64) -> Random {
        let mut start = seed;
        let mut mixed = splitmix(&mut start) ^ stream.wrapping_mul(0xd134_2543_de82_ef95);
        Random {
            state: std::array::from_fn(|_| splitmix(&mut mixed)),
        }
    }

    pub fn number(&mut self) -> u64 {
        let s = &mut self.state;
        let result = s[1].wrapping_mul(5).rotate_left(7).wrapping_mul(9);
        let t = s[1] << 17;
        s[2] ^= s[0];
        s[3] ^= s[1];
        s[1] ^= s[2];
        s[0] ^= s[3];
        s[2] ^= t;
        s[3] = s[3].rotate_left(45);
        result
    }

    /// A number below the bound, which is not 0.
    pub fn below(&mut self, bound: usize) -> usize {
        ((u128::from(self.number()) * bound as u128) >> 64) as usize
    }

    /// A number from the first to the last, both included.
    pub fn range(&mut self, first: usize, last: usize) -> usize {
        first + self.below(last - first + 1)
    }

    /// True in one of so many.
    pub fn one_in(&mut self, many: usize) -> bool {
        self.below(many) == 0
    }

    pub fn pick<T: Copy>(&mut self, items: &[T]) -> T {
        items[self.below(items.len())]
    }

    pub fn word(&mut self) -> u16 {
        self.number() as u16
    }

    pub fn byte(&mut self) -> u8 {
        self.number() as u8
    }

    /// A part of a set: each member with one half, or with one or three quarters.
    pub fn part(&mut self, set: u64) -> u64 {
        let (a, b) = (self.number(), self.number());
        match self.below(4) {
            0 => set & a & b,
            1 => set & (a | b),
            _ => set & a,
        }
    }

    pub fn credentials(&mut self, set: u16) -> u16 {
        self.part(u64::from(set)) as u16
    }

    pub fn shuffle<T>(&mut self, items: &mut [T]) {
        for last in (1..items.len()).rev() {
            items.swap(last, self.below(last + 1));
        }
    }
}
