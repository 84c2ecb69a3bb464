//! A small generator of random numbers (splitmix64), so that every case follows from its seed.

/// The state of the generator.
pub struct Random {
    state: u64,
}

impl Random {
    pub fn from_seed(seed: u64) -> Random {
        Random { state: seed }
    }

    /// The generator of one case of a run: cases do not depend on each other.
    pub fn of_case(seed: u64, case: u64) -> Random {
        let mut random = Random { state: seed };
        let start = random.next() ^ case.wrapping_mul(0xD1B5_4A32_D192_ED03);
        Random { state: start }
    }

    fn next(&mut self) -> u64 {
        self.state = self.state.wrapping_add(0x9E37_79B9_7F4A_7C15);
        let mut z = self.state;
        z = (z ^ (z >> 30)).wrapping_mul(0xBF58_476D_1CE4_E5B9);
        z = (z ^ (z >> 27)).wrapping_mul(0x94D0_49BB_1331_11EB);
        z ^ (z >> 31)
    }

    /// A number from 0 to `most`.
    pub fn up_to(&mut self, most: u32) -> u32 {
        (((self.next() >> 32) * (u64::from(most) + 1)) >> 32) as u32
    }

    /// A number from `least` to `most`; `least` if `most` is below it.
    pub fn between(&mut self, least: u32, most: u32) -> u32 {
        least + self.up_to(most.saturating_sub(least))
    }

    /// Any 32-bit number.
    pub fn any(&mut self) -> u32 {
        (self.next() >> 32) as u32
    }

    /// Any byte.
    pub fn byte(&mut self) -> u8 {
        (self.next() >> 56) as u8
    }

    /// True once in `times`.
    pub fn once_in(&mut self, times: u32) -> bool {
        self.up_to(times - 1) == 0
    }

    /// A place in a list of this length, which is not 0.
    pub fn place(&mut self, length: usize) -> usize {
        self.up_to(length as u32 - 1) as usize
    }

    /// One of the given.
    pub fn one_of<T: Copy>(&mut self, given: &[T]) -> T {
        given[self.place(given.len())]
    }
}
