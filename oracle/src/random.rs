//! A seeded generator (splitmix64): the same inputs in every run, so that a
//! difference is found again.
//!
//! Assumes nothing.

pub struct Random {
    state: u64,
}

impl Random {
    pub fn new(seed: u64) -> Random {
        Random { state: seed }
    }

    /// The generator of one of many inputs, by its number, of one kind of inputs.
    pub fn numbered(number: u64, kind: u64) -> Random {
        Random::new(number.wrapping_mul(0x2545_f491_4f6c_dd1d) ^ kind)
    }

    fn next(&mut self) -> u64 {
        self.state = self.state.wrapping_add(0x9e37_79b9_7f4a_7c15);
        let mut z = self.state;
        z = (z ^ (z >> 30)).wrapping_mul(0xbf58_476d_1ce4_e5b9);
        z = (z ^ (z >> 27)).wrapping_mul(0x94d0_49bb_1331_11eb);
        z ^ (z >> 31)
    }

    /// Any word, each as likely as another.
    pub fn word(&mut self) -> u32 {
        (self.next() >> 32) as u32
    }

    /// A word of any width: half of the plain ones have their top bit set, and
    /// a fault that shows in small numbers alone would hardly be met.
    pub fn word_of_any_width(&mut self) -> u32 {
        let width = self.below(32) as u32;
        self.word() >> width
    }

    /// A number below `bound`, which is not 0.
    pub fn below(&mut self, bound: usize) -> usize {
        (self.next() % bound as u64) as usize
    }

    pub fn bytes(&mut self, len: usize) -> Vec<u8> {
        (0..len).map(|_| self.word() as u8).collect()
    }
}
