//! A small pseudo-random generator (splitmix64), so that a seed always gives
//! the same lines, on every machine.

pub struct Random {
    state: u64,
}

impl Random {
    pub fn new(seed: u64) -> Random {
        Random { state: seed }
    }

    pub fn next(&mut self) -> u64 {
        self.state = self.state.wrapping_add(0x9E37_79B9_7F4A_7C15);
        let mut mixed = self.state;
        mixed = (mixed ^ mixed >> 30).wrapping_mul(0xBF58_476D_1CE4_E5B9);
        mixed = (mixed ^ mixed >> 27).wrapping_mul(0x94D0_49BB_1331_11EB);
        mixed ^ mixed >> 31
    }

    /// A number from 0 up to, not including, `limit`; 0 for a limit of 0.
    pub fn below(&mut self, limit: u32) -> u32 {
        ((self.next() >> 32) * limit as u64 >> 32) as u32
    }

    /// A number from `low` to `high`, both included.
    pub fn between(&mut self, low: u32, high: u32) -> u32 {
        low + self.below(high - low + 1)
    }

    pub fn chance(&mut self, percent: u32) -> bool {
        self.below(100) < percent
    }

    pub fn pick<T: Copy>(&mut self, choices: &[T]) -> Option<T> {
        let at = self.below(choices.len() as u32) as usize;
        choices.get(at).copied()
    }

    pub fn shuffle<T>(&mut self, items: &mut [T]) {
        for at in (1..items.len()).rev() {
            items.swap(at, self.below(at as u32 + 1) as usize);
        }
    }

    /// A word, mostly one near the edges of what words can hold.
    pub fn word(&mut self) -> u32 {
        match self.below(10) {
            0..=4 => self.below(9),
            5 => self.between(28, 34),
            6 => u32::MAX - self.below(3),
            7 => (1 << 28) - 2 + self.below(4),
            8 => (1 << 31) - 1 + self.below(3),
            _ => self.next() as u32,
        }
    }
}
