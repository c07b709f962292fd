//! A small generator of numbers (xorshift64*), so that every run asks the
//! same questions. Each subject takes a seed of its own; a subject added later
//! then leaves the questions of the others as they are.

pub struct Generator {
    state: u64,
}

impl Generator {
    /// The seed must not be 0, which the generator would never leave.
    pub fn new(seed: u64) -> Self {
        assert!(seed != 0);
        Self { state: seed }
    }

    fn next(&mut self) -> u64 {
        self.state ^= self.state >> 12;
        self.state ^= self.state << 25;
        self.state ^= self.state >> 27;
        self.state.wrapping_mul(0x2545_F491_4F6C_DD1D)
    }

    /// A number from `least` to `largest`, both included.
    pub fn between(&mut self, least: i32, largest: i32) -> i32 {
        let choices = (i64::from(largest) - i64::from(least) + 1) as u64;
        // The upper bits are the better ones, so the lower ones are dropped.
        let chosen = (self.next() >> 11) % choices;
        (i64::from(least) + chosen as i64) as i32
    }
}
