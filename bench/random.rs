//! Numbers that look random, the same in each run and for each pointer that is measured.

/// A linear congruential sequence. Its upper half is the better one.
pub struct Random {
    pub state: u64,
}

impl Random {
    pub fn new() -> Random {
        Random { state: 1 }
    }

    /// The next state.
    pub fn next(&mut self) -> u64 {
        self.state = self
            .state
            .wrapping_mul(6364136223846793005)
            .wrapping_add(1442695040888963407);
        self.state
    }

    /// A number below the bound, by this state.
    pub fn pick(&self, bound: usize) -> usize {
        (self.state >> 33) as usize % bound
    }

    /// A number below the bound, by the next state.
    pub fn below(&mut self, bound: usize) -> usize {
        self.next();
        self.pick(bound)
    }
}

/// Puts the items in another order.
pub fn shuffle<T>(items: &mut [T]) {
    let mut random = Random::new();
    for i in 1..items.len() {
        items.swap(i, random.below(i + 1));
    }
}
