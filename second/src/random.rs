//! A small source of numbers (splitmix64) that gives the same ones for the same seed everywhere.

pub struct Random(u64);

impl Random {
    /// The source for one input: the number `at` of one kind under one seed, whatever was made before it.
    pub fn of(seed: u64, kind: u64, at: u64) -> Random {
        let mut state = 0;
        for part in [seed, kind, at] {
            state = Random(state ^ part).next();
        }
        Random(state)
    }

    /// The source from a state of its own.
    pub fn from_state(state: u64) -> Random {
        Random(state)
    }

    #[allow(clippy::should_implement_trait)]
    pub fn next(&mut self) -> u64 {
        self.0 = self.0.wrapping_add(0x9E37_79B9_7F4A_7C15);
        let mut mixed = self.0;
        mixed = (mixed ^ (mixed >> 30)).wrapping_mul(0xBF58_476D_1CE4_E5B9);
        mixed = (mixed ^ (mixed >> 27)).wrapping_mul(0x94D0_49BB_1331_11EB);
        mixed ^ (mixed >> 31)
    }

    /// A number below `limit`, which is above 0.
    pub fn below(&mut self, limit: usize) -> usize {
        (self.next() % limit as u64) as usize
    }

    /// A number from `low` to `high`, both included.
    pub fn between(&mut self, low: usize, high: usize) -> usize {
        low + self.below(high - low + 1)
    }

    /// True once in `times`.
    pub fn once_in(&mut self, times: usize) -> bool {
        self.below(times) == 0
    }

    /// One of some values, of which there is at least one.
    pub fn pick<T: Clone>(&mut self, values: &[T]) -> T {
        values[self.below(values.len())].clone()
    }
}
