//! A small seeded generator of numbers (splitmix64).

#[derive(Clone, Debug)]
pub struct Random {
    state: u64,
}

impl Random {
    pub fn new(seed: u64) -> Random {
        Random { state: seed }
    }

    pub fn word(&mut self) -> u64 {
        self.state = self.state.wrapping_add(0x9E37_79B9_7F4A_7C15);
        let mut z = self.state;
        z = (z ^ (z >> 30)).wrapping_mul(0xBF58_476D_1CE4_E5B9);
        z = (z ^ (z >> 27)).wrapping_mul(0x94D0_49BB_1331_11EB);
        z ^ (z >> 31)
    }

    pub fn byte(&mut self) -> u8 {
        self.word() as u8
    }

    /// From 0 up to but without `bound`, which is not 0.
    pub fn below(&mut self, bound: usize) -> usize {
        (self.word() % bound as u64) as usize
    }

    /// From `least` to `greatest`, both included.
    pub fn between(&mut self, least: i64, greatest: i64) -> i64 {
        least + (self.word() % (greatest - least + 1) as u64) as i64
    }

    /// True so many times of a hundred.
    pub fn percent(&mut self, times: u64) -> bool {
        self.word() % 100 < times
    }

    /// One of `choices`, which are not none.
    pub fn pick<'a, T>(&mut self, choices: &'a [T]) -> &'a T {
        &choices[self.below(choices.len())]
    }

    pub fn shuffle<T>(&mut self, values: &mut [T]) {
        for end in 1..values.len() {
            values.swap(end, self.below(end + 1));
        }
    }

    /// One of `choices` as often as its weight says; the weights make a hundred.
    pub fn weighted<'a, T>(&mut self, choices: &'a [(T, u64)]) -> &'a T {
        let mut rest = self.word() % 100;
        for (choice, weight) in choices {
            if rest < *weight {
                return choice;
            }
            rest -= weight;
        }
        unreachable!("the weights make a hundred")
    }
}
