//! Random numbers from a seed, and a long row of random bytes to cut images and garbage from.

pub struct Random {
    state: u64,
}

fn mixed(number: u64) -> u64 {
    let mut z = number;
    z = (z ^ (z >> 30)).wrapping_mul(0xBF58_476D_1CE4_E5B9);
    z = (z ^ (z >> 27)).wrapping_mul(0x94D0_49BB_1331_11EB);
    z ^ (z >> 31)
}

impl Random {
    /// The source of launch `number`: it does not depend on the launches before, so that one launch
    /// can be made again alone.
    pub fn new(seed: u64, number: u64) -> Random {
        Random {
            state: mixed(mixed(seed).wrapping_add(number)),
        }
    }

    pub fn next(&mut self) -> u64 {
        self.state = self.state.wrapping_add(0x9E37_79B9_7F4A_7C15);
        mixed(self.state)
    }

    /// A number below `bound`. The slight favour for small ones does not matter here.
    pub fn below(&mut self, bound: u64) -> u64 {
        self.next() % bound
    }

    pub fn index(&mut self, bound: usize) -> usize {
        self.below(bound as u64) as usize
    }

    /// A number from `low` to `high`, both included.
    pub fn within(&mut self, low: u64, high: u64) -> u64 {
        low + self.below(high - low + 1)
    }

    /// True in one of so many cases.
    pub fn one_in(&mut self, many: u64) -> bool {
        self.below(many) == 0
    }

    pub fn pick<T: Copy>(&mut self, choices: &[T]) -> T {
        choices[self.index(choices.len())]
    }
}

/// The longest image that is tried, and room for a cut to start anywhere in the first part.
pub const LONGEST: usize = (16 << 20) + (128 << 10);
pub const STARTS: usize = 1 << 20;

/// The same bytes in every run: a launch takes a cut of them and says where it starts.
pub fn noise() -> Vec<u8> {
    let mut random = Random::new(0, 0);
    let mut bytes = Vec::with_capacity(LONGEST + STARTS);
    while bytes.len() < LONGEST + STARTS {
        bytes.extend_from_slice(&random.next().to_le_bytes());
    }
    bytes
}
