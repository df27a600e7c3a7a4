//! Numbers that look random, for tests: the same ones for each seed.

use rand_core::utils::NextWord;
use rand_pcg::Pcg32;

/// Numbers that look random, the same ones for each seed.
#[derive(Drop)]
pub struct Chance {
    words: Pcg32,
}

impl Chance {
    /// The numbers of this seed, from the first one on.
    pub fn new(seed: u64) -> Chance {
        Chance {
            words: Pcg32::new(seed, 1),
        }
    }

    /// The next number, below this one; 0 below 0.
    pub fn below(&mut self, end: usize) -> usize {
        let word = self.words.next_word() as usize;
        word.checked_rem(end).unwrap_or(0)
    }

    /// Whether something comes that happens once in so many times.
    pub fn once_in(&mut self, times: usize) -> bool {
        self.below(times) == 0
    }
}
