//! A set of places that gives back its least member quickly.

use crate::rows::Place;

/// 64 words of 64 bits hold every place; `words` marks which of them aren't empty, so the least
/// member is two bit searches away.
pub struct Ready {
    words: u64,
    bits: [u64; 64],
}

impl Ready {
    pub fn new() -> Self {
        Ready { words: 0, bits: [0; 64] }
    }

    pub fn insert(&mut self, place: Place) {
        let word = usize::from(place / 64);
        self.words |= 1 << word;
        self.bits[word] |= 1 << (place % 64);
    }

    pub fn take_least(&mut self) -> Option<Place> {
        if self.words == 0 {
            return None;
        }
        let word = self.words.trailing_zeros() as usize;
        let bit = self.bits[word].trailing_zeros();
        self.bits[word] &= self.bits[word] - 1;
        if self.bits[word] == 0 {
            self.words &= self.words - 1;
        }
        Some((64 * word) as Place + bit as Place)
    }
}

impl Default for Ready {
    fn default() -> Self {
        Ready::new()
    }
}
