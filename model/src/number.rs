//! Whole numbers of any size, lowest word first, with no zero word at the top.
#[derive(Clone, PartialEq, Eq, Debug, Default)]
pub struct Number(Vec<u64>);

impl Number {
    pub fn from_words(words: &[u64]) -> Number {
        let mut kept = words.to_vec();
        while kept.last() == Some(&0) {
            kept.pop();
        }
        Number(kept)
    }

    pub fn plus(&self, other: &Number) -> Number {
        let mut sum = Vec::new();
        let mut carry = 0u128;
        for i in 0..self.0.len().max(other.0.len()) {
            let word = u128::from(self.word(i)) + u128::from(other.word(i)) + carry;
            sum.push(word as u64);
            carry = word >> 64;
        }
        sum.push(carry as u64);
        Number::from_words(&sum)
    }

    pub fn one_more(&self) -> Number {
        self.plus(&Number(vec![1]))
    }

    /// Its words, none for 0.
    pub fn words(&self) -> &[u64] {
        &self.0
    }

    pub fn word(&self, i: usize) -> u64 {
        self.0.get(i).copied().unwrap_or(0)
    }

    /// Bit i, counted from the lowest.
    pub fn bit(&self, i: usize) -> bool {
        self.word(i / 64) >> (i % 64) & 1 == 1
    }

    pub fn is_odd(&self) -> bool {
        self.bit(0)
    }

    /// Below 2^l.
    pub fn has_bits(&self, l: usize) -> bool {
        (l..self.0.len() * 64).all(|i| !self.bit(i))
    }

    /// The rest by a modulus, bit by bit from the top.
    pub fn rest(&self, modulus: u128) -> u128 {
        self.0.iter().rev().fold(0, |rest, &word| {
            (0..64).rev().fold(rest, |rest, i| {
                (rest * 2 + u128::from(word >> i & 1)) % modulus
            })
        })
    }
}
