//! Sets of variables, in the words that the checker's lent area has for each term:
//! variable v is bit (v - 1) % 64 of word (v - 1) / 64.

use crate::bundle::SET_WORDS;
use std::array;

/// A variable past the limit is in no set, and putting it into one changes nothing.
#[derive(Clone, Copy, Debug, Default, PartialEq, Eq)]
pub struct Set([u64; SET_WORDS]);

/// The word of a variable (from 1), and its bit there.
fn place(variable: u32) -> (usize, u64) {
    let index = variable.wrapping_sub(1);
    ((index / u64::BITS) as usize, 1 << (index % u64::BITS))
}

impl Set {
    pub const EMPTY: Set = Set([0; SET_WORDS]);

    /// The set of one variable.
    pub fn of(variable: u32) -> Self {
        let mut set = Set::EMPTY;
        set.insert(variable);
        set
    }

    pub fn from_words(words: [u64; SET_WORDS]) -> Self {
        Set(words)
    }

    pub fn words(self) -> [u64; SET_WORDS] {
        self.0
    }

    pub fn insert(&mut self, variable: u32) {
        let (word, bit) = place(variable);
        if let Some(word) = self.0.get_mut(word) {
            *word |= bit;
        }
    }

    pub fn remove(&mut self, variable: u32) {
        let (word, bit) = place(variable);
        if let Some(word) = self.0.get_mut(word) {
            *word &= !bit;
        }
    }

    /// The set with this variable taken out.
    pub fn but(mut self, variable: u32) -> Self {
        self.remove(variable);
        self
    }

    pub fn has(&self, variable: u32) -> bool {
        let (word, bit) = place(variable);
        self.0.get(word).is_some_and(|word| word & bit != 0)
    }

    pub fn is_empty(&self) -> bool {
        *self == Set::EMPTY
    }

    pub fn union(self, other: Set) -> Self {
        Set(array::from_fn(|word| self.0[word] | other.0[word]))
    }

    pub fn intersection(self, other: Set) -> Self {
        Set(array::from_fn(|word| self.0[word] & other.0[word]))
    }

    /// What is in this set and not in the other.
    pub fn without(self, other: Set) -> Self {
        Set(array::from_fn(|word| self.0[word] & !other.0[word]))
    }

    /// Whether every variable of this set is in the other.
    pub fn within(self, other: Set) -> bool {
        self.without(other).is_empty()
    }

    pub fn disjoint(self, other: Set) -> bool {
        self.intersection(other).is_empty()
    }

    /// The variables from the lowest to the highest.
    pub fn members(self) -> Members {
        Members { words: self.0, word: 0 }
    }
}

/// The variables of a set that are still to come.
#[derive(Clone, Debug)]
pub struct Members {
    words: [u64; SET_WORDS],
    /// The words before this one are zero.
    word: usize,
}

impl Iterator for Members {
    type Item = u32;

    fn next(&mut self) -> Option<u32> {
        while let Some(bits) = self.words.get_mut(self.word) {
            if *bits != 0 {
                let bit = bits.trailing_zeros();
                *bits &= *bits - 1;
                return Some(self.word as u32 * u64::BITS + bit + 1);
            }
            self.word += 1;
        }
        None
    }
}

impl FromIterator<u32> for Set {
    fn from_iter<I: IntoIterator<Item = u32>>(variables: I) -> Self {
        let mut set = Set::EMPTY;
        variables.into_iter().for_each(|variable| set.insert(variable));
        set
    }
}

#[cfg(test)]
mod tests {
    use super::*;
    use crate::bundle::Section;
    use crate::rng::Rng;
    use std::collections::BTreeSet;

    const LAST: u32 = Section::Variables.limit();

    #[test]
    fn places_of_variables() {
        for (variable, words) in [
            (1, [1, 0, 0, 0]),
            (64, [1 << 63, 0, 0, 0]),
            (65, [0, 1, 0, 0]),
            (128, [0, 1 << 63, 0, 0]),
            (129, [0, 0, 1, 0]),
            (192, [0, 0, 1 << 63, 0]),
            (193, [0, 0, 0, 1]),
            (256, [0, 0, 0, 1 << 63]),
        ] {
            assert_eq!(Set::of(variable).words(), words, "{variable}");
            assert_eq!(Set::from_words(words).members().collect::<Vec<_>>(), [variable]);
        }
    }

    #[test]
    fn past_the_limit() {
        for variable in [0, LAST + 1, LAST + 64, u32::MAX] {
            assert_eq!(Set::of(variable), Set::EMPTY);
            assert!(!Set::of(variable).has(variable));
            let full: Set = (1..=LAST).collect();
            assert_eq!(full.but(variable), full);
        }
    }

    /// Every operation does what it does on a set of numbers.
    #[test]
    fn agrees_with_sets_of_numbers() {
        let mut rng = Rng::new(9);
        let mut draw = |most: u32| -> BTreeSet<u32> {
            (0..rng.below(most)).map(|_| rng.between(1, LAST)).collect()
        };
        for most in [1, 3, 20, 400] {
            for _ in 0..200 {
                let (one, other) = (draw(most), draw(most));
                let [a, b]: [Set; 2] =
                    [&one, &other].map(|numbers| numbers.iter().copied().collect());
                let same = |set: Set, numbers: BTreeSet<u32>| {
                    assert_eq!(set.members().collect::<Vec<_>>(), Vec::from_iter(numbers));
                };
                same(a, one.clone());
                same(a.union(b), &one | &other);
                same(a.intersection(b), &one & &other);
                same(a.without(b), &one - &other);
                assert_eq!(a.disjoint(b), one.is_disjoint(&other));
                assert_eq!(a.within(b), one.is_subset(&other));
                assert!(a.intersection(b).within(a));
                assert_eq!(a.is_empty(), one.is_empty());
                assert_eq!(a == b, one == other);
                for variable in 1..=LAST {
                    assert_eq!(a.has(variable), one.contains(&variable));
                    same(a.but(variable), &one - &BTreeSet::from([variable]));
                    same(a.union(Set::of(variable)), &one | &BTreeSet::from([variable]));
                }
            }
        }
    }
}
