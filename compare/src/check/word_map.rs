//! A hash map from a few words to a number, with open addressing. It is all that
//! lists and terms need, and for these small keys faster than the general one.

#[derive(Clone, Debug)]
pub struct WordMap<const WORDS: usize> {
    entries: Vec<([u32; WORDS], u32)>,
    /// Places in `entries` from 1, 0 where empty; a power of two, at least twice
    /// as many as entries.
    slots: Vec<u32>,
}

impl<const WORDS: usize> Default for WordMap<WORDS> {
    fn default() -> Self {
        Self::with_capacity(0)
    }
}

impl<const WORDS: usize> WordMap<WORDS> {
    pub fn with_capacity(entries: usize) -> Self {
        WordMap {
            entries: Vec::with_capacity(entries),
            slots: vec![0; (2 * entries + 2).next_power_of_two()],
        }
    }

    pub fn len(&self) -> usize {
        self.entries.len()
    }

    /// The slot of a key, or the empty one where it belongs.
    fn slot(&self, key: &[u32; WORDS]) -> usize {
        let mask = self.slots.len() - 1;
        let hash = key.iter().fold(0u64, |hash, &word| {
            (hash.rotate_left(29) ^ u64::from(word)).wrapping_mul(0x9e37_79b9_7f4a_7c15)
        });
        let mut slot = (hash >> 32) as usize & mask;
        loop {
            match self.slots[slot] {
                0 => return slot,
                place if self.entries[place as usize - 1].0 == *key => return slot,
                _ => slot = (slot + 1) & mask,
            }
        }
    }

    pub fn get(&self, key: &[u32; WORDS]) -> Option<u32> {
        match self.slots[self.slot(key)] {
            0 => None,
            place => Some(self.entries[place as usize - 1].1),
        }
    }

    /// The number that the key has already; else it now has this one.
    pub fn insert(&mut self, key: [u32; WORDS], number: u32) -> Option<u32> {
        let slot = self.slot(&key);
        match self.slots[slot] {
            0 => {
                self.entries.push((key, number));
                self.slots[slot] = self.entries.len() as u32;
                if 2 * self.entries.len() >= self.slots.len() {
                    self.grow();
                }
                None
            }
            place => Some(self.entries[place as usize - 1].1),
        }
    }

    fn grow(&mut self) {
        self.slots = vec![0; 2 * self.slots.len()];
        for place in 0..self.entries.len() {
            let slot = self.slot(&self.entries[place].0);
            self.slots[slot] = place as u32 + 1;
        }
    }
}

#[cfg(test)]
mod tests {
    use super::*;
    use crate::rng::Rng;
    use std::collections::HashMap;

    #[test]
    fn agrees_with_the_general_map() {
        let mut rng = Rng::new(3);
        for capacity in [0, 1, 100] {
            let mut map = WordMap::<2>::with_capacity(capacity);
            let mut general = HashMap::new();
            for number in 1..2000 {
                let key = [rng.below(40), rng.below(40)];
                assert_eq!(map.get(&key), general.get(&key).copied());
                let known = general.get(&key).copied();
                general.entry(key).or_insert(number);
                assert_eq!(map.insert(key, number), known);
                assert_eq!(map.len(), general.len());
            }
        }
    }
}
