//! The file's layout: sections, limits, lengths, words and bytes.

use std::ops::{Index, IndexMut};

#[derive(Clone, Copy, Debug, PartialEq, Eq, Hash)]
pub enum Section {
    Symbols,
    Variables,
    Terms,
    Links,
    Contexts,
    Steps,
}

impl Section {
    /// In the order of the file.
    pub const ALL: [Section; 6] = [
        Section::Symbols,
        Section::Variables,
        Section::Terms,
        Section::Links,
        Section::Contexts,
        Section::Steps,
    ];

    /// The largest count.
    pub const fn limit(self) -> u32 {
        match self {
            Section::Symbols => 64,
            Section::Variables => 256,
            Section::Terms => 1024,
            Section::Links => 2048,
            Section::Contexts => 256,
            Section::Steps => 1024,
        }
    }

    /// Words in a record.
    pub const fn width(self) -> usize {
        match self {
            Section::Symbols => 2,
            Section::Variables => 1,
            Section::Terms => 4,
            Section::Links => 2,
            Section::Contexts => 4,
            Section::Steps => 5,
        }
    }
}

pub const HEADER_WORDS: usize = 9;
pub const HEADER_BYTES: usize = 4 * HEADER_WORDS;
/// Places of the claim in the header.
pub const LEFT: usize = 7;
pub const RIGHT: usize = 8;

/// The longest file has every section at its limit.
pub const MAX_WORDS: usize = {
    let mut words = HEADER_WORDS;
    let mut section = 0;
    while section < Section::ALL.len() {
        words += Section::ALL[section].limit() as usize * Section::ALL[section].width();
        section += 1;
    }
    words
};
pub const MAX_BYTES: usize = 4 * MAX_WORDS;

/// Words of 64 bits in a set of variables.
pub const SET_WORDS: usize = Section::Variables.limit().div_ceil(u64::BITS) as usize;
/// Words of 64 bits for a set of each term, in the longest file.
pub const MAX_SETS: usize = area_words(Section::Terms.limit());

/// Words of 64 bits that the checker is lent at least: a set for each of so many terms.
pub const fn area_words(terms: u32) -> usize {
    SET_WORDS * terms as usize
}

/// Symbols above this number are declared by the file.
pub const BUILT_IN: u32 = 32;

/// The number of records in each section.
#[derive(Clone, Copy, Debug, Default, PartialEq, Eq)]
pub struct Counts([u32; 6]);

impl Counts {
    pub fn new(counts: [u32; 6]) -> Self {
        Counts(counts)
    }

    pub fn within_limits(&self) -> bool {
        Section::ALL.iter().all(|&section| self[section] <= section.limit())
    }

    /// Length of a file with these counts. It does not overflow 64 bits.
    pub fn words(&self) -> u64 {
        let records: u64 = Section::ALL
            .iter()
            .map(|&section| u64::from(self[section]) * section.width() as u64)
            .sum();
        HEADER_WORDS as u64 + records
    }

    pub fn bytes(&self) -> u64 {
        4 * self.words()
    }

    /// The word at which a section starts.
    pub fn start(&self, section: Section) -> usize {
        let before: usize = Section::ALL
            .iter()
            .take_while(|&&other| other != section)
            .map(|&other| self[other] as usize * other.width())
            .sum();
        HEADER_WORDS + before
    }

    /// The place of a record's field; records count from 1, fields from 0.
    pub fn place(&self, section: Section, record: u32, field: usize) -> usize {
        self.start(section) + (record as usize - 1) * section.width() + field
    }
}

impl Index<Section> for Counts {
    type Output = u32;

    fn index(&self, section: Section) -> &u32 {
        &self.0[section as usize]
    }
}

impl IndexMut<Section> for Counts {
    fn index_mut(&mut self, section: Section) -> &mut u32 {
        &mut self.0[section as usize]
    }
}

pub fn to_bytes(words: &[u32]) -> Vec<u8> {
    words.iter().flat_map(|word| word.to_le_bytes()).collect()
}

/// The whole words of a file; up to three bytes at its end are left out.
pub fn to_words(bytes: &[u8]) -> Vec<u32> {
    let (words, _) = bytes.as_chunks::<4>();
    words.iter().copied().map(u32::from_le_bytes).collect()
}

/// The header's words, if there are enough bytes.
pub fn header_of(bytes: &[u8]) -> Option<[u32; HEADER_WORDS]> {
    let (words, _) = bytes.get(..HEADER_BYTES)?.as_chunks::<4>();
    let words: &[[u8; 4]; HEADER_WORDS] = words.try_into().ok()?;
    Some(words.map(u32::from_le_bytes))
}

/// The counts that a file's header gives, if it has a header.
pub fn counts_of(bytes: &[u8]) -> Option<Counts> {
    let [_, counts @ .., _, _] = header_of(bytes)?;
    Some(Counts(counts))
}

#[cfg(test)]
mod tests {
    use super::*;

    #[test]
    fn longest_file() {
        let mut full = Counts::default();
        for section in Section::ALL {
            full[section] = section.limit();
        }
        assert_eq!(full.words(), MAX_WORDS as u64);
        assert_eq!((MAX_WORDS, full.bytes()), (14_729, 58_916));
        assert_eq!((SET_WORDS, MAX_SETS), (4, 4_096));
        assert_eq!(full.place(Section::Steps, 1024, 4), MAX_WORDS - 1);
        assert!(full.within_limits());
        full[Section::Contexts] += 1;
        assert!(!full.within_limits());
    }
}
