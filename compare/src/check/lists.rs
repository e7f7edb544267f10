//! Links and lists (refusal 5). Every chain runs towards higher numbers, so one
//! pass from the last link to the first knows each list's tail already.

use super::first_refusal;
use super::word_map::WordMap;
use crate::answer::{Reason, Refusal};
use crate::fault::{Fault, Rules};

/// What is known of the list that starts at a link.
#[derive(Clone, Copy, Debug)]
struct Known {
    length: u32,
    smallest: u32,
    largest: u32,
    /// Equal for two starts exactly where their lists are equal by value.
    class: u32,
}

const EMPTY: Known = Known { length: 0, smallest: u32::MAX, largest: 0, class: 0 };

/// Classes of lists: a list is its first value and the class of its tail. The
/// empty list's class is 0.
#[derive(Clone, Debug, Default)]
pub struct Classes(WordMap<2>);

impl Classes {
    pub fn with_capacity(lists: usize) -> Self {
        Classes(WordMap::with_capacity(lists))
    }

    /// The class of the list that has `value` before a list of class `tail`.
    pub fn class(&mut self, value: u32, tail: u32) -> u32 {
        let fresh = self.0.len() as u32 + 1;
        self.0.insert([value, tail], fresh).unwrap_or(fresh)
    }
}

/// Whether a link's next is a later link, of so many.
fn climbs(number: u32, next: u32, count: u32) -> bool {
    next > number && next <= count
}

#[derive(Debug)]
pub struct Lists {
    /// Value and next of each link: walks read these alone. Index 0 is no link.
    links: Vec<[u32; 2]>,
    /// Index 0 is the empty list.
    known: Vec<Known>,
}

impl Lists {
    pub fn decode<R: Rules>(rules: R, records: &[[u32; 2]]) -> Result<(Self, Classes), Refusal> {
        let count = records.len() as u32;
        first_refusal(rules, records.iter(), |number, &[_, next]| {
            let sound = (next == 0 || climbs(number, next, count))
                && !(rules.has(Fault::LastLinkRefused) && next == count)
                || rules.has(Fault::LinkToItselfTaken) && next == number
                || rules.has(Fault::LinkPastEndTaken) && next == count + 1;
            if sound { Ok(()) } else { Err(Reason::Link) }
        })?;
        Ok(Self::read(records))
    }

    /// The lists of any links: a chain ends at a next that does not climb, or that is
    /// over the number of links.
    pub fn read(records: &[[u32; 2]]) -> (Self, Classes) {
        let count = records.len() as u32;
        let mut classes = Classes::with_capacity(records.len());
        let mut links = vec![[0; 2]; records.len() + 1];
        let mut known = vec![EMPTY; records.len() + 1];
        for (index, &[value, next]) in records.iter().enumerate().rev() {
            let number = index as u32 + 1;
            let next = if climbs(number, next, count) { next } else { 0 };
            let tail = known[next as usize];
            links[number as usize] = [value, next];
            known[number as usize] = Known {
                length: tail.length + 1,
                smallest: tail.smallest.min(value),
                largest: tail.largest.max(value),
                class: classes.class(value, tail.class),
            };
        }
        (Lists { links, known }, classes)
    }

    /// Whether `start` may start a list: 0 or a link.
    pub fn starts(&self, start: u32) -> bool {
        (start as usize) < self.links.len()
    }

    pub fn length(&self, start: u32) -> u32 {
        self.known[start as usize].length
    }

    /// Whether every value of the list is from 1 to `largest`.
    pub fn within(&self, start: u32, largest: u32) -> bool {
        let list = &self.known[start as usize];
        list.smallest >= 1 && list.largest <= largest
    }

    /// Whether every value of the list is at most `largest`.
    pub fn at_most(&self, start: u32, largest: u32) -> bool {
        self.known[start as usize].largest <= largest
    }

    /// Two starts have the same class exactly where their lists have the same
    /// values.
    pub fn class(&self, start: u32) -> u32 {
        self.known[start as usize].class
    }

    /// The first value and the start of the rest; `None` for the empty list.
    pub fn split(&self, start: u32) -> Option<(u32, u32)> {
        if start == 0 {
            return None;
        }
        let [value, next] = self.link(start);
        Some((value, next))
    }

    /// A link's value and next.
    pub fn link(&self, number: u32) -> [u32; 2] {
        self.links[number as usize]
    }

    pub fn values(&self, start: u32) -> impl Iterator<Item = u32> + '_ {
        let mut rest = start;
        std::iter::from_fn(move || {
            let (value, next) = self.split(rest)?;
            rest = next;
            Some(value)
        })
    }

    /// The only value of a list of length 1.
    pub fn single(&self, start: u32) -> Option<u32> {
        match self.split(start) {
            Some((value, 0)) => Some(value),
            _ => None,
        }
    }

    /// The number of links.
    pub fn count(&self) -> usize {
        self.links.len() - 1
    }
}
