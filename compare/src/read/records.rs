//! The job's new records. Equal terms share one record; a new one comes after its
//! parts, its lists just before it.

use crate::bundle::Section;
use crate::check::Lookup;
use crate::fault::{Fault, Rules};

/// Terms and links so far, the declarations' links first. Once a section has passed
/// its limit nothing is added, and every record is 0.
#[derive(Debug)]
pub struct Records<R> {
    rules: R,
    pub terms: Vec<u32>,
    pub links: Vec<u32>,
    lookup: Lookup,
    pub full: bool,
}

impl<R: Rules> Records<R> {
    /// `terms` is about how many there will be.
    pub fn new(rules: R, links: &[u32], terms: usize) -> Self {
        let terms = terms.min(Section::Terms.limit() as usize);
        let mut all_links = Vec::with_capacity(links.len() + 4 * terms);
        all_links.extend_from_slice(links);
        Records {
            rules,
            terms: Vec::with_capacity(4 * terms),
            links: all_links,
            lookup: Lookup::with_capacity(terms),
            full: false,
        }
    }

    pub fn variable(&mut self, variable: u32) -> u32 {
        self.without_lists([1, variable, 0, 0])
    }

    /// A quantifier, by its kind.
    pub fn quantifier(&mut self, kind: u32, variable: u32, body: u32) -> u32 {
        self.without_lists([kind, variable, body, 0])
    }

    pub fn application(&mut self, symbol: u32, arguments: &[u32]) -> u32 {
        if self.full {
            return 0;
        }
        let class = self.lookup.class_of(arguments.iter().copied());
        let key = [2, symbol, class, 0];
        self.known(key).unwrap_or_else(|| {
            let list = self.list(arguments.iter().copied());
            self.push([2, symbol, list, 0], key)
        })
    }

    /// A let over these variables and bound terms, in turn.
    pub fn binding(&mut self, pairs: &[u32], body: u32) -> u32 {
        if self.full {
            return 0;
        }
        let variables = pairs.iter().copied().step_by(2);
        let bounds = pairs.iter().copied().skip(1).step_by(2);
        let classes =
            (self.lookup.class_of(variables.clone()), self.lookup.class_of(bounds.clone()));
        let key = [5, classes.0, classes.1, body];
        self.known(key).unwrap_or_else(|| {
            let (variables, bounds) = if self.rules.has(Fault::BoundsBeforeVariables) {
                let bounds = self.list(bounds);
                (self.list(variables), bounds)
            } else {
                (self.list(variables), self.list(bounds))
            };
            self.push([5, variables, bounds, body], key)
        })
    }

    /// A term without lists: its record is its key.
    fn without_lists(&mut self, record: [u32; 4]) -> u32 {
        if self.full {
            return 0;
        }
        self.known(record).unwrap_or_else(|| self.push(record, record))
    }

    fn known(&self, key: [u32; 4]) -> Option<u32> {
        let shared = match key[0] {
            2 => !self.rules.has(Fault::ApplicationsNotShared),
            5 => !self.rules.has(Fault::LetsNotShared),
            _ => true,
        };
        self.lookup.term(key).filter(|_| shared)
    }

    fn push(&mut self, record: [u32; 4], key: [u32; 4]) -> u32 {
        let number = (self.terms.len() / 4) as u32 + 1;
        let limit = Section::Terms.limit() - u32::from(self.rules.has(Fault::TermLimitOneShort));
        self.full |= number > limit;
        if self.full {
            return 0;
        }
        self.terms.extend_from_slice(&record);
        self.lookup.insert(key, number);
        number
    }

    /// A list as new links, one after another.
    fn list(&mut self, values: impl ExactSizeIterator<Item = u32>) -> u32 {
        let count = values.len();
        let first = self.links.len() / 2 + 1;
        let limit =
            Section::Links.limit() as usize + usize::from(self.rules.has(Fault::LinkLimitOnePast));
        self.full |= first - 1 + count > limit;
        if count == 0 || self.full {
            return 0;
        }
        for (next, value) in (first as u32 + 1..).zip(values) {
            self.links.extend_from_slice(&[value, next]);
        }
        if let Some(last) = self.links.last_mut() {
            *last = 0;
        }
        first as u32
    }
}
