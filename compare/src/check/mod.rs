//! The checker, written from document 01.
//!
//! A file is decoded into tables in the order of the refusals. What a record
//! needs to know of a list (its length, smallest and largest value, and which
//! other lists equal it) is computed once for each link, from the end of the
//! chain, and what a list of terms was found to be is remembered at its links. So
//! the time is linear in the file, also where lists are shared, but for a factor of
//! at most 256 in lets and contexts (a variable each), for CONG, which takes each of
//! its three lists once at every step (Req 03), so as long as they are together, and for
//! REFL, which walks up to 4,096 pairs of terms at a step (Req 04).

mod contexts;
mod header;
mod links;
mod lists;
mod signature;
mod steps;
mod terms;
mod whole;
mod word_map;

pub use header::Header;
pub use links::links;
pub(crate) use links::links_with;
pub use lists::Lists;
pub use signature::{Arguments, Profile, Signature, Sort};
pub use terms::{Binder, Term, Terms};
pub use whole::MOST_PAIRS;

use crate::answer::{Accepted, Reason, Refusal, Whole};
use crate::bundle::{Counts, SET_WORDS, Section, area_words, to_words};
use crate::fault::{Exact, Fault, OLD_VARIABLES, Rules};
use crate::set::Set;
use contexts::Contexts;
use lists::Classes;
use terms::Key;
use whole::Binders;
use word_map::WordMap;

/// Checks a file. `free` is the lent area: on acceptance the words from
/// `SET_WORDS` * (i - 1) hold the free variables of term i and the rest is zero; on
/// refusal all of it is zero.
pub fn check(file: &[u8], free: &mut [u64]) -> Result<Accepted, Refusal> {
    check_with(Exact, file, free)
}

/// The checker by the given rules: the exact ones in [`check`].
pub(crate) fn check_with<R: Rules>(
    rules: R,
    file: &[u8],
    free: &mut [u64],
) -> Result<Accepted, Refusal> {
    match judge(rules, file, free.len()) {
        Ok((terms, accepted)) => {
            if rules.has(Fault::SetsWrittenClose) {
                free.fill(0);
                for (place, set) in terms.free_sets().enumerate() {
                    free[place..place + SET_WORDS].copy_from_slice(&set.words());
                }
                return Ok(accepted);
            }
            let (places, _) = free.as_chunks_mut::<SET_WORDS>();
            for (place, set) in places.iter_mut().zip(terms.free_sets()) {
                *place = set.words();
            }
            // Only a fault takes an area that ends before the last set.
            let end = area_words(terms.count()).min(free.len());
            if !rules.has(Fault::AreaTailKept) {
                free[end..].fill(0);
            }
            Ok(accepted)
        }
        Err(refusal) => {
            if !rules.has(Fault::AreaKeptOnRefusal) {
                free.fill(0);
            }
            Err(refusal)
        }
    }
}

fn judge<R: Rules>(rules: R, file: &[u8], area: usize) -> Result<(Terms, Accepted), Refusal> {
    let area = if rules.has(Fault::AreaOneShort) { area + 1 } else { area };
    let tables = Tables::decode(rules, file, |counts| {
        let terms = counts[Section::Terms];
        area >= if rules.has(Fault::AreaOfTerms) { terms as usize } else { area_words(terms) }
    })?;
    let contexts = Contexts::decode(rules, &tables)?;
    let accepted = steps::check(rules, &tables, &contexts)?;
    Ok((tables.terms, accepted))
}

/// The walk of a whole-term REFL with these sides in a context of a file, whatever its
/// steps are; also where an earlier form of REFL would take it. `None` where one of 1 to 11
/// refuses the file, or there is no such context or term.
pub fn walk(file: &[u8], context: u32, sides: [u32; 2]) -> Option<Whole> {
    let tables = Tables::decode(Exact, file, |_| true).ok()?;
    let contexts = Contexts::decode(Exact, &tables).ok()?;
    let there = context <= contexts.count() && sides.iter().all(|&term| tables.terms.is_term(term));
    let mut binders = Binders::default();
    there.then(|| whole::walk(Exact, &tables, &contexts, &mut binders, context, sides))
}

/// The sorts of two terms of a file, and their free variables that a context of it does not
/// mention (Req 05). `None` where one of 1 to 11 refuses the file, or there is no such context
/// or term.
pub fn sides_in(file: &[u8], context: u32, sides: [u32; 2]) -> Option<([Sort; 2], Set)> {
    let tables = Tables::decode(Exact, file, |_| true).ok()?;
    let contexts = Contexts::decode(Exact, &tables).ok()?;
    let Tables { terms, .. } = &tables;
    let there = context <= contexts.count() && sides.iter().all(|&term| terms.is_term(term));
    there.then(|| {
        let [left, right] = sides.map(|term| terms.free(Exact, term));
        let stray = left.union(right).without(contexts.mentioned(context));
        (sides.map(|term| terms.get(term).sort), stray)
    })
}

/// What precedes terms, decoded and found well formed.
#[derive(Debug)]
pub struct Declarations {
    pub header: Header,
    pub words: Vec<u32>,
    pub lists: Lists,
    pub signature: Signature,
    classes: Classes,
}

impl Declarations {
    /// Refusals 1 to 6; `areas_suffice` tells whether the lent areas are long
    /// enough for a file with these counts.
    pub fn decode<R: Rules>(
        rules: R,
        file: &[u8],
        areas_suffice: impl Fn(&Counts) -> bool,
    ) -> Result<Self, Refusal> {
        let header = Header::read(rules, file, areas_suffice)?;
        let words = to_words(file);
        let links = records(&words, &header.counts, Section::Links).as_chunks().0;
        let symbols = records(&words, &header.counts, Section::Symbols).as_chunks().0;
        let variables = records(&words, &header.counts, Section::Variables);
        let (lists, classes) = Lists::decode(rules, links)?;
        let signature = Signature::decode(rules, symbols, variables, &lists)?;
        Ok(Declarations { header, words, lists, signature, classes })
    }

    pub fn section(&self, section: Section) -> &[u32] {
        records(&self.words, &self.header.counts, section)
    }
}

/// What precedes contexts and steps, decoded and found well formed.
#[derive(Debug)]
pub struct Tables {
    pub header: Header,
    pub words: Vec<u32>,
    pub lists: Lists,
    pub signature: Signature,
    pub terms: Terms,
    pub lookup: Lookup,
}

/// Finds lists and terms by value.
#[derive(Clone, Debug, Default)]
pub struct Lookup {
    classes: Classes,
    terms: WordMap<4>,
}

impl Lookup {
    /// Room for so many terms, and for links twice as many.
    pub fn with_capacity(terms: usize) -> Self {
        Lookup { classes: Classes::with_capacity(2 * terms), terms: WordMap::with_capacity(terms) }
    }

    /// The class of the list of these values.
    pub fn class_of(&mut self, values: impl DoubleEndedIterator<Item = u32>) -> u32 {
        values.rev().fold(0, |tail, value| self.classes.class(value, tail))
    }

    pub fn term(&self, key: Key) -> Option<u32> {
        self.terms.get(&key)
    }

    pub fn insert(&mut self, key: Key, number: u32) {
        self.terms.insert(key, number);
    }
}

impl Tables {
    /// Refusals 1 to 9.
    pub fn decode<R: Rules>(
        rules: R,
        file: &[u8],
        areas_suffice: impl Fn(&Counts) -> bool,
    ) -> Result<Self, Refusal> {
        let Declarations { header, words, lists, signature, classes } =
            Declarations::decode(rules, file, areas_suffice)?;
        let terms = records(&words, &header.counts, Section::Terms).as_chunks().0;
        let (terms, numbers) = Terms::decode(rules, terms, &signature, &lists)?;
        let lookup = Lookup { classes, terms: numbers };
        Ok(Tables { header, words, lists, signature, terms, lookup })
    }

    pub fn section(&self, section: Section) -> &[u32] {
        records(&self.words, &self.header.counts, section)
    }
}

fn records<'a>(words: &'a [u32], counts: &Counts, section: Section) -> &'a [u32] {
    let start = counts.start(section);
    &words[start..start + counts[section] as usize * section.width()]
}

/// The first refused record of a section decides.
fn first_refusal<T, R: Rules>(
    rules: R,
    records: impl Iterator<Item = T>,
    mut judge: impl FnMut(u32, T) -> Result<(), Reason>,
) -> Result<(), Refusal> {
    let mut outcome = Ok(());
    for (number, record) in (1..).zip(records) {
        if let Err(reason) = judge(number, record) {
            outcome = Err(Refusal::at(reason, number));
            if !rules.has(Fault::LastRecordCounts) {
                break;
            }
        }
    }
    outcome
}

/// The variable that stands for this one in sets: itself, but for a fault.
fn member<R: Rules>(rules: R, variable: u32) -> u32 {
    if rules.has(Fault::VariablesFolded) { (variable - 1) % OLD_VARIABLES + 1 } else { variable }
}
