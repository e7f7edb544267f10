//! What the comparison saw of choices and SKO (Req 07): steps that are accepted, and the numbers
//! by which others are refused.

use crate::answer::{Reason, number};
use crate::bundle::{Counts, Section, counts_of, to_words};
use crate::generate::builder::CHOICE;
use crate::generate::derive::{BIND, SKO_EXISTS, SKO_FOR_ALL};
use std::fmt;

/// What is counted.
#[derive(Clone, Copy, Debug, PartialEq, Eq)]
enum Seen {
    /// SKO steps in accepted files.
    Exists,
    ForAll,
    /// BIND steps of choices in accepted files.
    Bind,
    /// Replacing contexts that 11 refuses, of one variable by a choice of it.
    Unsettled,
    /// SKO steps refused by 12, 22 and 13.
    Count,
    Stray,
    FalseExists,
    FalseForAll,
}

const ALL: [(Seen, &str); 8] = [
    (Seen::Exists, "accepted steps of rule 6"),
    (Seen::ForAll, "accepted steps of rule 7"),
    (Seen::Bind, "accepted steps of BIND for choices"),
    (Seen::Unsettled, "refusals by 11 of a context that replaces one variable by a choice of it"),
    (Seen::Count, "SKO steps refused by 12"),
    (Seen::Stray, "SKO steps refused by 22"),
    (Seen::FalseExists, "steps of rule 6 refused by 13"),
    (Seen::FalseForAll, "steps of rule 7 refused by 13"),
];

/// How often each was seen.
#[derive(Clone, Copy, Debug, Default)]
pub struct Skolem([u64; ALL.len()]);

/// A file's records.
struct Records {
    counts: Counts,
    words: Vec<u32>,
}

impl Records {
    fn field(&self, section: Section, record: u32, field: usize) -> u32 {
        let there = record >= 1 && record <= self.counts[section];
        if there { self.words[self.counts.place(section, record, field)] } else { 0 }
    }

    /// The value of a list of one; 0 where it is another list.
    fn single(&self, start: u32) -> u32 {
        let [value, next] = [0, 1].map(|field| self.field(Section::Links, start, field));
        if next == 0 { value } else { 0 }
    }

    fn is_choice(&self, term: u32) -> bool {
        self.field(Section::Terms, term, 0) == CHOICE
    }

    /// Whether a context replaces one variable by a choice of it.
    fn is_skolem(&self, context: u32) -> bool {
        let [variables, terms] = [1, 2].map(|field| self.field(Section::Contexts, context, field));
        let (variable, term) = (self.single(variables), self.single(terms));
        self.is_choice(term) && self.field(Section::Terms, term, 1) == variable
    }
}

impl Skolem {
    /// Counts a file, by a checker's answer.
    pub fn add(&mut self, file: &[u8], answer: u64) {
        let (number, record) = (number(answer), answer as u32);
        let refused_by = |reason: Reason| number == reason.number();
        if number != 0
            && ![Reason::Unsettled, Reason::Step, Reason::Stray, Reason::Rule]
                .into_iter()
                .any(refused_by)
        {
            return;
        }
        let records =
            Records { counts: counts_of(file).unwrap_or_default(), words: to_words(file) };
        let rule = |step| records.field(Section::Steps, step, 0);
        if number == 0 {
            for step in 1..=records.counts[Section::Steps] {
                match rule(step) {
                    SKO_EXISTS => self.count(Seen::Exists),
                    SKO_FOR_ALL => self.count(Seen::ForAll),
                    BIND if records.is_choice(records.field(Section::Steps, step, 2)) => {
                        self.count(Seen::Bind);
                    }
                    _ => {}
                }
            }
        } else if refused_by(Reason::Unsettled) {
            if records.is_skolem(record) {
                self.count(Seen::Unsettled);
            }
        } else if matches!(rule(record), SKO_EXISTS | SKO_FOR_ALL) {
            self.count(if refused_by(Reason::Step) {
                Seen::Count
            } else if refused_by(Reason::Stray) {
                Seen::Stray
            } else if rule(record) == SKO_EXISTS {
                Seen::FalseExists
            } else {
                Seen::FalseForAll
            });
        }
    }

    fn count(&mut self, seen: Seen) {
        self.0[seen as usize] += 1;
    }

    /// What was seen fewer than `least` times.
    pub fn unseen(&self, least: u64) -> Vec<&'static str> {
        let counted = ALL.into_iter().map(|(seen, text)| (self.0[seen as usize], text));
        counted.filter(|&(count, _)| count < least).map(|(_, text)| text).collect()
    }
}

impl fmt::Display for Skolem {
    fn fmt(&self, out: &mut fmt::Formatter<'_>) -> fmt::Result {
        let counted: Vec<String> = ALL
            .into_iter()
            .map(|(seen, text)| format!("{} {text}", self.0[seen as usize]))
            .collect();
        writeln!(out, "{}", counted.join(", "))
    }
}
