//! The reader of formulas, written from document 02, Req 01. It takes declarations, a
//! bundle without terms, contexts, steps and claim, and a text in SMT-LIB's form, and
//! writes the job whose left is that formula.
//!
//! One pass over the text: the grammar and the names (19, 20) end it, sorts (8) and
//! limits (16) are noted beside them and asked for at the end. Its stacks lie in the
//! heap, so a text may be nested as deep as it is long.

mod lexemes;
mod parser;
mod records;
mod sorts;

use crate::answer::{Reason, Refusal};
use crate::bundle::{Counts, MAX_BYTES, MAX_SETS, MAX_WORDS, SET_WORDS, Section};
use crate::check::{Declarations, Sort};
use crate::fault::{Exact, Fault, Rules};
use parser::Parser;

/// Writes the job of a text into `out` and answers its length. On refusal every area
/// is zero; otherwise `out` is zero after the job and the scratch areas are zero.
pub fn read(
    declarations: &[u8],
    text: &[u8],
    out: &mut [u8],
    words: &mut [u32],
    sets: &mut [u64],
) -> Result<usize, Refusal> {
    read_with(Exact, declarations, text, out, words, sets)
}

/// The job that the reader makes of a text, without lent areas.
pub fn job(declarations: &[u8], text: &[u8]) -> Result<Vec<u8>, Refusal> {
    let job = job_of(Exact, declarations, text, true)?;
    let mut bytes = vec![0; job.bytes()];
    job.store(&mut bytes);
    Ok(bytes)
}

/// The reader by the given rules: the exact ones in [`read`].
pub(crate) fn read_with<R: Rules>(
    rules: R,
    declarations: &[u8],
    text: &[u8],
    out: &mut [u8],
    words: &mut [u32],
    sets: &mut [u64],
) -> Result<usize, Refusal> {
    let suffice = out.len() >= MAX_BYTES
        && words.len() >= MAX_WORDS
        && sets.len()
            >= if rules.has(Fault::ReadSetsOfTerms) {
                MAX_SETS / SET_WORDS
            } else {
                MAX_SETS - usize::from(rules.has(Fault::ReadSetsOneShort))
            };
    let job = job_of(rules, declarations, text, suffice);
    if !rules.has(Fault::ReadScratchKept) {
        words.fill(0);
        sets.fill(0);
    }
    match job {
        Ok(job) => {
            let length = job.bytes();
            job.store(out);
            if !rules.has(Fault::ReadTailKept) {
                out[length..].fill(0);
            }
            Ok(length)
        }
        Err(refusal) => {
            if !rules.has(Fault::ReadOutputKept) {
                out.fill(0);
            }
            Err(refusal)
        }
    }
}

/// The sections of a job that are not empty, and its left.
struct Job {
    declared: Declarations,
    terms: Vec<u32>,
    links: Vec<u32>,
    left: u32,
}

impl Job {
    fn counts(&self) -> Counts {
        let mut counts = self.declared.header.counts;
        counts[Section::Terms] = (self.terms.len() / Section::Terms.width()) as u32;
        counts[Section::Links] = (self.links.len() / Section::Links.width()) as u32;
        counts
    }

    fn bytes(&self) -> usize {
        self.counts().bytes() as usize
    }

    /// Stores the job at the start of `out`.
    fn store(&self, out: &mut [u8]) {
        let counts = self.counts();
        let mut header = [1, 0, 0, 0, 0, 0, 0, self.left, 0];
        header[1..7].copy_from_slice(&Section::ALL.map(|section| counts[section]));
        let sections: [&[u32]; 5] = [
            &header,
            self.declared.section(Section::Symbols),
            self.declared.section(Section::Variables),
            &self.terms,
            &self.links,
        ];
        let (places, _) = out.as_chunks_mut::<4>();
        for (place, word) in places.iter_mut().zip(sections.into_iter().flatten()) {
            *place = word.to_le_bytes();
        }
    }
}

fn job_of<R: Rules>(
    rules: R,
    declarations: &[u8],
    text: &[u8],
    areas_suffice: bool,
) -> Result<Job, Refusal> {
    let refused = |reason| Err(Refusal::whole(reason));
    let declared = Declarations::decode(Exact, declarations, |_| areas_suffice)?;
    let header = declared.header;
    let bare = [Section::Terms, Section::Contexts, Section::Steps]
        .into_iter()
        .all(|section| header.counts[section] == 0)
        && (header.left == 0 || rules.has(Fault::LeftUnread))
        && header.right == 0;
    if !bare {
        return refused(Reason::NotBare);
    }
    let mut parser = Parser::new(rules, &declared, text);
    let formula = parser.formula()?;
    let (sorts, records) = (parser.sorts, parser.records);
    if rules.has(Fault::FullBeforeTyping) && records.full {
        return refused(Reason::Full);
    }
    let is_truth = formula.sort == Sort::Truth || rules.has(Fault::ItemFormulaTaken);
    if !(sorts.sound && is_truth) {
        return refused(Reason::Typing);
    }
    if records.full {
        return refused(Reason::Full);
    }
    let (terms, links) = (records.terms, records.links);
    Ok(Job { declared, terms, links, left: formula.record })
}
