//! The comparison of the links that CONG's test reads (Req 03), at chosen steps of the files
//! of the comparison of checks.

use crate::answer::Reason;
use crate::bundle::{Section, counts_of, to_words};
use crate::generate::derive::CONG;
use crate::rng::Rng;
use crate::tally::{self, Counts};
use std::fmt;

/// The links that CONG's test of a step reads, as the proved library counts them: the
/// count where the test passes, 13 * 2^32 + count where it fails; 12 * 2^32 where there is
/// no such step, and 1, 2 or 3 for the header.
pub type Counter<'a> = &'a dyn Fn(&[u8], usize) -> u64;

/// The numbers of such an answer; 0 where the test passes.
fn numbers() -> impl Iterator<Item = Reason> {
    [Reason::Length, Reason::Version, Reason::Limit, Reason::Step, Reason::Rule].into_iter()
}

/// The steps to ask for: one of CONG, one of another rule, the one that the check's answer
/// refuses, and now and then numbers that are no step's.
pub fn steps(file: &[u8], answer: u64, index: u64) -> Vec<usize> {
    let mut rng = Rng::new(index);
    let whole = counts_of(file)
        .filter(|counts| counts.within_limits() && counts.bytes() == file.len() as u64);
    let Some(counts) = whole else { return vec![rng.below(3) as usize] };
    let words = to_words(file);
    let last = counts[Section::Steps];
    let (cong, others): (Vec<u32>, Vec<u32>) =
        (1..=last).partition(|&step| words[counts.place(Section::Steps, step, 0)] == CONG);
    let mut steps: Vec<usize> = [rng.pick(&cong), rng.pick(&others)]
        .into_iter()
        .flatten()
        .map(|&step| step as usize)
        .collect();
    let refused = answer as u32 as usize;
    let refusals = [Reason::Step, Reason::Stray, Reason::Rule];
    if refusals.iter().any(|reason| u64::from(reason.number()) == answer >> 32)
        && !steps.contains(&refused)
    {
        steps.push(refused);
    }
    if rng.chance(10) {
        let last = last as usize;
        // The fourth is the last step's number where it is cut to 32 bits.
        steps.extend([0, last + 1, usize::MAX, (1 << 32) + last]);
    }
    steps
}

/// The counts that were compared.
#[derive(Clone, Debug, Default)]
pub struct Walks {
    /// By the answer's number.
    calls: Counts,
    /// Links counted where the test passes and where it fails.
    passing: u64,
    failing: u64,
    /// Counts that went to the plain reading too.
    plain: u64,
}

impl Walks {
    /// What differs at a step of a file, if something does: the subject's count against the
    /// reference's and, where it is given, the plain reading's.
    pub fn problem(
        &mut self,
        [subject, reference]: [Counter; 2],
        plain: Option<Counter>,
        file: &[u8],
        step: usize,
    ) -> Option<String> {
        let (found, expected) = (subject(file, step), reference(file, step));
        *self.calls.entry(expected >> 32).or_default() += 1;
        let links = expected & 0xffff_ffff;
        match expected >> 32 {
            0 => self.passing += links,
            _ => self.failing += links,
        }
        self.plain += u64::from(plain.is_some());
        let against = |other: u64, from: &str| {
            let [found, other] = [found, other].map(text);
            (found != other)
                .then(|| format!("links of step {step}: {found} against {other} {from}"))
        };
        against(expected, "from the Rust checker")
            .or_else(|| against(plain?(file, step), "from the plain reading"))
    }

    /// The numbers of such an answer, and 0, answered fewer than `least` times.
    pub fn unseen(&self, least: u64) -> Vec<u32> {
        tally::unseen(&self.calls, numbers(), least)
    }
}

/// An answer for people.
fn text(answer: u64) -> String {
    let links = answer & 0xffff_ffff;
    match answer >> 32 {
        0 => format!("{links}, passed"),
        13 => format!("{links}, failed"),
        number => format!("refused {number} {links}"),
    }
}

impl fmt::Display for Walks {
    fn fmt(&self, out: &mut fmt::Formatter<'_>) -> fmt::Result {
        let count = |number: u64| tally::count(&self.calls, number);
        let (passed, failed) = (count(0), count(Reason::Rule.number().into()));
        let all: u64 = self.calls.values().sum();
        writeln!(
            out,
            "{} counts of CONG's links compared: {passed} of tests that pass, {} links, and \
             {failed} of tests that fail, {} links; {} of other numbers and headers; {} of all \
             also with the plain reading",
            all,
            self.passing,
            self.failing,
            all - passed - failed,
            self.plain
        )
    }
}
