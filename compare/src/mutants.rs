//! Copies of the checker, the writer and the reader with one fault each. The comparison
//! has to tell every one of them from the exact one by the ordinary files.

use crate::answer::{packed, packed_walk};
use crate::bundle::MAX_SETS;
use crate::check::{check, check_with, links_with};
use crate::compare::{Checker, areas, call};
use crate::compare_links::{self, Counter};
use crate::compare_reader::{self, Reader, Reading};
use crate::compare_writer::{self, Writer, Writing, lengths};
use crate::expand::{Names, expand_with};
use crate::fault::{Broken, Fault};
use crate::generate::jobs::job;
use crate::generate::{case, texts};
use crate::read::read_with;

/// The checker with one fault.
pub fn broken_checker(fault: Fault) -> impl Fn(&[u8], &mut [u64]) -> u64 {
    move |file, free| packed(check_with(Broken(fault), file, free))
}

/// The checker's count of CONG's links with one fault.
pub fn broken_links(fault: Fault) -> impl Fn(&[u8], usize) -> u64 {
    move |file, step| packed_walk(links_with(Broken(fault), file, step))
}

/// The writer with one fault.
pub fn broken_writer(fault: Fault) -> Box<Writing<'static>> {
    Box::new(move |job, names, out, words, sets| {
        compare_writer::packed(expand_with(Broken(fault), job, names, out, words, sets))
    })
}

/// The reader with one fault.
pub fn broken_reader(fault: Fault) -> Box<Reading<'static>> {
    Box::new(move |declarations, text, out, words, sets| {
        let rules = Broken(fault);
        compare_reader::packed(read_with(rules, declarations, text, out, words, sets))
    })
}

/// How a broken copy fared.
#[derive(Clone, Copy, Debug)]
pub struct Verdict {
    pub fault: Fault,
    /// The first file on which it differs, if any does.
    pub first: Option<u64>,
    /// How many files it differs on.
    pub differs: u64,
}

impl Verdict {
    fn all(faults: &[Fault]) -> Vec<Verdict> {
        faults.iter().map(|&fault| Verdict { fault, first: None, differs: 0 }).collect()
    }

    fn note(&mut self, index: u64) {
        self.first.get_or_insert(index);
        self.differs += 1;
    }
}

/// Holds every fault to every input; where `until_told`, each only up to the first input
/// that tells it apart. `same` says whether the fault's copy does on an input what the exact
/// one was found to do.
fn try_faults<T>(
    faults: &[Fault],
    inputs: u64,
    until_told: bool,
    exact: impl Fn(u64) -> T,
    same: impl Fn(Fault, u64, &T) -> bool,
) -> Vec<Verdict> {
    let mut verdicts = Verdict::all(faults);
    for index in 0..inputs {
        if until_told && verdicts.iter().all(|verdict| verdict.first.is_some()) {
            break;
        }
        let expected = exact(index);
        for verdict in &mut verdicts {
            if until_told && verdict.first.is_some() {
                continue;
            }
            if !same(verdict.fault, index, &expected) {
                verdict.note(index);
            }
        }
    }
    verdicts
}

/// The broken checkers on the files, with areas of several lengths.
pub fn try_checkers(exact: Checker, seed: u64, files: u64, until_told: bool) -> Vec<Verdict> {
    let expect = |index| {
        let file = case(seed, index).bytes;
        let expected = areas(&file).map(|length| (length, call(exact, &file, length, index)));
        (file, expected)
    };
    try_faults(Fault::CHECKER, files, until_told, expect, |fault, index, (file, expected)| {
        let broken = broken_checker(fault);
        expected.iter().all(|(length, expected)| call(&broken, file, *length, index) == *expected)
    })
}

/// The checkers whose walk of CONG's lists is broken, by the links that it counts.
pub fn try_walks(exact: Counter, seed: u64, files: u64, until_told: bool) -> Vec<Verdict> {
    let expect = |index| {
        let file = case(seed, index).bytes;
        let answer = packed(check(&file, &mut [0; MAX_SETS]));
        let expected: Vec<(usize, u64)> = compare_links::steps(&file, answer, index)
            .into_iter()
            .map(|step| (step, exact(&file, step)))
            .collect();
        (file, expected)
    };
    try_faults(Fault::WALK, files, until_told, expect, |fault, _, (file, expected)| {
        let broken = broken_links(fault);
        expected.iter().all(|&(step, expected)| broken(file, step) == expected)
    })
}

/// The broken writers on the jobs, under both choices.
pub fn try_writers(exact: Writer, seed: u64, jobs: u64, until_told: bool) -> Vec<Verdict> {
    let expect = |index| {
        let job = job(seed, index).bytes;
        let expected = Names::ALL.map(|names| {
            let call = |lengths| compare_writer::call(exact, &job, names, lengths, index);
            (names, lengths(index).map(|lengths| (lengths, call(lengths))))
        });
        (job, expected)
    };
    try_faults(Fault::WRITER, jobs, until_told, expect, |fault, index, (job, expected)| {
        let broken = broken_writer(fault);
        expected.iter().all(|(names, expected)| {
            expected.iter().all(|(lengths, expected)| {
                compare_writer::call(&broken, job, *names, *lengths, index) == *expected
            })
        })
    })
}

/// The broken readers on the texts.
pub fn try_readers(exact: Reader, seed: u64, cases: u64, until_told: bool) -> Vec<Verdict> {
    let call = |read: Reader, case: &texts::Text, index| {
        lengths(index).map(|lengths| {
            compare_reader::call(read, &case.declarations, &case.text, lengths, index)
        })
    };
    let expect = |index| {
        let case = texts::case(seed, index);
        let expected = call(exact, &case, index);
        (case, expected)
    };
    try_faults(Fault::READER, cases, until_told, expect, |fault, index, (case, expected)| {
        call(&broken_reader(fault), case, index) == *expected
    })
}
