//! The comparison of the proved writer with the Rust writer on the same jobs, under both
//! choices of names: same answer, same bytes and words of every lent area. A share of the
//! jobs goes to the plain reading and to the program expand too. What is written has to be
//! accepted.

use crate::answer::{Packed, PackedLength, Reason, Refusal};
use crate::bundle::{LEFT, MAX_BYTES, MAX_SETS, MAX_WORDS, RIGHT, Section, counts_of, to_words};
use crate::compare::{Checker, SMALL, WORLDS};
use crate::eval::claim_holds;
use crate::expand::{Names, written};
use crate::generate::builder::CHOICE;
use crate::generate::derive::BIND;
use crate::generate::jobs::{Job, JobFamily, job};
use crate::naive::{Plain, Tree, load};
use crate::programs::{self, JobProgram};
use crate::rng::Rng;
use crate::tally::{self, ENOUGH, Tally, first_difference};
use std::path::Path;
use std::{fmt, io};

/// A writer as the proved library offers it, of a job and a choice of names: the length
/// where written, else number * 2^32 + record; the output and both scratch areas are
/// written.
pub type Writing<'a> = dyn Fn(&[u8], Names, &mut [u8], &mut [u32], &mut [u64]) -> u64 + 'a;
pub type Writer<'a> = &'a Writing<'a>;

/// A writer's answer in that form.
pub fn packed(outcome: Result<usize, Refusal>) -> u64 {
    outcome.map_or_else(Refusal::packed, |length| length as u64)
}

/// The lent areas: output, words, sets.
#[derive(Clone, Debug, PartialEq, Eq)]
pub struct Areas {
    pub out: Vec<u8>,
    pub words: Vec<u32>,
    pub sets: Vec<u64>,
}

/// Lengths of the three areas: first just long enough, then one other choice by
/// the job's index.
pub fn lengths(index: u64) -> [[usize; 3]; 2] {
    let (out, words, sets) = (MAX_BYTES, MAX_WORDS, MAX_SETS);
    let mut rng = Rng::new(index);
    let mut any = |enough: usize| rng.below(3 * enough as u32) as usize;
    let other = match index % 7 {
        0 => [out + 7, words + 3, sets + 5],
        1 => [out - 1, words, sets],
        2 => [out, words - 1, sets],
        3 => [out, words, sets - 1],
        4 => [0, 0, 0],
        5 => [any(out), any(words), any(sets)],
        _ => [out + 1, words, sets],
    };
    [[out, words, sets], other]
}

/// Areas of these lengths that hold junk.
pub fn filled([out, words, sets]: [usize; 3], junk: u64) -> Areas {
    let mut rng = Rng::new(junk);
    let fill = rng.next_u64();
    Areas {
        out: (0..out).map(|place| (fill >> (place % 8)) as u8 | 1).collect(),
        words: (0..words as u32).map(|place| fill as u32 ^ place | 1).collect(),
        sets: (0..sets as u64).map(|place| fill ^ place | 1).collect(),
    }
}

/// The answer, and the areas after the call; they held junk before.
pub fn call(
    write: Writer,
    job: &[u8],
    names: Names,
    lengths: [usize; 3],
    junk: u64,
) -> (u64, Areas) {
    let mut areas = filled(lengths, junk);
    let answer = write(job, names, &mut areas.out, &mut areas.words, &mut areas.sets);
    (answer, areas)
}

/// What is compared.
#[allow(missing_debug_implementations)]
#[derive(Clone, Copy)]
pub struct Writers<'a> {
    /// The proved writer, or what stands in for it.
    pub subject: Writer<'a>,
    /// The Rust writer.
    pub reference: Writer<'a>,
    /// The plain reading.
    pub plain: Option<Writer<'a>>,
    /// The program expand.
    pub program: Option<JobProgram<'a>>,
    /// Each has to accept what is written.
    pub checkers: &'a [Checker<'a>],
}

pub type Difference = tally::Difference<JobFamily>;

/// Files by what became of the names of their quantifiers and choices.
#[derive(Clone, Copy, Debug, Default, PartialEq, Eq)]
pub struct Quantified {
    /// A variable is kept.
    pub kept: u64,
    /// A variable is renamed.
    pub renamed: u64,
    /// One is kept and another renamed.
    pub both: u64,
    /// The variable of a choice is kept, and that of one is renamed.
    pub choices: [u64; 2],
}

impl Quantified {
    /// Counts a file, by the two sides of its BIND steps.
    pub fn add(&mut self, file: &[u8]) {
        let counts = counts_of(file).unwrap_or_default();
        let words = to_words(file);
        let word = |section, record, field| words[counts.place(section, record, field)];
        let variable = |term| word(Section::Terms, term, 1);
        let (mut kept, mut renamed) = (false, false);
        let mut choices = [false; 2];
        for step in 1..=counts[Section::Steps] {
            let [rule, left, right] = [0, 2, 3].map(|field| word(Section::Steps, step, field));
            if rule == BIND {
                let same = variable(left) == variable(right);
                kept |= same;
                renamed |= !same;
                choices[usize::from(!same)] |= word(Section::Terms, left, 0) == CHOICE;
            }
        }
        self.kept += u64::from(kept);
        self.renamed += u64::from(renamed);
        self.both += u64::from(kept && renamed);
        for (count, choice) in self.choices.iter_mut().zip(choices) {
            *count += u64::from(choice);
        }
    }

    /// The kinds that were counted fewer than `least` times.
    pub fn unseen(&self, least: u64) -> Vec<&'static str> {
        let [kept, renamed] = self.choices;
        let kinds = [
            ("kept", self.kept),
            ("renamed", self.renamed),
            ("both", self.both),
            ("choice kept", kept),
            ("choice renamed", renamed),
        ];
        kinds.into_iter().filter(|&(_, count)| count < least).map(|(kind, _)| kind).collect()
    }
}

#[derive(Clone, Debug)]
pub struct Report {
    pub jobs: u64,
    pub calls: u64,
    pub written_bytes: u64,
    /// Under each choice of names, in the order of `Names::ALL`: its own answers.
    pub tallies: [Tally<JobFamily>; 2],
    /// The files written where names are kept.
    pub quantified: Quantified,
    pub differences: Vec<Difference>,
}

/// The plain reading gets one job in so many, the program one in so many.
const PLAIN: u64 = 2;
const PROGRAM: u64 = 50;

impl Default for Report {
    fn default() -> Self {
        Report {
            jobs: 0,
            calls: 0,
            written_bytes: 0,
            tallies: Names::ALL.map(|_| Tally::new(PLAIN, PROGRAM)),
            quantified: Quantified::default(),
            differences: Vec::new(),
        }
    }
}

/// The numbers a writer can answer.
pub fn numbers() -> impl Iterator<Item = Reason> {
    let checks_of_steps = Reason::Context..=Reason::Side;
    Reason::ALL
        .into_iter()
        .filter(move |&reason| reason <= Reason::NotBare && !checks_of_steps.contains(&reason))
}

impl Report {
    /// Compares on one job and counts it.
    pub fn add(&mut self, writers: Writers, index: u64, job: &Job) {
        self.jobs += 1;
        self.tallies.iter_mut().for_each(|tally| tally.add_family(job.family));
        let problem = Names::ALL.into_iter().find_map(|names| {
            let text = self.problem(writers, index, job, names)?;
            Some(format!("{names}: {text}"))
        });
        if let Some(text) = problem {
            self.differences.push(Difference { index, family: job.family, text, written: None });
        }
    }

    /// What is wrong on a job under a choice of names, if something is.
    fn problem(&mut self, writers: Writers, index: u64, job: &Job, names: Names) -> Option<String> {
        let (job, family) = (&job.bytes, job.family);
        let tally = &mut self.tallies[names as usize];
        let mut answer = 0;
        let mut plain = None;
        for (place, lengths) in lengths(index).into_iter().enumerate() {
            let called = |write| call(write, job, names, lengths, index);
            let expected = called(writers.reference);
            let found = called(writers.subject);
            self.calls += 1;
            tally.add_call(expected.0, place == 0);
            if place == 0 {
                answer = expected.0;
                plain = writers.plain.filter(|_| tally.plain.takes(family, answer));
            }
            let mut problem = difference(&found, &expected, "the Rust writer")
                .or_else(|| difference(&found, &called(plain?), "the plain reading"));
            if answer >> 32 == 0 && place == 0 {
                self.written_bytes += answer;
                if names == Names::Keep {
                    self.quantified.add(&expected.1.out[..answer as usize]);
                }
                let out = &found.1.out;
                let file = &out[..(found.0 as usize).min(out.len())];
                problem = problem.or_else(|| misfit(writers.checkers, job, file));
            }
            if let Some(text) = problem {
                return Some(format!("areas of {lengths:?}: {text}"));
            }
        }
        let program = writers.program.filter(|_| tally.program.takes(family, answer))?;
        let program = |job: &[u8]| program(job, names);
        match written(job, names) {
            Ok(file) => programs::difference(&program, job, &file, b""),
            Err(refusal) => programs::difference(&program, job, b"", refusal.line().as_bytes()),
        }
    }

    /// The numbers that were answered too seldom, each with the choice of names.
    pub fn unseen(&self, least: u64) -> Vec<(Names, u32)> {
        let unseen = |names: Names| {
            let tally = &self.tallies[names as usize];
            tally.unseen(numbers(), least).into_iter().map(move |number| (names, number))
        };
        Names::ALL.into_iter().flat_map(unseen).collect()
    }

    pub fn agrees(&self) -> bool {
        self.differences.is_empty()
    }
}

/// How two calls differ, if they do.
pub(crate) fn difference(
    found: &(u64, Areas),
    expected: &(u64, Areas),
    from: &str,
) -> Option<String> {
    let (answer, expected_answer) = (PackedLength(found.0), PackedLength(expected.0));
    if found.0 != expected.0 {
        return Some(format!("{answer} against {expected_answer} from {from}"));
    }
    let (areas, expected) = (&found.1, &expected.1);
    let at = |name: &str, place: Option<usize>| {
        Some(format!("{answer}, but {name} differs at place {} (from 0) from {from}'s", place?))
    };
    at("the output", first_difference(&areas.out, &expected.out))
        .or_else(|| at("the 32-bit scratch", first_difference(&areas.words, &expected.words)))
        .or_else(|| at("the 64-bit scratch", first_difference(&areas.sets, &expected.sets)))
}

/// What is wrong with a written file: every checker has to accept it, without a walk (each
/// REFL of a written file takes a variable to its image); it has to keep the job's records and left, have a right side without lets, and hold in worlds.
pub fn misfit(checkers: &[Checker], job: &[u8], file: &[u8]) -> Option<String> {
    let mut free = vec![0; MAX_SETS];
    for (place, check) in checkers.iter().enumerate() {
        let answer = check(file, &mut free);
        if answer != 0 {
            return Some(format!("the written file is {} by checker {place}", Packed(answer)));
        }
    }
    let (Some(old), Some(new)) = (counts_of(job), counts_of(file)) else {
        return Some("a header is missing".into());
    };
    let (job, words) = (to_words(job), to_words(file));
    if job[LEFT] != words[LEFT] {
        return Some("the written left is not the job's".into());
    }
    for section in Section::ALL {
        let length = old[section] as usize * section.width();
        let (from, to) = (old.start(section), new.start(section));
        if job[from..from + length] != words[to..to + length] {
            return Some(format!("a record of {section:?} is not the job's"));
        }
    }
    match load(file, free.len()) {
        Ok(plain) if holds_let(&plain, words[RIGHT]) => Some("the right side holds a let".into()),
        Ok(plain) if file.len() <= SMALL => {
            claim_holds(&plain, WORLDS, &mut Rng::new(file.len() as u64)).err()
        }
        Ok(_) => None,
        Err(refusal) => Some(format!("the plain reading says {refusal}")),
    }
}

/// Whether a let stands in a term.
pub fn holds_let(plain: &Plain, term: u32) -> bool {
    // Terms refer to lower numbers only, so one pass upwards suffices.
    let mut holds = vec![false; term as usize + 1];
    for number in 1..=term {
        holds[number as usize] = match plain.tree(number) {
            Tree::Variable(_) => false,
            Tree::Application(_, arguments) => arguments.iter().any(|&part| holds[part as usize]),
            Tree::ForAll(_, body) | Tree::Exists(_, body) | Tree::Choice(_, body) => {
                holds[*body as usize]
            }
            Tree::Let(..) => true,
        };
    }
    holds[term as usize]
}

/// Compares on jobs 0 to `jobs` - 1 of the run. A job on which something differs is
/// written into `failures`, if given.
pub fn run(writers: Writers, seed: u64, jobs: u64, failures: Option<&Path>) -> io::Result<Report> {
    let mut report = Report::default();
    for index in 0..jobs {
        let job = job(seed, index);
        let before = report.differences.len();
        report.add(writers, index, &job);
        if let (Some(difference), Some(folder)) = (report.differences.get_mut(before), failures) {
            difference.keep(folder, format!("seed-{seed}-job-{index}.bin"), &job.bytes)?;
        }
        if report.differences.len() >= ENOUGH {
            break;
        }
    }
    Ok(report)
}

impl fmt::Display for Report {
    fn fmt(&self, out: &mut fmt::Formatter<'_>) -> fmt::Result {
        writeln!(
            out,
            "{} jobs, {} calls, {} bytes written",
            self.jobs, self.calls, self.written_bytes
        )?;
        self.tallies[0].write_families(out)?;
        for (names, tally) in Names::ALL.into_iter().zip(&self.tallies) {
            writeln!(out, "{names}:")?;
            tally.write_table(out, "jobs", "written", numbers())?;
        }
        let Quantified { kept, renamed, both, choices } = self.quantified;
        writeln!(
            out,
            "of the files written with {}, {kept} have a variable kept, {renamed} one renamed, \
             {both} both; {} have a choice's variable kept, {} one's renamed",
            Names::Keep,
            choices[0],
            choices[1]
        )?;
        for difference in &self.differences {
            writeln!(out, "DIFFERENCE: job {difference}")?;
        }
        Ok(())
    }
}
