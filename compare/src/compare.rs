//! The comparison: the proved check and the Rust checker on the same files, for
//! areas of several lengths filled with junk before; answers and areas have to be
//! the same, and so have the links that CONG's test reads at chosen steps and the pairs
//! that REFL's walk visits. A share of the files goes to the plain reading and to the
//! program check too. What is accepted has to hold in finite worlds.

use crate::answer::{Packed, Reason, line, number, packed};
use crate::bundle::{LEFT, MAX_SETS, RIGHT, Section, area_words, counts_of, to_words};
use crate::check::{check, check_with};
use crate::compare_links::{self, Counter, Walks};
use crate::compare_pairs::{self, Pairs};
use crate::compare_skolem::Skolem;
use crate::eval::{claim_holds, steps_hold};
use crate::fault::{Broken, Fault};
use crate::generate::{Case, Family, case};
use crate::naive;
use crate::programs::{self, Program};
use crate::rng::Rng;
use crate::tally::{self, Counts, ENOUGH, Tally, first_difference};
use std::path::Path;
use std::{fmt, io};

/// A check as the proved library offers it: the pairs of the last walk where accepted,
/// else number * 2^32 + record; the area is written.
pub type Checker<'a> = &'a dyn Fn(&[u8], &mut [u64]) -> u64;

/// The lengths to try: 4 T, 4 T - 1, 4 T + 5 and 0, for the T of the header (a T
/// over its limit is refused before any area is looked at).
pub fn areas(file: &[u8]) -> [usize; 4] {
    let terms = counts_of(file).map_or(0, |counts| counts[Section::Terms]);
    let enough = area_words(terms.min(Section::Terms.limit() + 1));
    [enough, enough.saturating_sub(1), enough + 5, 0]
}

/// The answer, and the area after the call; it held junk before.
pub fn call(check: Checker, file: &[u8], length: usize, junk: u64) -> (u64, Vec<u64>) {
    let mut rng = Rng::new(junk);
    let mut area: Vec<u64> = (0..length).map(|_| rng.next_u64()).collect();
    let answer = check(file, &mut area);
    (answer, area)
}

/// The calls of one of those who are compared on files.
#[allow(missing_debug_implementations)]
#[derive(Clone, Copy)]
pub struct Calls<'a> {
    pub check: Checker<'a>,
    pub links: Counter<'a>,
}

/// What is compared.
#[allow(missing_debug_implementations)]
#[derive(Clone, Copy)]
pub struct Checkers<'a> {
    /// The proved check, or what stands in for it.
    pub subject: Calls<'a>,
    /// The Rust checker.
    pub reference: Calls<'a>,
    /// The plain reading.
    pub plain: Option<Calls<'a>>,
    /// The program check. It prints the claim that the proved check's answer lacks.
    pub program: Option<Program<'a>>,
}

impl<'a> Checkers<'a> {
    /// The subject against the reference alone.
    pub fn two(subject: Calls<'a>, reference: Calls<'a>) -> Self {
        Checkers { subject, reference, plain: None, program: None }
    }
}

pub type Difference = tally::Difference<Family>;

/// What a comparison saw.
#[derive(Clone, Debug)]
pub struct Report {
    pub files: u64,
    pub bytes: u64,
    pub calls: u64,
    pub tally: Tally<Family>,
    pub walks: Walks,
    /// Accepted files of which a REFL was walked, and the pairs of their last walks.
    pub walked: u64,
    pub walked_pairs: u64,
    pub pairs: Pairs,
    /// Refused stray steps, by the other number that refuses them: 12, which comes before 22,
    /// or 21, 13 or 14, which come after it; 0 where there is none.
    pub stray: Counts,
    /// Choices and SKO steps.
    pub skolem: Skolem,
    /// Accepted claims that were tried in worlds.
    pub claims: u64,
    /// Those of them whose sides are different terms.
    pub claims_apart: u64,
    /// Those of the latter that were tried in every world of one and two items, as
    /// far as their symbols go.
    pub claims_everywhere: u64,
    pub differences: Vec<Difference>,
}

/// The plain reading gets one file in so many, the program one in so many.
const PLAIN: u64 = 2;
const PROGRAM: u64 = 100;
/// Larger files are not tried in worlds.
pub const SMALL: usize = 8 * 1024;
/// Up to so many worlds of a size, all are tried.
pub const WORLDS: usize = 300;

/// The numbers a checker can answer.
pub fn numbers() -> impl Iterator<Item = Reason> {
    Reason::ALL.into_iter().filter(|&reason| reason <= Reason::Claim || reason >= Reason::Spent)
}

impl Default for Report {
    fn default() -> Self {
        Report {
            files: 0,
            bytes: 0,
            calls: 0,
            tally: Tally::new(PLAIN, PROGRAM),
            walks: Walks::default(),
            walked: 0,
            walked_pairs: 0,
            pairs: Pairs::default(),
            stray: Counts::new(),
            skolem: Skolem::default(),
            claims: 0,
            claims_apart: 0,
            claims_everywhere: 0,
            differences: Vec::new(),
        }
    }
}

impl Report {
    /// Compares on one file and counts it.
    pub fn add(&mut self, checkers: Checkers, index: u64, case: &Case) {
        self.files += 1;
        self.bytes += case.bytes.len() as u64;
        self.tally.add_family(case.family);
        if let Some(text) = self.problem(checkers, index, case) {
            self.differences.push(Difference { index, family: case.family, text, written: None });
        }
    }

    /// What is wrong on a file, if something is.
    fn problem(&mut self, checkers: Checkers, index: u64, case: &Case) -> Option<String> {
        let (file, family) = (&case.bytes, case.family);
        let mut answer = 0;
        let mut plain = None;
        for (place, length) in areas(file).into_iter().enumerate() {
            let expected = call(checkers.reference.check, file, length, index);
            let found = call(checkers.subject.check, file, length, index);
            self.calls += 1;
            self.tally.add_call(expected.0, place == 0);
            if place == 0 {
                answer = expected.0;
                plain = checkers.plain.filter(|_| self.tally.plain.takes(family, answer));
            }
            let text = difference(&found, &expected, "the Rust checker").or_else(|| {
                difference(&found, &call(plain?.check, file, length, index), "the plain reading")
            });
            let text = text.or_else(|| open_claim(file, &found));
            if let Some(text) = text {
                return Some(format!("area of {length} words: {text}"));
            }
        }
        self.count_stray(file, answer);
        self.skolem.add(file, answer);
        let counters = [checkers.subject.links, checkers.reference.links];
        for step in compare_links::steps(file, answer, index) {
            let plain = plain.map(|plain| plain.links);
            let text = self.walks.problem(counters, plain, file, step);
            if text.is_some() {
                return text;
            }
        }
        let mut parties = vec![
            ("the subject", checkers.subject.check),
            ("the Rust checker", checkers.reference.check),
        ];
        parties.extend(plain.map(|plain| ("the plain reading", plain.check)));
        for walk in compare_pairs::walks(file, answer, index) {
            let text = self.pairs.problem(&parties, plain.is_some(), file, walk);
            if text.is_some() {
                return text;
            }
        }
        if number(answer) == 0 {
            self.walked += u64::from(answer != 0);
            self.walked_pairs += answer;
        }
        if number(answer) == 0
            && file.len() <= SMALL
            && let Some(text) = self.try_in_worlds(index, file)
        {
            return Some(format!("accepted, but {text}"));
        }
        let program = checkers.program.filter(|_| self.tally.program.takes(family, answer))?;
        let mut free = [0; MAX_SETS];
        programs::difference(program, file, line(check(file, &mut free)).as_bytes(), b"")
    }

    /// Why the claim or a step of an accepted file is false, if it was found to be.
    fn try_in_worlds(&mut self, index: u64, file: &[u8]) -> Option<String> {
        let plain = match naive::load(file, usize::MAX) {
            Ok(plain) => plain,
            Err(refusal) => return Some(format!("the plain reading says {refusal}")),
        };
        let mut rng = Rng::new(index);
        let tested = match claim_holds(&plain, WORLDS, &mut rng) {
            Ok(tested) => tested,
            Err(text) => return Some(text),
        };
        let apart = plain.left != plain.right;
        self.claims += 1;
        self.claims_apart += u64::from(apart);
        self.claims_everywhere += u64::from(apart && tested.all_small && tested.given_up == 0);
        steps_hold(&plain, 1, &mut rng).err()
    }

    /// Counts a step that 22 refuses, or 12 though it is stray, by a checker that has the two
    /// in another order.
    fn count_stray(&mut self, file: &[u8], answer: u64) {
        let by = |fault| number(packed(check_with(Broken(fault), file, &mut [0; MAX_SETS])));
        let (step, stray) = (Reason::Step.number(), Reason::Stray.number());
        let other = match number(answer) {
            number if number == stray => Some(by(Fault::SideBeforeStray)),
            number if number == step => (by(Fault::StrayBeforeStep) == stray).then_some(step),
            _ => None,
        };
        if let Some(other) = other {
            let other = if other == stray { 0 } else { other };
            *self.stray.entry(other.into()).or_default() += 1;
        }
    }

    /// The numbers by which, beside 22, fewer than `least` stray steps are refused.
    pub fn unseen_stray(&self, least: u64) -> Vec<u32> {
        tally::unseen(&self.stray, beside_stray(), least)
    }

    /// The numbers of the checker's table, and 0, answered fewer than `least` times.
    pub fn unseen(&self, least: u64) -> Vec<u32> {
        self.tally.unseen(numbers(), least)
    }

    pub fn agrees(&self) -> bool {
        self.differences.is_empty()
    }
}

/// The other numbers that can refuse a stray step.
fn beside_stray() -> impl Iterator<Item = Reason> {
    [Reason::Step, Reason::Spent, Reason::Rule, Reason::Side].into_iter()
}

/// What is wrong with an accepted claim: each of its sides has to be closed (Req 05), by the
/// free variables in the area.
fn open_claim(file: &[u8], (answer, area): &(u64, Vec<u64>)) -> Option<String> {
    if number(*answer) != 0 {
        return None;
    }
    let words = to_words(file);
    let is_open = |term: &u32| {
        let set = area.get(area_words(term - 1)..area_words(*term));
        set.is_none_or(|set| set.iter().any(|&word| word != 0))
    };
    let open = [words[LEFT], words[RIGHT]].into_iter().find(is_open)?;
    Some(format!("accepted, but term {open} of the claim is open"))
}

/// How two calls differ, if they do.
fn difference(found: &(u64, Vec<u64>), expected: &(u64, Vec<u64>), from: &str) -> Option<String> {
    let (answer, expected_answer) = (Packed(found.0), Packed(expected.0));
    if found.0 != expected.0 {
        return Some(format!("{answer} against {expected_answer} from {from}"));
    }
    let place = first_difference(&found.1, &expected.1)?;
    Some(format!("{answer}, but word {} of the area is not as from {from}", place + 1))
}

/// Compares on files 0 to `files` - 1 of the run. A file on which something differs
/// is written into `failures`, if given.
pub fn run(
    checkers: Checkers,
    seed: u64,
    files: u64,
    failures: Option<&Path>,
) -> io::Result<Report> {
    let mut report = Report::default();
    for index in 0..files {
        let case = case(seed, index);
        let before = report.differences.len();
        report.add(checkers, index, &case);
        if let (Some(difference), Some(folder)) = (report.differences.get_mut(before), failures) {
            difference.keep(folder, format!("seed-{seed}-file-{index}.bin"), &case.bytes)?;
        }
        if report.differences.len() >= ENOUGH {
            break;
        }
    }
    Ok(report)
}

impl fmt::Display for Report {
    fn fmt(&self, out: &mut fmt::Formatter<'_>) -> fmt::Result {
        writeln!(out, "{} files, {} bytes, {} calls", self.files, self.bytes, self.calls)?;
        self.tally.write(out, "files", "accepted", numbers())?;
        write!(out, "{}", self.walks)?;
        writeln!(
            out,
            "{} accepted files with a walked REFL, {} pairs in their last ones",
            self.walked, self.walked_pairs
        )?;
        write!(out, "{}", self.pairs)?;
        let stray = |number| tally::count(&self.stray, number);
        writeln!(
            out,
            "{} stray steps refused by 22 alone, {} by it before 21, {} before 13, {} before 14, \
             and {} by 12 before it",
            stray(0),
            stray(21),
            stray(13),
            stray(14),
            stray(12)
        )?;
        write!(out, "{}", self.skolem)?;
        writeln!(
            out,
            "{} accepted claims, all closed, tried in worlds, {} of them with different sides; {} \
             of these in every world of 1 and 2 items",
            self.claims, self.claims_apart, self.claims_everywhere
        )?;
        for difference in &self.differences {
            writeln!(out, "DIFFERENCE: file {difference}")?;
        }
        Ok(())
    }
}
