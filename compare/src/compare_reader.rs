//! The comparison of the proved reader with the Rust reader on the same declarations
//! and texts: same answer, same bytes and words of every lent area. A share of the short
//! texts goes to the plain reading too, and a share of all to the program read. What is
//! written has to be a job with the formula that was printed, and its expansion, under both
//! choices of names, has to be accepted and have the formula's value.

use crate::answer::{PackedLength, Reason, Refusal};
use crate::bundle::{RIGHT, to_words};
use crate::compare::{Checker, SMALL};
use crate::compare_writer::{Areas, difference, filled, lengths, misfit};
use crate::eval::{Evaluator, World};
use crate::expand::{Names, written};
use crate::generate::texts::{Text, TextFamily, case};
use crate::naive::{Plain, Tree, load, tables};
use crate::programs::{self, TextProgram};
use crate::rng::Rng;
use crate::tally::{self, ENOUGH, Tally};
use std::path::Path;
use std::{fmt, fs, io};

/// A reader as the proved library offers it, of declarations and a text: the job's
/// length where it is written, else number * 2^32 + record; the output and both scratch
/// areas are written.
pub type Reading<'a> = dyn Fn(&[u8], &[u8], &mut [u8], &mut [u32], &mut [u64]) -> u64 + 'a;
pub type Reader<'a> = &'a Reading<'a>;

/// The answer, and the areas after the call; they held junk before.
pub fn call(
    read: Reader,
    declarations: &[u8],
    text: &[u8],
    lengths: [usize; 3],
    junk: u64,
) -> (u64, Areas) {
    let mut areas = filled(lengths, junk);
    let Areas { out, words, sets } = &mut areas;
    let answer = read(declarations, text, out, words, sets);
    (answer, areas)
}

/// What is compared.
#[allow(missing_debug_implementations)]
#[derive(Clone, Copy)]
pub struct Readers<'a> {
    /// The proved reader, where it is there.
    pub subject: Option<Reader<'a>>,
    /// The Rust reader.
    pub reference: Reader<'a>,
    /// The plain reading.
    pub plain: Option<Reader<'a>>,
    /// The program read.
    pub program: Option<TextProgram<'a>>,
    /// Each has to accept the expansion of what is written.
    pub checkers: &'a [Checker<'a>],
}

pub type Difference = tally::Difference<TextFamily>;

#[derive(Clone, Debug)]
pub struct Report {
    pub texts: u64,
    pub bytes: u64,
    pub calls: u64,
    pub tally: Tally<TextFamily>,
    /// Jobs with the formula that was printed.
    pub formulas: u64,
    /// Jobs whose expansion was accepted, under each choice of names.
    pub expanded: [u64; 2],
    /// Those of them whose right was seen to have the printed formula's value.
    pub values: [u64; 2],
    pub differences: Vec<Difference>,
}

/// The plain reading gets one short text in so many, the program one text in so many.
const PLAIN: u64 = 2;
const PROGRAM: u64 = 50;
/// A short text has up to so many bytes.
pub const SHORT: usize = 1_500;
/// The formula's value is compared in so many worlds.
const WORLDS: u32 = 6;

impl Default for Report {
    fn default() -> Self {
        Report {
            texts: 0,
            bytes: 0,
            calls: 0,
            tally: Tally::new(PLAIN, PROGRAM),
            formulas: 0,
            expanded: [0; 2],
            values: [0; 2],
            differences: Vec::new(),
        }
    }
}

/// The numbers a reader can answer.
pub fn numbers() -> impl Iterator<Item = Reason> {
    use Reason::{Full, NotBare, Sort, Typing, UnknownName, Unread};
    let others = [Typing, Full, NotBare, Unread, UnknownName];
    Reason::ALL.into_iter().filter(move |reason| *reason <= Sort || others.contains(reason))
}

/// A reader's answer in the library's form.
pub fn packed(outcome: Result<usize, Refusal>) -> u64 {
    outcome.map_or_else(Refusal::packed, |length| length as u64)
}

impl Report {
    /// Compares on one text and counts it.
    pub fn add(&mut self, readers: Readers, index: u64, case: &Text) {
        self.texts += 1;
        self.bytes += case.text.len() as u64;
        self.tally.add_family(case.family);
        if let Some(text) = self.problem(readers, index, case) {
            self.differences.push(Difference { index, family: case.family, text, written: None });
        }
    }

    /// What is wrong on a text, if something is.
    fn problem(&mut self, readers: Readers, index: u64, case: &Text) -> Option<String> {
        let Text { family, declarations, text, formula } = case;
        let mut answer = 0;
        let mut job = Vec::new();
        let mut plain = None;
        for (place, lengths) in lengths(index).into_iter().enumerate() {
            let called = |read| call(read, declarations, text, lengths, index);
            let expected = called(readers.reference);
            self.calls += 1;
            self.tally.add_call(expected.0, place == 0);
            if place == 0 {
                answer = expected.0;
                let short = readers.plain.filter(|_| text.len() <= SHORT);
                plain = short.filter(|_| self.tally.plain.takes(*family, answer));
            }
            let problem = readers
                .subject
                .and_then(|subject| difference(&called(subject), &expected, "the Rust reader"))
                .or_else(|| difference(&expected, &called(plain?), "the plain reading"));
            if let Some(text) = problem {
                return Some(format!("areas of {lengths:?}: {text}"));
            }
            if place == 0 && answer >> 32 == 0 {
                job = expected.1.out;
                job.truncate(answer as usize);
            }
        }
        let too_large = Refusal::whole(Reason::Full).packed();
        let problem = match answer >> 32 {
            0 => self.misread(readers.checkers, &job, formula.as_deref(), index),
            _ if formula.is_some() && answer != too_large => {
                Some(format!("the text of a formula is {}", PackedLength(answer)))
            }
            _ => None,
        };
        if problem.is_some() {
            return problem;
        }
        let program = readers.program.filter(|_| text.len() <= programs::LONGEST_TEXT)?;
        if !self.tally.program.takes(*family, answer) {
            return None;
        }
        let refusal = PackedLength(answer).to_string();
        let expected = if answer >> 32 == 0 { Ok(&job[..]) } else { Err(&refusal[..]) };
        programs::text_difference(program, (declarations, text), expected)
    }

    /// What is wrong with a job, given the job with the printed formula.
    fn misread(
        &mut self,
        checkers: &[Checker],
        job: &[u8],
        formula: Option<&[u8]>,
        index: u64,
    ) -> Option<String> {
        let plain = match tables(job, |_| true) {
            Ok(plain) => plain,
            Err(refusal) => return Some(format!("the job is {refusal}")),
        };
        let printed = formula.and_then(|formula| tables(formula, |_| true).ok());
        if let Some(printed) = &printed {
            if !same_term(printed, &plain) {
                return Some("the job's left is not the printed formula".into());
            }
            self.formulas += 1;
        }
        Names::ALL.into_iter().find_map(|names| {
            let problem = match written(job, names) {
                Ok(file) => {
                    let problem = misfit(checkers, job, &file);
                    self.expanded[names as usize] += u64::from(problem.is_none());
                    let compared = printed.as_ref().filter(|_| file.len() <= SMALL);
                    problem
                        .map(|text| format!("the expansion: {text}"))
                        .or_else(|| self.compare_values(compared?, &file, names, index))
                }
                Err(refusal) => match refusal.reason {
                    Reason::Full => None,
                    Reason::Open if !plain.free(plain.left).is_empty() => None,
                    _ => Some(format!("the job is not expanded: {refusal}")),
                },
            };
            problem.map(|text| format!("{names}: {text}"))
        })
    }

    /// Whether the printed formula and the right of an expansion, both closed, differ in
    /// some world.
    fn compare_values(
        &mut self,
        printed: &Plain,
        file: &[u8],
        names: Names,
        index: u64,
    ) -> Option<String> {
        let expanded = load(file, usize::MAX).ok()?;
        let right = to_words(file)[RIGHT];
        let mut rng = Rng::new(index);
        let mut compared = false;
        for items in (1..=3).cycle().take(WORLDS as usize) {
            let world = World::random(printed, items, &mut rng);
            let formula = Evaluator::new(printed, &world, 40_000).value(printed.left);
            let right = Evaluator::new(&expanded, &world, 40_000).value(right);
            if let (Ok(formula), Ok(right)) = (formula, right) {
                compared = true;
                if formula != right {
                    return Some(format!(
                        "the formula is {formula} and the expansion's right {right} in {world:?}"
                    ));
                }
            }
        }
        self.values[names as usize] += u64::from(compared);
        None
    }

    pub fn unseen(&self, least: u64) -> Vec<u32> {
        self.tally.unseen(numbers(), least)
    }

    pub fn agrees(&self) -> bool {
        self.differences.is_empty()
    }
}

/// Whether the lefts of two jobs are the same term.
fn same_term(one: &Plain, other: &Plain) -> bool {
    // What each term of the one is among those of the other, upwards.
    let mut numbers: Vec<Option<u32>> = Vec::new();
    for tree in &one.terms {
        let number = |term: &u32| numbers[*term as usize - 1];
        let all = |terms: &[u32]| terms.iter().map(number).collect::<Option<Vec<u32>>>();
        let tree = match tree {
            Tree::Variable(_) => Some(tree.clone()),
            Tree::Application(symbol, arguments) => {
                all(arguments).map(|arguments| Tree::Application(*symbol, arguments))
            }
            Tree::ForAll(variable, body) => number(body).map(|body| Tree::ForAll(*variable, body)),
            Tree::Exists(variable, body) => number(body).map(|body| Tree::Exists(*variable, body)),
            // No text has a choice.
            Tree::Choice(..) => None,
            Tree::Let(variables, bounds, body) => all(bounds)
                .zip(number(body))
                .map(|(bounds, body)| Tree::Let(variables.clone(), bounds, body)),
        };
        let place = tree.and_then(|tree| other.terms.iter().position(|own| *own == tree));
        numbers.push(place.map(|place| place as u32 + 1));
    }
    numbers.get(one.left as usize - 1).copied().flatten() == Some(other.left)
}

/// Compares on texts 0 to `texts` - 1 of the run. Declarations and text on which
/// something differs are written into `failures`, if given.
pub fn run(readers: Readers, seed: u64, texts: u64, failures: Option<&Path>) -> io::Result<Report> {
    let mut report = Report::default();
    for index in 0..texts {
        let case = case(seed, index);
        let before = report.differences.len();
        report.add(readers, index, &case);
        if let (Some(difference), Some(folder)) = (report.differences.get_mut(before), failures) {
            let name = format!("seed-{seed}-text-{index}");
            difference.keep(folder, format!("{name}.bin"), &case.declarations)?;
            fs::write(folder.join(format!("{name}.smt2")), &case.text)?;
        }
        if report.differences.len() >= ENOUGH {
            break;
        }
    }
    Ok(report)
}

impl fmt::Display for Report {
    fn fmt(&self, out: &mut fmt::Formatter<'_>) -> fmt::Result {
        writeln!(out, "{} texts, {} bytes, {} calls", self.texts, self.bytes, self.calls)?;
        self.tally.write(out, "texts", "written", numbers())?;
        writeln!(out, "{} jobs with the formula that was printed", self.formulas)?;
        for names in Names::ALL {
            let (expanded, values) = (self.expanded[names as usize], self.values[names as usize]);
            writeln!(
                out,
                "{names}: the expansions of {expanded} jobs accepted, {values} of them with the \
                 printed formula's value"
            )?;
        }
        for difference in &self.differences {
            writeln!(out, "DIFFERENCE: text {difference}")?;
        }
        Ok(())
    }
}
