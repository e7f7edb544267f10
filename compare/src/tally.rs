//! What the comparisons count and print: inputs and calls by the answer's number,
//! and the inputs on which something differs.

use crate::answer::Reason;
use std::collections::BTreeMap;
use std::fmt::{self, Debug, Display};
use std::path::{Path, PathBuf};
use std::{fs, io, iter};

/// Stop after so many differences.
pub const ENOUGH: usize = 10;

/// Inputs or calls by the answer's number, 0 where there is no refusal.
pub type Counts = BTreeMap<u64, u64>;

pub fn count(counts: &Counts, number: u64) -> u64 {
    counts.get(&number).copied().unwrap_or(0)
}

/// Those of the numbers, and 0, that were counted fewer than `least` times.
pub fn unseen(counts: &Counts, numbers: impl Iterator<Item = Reason>, least: u64) -> Vec<u32> {
    iter::once(0)
        .chain(numbers.map(Reason::number))
        .filter(|&number| count(counts, u64::from(number)) < least)
        .collect()
}

/// The share of the inputs that is tried more dearly: the first few of each kind,
/// and one in so many of it. A kind is a family and an answer's number.
#[derive(Clone, Debug)]
pub struct Sample<F> {
    one_in: u64,
    kinds: BTreeMap<(F, u64), u64>,
    taken: Counts,
}

impl<F: Ord> Sample<F> {
    /// So many of each kind are always taken.
    pub const FIRST: u64 = 5;

    pub fn new(one_in: u64) -> Self {
        Sample { one_in, kinds: BTreeMap::new(), taken: BTreeMap::new() }
    }

    /// Whether the next input, of this family and answer, is taken; counts it.
    pub fn takes(&mut self, family: F, answer: u64) -> bool {
        let number = answer >> 32;
        let seen = self.kinds.entry((family, number)).or_default();
        *seen += 1;
        let takes = *seen <= Self::FIRST || seen.is_multiple_of(self.one_in);
        if takes {
            *self.taken.entry(number).or_default() += 1;
        }
        takes
    }

    /// How many were taken with this number.
    pub fn taken(&self, number: u64) -> u64 {
        count(&self.taken, number)
    }

    pub fn total(&self) -> u64 {
        self.taken.values().sum()
    }
}

/// What a comparison counts.
#[derive(Clone, Debug)]
pub struct Tally<F> {
    /// Inputs by the answer with areas just long enough.
    pub inputs: Counts,
    /// Calls, all areas together.
    pub calls: Counts,
    pub families: BTreeMap<F, u64>,
    /// Inputs that went to the plain reading, with all areas.
    pub plain: Sample<F>,
    /// Inputs that went to the program.
    pub program: Sample<F>,
}

impl<F: Ord + Debug> Tally<F> {
    /// One in so many inputs for the plain reading and for the program.
    pub fn new(plain: u64, program: u64) -> Self {
        Tally {
            inputs: BTreeMap::new(),
            calls: BTreeMap::new(),
            families: BTreeMap::new(),
            plain: Sample::new(plain),
            program: Sample::new(program),
        }
    }

    pub fn add_family(&mut self, family: F) {
        *self.families.entry(family).or_default() += 1;
    }

    /// Counts a call; the first one of an input counts as the input's.
    pub fn add_call(&mut self, answer: u64, first: bool) {
        let number = answer >> 32;
        *self.calls.entry(number).or_default() += 1;
        if first {
            *self.inputs.entry(number).or_default() += 1;
        }
    }

    /// Those of the numbers, and 0, that were answered fewer than `least` times.
    pub fn unseen(&self, numbers: impl Iterator<Item = Reason>, least: u64) -> Vec<u32> {
        unseen(&self.calls, numbers, least)
    }

    /// The families and the table.
    pub fn write(
        &self,
        out: &mut fmt::Formatter<'_>,
        inputs: &str,
        good: &str,
        numbers: impl Iterator<Item = Reason>,
    ) -> fmt::Result {
        self.write_families(out)?;
        self.write_table(out, inputs, good, numbers)
    }

    pub fn write_families(&self, out: &mut fmt::Formatter<'_>) -> fmt::Result {
        let families: Vec<String> =
            self.families.iter().map(|(family, count)| format!("{family:?} {count}")).collect();
        writeln!(out, "families: {}", families.join(", "))
    }

    /// The samples, and a table of the numbers. `good` is the word for 0.
    pub fn write_table(
        &self,
        out: &mut fmt::Formatter<'_>,
        inputs: &str,
        good: &str,
        numbers: impl Iterator<Item = Reason>,
    ) -> fmt::Result {
        let (plain, program) = (self.plain.total(), self.program.total());
        let sampled = plain + program > 0;
        if sampled {
            writeln!(out, "{plain} {inputs} also to the plain reading, {program} to the program")?;
        }
        let mut line = |[answer, inputs, calls, plain, program]: [&dyn Display; 5], text: &str| {
            write!(out, "{answer:>6} {inputs:>9} {calls:>9}")?;
            if sampled {
                write!(out, " {plain:>9} {program:>9}")?;
            }
            writeln!(out, "  {text}")
        };
        line([&"answer", &inputs, &"calls", &"plain", &"program"], "when")?;
        let mut row = |number: u64, text: &str| {
            let (inputs, calls) = (count(&self.inputs, number), count(&self.calls, number));
            let (plain, program) = (self.plain.taken(number), self.program.taken(number));
            line([&number, &inputs, &calls, &plain, &program], text)
        };
        row(0, good)?;
        for reason in numbers {
            row(u64::from(reason.number()), reason.text())?;
        }
        Ok(())
    }
}

/// An input on which something differs.
#[derive(Clone, Debug)]
pub struct Difference<F> {
    pub index: u64,
    pub family: F,
    pub text: String,
    pub written: Option<PathBuf>,
}

impl<F> Difference<F> {
    /// Writes the input into the folder.
    pub fn keep(&mut self, folder: &Path, name: String, bytes: &[u8]) -> io::Result<()> {
        let path = folder.join(name);
        fs::create_dir_all(folder)?;
        fs::write(&path, bytes)?;
        self.written = Some(path);
        Ok(())
    }
}

impl<F: Debug> Display for Difference<F> {
    fn fmt(&self, out: &mut fmt::Formatter<'_>) -> fmt::Result {
        write!(out, "{} ({:?}): {}", self.index, self.family, self.text)?;
        match &self.written {
            Some(path) => write!(out, "; written to {}", path.display()),
            None => Ok(()),
        }
    }
}

/// The first place, from 0, at which two sequences differ.
pub fn first_difference<T: PartialEq>(one: &[T], other: &[T]) -> Option<usize> {
    if one == other {
        return None;
    }
    let place = one.iter().zip(other).position(|(a, b)| a != b);
    Some(place.unwrap_or(one.len().min(other.len())))
}
