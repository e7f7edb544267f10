//! The benchmark: the proved check and the Rust checker on the same files, in
//! turn, with the time to copy the file as the floor.

use crate::answer::number;
use crate::bundle::{
    Counts, MAX_BYTES, MAX_SETS, MAX_WORDS, Section, area_words, counts_of, to_bytes, to_words,
};
use crate::check::{MOST_PAIRS, walk};
use crate::compare::Checker;
use crate::compare_reader::Reader;
use crate::compare_writer::Writer;
use crate::expand::{Names, written};
use crate::generate::derive::REFL;
use crate::generate::jobs::{self, CHOICES, OLD_BYTES, QUANTIFIERS};
use crate::generate::whole::{self, Length};
use crate::generate::{large, texts};
use crate::read;
use crate::rng::Rng;
use std::hint::black_box;
use std::time::{Duration, Instant};

/// A file to time.
#[derive(Clone, Debug)]
pub struct Subject {
    pub name: String,
    pub file: Vec<u8>,
    pub terms: u32,
    pub steps: u32,
    /// Pairs that the walks of REFL visit together.
    pub pairs: u32,
}

impl Subject {
    fn new(name: &str, file: Vec<u8>) -> Self {
        let counts = counts_of(&file).unwrap_or_default();
        let (terms, steps) = (counts[Section::Terms], counts[Section::Steps]);
        let pairs = pairs(&file, &counts);
        Subject { name: name.into(), file, terms, steps, pairs }
    }
}

/// The pairs of all REFL steps that are walked: whose sides differ and whose left is no
/// variable.
fn pairs(file: &[u8], counts: &Counts) -> u32 {
    let words = to_words(file);
    let word = |section, record, field| words[counts.place(section, record, field)];
    (1..=counts[Section::Steps])
        .map(|step| [0, 1, 2, 3].map(|field| word(Section::Steps, step, field)))
        .filter(|&[rule, _, left, right]| {
            rule == REFL && left != right && word(Section::Terms, left, 0) != 1
        })
        .filter_map(|[_, context, left, right]| walk(file, context, [left, right]))
        .map(|walk| walk.pairs)
        .sum()
}

/// Times in microseconds: the median of many calls.
#[derive(Clone, Debug)]
pub struct Row {
    pub name: String,
    pub bytes: usize,
    pub terms: u32,
    pub steps: u32,
    pub pairs: u32,
    pub copy: f64,
    pub proved: Option<f64>,
    pub rust: f64,
}

impl Row {
    /// How many times as long the proved library takes.
    pub fn ratio(&self) -> Option<f64> {
        self.proved.map(|proved| proved / self.rust)
    }

    /// How many copies of the file the proved check takes.
    pub fn copies(&self) -> Option<f64> {
        self.proved.map(|proved| proved / self.copy)
    }
}

/// What a time is shared out to: the terms or the steps of a file, or the pairs of its walks.
#[derive(Clone, Copy, Debug, PartialEq, Eq)]
pub enum Share {
    Term,
    Step,
    Pair,
}

impl Share {
    pub fn count(self, row: &Row) -> u32 {
        match self {
            Share::Term => row.terms,
            Share::Step => row.steps,
            Share::Pair => row.pairs,
        }
    }

    /// In nanoseconds.
    pub fn of(self, row: &Row, time: f64) -> f64 {
        1000.0 * time / f64::from(self.count(row).max(1))
    }
}

/// With all names renamed, as before Req 06, so that the files stay the same.
fn expansion(job: Vec<u32>) -> Vec<u8> {
    written(&to_bytes(&job), Names::RenameAll).expect("the job was made to fit")
}

/// The expansions, by the size of the file that the writer makes.
pub const SIZES: [(&str, usize); 4] = [
    ("expansion, 1 KB", 1024),
    ("expansion, 8 KB", 8 * 1024),
    ("expansion, 32 KB", 32 * 1024),
    ("expansion, 58 KB", OLD_BYTES),
];

/// The files of the table.
pub fn subjects() -> Vec<Subject> {
    let rng = || Rng::new(1);
    let mut subjects: Vec<Subject> = SIZES
        .iter()
        .map(|&(name, bytes)| Subject::new(name, expansion(jobs::of_size(bytes))))
        .collect();
    subjects.push(Subject::new(FULL, full()));
    let made = |name: &str, words: Vec<u32>| Subject::new(name, to_bytes(&words));
    subjects.push(made("deep contexts (256)", large::deep_contexts(rng(), 256, 1024)));
    subjects.push(made("long lists (2,048 links)", large::full_lists(rng())));
    subjects.push(made("shared long lists", large::long_lists(rng(), 600, 1024)));
    subjects.push(made("many quantifiers", large::many_quantifiers(rng(), 32, 1024)));
    subjects.push(made(WIDE, large::wide_quantifiers(rng(), 128)));
    subjects.push(made("one REFL instead of steps", whole::one_for_many(rng(), 50)));
    let length = Length { pairs: MOST_PAIRS, differs: false, binders: 4 };
    subjects.push(made("4,096 pairs", whole::one_walk(rng(), length)));
    subjects.push(made("1,000 nested binders", whole::shared_binders(rng(), 1_000, 100)));
    subjects.push(made("128 SKO steps", large::many_skolem(rng(), 128)));
    subjects
}

/// The name of the file whose variables, all there may be, are bound and renamed.
pub const WIDE: &str = "256 variables";

/// The name of the file that is full.
pub const FULL: &str = "full file";

/// The largest expansion, filled up: every section has as many records as it may.
fn full() -> Vec<u8> {
    let file = expansion(jobs::of_size(OLD_BYTES));
    let counts = counts_of(&file).unwrap_or_default();
    let words = to_words(&file);
    let mut filled = words[..counts.start(Section::Symbols)].to_vec();
    for (place, section) in Section::ALL.into_iter().enumerate() {
        let start = counts.start(section);
        let records = &words[start..start + counts[section] as usize * section.width()];
        filled.extend(records);
        // A symbol of truth, a variable of truth, a link at the end of a list, a context that fixes
        // variable 1, the claim's step once more. No term: the expansion has them all.
        let more: &[u32] = match section {
            Section::Symbols => &[0, 0],
            Section::Variables => &[0],
            Section::Terms => &[],
            Section::Links => &[1, 0],
            Section::Contexts => &[1, 1, 0, 0],
            Section::Steps => &records[records.len() - section.width()..],
        };
        for _ in counts[section]..section.limit() {
            filled.extend(more);
        }
        filled[1 + place] = section.limit();
    }
    to_bytes(&filled)
}

/// Files with 64 to 1,024 terms, or expansions with about so many steps.
pub fn doubling(share: Share) -> Vec<Subject> {
    let file = |most: u32| match share {
        Share::Term => to_bytes(&large::many_terms(Rng::new(1), most)),
        Share::Step | Share::Pair => expansion(jobs::largest(|file| {
            counts_of(file).is_some_and(|counts| counts[Section::Steps] <= most)
        })),
    };
    let unit = if share == Share::Term { "terms" } else { "steps" };
    [64, 128, 256, 512, 1024]
        .into_iter()
        .map(|most| Subject::new(&format!("{most} {unit}"), file(most)))
        .collect()
}

/// Times the checkers on a file, for about `budget` each.
pub fn time_check(
    subject: &Subject,
    proved: Option<Checker>,
    rust: Checker,
    budget: Duration,
) -> Row {
    let file = subject.file.as_slice();
    let mut area = vec![0u64; area_words(subject.terms)];
    let mut copy = vec![0u8; file.len()];
    let once = |check: Checker| {
        area.fill(0);
        let begun = Instant::now();
        let answer = check(black_box(file), black_box(&mut area));
        let time = begun.elapsed();
        assert_eq!(number(answer), 0, "the files of the benchmark are accepted");
        time
    };
    let (mut proved_times, mut rust_times) = in_turn(once, proved, rust, budget);
    let mut copy_times = Times::default();
    while copy_times.total < budget / 8 {
        // One copy is too short for the clock.
        let begun = Instant::now();
        for _ in 0..16 {
            copy.copy_from_slice(black_box(file));
            black_box(&mut copy);
        }
        copy_times.add(begun.elapsed());
    }
    Row {
        name: subject.name.clone(),
        bytes: file.len(),
        terms: subject.terms,
        steps: subject.steps,
        pairs: subject.pairs,
        copy: copy_times.median() / 16.0,
        proved: proved.map(|_| proved_times.median()),
        rust: rust_times.median(),
    }
}

/// A job to time.
#[derive(Clone, Debug)]
pub struct Rule {
    pub name: String,
    pub job: Vec<u8>,
}

/// Those of the expansions, whose lets list every variable that a quantifier binds, so that
/// none is kept; one of quantifiers over different variables, and one of choices, all of them
/// kept unless all are renamed.
pub fn jobs() -> Vec<Rule> {
    let sized = SIZES.map(|(name, bytes)| (name.to_string(), jobs::of_size(bytes)));
    let quantified = (format!("{QUANTIFIERS} quantifiers"), jobs::quantified(QUANTIFIERS));
    let chosen = (format!("{CHOICES} choices"), jobs::chosen(CHOICES));
    sized
        .into_iter()
        .chain([quantified, chosen])
        .map(|(name, words)| Rule { name, job: to_bytes(&words) })
        .collect()
}

/// Times the writers on a job. The floor is the time to clear the areas.
pub fn time_writer(
    Rule { name, job }: &Rule,
    names: Names,
    proved: Option<Writer>,
    rust: Writer,
    budget: Duration,
) -> Row {
    let file = written(job, names).expect("the job was made to fit");
    let (mut out, mut words, mut sets) =
        (vec![0; MAX_BYTES], vec![0; MAX_WORDS], vec![0; MAX_SETS]);
    let once = |write: Writer| {
        clear(&mut out, &mut words, &mut sets);
        let begun = Instant::now();
        let answer = write(black_box(job), names, &mut out, &mut words, &mut sets);
        let time = begun.elapsed();
        assert_eq!(answer, file.len() as u64, "the jobs of the benchmark are written");
        time
    };
    let (mut proved_times, mut rust_times) = in_turn(once, proved, rust, budget);
    let floor = time_clearing(&mut out, &mut words, &mut sets, budget);
    let counts = counts_of(&file).unwrap_or_default();
    Row {
        name: name.clone(),
        bytes: file.len(),
        terms: counts[Section::Terms],
        steps: counts[Section::Steps],
        pairs: 0,
        copy: floor,
        proved: proved.map(|_| proved_times.median()),
        rust: rust_times.median(),
    }
}

/// A text to time, with its declarations.
#[derive(Clone, Debug)]
pub struct Typed {
    pub name: String,
    pub declarations: Vec<u8>,
    pub text: Vec<u8>,
    /// What the reader makes of it.
    pub job: Vec<u8>,
}

/// Texts by their size, and the deepest one that fits.
pub fn texts() -> Vec<Typed> {
    let sizes = [("text, 1 KB", 1024), ("text, 8 KB", 8 * 1024), ("text, 58 KB", 58 * 1024)];
    let sized = sizes.into_iter().map(|(name, bytes)| (name, texts::of_size(bytes)));
    sized
        .chain([("text, 1,024 deep", texts::deepest())])
        .map(|(name, (declarations, text))| {
            let job = read::job(&declarations, &text).expect("the text was made to fit");
            Typed { name: name.into(), declarations, text, job }
        })
        .collect()
}

/// Times the readers on a text. The floor is the time to clear the areas.
pub fn time_reader(typed: &Typed, proved: Option<Reader>, rust: Reader, budget: Duration) -> Row {
    let Typed { name, declarations, text, job } = typed;
    let (mut out, mut words, mut sets) =
        (vec![0; MAX_BYTES], vec![0; MAX_WORDS], vec![0; MAX_SETS]);
    let once = |read: Reader| {
        clear(&mut out, &mut words, &mut sets);
        let begun = Instant::now();
        let answer =
            read(black_box(declarations), black_box(text), &mut out, &mut words, &mut sets);
        let time = begun.elapsed();
        assert_eq!(answer, job.len() as u64, "the texts of the benchmark are read");
        time
    };
    let (mut proved_times, mut rust_times) = in_turn(once, proved, rust, budget);
    let floor = time_clearing(&mut out, &mut words, &mut sets, budget);
    Row {
        name: name.clone(),
        bytes: text.len(),
        terms: counts_of(job).unwrap_or_default()[Section::Terms],
        steps: 0,
        pairs: 0,
        copy: floor,
        proved: proved.map(|_| proved_times.median()),
        rust: rust_times.median(),
    }
}

/// The median time to clear the areas, in microseconds.
fn time_clearing(out: &mut [u8], words: &mut [u32], sets: &mut [u64], budget: Duration) -> f64 {
    let mut times = Times::default();
    while times.total < budget / 8 {
        let begun = Instant::now();
        clear(black_box(&mut *out), black_box(&mut *words), black_box(&mut *sets));
        times.add(begun.elapsed());
    }
    times.median()
}

/// Times the two in turn, for about `budget` each.
fn in_turn<P: Copy>(
    mut once: impl FnMut(P) -> Duration,
    proved: Option<P>,
    rust: P,
    budget: Duration,
) -> (Times, Times) {
    keep_pages();
    let (mut proved_times, mut rust_times) = (Times::default(), Times::default());
    while rust_times.total < budget || proved.is_some() && proved_times.total < budget {
        rust_times.add(once(rust));
        if let Some(proved) = proved {
            proved_times.add(once(proved));
        }
    }
    (proved_times, rust_times)
}

/// Once a large block was freed, the system's allocator keeps its pages from call to call.
/// Before that, whether it gives them back each time, which doubles the time of a long file,
/// is a matter of what happens to lie at the end of the heap.
fn keep_pages() {
    drop(black_box(vec![0u8; 8 << 20]));
}

fn clear(out: &mut [u8], words: &mut [u32], sets: &mut [u64]) {
    out.fill(0);
    words.fill(0);
    sets.fill(0);
}

#[derive(Debug, Default)]
struct Times {
    times: Vec<Duration>,
    total: Duration,
}

impl Times {
    fn add(&mut self, time: Duration) {
        self.times.push(time);
        self.total += time;
    }

    /// In microseconds.
    fn median(&mut self) -> f64 {
        self.times.sort_unstable();
        let middle = self.times.get(self.times.len() / 2).copied().unwrap_or_default();
        middle.as_secs_f64() * 1e6
    }
}

#[cfg(test)]
mod tests {
    use super::*;
    use crate::check::check;
    use crate::compare_writer::Quantified;
    use crate::expand::expand;
    use crate::generate::derive::BIND;
    use crate::naive::{self, Step, Tree};
    use std::collections::BTreeSet;

    /// Sizes and acceptance, not times.
    #[test]
    fn subjects_are_what_they_say() {
        let subjects = subjects();
        let (terms, steps) = (doubling(Share::Term), doubling(Share::Step));
        for subject in subjects.iter().chain(&terms).chain(&steps) {
            let mut area = vec![0; area_words(subject.terms)];
            assert!(check(&subject.file, &mut area).is_ok(), "{}", subject.name);
        }
        let sizes: Vec<usize> = subjects[..4].iter().map(|subject| subject.file.len()).collect();
        for (size, kb) in sizes.into_iter().zip([1, 8, 32, 57]) {
            assert!((1000 * kb..1100 * kb).contains(&size), "{size} bytes for {kb} KB");
        }
        // The same files as before Req 02.
        assert_eq!((OLD_BYTES, subjects[3].file.len()), (58_148, 58_056));
        let counts = |place: usize| counts_of(&subjects[place].file).unwrap_or_default();
        assert_eq!(subjects[4].file.len(), MAX_BYTES);
        assert_eq!(counts(5)[Section::Contexts], 256);
        assert_eq!(counts(6)[Section::Links], 2048);
        for (share, subjects) in [(Share::Term, terms), (Share::Step, steps)] {
            for (subject, most) in subjects.iter().zip([64, 128, 256, 512, 1024]) {
                let count = if share == Share::Term { subject.terms } else { subject.steps };
                assert!((most * 8 / 10..=most).contains(&count), "{count} of {most}");
            }
        }
    }

    /// The jobs of the expansions keep no name, those of quantifiers and choices all of them,
    /// which makes their files shorter.
    #[test]
    fn jobs_are_what_they_say() {
        let writer: Writer = &|job, names, out, words, sets| {
            expand(job, names, out, words, sets).map_or(0, |length| length as u64)
        };
        let jobs = jobs();
        for (place, rule) in jobs.iter().enumerate() {
            let mut quantified = Quantified::default();
            quantified.add(&written(&rule.job, Names::Keep).expect("it fits"));
            let kept = place >= SIZES.len();
            let kinds = Quantified {
                kept: u64::from(kept),
                // The smallest has no quantifier.
                renamed: u64::from(!kept && place > 0),
                both: 0,
                choices: [u64::from(place > SIZES.len()), 0],
            };
            assert_eq!(quantified, kinds, "{}", rule.name);
            let bytes = Names::ALL.map(|names| {
                let row = time_writer(rule, names, None, writer, Duration::from_micros(1));
                assert!(row.rust > 0.0 && row.proved.is_none() && row.name == rule.name);
                row.bytes
            });
            assert_eq!(bytes[0] < bytes[1], kept, "{}", rule.name);
        }
        assert_eq!(jobs.len(), SIZES.len() + 2);
    }

    /// Pairs of the files in which REFL walks; the others have none.
    #[test]
    fn walks_are_what_they_say() {
        let walked: Vec<(String, u32)> = subjects()
            .into_iter()
            .filter(|subject| subject.pairs > 0)
            .map(|subject| (subject.name, subject.pairs))
            .collect();
        let pairs = [
            ("one REFL instead of steps", 50 * 40),
            ("4,096 pairs", 4_096),
            ("1,000 nested binders", 1_043),
        ];
        assert_eq!(walked, pairs.map(|(name, pairs)| (name.to_string(), pairs)));
    }

    /// At least 200 quantifiers are renamed, and all variables bound.
    #[test]
    fn all_variables_are_renamed() {
        let subjects = subjects();
        let wide = subjects.iter().find(|subject| subject.name == WIDE).expect("it is there");
        let plain = naive::load(&wide.file, MAX_SETS).expect("it is accepted");
        let quantified = |term: u32| match plain.tree(term) {
            Tree::ForAll(variable, _) | Tree::Exists(variable, _) => Some(*variable),
            _ => None,
        };
        let renames =
            |step: &&Step| step.rule == BIND && quantified(step.left) != quantified(step.right);
        assert_eq!(plain.variables.len(), 256);
        assert_eq!(plain.steps.iter().filter(renames).count(), 256);
        let terms = 1..=plain.terms.len() as u32;
        assert_eq!(terms.filter_map(quantified).collect::<BTreeSet<u32>>().len(), 256);
    }

    /// Sizes of the texts, and a row for each; its times say nothing here.
    #[test]
    fn texts_are_what_they_say() {
        let reader: Reader = &|declarations, text, out, words, sets| {
            read::read(declarations, text, out, words, sets).map_or(0, |length| length as u64)
        };
        let texts = texts();
        for (typed, kb) in texts.iter().zip([1, 8, 58]) {
            let size = typed.text.len();
            assert!((1000 * kb..1024 * kb + 1).contains(&size), "{size} bytes for {kb} KB");
        }
        assert_eq!(counts_of(&texts[3].job).unwrap_or_default()[Section::Terms], 1024);
        for typed in &texts {
            let row = time_reader(typed, None, reader, Duration::from_micros(1));
            assert_eq!((row.bytes, row.proved), (typed.text.len(), None));
            assert!(row.terms > 0 && row.rust > 0.0);
        }
    }
}
