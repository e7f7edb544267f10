//! A walk of REFL made into files, so that what a check answers tells its pairs (Req 04). The
//! answer to a file has the count of a walk that ends with no difference; the count of one
//! that differs shows at the limit: with terms that take k pairs walked before it, it is
//! refused by 13 as long as all pairs together are within the limit, else by 21.
//!
//! A walk is the same whether or not the context mentions the free variables of its sides
//! (Req 05). Where one is not mentioned, entries that fix it are put between the empty context
//! and all others: it stays its own image everywhere, and no other image changes.

use crate::answer::{Ending, Reason, Refusal, Whole, number};
use crate::bundle::{BUILT_IN, MAX_SETS, Section, counts_of, to_bytes, to_words};
use crate::check::{MOST_PAIRS, sides_in};
use crate::compare::Checker;

const TRUTH: u32 = 0;
/// Kinds of terms.
const VARIABLE: u32 = 1;
const EXISTS: u32 = 4;

/// The walk of a REFL: a file whose tables and contexts are sound, a context and two terms.
#[derive(Clone, Debug)]
pub struct Question<'a> {
    file: &'a [u8],
    context: u32,
    sides: [u32; 2],
    /// The free variables of the sides that the context does not mention.
    stray: Vec<u32>,
    /// What holds the sides behind the terms that are walked before them.
    under: Under,
}

/// What the walked terms are put under, behind the terms that are walked before them.
#[derive(Clone, Copy, Debug, PartialEq, Eq)]
pub enum Under {
    /// A new symbol; the two sides have to have one sort.
    Symbol(u32),
    /// A let of new variables.
    Let,
}

/// Whether the fixing entries that a stray variable asks for are put in.
#[derive(Clone, Copy, Debug, PartialEq, Eq)]
enum Scope {
    Fixed,
    AsGiven,
}

impl<'a> Question<'a> {
    /// `None` where the tables or contexts are not sound, or there is no such context or term.
    pub fn new(file: &'a [u8], context: u32, sides: [u32; 2]) -> Option<Self> {
        let ([left, right], stray) = sides_in(file, context, sides)?;
        let under = if left == right { Under::Symbol(left.word()) } else { Under::Let };
        Some(Question { file, context, sides, stray: stray.members().collect(), under })
    }

    /// Whether a side has a free variable that the context does not mention.
    pub fn is_stray(&self) -> bool {
        !self.stray.is_empty()
    }

    /// The file's records with the fixing entries, and the context's number there.
    fn sheet(&self, scope: Scope) -> Option<(Sheet, u32)> {
        let mut sheet = Sheet::new(self.file)?;
        let fixed = if scope == Scope::Fixed { &self.stray[..] } else { &[] };
        sheet.fix_below_all(fixed);
        Some((sheet, self.context + fixed.len() as u32))
    }

    /// Whether one of REFL's first forms takes it, given that the walk finds no difference:
    /// one term, or a variable and what is then its image.
    fn stays(&self) -> bool {
        let [left, right] = self.sides;
        let counts = counts_of(self.file).unwrap_or_default();
        let kind = |term| to_words(self.file)[counts.place(Section::Terms, term, 0)];
        left == right || kind(left) == VARIABLE
    }

    /// A file whose first step is the REFL that is asked about, and whose claim is another
    /// term's. `None` where it would pass a limit.
    fn bare(&self, scope: Scope) -> Option<Vec<u8>> {
        let (mut sheet, context) = self.sheet(scope)?;
        sheet.finish(context, self.sides)
    }

    /// The same with terms of so many pairs walked before, and a pair for what holds them
    /// together: `more` pairs in all, one at least.
    fn padded(&self, scope: Scope, more: u32) -> Option<Vec<u8>> {
        let (mut sheet, context) = self.sheet(scope)?;
        // The sides of one term would be taken without a walk: two names are told apart first.
        let named = self.sides[0] == self.sides[1];
        let filling = more.checked_sub(if named { 3 } else { 1 })?;
        if filling == 0 && !named && self.under == Under::Let {
            return None; // a let has a variable
        }
        let filling = sheet.filling(filling);
        let mut parts = [filling.clone(), filling];
        if named {
            let truth = sheet.constant();
            let names = sheet.differing(truth);
            parts.iter_mut().zip(names).for_each(|(parts, name)| parts.push(name));
        }
        let sides = sheet.hold(self.under, parts, self.sides);
        sheet.finish(context, sides)
    }

    /// What a checker answers to such a file, `None` where there is none.
    fn ask(check: Checker, file: Option<Vec<u8>>) -> Option<u64> {
        let mut free = vec![0; MAX_SETS];
        file.map(|file| check(&file, &mut free))
    }

    /// The walk, as a checker's answers tell it: the least padding with which it is spent is
    /// looked for by halves. `None` where a file would pass a limit.
    pub fn measure(&self, check: Checker) -> Option<Result<Whole, u64>> {
        let spent = Refusal::at(Reason::Spent, 1).packed();
        let found = |ending, pairs| Some(Ok(Whole { ending, pairs }));
        let bare = Self::ask(check, self.bare(Scope::Fixed))?;
        let ending = match bare {
            _ if bare == spent => return found(Ending::Spent, MOST_PAIRS),
            _ if number(bare) == 0 => Ending::Same,
            _ if bare == Refusal::at(Reason::Rule, 1).packed() => Ending::Differs,
            _ => return Some(Err(bare)),
        };
        if ending == Ending::Same && bare != 0 {
            return found(ending, bare as u32);
        }
        // It is spent with `high` pairs before it, since 4,096 are more than enough, and not
        // with `low`: no pairs at all, or the two names and their holder alone.
        let least = if self.sides[0] == self.sides[1] { 3 } else { 0 };
        let (mut low, mut high) = (least, MOST_PAIRS);
        for asked in [least, high] {
            let answer = match asked {
                0 => bare,
                _ => Self::ask(check, self.padded(Scope::Fixed, asked))?,
            };
            if (answer == spent) != (asked == high) {
                return Some(Err(answer));
            }
        }
        while low + 1 < high {
            let middle = low.midpoint(high);
            match Self::ask(check, self.padded(Scope::Fixed, middle))? {
                answer if answer == spent => high = middle,
                answer if answer == bare || ending == Ending::Same && number(answer) == 0 => {
                    low = middle;
                }
                answer => return Some(Err(answer)),
            }
        }
        found(ending, MOST_PAIRS + 1 - high)
    }

    /// The files that are made of a walk of which this is known, and their answers: the walk
    /// alone where it finds no difference, or is spent; at the limit; and one pair past it.
    /// Where a side is stray, also the first and the last of them without the fixing entries.
    pub fn expected(&self, walk: Whole) -> Vec<(Vec<u8>, u64)> {
        let refused = |reason| Refusal::at(reason, 1).packed();
        let mut files = Vec::new();
        let mut add = |file: Option<Vec<u8>>, answer| {
            files.extend(file.map(|file| (file, answer)));
        };
        match walk.ending {
            // One settled term would be taken without a walk.
            Ending::Spent if self.sides[0] == self.sides[1] => {
                add(self.padded(Scope::Fixed, 3), refused(Reason::Spent));
            }
            Ending::Spent => add(self.bare(Scope::Fixed), refused(Reason::Spent)),
            Ending::Same | Ending::Differs => {
                let within = match walk.ending {
                    Ending::Same => MOST_PAIRS.into(),
                    _ => refused(Reason::Rule),
                };
                if walk.ending == Ending::Same {
                    let pairs = if self.stays() { 0 } else { walk.pairs.into() };
                    add(self.bare(Scope::Fixed), pairs);
                }
                let more = MOST_PAIRS - walk.pairs;
                if more == 0 {
                    add(self.bare(Scope::Fixed), within);
                } else {
                    add(self.padded(Scope::Fixed, more), within);
                }
                add(self.padded(Scope::Fixed, more + 1), refused(Reason::Spent));
                if self.is_stray() {
                    add(self.padded(Scope::AsGiven, more + 1), refused(Reason::Stray));
                }
            }
        }
        if self.is_stray() {
            add(self.bare(Scope::AsGiven), refused(Reason::Stray));
        }
        files
    }

    /// How many files there are where none would pass a limit.
    pub fn all_files(&self, walk: Whole) -> usize {
        let (fixed, stray) = match walk.ending {
            Ending::Same => (3, 2),
            Ending::Differs => (2, 2),
            Ending::Spent => (1, 1),
        };
        fixed + if self.is_stray() { stray } else { 0 }
    }
}

/// The records of a file but its steps, to which others are added.
struct Sheet {
    sections: [Vec<u32>; 6],
    /// A new symbol of no arguments, and one of two, once they are asked for.
    constant: Option<u32>,
    /// Doubled terms: the first is the constant, each other one has the one before it twice.
    doubled: Vec<u32>,
    pair: Option<u32>,
}

impl Sheet {
    /// `None` where the file's length is not what its counts give.
    fn new(file: &[u8]) -> Option<Self> {
        let counts = counts_of(file)?;
        let words = to_words(file);
        if !counts.within_limits() || counts.bytes() != file.len() as u64 {
            return None;
        }
        let mut sections = Section::ALL.map(|section| {
            let start = counts.start(section);
            words[start..start + counts[section] as usize * section.width()].to_vec()
        });
        sections[Section::Steps as usize].clear();
        Some(Sheet { sections, constant: None, doubled: Vec::new(), pair: None })
    }

    fn count(&self, section: Section) -> u32 {
        (self.sections[section as usize].len() / section.width()) as u32
    }

    fn add(&mut self, section: Section, record: &[u32]) -> u32 {
        self.sections[section as usize].extend(record);
        self.count(section)
    }

    /// Puts entries that fix these variables between the empty context and all others, whose
    /// numbers rise by as many.
    fn fix_below_all(&mut self, variables: &[u32]) {
        let by = variables.len() as u32;
        let contexts = &mut self.sections[Section::Contexts as usize];
        let (records, _) = contexts.as_chunks_mut::<4>();
        records.iter_mut().for_each(|[.., parent]| *parent += by);
        let fixing = (0..).zip(variables).flat_map(|(parent, &variable)| [1, variable, 0, parent]);
        contexts.splice(..0, fixing);
    }

    fn list(&mut self, values: &[u32]) -> u32 {
        let first = self.count(Section::Links) + 1;
        for (place, &value) in (1..).zip(values) {
            let next = if place < values.len() as u32 { first + place } else { 0 };
            self.add(Section::Links, &[value, next]);
        }
        if values.is_empty() { 0 } else { first }
    }

    fn symbol(&mut self, result: u32, arguments: &[u32]) -> u32 {
        let arguments = self.list(arguments);
        BUILT_IN + self.add(Section::Symbols, &[result, arguments])
    }

    fn apply(&mut self, symbol: u32, arguments: &[u32]) -> u32 {
        let arguments = self.list(arguments);
        self.add(Section::Terms, &[2, symbol, arguments, 0])
    }

    /// The term of a new symbol: no other term of the file is equal to it.
    fn constant(&mut self) -> u32 {
        if let Some(term) = self.constant {
            return term;
        }
        let symbol = self.symbol(TRUTH, &[]);
        let term = self.apply(symbol, &[]);
        self.constant = Some(term);
        term
    }

    /// A closed term that takes 2^(level + 1) - 1 pairs against itself.
    fn doubled(&mut self, level: usize) -> u32 {
        while self.doubled.len() <= level {
            let term = match self.doubled.last().copied() {
                None => self.constant(),
                Some(below) => {
                    let pair = match self.pair {
                        Some(pair) => pair,
                        None => self.symbol(TRUTH, &[TRUTH, TRUTH]),
                    };
                    self.pair = Some(pair);
                    self.apply(pair, &[below, below])
                }
            };
            self.doubled.push(term);
        }
        self.doubled[level]
    }

    /// Closed terms that take so many pairs together, each against itself.
    fn filling(&mut self, pairs: u32) -> Vec<u32> {
        let mut terms = Vec::new();
        let mut rest = pairs;
        while rest > 0 {
            let level = (rest + 1).ilog2() - 1;
            terms.push(self.doubled(level as usize));
            rest -= (2 << level) - 1;
        }
        terms
    }

    /// Two terms that differ in a name alone: two pairs.
    fn differing(&mut self, body: u32) -> [u32; 2] {
        [0; 2].map(|_| {
            let variable = self.add(Section::Variables, &[TRUTH]);
            self.add(Section::Terms, &[EXISTS, variable, body, 0])
        })
    }

    /// Terms of which each has one list of parts before one side: a pair more.
    fn hold(&mut self, under: Under, parts: [Vec<u32>; 2], sides: [u32; 2]) -> [u32; 2] {
        let count = parts[0].len();
        let [one, other] = parts;
        let both = [(one, sides[0]), (other, sides[1])];
        match under {
            Under::Symbol(sort) => {
                let mut sorts = vec![TRUTH; count];
                sorts.push(sort);
                let symbol = self.symbol(TRUTH, &sorts);
                both.map(|(mut arguments, side)| {
                    arguments.push(side);
                    self.apply(symbol, &arguments)
                })
            }
            Under::Let => {
                let variables: Vec<u32> =
                    (0..count).map(|_| self.add(Section::Variables, &[TRUTH])).collect();
                let variables = self.list(&variables);
                both.map(|(bounds, side)| {
                    let bounds = self.list(&bounds);
                    self.add(Section::Terms, &[5, variables, bounds, side])
                })
            }
        }
    }

    /// The file whose first step is this REFL and whose second, the claim, is another's.
    fn finish(&mut self, context: u32, [left, right]: [u32; 2]) -> Option<Vec<u8>> {
        let claimed = self.constant();
        self.add(Section::Steps, &[1, context, left, right, 0]);
        self.add(Section::Steps, &[1, 0, claimed, claimed, 0]);
        let mut words = vec![1];
        words.extend(Section::ALL.map(|section| self.count(section)));
        words.extend([claimed, claimed]);
        words.extend(self.sections.iter().flatten());
        let fits = Section::ALL.iter().all(|&section| self.count(section) <= section.limit());
        fits.then(|| to_bytes(&words))
    }
}
