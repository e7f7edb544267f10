//! The writer of let expansions, from document 01. It takes a job and writes
//! the file of the derivation that expands every let and renames the
//! quantifiers and choices, all of them or those whose names are not kept (Req 06).

use crate::answer::{Reason, Refusal};
use crate::bundle::{Counts, MAX_BYTES, MAX_SETS, MAX_WORDS, SET_WORDS, Section, to_bytes};
use crate::check::{Binder, Lookup, Tables, Term};
use crate::fault::{Exact, Fault, OLD_VARIABLES, Rules};
use crate::set::Set;
use std::fmt;

const REFL: u32 = 1;
const CONG: u32 = 2;
const BIND: u32 = 4;
const LET: u32 = 5;

/// Which quantifiers and choices keep their variable.
#[derive(Clone, Copy, Debug, Default, PartialEq, Eq, PartialOrd, Ord, Hash)]
pub enum Names {
    /// Those whose variable exactly one term record of the job binds and no let lists.
    #[default]
    Keep,
    /// None.
    RenameAll,
}

impl Names {
    pub const ALL: [Names; 2] = [Names::Keep, Names::RenameAll];
}

impl fmt::Display for Names {
    fn fmt(&self, out: &mut fmt::Formatter<'_>) -> fmt::Result {
        out.write_str(match self {
            Names::Keep => "names kept",
            Names::RenameAll => "all renamed",
        })
    }
}

/// Writes the expansion of a job into `out` and answers its length. On refusal
/// every area is zero; otherwise `out` is zero after the file and the scratch
/// areas are zero.
pub fn expand(
    job: &[u8],
    names: Names,
    out: &mut [u8],
    words: &mut [u32],
    sets: &mut [u64],
) -> Result<usize, Refusal> {
    expand_with(Exact, job, names, out, words, sets)
}

/// The file that the writer makes of a job, without lent areas.
pub fn written(job: &[u8], names: Names) -> Result<Vec<u8>, Refusal> {
    file_of(Exact, job, names, true)
}

/// The writer by the given rules: the exact ones in [`expand`].
pub(crate) fn expand_with<R: Rules>(
    rules: R,
    job: &[u8],
    names: Names,
    out: &mut [u8],
    words: &mut [u32],
    sets: &mut [u64],
) -> Result<usize, Refusal> {
    let new_variables = Section::Variables.limit() - OLD_VARIABLES;
    let less = |fault, words: u32| if rules.has(fault) { words as usize } else { 0 };
    let suffice = out.len()
        >= MAX_BYTES
            - less(Fault::OutputOneShort, 1)
            - less(Fault::OutputOfOldLimit, 4 * new_variables)
        && words.len() >= MAX_WORDS - less(Fault::WordsOfOldLimit, new_variables)
        && sets.len()
            >= if rules.has(Fault::SetsOfTerms) { MAX_SETS / SET_WORDS } else { MAX_SETS };
    let file = file_of(rules, job, names, suffice);
    if !rules.has(Fault::ScratchKept) {
        words.fill(0);
        sets.fill(0);
    }
    if !rules.has(Fault::OutputTailKept) || file.is_err() {
        out.fill(0);
    }
    let file = file?;
    out[..file.len()].copy_from_slice(&file);
    Ok(file.len())
}

fn file_of<R: Rules>(
    rules: R,
    job: &[u8],
    names: Names,
    areas_suffice: bool,
) -> Result<Vec<u8>, Refusal> {
    let mut tables = Tables::decode(Exact, job, |_| areas_suffice)?;
    let lookup = std::mem::take(&mut tables.lookup);
    let header = tables.header;
    let refused = |reason| Err(Refusal::whole(reason));
    let bare = header.counts[Section::Contexts] == 0
        && header.counts[Section::Steps] == 0
        && (header.right == 0 || rules.has(Fault::RightUnread));
    if rules.has(Fault::ClaimBeforeBare) && !tables.terms.is_term(header.left) {
        return refused(Reason::Claim);
    }
    if !bare {
        return refused(Reason::NotBare);
    }
    if !tables.terms.is_term(header.left) {
        return refused(Reason::Claim);
    }
    if rules.has(Fault::FullBeforeOpen) {
        let full = |Full| Refusal::whole(Reason::Full);
        Writer::new(rules, &tables, names, lookup.clone()).visit(header.left, 0).map_err(full)?;
    }
    let mut free = tables.terms.free(Exact, header.left);
    if rules.has(Fault::OpenFirstWord) {
        free = free.intersection((1..=OLD_VARIABLES).collect());
    }
    if !free.is_empty() && !rules.has(Fault::OpenTaken) {
        return refused(Reason::Open);
    }
    let mut writer = Writer::new(rules, &tables, names, lookup);
    match writer.visit(header.left, 0) {
        Ok(Carried { result, .. }) => Ok(to_bytes(&writer.words(header.left, result))),
        Err(Full) => refused(Reason::Full),
    }
}

/// The variables that keep their names, from one pass over the job's terms, also those that
/// the left does not reach.
fn kept<R: Rules>(rules: R, job: &Tables, names: Names) -> Set {
    let renames = (names == Names::RenameAll || rules.has(Fault::AlwaysRenames))
        && !rules.has(Fault::AlwaysKeeps);
    if renames {
        return Set::EMPTY;
    }
    // Only faults ask which terms the left reaches.
    let narrow = rules.has(Fault::BindersOfReached) || rules.has(Fault::ListedOfReached);
    let reached = if narrow { reached(job) } else { Vec::new() };
    let passed_over = |fault, term: u32| rules.has(fault) && !reached[term as usize];
    let (mut bound, mut again, mut listed) = (Set::EMPTY, Set::EMPTY, Set::EMPTY);
    for number in 1..=job.terms.count() {
        match job.terms.get(number).term {
            Term::Binder { binder, variable, .. } => {
                if passed_over(Fault::BindersOfReached, number)
                    || binder != Binder::ForAll && rules.has(Fault::ForAllsCounted)
                    || binder != Binder::Exists && rules.has(Fault::ExistsCounted)
                    || binder == Binder::Choice && rules.has(Fault::ChoicesUncounted)
                {
                    continue;
                }
                if bound.has(variable) {
                    again.insert(variable);
                }
                bound.insert(variable);
            }
            Term::Let { variables, .. } => {
                if passed_over(Fault::ListedOfReached, number) {
                    continue;
                }
                let most = if rules.has(Fault::FirstListedCounts) { 1 } else { usize::MAX };
                job.lists.values(variables).take(most).for_each(|variable| listed.insert(variable));
            }
            Term::Variable(_) | Term::Application { .. } => {}
        }
    }
    if rules.has(Fault::KeptThoughBoundAgain) {
        again = Set::EMPTY;
    }
    if rules.has(Fault::KeptThoughListed) {
        listed = Set::EMPTY;
    }
    if rules.has(Fault::KeptFirstWord) {
        bound = bound.intersection((1..=OLD_VARIABLES).collect());
    }
    bound.without(again).without(listed)
}

/// Whether the left is or holds a term, by its number; for faults alone.
fn reached(job: &Tables) -> Vec<bool> {
    let mut reached = vec![false; job.terms.count() as usize + 1];
    reached[job.header.left as usize] = true;
    for number in (1..=job.header.left).rev() {
        if !reached[number as usize] {
            continue;
        }
        let mut parts = Vec::new();
        match job.terms.get(number).term {
            Term::Variable(_) => {}
            Term::Application { arguments, .. } => parts.extend(job.lists.values(arguments)),
            Term::Binder { body, .. } => parts.push(body),
            Term::Let { bounds, body, .. } => {
                parts.extend(job.lists.values(bounds));
                parts.push(body);
            }
        }
        parts.into_iter().for_each(|part| reached[part as usize] = true);
    }
    reached
}

/// A section is at its limit and needs another record.
#[derive(Clone, Copy, Debug)]
struct Full;

/// What a visit leaves: the resulting term and the step that proves it.
#[derive(Clone, Copy, Debug)]
struct Carried {
    result: u32,
    step: u32,
}

/// The records written so far, old ones first.
struct Writer<'a, R> {
    rules: R,
    job: &'a Tables,
    /// Sections in the file's order, as words.
    sections: [Vec<u32>; 6],
    lookup: Lookup,
    /// The variables that keep their names.
    kept: Set,
    /// What each variable of the job is replaced by here, by number - 1; 0 where
    /// nothing replaces it.
    images: Vec<u32>,
}

impl<'a, R: Rules> Writer<'a, R> {
    fn new(rules: R, job: &'a Tables, names: Names, lookup: Lookup) -> Self {
        Writer {
            rules,
            job,
            sections: Section::ALL.map(|section| job.section(section).to_vec()),
            lookup,
            kept: kept(rules, job, names),
            images: vec![0; job.signature.variable_count() as usize],
        }
    }

    fn count(&self, section: Section) -> u32 {
        (self.sections[section as usize].len() / section.width()) as u32
    }

    fn push(&mut self, section: Section, record: &[u32]) -> Result<u32, Full> {
        let number = self.count(section) + 1;
        let limit = section.limit() - u32::from(self.rules.has(Fault::LimitOneShort));
        let old = self.rules.has(Fault::RenamedPastOldLimit)
            && section == Section::Variables
            && number > OLD_VARIABLES;
        if number > limit || old {
            return Err(Full);
        }
        self.sections[section as usize].extend_from_slice(record);
        Ok(number)
    }

    /// A list as new links, one after another.
    fn push_list(&mut self, values: impl ExactSizeIterator<Item = u32>) -> Result<u32, Full> {
        let count = values.len() as u32;
        let first = self.count(Section::Links) + 1;
        for (place, value) in (1..).zip(values) {
            let next = if place == count { 0 } else { first + place };
            self.push(Section::Links, &[value, next])?;
        }
        Ok(if count == 0 { 0 } else { first })
    }

    fn visit(&mut self, term: u32, context: u32) -> Result<Carried, Full> {
        let (rule, result, premises) = match self.job.terms.get(term).term {
            Term::Variable(variable) => {
                let image = self.images[variable as usize - 1];
                (REFL, if image == 0 { term } else { image }, Vec::new())
            }
            Term::Application { symbol, arguments } => {
                let carried = self.visit_list(arguments, context)?;
                let results = carried.iter().map(|part| part.result);
                let result = self.application(symbol, results)?;
                (CONG, result, carried)
            }
            Term::Binder { binder: Binder::Choice, .. }
                if self.rules.has(Fault::ChoicesNotVisited) =>
            {
                (REFL, term, Vec::new())
            }
            Term::Binder { binder, variable, body } => {
                let (result, carried) = self.binder(binder, variable, body, context)?;
                (BIND, result, vec![carried])
            }
            Term::Let { variables, bounds, body } => {
                let mut carried = if self.rules.has(Fault::LetInTurn) {
                    self.visit_in_turn(variables, bounds, context)?
                } else {
                    self.visit_list(bounds, context)?
                };
                let last = self.let_body(variables, &carried, body, context)?;
                carried.push(last);
                (LET, last.result, carried)
            }
        };
        let premises = self.push_list(premises.iter().map(|part| part.step))?;
        let step = self.push(Section::Steps, &[rule, context, term, result, premises])?;
        Ok(Carried { result, step })
    }

    /// Visits each term of a list of the job, in order.
    fn visit_list(&mut self, list: u32, context: u32) -> Result<Vec<Carried>, Full> {
        let job = self.job;
        let mut carried: Vec<Carried> = Vec::with_capacity(job.lists.length(list) as usize);
        if self.rules.has(Fault::LastArgumentFirst) {
            let terms: Vec<u32> = job.lists.values(list).collect();
            for term in terms.into_iter().rev() {
                carried.insert(0, self.visit(term, context)?);
            }
            return Ok(carried);
        }
        for term in job.lists.values(list) {
            carried.push(self.visit(term, context)?);
        }
        Ok(carried)
    }

    /// A fault's reading of a let: each bound term inside the variables before.
    fn visit_in_turn(
        &mut self,
        variables: u32,
        bounds: u32,
        context: u32,
    ) -> Result<Vec<Carried>, Full> {
        let job = self.job;
        let outer = self.images.clone();
        let mut carried = Vec::new();
        for (variable, term) in job.lists.values(variables).zip(job.lists.values(bounds)) {
            let part = self.visit(term, context)?;
            self.images[variable as usize - 1] = part.result;
            carried.push(part);
        }
        self.images = outer;
        Ok(carried)
    }

    /// The application to these arguments: one that is there, else a new one
    /// with its arguments just before it.
    fn application(
        &mut self,
        symbol: u32,
        arguments: impl DoubleEndedIterator<Item = u32> + ExactSizeIterator + Clone,
    ) -> Result<u32, Full> {
        let class = self.lookup.class_of(arguments.clone());
        let key = [2, symbol, class, 0];
        let found = self.lookup.term(key);
        let old_only = self.rules.has(Fault::OnlyOldTermsLookedUp);
        let found = found.filter(|&number| !old_only || number <= self.job.terms.count());
        if self.rules.has(Fault::ListOfFoundTerm) && found.is_some() {
            self.push_list(arguments.clone())?;
        }
        match found {
            Some(number) => Ok(number),
            None => {
                let list = self.push_list(arguments)?;
                self.push_term([2, symbol, list, 0], key)
            }
        }
    }

    fn push_term(&mut self, record: [u32; 4], key: [u32; 4]) -> Result<u32, Full> {
        let number = self.push(Section::Terms, &record)?;
        self.lookup.insert(key, number);
        Ok(number)
    }

    /// A term without lists: its record is its key.
    fn term(&mut self, record: [u32; 4]) -> Result<u32, Full> {
        match self.lookup.term(record) {
            Some(number) => Ok(number),
            None => self.push_term(record, record),
        }
    }

    fn binder(
        &mut self,
        binder: Binder,
        x: u32,
        body: u32,
        context: u32,
    ) -> Result<(u32, Carried), Full> {
        let mut kept = self.keeps(x);
        if binder == Binder::Choice {
            kept &= !self.rules.has(Fault::ChoicesNotKept);
            kept |= self.rules.has(Fault::ChoicesKept);
        }
        let y = if kept {
            x
        } else {
            let sort = self.job.signature.variable(x).word();
            let sort = if self.rules.has(Fault::NewVariableIsItem) { 1 } else { sort };
            self.push(Section::Variables, &[sort])?
        };
        let record = [1, y, 0, 0];
        let y_term = if kept && self.rules.has(Fault::KeptTermNotLookedUp) {
            self.push_term(record, record)?
        } else {
            self.term(record)?
        };
        let fixing = if kept && self.rules.has(Fault::KeptNotFixed) {
            context
        } else {
            self.push(Section::Contexts, &[1, y, 0, context])?
        };
        let (inner, image) = if kept && self.rules.has(Fault::KeptNotReplaced) {
            (fixing, 0)
        } else {
            let (xs, ys) = if self.rules.has(Fault::NewLinkFirst) {
                let ys = self.push_list([y_term].into_iter())?;
                (self.push_list([x].into_iter())?, ys)
            } else {
                (self.push_list([x].into_iter())?, self.push_list([y_term].into_iter())?)
            };
            (self.push(Section::Contexts, &[2, xs, ys, fixing])?, y_term)
        };
        let outer = std::mem::replace(&mut self.images[x as usize - 1], image);
        let carried = self.visit(body, inner)?;
        if !self.rules.has(Fault::ImagesKept) {
            self.images[x as usize - 1] = outer;
        }
        let record = [binder.kind(), y, carried.result, 0];
        let result = if kept && self.rules.has(Fault::KeptResultNotLookedUp) {
            self.push_term(record, record)?
        } else {
            self.term(record)?
        };
        Ok((result, carried))
    }

    /// Whether a binder of this variable keeps it.
    fn keeps(&self, x: u32) -> bool {
        let mut kept = self.kept.has(x);
        if self.rules.has(Fault::BindersOfGrowingFile) {
            let terms = self.sections[Section::Terms as usize].chunks(Section::Terms.width());
            kept &= terms.filter(|term| matches!(term[0], 3 | 4 | 6) && term[1] == x).count() == 1;
        }
        if self.rules.has(Fault::KeptFirstTimeOnly) {
            let steps = self.sections[Section::Steps as usize].chunks(Section::Steps.width());
            let mut carried = steps.filter(|step| step[0] == BIND).map(|step| step[2]);
            kept &= !carried.any(|term| {
                let own = &self.job.terms.get(term).term;
                matches!(own, Term::Binder { variable, .. } if *variable == x)
            });
        }
        kept
    }

    /// The body of a let where its variables are replaced by what its bound
    /// terms became. The context uses the let's own list of variables.
    fn let_body(
        &mut self,
        variables: u32,
        bounds: &[Carried],
        body: u32,
        context: u32,
    ) -> Result<Carried, Full> {
        let results = bounds.iter().map(|part| part.result);
        let mut replacing = 0;
        if !self.rules.has(Fault::ResultsAfterBody) {
            replacing = self.push_list(results.clone())?;
        }
        let own = if self.rules.has(Fault::LetListCopied) {
            let copy: Vec<u32> = self.job.lists.values(variables).collect();
            self.push_list(copy.into_iter())?
        } else {
            variables
        };
        let inner = self.push(Section::Contexts, &[2, own, replacing, context])?;
        let outer = self.images.clone();
        for (variable, part) in self.job.lists.values(variables).zip(bounds) {
            self.images[variable as usize - 1] = part.result;
        }
        let carried = self.visit(body, inner)?;
        if !self.rules.has(Fault::ImagesKept) {
            self.images = outer;
        }
        if self.rules.has(Fault::ResultsAfterBody) {
            let list = self.push_list(results)?;
            self.sections[Section::Contexts as usize][(inner as usize - 1) * 4 + 2] = list;
        }
        Ok(carried)
    }

    /// The compact file.
    fn words(&self, left: u32, right: u32) -> Vec<u32> {
        let counts = Counts::new(Section::ALL.map(|section| self.count(section)));
        let mut words = Vec::with_capacity(counts.words() as usize);
        words.push(1);
        words.extend(Section::ALL.map(|section| counts[section]));
        words.extend([left, right]);
        words.extend(self.sections.iter().flatten());
        words
    }
}
