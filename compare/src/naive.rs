//! A second reading of document 01, as plain as possible: lists are vectors,
//! free variables are sets, images are found by walking the entries, equal terms
//! by trying every pair. Slow; it is there to try the checker on the files.

use crate::answer::{Accepted, Ending, Reason, Refusal, Walk, Whole};
use crate::bundle::{Counts, HEADER_BYTES, SET_WORDS, Section, counts_of, to_words};
use std::collections::BTreeSet;
use std::rc::Rc;

/// A term by value: lists spelled out.
#[derive(Clone, Debug, PartialEq, Eq)]
pub enum Tree {
    Variable(u32),
    Application(u32, Vec<u32>),
    ForAll(u32, u32),
    Exists(u32, u32),
    Let(Vec<u32>, Vec<u32>, u32),
    Choice(u32, u32),
}

#[derive(Clone, Debug, PartialEq, Eq)]
pub enum Entry {
    Fixes(u32),
    Replaces(Vec<u32>, Vec<u32>),
}

#[derive(Clone, Debug)]
pub struct Step {
    pub rule: u32,
    pub context: u32,
    pub left: u32,
    pub right: u32,
    pub premises: Vec<u32>,
}

/// A file spelled out. Record n is at index n - 1.
#[derive(Clone, Debug, Default)]
pub struct Plain {
    links: Vec<(u32, u32)>,
    /// Result sort and argument sorts.
    pub symbols: Vec<(u32, Vec<u32>)>,
    pub variables: Vec<u32>,
    pub terms: Vec<Tree>,
    pub sorts: Vec<u32>,
    pub free: Vec<BTreeSet<u32>>,
    /// Each with its parent.
    pub contexts: Vec<(Entry, u32)>,
    pub steps: Vec<Step>,
    pub left: u32,
    pub right: u32,
    /// Of the last REFL that was walked.
    pub pairs: u32,
}

/// Same answers and same area as [`crate::check::check`].
pub fn check(file: &[u8], free: &mut [u64]) -> Result<Accepted, Refusal> {
    free.fill(0);
    let plain = load(file, free.len())?;
    for (place, set) in plain.free.iter().enumerate() {
        for variable in set.iter().map(|variable| *variable as usize - 1) {
            free[SET_WORDS * place + variable / 64] += 1 << (variable % 64);
        }
    }
    Ok(Accepted { left: plain.left, right: plain.right, pairs: plain.pairs })
}

/// An accepted file spelled out, or the refusal.
pub fn load(file: &[u8], area: usize) -> Result<Plain, Refusal> {
    let mut plain = tables(file, |counts| area >= SET_WORDS * counts[Section::Terms] as usize)?;
    plain.each(file, Section::Contexts, Plain::context)?;
    plain.each(file, Section::Steps, Plain::step)?;
    match plain.steps.last() {
        Some(last) if (last.context, last.left, last.right) == (0, plain.left, plain.right) => {
            Ok(plain)
        }
        _ => Err(Refusal::whole(Reason::Claim)),
    }
}

/// The walk of a whole-term REFL with these sides in a context of a file; `None` where one
/// of 1 to 11 refuses it, or there is no such context or term.
pub fn walk(file: &[u8], context: u32, [left, right]: [u32; 2]) -> Option<Whole> {
    let mut plain = tables(file, |_| true).ok()?;
    plain.each(file, Section::Contexts, Plain::context).ok()?;
    let is_term = |term: u32| term >= 1 && term as usize <= plain.terms.len();
    let there = context as usize <= plain.contexts.len() && is_term(left) && is_term(right);
    there.then(|| plain.whole(context, left, right))
}

/// A file up to its terms, or one of the refusals 1 to 9.
pub fn tables(file: &[u8], areas_suffice: impl Fn(&Counts) -> bool) -> Result<Plain, Refusal> {
    let mut plain = declarations(file, areas_suffice)?;
    plain.each(file, Section::Terms, Plain::term)?;
    Ok(plain)
}

/// The walk of the CONG step of this number (Req 03), by the records as they stand: one
/// that is not there has zeros. Refused by 1 to 3, and by 12 where there is no such step.
pub fn links(file: &[u8], number: usize) -> Result<Walk, Refusal> {
    let (counts, words) = header(file, |_| true)?;
    let field = |section: Section, record: u32, field: usize| {
        let there = record >= 1 && record <= counts[section];
        if there { words[counts.place(section, record, field)] } else { 0 }
    };
    let list = |start: u32| {
        let mut values = Vec::new();
        let mut at = start;
        while at >= 1 && at <= counts[Section::Links] {
            values.push(field(Section::Links, at, 0));
            let next = field(Section::Links, at, 1);
            at = if next > at { next } else { 0 };
        }
        values
    };
    let step = |number: u32| {
        let [rule, context, left, right, premises] =
            [0, 1, 2, 3, 4].map(|place| field(Section::Steps, number, place));
        Step { rule, context, left, right, premises: list(premises) }
    };
    let number = u32::try_from(number).unwrap_or(0);
    if field(Section::Steps, number, 0) != 2 {
        return Err(Refusal::whole(Reason::Step));
    }
    let asked = step(number);
    let side = |term: u32| [0, 1, 2].map(|place| field(Section::Terms, term, place));
    let ([left, f, from], [right, g, to]) = (side(asked.left), side(asked.right));
    if left != 2 || right != 2 || f != g {
        return Ok(Walk { passes: false, links: 0 });
    }
    let before: Vec<Step> = asked.premises.iter().map(|&premise| step(premise)).collect();
    Ok(asked.walk(&list(from), &list(to), &before))
}

impl Step {
    /// CONG's walk over the arguments of both sides and the premises: the places up to the
    /// end of the shortest list, or to the first premise that does not carry its pair.
    fn walk(&self, from: &[u32], to: &[u32], before: &[Step]) -> Walk {
        let lengths = [from.len(), to.len(), before.len()];
        let shortest = lengths.into_iter().min().unwrap_or(0);
        let carried = (0..shortest)
            .take_while(|&i| {
                (before[i].context, before[i].left, before[i].right)
                    == (self.context, from[i], to[i])
            })
            .count();
        let read = if carried < shortest { carried + 1 } else { shortest };
        Walk { passes: lengths == [carried; 3], links: 3 * read }
    }
}

/// Counts and words of a file, or one of the refusals 1 to 4.
fn header(
    file: &[u8],
    areas_suffice: impl Fn(&Counts) -> bool,
) -> Result<(Counts, Vec<u32>), Refusal> {
    let whole = |reason| Err(Refusal::whole(reason));
    if file.len() < HEADER_BYTES {
        return whole(Reason::Length);
    }
    let words = to_words(file);
    if words[0] != 1 {
        return whole(Reason::Version);
    }
    let Some(counts) = counts_of(file) else { return whole(Reason::Length) };
    for section in Section::ALL {
        if counts[section] > section.limit() {
            return whole(Reason::Limit);
        }
    }
    if counts.bytes() != file.len() as u64 {
        return whole(Reason::Length);
    }
    if !areas_suffice(&counts) {
        return whole(Reason::Area);
    }
    Ok((counts, words))
}

/// A file up to its variables, or one of the refusals 1 to 6.
pub fn declarations(
    file: &[u8],
    areas_suffice: impl Fn(&Counts) -> bool,
) -> Result<Plain, Refusal> {
    let (_, words) = header(file, areas_suffice)?;
    let mut plain = Plain { left: words[7], right: words[8], ..Plain::default() };
    plain.each(file, Section::Links, Plain::link)?;
    plain.each(file, Section::Symbols, Plain::symbol)?;
    plain.each(file, Section::Variables, Plain::variable)?;
    Ok(plain)
}

type Judge = fn(&mut Plain, &Counts, u32, &[u32]) -> Option<Reason>;

impl Plain {
    /// Judges the records of a section in order; the first bad one counts.
    fn each(&mut self, file: &[u8], section: Section, judge: Judge) -> Result<(), Refusal> {
        let Some(counts) = counts_of(file) else { return Err(Refusal::whole(Reason::Length)) };
        let words = to_words(file);
        for record in 1..=counts[section] {
            let start = counts.place(section, record, 0);
            let fields = &words[start..start + section.width()];
            if let Some(reason) = judge(self, &counts, record, fields) {
                return Err(Refusal::at(reason, record));
            }
        }
        Ok(())
    }

    pub fn tree(&self, term: u32) -> &Tree {
        &self.terms[term as usize - 1]
    }

    pub fn sort(&self, term: u32) -> u32 {
        self.sorts[term as usize - 1]
    }

    pub fn free(&self, term: u32) -> &BTreeSet<u32> {
        &self.free[term as usize - 1]
    }

    /// The values of a list; `None` where its start is over L.
    fn list(&self, start: u32) -> Option<Vec<u32>> {
        if start as usize > self.links.len() {
            return None;
        }
        let mut values = Vec::new();
        let mut at = start;
        while at != 0 {
            let (value, next) = self.links[at as usize - 1];
            values.push(value);
            at = next;
        }
        Some(values)
    }

    fn link(&mut self, counts: &Counts, record: u32, fields: &[u32]) -> Option<Reason> {
        let next = fields[1];
        if next != 0 && (next <= record || next > counts[Section::Links]) {
            return Some(Reason::Link);
        }
        self.links.push((fields[0], next));
        None
    }

    fn symbol(&mut self, _: &Counts, _: u32, fields: &[u32]) -> Option<Reason> {
        match self.list(fields[1]) {
            Some(sorts) if fields[0] < 2 && sorts.iter().all(|&sort| sort < 2) => {
                self.symbols.push((fields[0], sorts));
                None
            }
            _ => Some(Reason::Sort),
        }
    }

    fn variable(&mut self, _: &Counts, _: u32, fields: &[u32]) -> Option<Reason> {
        if fields[0] > 1 {
            return Some(Reason::Sort);
        }
        self.variables.push(fields[0]);
        None
    }

    /// Result and argument sorts of a symbol.
    pub fn profile(&self, symbol: u32) -> Option<(u32, Vec<u32>)> {
        match symbol {
            1 | 2 => Some((0, vec![])),
            3 => Some((0, vec![0])),
            4..=7 => Some((0, vec![0, 0])),
            8 => Some((0, vec![1, 1])),
            _ if symbol > 32 => self.symbols.get(symbol as usize - 33).cloned(),
            _ => None,
        }
    }

    fn is_variable(&self, number: u32) -> bool {
        number >= 1 && number as usize <= self.variables.len()
    }

    /// The term, if its kind, unused fields and references are in order.
    fn read_term(&self, record: u32, fields: &[u32]) -> Option<Tree> {
        let lower = |term: u32| term >= 1 && term < record;
        let (kind, a, b, c) = (fields[0], fields[1], fields[2], fields[3]);
        if kind == 1 && b == 0 && c == 0 && self.is_variable(a) {
            return Some(Tree::Variable(a));
        }
        if kind == 2 && c == 0 && self.profile(a).is_some() {
            let arguments = self.list(b)?;
            return arguments
                .iter()
                .all(|&term| lower(term))
                .then_some(Tree::Application(a, arguments));
        }
        if (kind == 3 || kind == 4) && c == 0 && self.is_variable(a) && lower(b) {
            return Some(if kind == 3 { Tree::ForAll(a, b) } else { Tree::Exists(a, b) });
        }
        if kind == 5 && lower(c) {
            let (variables, bounds) = (self.list(a)?, self.list(b)?);
            let sound = variables.iter().all(|&variable| self.is_variable(variable))
                && bounds.iter().all(|&term| lower(term));
            return sound.then_some(Tree::Let(variables, bounds, c));
        }
        if kind == 6 && c == 0 && self.is_variable(a) && lower(b) {
            return Some(Tree::Choice(a, b));
        }
        None
    }

    /// What a let and a replacing context ask of their lists.
    fn pairs_fit(&self, variables: &[u32], terms: &[u32]) -> bool {
        let distinct: BTreeSet<u32> = variables.iter().copied().collect();
        !variables.is_empty()
            && distinct.len() == variables.len()
            && variables.len() == terms.len()
            && (0..terms.len())
                .all(|i| self.variables[variables[i] as usize - 1] == self.sort(terms[i]))
    }

    /// The sort, if counts and sorts are in order.
    fn sort_of(&self, tree: &Tree) -> Option<u32> {
        match tree {
            Tree::Variable(variable) => Some(self.variables[*variable as usize - 1]),
            Tree::Application(symbol, arguments) => {
                let (result, sorts) = self.profile(*symbol)?;
                let given: Vec<u32> = arguments.iter().map(|&term| self.sort(term)).collect();
                (given == sorts).then_some(result)
            }
            Tree::ForAll(_, body) | Tree::Exists(_, body) => (self.sort(*body) == 0).then_some(0),
            Tree::Let(variables, bounds, body) => {
                self.pairs_fit(variables, bounds).then(|| self.sort(*body))
            }
            Tree::Choice(variable, body) => {
                (self.sort(*body) == 0).then(|| self.variables[*variable as usize - 1])
            }
        }
    }

    fn free_of(&self, tree: &Tree) -> BTreeSet<u32> {
        let of_all =
            |terms: &[u32]| terms.iter().flat_map(|&term| self.free(term).clone()).collect();
        match tree {
            Tree::Variable(variable) => BTreeSet::from([*variable]),
            Tree::Application(_, arguments) => of_all(arguments),
            Tree::ForAll(variable, body)
            | Tree::Exists(variable, body)
            | Tree::Choice(variable, body) => {
                let mut free = self.free(*body).clone();
                free.remove(variable);
                free
            }
            Tree::Let(variables, bounds, body) => {
                let mut free = self.free(*body).clone();
                free.retain(|variable| !variables.contains(variable));
                free.extend(of_all(bounds));
                free
            }
        }
    }

    fn term(&mut self, _: &Counts, record: u32, fields: &[u32]) -> Option<Reason> {
        let Some(tree) = self.read_term(record, fields) else { return Some(Reason::Term) };
        let Some(sort) = self.sort_of(&tree) else { return Some(Reason::Typing) };
        if self.terms.contains(&tree) {
            return Some(Reason::Duplicate);
        }
        self.sorts.push(sort);
        self.free.push(self.free_of(&tree));
        self.terms.push(tree);
        None
    }

    /// The term that is a variable's image; `None` where it is its own and no
    /// entry replaces it.
    pub fn image(&self, context: u32, variable: u32) -> Option<u32> {
        let mut at = context;
        while at != 0 {
            let (entry, parent) = &self.contexts[at as usize - 1];
            match entry {
                Entry::Fixes(fixed) if *fixed == variable => return None,
                Entry::Replaces(variables, terms) => {
                    if let Some(place) = variables.iter().position(|&other| other == variable) {
                        return Some(terms[place]);
                    }
                }
                Entry::Fixes(_) => {}
            }
            at = *parent;
        }
        None
    }

    /// Whether an entry, from the context towards the empty one, fixes or replaces a variable.
    fn mentions(&self, context: u32, variable: u32) -> bool {
        let mut at = context;
        while at != 0 {
            let (entry, parent) = &self.contexts[at as usize - 1];
            let here = match entry {
                Entry::Fixes(fixed) => *fixed == variable,
                Entry::Replaces(variables, _) => variables.contains(&variable),
            };
            if here {
                return true;
            }
            at = *parent;
        }
        false
    }

    /// Whether some free variable of a term is mentioned by no entry (Req 05).
    fn is_stray(&self, context: u32, term: u32) -> bool {
        self.free(term).iter().any(|&variable| !self.mentions(context, variable))
    }

    fn moved(&self, context: u32, variable: u32) -> bool {
        match self.image(context, variable) {
            None => false,
            Some(term) => *self.tree(term) != Tree::Variable(variable),
        }
    }

    fn settled(&self, context: u32, term: u32) -> bool {
        !self.free(term).iter().any(|&variable| self.moved(context, variable))
    }

    fn read_context(&self, counts: &Counts, record: u32, fields: &[u32]) -> Option<Entry> {
        let (kind, a, b, parent) = (fields[0], fields[1], fields[2], fields[3]);
        if parent >= record {
            return None;
        }
        if kind == 1 && b == 0 && self.is_variable(a) {
            return Some(Entry::Fixes(a));
        }
        if kind == 2 {
            let (variables, terms) = (self.list(a)?, self.list(b)?);
            let sound = variables.iter().all(|&variable| self.is_variable(variable))
                && terms.iter().all(|&term| term >= 1 && term <= counts[Section::Terms])
                && self.pairs_fit(&variables, &terms);
            return sound.then_some(Entry::Replaces(variables, terms));
        }
        None
    }

    fn context(&mut self, counts: &Counts, record: u32, fields: &[u32]) -> Option<Reason> {
        let parent = fields[3];
        let Some(entry) = self.read_context(counts, record, fields) else {
            return Some(Reason::Context);
        };
        if let Entry::Replaces(_, terms) = &entry
            && terms.iter().any(|&term| !self.settled(parent, term))
        {
            return Some(Reason::Unsettled);
        }
        self.contexts.push((entry, parent));
        None
    }

    fn step(&mut self, counts: &Counts, record: u32, fields: &[u32]) -> Option<Reason> {
        let (rule, context, left, right) = (fields[0], fields[1], fields[2], fields[3]);
        let is_term = |term: u32| term >= 1 && term <= counts[Section::Terms];
        let Some(premises) = self.list(fields[4]) else { return Some(Reason::Step) };
        if rule == 0
            || rule > 7
            || context > counts[Section::Contexts]
            || !is_term(left)
            || !is_term(right)
        {
            return Some(Reason::Step);
        }
        if premises.iter().any(|&premise| premise == 0 || premise >= record) {
            return Some(Reason::Step);
        }
        let due = match rule {
            1 => 0,
            3 => 2,
            4 | 6 | 7 => 1,
            _ => premises.len(),
        };
        if premises.len() != due {
            return Some(Reason::Step);
        }
        if self.is_stray(context, left) || self.is_stray(context, right) {
            return Some(Reason::Stray);
        }
        let step = Step { rule, context, left, right, premises };
        let before: Vec<Step> =
            step.premises.iter().map(|&premise| self.steps[premise as usize - 1].clone()).collect();
        let verdict = match rule {
            1 => self.refl(&step),
            2 => self.cong(&step, &before),
            3 => self.trans(&step, &before[0], &before[1]),
            4 => self.bind(&step, &before[0]),
            5 => self.let_(&step, &before),
            6 => self.sko_exists(&step, &before[0]),
            _ => self.sko_for_all(&step, &before[0]),
        };
        self.steps.push(step);
        verdict
    }

    fn refl(&mut self, step: &Step) -> Option<Reason> {
        if step.left == step.right && self.settled(step.context, step.left) {
            return None;
        }
        if let Tree::Variable(variable) = self.tree(step.left) {
            let image = self.image(step.context, *variable).unwrap_or(step.left);
            if image == step.right {
                return None;
            }
        }
        let walk = self.whole(step.context, step.left, step.right);
        match walk.ending {
            Ending::Same => {
                self.pairs = walk.pairs;
                None
            }
            Ending::Differs => Some(Reason::Rule),
            Ending::Spent => Some(Reason::Spent),
        }
    }

    /// Writes both sides out as rows of marks, one for each term met, parts after the whole
    /// and left to right, and looks for the first place at which the rows differ.
    fn whole(&self, context: u32, left: u32, right: u32) -> Whole {
        let left = self.row_of_left(context, left);
        let right = self.row_of_right(right, &left);
        let differs = (0..left.len()).find(|&i| right.get(i) != Some(&left[i]));
        let most = 4096;
        match differs {
            Some(place) if place < most => {
                Whole { ending: Ending::Differs, pairs: place as u32 + 1 }
            }
            None if left.len() <= most => Whole { ending: Ending::Same, pairs: left.len() as u32 },
            _ => Whole { ending: Ending::Spent, pairs: most as u32 },
        }
    }

    /// The replaced left without names: a bound variable is its binder's depth and its place
    /// there, a free one its image. One mark more than a walk may visit is enough.
    fn row_of_left(&self, context: u32, left: u32) -> Vec<Mark> {
        let mut row = Vec::new();
        let mut rest = vec![(left, None)];
        while let Some((term, scope)) = rest.pop() {
            if row.len() > 4096 {
                break;
            }
            row.push(match self.tree(term) {
                Tree::Variable(variable) => match place_of(*variable, &scope) {
                    Some((depth, place)) => Mark::Bound(depth, place),
                    None => Mark::Image(self.image(context, *variable).unwrap_or(term)),
                },
                _ => self.mark(term),
            });
            self.push_parts(term, &scope, &mut rest);
        }
        row
    }

    /// The right side, as far as it goes along with the row of the left: where the left has
    /// an image, the term as it stands, if no binder around it takes a free variable of it.
    fn row_of_right(&self, right: u32, along: &[Mark]) -> Vec<Mark> {
        let mut row = Vec::new();
        let mut rest = vec![(right, None)];
        for wanted in along {
            let Some((term, scope)) = rest.pop() else { break };
            let mark = if matches!(wanted, Mark::Image(_)) {
                let taken = self.free(term).iter().any(|&v| place_of(v, &scope).is_some());
                if taken { Mark::Taken } else { Mark::Image(term) }
            } else {
                match self.tree(term) {
                    Tree::Variable(variable) => match place_of(*variable, &scope) {
                        Some((depth, place)) => Mark::Bound(depth, place),
                        None => Mark::Taken,
                    },
                    _ => self.mark(term),
                }
            };
            let same = mark == *wanted;
            row.push(mark);
            if !same {
                break;
            }
            if !matches!(wanted, Mark::Image(_)) {
                self.push_parts(term, &scope, &mut rest);
            }
        }
        row
    }

    /// The mark of a term that is no variable.
    fn mark(&self, term: u32) -> Mark {
        let sort = |variable: &u32| self.variables[*variable as usize - 1];
        match self.tree(term) {
            Tree::Variable(_) => Mark::Taken,
            Tree::Application(symbol, _) => Mark::Application(*symbol),
            Tree::ForAll(variable, _) => Mark::ForAll(sort(variable)),
            Tree::Exists(variable, _) => Mark::Exists(sort(variable)),
            Tree::Let(variables, _, _) => Mark::Let(variables.iter().map(sort).collect()),
            Tree::Choice(variable, _) => Mark::Choice(sort(variable)),
        }
    }

    /// The parts of a term, the first on top, each with the binders around it.
    fn push_parts(&self, term: u32, scope: &Scope, rest: &mut Vec<(u32, Scope)>) {
        let inside = |variables: &[u32]| {
            let depth = scope.as_ref().map_or(0, |binder| binder.depth) + 1;
            Some(Rc::new(Binder { depth, variables: variables.to_vec(), outer: scope.clone() }))
        };
        match self.tree(term) {
            Tree::Variable(_) => {}
            Tree::Application(_, arguments) => {
                rest.extend(arguments.iter().rev().map(|&term| (term, scope.clone())));
            }
            Tree::ForAll(variable, body)
            | Tree::Exists(variable, body)
            | Tree::Choice(variable, body) => {
                rest.push((*body, inside(&[*variable])));
            }
            Tree::Let(variables, bounds, body) => {
                rest.push((*body, inside(variables)));
                rest.extend(bounds.iter().rev().map(|&term| (term, scope.clone())));
            }
        }
    }

    fn cong(&self, step: &Step, before: &[Step]) -> Option<Reason> {
        let (Tree::Application(f, from), Tree::Application(g, to)) =
            (self.tree(step.left), self.tree(step.right))
        else {
            return Some(Reason::Rule);
        };
        let follows = f == g && step.walk(from, to, before).passes;
        if follows { None } else { Some(Reason::Rule) }
    }

    fn trans(&self, step: &Step, first: &Step, second: &Step) -> Option<Reason> {
        let middle = first.right;
        if (first.context, first.left) != (step.context, step.left)
            || (second.context, second.left, second.right) != (step.context, middle, step.right)
        {
            return Some(Reason::Rule);
        }
        if self.settled(step.context, middle) { None } else { Some(Reason::Side) }
    }

    fn bind(&self, step: &Step, premise: &Step) -> Option<Reason> {
        let (x, phi, y, psi) = match (self.tree(step.left), self.tree(step.right)) {
            (Tree::ForAll(x, phi), Tree::ForAll(y, psi)) => (*x, *phi, *y, *psi),
            (Tree::Exists(x, phi), Tree::Exists(y, psi)) => (*x, *phi, *y, *psi),
            (Tree::Choice(x, phi), Tree::Choice(y, psi)) => (*x, *phi, *y, *psi),
            _ => return Some(Reason::Rule),
        };
        if premise.left != phi || premise.right != psi || premise.context == 0 {
            return Some(Reason::Rule);
        }
        let (renaming, parent) = &self.contexts[premise.context as usize - 1];
        let Entry::Replaces(variables, terms) = renaming else { return Some(Reason::Rule) };
        if *variables != [x]
            || terms.len() != 1
            || *self.tree(terms[0]) != Tree::Variable(y)
            || *parent == 0
        {
            return Some(Reason::Rule);
        }
        let (fixing, grandparent) = &self.contexts[*parent as usize - 1];
        if *fixing != Entry::Fixes(y) || *grandparent != step.context {
            return Some(Reason::Rule);
        }
        let free = self.free(step.left);
        let taken = free.iter().any(|&variable| match self.image(step.context, variable) {
            None => variable == y,
            Some(term) => self.free(term).contains(&y),
        });
        if free.contains(&y) || taken { Some(Reason::Side) } else { None }
    }

    fn sko_exists(&self, step: &Step, premise: &Step) -> Option<Reason> {
        let Tree::Exists(x, phi) = *self.tree(step.left) else { return Some(Reason::Rule) };
        self.sko(step, premise, x, phi, |chosen| chosen == phi)
    }

    fn sko_for_all(&self, step: &Step, premise: &Step) -> Option<Reason> {
        let Tree::ForAll(x, phi) = *self.tree(step.left) else { return Some(Reason::Rule) };
        let negated = Tree::Application(3, vec![phi]);
        self.sko(step, premise, x, phi, |chosen| *self.tree(chosen) == negated)
    }

    /// From a quantifier over x in phi, where x alone is replaced by a choice of x in a body
    /// that is the right one.
    fn sko(
        &self,
        step: &Step,
        premise: &Step,
        x: u32,
        phi: u32,
        right_body: impl Fn(u32) -> bool,
    ) -> Option<Reason> {
        if premise.left != phi || premise.right != step.right || premise.context == 0 {
            return Some(Reason::Rule);
        }
        let (entry, parent) = &self.contexts[premise.context as usize - 1];
        let Entry::Replaces(variables, terms) = entry else { return Some(Reason::Rule) };
        if *variables != [x] || terms.len() != 1 || *parent != step.context {
            return Some(Reason::Rule);
        }
        match *self.tree(terms[0]) {
            Tree::Choice(chosen, body) if chosen == x && right_body(body) => None,
            _ => Some(Reason::Rule),
        }
    }

    fn let_(&self, step: &Step, before: &[Step]) -> Option<Reason> {
        let Tree::Let(variables, bounds, body) = self.tree(step.left) else {
            return Some(Reason::Rule);
        };
        if before.len() != bounds.len() + 1 {
            return Some(Reason::Rule);
        }
        for i in 0..bounds.len() {
            if (before[i].context, before[i].left) != (step.context, bounds[i]) {
                return Some(Reason::Rule);
            }
        }
        let last = &before[bounds.len()];
        if last.left != *body || last.right != step.right || last.context == 0 {
            return Some(Reason::Rule);
        }
        let results: Vec<u32> =
            before[..bounds.len()].iter().map(|premise| premise.right).collect();
        let wanted = (Entry::Replaces(variables.clone(), results), step.context);
        if self.contexts[last.context as usize - 1] == wanted { None } else { Some(Reason::Rule) }
    }
}

/// A term in a row. `Taken` equals no mark of a left side.
#[derive(Clone, Debug, PartialEq, Eq)]
enum Mark {
    Bound(usize, usize),
    Image(u32),
    Taken,
    Application(u32),
    ForAll(u32),
    Exists(u32),
    Let(Vec<u32>),
    Choice(u32),
}

/// A binder around a term, and those around it.
#[derive(Debug)]
struct Binder {
    depth: usize,
    variables: Vec<u32>,
    outer: Scope,
}

type Scope = Option<Rc<Binder>>;

/// The depth of the nearest binder of a variable, and its place there.
fn place_of(variable: u32, scope: &Scope) -> Option<(usize, usize)> {
    let mut at = scope;
    while let Some(binder) = at {
        if let Some(place) = binder.variables.iter().position(|&other| other == variable) {
            return Some((binder.depth, place));
        }
        at = &binder.outer;
    }
    None
}
