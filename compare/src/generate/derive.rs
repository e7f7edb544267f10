//! Random derivations. A term is carried through a context by whatever rule
//! fits, chosen at random, with earlier steps used again now and then. In a
//! careless derivation some choices are wrong on purpose.

use super::builder::{Builder, CHOICE, EXISTS, Entry, FOR_ALL, NOT, Shape, TRUTH};
use super::replace::{MISSES, replaced};
use crate::bundle::{Counts, Section};
use crate::set::Set;
use std::collections::HashMap;

pub const REFL: u32 = 1;
pub const CONG: u32 = 2;
pub const TRANS: u32 = 3;
pub const BIND: u32 = 4;
pub const LET: u32 = 5;
pub const SKO_EXISTS: u32 = 6;
pub const SKO_FOR_ALL: u32 = 7;

/// The rule of SKO for a quantifier.
pub fn sko(kind: u32) -> u32 {
    if kind == EXISTS { SKO_EXISTS } else { SKO_FOR_ALL }
}

/// A place where a careless derivation may choose wrongly.
#[derive(Clone, Copy, Debug, PartialEq, Eq)]
pub enum Slip {
    /// REFL on sides that are not settled.
    Refl,
    /// REFL to another image.
    Image,
    /// TRANS by a middle that is not settled.
    Middle,
    Trans,
    Cong,
    /// BIND to a variable that the sides forbid.
    Name,
    Bind,
    Let,
    Sko,
    /// A replacement that is not settled in its parent.
    Replacement,
    Claim,
    /// REFL to what is nearly the replaced term.
    Whole,
    /// A free variable that no entry mentions.
    Stray,
}

/// Wrong choices to be tried by themselves, and together where the order of
/// refusals in a step decides.
pub const SLIPS: [&[Slip]; 25] = [
    &[Slip::Refl],
    &[Slip::Image],
    &[Slip::Middle],
    &[Slip::Trans],
    &[Slip::Cong],
    &[Slip::Name],
    &[Slip::Name],
    &[Slip::Name],
    &[Slip::Bind],
    &[Slip::Bind],
    &[Slip::Let],
    &[Slip::Sko],
    &[Slip::Sko],
    &[Slip::Sko, Slip::Replacement],
    &[Slip::Sko, Slip::Stray],
    &[Slip::Replacement],
    &[Slip::Claim],
    &[Slip::Whole],
    &[Slip::Name, Slip::Bind],
    &[Slip::Name, Slip::Bind],
    &[Slip::Middle, Slip::Trans],
    &[Slip::Stray],
    &[Slip::Stray, Slip::Whole],
    &[Slip::Stray, Slip::Name],
    &[Slip::Stray, Slip::Cong, Slip::Refl],
];

/// How carefully a derivation is made.
#[derive(Clone, Copy, Debug)]
pub enum Care {
    /// Every step follows.
    Full,
    /// So often, in percent, a wrong choice of any kind.
    Wanting(u32),
    /// Wrong choices of these kinds only, where they offer themselves.
    But(&'static [Slip]),
}

/// How often, in percent, an ordinary derivation carries a whole term by one REFL.
pub const SELDOM: u32 = 6;

/// The sections that a derivation adds to without asking.
const GROWING: [Section; 4] = [Section::Terms, Section::Links, Section::Contexts, Section::Steps];
const SMALL: [u32; 4] = [200, 400, 80, 150];

#[derive(Debug)]
pub struct Derivation<'a> {
    pub builder: &'a mut Builder,
    care: Care,
    /// Whether a wrong choice was taken.
    pub slipped: bool,
    /// Steps by context and left side.
    known: HashMap<(u32, u32), Vec<u32>>,
    /// No step is carried further once a section has grown by so much.
    most: Counts,
    /// How often, in percent, a whole term is carried by one REFL.
    whole: u32,
}

impl<'a> Derivation<'a> {
    pub fn new(builder: &'a mut Builder, care: Care) -> Self {
        Self::with_growth(builder, care, SMALL)
    }

    /// A derivation that ends where terms, links, contexts or steps have grown
    /// by so many records.
    pub fn with_growth(builder: &'a mut Builder, care: Care, growth: [u32; 4]) -> Self {
        let mut most = Counts::default();
        for (section, growth) in GROWING.into_iter().zip(growth) {
            most[section] = builder.count(section) + growth;
        }
        Derivation { builder, care, slipped: false, known: HashMap::new(), most, whole: SELDOM }
    }

    /// The same with one REFL for a whole term so often, in percent.
    pub fn walking(self, percent: u32) -> Self {
        Derivation { whole: percent, ..self }
    }

    fn chance(&mut self, percent: u32) -> bool {
        self.builder.rng.chance(percent)
    }

    /// Whether to choose wrongly here.
    fn slips(&mut self, slip: Slip) -> bool {
        let slips = match self.care {
            Care::Full => false,
            Care::Wanting(percent) => self.chance(percent),
            Care::But(slips) => slips.contains(&slip) && self.chance(40),
        };
        self.slipped |= slips;
        slips
    }

    fn step(&mut self, rule: u32, context: u32, left: u32, right: u32, premises: &[u32]) -> u32 {
        let step = self.builder.add_step(rule, context, left, right, premises);
        self.known.entry((context, left)).or_default().push(step);
        step
    }

    fn right(&self, step: u32) -> u32 {
        self.builder.step(step).right
    }

    fn room(&self) -> bool {
        GROWING.iter().all(|&section| self.builder.count(section) < self.most[section])
    }

    /// A step with this context and left side; `None` where no way was found.
    pub fn carry(&mut self, context: u32, term: u32) -> Option<u32> {
        if let Some(steps) = self.known.get(&(context, term)) {
            let step = self.builder.rng.pick(steps).copied();
            if self.chance(35) {
                return step;
            }
        }
        if !self.room() {
            return self.stay(context, term);
        }
        if self.chance(12) {
            return self.through_middle(context, term);
        }
        if self.chance(20)
            && let Some(step) = self.stay(context, term)
        {
            return Some(step);
        }
        self.advance(context, term)
    }

    /// One REFL for the whole term.
    fn whole(&mut self, context: u32, term: u32) -> Option<u32> {
        let slipped = self.slipped;
        let miss = self.slips(Slip::Whole).then(|| self.builder.rng.one_of(MISSES));
        let found = replaced(self.builder, context, term, miss);
        // A miss that did not offer itself is none.
        self.slipped = slipped || found.is_some_and(|(_, missed)| missed);
        Some(self.step(REFL, context, term, found?.0, &[]))
    }

    /// A step by the rule for the term's kind, or REFL for all of it; REFL where that fails.
    fn advance(&mut self, context: u32, term: u32) -> Option<u32> {
        if self.chance(self.whole)
            && let Some(step) = self.whole(context, term)
        {
            return Some(step);
        }
        let found = match self.builder.shape(term).clone() {
            Shape::Variable(variable) => Some(self.variable(context, term, variable)),
            Shape::Application(symbol, arguments) => {
                self.application(context, term, symbol, &arguments)
            }
            Shape::Binder(kind, variable, body) => {
                let skolem = kind != CHOICE && self.chance(40);
                let found = skolem.then(|| self.skolem(context, term, kind, variable, body));
                match found.flatten() {
                    Some(step) => Some(step),
                    None => self.binder(context, term, kind, variable, body),
                }
            }
            Shape::Let(variables, bounds, body) => {
                self.let_(context, term, &variables, &bounds, body)
            }
        };
        found.or_else(|| self.stay(context, term))
    }

    /// REFL on equal sides.
    fn stay(&mut self, context: u32, term: u32) -> Option<u32> {
        let may = self.builder.settled(context, term) || self.slips(Slip::Refl);
        let spare = self.builder.count(Section::Steps);
        let idle = spare > 0 && self.slips(Slip::Refl) && self.chance(15);
        let premises = if idle { vec![spare] } else { vec![] };
        may.then(|| self.step(REFL, context, term, term, &premises))
    }

    /// A step with the same left side in another context, equal where it can be.
    fn elsewhere(&mut self, context: u32, term: u32) -> Option<u32> {
        let other = match context {
            0 => self.builder.rng.below(self.builder.count(Section::Contexts) + 1),
            _ => self.builder.copy_context(context),
        };
        self.carry(other, term)
    }

    /// Some earlier step in a context whose right side has this sort.
    fn any_step(&mut self, context: u32, sort: u32) -> Option<u32> {
        let steps: Vec<u32> = (1..=self.builder.count(Section::Steps))
            .filter(|&step| self.builder.step(step).context == context)
            .filter(|&step| self.builder.sort(self.right(step)) == sort)
            .collect();
        self.builder.rng.pick(&steps).copied()
    }

    /// REFL from a variable to its image.
    fn variable(&mut self, context: u32, term: u32, variable: u32) -> u32 {
        let mut right = self.builder.image(context, variable).unwrap_or(term);
        if context != 0 && self.slips(Slip::Image) {
            // The image's own image, or the image further out.
            let own = match self.builder.shape(right) {
                Shape::Variable(next) => self.builder.image(context, *next),
                _ => None,
            };
            let outer = self.builder.image(self.builder.parent(context), variable);
            right = own.filter(|_| self.chance(50)).or(outer).unwrap_or(term);
        }
        self.step(REFL, context, term, right, &[])
    }

    fn through_middle(&mut self, context: u32, term: u32) -> Option<u32> {
        let first = self.carry(context, term)?;
        let middle = self.right(first);
        if !self.builder.settled(context, middle) && !self.slips(Slip::Middle) {
            return Some(first);
        }
        let Some(second) = self.carry(context, middle) else { return Some(first) };
        let mut premises = vec![first, second];
        if self.slips(Slip::Trans) {
            match self.builder.rng.below(4) {
                0 => premises[0] = self.elsewhere(context, term).unwrap_or(first),
                1 => premises[1] = self.elsewhere(context, middle).unwrap_or(second),
                2 => {
                    let sort = self.builder.sort(term);
                    premises[1] = self.any_step(context, sort).unwrap_or(second);
                }
                _ => premises.push(second),
            }
        }
        let right = self.right(premises[1]);
        Some(self.step(TRANS, context, term, right, &premises))
    }

    fn application(
        &mut self,
        context: u32,
        term: u32,
        symbol: u32,
        arguments: &[u32],
    ) -> Option<u32> {
        let mut premises = Vec::new();
        for &argument in arguments {
            premises.push(self.carry(context, argument)?);
        }
        let results: Vec<u32> = premises.iter().map(|&premise| self.right(premise)).collect();
        let mut symbol = symbol;
        if self.slips(Slip::Cong) {
            match self.builder.rng.below(6) {
                0 => premises.truncate(premises.len().saturating_sub(1)),
                1 => premises.reverse(),
                2 => premises.extend(premises.last().copied()),
                3 => symbol = self.builder.another_symbol(symbol),
                4 => self.use_premises_again(&mut premises),
                _ => {
                    if let Some(place) = premises.len().checked_sub(1) {
                        let other = self.elsewhere(context, arguments[place]);
                        premises[place] = other.unwrap_or(premises[place]);
                    }
                }
            }
        }
        let right = self.builder.apply(symbol, &results);
        Some(self.step(CONG, context, term, right, &premises))
    }

    /// Takes the premises of an earlier CONG step with as many.
    fn use_premises_again(&mut self, premises: &mut Vec<u32>) {
        let used: Vec<Vec<u32>> = (1..=self.builder.count(Section::Steps))
            .filter(|&step| self.builder.step(step).rule == CONG)
            .map(|step| self.builder.premises(step))
            .filter(|other| other.len() == premises.len() && other != premises)
            .collect();
        if let Some(other) = self.builder.rng.pick(&used) {
            premises.clone_from(other);
        }
    }

    fn binder(&mut self, context: u32, term: u32, kind: u32, x: u32, body: u32) -> Option<u32> {
        let y = self.new_name(context, term, x);
        let fixing = self.builder.fix(y, context);
        let y_term = self.builder.variable_term(y);
        let mut renaming = self.builder.replace(&[x], &[y_term], fixing);
        let mut kind_after = kind;
        if self.slips(Slip::Bind) {
            match self.builder.rng.below(6) {
                0 => renaming = self.builder.replace(&[x], &[y_term], context),
                1 => {
                    let other = self.builder.fix(x, context);
                    renaming = self.builder.replace(&[x], &[y_term], other);
                }
                2 => {
                    let more = self.builder.draw_variable();
                    let same_sort =
                        self.builder.variable_sort(more) == self.builder.variable_sort(x);
                    if more != x && same_sort {
                        renaming = self.builder.replace(&[x, more], &[y_term, y_term], fixing);
                    }
                }
                3 => kind_after = self.builder.another_kind_of(kind, x),
                4 => {
                    // The right shape above another context.
                    let elsewhere =
                        self.builder.rng.below(self.builder.count(Section::Contexts) + 1);
                    let other = self.builder.fix(y, elsewhere);
                    renaming = self.builder.replace(&[x], &[y_term], other);
                }
                _ => {
                    let between = self.builder.fix(x, fixing);
                    renaming = self.builder.replace(&[x], &[y_term], between);
                }
            }
        }
        let premise = self.carry(renaming, body)?;
        let mut result = self.right(premise);
        if self.slips(Slip::Bind) && self.chance(30) {
            result = body;
        }
        let right = self.builder.bind(kind_after, y, result);
        Some(self.step(BIND, context, term, right, &[premise]))
    }

    /// A step from a quantifier to its body, where a choice takes its variable's place; `None`
    /// where the choice is not settled.
    fn skolem(&mut self, context: u32, term: u32, kind: u32, x: u32, body: u32) -> Option<u32> {
        let mut rule = sko(kind);
        let negates = kind == FOR_ALL;
        let (mut variable, mut variables, mut parent) = (x, vec![x], context);
        let slip = self.slips(Slip::Sko).then(|| self.builder.rng.below(9));
        let sort = self.builder.variable_sort(x);
        let same_sort = self.builder.variables_of(sort);
        let other = self.builder.rng.pick(&same_sort).copied().unwrap_or(x);
        let under = match slip {
            Some(2) => self.builder.random_term(TRUTH, 1),
            _ => body,
        };
        let mut inner =
            if negates == (slip == Some(1)) { under } else { self.builder.apply(NOT, &[under]) };
        match slip {
            Some(0) => rule = SKO_EXISTS + SKO_FOR_ALL - rule,
            Some(3) => inner = self.builder.random_term(TRUTH, 1),
            Some(4) => variable = other,
            Some(5) if other != x => variables = vec![other],
            Some(6) if other != x => variables.insert(self.builder.rng.below(2) as usize, other),
            Some(7) => {
                parent = self.builder.rng.below(self.builder.count(Section::Contexts) + 1);
            }
            _ => {}
        }
        let mut choice = self.builder.bind(CHOICE, variable, inner);
        if slip == Some(8) {
            choice = self.builder.random_leaf(sort);
        }
        if !self.builder.settled(parent, choice) && !self.slips(Slip::Replacement) {
            return None;
        }
        let terms = vec![choice; variables.len()];
        let replacing = self.builder.replace(&variables, &terms, parent);
        let premise = self.carry(replacing, body)?;
        let mut right = self.right(premise);
        let mut premises = vec![premise];
        if self.slips(Slip::Sko) {
            match self.builder.rng.below(6) {
                0 => right = body,
                1 => premises = vec![],
                2 => premises.push(premise),
                3 => {
                    let before = self.any_step(replacing, TRUTH);
                    premises = vec![before.unwrap_or(premise)];
                }
                _ => {}
            }
        }
        Some(self.step(rule, context, term, right, &premises))
    }

    /// A variable that may take the place of `x`: one that is there if the sides
    /// let it, else a new one.
    fn new_name(&mut self, context: u32, term: u32, x: u32) -> u32 {
        let sort = self.builder.variable_sort(x);
        let free = self.builder.free(term);
        let taken = free
            .members()
            .filter_map(|variable| self.builder.image(context, variable))
            .fold(free, |taken: Set, image| taken.union(self.builder.free(image)));
        let (forbidden, allowed): (Vec<u32>, Vec<u32>) =
            self.builder.variables_of(sort).into_iter().partition(|&y| taken.has(y));
        if !forbidden.is_empty() && self.slips(Slip::Name) {
            // Those that are free in images alone are seldom there: they come first.
            let in_images: Vec<u32> = forbidden.iter().copied().filter(|&y| !free.has(y)).collect();
            let some = if in_images.is_empty() { &forbidden } else { &in_images };
            return self.builder.rng.pick(some).copied().unwrap_or(x);
        }
        if allowed.contains(&x) && self.chance(25) {
            return x;
        }
        let full = self.builder.room(Section::Variables) == 0;
        match self.builder.rng.pick(&allowed).copied() {
            Some(y) if self.chance(75) || full || self.builder.drawn().len() >= 40 => y,
            _ if !full => self.builder.variable(sort),
            _ => (1..=self.builder.count(Section::Variables))
                .find(|&y| self.builder.variable_sort(y) == sort && !taken.has(y))
                .unwrap_or(x),
        }
    }

    fn let_(
        &mut self,
        context: u32,
        term: u32,
        variables: &[u32],
        bounds: &[u32],
        body: u32,
    ) -> Option<u32> {
        let mut premises = Vec::new();
        for &bound in bounds {
            let mut step = self.carry(context, bound)?;
            if !self.builder.settled(context, self.right(step)) && !self.slips(Slip::Replacement) {
                step = self.stay(context, bound)?;
                if !self.builder.settled(context, bound) {
                    return None;
                }
            }
            premises.push(step);
        }
        let mut results: Vec<u32> = premises.iter().map(|&premise| self.right(premise)).collect();
        let mut variables = variables.to_vec();
        let mut parent = context;
        if self.slips(Slip::Let) {
            match self.builder.rng.below(7) {
                0 => {
                    variables.reverse();
                    results.reverse();
                }
                1 if self.uniform(&results) => results.reverse(),
                2 => parent = self.builder.rng.below(self.builder.count(Section::Contexts) + 1),
                3 => {
                    let sort = self.builder.sort(results[0]);
                    results[0] = self.builder.random_leaf(sort);
                }
                4 => premises.swap(0, bounds.len() - 1),
                5 => {
                    if let Some(step) = self.elsewhere(context, bounds[0]) {
                        premises[0] = step;
                        results[0] = self.right(step);
                    }
                }
                _ => {
                    let sort = self.builder.sort(results[0]);
                    if let Some(step) = self.any_step(context, sort) {
                        premises[0] = step;
                        results[0] = self.right(step);
                    }
                }
            }
        }
        let inner = self.builder.replace(&variables, &results, parent);
        let last = self.carry(inner, body)?;
        premises.push(last);
        let mut right = self.right(last);
        if self.slips(Slip::Let) && self.chance(30) {
            right = self.builder.random_leaf(self.builder.sort(right));
        }
        Some(self.step(LET, context, term, right, &premises))
    }

    fn uniform(&self, terms: &[u32]) -> bool {
        terms.windows(2).all(|pair| self.builder.sort(pair[0]) == self.builder.sort(pair[1]))
    }

    /// A context above this one that mentions the free variables of these terms.
    fn scope(&mut self, context: u32, terms: &[u32]) -> u32 {
        let within = terms.iter().all(|&term| self.builder.in_scope(context, term));
        if within || self.slips(Slip::Stray) {
            return context;
        }
        self.builder.scope(context, terms)
    }

    /// A random entry above `parent`, or above entries that fix what its terms have free.
    pub fn random_context(&mut self, parent: u32) -> u32 {
        let variable = self.builder.draw_variable();
        if self.chance(35) {
            return self.builder.fix(variable, parent);
        }
        let mut variables = vec![variable];
        for _ in 0..self.builder.rng.below(3) {
            let other = self.builder.draw_variable();
            if !variables.contains(&other) {
                variables.push(other);
            }
        }
        let swapped = self.builder.swapped(&variables).filter(|_| self.builder.rng.chance(40));
        let mut terms = Vec::new();
        for (place, &variable) in variables.iter().enumerate() {
            let sort = self.builder.variable_sort(variable);
            let mut term = match &swapped {
                Some(swapped) => swapped[place],
                None if self.builder.rng.chance(60) => self.builder.random_leaf(sort),
                None => self.builder.random_term(sort, 2),
            };
            if !self.builder.settled(parent, term) && !self.slips(Slip::Replacement) {
                let settled: Vec<u32> = self
                    .builder
                    .terms_of(sort)
                    .into_iter()
                    .filter(|&term| self.builder.settled(parent, term))
                    .collect();
                term = match self.builder.rng.pick(&settled) {
                    Some(&term) => term,
                    None => return self.builder.fix(variable, parent),
                };
            }
            terms.push(term);
        }
        let parent = self.scope(parent, &terms);
        self.builder.replace(&variables, &terms, parent)
    }

    /// Entries that mention some of the variables, all of them in place: fixed, or replaced by
    /// their own terms.
    fn ground(&mut self) -> u32 {
        let mut context = 0;
        for _ in 0..self.builder.rng.below(6) {
            let variable = self.builder.draw_variable();
            context = if self.chance(70) {
                self.builder.fix(variable, context)
            } else {
                let term = self.builder.variable_term(variable);
                self.builder.replace(&[variable], &[term], context)
            };
        }
        context
    }

    /// Steps that the claim does not need, in contexts of all kinds.
    pub fn lemmas(&mut self, count: u32) {
        for _ in 0..count {
            let mut context = match self.builder.rng.below(10) {
                0..3 => self.ground(),
                _ => self.builder.rng.below(self.builder.count(Section::Contexts) + 1),
            };
            for _ in 0..self.builder.rng.between(1, 4) {
                context = self.random_context(context);
            }
            let sort = self.builder.rng.below(2);
            let term = self.builder.random_term(sort, 2);
            let entry = self.builder.entry(context).clone();
            let context = self.scope(context, &[term]);
            self.carry(context, term);
            if let Entry::Replaces(variables, _) = entry {
                let term = self.builder.variable_term(variables[0]);
                self.carry(context, term);
            }
        }
    }

    /// Ends the file with a step in the empty context, from the term with its free variables
    /// bound.
    pub fn claim(&mut self, term: u32) {
        let closed = self.builder.in_scope(0, term);
        let term = if closed || self.slips(Slip::Stray) { term } else { self.builder.close(term) };
        let found = if self.chance(85) { self.advance(0, term) } else { self.carry(0, term) };
        let step = match found {
            Some(step) => step,
            None => self.step(REFL, 0, term, term, &[]),
        };
        if step != self.builder.count(Section::Steps) {
            self.builder.repeat_step(step);
        }
        // Now and then the last step is no claim.
        if self.slips(Slip::Claim) {
            let context = self.random_context(0);
            self.carry(context, term);
        }
    }
}
