//! Random signatures and terms.

use super::builder::{BINDERS, Builder, CHOICE, EXISTS, FOR_ALL, ITEM, Shape, TRUTH};
use crate::bundle::{BUILT_IN, Section};
use crate::fault::OLD_VARIABLES;
use std::collections::BTreeSet;

impl Builder {
    fn random_sort(&mut self) -> u32 {
        if self.rng.chance(65) { ITEM } else { TRUTH }
    }

    /// A few symbols and variables. There are always an item constant and an
    /// item variable; the rest varies.
    pub fn random_signature(&mut self) {
        self.symbol(ITEM, &[]);
        if self.rng.chance(70) {
            self.symbol(ITEM, &[ITEM]);
        }
        if self.rng.chance(70) {
            self.symbol(TRUTH, &[ITEM, ITEM]);
        }
        if self.rng.chance(30) {
            self.symbol(TRUTH, &[ITEM]);
        }
        for _ in 0..self.rng.below(3) {
            if self.rng.chance(50) {
                let result = self.random_sort();
                let count = self.rng.below(4);
                let arguments: Vec<u32> = (0..count).map(|_| self.random_sort()).collect();
                self.symbol(result, &arguments);
            }
        }
        if self.rng.chance(34) {
            self.spread_variables();
            return;
        }
        self.variable(ITEM);
        for _ in 0..self.rng.between(1, 5) {
            let sort = self.random_sort();
            self.variable(sort);
        }
    }

    /// More than 64 variables, a few of which are drawn: often the first and the last of
    /// a set's word, and often two that have the same bit in their words.
    fn spread_variables(&mut self) {
        let limit = Section::Variables.limit();
        let any = self.rng.between(OLD_VARIABLES + 1, limit);
        let count = self.rng.one_of([any, any, any, any, 65, 66, 128, 129, 192, 193, limit]);
        let mut drawn = BTreeSet::new();
        for _ in 0..self.rng.between(2, 4) {
            let any = self.rng.between(1, count);
            let edge = self.rng.one_of([1, 63, 64, 65, 66, 127, 128, 129, 192, 193, 255, limit]);
            let one = self.rng.one_of([any, edge, edge, count]).min(count);
            drawn.insert(one);
            if self.rng.chance(40) {
                let word = self.rng.below(limit / u64::BITS);
                drawn.insert((word * u64::BITS + (one - 1) % u64::BITS + 1).min(count));
            }
        }
        let mut item = false;
        for variable in 1..=count {
            let sort = self.random_sort();
            if !drawn.contains(&variable) {
                self.spare_variable(sort);
            } else if item {
                self.variable(sort);
            } else {
                self.variable(ITEM);
                item = true;
            }
        }
    }

    fn declared_symbols(&self) -> impl Iterator<Item = u32> + use<> {
        33..33 + self.count(Section::Symbols)
    }

    /// A symbol with the same sorts, the same one where there is no other.
    pub fn another_symbol(&mut self, symbol: u32) -> u32 {
        let wanted = self.profile(symbol);
        let same: Vec<u32> = (1..=8)
            .chain(self.declared_symbols())
            .filter(|&other| self.profile(other) == wanted)
            .collect();
        self.rng.pick(&same).copied().unwrap_or(symbol)
    }

    pub fn random_leaf(&mut self, sort: u32) -> u32 {
        let mut leaves: Vec<Shape> =
            self.variables_of(sort).into_iter().map(Shape::Variable).collect();
        // Variables are what the rules are about.
        leaves.extend(leaves.clone());
        let constants =
            self.declared_symbols().filter(|&symbol| self.profile(symbol) == (sort, vec![]));
        leaves.extend(constants.map(|symbol| Shape::Application(symbol, vec![])));
        if sort == TRUTH {
            leaves.extend([Shape::Application(1, vec![]), Shape::Application(2, vec![])]);
        }
        let leaf = self.rng.pick(&leaves).cloned().expect("each sort has a constant");
        self.term(leaf)
    }

    pub fn random_application(&mut self, sort: u32, depth: u32) -> u32 {
        let mut symbols: Vec<u32> =
            self.declared_symbols().filter(|&symbol| self.profile(symbol).0 == sort).collect();
        if sort == TRUTH {
            symbols.extend(3..=8);
            symbols.extend(symbols.clone().into_iter().filter(|&symbol| symbol > 8));
        }
        let Some(&symbol) = self.rng.pick(&symbols) else {
            return self.random_leaf(sort);
        };
        let arguments: Vec<u32> = self
            .profile(symbol)
            .1
            .into_iter()
            .map(|sort| self.random_term(sort, depth.saturating_sub(1)))
            .collect();
        self.apply(symbol, &arguments)
    }

    /// A variable to bind, one that is free in the body where it can be.
    fn random_binder(&mut self, body: u32) -> u32 {
        let occurring: Vec<u32> = self.free(body).members().collect();
        match self.rng.pick(&occurring) {
            Some(&variable) if self.rng.chance(85) => variable,
            _ => self.draw_variable(),
        }
    }

    pub fn random_quantifier(&mut self, depth: u32) -> u32 {
        let body = self.random_term(TRUTH, depth.saturating_sub(1));
        let variable = self.random_binder(body);
        let kind = if self.rng.chance(60) { FOR_ALL } else { EXISTS };
        self.bind(kind, variable, body)
    }

    /// A choice of a variable of this sort; a leaf where there is no such variable.
    pub fn random_choice(&mut self, sort: u32, depth: u32) -> u32 {
        let body = self.random_term(TRUTH, depth.saturating_sub(1));
        let any = self.variables_of(sort);
        let free: Vec<u32> = any.iter().copied().filter(|&x| self.free(body).has(x)).collect();
        let some = if !free.is_empty() && self.rng.chance(85) { &free } else { &any };
        match self.rng.pick(some).copied() {
            Some(variable) => self.bind(CHOICE, variable, body),
            None => self.random_leaf(sort),
        }
    }

    /// Another kind of binder.
    pub fn another_kind(&mut self, kind: u32) -> u32 {
        let mut other = self.random_kind();
        while other == kind {
            other = self.random_kind();
        }
        other
    }

    /// Another kind of binder of this variable, so that the terms have the same sort; the same
    /// kind where there is none.
    pub fn another_kind_of(&mut self, kind: u32, variable: u32) -> u32 {
        let truth = self.variable_sort(variable) == TRUTH;
        let others: Vec<u32> = BINDERS
            .into_iter()
            .filter(|&other| other != kind && (truth || (kind == CHOICE) == (other == CHOICE)))
            .collect();
        self.rng.pick(&others).copied().unwrap_or(kind)
    }

    /// A binder of a body as a truth term: a choice of an item stands in an equality.
    pub fn bind_as_truth(&mut self, kind: u32, variable: u32, body: u32) -> u32 {
        let bound = self.bind(kind, variable, body);
        if self.sort(bound) == TRUTH {
            return bound;
        }
        // In every signature the first symbol is an item constant.
        let constant = self.apply(BUILT_IN + 1, &[]);
        self.apply(8, &[bound, constant])
    }

    pub fn random_let(&mut self, sort: u32, depth: u32) -> u32 {
        let below = depth.saturating_sub(1);
        let body = self.random_term(sort, below);
        let mut variables = vec![self.random_binder(body)];
        for _ in 0..self.rng.below(3) {
            let variable = self.random_binder(body);
            if !variables.contains(&variable) {
                variables.push(variable);
            }
        }
        let bounds = match self.swapped(&variables) {
            Some(bounds) if self.rng.chance(40) => bounds,
            _ => variables
                .iter()
                .map(|&variable| self.random_term(self.variable_sort(variable), below))
                .collect(),
        };
        self.bind_let(&variables, &bounds, body)
    }

    /// The variables' own terms, each pair of equal sort exchanged.
    pub fn swapped(&mut self, variables: &[u32]) -> Option<Vec<u32>> {
        let mut turned = variables.to_vec();
        let mut exchanged = false;
        for first in 0..turned.len() {
            for second in first + 1..turned.len() {
                if self.variable_sort(turned[first]) == self.variable_sort(turned[second]) {
                    turned.swap(first, second);
                    exchanged = true;
                }
            }
        }
        exchanged.then(|| turned.into_iter().map(|variable| self.variable_term(variable)).collect())
    }

    pub fn random_term(&mut self, sort: u32, depth: u32) -> u32 {
        if depth == 0 || self.rng.chance(12) {
            return self.random_leaf(sort);
        }
        self.random_compound(sort, depth)
    }

    /// A term with parts, or now and then one that is there already.
    pub fn random_compound(&mut self, sort: u32, depth: u32) -> u32 {
        match self.rng.below(100) {
            0..18 => {
                let known = self.terms_of(sort);
                match self.rng.pick(&known) {
                    Some(&term) => term,
                    None => self.random_leaf(sort),
                }
            }
            18..42 if sort == TRUTH => self.random_quantifier(depth),
            42..62 => self.random_let(sort, depth),
            62..72 if self.has_choices() => self.random_choice(sort, depth),
            _ => self.random_application(sort, depth),
        }
    }

    /// Binds every free variable of a truth term: by a quantifier, or by a let
    /// to a closed term where there is one.
    pub fn close(&mut self, term: u32) -> u32 {
        let mut closed = term;
        while let Some(variable) = self.free(closed).members().next() {
            let sort = self.variable_sort(variable);
            let constants: Vec<u32> = self
                .terms_of(sort)
                .into_iter()
                .filter(|&other| self.free(other).is_empty())
                .collect();
            let constant = self.rng.pick(&constants).copied();
            closed = match constant {
                Some(constant) if self.rng.chance(35) || self.sort(closed) != TRUTH => {
                    self.bind_let(&[variable], &[constant], closed)
                }
                None if self.sort(closed) != TRUTH => {
                    let constant =
                        if sort == TRUTH { self.apply(1, &[]) } else { self.apply(33, &[]) };
                    self.bind_let(&[variable], &[constant], closed)
                }
                _ => {
                    let kind = self.random_kind();
                    self.bind_as_truth(kind, variable, closed)
                }
            };
        }
        closed
    }
}
