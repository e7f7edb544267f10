//! Files about choices and SKO (Req 07): a quantifier taken away by either rule, or nearly so,
//! in contexts of all kinds; several of them one after another; and choices under BIND and in
//! whole-term REFL.

use super::builder::{BINDERS, Builder, CHOICE, EXISTS, FOR_ALL, ITEM, NOT, Shape, TRUTH};
use super::derive::{BIND, REFL, TRANS, sko};
use super::replace::{MISSES, replaced};
use crate::bundle::Section;
use crate::rng::Rng;

/// How a step is nearly one of SKO.
#[derive(Clone, Copy, Debug, PartialEq, Eq)]
enum Near {
    /// The rule of the other quantifier.
    OtherRule,
    /// Without the not of a for-all, or with one for an exists.
    Negation,
    /// The choice in another body, or in the not of another.
    Body,
    /// Another symbol in the not's place.
    Symbol,
    /// The choice of another variable.
    Variable,
    /// A leaf in the choice's place, or a quantifier.
    NoChoice,
    /// The context replaces more variables, or another one.
    More,
    Another,
    /// The context fixes the variable.
    Fixes,
    /// The context has another parent, or an equal one.
    Parent,
    /// The premise is about another body, or the step about another right side.
    Left,
    Right,
    /// No premise, or two.
    Count,
    /// The left is a choice.
    Choice,
    /// The choice is not settled in the step's context.
    Unsettled,
}

const NEARS: [Near; 15] = [
    Near::OtherRule,
    Near::Negation,
    Near::Body,
    Near::Symbol,
    Near::Variable,
    Near::NoChoice,
    Near::More,
    Near::Another,
    Near::Fixes,
    Near::Parent,
    Near::Left,
    Near::Right,
    Near::Count,
    Near::Choice,
    Near::Unsettled,
];

/// The builder with a few symbols and variables.
struct Stage {
    b: Builder,
    a: u32,
    p: u32,
    /// From truth to truth, as "not".
    n: u32,
    items: [u32; 3],
    truths: [u32; 2],
    /// Whether nothing but the variable of a binder is free in its body.
    closed: bool,
}

impl Stage {
    fn new(mut rng: Rng) -> Self {
        let sharing = rng.one_of([0, 50, 100]);
        let mut b = Builder::new(rng, sharing);
        let a = b.symbol(ITEM, &[]);
        let p = b.symbol(TRUTH, &[ITEM, ITEM]);
        let n = b.symbol(TRUTH, &[TRUTH]);
        let before = b.rng.one_of([0, 0, 0, 2, 60, 63, 126, 190, 251]);
        for _ in 0..before {
            let sort = b.rng.below(2);
            b.spare_variable(sort);
        }
        let items = std::array::from_fn(|_| b.variable(ITEM));
        let truths = std::array::from_fn(|_| b.variable(TRUTH));
        Stage { b, a, p, n, items, truths, closed: false }
    }

    fn some_variable(&mut self) -> u32 {
        let (items, truths) = (self.items, self.truths);
        if self.b.rng.chance(70) { self.b.rng.one_of(items) } else { self.b.rng.one_of(truths) }
    }

    /// Another variable of the same sort.
    fn another(&mut self, x: u32) -> u32 {
        let others: Vec<u32> = self.b.variables_of(self.b.variable_sort(x));
        let others: Vec<u32> = others.into_iter().filter(|&other| other != x).collect();
        self.b.rng.pick(&others).copied().unwrap_or(x)
    }

    /// An atom of a variable, and of another leaf.
    fn atom(&mut self, x: u32) -> u32 {
        let x_term = self.b.variable_term(x);
        if self.b.variable_sort(x) == TRUTH {
            return x_term;
        }
        let other = match self.b.rng.below(5) {
            _ if self.closed => self.b.apply(self.a, &[]),
            0..3 => self.b.apply(self.a, &[]),
            3 => self.b.variable_term(self.items[0]),
            _ => self.b.random_leaf(ITEM),
        };
        let mut sides = [x_term, other];
        self.b.rng.shuffle(&mut sides);
        let symbol = self.b.rng.one_of([self.p, self.p, 8]);
        self.b.apply(symbol, &sides)
    }

    /// A body that the variable mostly occurs in.
    fn body(&mut self, x: u32) -> u32 {
        let mut atom = self.atom(x);
        match self.b.rng.below(7) {
            0 if !self.closed => atom = self.b.random_leaf(TRUTH),
            1 => atom = self.b.apply(NOT, &[atom]),
            2 => {
                let other = match self.closed {
                    true => self.atom(x),
                    false => self.b.random_term(TRUTH, 2),
                };
                let symbol = self.b.rng.between(4, 7);
                atom = self.b.apply(symbol, &[atom, other]);
            }
            // A binder inside, of this variable too.
            3 | 4 => {
                let (kind, other) = (self.b.rng.one_of(BINDERS), self.some_variable());
                let inner = self.atom(other);
                let both = self.b.apply(4, &[atom, inner]);
                atom = self.b.bind_as_truth(kind, other, both);
            }
            _ => {}
        }
        atom
    }

    /// Some entries that mention the free variables of these terms and leave them in place.
    fn context(&mut self, terms: &[u32]) -> u32 {
        let mut context = 0;
        if self.b.rng.chance(25) {
            let variable = self.some_variable();
            let free = terms.iter().any(|&term| self.b.free(term).has(variable));
            let own = self.b.variable_term(variable);
            let closed = if self.b.variable_sort(variable) == ITEM {
                self.b.apply(self.a, &[])
            } else {
                self.b.apply(1, &[])
            };
            let term = if free { own } else { closed };
            context = self.b.replace(&[variable], &[term], context);
        }
        if self.b.rng.chance(97) { self.b.scope(context, terms) } else { context }
    }

    /// What a quantifier's variable is replaced by.
    fn witness(&mut self, kind: u32, x: u32, body: u32) -> u32 {
        let inner = if kind == FOR_ALL { self.b.apply(NOT, &[body]) } else { body };
        self.b.bind(CHOICE, x, inner)
    }

    /// A premise: the body where its free variables are replaced.
    fn carried(&mut self, context: u32, body: u32) -> u32 {
        let right = replaced(&mut self.b, context, body, None).map_or(body, |(right, _)| right);
        self.b.add_step(REFL, context, body, right, &[])
    }

    /// SKO from a quantifier in a context; answers the step.
    fn sko(&mut self, context: u32, kind: u32, x: u32, body: u32) -> u32 {
        let choice = self.witness(kind, x, body);
        let replacing = self.b.replace(&[x], &[choice], context);
        let premise = self.carried(replacing, body);
        let right = self.b.step(premise).right;
        let left = self.b.bind(kind, x, body);
        self.b.add_step(sko(kind), context, left, right, &[premise])
    }

    /// One step of SKO, or nearly one.
    fn one(&mut self, near: Option<Near>) {
        let x = self.some_variable();
        let kind = self.b.rng.one_of([FOR_ALL, EXISTS]);
        let body = self.body(x);
        let other = self.another(x);
        let left = match near {
            Some(Near::Choice) => self.b.bind(CHOICE, x, body),
            _ => self.b.bind(kind, x, body),
        };
        let carried = if near == Some(Near::Left) { self.body(x) } else { body };
        let other_left = if carried == body { left } else { self.b.bind(kind, x, carried) };
        let mut context = self.context(&[left, other_left]);
        if near == Some(Near::Unsettled) {
            context = self.moving(left, context);
        }
        let Some(near) = near else {
            self.sko(context, kind, x, body);
            return;
        };
        let mut rule = sko(kind);
        let choice = self.nearly_witness(near, kind, x, body);
        let (mut variables, mut parent) = (vec![x], context);
        match near {
            Near::OtherRule => rule = sko(FOR_ALL + EXISTS - kind),
            Near::More => variables.insert(self.b.rng.below(2) as usize, other),
            Near::Another => variables = vec![other],
            Near::Parent => parent = self.another_parent(context),
            _ => {}
        }
        let terms = vec![choice; variables.len()];
        let replacing = match near {
            Near::Fixes => self.b.fix(x, parent),
            _ => self.b.replace(&variables, &terms, parent),
        };
        let premise = self.carried(replacing, carried);
        let right = match near {
            Near::Right => self.b.rng.one_of([body, left]),
            _ => self.b.step(premise).right,
        };
        let count = if near == Near::Count { self.b.rng.one_of([0, 2]) } else { 1 };
        self.b.add_step(rule, context, left, right, &[premise; 2][..count]);
    }

    /// A context in which a free variable of a term is moved, where there is one.
    fn moving(&mut self, term: u32, context: u32) -> u32 {
        let free: Vec<u32> = self.b.free(term).members().collect();
        let Some(&variable) = self.b.rng.pick(&free) else { return context };
        let sort = self.b.variable_sort(variable);
        let closed = if sort == ITEM { self.b.apply(self.a, &[]) } else { self.b.apply(2, &[]) };
        self.b.replace(&[variable], &[closed], context)
    }

    /// The choice, or what stands nearly in its place.
    fn nearly_witness(&mut self, near: Near, kind: u32, x: u32, body: u32) -> u32 {
        let other_kind = FOR_ALL + EXISTS - kind;
        match near {
            // So that the witness is the rule's, or the quantifier's.
            Near::OtherRule if self.b.rng.chance(50) => self.witness(other_kind, x, body),
            Near::Negation => self.witness(other_kind, x, body),
            Near::Body => {
                let mut other = self.body(x);
                if self.b.rng.chance(30) {
                    other = self.b.apply(NOT, &[body]);
                }
                self.witness(kind, x, other)
            }
            Near::Symbol if kind == FOR_ALL => {
                let symbol = self.b.rng.one_of([self.n, self.n, 6]);
                let arguments = vec![body; if symbol == 6 { 2 } else { 1 }];
                let inner = self.b.apply(symbol, &arguments);
                self.b.bind(CHOICE, x, inner)
            }
            Near::Variable => {
                let other = self.another(x);
                let inner = if kind == FOR_ALL { self.b.apply(NOT, &[body]) } else { body };
                self.b.bind(CHOICE, other, inner)
            }
            Near::NoChoice if self.b.variable_sort(x) == TRUTH && self.b.rng.chance(60) => {
                let inner = if kind == FOR_ALL { self.b.apply(NOT, &[body]) } else { body };
                let kind = self.b.rng.one_of([FOR_ALL, EXISTS]);
                self.b.bind(kind, x, inner)
            }
            Near::NoChoice => self.b.random_leaf(self.b.variable_sort(x)),
            _ => self.witness(kind, x, body),
        }
    }

    /// A context that is not this one: an equal copy, one above it, or its parent.
    fn another_parent(&mut self, context: u32) -> u32 {
        match self.b.rng.below(3) {
            0 if context != 0 => self.b.copy_context(context),
            1 if context != 0 => self.b.parent(context),
            _ => {
                let variable = self.some_variable();
                self.b.fix(variable, context)
            }
        }
    }

    /// Quantifiers in one another, the outer one first taken away, and so on; TRANS joins the
    /// steps.
    fn several(&mut self) {
        let mut names = [self.items.as_slice(), self.truths.as_slice()].concat();
        self.b.rng.shuffle(&mut names);
        names.truncate(self.b.rng.between(2, 4) as usize);
        let mut term = self.b.apply(1, &[]);
        for &x in &names {
            let atom = self.atom(x);
            let symbol = self.b.rng.between(4, 7);
            term = self.b.apply(symbol, &[atom, term]);
        }
        for &x in &names {
            let kind = self.b.rng.one_of([FOR_ALL, EXISTS]);
            term = self.b.bind(kind, x, term);
        }
        let context = self.b.scope(0, &[term]);
        let mut joined: Option<u32> = None;
        while let Shape::Binder(kind @ (FOR_ALL | EXISTS), x, body) = *self.b.shape(term) {
            let step = self.sko(context, kind, x, body);
            let right = self.b.step(step).right;
            joined = Some(match joined {
                Some(before) => {
                    let left = self.b.step(before).left;
                    self.b.add_step(TRANS, context, left, right, &[before, step])
                }
                None => step,
            });
            term = right;
        }
    }

    /// SKO under a binder whose variable is in the choice: settled only where it is kept.
    fn under_binder(&mut self) {
        let [y, x, z] = self.items;
        let outer = self.b.rng.one_of(BINDERS);
        let kind = self.b.rng.one_of([FOR_ALL, EXISTS]);
        let name = if self.b.rng.chance(80) { y } else { z };
        let (x_term, y_term) = (self.b.variable_term(x), self.b.variable_term(y));
        let body = self.b.apply(self.p, &[x_term, y_term]);
        let inner = self.b.bind(kind, x, body);
        let name_term = self.b.variable_term(name);
        let fixing = self.b.fix(name, 0);
        let renaming = self.b.replace(&[y], &[name_term], fixing);
        let step = self.sko(renaming, kind, x, body);
        let right = self.b.step(step).right;
        let (left, right) = (self.b.bind(outer, y, inner), self.b.bind(outer, name, right));
        self.b.add_step(BIND, 0, left, right, &[step]);
    }

    /// A choice renamed by BIND, or by one REFL, to the same kind or to another.
    fn renamed(&mut self) {
        let x = self.some_variable();
        let name = self.another(x);
        let [kind, other] = match self.b.rng.below(4) {
            0 => [0; 2].map(|_| self.b.rng.one_of(BINDERS)),
            _ => [CHOICE; 2],
        };
        let body = self.body(x);
        let left = self.b.bind(kind, x, body);
        let context = self.context(&[left]);
        if self.b.rng.chance(40) {
            let miss = self.b.rng.chance(50).then(|| self.b.rng.one_of(MISSES));
            let right = replaced(&mut self.b, context, left, miss);
            let mut right = right.map_or(left, |(right, _)| right);
            if kind != other
                && let Shape::Binder(_, y, body) = *self.b.shape(right)
            {
                right = self.b.bind(other, y, body);
            }
            self.b.add_step(REFL, context, left, right, &[]);
            return;
        }
        let name_term = self.b.variable_term(name);
        let fixing = self.b.fix(name, context);
        let renaming = self.b.replace(&[x], &[name_term], fixing);
        let premise = self.carried(renaming, body);
        let right = self.b.step(premise).right;
        let right = self.b.bind(other, name, right);
        self.b.add_step(BIND, context, left, right, &[premise]);
    }
}

/// A file about choices and SKO.
pub fn any(rng: Rng) -> Vec<u32> {
    let mut stage = Stage::new(rng);
    for _ in 0..stage.b.rng.one_of([1, 1, 2, 3]) {
        stage.closed = stage.b.rng.chance(60);
        match stage.b.rng.below(100) {
            0..14 => stage.one(None),
            14..70 => {
                let near = stage.b.rng.one_of(NEARS);
                stage.one(Some(near));
            }
            70..80 => stage.several(),
            80..87 => stage.under_binder(),
            _ => stage.renamed(),
        }
    }
    let last = stage.b.step(stage.b.count(Section::Steps));
    if last.context != 0 || stage.b.rng.chance(20) {
        let truth = stage.b.apply(1, &[]);
        stage.b.add_step(REFL, 0, truth, truth, &[]);
    }
    stage.b.claim_last()
}
