//! Files about free variables that no entry mentions (Req 05): steps of each rule about a
//! variable that is free in one side or in both, or bound there, and that entries mention in
//! each way, or not at all; some of the steps are refused by another number, too.

use super::builder::{BINDERS, Builder, FOR_ALL, ITEM, TRUTH};
use super::derive::{BIND, CONG, LET, REFL, SKO_EXISTS, SKO_FOR_ALL, TRANS};
use super::replace::{MISSES, replaced};
use crate::bundle::Section;
use crate::rng::Rng;

/// How the entries of a file stand to the variable, seen from the context of a step.
#[derive(Clone, Copy, Debug)]
enum Mention {
    /// In no entry.
    Nowhere,
    Fixed,
    /// By another term, or by its own.
    Replaced,
    ReplacedByItself,
    /// As one of several.
    ReplacedWithOthers,
    /// Replaced and then fixed, or the other way round.
    Twice,
    /// In an entry of which the step's context is not above.
    Beside,
    /// In the term that replaces another variable.
    InsideReplacement,
}

const MENTIONS: [Mention; 10] = [
    Mention::Nowhere,
    Mention::Nowhere,
    Mention::Fixed,
    Mention::Replaced,
    Mention::ReplacedByItself,
    Mention::ReplacedWithOthers,
    Mention::Twice,
    Mention::Beside,
    Mention::Beside,
    Mention::InsideReplacement,
];

/// The builder with a few symbols and variables.
struct Stage {
    b: Builder,
    f: u32,
    p: u32,
    d: u32,
    /// The variable that the file is about, and others. All are items.
    x: u32,
    others: [u32; 3],
    a_term: u32,
    x_term: u32,
}

impl Stage {
    fn new(mut rng: Rng) -> Self {
        let limit = Section::Variables.limit();
        let any = rng.between(4, limit);
        let count = rng.one_of([4, 4, 5, any, 64, 65, 66, 128, 129, 192, 193, limit]);
        let mut names = Vec::new();
        while names.len() < 4 {
            let any = rng.between(1, count);
            let edge = rng.one_of([1, 63, 64, 65, 66, 127, 128, 129, 192, 193, 255, limit]);
            // The same bit in another word as the one before.
            let before = names.last().copied().unwrap_or(count);
            let alike = (before + u64::BITS - 1) % limit + 1;
            let name = rng.one_of([any, edge, alike, count]).min(count);
            let name = if names.contains(&name) { any } else { name };
            if !names.contains(&name) {
                names.push(name);
            }
        }
        let sharing = rng.one_of([0, 50, 100]);
        let mut b = Builder::new(rng, sharing);
        let a = b.symbol(ITEM, &[]);
        let f = b.symbol(ITEM, &[ITEM]);
        let p = b.symbol(TRUTH, &[ITEM, ITEM]);
        let d = b.symbol(ITEM, &[ITEM, ITEM]);
        for variable in 1..=count {
            if names.contains(&variable) {
                b.variable(ITEM);
            } else {
                let sort = b.rng.below(2);
                b.spare_variable(sort);
            }
        }
        let [x, others @ ..] = [names[0], names[1], names[2], names[3]];
        let (a_term, x_term) = (b.apply(a, &[]), b.variable_term(x));
        Stage { b, f, p, d, x, others, a_term, x_term }
    }

    fn f_of(&mut self, term: u32) -> u32 {
        self.b.apply(self.f, &[term])
    }

    fn p_of(&mut self, one: u32, other: u32) -> u32 {
        self.b.apply(self.p, &[one, other])
    }

    /// Some entries that do not mention the variable.
    fn above(&mut self, context: u32, most: u32) -> u32 {
        (0..self.b.rng.below(most + 1)).fold(context, |context, _| {
            let other = self.b.rng.one_of(self.others);
            let closed = self.f_of(self.a_term);
            match self.b.rng.below(3) {
                0 => self.b.replace(&[other], &[closed], context),
                _ => self.b.fix(other, context),
            }
        })
    }

    /// A context, with its entries for the variable.
    fn context(&mut self, mention: Mention) -> u32 {
        let (x, a_term, x_term) = (self.x, self.a_term, self.x_term);
        let base = self.above(0, 2);
        let context = match mention {
            Mention::Nowhere => base,
            Mention::Fixed => self.b.fix(x, base),
            Mention::Replaced => self.b.replace(&[x], &[a_term], base),
            Mention::ReplacedByItself => self.b.replace(&[x], &[x_term], base),
            Mention::ReplacedWithOthers => {
                let mut variables = [x, self.others[0], self.others[1]];
                self.b.rng.shuffle(&mut variables);
                self.b.replace(&variables, &[a_term; 3], base)
            }
            Mention::Twice if self.b.rng.chance(50) => {
                let fixing = self.b.fix(x, base);
                let between = self.above(fixing, 1);
                self.b.replace(&[x], &[a_term], between)
            }
            Mention::Twice => {
                let replacing = self.b.replace(&[x], &[a_term], base);
                let between = self.above(replacing, 1);
                self.b.fix(x, between)
            }
            Mention::Beside => {
                if self.b.rng.chance(60) {
                    self.b.fix(x, base);
                } else {
                    self.b.replace(&[x], &[a_term], base);
                }
                base
            }
            Mention::InsideReplacement => {
                let f_x = self.f_of(x_term);
                let (other, term) = (self.others[0], self.b.rng.one_of([x_term, f_x]));
                self.b.replace(&[other], &[term], base)
            }
        };
        let most = self.b.rng.one_of([0, 0, 2, 6]);
        self.above(context, most)
    }

    /// A term in which the variable is free, or only bound.
    fn term(&mut self) -> u32 {
        let (x, a_term, x_term) = (self.x, self.a_term, self.x_term);
        let [other, ..] = self.others;
        let (f_x, other_term) = (self.f_of(x_term), self.b.variable_term(other));
        let p_x_x = self.p_of(x_term, x_term);
        let kind = self.b.rng.one_of(BINDERS);
        match self.b.rng.below(11) {
            0 => x_term,
            1 => f_x,
            2 => self.p_of(x_term, a_term),
            3 => {
                let deeper = self.f_of(f_x);
                self.p_of(a_term, deeper)
            }
            // Free beside bound.
            4 => {
                let bound = self.b.bind_as_truth(kind, x, p_x_x);
                let free = self.p_of(a_term, x_term);
                let both = self.b.rng.one_of([[bound, free], [free, bound]]);
                self.b.apply(4, &both)
            }
            // A let's bound term stands outside.
            5 => self.b.bind_let(&[x], &[x_term], p_x_x),
            6 => self.b.bind_let(&[other, x], &[a_term, f_x], p_x_x),
            7 => {
                let body = self.p_of(other_term, x_term);
                self.b.bind_let(&[other], &[a_term], body)
            }
            8 => {
                let body = self.p_of(other_term, x_term);
                self.b.bind(kind, other, body)
            }
            // Not free.
            9 => self.b.bind(kind, x, p_x_x),
            _ => self.b.bind_let(&[x], &[a_term], p_x_x),
        }
    }

    /// A closed term of a term's sort.
    fn closed_like(&mut self, term: u32) -> u32 {
        if self.b.sort(term) == ITEM { self.a_term } else { self.b.apply(1, &[]) }
    }

    fn refl(&mut self, context: u32, left: u32, right: u32) -> u32 {
        self.b.add_step(REFL, context, left, right, &[])
    }

    /// One REFL: on equal sides, to an image, for a whole term or nearly so, and with the
    /// variable in one side alone.
    fn one_refl(&mut self, context: u32) {
        let term = self.term();
        let closed = self.closed_like(term);
        let image = self.b.image(context, self.x).unwrap_or(self.x_term);
        match self.b.rng.below(8) {
            0 | 1 => self.refl(context, term, term),
            2 => self.refl(context, self.x_term, image),
            3 => self.refl(context, term, closed),
            4 => self.refl(context, closed, term),
            5 => {
                let miss = self.b.rng.one_of(MISSES);
                let right = replaced(&mut self.b, context, term, Some(miss));
                self.refl(context, term, right.map_or(term, |(right, _)| right))
            }
            _ => {
                let right = replaced(&mut self.b, context, term, None);
                self.refl(context, term, right.map_or(term, |(right, _)| right))
            }
        };
    }

    /// A walk past the limit, with the variable behind what is walked, on one side or both.
    fn spent(&mut self, context: u32) {
        let level = self.b.rng.one_of([11, 12, 12, 13]);
        let leaf = self.a_term;
        let big = (0..level).fold(leaf, |term, _| self.b.apply(self.d, &[term, term]));
        let [end, other] = [self.x_term, self.a_term];
        let ends = self.b.rng.one_of([[end, other], [other, end], [end, end]]);
        let [left, right] = ends.map(|end| {
            let end = if self.b.rng.chance(50) { self.f_of(end) } else { end };
            self.p_of(big, end)
        });
        self.refl(context, left, right);
    }

    /// BIND to the variable, which is free in the left: the premise's context fixes it.
    fn captured(&mut self, context: u32) {
        let (x, x_term) = (self.x, self.x_term);
        let [z, ..] = self.others;
        let z_term = self.b.variable_term(z);
        let (from, to) = (self.p_of(z_term, x_term), self.p_of(x_term, x_term));
        let fixing = self.b.fix(x, context);
        let renaming = self.b.replace(&[z], &[x_term], fixing);
        let first = self.refl(renaming, z_term, x_term);
        let second = self.refl(renaming, x_term, x_term);
        let premise = self.b.add_step(CONG, renaming, from, to, &[first, second]);
        let kind = self.b.rng.one_of(BINDERS);
        let (left, right) = (self.b.bind(kind, z, from), self.b.bind(kind, x, to));
        self.b.add_step(BIND, context, left, right, &[premise]);
    }

    /// A binder on the right takes the variable, which is free in an image: by BIND or by one
    /// REFL. It is free in neither side; where the binder has another name, it is in the right.
    fn taken(&mut self, context: u32) {
        let [w, y, z] = self.others;
        let f_x = self.f_of(self.x_term);
        let outer = self.b.replace(&[w], &[f_x], context);
        let name = self.b.rng.one_of([self.x, self.x, y]);
        let [w_term, z_term, name_term] = [w, z, name].map(|name| self.b.variable_term(name));
        let (from, to) = (self.p_of(z_term, w_term), self.p_of(name_term, f_x));
        let kind = self.b.rng.one_of(BINDERS);
        let (left, right) = (self.b.bind(kind, z, from), self.b.bind(kind, name, to));
        if self.b.rng.chance(50) {
            self.refl(outer, left, right);
            return;
        }
        let fixing = self.b.fix(name, outer);
        let renaming = self.b.replace(&[z], &[name_term], fixing);
        let first = self.refl(renaming, z_term, name_term);
        let second = self.refl(renaming, w_term, f_x);
        let premise = self.b.add_step(CONG, renaming, from, to, &[first, second]);
        self.b.add_step(BIND, outer, left, right, &[premise]);
    }

    /// An image has the variable, and the context of the last premise mentions it: by LET or
    /// BIND it comes to stand free in the right side.
    fn out_of_scope(&mut self, context: u32) {
        let (x, x_term, a_term) = (self.x, self.x_term, self.a_term);
        let [w, y, _] = self.others;
        let (w_term, y_term) = (self.b.variable_term(w), self.b.variable_term(y));
        let f_x = self.f_of(x_term);
        let outer = self.b.replace(&[w], &[f_x], context);
        if self.b.rng.chance(50) {
            let constant = self.b.add_step(CONG, outer, a_term, a_term, &[]);
            let inner = self.b.replace(&[x], &[a_term], outer);
            let carried = self.refl(inner, w_term, f_x);
            let left = self.b.bind_let(&[x], &[a_term], w_term);
            self.b.add_step(LET, outer, left, f_x, &[constant, carried]);
        } else {
            let fixing = self.b.fix(y, outer);
            let renaming = self.b.replace(&[x], &[y_term], fixing);
            let (from, to) = (self.p_of(x_term, w_term), self.p_of(y_term, f_x));
            let first = self.refl(renaming, x_term, y_term);
            let second = self.refl(renaming, w_term, f_x);
            let premise = self.b.add_step(CONG, renaming, from, to, &[first, second]);
            let (left, right) = (self.b.bind(FOR_ALL, x, from), self.b.bind(FOR_ALL, y, to));
            self.b.add_step(BIND, outer, left, right, &[premise]);
        }
    }

    /// A step of a rule with premises that does not follow.
    fn false_step(&mut self, context: u32) {
        let (a_term, term) = (self.a_term, self.term());
        let closed = self.closed_like(term);
        let premise = self.b.add_step(CONG, context, a_term, a_term, &[]);
        let sides = [[term, closed], [closed, term], [term, term]];
        let [left, right] = self.b.rng.one_of(sides);
        let (rule, premises) = match self.b.rng.below(7) {
            0 => (CONG, vec![]),
            1 => (CONG, vec![premise]),
            2 => (TRANS, vec![premise; 2]),
            3 => (BIND, vec![premise]),
            4 => (SKO_EXISTS, vec![premise]),
            5 => (SKO_FOR_ALL, vec![premise]),
            _ => (LET, vec![premise; 2]),
        };
        self.b.add_step(rule, context, left, right, &premises);
    }

    /// A step that 12 refuses.
    fn bad_step(&mut self, context: u32) {
        let term = self.term();
        let own = self.b.count(Section::Steps) + 1;
        let over = self.b.count(Section::Contexts) + 1;
        let (rule, context, premises) = match self.b.rng.below(6) {
            0 => (0, context, vec![]),
            1 => (SKO_FOR_ALL + 1, context, vec![]),
            2 => (REFL, over, vec![]),
            3 => (CONG, context, vec![own]),
            4 => (self.b.rng.one_of([SKO_EXISTS, SKO_FOR_ALL]), context, vec![]),
            _ => (TRANS, context, vec![]),
        };
        self.b.add_step(rule, context, term, term, &premises);
    }
}

/// A file about free variables that no entry mentions.
pub fn any(rng: Rng) -> Vec<u32> {
    let mut stage = Stage::new(rng);
    for _ in 0..stage.b.rng.one_of([1, 1, 2, 3]) {
        let mention = stage.b.rng.one_of(MENTIONS);
        let context = stage.context(mention);
        match stage.b.rng.below(100) {
            0..45 => stage.one_refl(context),
            45..54 => stage.spent(context),
            54..62 => stage.captured(context),
            // A replacement has to be settled.
            62..70 if !stage.b.moved(context).has(stage.x) => stage.taken(context),
            70..80 if !stage.b.moved(context).has(stage.x) => stage.out_of_scope(context),
            62..93 => stage.false_step(context),
            _ => stage.bad_step(context),
        }
    }
    let last = stage.b.step(stage.b.count(Section::Steps));
    if last.context != 0 || stage.b.rng.chance(30) {
        let truth = stage.b.apply(1, &[]);
        stage.refl(0, truth, truth);
    }
    stage.b.claim_last()
}
