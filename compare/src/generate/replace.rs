//! A term's copy with its free variables replaced and its binders renamed at random, or nearly
//! so: the two sides of REFL for whole terms (Req 04).

use super::builder::{Builder, CHOICE, ITEM, Shape, TRUTH};
use crate::bundle::Section;
use crate::set::Set;

/// How a copy is nearly the replaced term.
#[derive(Clone, Copy, Debug, PartialEq, Eq)]
pub enum Miss {
    /// A binder gets a name that is free in an image or stands for a variable bound outside.
    Taken,
    /// A variable with two binders around it is taken for the outer one's.
    Outer,
    /// A variable bound inside is replaced as if it were free.
    BoundReplaced,
    /// Another term in an image's place.
    Image,
    /// The image of an image.
    ImageAgain,
    /// A binder inside an image is renamed.
    ImageName,
    Symbol,
    Kind,
    Sort,
    /// A let with another number of variables.
    Count,
    /// A let's variables in another order.
    Order,
    /// A let's bound terms as if they stood inside its variables.
    Inside,
    /// The term as it is.
    Same,
}

/// Those that seldom offer themselves are there more than once.
pub const MISSES: [Miss; 16] = [
    Miss::Taken,
    Miss::Taken,
    Miss::Taken,
    Miss::Outer,
    Miss::BoundReplaced,
    Miss::Image,
    Miss::ImageAgain,
    Miss::ImageName,
    Miss::ImageName,
    Miss::Symbol,
    Miss::Kind,
    Miss::Sort,
    Miss::Count,
    Miss::Order,
    Miss::Inside,
    Miss::Same,
];

/// The copy of a term that is being made.
struct Replacing<'a> {
    builder: &'a mut Builder,
    context: u32,
    /// The variables bound around the term, and their names in the copy.
    scope: Vec<(u32, u32)>,
    /// How often, in percent, a binder is renamed where it need not be.
    renames: u32,
    miss: Option<Miss>,
    /// Terms that may still be visited.
    fuel: u32,
}

/// A term with its free variables replaced by their images and its binders renamed at random,
/// with a miss in it if one offers itself, and whether one did; `None` where it is too large.
pub fn replaced(
    builder: &mut Builder,
    context: u32,
    term: u32,
    miss: Option<Miss>,
) -> Option<(u32, bool)> {
    let renames = builder.rng.one_of([0, 30, 60, 100]);
    if miss == Some(Miss::Same) {
        return Some((term, !builder.settled(context, term)));
    }
    let mut replacing = Replacing { builder, context, scope: Vec::new(), renames, miss, fuel: 400 };
    let right = replacing.copy(term)?;
    Some((right, miss.is_some() && replacing.miss.is_none()))
}

impl Replacing<'_> {
    /// Whether the miss is to be made here.
    fn misses(&mut self, miss: Miss) -> bool {
        self.miss == Some(miss) && self.builder.rng.chance(50)
    }

    fn made(&mut self) {
        self.miss = None;
    }

    /// The name in the copy of a variable bound around the term.
    fn bound(&self, x: u32) -> Option<u32> {
        self.scope.iter().rev().find(|&&(left, _)| left == x).map(|&(_, right)| right)
    }

    fn copy(&mut self, term: u32) -> Option<u32> {
        self.fuel = self.fuel.checked_sub(1)?;
        if self.builder.room(Section::Terms) < 8 || self.builder.room(Section::Links) < 40 {
            return None;
        }
        match self.builder.shape(term).clone() {
            Shape::Variable(x) => Some(self.variable(x, term)),
            Shape::Application(symbol, arguments) => {
                let arguments: Option<Vec<u32>> =
                    arguments.into_iter().map(|argument| self.copy(argument)).collect();
                let mut symbol = symbol;
                if self.misses(Miss::Symbol) {
                    let other = self.builder.another_symbol(symbol);
                    if other != symbol {
                        symbol = other;
                        self.made();
                    }
                }
                Some(self.builder.apply(symbol, &arguments?))
            }
            Shape::Binder(kind, x, body) => {
                let resorts = kind != CHOICE;
                let [y] = self.names(&[x], body, resorts)?[..] else { return None };
                let mut kind = kind;
                if self.misses(Miss::Kind) {
                    let other = self.builder.another_kind_of(kind, x);
                    if other != kind {
                        kind = other;
                        self.made();
                    }
                }
                self.scope.push((x, y));
                let body = self.copy(body)?;
                self.scope.pop();
                Some(self.builder.bind(kind, y, body))
            }
            Shape::Let(variables, bounds, body) => self.let_(&variables, &bounds, body),
        }
    }

    fn variable(&mut self, x: u32, term: u32) -> u32 {
        let sort = self.builder.sort(term);
        let image = self.builder.image(self.context, x).unwrap_or(term);
        if let Some(y) = self.bound(x) {
            let outer = self.scope.iter().find(|&&(left, _)| left == x).map(|&(_, right)| right);
            if let Some(outer) = outer.filter(|&outer| outer != y)
                && self.misses(Miss::Outer)
            {
                self.made();
                return self.builder.variable_term(outer);
            }
            if image != term && self.misses(Miss::BoundReplaced) {
                self.made();
                return image;
            }
            return self.builder.variable_term(y);
        }
        if self.misses(Miss::Image) {
            self.made();
            return if self.builder.rng.chance(40) { term } else { self.leaf(sort) };
        }
        if let Shape::Variable(next) = *self.builder.shape(image)
            && let Some(again) = self.builder.image(self.context, next)
            && again != image
            && self.misses(Miss::ImageAgain)
        {
            self.made();
            return again;
        }
        if self.misses(Miss::ImageName) {
            let (builder, scope) = (&mut *self.builder, Vec::new());
            let renamed =
                Replacing { builder, context: 0, scope, renames: 100, miss: None, fuel: 60 }
                    .copy(image);
            if let Some(renamed) = renamed.filter(|&renamed| renamed != image) {
                self.made();
                return renamed;
            }
        }
        image
    }

    /// A leaf, one that is in scope where it can be.
    fn leaf(&mut self, sort: u32) -> u32 {
        let mut leaf = self.builder.random_leaf(sort);
        for _ in 0..6 {
            if self.builder.in_scope(self.context, leaf) {
                break;
            }
            leaf = self.builder.random_leaf(sort);
        }
        leaf
    }

    /// Names in the copy for the variables of a binder: none that is free there in what the
    /// body's other variables become. Whether one may be of another sort is told.
    fn names(&mut self, variables: &[u32], body: u32, resorts: bool) -> Option<Vec<u32>> {
        let own: Set = variables.iter().copied().collect();
        let free = self.builder.free(body);
        let taken = free.without(own).members().fold(Set::EMPTY, |taken, x| {
            taken.union(match self.bound(x) {
                Some(y) => Set::of(y),
                None => match self.builder.image(self.context, x) {
                    Some(image) => self.builder.free(image),
                    None => Set::of(x),
                },
            })
        });
        let mut names: Vec<u32> = Vec::new();
        for &x in variables {
            let mut sort = self.builder.variable_sort(x);
            if resorts && variables.len() == 1 && !free.has(x) && self.misses(Miss::Sort) {
                sort = TRUTH + ITEM - sort;
            }
            let all = self.builder.variables_of(sort);
            let unused = |y: &u32| !names.contains(y);
            let allowed: Vec<u32> =
                all.iter().copied().filter(|&y| !taken.has(y)).filter(unused).collect();
            let forbidden: Vec<u32> =
                all.iter().copied().filter(|&y| taken.has(y)).filter(unused).collect();
            if sort != self.builder.variable_sort(x) {
                match self.builder.rng.pick(&allowed).copied() {
                    Some(y) => {
                        self.made();
                        names.push(y);
                        continue;
                    }
                    None => sort = self.builder.variable_sort(x),
                }
            }
            if !forbidden.is_empty() && self.misses(Miss::Taken) {
                self.made();
                // A name that is free in an image, or one that a binder around has.
                let outer = |y: &u32| self.scope.iter().any(|(_, right)| right == y);
                let images: Vec<u32> = forbidden.iter().copied().filter(|y| !outer(y)).collect();
                let others: Vec<u32> = forbidden.iter().copied().filter(|y| outer(y)).collect();
                let first = self.builder.rng.chance(50);
                let some = match (images.is_empty(), others.is_empty()) {
                    (false, _) if first => &images,
                    (_, false) => &others,
                    _ => &images,
                };
                names.extend(self.builder.rng.pick(some));
                continue;
            }
            let keeps = allowed.contains(&x) && !self.builder.rng.chance(self.renames);
            let some = self.builder.rng.pick(&allowed).copied();
            let room = self.builder.room(Section::Variables) > 0 && all.len() < 30;
            names.push(match some {
                _ if keeps => x,
                Some(y) if !room || self.builder.rng.chance(80) => y,
                _ if room => self.builder.variable(sort),
                _ => return None,
            });
        }
        Some(names)
    }

    fn let_(&mut self, variables: &[u32], bounds: &[u32], body: u32) -> Option<u32> {
        let mut names = self.names(variables, body, true)?;
        let sorts = |builder: &Builder, names: &[u32]| -> Vec<u32> {
            names.iter().map(|&name| builder.variable_sort(name)).collect()
        };
        let pairs: Vec<(u32, u32)> = variables.iter().copied().zip(names.iter().copied()).collect();
        let outside = self.scope.len();
        let inside = self.misses(Miss::Inside);
        if inside {
            self.made();
            self.scope.extend(&pairs);
        }
        let results: Option<Vec<u32>> = bounds.iter().map(|&bound| self.copy(bound)).collect();
        let mut results = results?;
        if !inside {
            self.scope.extend(&pairs);
        }
        let mut result = self.copy(body)?;
        self.scope.truncate(outside);
        // A miss gave the only variable another sort.
        if sorts(self.builder, &names) != sorts(self.builder, variables) {
            results = vec![self.leaf(self.builder.variable_sort(names[0]))];
        }
        if names.len() > 1 && self.misses(Miss::Order) {
            let before = names.clone();
            names.reverse();
            if sorts(self.builder, &names) == sorts(self.builder, &before) {
                self.made();
            } else {
                names = before;
            }
        }
        if self.misses(Miss::Count) {
            self.made();
            let more = self.builder.draw_variable();
            if names.len() > 1 && self.builder.rng.chance(60) {
                names.pop();
                results.pop();
            } else if !names.contains(&more) {
                names.push(more);
                results.push(self.leaf(self.builder.variable_sort(more)));
            } else {
                // A let within the let's place is another term too.
                result = self.builder.bind_let(&names, &results, result);
            }
        }
        Some(self.builder.bind_let(&names, &results, result))
    }
}

#[cfg(test)]
mod tests {
    use super::*;
    use crate::answer::Ending;
    use crate::bundle::to_bytes;
    use crate::check::walk;
    use crate::generate::derive::{Care, Derivation};
    use crate::rng::Rng;

    /// A random term in a random context, and its copy.
    fn copied(seed: u64, miss: Option<Miss>) -> Option<(Vec<u8>, u32, [u32; 2])> {
        let mut b = Builder::new(Rng::new(seed), 50);
        b.random_signature();
        let mut context = 0;
        for _ in 0..b.rng.below(4) {
            context = Derivation::new(&mut b, Care::Full).random_context(context);
        }
        let depth = b.rng.between(1, 5);
        let term = b.random_compound(TRUTH, depth);
        let (right, missed) = replaced(&mut b, context, term, miss)?;
        assert!(miss.is_some() || !missed);
        Some((to_bytes(&b.words(0, 0)), context, [term, right]))
    }

    /// How many of some copies the walk takes, and how many it does not.
    fn endings(miss: Option<Miss>) -> [u32; 2] {
        let mut endings = [0; 2];
        for seed in 0..3_000 {
            let Some((file, context, sides)) = copied(seed, miss) else { continue };
            let Some(walk) = walk(&file, context, sides) else { panic!("seed {seed}") };
            endings[usize::from(walk.ending == Ending::Differs)] += 1;
        }
        endings
    }

    #[test]
    fn copies_are_taken() {
        let [taken, not] = endings(None);
        assert!(taken > 2_500 && not == 0, "{taken}, {not}");
    }

    /// Each way to miss is found, and refused, often enough.
    #[test]
    fn misses_are_not() {
        for miss in MISSES {
            let [_, not] = endings(Some(miss));
            assert!(not >= 5, "{miss:?}: {not}");
        }
    }
}
