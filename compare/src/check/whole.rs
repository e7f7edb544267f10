//! REFL for whole terms (Req 04): whether right is left with each free variable replaced by
//! its image, up to the names of binders inside left. The walk goes over pairs of terms,
//! parent before child and left to right, and ends at the first difference or at the limit.
//!
//! A crossed pair of variables has a number, counted from 1 at the outermost; by variable
//! each side keeps the number of its nearest crossed binder. What a crossing hides is noted
//! and put back on the way out, so that no lookup depends on how many binders were crossed.

use super::contexts::Contexts;
use super::terms::{Binder, Term};
use super::{Tables, member};
use crate::answer::{Ending, Whole};
use crate::fault::{Fault, Rules};
use crate::set::Set;
use std::mem;

/// A walk visits no more pairs.
pub const MOST_PAIRS: u32 = 4_096;

/// Two variables crossed together, and the crossings that they hide.
#[derive(Clone, Copy, Debug)]
struct Crossing {
    variables: [u32; 2],
    hidden: [u32; 2],
}

/// The binders that a walk has crossed. Kept from walk to walk, and empty between them, so
/// that only the first walk of a file makes room.
#[derive(Debug, Default)]
pub struct Binders {
    /// By variable, left and right: its nearest crossing, 0 where there is none.
    nearest: Vec<[u32; 2]>,
    /// The variables with a crossing on the right.
    taken: Set,
    crossed: Vec<Crossing>,
}

const LEFT: usize = 0;
const RIGHT: usize = 1;

impl Binders {
    /// Crosses a binder of `x` on the left with one of `y` on the right.
    #[inline(always)]
    fn cross<R: Rules>(&mut self, rules: R, x: u32, y: u32) {
        let number = self.crossed.len() as u32 + 1;
        let mut put = |variable: u32, side: usize, keeps: bool| {
            let place = &mut self.nearest[variable as usize][side];
            let number = if keeps && *place != 0 { *place } else { number };
            mem::replace(place, number)
        };
        let hidden = [
            put(x, LEFT, rules.has(Fault::WholeLeftNotHidden)),
            put(y, RIGHT, rules.has(Fault::WholeRightNotHidden)),
        ];
        self.taken.insert(member(rules, y));
        self.crossed.push(Crossing { variables: [x, y], hidden });
    }

    /// Leaves the binders crossed after the first `kept`.
    #[inline(always)]
    fn leave<R: Rules>(&mut self, rules: R, kept: usize) {
        while self.crossed.len() > kept
            && let Some(Crossing { variables: [x, y], hidden }) = self.crossed.pop()
        {
            let hidden = if rules.has(Fault::WholeHiddenForgotten) { [0; 2] } else { hidden };
            self.nearest[x as usize][LEFT] = hidden[LEFT];
            self.nearest[y as usize][RIGHT] = hidden[RIGHT];
            if hidden[RIGHT] == 0 {
                self.taken.remove(member(rules, y));
            }
        }
    }
}

/// Walks `left` in a context against `right`.
#[inline(never)]
pub fn walk<R: Rules>(
    rules: R,
    tables: &Tables,
    contexts: &Contexts,
    binders: &mut Binders,
    context: u32,
    [left, right]: [u32; 2],
) -> Whole {
    if binders.nearest.is_empty() {
        binders.nearest.resize(tables.signature.variable_count() as usize + 1, [0; 2]);
        // Only lets can make a walk cross more.
        binders.crossed.reserve(tables.terms.count() as usize);
    }
    let limit = if rules.has(Fault::WholeLimitShort) {
        MOST_PAIRS - 1
    } else if rules.has(Fault::WholeLimitLong) || rules.has(Fault::WholeDifferenceUncounted) {
        MOST_PAIRS + 1
    } else if rules.has(Fault::SpentAfterRule) {
        4 * MOST_PAIRS
    } else {
        MOST_PAIRS
    };
    let mut walk = Walk { rules, tables, contexts, context, binders, pairs: 0, limit };
    let ending = match walk.pair(left, right) {
        Ok(()) => Ending::Same,
        Err(Stop::Differs) => Ending::Differs,
        Err(Stop::Spent) => Ending::Spent,
    };
    let pairs = walk.pairs;
    // A walk that stopped has not gone back.
    binders.leave(rules, 0);
    let late = rules.has(Fault::WholeDifferenceUncounted) || rules.has(Fault::SpentAfterRule);
    if late && ending == Ending::Same && pairs > MOST_PAIRS {
        return Whole { ending: Ending::Spent, pairs };
    }
    Whole { ending, pairs }
}

/// Why a walk does not reach its end.
enum Stop {
    Differs,
    Spent,
}

struct Walk<'a, R> {
    rules: R,
    tables: &'a Tables,
    contexts: &'a Contexts,
    context: u32,
    binders: &'a mut Binders,
    pairs: u32,
    limit: u32,
}

impl<R: Rules> Walk<'_, R> {
    /// A pair more, if the limit allows it.
    #[inline(always)]
    fn count(&mut self) -> Result<(), Stop> {
        if self.pairs == self.limit {
            return Err(Stop::Spent);
        }
        self.pairs += 1;
        Ok(())
    }

    /// Visits a pair and what is below it. The last part of a term is taken in the same
    /// turn, so that a chain of binders is a loop.
    fn pair(&mut self, mut left: u32, mut right: u32) -> Result<(), Stop> {
        let Tables { lists, terms, .. } = self.tables;
        let crossed = self.binders.crossed.len();
        'pairs: loop {
            self.count()?;
            if self.rules.has(Fault::WholeSharedTermSkipped) && self.skips(left, right) {
                break;
            }
            match (terms.get(left).term, terms.get(right).term) {
                (Term::Variable(x), to) => {
                    self.variable(x, left, right, to)?;
                    break;
                }
                (
                    Term::Application { symbol, arguments },
                    Term::Application { symbol: other, arguments: others },
                ) if symbol == other || self.rules.has(Fault::WholeSymbolsUnread) => {
                    let (mut from, mut to) = (arguments, others);
                    while from != 0 && to != 0 {
                        let ([argument, next], [other, next_other]) =
                            (lists.link(from), lists.link(to));
                        if next == 0 && next_other == 0 {
                            (left, right) = (argument, other);
                            continue 'pairs;
                        }
                        // Most arguments are variables: they take no call.
                        match terms.get(argument).term {
                            Term::Variable(x) => {
                                self.count()?;
                                self.variable(x, argument, other, terms.get(other).term)?;
                            }
                            _ => self.pair(argument, other)?,
                        }
                        (from, to) = (next, next_other);
                    }
                    if from != to && !self.rules.has(Fault::WholeSymbolsUnread) {
                        return Err(Stop::Differs);
                    }
                    break;
                }
                (
                    Term::Binder { binder, variable: x, body },
                    Term::Binder { binder: other, variable: y, body: result },
                ) if self.same_kind(binder, other) && self.same_sort(x, y) => {
                    if !(binder == Binder::Choice && self.rules.has(Fault::WholeChoiceNotCrossed)) {
                        self.binders.cross(self.rules, x, y);
                    }
                    (left, right) = (body, result);
                }
                (
                    Term::Let { variables, bounds, body },
                    Term::Let { variables: others, bounds: results, body: result },
                ) => {
                    self.let_([variables, others], [bounds, results])?;
                    (left, right) = (body, result);
                }
                _ => return Err(Stop::Differs),
            }
        }
        if !self.rules.has(Fault::WholeBindersKept) {
            self.binders.leave(self.rules, crossed);
        }
        Ok(())
    }

    /// A let's variables and bound terms; its variables are crossed afterwards.
    fn let_(&mut self, variables: [u32; 2], bounds: [u32; 2]) -> Result<(), Stop> {
        let lists = &self.tables.lists;
        let [from, to] = variables;
        let count = lists.length(from) == lists.length(to);
        let pairs = || lists.values(from).zip(lists.values(to));
        if !(count || self.rules.has(Fault::WholeLetCountsUnread))
            || !pairs().all(|(x, y)| self.same_sort(x, y))
        {
            return Err(Stop::Differs);
        }
        let inside = self.rules.has(Fault::WholeBoundsInside);
        if inside {
            pairs().for_each(|(x, y)| self.binders.cross(self.rules, x, y));
        }
        let [mut from, mut to] = bounds;
        while from != 0 && to != 0 {
            let ([bound, next], [other, next_other]) = (lists.link(from), lists.link(to));
            self.pair(bound, other)?;
            (from, to) = (next, next_other);
        }
        if self.rules.has(Fault::WholeLetOrderTurned) {
            let turned: Vec<u32> = lists.values(variables[RIGHT]).collect();
            for (x, &y) in lists.values(variables[LEFT]).zip(turned.iter().rev()) {
                self.binders.cross(self.rules, x, y);
            }
        } else if !inside {
            pairs().for_each(|(x, y)| self.binders.cross(self.rules, x, y));
        }
        Ok(())
    }

    /// Whether the variable's pair agrees: where it is bound on the left, right is the
    /// variable of the same crossing; else its image, whose free variables no binder
    /// crossed on the right takes.
    #[inline(always)]
    fn variable(&self, x: u32, left: u32, right: u32, to: Term) -> Result<(), Stop> {
        let [number, _] = self.binders.nearest[x as usize];
        let replaced = self.rules.has(Fault::WholeBoundReplaced)
            && self.contexts.image(self.context, x).is_some_and(|image| image != left);
        let same = if number != 0 && !replaced {
            matches!(to, Term::Variable(z) if self.binders.nearest[z as usize][RIGHT] == number)
        } else {
            (self.image(x, left) == right
                || self.rules.has(Fault::WholeImagesRenamed) && self.renamed(x, left, right))
                && (self.untaken(right) || self.rules.has(Fault::WholeCaptureTaken))
        };
        if same { Ok(()) } else { Err(Stop::Differs) }
    }

    /// Whether no binder crossed on the right takes a free variable of a term.
    #[inline(always)]
    fn untaken(&self, term: u32) -> bool {
        if self.tables.terms.plainly_closed(term) {
            return true;
        }
        let free = self.tables.terms.free(self.rules, term);
        let taken = self.binders.taken;
        if self.rules.has(Fault::WholeCaptureFirstWord) {
            return free.words()[0] & taken.words()[0] == 0;
        }
        free.disjoint(taken)
    }

    /// The term of a variable's image.
    #[inline(always)]
    fn image(&self, x: u32, left: u32) -> u32 {
        let image = self.contexts.image(self.context, x).unwrap_or(left);
        if self.rules.has(Fault::WholeImagesReplaced)
            && let Term::Variable(next) = self.tables.terms.get(image).term
        {
            return self.contexts.image(self.context, next).unwrap_or(image);
        }
        image
    }

    /// A fault's reading: right is the image but for the names of binders in it.
    fn renamed(&self, x: u32, left: u32, right: u32) -> bool {
        let sides = [self.image(x, left), right];
        let mut binders = Binders::default();
        // In context 0 a variable is its own image, so that this calls itself once at most.
        self.context != 0
            && walk(self.rules, self.tables, self.contexts, &mut binders, 0, sides).ending
                == Ending::Same
    }

    #[inline(always)]
    fn same_kind(&self, binder: Binder, other: Binder) -> bool {
        if binder == other {
            return binder != Binder::Choice || !self.rules.has(Fault::WholeChoicesDiffer);
        }
        let is_choice = binder == Binder::Choice || other == Binder::Choice;
        self.rules.has(Fault::WholeKindsUnread) && !is_choice
            || self.rules.has(Fault::WholeChoiceMeetsQuantifier) && is_choice
    }

    #[inline(always)]
    fn same_sort(&self, x: u32, y: u32) -> bool {
        let signature = &self.tables.signature;
        signature.variable(x) == signature.variable(y) || self.rules.has(Fault::WholeSortsUnread)
    }

    /// A fault's shortcut: a closed term against itself.
    fn skips(&self, left: u32, right: u32) -> bool {
        left == right && self.tables.terms.free(self.rules, left).is_empty()
    }
}
