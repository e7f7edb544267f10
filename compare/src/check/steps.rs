//! Steps (refusals 12, 22, 21, 13 and 14, in this order) and the claim (15).

use super::contexts::{Contexts, Entry};
use super::terms::{Binder, Term};
use super::whole::{self, Binders};
use super::{Lists, Tables, first_refusal, member};
use crate::answer::{Accepted, Ending, Reason, Refusal, Walk};
use crate::bundle::Section;
use crate::fault::{Fault, OLD_VARIABLES, Rules};
use crate::set::Set;

const REFL: u32 = 1;
pub const CONG: u32 = 2;
const TRANS: u32 = 3;
const BIND: u32 = 4;
const LET: u32 = 5;
const SKO_EXISTS: u32 = 6;
const SKO_FOR_ALL: u32 = 7;

/// The symbol "not".
const NOT: u32 = 3;

#[derive(Clone, Copy, Debug, PartialEq, Eq)]
pub struct Step {
    pub rule: u32,
    pub context: u32,
    pub left: u32,
    pub right: u32,
    pub premises: u32,
}

/// What a number that is no step's reads as.
const NO_STEP: Step = Step { rule: 0, context: 0, left: 0, right: 0, premises: 0 };

impl Step {
    fn of(&[rule, context, left, right, premises]: &[u32; 5]) -> Self {
        Step { rule, context, left, right, premises }
    }

    /// The steps by number: index 0 is no step.
    pub fn all(records: &[[u32; 5]]) -> Vec<Step> {
        [NO_STEP].into_iter().chain(records.iter().map(Step::of)).collect()
    }
}

pub fn check<R: Rules>(
    rules: R,
    tables: &Tables,
    contexts: &Contexts,
) -> Result<Accepted, Refusal> {
    let records = tables.section(Section::Steps).as_chunks::<5>().0;
    if rules.has(Fault::ClaimBeforeSteps) {
        claim(rules, tables, records)?;
    }
    let mut checker = Checker::new(rules, tables, contexts, vec![NO_STEP; records.len() + 1]);
    first_refusal(rules, records.iter(), |number, record| checker.step(number, Step::of(record)))?;
    let (left, right) = claim(rules, tables, records)?;
    Ok(Accepted { left, right, pairs: checker.pairs })
}

/// The walk of the CONG step of this number, whatever the steps before it are;
/// `None` where 12 refuses it.
pub fn walk_of<R: Rules>(
    rules: R,
    tables: &Tables,
    contexts: &Contexts,
    number: u32,
) -> Option<Walk> {
    let steps = Step::all(tables.section(Section::Steps).as_chunks::<5>().0);
    let step = steps[number as usize];
    let checker = Checker::new(rules, tables, contexts, steps);
    checker.references_sound(number, &step).then(|| checker.cong(&step))
}

/// The last step has to be the claim, in the empty context; answers its sides.
fn claim<R: Rules>(rules: R, tables: &Tables, records: &[[u32; 5]]) -> Result<(u32, u32), Refusal> {
    let claim = (tables.header.left, tables.header.right);
    let proved = match records.last() {
        Some(&[_, context, left, right, _]) => {
            (context == 0 || rules.has(Fault::ClaimInAnyContext))
                && (left == claim.0 || rules.has(Fault::ClaimedLeftUnread))
                && (right == claim.1 || rules.has(Fault::ClaimedRightUnread))
        }
        None => rules.has(Fault::NoStepsTaken),
    };
    if proved { Ok(claim) } else { Err(Refusal::whole(Reason::Claim)) }
}

/// A side of a CONG step that is an application: its symbol and list of arguments.
#[derive(Clone, Copy, Debug)]
pub struct Side {
    pub symbol: u32,
    pub arguments: u32,
}

/// CONG's test of a step, whose sides are given where they are applications. It takes
/// each of the three lists once, a link of each at a time, and ends at the first
/// premise that does not carry its pair, or where a list ends. A premise that is no
/// step is a record of zeros. Inlined, with what calls it, for steps of few arguments.
#[inline(always)]
pub fn cong_walk<R: Rules>(
    rules: R,
    lists: &Lists,
    steps: &[Step],
    step: &Step,
    sides: [Option<Side>; 2],
    same_context: impl Fn(u32, u32) -> bool,
) -> Walk {
    let mut links = 0;
    let ended = |passes, links| Walk { passes, links };
    let [Some(left), Some(right)] = sides else { return ended(false, links) };
    if left.symbol != right.symbol && !rules.has(Fault::CongSymbolsDiffer) {
        return ended(false, links);
    }
    let (mut left, mut right, mut premises) = (left.arguments, right.arguments, step.premises);
    if rules.has(Fault::CongLengthsFirst)
        && [right, premises].iter().any(|&start| lists.length(start) != lists.length(left))
    {
        return ended(false, links);
    }
    while left != 0 && right != 0 && premises != 0 {
        if rules.has(Fault::CongEndsAtSharedLink) && left == right {
            return ended(true, links);
        }
        let [[from, next_left], [to, next_right], [premise, next]] =
            [left, right, premises].map(|start| lists.link(start));
        let premise = steps.get(premise as usize).unwrap_or(&NO_STEP);
        let carries = (same_context(premise.context, step.context)
            || rules.has(Fault::CongContextsDiffer))
            && premise.left == from
            && (premise.right == to || rules.has(Fault::CongRightUnread));
        if !carries && rules.has(Fault::CongLastPositionUncounted) {
            return ended(false, links);
        }
        links += if rules.has(Fault::CongPremisesUncounted) {
            2
        } else if rules.has(Fault::CongRightWalkedTwice) {
            4
        } else {
            3
        };
        if !carries {
            return ended(false, links);
        }
        (left, right, premises) = (next_left, next_right, next);
    }
    let arguments_end = left == 0 && right == 0 || rules.has(Fault::CongPremiseMissing);
    ended(arguments_end && premises == 0, links)
}

struct Checker<'a, R> {
    rules: R,
    tables: &'a Tables,
    contexts: &'a Contexts,
    /// Index 0 is no step.
    steps: Vec<Step>,
    /// For the walks of REFL.
    binders: Binders,
    /// Pairs of the last REFL that was walked.
    pairs: u32,
}

impl<'a, R: Rules> Checker<'a, R> {
    fn new(rules: R, tables: &'a Tables, contexts: &'a Contexts, steps: Vec<Step>) -> Self {
        Checker { rules, tables, contexts, steps, binders: Binders::default(), pairs: 0 }
    }

    fn step(&mut self, number: u32, step: Step) -> Result<(), Reason> {
        if self.rules.has(Fault::StrayBeforeStep) && self.has_sides(&step) {
            require(self.in_scope(&step), Reason::Stray)?;
        }
        if !self.references_sound(number, &step) {
            return Err(Reason::Step);
        }
        self.steps[number as usize] = step;
        if !self.in_scope(&step) && !self.stray_comes_later(&step) {
            return Err(Reason::Stray);
        }
        self.follows(&step)
    }

    /// Refusals 21, 13 and 14.
    fn follows(&mut self, step: &Step) -> Result<(), Reason> {
        match step.rule {
            REFL => self.refl(step),
            // Only `links` asks for the count: here the compiler may leave it out, as it
            // does in the proved library.
            CONG => require(self.cong(step).passes, Reason::Rule),
            TRANS => self.trans(step),
            BIND => self.bind(step),
            LET => require(self.let_(step), Reason::Rule),
            _ => {
                let is_side = self.rules.has(Fault::SkoFailureIsSide);
                require(self.sko(step), if is_side { Reason::Side } else { Reason::Rule })
            }
        }
    }

    fn has_sides(&self, step: &Step) -> bool {
        let terms = &self.tables.terms;
        step.context <= self.contexts.count()
            && terms.is_term(step.left)
            && terms.is_term(step.right)
    }

    /// Whether the context mentions every free variable of both sides (Req 05).
    fn in_scope(&self, step: &Step) -> bool {
        let Checker { rules, contexts, .. } = *self;
        let left =
            if rules.has(Fault::StrayLeftUnread) { Set::EMPTY } else { self.free(step.left) };
        let right =
            if rules.has(Fault::StrayRightUnread) { Set::EMPTY } else { self.free(step.right) };
        let mentioned = if rules.has(Fault::AnyContextMentions) {
            contexts.mentioned_anywhere()
        } else {
            contexts.mentioned(step.context)
        };
        let free = left.union(right);
        if rules.has(Fault::StrayFirstWord) {
            return free.words()[0] & !mentioned.words()[0] == 0;
        }
        free.within(mentioned)
            || rules.has(Fault::StrayUnread)
            || rules.has(Fault::StrayInReflOnly) && step.rule != REFL
            || rules.has(Fault::EmptyContextNeverStray) && step.context == 0
            || rules.has(Fault::StrayInEmptyContextOnly) && step.context != 0
    }

    /// Whether a fault has another refusal of a step come before 22.
    fn stray_comes_later(&mut self, step: &Step) -> bool {
        let before: &[Reason] = if self.rules.has(Fault::SpentBeforeStray) {
            &[Reason::Spent]
        } else if self.rules.has(Fault::RuleBeforeStray) {
            &[Reason::Spent, Reason::Rule]
        } else if self.rules.has(Fault::SideBeforeStray) {
            &[Reason::Spent, Reason::Rule, Reason::Side]
        } else {
            return false;
        };
        self.follows(step).is_err_and(|reason| before.contains(&reason))
    }

    fn references_sound(&self, number: u32, step: &Step) -> bool {
        let Tables { lists, terms, .. } = self.tables;
        let largest = if self.rules.has(Fault::PremiseOfItself) { number } else { number - 1 };
        (REFL..=SKO_FOR_ALL).contains(&step.rule)
            && step.context <= self.contexts.count()
            && terms.is_term(step.left)
            && terms.is_term(step.right)
            && lists.starts(step.premises)
            && lists.within(step.premises, largest)
            && !(self.rules.has(Fault::LastContextRefused)
                && step.context == self.contexts.count().max(1))
            && !(self.rules.has(Fault::LastTermRefused) && step.right == terms.count())
            && match (step.rule, lists.length(step.premises)) {
                (REFL, count) => count == 0 || self.rules.has(Fault::ReflPremisesTaken),
                (TRANS, count) => {
                    count == 2 || self.rules.has(Fault::SparePremiseOfTransTaken) && count > 2
                }
                (BIND, count) => count == 1,
                (SKO_EXISTS | SKO_FOR_ALL, count) => {
                    count == 1
                        || self.rules.has(Fault::SkoCountIsFalse)
                        || self.rules.has(Fault::SkoSparePremiseTaken) && count > 1
                }
                (CONG, count) if self.rules.has(Fault::CongCountIsBadStep) => {
                    match terms.get(step.left).term {
                        Term::Application { arguments, .. } => count == lists.length(arguments),
                        _ => true,
                    }
                }
                (LET, count) if self.rules.has(Fault::LetCountIsBadStep) => {
                    match terms.get(step.left).term {
                        Term::Let { bounds, .. } => count == lists.length(bounds) + 1,
                        _ => true,
                    }
                }
                _ => true,
            }
    }

    fn free(&self, term: u32) -> Set {
        self.tables.terms.free(self.rules, term)
    }

    fn is_free(&self, variable: u32, term: u32) -> bool {
        self.tables.terms.is_free(self.rules, variable, term)
    }

    fn settled(&self, context: u32, term: u32) -> bool {
        self.contexts.settled(self.rules, context, self.free(term))
    }

    /// Contexts are compared by number.
    fn same_context(&self, one: u32, other: u32) -> bool {
        one == other
            || self.rules.has(Fault::ContextsByValue)
                && self.contexts.equal(self.tables, one, other)
    }

    /// Document 01's two forms first: they take no pairs. Then the walk.
    fn refl(&mut self, step: &Step) -> Result<(), Reason> {
        let stays = self.stays(step);
        if stays || self.takes_image(step) {
            if !stays && self.rules.has(Fault::ReflWithoutImages) {
                return Err(Reason::Rule);
            }
            if self.rules.has(Fault::OldFormsCounted) {
                self.pairs = 1;
            } else if self.rules.has(Fault::OldFormsClear) {
                self.pairs = 0;
            }
            return Ok(());
        }
        self.whole(step)
    }

    /// Both sides are one settled term.
    fn stays(&self, step: &Step) -> bool {
        step.left == step.right
            && (self.settled(step.context, step.left) || self.rules.has(Fault::ReflUnsettledTaken))
    }

    /// Left is a variable and right its image.
    fn takes_image(&self, step: &Step) -> bool {
        match self.tables.terms.get(step.left).term {
            Term::Variable(variable) => {
                self.contexts.image(step.context, variable).unwrap_or(step.left) == step.right
            }
            _ => false,
        }
    }

    /// Right is left with its free variables replaced, up to the names of binders in left.
    fn whole(&mut self, step: &Step) -> Result<(), Reason> {
        let Checker { rules, tables, contexts, .. } = *self;
        let sides = [step.left, step.right];
        let walk = whole::walk(rules, tables, contexts, &mut self.binders, step.context, sides);
        match walk.ending {
            Ending::Same if rules.has(Fault::WholeTermsRefused) => Err(Reason::Rule),
            Ending::Same => {
                if rules.has(Fault::WalksAdded) {
                    self.pairs += walk.pairs;
                } else if !(rules.has(Fault::FirstWalkCounts) && self.pairs != 0) {
                    self.pairs = walk.pairs;
                }
                Ok(())
            }
            Ending::Differs if rules.has(Fault::ReflFailureIsSide) => Err(Reason::Side),
            Ending::Spent if !rules.has(Fault::SpentIsRule) => Err(Reason::Spent),
            _ => Err(Reason::Rule),
        }
    }

    #[inline(always)]
    fn cong(&self, step: &Step) -> Walk {
        let Tables { lists, terms, .. } = self.tables;
        let sides = [step.left, step.right].map(|side| match terms.get(side).term {
            Term::Application { symbol, arguments } => Some(Side { symbol, arguments }),
            _ => None,
        });
        let same_context = |one, other| self.same_context(one, other);
        cong_walk(self.rules, lists, &self.steps, step, sides, same_context)
    }

    fn trans(&self, step: &Step) -> Result<(), Reason> {
        let mut premises =
            self.tables.lists.values(step.premises).map(|number| self.steps[number as usize]);
        let (Some(first), Some(second)) = (premises.next(), premises.next()) else {
            return Err(Reason::Rule);
        };
        let middle = first.right;
        let context = |premise: &Step| self.same_context(premise.context, step.context);
        let joined = (context(&first) || self.rules.has(Fault::TransFirstContextUnread))
            && (context(&second) || self.rules.has(Fault::TransSecondContextUnread))
            && first.left == step.left
            && (middle == second.left || self.rules.has(Fault::TransMiddlesDiffer))
            && second.right == step.right;
        let settled =
            self.settled(step.context, middle) || self.rules.has(Fault::TransMiddleUnsettled);
        if self.rules.has(Fault::SideBeforeRule) {
            require(settled, Reason::Side)?;
        }
        require(joined, Reason::Rule)?;
        require(settled, Reason::Side)
    }

    fn bind(&self, step: &Step) -> Result<(), Reason> {
        let Tables { lists, terms, .. } = self.tables;
        let left = terms.get(step.left);
        let (
            Term::Binder { binder, variable: x, body },
            Term::Binder { binder: other, variable: y, body: result },
        ) = (left.term, terms.get(step.right).term)
        else {
            return Err(Reason::Rule);
        };
        let Some(premise) = lists.single(step.premises).map(|number| self.steps[number as usize])
        else {
            return Err(Reason::Rule);
        };
        let renames = self.contexts.get(premise.context);
        let fixes = self.contexts.get(renames.parent);
        let replaces_x_by_y = match renames.entry {
            Entry::Replaces { variables, terms: replacements } => {
                let replacement = lists.split(replacements).map(|(term, _)| terms.get(term).term);
                let alone = lists.length(variables) == 1 || self.rules.has(Fault::BindReplacesMore);
                alone
                    && lists.split(variables).is_some_and(|(variable, _)| variable == x)
                    && replacement == Some(Term::Variable(y))
            }
            _ => false,
        };
        let fixes_y = match fixes.entry {
            Entry::Fixes(variable) => variable == y || self.rules.has(Fault::BindFixesAny),
            _ => false,
        };
        let follows = self.same_kind(binder, other)
            && !(self.rules.has(Fault::BindSameNameRefused) && x == y)
            && premise.left == body
            && (premise.right == result || self.rules.has(Fault::BindBodyUnread))
            && replaces_x_by_y
            && (fixes_y
                && (self.same_context(fixes.parent, step.context)
                    || self.rules.has(Fault::BindParentUnread))
                || self.rules.has(Fault::BindWithoutFixing) && renames.parent == step.context);
        let sides = self.bind_sides(step.context, self.free(step.left), y)
            && !(self.rules.has(Fault::BindNameInBody) && self.is_free(y, body));
        if self.rules.has(Fault::SideBeforeRule) {
            require(sides, Reason::Side)?;
        }
        require(follows, Reason::Rule)?;
        require(sides, Reason::Side)
    }

    /// Whether the two sides of BIND have one kind.
    #[inline(always)]
    fn same_kind(&self, binder: Binder, other: Binder) -> bool {
        if binder == other {
            return binder != Binder::Choice || !self.rules.has(Fault::BindChoiceRefused);
        }
        let is_choice = binder == Binder::Choice || other == Binder::Choice;
        self.rules.has(Fault::BindKindsDiffer) && !is_choice
            || self.rules.has(Fault::BindChoiceMeetsQuantifier) && is_choice
    }

    /// `y` is free neither in the term nor in the image of any of its free
    /// variables. A variable that is not moved is its own image.
    fn bind_sides(&self, context: u32, free: Set, y: u32) -> bool {
        if free.has(member(self.rules, y)) && !self.rules.has(Fault::BindNameUnread) {
            return false;
        }
        if self.rules.has(Fault::BindImagesUnread) {
            return true;
        }
        let mut moved = self.contexts.moved(context);
        if !self.rules.has(Fault::BindAllImagesRead) {
            moved = moved.intersection(free);
        }
        if self.rules.has(Fault::BindImagesFirstWord) {
            moved = moved.intersection((1..=OLD_VARIABLES).collect());
        }
        !moved.members().any(|variable| {
            self.contexts.image(context, variable).is_some_and(|image| self.is_free(y, image))
        })
    }

    /// SKO for the rule's quantifier: the premise carries its body to the right side where its
    /// variable alone is replaced by the choice that takes its place.
    fn sko(&self, step: &Step) -> bool {
        let Tables { lists, terms, .. } = self.tables;
        let quantifier = if step.rule == SKO_EXISTS { Binder::Exists } else { Binder::ForAll };
        let Term::Binder { binder, variable: x, body } = terms.get(step.left).term else {
            return false;
        };
        let Some((premise, _)) = lists.split(step.premises) else { return false };
        let premise = &self.steps[premise as usize];
        let context = self.contexts.get(premise.context);
        let replaces_x = match context.entry {
            Entry::Replaces { variables, terms: replacements } => {
                let alone = lists.length(variables) == 1 || self.rules.has(Fault::SkoReplacesMore);
                let first = |list| lists.split(list).map_or(0, |(value, _)| value);
                alone
                    && (first(variables) == x || self.rules.has(Fault::SkoReplacesAnother))
                    && self.takes_place(first(replacements), quantifier, x, body)
            }
            _ => false,
        };
        let quantified = binder == quantifier
            || self.rules.has(Fault::SkoTakesEitherQuantifier) && binder != Binder::Choice
            || self.rules.has(Fault::SkoTakesChoice)
                && (quantifier, binder) == (Binder::Exists, Binder::Choice);
        quantified
            && (premise.left == body || self.rules.has(Fault::SkoBodyUnread))
            && (premise.right == step.right || self.rules.has(Fault::SkoRightUnread))
            && (replaces_x || self.rules.has(Fault::SkoContextUnread))
            && (self.same_context(context.parent, step.context)
                || self.rules.has(Fault::SkoParentUnread))
    }

    /// Whether a term is the choice of `x` that takes its place where the quantifier binds it in
    /// the body: in the body for an exists, in its negation for a for-all.
    fn takes_place(&self, term: u32, quantifier: Binder, x: u32, body: u32) -> bool {
        let Tables { lists, terms, .. } = self.tables;
        let Term::Binder { binder: Binder::Choice, variable, body: inner } = terms.get(term).term
        else {
            return self.rules.has(Fault::SkoTakesAnyTerm);
        };
        let negated = || match terms.get(inner).term {
            Term::Application { symbol, arguments } => {
                let not = symbol == NOT
                    || self.rules.has(Fault::SkoAnySymbolNegates) && lists.length(arguments) == 1;
                not && (lists.single(arguments) == Some(body)
                    || self.rules.has(Fault::SkoNegatesAnother))
            }
            _ => false,
        };
        let plain = match quantifier {
            Binder::ForAll => self.rules.has(Fault::SkoForAllWithoutNot),
            _ => !self.rules.has(Fault::SkoExistsWithNot),
        };
        (variable == x || self.rules.has(Fault::SkoOfAnotherVariable))
            && (if plain { inner == body } else { negated() }
                || self.rules.has(Fault::SkoOfAnyBody))
    }

    fn let_(&self, step: &Step) -> bool {
        let Tables { lists, terms, .. } = self.tables;
        let Term::Let { variables, bounds, body } = terms.get(step.left).term else {
            return false;
        };
        if lists.length(step.premises) != lists.length(bounds) + 1 {
            return false;
        }
        let steps = |start| lists.values(start).map(|number| &self.steps[number as usize]);
        let carried = || steps(step.premises).take(lists.length(bounds) as usize);
        let Some(last) = steps(step.premises).last() else { return false };
        let context = self.contexts.get(last.context);
        let Entry::Replaces { variables: replaced, terms: replacements } = context.entry else {
            return false;
        };
        let same_variables = if self.rules.has(Fault::LetVariablesByStart) {
            replaced == variables
        } else {
            lists.class(replaced) == lists.class(variables)
        };
        let same_terms = lists.values(replacements).eq(carried().map(|premise| premise.right));
        let in_order = same_variables && same_terms
            || self.rules.has(Fault::LetOrderIgnored)
                && as_set(lists.values(replaced)) == as_set(lists.values(variables))
                && as_set(lists.values(replacements))
                    == as_set(carried().map(|premise| premise.right));
        lists.values(bounds).zip(carried()).all(|(bound, premise)| {
            (self.same_context(premise.context, step.context)
                || self.rules.has(Fault::LetBoundContextsDiffer))
                && (premise.left == bound || self.rules.has(Fault::LetBoundsUnread))
        }) && last.left == body
            && (last.right == step.right || self.rules.has(Fault::LetRightUnread))
            && (self.same_context(context.parent, step.context)
                || self.rules.has(Fault::LetParentUnread))
            && (in_order || self.rules.has(Fault::LetReplacementsUnread) && same_variables)
    }
}

fn as_set(values: impl Iterator<Item = u32>) -> Vec<u32> {
    let mut values: Vec<u32> = values.collect();
    values.sort_unstable();
    values
}

fn require(holds: bool, otherwise: Reason) -> Result<(), Reason> {
    if holds { Ok(()) } else { Err(otherwise) }
}
