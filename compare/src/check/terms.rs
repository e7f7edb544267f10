//! Terms (refusals 7 to 9), their sorts and free variables.

use super::signature::{Arguments, Profile};
use super::word_map::WordMap;
use super::{Lists, Signature, Sort, first_refusal, member};
use crate::answer::{Reason, Refusal};
use crate::bundle::SET_WORDS;
use crate::fault::{Fault, Rules};
use crate::set::Set;

/// A term record; lists are given by their start. The tag has a place of its own: kept in the
/// unused values of a binder, it makes REFL's walk nearly a tenth slower.
#[derive(Clone, Copy, Debug, PartialEq, Eq)]
#[repr(u32)]
pub enum Term {
    Variable(u32),
    Application { symbol: u32, arguments: u32 },
    Binder { binder: Binder, variable: u32, body: u32 },
    Let { variables: u32, bounds: u32, body: u32 },
}

#[derive(Clone, Copy, Debug, PartialEq, Eq)]
pub enum Binder {
    ForAll,
    Exists,
    Choice,
}

impl Binder {
    /// The binder of a term's kind.
    fn of_kind(kind: u32) -> Option<Self> {
        match kind {
            3 => Some(Binder::ForAll),
            4 => Some(Binder::Exists),
            6 => Some(Binder::Choice),
            _ => None,
        }
    }

    pub fn kind(self) -> u32 {
        match self {
            Binder::ForAll => 3,
            Binder::Exists => 4,
            Binder::Choice => 6,
        }
    }
}

#[derive(Clone, Copy, Debug)]
pub struct Known {
    pub term: Term,
    pub sort: Sort,
    /// Its free variables, by their number among the sets.
    free: u32,
}

const UNKNOWN: Known = Known { term: Term::Variable(0), sort: Sort::Truth, free: NONE };

/// A term by value: kind and fields, lists by their class.
pub type Key = [u32; 4];

#[derive(Debug)]
pub struct Terms {
    /// Index 0 is no term.
    known: Vec<Known>,
    sets: Sets,
}

/// Sets of variables by number, so that terms and lists with equal ones often share one.
#[derive(Debug)]
struct Sets(Vec<Set>);

/// The number of the empty set.
const NONE: u32 = 0;

impl Sets {
    /// The empty set, and room for so many others.
    fn with_capacity(others: usize) -> Self {
        let mut sets = Vec::with_capacity(others + 1);
        sets.push(Set::EMPTY);
        Sets(sets)
    }

    fn get(&self, number: u32) -> &Set {
        &self.0[number as usize]
    }

    fn add(&mut self, set: Set) -> u32 {
        self.0.push(set);
        self.0.len() as u32 - 1
    }

    fn union(&mut self, one: u32, other: u32) -> u32 {
        if one == other || other == NONE {
            return one;
        }
        if one == NONE {
            return other;
        }
        let union = self.get(one).union(*self.get(other));
        if union == *self.get(one) { one } else { self.add(union) }
    }

    /// The set without a variable.
    fn but(&mut self, number: u32, variable: u32) -> u32 {
        let set = self.get(number);
        if set.has(variable) { self.add(set.but(variable)) } else { number }
    }
}

impl Terms {
    pub fn decode<R: Rules>(
        rules: R,
        records: &[[u32; 4]],
        signature: &Signature,
        lists: &Lists,
    ) -> Result<(Self, WordMap<4>), Refusal> {
        let mut decoder = Decoder {
            rules,
            signature,
            lists,
            terms: Terms {
                known: vec![UNKNOWN; records.len() + 1],
                sets: Sets::with_capacity(records.len()),
            },
            numbers: WordMap::with_capacity(records.len()),
            seen: vec![Seen::default(); lists.count() + 1],
            pending: Vec::new(),
        };
        first_refusal(rules, records.iter(), |number, &record| decoder.term(number, record))?;
        Ok((decoder.terms, decoder.numbers))
    }

    pub fn count(&self) -> u32 {
        self.known.len() as u32 - 1
    }

    pub fn is_term(&self, number: u32) -> bool {
        (1..=self.count()).contains(&number)
    }

    pub fn get(&self, number: u32) -> &Known {
        &self.known[number as usize]
    }

    /// The free variables of each term, from term 1.
    pub fn free_sets(&self) -> impl Iterator<Item = &Set> {
        self.known[1..].iter().map(|known| self.sets.get(known.free))
    }

    /// The free variables of a term, as the rules read them.
    pub fn free<R: Rules>(&self, rules: R, number: u32) -> Set {
        if rules.has(Fault::SetsReadClose) {
            let first = number as usize - 1;
            return Set::from_words(std::array::from_fn(|word| {
                let place = first + word;
                let set = self.known[1 + place / SET_WORDS].free;
                self.sets.get(set).words()[place % SET_WORDS]
            }));
        }
        *self.sets.get(self.get(number).free)
    }

    /// Whether a term is known to have no free variable without a look at its set.
    #[inline(always)]
    pub fn plainly_closed(&self, number: u32) -> bool {
        self.get(number).free == NONE
    }

    /// Whether a variable is free in a term; one word of its set is looked at.
    pub fn is_free<R: Rules>(&self, rules: R, variable: u32, number: u32) -> bool {
        let variable = member(rules, variable);
        if rules.has(Fault::SetsReadClose) {
            return self.free(rules, number).has(variable);
        }
        self.sets.get(self.get(number).free).has(variable)
    }
}

/// What is known of the list of terms that starts at a link.
#[derive(Clone, Copy, Debug, Default)]
struct Seen {
    /// Class of the list of sorts that its terms have, 0 where not seen yet.
    sorts: u32,
    /// Free variables of its terms together, as their number among the sets and 1; 0
    /// where not known.
    free: u32,
}

struct Decoder<'a, R> {
    rules: R,
    signature: &'a Signature,
    lists: &'a Lists,
    terms: Terms,
    /// The number of each term by value.
    numbers: WordMap<4>,
    seen: Vec<Seen>,
    /// Links of a walk not yet summed up; empty between walks.
    pending: Vec<u32>,
}

impl<R: Rules> Decoder<'_, R> {
    /// References first (7), then counts and sorts (8), then equality (9).
    fn term(&mut self, number: u32, record: [u32; 4]) -> Result<(), Reason> {
        let term = self.shape(number, record).ok_or(Reason::Term)?;
        let sort = self.sort(term).ok_or(Reason::Typing)?;
        if !self.rules.has(Fault::DuplicatesTaken)
            && self.numbers.insert(self.key(term, record), number).is_some()
        {
            return Err(Reason::Duplicate);
        }
        let free = self.free(term);
        self.terms.known[number as usize] = Known { term, sort, free };
        Ok(())
    }

    fn shape(&self, number: u32, record: [u32; 4]) -> Option<Term> {
        let Decoder { signature, lists, .. } = self;
        let largest = if self.rules.has(Fault::TermOfItself) { number } else { number - 1 };
        let lower = |term: u32| (1..=largest).contains(&term);
        match record {
            [1, variable, 0, 0] => {
                signature.is_variable(variable).then_some(Term::Variable(variable))
            }
            [1, variable, _, 0] if self.rules.has(Fault::UnusedFieldTaken) => {
                signature.is_variable(variable).then_some(Term::Variable(variable))
            }
            [2, symbol, arguments, 0] => {
                let sound = (signature.symbol(symbol).is_some()
                    || self.rules.has(Fault::ReservedSymbolTaken) && symbol == 9)
                    && lists.starts(arguments)
                    && self.terms_within(symbol, arguments, largest);
                sound.then_some(Term::Application { symbol, arguments })
            }
            [kind @ (3 | 4 | 6), variable, body, 0] => {
                let binder = Binder::of_kind(kind)?;
                let sound = signature.is_variable(variable) && lower(body);
                sound.then_some(Term::Binder { binder, variable, body })
            }
            [5, variables, bounds, body] => {
                let sound = lists.starts(variables)
                    && lists.starts(bounds)
                    && lists.within(variables, signature.variable_count())
                    && lists.within(bounds, largest)
                    && lower(body);
                sound.then_some(Term::Let { variables, bounds, body })
            }
            _ => None,
        }
    }

    fn terms_within(&self, symbol: u32, arguments: u32, largest: u32) -> bool {
        if self.rules.has(Fault::ArgumentsPastCountUnread) {
            let count = match self.signature.symbol(symbol).map(|profile| profile.arguments) {
                Some(Arguments::BuiltIn(sorts)) => sorts.len(),
                Some(Arguments::Declared(sorts)) => self.lists.length(sorts) as usize,
                None => 0,
            };
            return self
                .lists
                .values(arguments)
                .take(count)
                .all(|term| (1..=largest).contains(&term));
        }
        self.lists.within(arguments, largest)
    }

    fn sort(&mut self, term: Term) -> Option<Sort> {
        match term {
            Term::Variable(variable) => Some(self.signature.variable(variable)),
            Term::Application { symbol, arguments } => {
                let Some(Profile { result, arguments: sorts }) = self.signature.symbol(symbol)
                else {
                    return Some(Sort::Truth); // a fault let symbol 9 come here
                };
                let fits = match sorts {
                    Arguments::BuiltIn(sorts) => self.fit_built_in(arguments, sorts),
                    Arguments::Declared(sorts) => self.fit_declared(arguments, sorts),
                };
                fits.then_some(result)
            }
            Term::Binder { binder, variable, body } => {
                let own = self.signature.variable(variable);
                let is_choice = binder == Binder::Choice;
                let sound = self.terms.get(body).sort == Sort::Truth
                    || self.rules.has(Fault::BodySortUnread)
                    || is_choice && self.rules.has(Fault::ChoiceBodySortUnread);
                let exempt = own == Sort::Truth
                    && self.rules.has(if is_choice {
                        Fault::TruthChoiceRefused
                    } else {
                        Fault::TruthQuantifierRefused
                    });
                let sort = if is_choice && !self.rules.has(Fault::ChoiceIsTruth) {
                    own
                } else {
                    Sort::Truth
                };
                (sound && !exempt).then_some(sort)
            }
            Term::Let { variables, bounds, body } => {
                let least = u32::from(!self.rules.has(Fault::EmptyLetTaken));
                pairs_fit(
                    self.rules,
                    self.lists,
                    self.signature,
                    &self.terms,
                    variables,
                    bounds,
                    least,
                )
                .then(|| self.terms.get(body).sort)
            }
        }
    }

    fn fit_built_in(&self, arguments: u32, sorts: &[Sort]) -> bool {
        self.lists.length(arguments) as usize == sorts.len()
            && self
                .lists
                .values(arguments)
                .zip(sorts)
                .all(|(term, &sort)| self.terms.get(term).sort == sort)
    }

    /// Whether the arguments have the declared sorts, one each.
    fn fit_declared(&mut self, arguments: u32, sorts: u32) -> bool {
        let (given, wanted) = (self.lists.length(arguments), self.lists.length(sorts));
        let same_count =
            given == wanted || self.rules.has(Fault::SpareArgumentTaken) && given == wanted + 1;
        if !same_count {
            return false;
        }
        if self.rules.has(Fault::ArgumentSortsIgnored) {
            return true;
        }
        let (mut arguments, mut sorts) = (arguments, sorts);
        while let (Some((term, other_arguments)), Some((sort, other_sorts))) =
            (self.lists.split(arguments), self.lists.split(sorts))
        {
            let class = self.lists.class(sorts);
            match self.seen[arguments as usize].sorts {
                0 if self.terms.get(term).sort.word() != sort => return false,
                // A mismatch further on ends the check, so this is not read then.
                0 => self.seen[arguments as usize].sorts = class,
                known => return known == class,
            }
            (arguments, sorts) = (other_arguments, other_sorts);
        }
        true
    }

    fn key(&self, term: Term, record: [u32; 4]) -> Key {
        if self.rules.has(Fault::DuplicatesByStart) {
            return record;
        }
        match term {
            Term::Variable(variable) => [1, variable, 0, 0],
            Term::Application { symbol, arguments } => [2, symbol, self.lists.class(arguments), 0],
            Term::Binder { variable, body, .. } => [
                match record[0] {
                    4 if self.rules.has(Fault::QuantifiersAlike) => 3,
                    6 if self.rules.has(Fault::ChoiceEqualsExists) => 4,
                    kind => kind,
                },
                variable,
                body,
                0,
            ],
            Term::Let { variables, bounds, body } => {
                [5, self.lists.class(variables), self.lists.class(bounds), body]
            }
        }
    }

    /// The free variables of a new term, by their number among the sets.
    fn free(&mut self, term: Term) -> u32 {
        let rules = self.rules;
        match term {
            Term::Variable(variable) => self.terms.sets.add(Set::of(member(rules, variable))),
            Term::Application { arguments, .. } => self.free_of_list(arguments),
            Term::Binder { binder, variable, body } => {
                let body = self.free_of(body);
                if rules.has(Fault::QuantifierBindsNothing) && binder != Binder::Choice
                    || rules.has(Fault::ChoiceBindsNothing) && binder == Binder::Choice
                {
                    body
                } else {
                    self.terms.sets.but(body, member(rules, variable))
                }
            }
            Term::Let { variables, bounds, body } => {
                let own: Set =
                    self.lists.values(variables).map(|variable| member(rules, variable)).collect();
                let bounds = self.free_of_list(bounds);
                let body = self.free_of(body);
                let sets = &mut self.terms.sets;
                if rules.has(Fault::LetBindsItsBounds) {
                    let both = sets.get(body).union(*sets.get(bounds));
                    sets.add(both.without(own))
                } else {
                    let inside = sets.get(body).without(own);
                    sets.add(inside.union(*sets.get(bounds)))
                }
            }
        }
    }

    /// The free variables of a term that is there.
    fn free_of(&mut self, term: u32) -> u32 {
        if self.rules.has(Fault::SetsReadClose) {
            let set = self.terms.free(self.rules, term);
            return self.terms.sets.add(set);
        }
        self.terms.get(term).free
    }

    /// The free variables of a list's terms: walks to the first link already
    /// summed up, then back.
    fn free_of_list(&mut self, start: u32) -> u32 {
        let mut rest = start;
        while let Some((_, next)) = self.lists.split(rest) {
            if self.seen[rest as usize].free != 0 {
                break;
            }
            self.pending.push(rest);
            rest = next;
        }
        let mut free = self.seen[rest as usize].free.saturating_sub(1);
        while let Some(link) = self.pending.pop() {
            if let Some((term, _)) = self.lists.split(link) {
                let term = self.free_of(term);
                free = self.terms.sets.union(term, free);
            }
            self.seen[link as usize].free = free + 1;
        }
        free
    }
}

/// What a let and a replacing context ask of their lists: at least one variable
/// (`least`), all different, as many terms, of the same sorts. The values are
/// known to be in range.
pub(super) fn pairs_fit<R: Rules>(
    rules: R,
    lists: &Lists,
    signature: &Signature,
    terms: &Terms,
    variables: u32,
    bounds: u32,
    least: u32,
) -> bool {
    let count = lists.length(variables);
    let same_count = count == lists.length(bounds)
        || rules.has(Fault::SpareBoundTaken) && count + 1 == lists.length(bounds);
    if count < least || !same_count {
        return false;
    }
    let mut seen = Set::EMPTY;
    lists.values(variables).zip(lists.values(bounds)).all(|(variable, bound)| {
        let repeated = seen.has(member(rules, variable));
        seen.insert(member(rules, variable));
        (!repeated || rules.has(Fault::RepeatsTaken))
            && (signature.variable(variable) == terms.get(bound).sort
                || rules.has(Fault::PairSortsIgnored))
    })
}
