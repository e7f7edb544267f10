//! Contexts (refusals 10 and 11) and the images of variables in them.

use super::terms::{Binder, Term, pairs_fit};
use super::{Tables, first_refusal, member};
use crate::answer::{Reason, Refusal};
use crate::bundle::Section;
use crate::fault::{Fault, Rules};
use crate::set::Set;

#[derive(Clone, Copy, Debug, PartialEq, Eq)]
pub enum Entry {
    /// The empty context, number 0.
    Empty,
    Fixes(u32),
    /// Lists of variables and of terms, by their starts.
    Replaces {
        variables: u32,
        terms: u32,
    },
}

#[derive(Clone, Copy, Debug)]
pub struct Context {
    pub entry: Entry,
    pub parent: u32,
    /// The variables whose image is another term.
    moved: Set,
    /// The variables that this entry or one towards the empty context fixes or replaces.
    mentioned: Set,
}

const EMPTY: Context =
    Context { entry: Entry::Empty, parent: 0, moved: Set::EMPTY, mentioned: Set::EMPTY };

#[derive(Debug)]
pub struct Contexts {
    /// Index 0 is the empty context.
    contexts: Vec<Context>,
    /// A row for each context, a place for each variable: the image's term, or
    /// 0 where no entry replaces the variable. 16 bits hold any term's number.
    images: Vec<u16>,
    /// Places in a row.
    width: usize,
}

impl Contexts {
    pub fn decode<R: Rules>(rules: R, tables: &Tables) -> Result<Self, Refusal> {
        let records = tables.section(Section::Contexts).as_chunks::<4>().0;
        let width = tables.signature.variable_count() as usize;
        let mut contexts = Contexts {
            contexts: Vec::with_capacity(records.len() + 1),
            images: Vec::with_capacity((records.len() + 1) * width),
            width,
        };
        contexts.contexts.push(EMPTY);
        contexts.images.resize(width, 0);
        first_refusal(rules, records.iter(), |number, &[kind, first, second, parent]| {
            let own = if rules.has(Fault::ParentOfItself) { number } else { number - 1 };
            let entry = entry(rules, tables, [kind, first, second]).filter(|_| parent <= own);
            let Some(entry) = entry else {
                // Only a fault reads on from here.
                contexts.add(rules, tables, Entry::Empty, 0);
                return Err(Reason::Context);
            };
            let replaced = contexts.add(rules, tables, entry, parent);
            let exempt = rules.has(Fault::UnsettledReplacementTaken)
                || rules.has(Fault::OnlyFirstReplacementSettled) && replaced > 1;
            if replaced != 0 && !exempt { Err(Reason::Unsettled) } else { Ok(()) }
        })?;
        Ok(contexts)
    }

    pub fn count(&self) -> u32 {
        self.contexts.len() as u32 - 1
    }

    pub fn get(&self, number: u32) -> &Context {
        &self.contexts[number as usize]
    }

    /// The term that a variable is replaced by, if an entry replaces it.
    pub fn image(&self, context: u32, variable: u32) -> Option<u32> {
        let term = self.images[context as usize * self.width + variable as usize - 1];
        (term != 0).then_some(term.into())
    }

    /// Whether two contexts have equal entries down to the empty one. Only a fault
    /// asks for it.
    pub fn equal(&self, tables: &Tables, one: u32, other: u32) -> bool {
        let (first, second) = (self.get(one), self.get(other));
        let class = |start| tables.lists.class(start);
        let entries = match (first.entry, second.entry) {
            (
                Entry::Replaces { variables, terms },
                Entry::Replaces { variables: other_variables, terms: other_terms },
            ) => class(variables) == class(other_variables) && class(terms) == class(other_terms),
            (first, second) => first == second,
        };
        entries
            && (one == other
                || one != 0 && other != 0 && self.equal(tables, first.parent, second.parent))
    }

    pub fn moved(&self, context: u32) -> Set {
        self.contexts[context as usize].moved
    }

    pub fn mentioned(&self, context: u32) -> Set {
        self.contexts[context as usize].mentioned
    }

    /// What any context mentions. Only a fault asks for it.
    pub fn mentioned_anywhere(&self) -> Set {
        self.contexts.iter().fold(Set::EMPTY, |all, context| all.union(context.mentioned))
    }

    /// Whether none of these variables is moved.
    pub fn settled<R: Rules>(&self, rules: R, context: u32, free: Set) -> bool {
        disjoint(rules, free, self.moved(context))
    }

    /// Adds an entry above its parent. Answers the place of the first replacing
    /// term that is not settled in the parent, 0 where all are.
    fn add<R: Rules>(&mut self, rules: R, tables: &Tables, entry: Entry, parent: u32) -> usize {
        let number = self.contexts.len();
        // Only a fault lets a context be its own parent: it then has the empty one.
        let above = if (parent as usize) < number { parent as usize } else { 0 };
        let Context { moved: parent_moved, mentioned: above_mentioned, .. } = self.contexts[above];
        self.images.extend_from_within(above * self.width..(above + 1) * self.width);
        let row = &mut self.images[number * self.width..];
        let mut moved = parent_moved;
        let mut mentioned =
            if rules.has(Fault::OwnEntryMentions) { Set::EMPTY } else { above_mentioned };
        let mut unsettled = 0;
        match entry {
            Entry::Empty => {}
            Entry::Fixes(variable) => {
                if !rules.has(Fault::FixingHidesNothing) {
                    row[variable as usize - 1] = 0;
                    moved.remove(member(rules, variable));
                }
                if rules.has(Fault::FixingEndsMention) && mentioned.has(variable) {
                    mentioned.remove(variable);
                } else if !rules.has(Fault::FixedUnmentioned) {
                    mentioned.insert(member(rules, variable));
                }
            }
            Entry::Replaces { variables, terms } => {
                let pairs = || tables.lists.values(variables).zip(tables.lists.values(terms));
                for (place, (variable, term)) in (1..).zip(pairs()) {
                    let term = if rules.has(Fault::ReplacedInTurn) {
                        in_turn(tables, pairs().skip(place), term)
                    } else {
                        term
                    };
                    let known = tables.terms.get(term);
                    let own = known.term == Term::Variable(variable);
                    let free = tables.terms.free(rules, term);
                    if !(rules.has(Fault::ReplacedUnmentioned)
                        || rules.has(Fault::FirstReplacedMentioned) && place > 1
                        || rules.has(Fault::OwnTermUnmentioned) && own)
                    {
                        mentioned.insert(member(rules, variable));
                    }
                    if rules.has(Fault::ReplacementsMention) {
                        mentioned = mentioned.union(free);
                    }
                    let image = &mut row[variable as usize - 1];
                    if rules.has(Fault::OuterReplacementWins) && *image != 0 {
                        continue;
                    }
                    *image = term as u16;
                    if own && !rules.has(Fault::OwnTermMoves) {
                        moved.remove(member(rules, variable));
                    } else {
                        moved.insert(member(rules, variable));
                    }
                    let exempt = rules.has(Fault::UnsettledChoiceTaken)
                        && matches!(known.term, Term::Binder { binder: Binder::Choice, .. });
                    if unsettled == 0 && !disjoint(rules, free, parent_moved) && !exempt {
                        unsettled = place;
                    }
                }
            }
        }
        self.contexts.push(Context { entry, parent, moved, mentioned });
        unsettled
    }
}

/// Whether no variable is in both; a fault looks at the first words alone.
fn disjoint<R: Rules>(rules: R, one: Set, other: Set) -> bool {
    if rules.has(Fault::FirstWordSettled) {
        return one.words()[0] & other.words()[0] == 0;
    }
    one.disjoint(other)
}

/// A fault's reading: a replacement goes on with the pairs after it.
fn in_turn(tables: &Tables, later: impl Iterator<Item = (u32, u32)>, term: u32) -> u32 {
    later.fold(term, |term, (variable, other)| {
        if tables.terms.get(term).term == Term::Variable(variable) { other } else { term }
    })
}

/// Refusal 10 but for the parent.
fn entry<R: Rules>(rules: R, tables: &Tables, record: [u32; 3]) -> Option<Entry> {
    let Tables { lists, signature, terms, .. } = tables;
    match record {
        [1, variable, 0] => signature.is_variable(variable).then_some(Entry::Fixes(variable)),
        [1, variable, _] if rules.has(Fault::FixingFieldTaken) => {
            signature.is_variable(variable).then_some(Entry::Fixes(variable))
        }
        [2, variables, replacements] => {
            let sound = lists.starts(variables)
                && lists.starts(replacements)
                && lists.within(variables, signature.variable_count())
                && lists.within(replacements, terms.count())
                && pairs_fit(rules, lists, signature, terms, variables, replacements, 1);
            sound.then_some(Entry::Replaces { variables, terms: replacements })
        }
        _ => None,
    }
}
