//! Sorts and counts of what a text says (refusal 8). They are judged beside the
//! grammar, and the verdict is asked for only when the whole text has been read.

use crate::check::{Arguments, Lists, Profile, Signature, Sort};
use crate::fault::{Fault, Rules};

#[derive(Debug)]
pub struct Sorts<'a, R> {
    rules: R,
    signature: &'a Signature,
    lists: &'a Lists,
    /// No fault so far.
    pub sound: bool,
}

/// The argument sorts that a declared symbol still asks for.
#[derive(Clone, Copy, Debug)]
pub struct Rest(u32);

impl<'a, R: Rules> Sorts<'a, R> {
    pub fn new(rules: R, signature: &'a Signature, lists: &'a Lists) -> Self {
        Sorts { rules, signature, lists, sound: true }
    }

    pub fn variable(&self, variable: u32) -> Sort {
        self.signature.variable(variable)
    }

    /// Result sort and argument sorts of a declared symbol.
    pub fn symbol(&self, symbol: u32) -> (Sort, Rest) {
        match self.signature.symbol(symbol) {
            Some(Profile { result, arguments: Arguments::Declared(sorts) }) => {
                (result, Rest(sorts))
            }
            _ => (Sort::Truth, Rest(0)),
        }
    }

    /// A term of this sort is the next argument.
    pub fn argument(&mut self, rest: Rest, sort: Sort) -> Rest {
        match self.lists.split(rest.0) {
            Some((due, others)) => {
                self.sound &= due == sort.word();
                Rest(others)
            }
            None => {
                self.sound &= self.rules.has(Fault::SpareReadArgumentTaken);
                rest
            }
        }
    }

    /// There are no more arguments.
    pub fn no_more(&mut self, rest: Rest) {
        self.sound &= rest.0 == 0 || self.rules.has(Fault::MissingReadArgumentTaken);
    }

    pub fn truth(&mut self, sort: Sort) {
        self.sound &= sort == Sort::Truth;
    }

    pub fn same(&mut self, one: Sort, other: Sort) {
        self.sound &= one == other;
    }

    /// A let's variable that stands in it already.
    pub fn repeated(&mut self) {
        self.sound &= self.rules.has(Fault::LetRepeatsTaken);
    }
}
