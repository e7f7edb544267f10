//! Sorts, symbols and variables (refusal 6).

use super::{Lists, first_refusal};
use crate::answer::{Reason, Refusal};
use crate::bundle::BUILT_IN;
use crate::fault::{Fault, Rules};

#[derive(Clone, Copy, Debug, Default, PartialEq, Eq)]
pub enum Sort {
    #[default]
    Truth,
    Item,
}

impl Sort {
    pub fn decode(word: u32) -> Option<Self> {
        match word {
            0 => Some(Sort::Truth),
            1 => Some(Sort::Item),
            _ => None,
        }
    }

    pub fn word(self) -> u32 {
        match self {
            Sort::Truth => 0,
            Sort::Item => 1,
        }
    }
}

/// The argument sorts of a symbol.
#[derive(Clone, Copy, Debug)]
pub enum Arguments {
    BuiltIn(&'static [Sort]),
    /// A list of sorts in the file.
    Declared(u32),
}

#[derive(Clone, Copy, Debug)]
pub struct Profile {
    pub result: Sort,
    pub arguments: Arguments,
}

#[derive(Debug)]
pub struct Signature {
    declared: Vec<Profile>,
    variables: Vec<Sort>,
}

impl Signature {
    pub fn decode<R: Rules>(
        rules: R,
        symbols: &[[u32; 2]],
        variables: &[u32],
        lists: &Lists,
    ) -> Result<Self, Refusal> {
        let mut signature = Signature {
            declared: Vec::with_capacity(symbols.len()),
            variables: Vec::with_capacity(variables.len()),
        };
        if rules.has(Fault::VariablesBeforeSymbols) {
            signature.decode_variables(rules, variables)?;
            signature.variables.clear();
        }
        signature.decode_symbols(rules, symbols, lists)?;
        signature.decode_variables(rules, variables)?;
        Ok(signature)
    }

    fn decode_symbols<R: Rules>(
        &mut self,
        rules: R,
        records: &[[u32; 2]],
        lists: &Lists,
    ) -> Result<(), Refusal> {
        first_refusal(rules, records.iter(), |_, &[result, arguments]| {
            let sorts_known = lists.starts(arguments)
                && (lists.at_most(arguments, 1) || rules.has(Fault::ArgumentSortsUnread));
            match Sort::decode(result) {
                Some(result) if sorts_known => {
                    self.declared
                        .push(Profile { result, arguments: Arguments::Declared(arguments) });
                    Ok(())
                }
                _ => Err(Reason::Sort),
            }
        })
    }

    fn decode_variables<R: Rules>(&mut self, rules: R, records: &[u32]) -> Result<(), Refusal> {
        first_refusal(rules, records.iter(), |_, &sort| {
            let sort = match Sort::decode(sort) {
                None if rules.has(Fault::VariableSortTwoTaken) && sort == 2 => Sort::Item,
                None => return Err(Reason::Sort),
                Some(sort) => sort,
            };
            self.variables.push(sort);
            Ok(())
        })
    }

    pub fn variable_count(&self) -> u32 {
        self.variables.len() as u32
    }

    pub fn is_variable(&self, number: u32) -> bool {
        (1..=self.variable_count()).contains(&number)
    }

    /// The sort of a variable that is there.
    pub fn variable(&self, number: u32) -> Sort {
        self.variables[number as usize - 1]
    }

    /// Built-in symbols, then none up to 32, then the declared ones.
    pub fn symbol(&self, number: u32) -> Option<Profile> {
        use Sort::{Item, Truth};
        let built_in =
            |arguments| Some(Profile { result: Truth, arguments: Arguments::BuiltIn(arguments) });
        match number {
            1 | 2 => built_in(&[]),
            3 => built_in(&[Truth]),
            4..=7 => built_in(&[Truth, Truth]),
            8 => built_in(&[Item, Item]),
            0 | 9..=BUILT_IN => None,
            _ => self.declared.get((number - BUILT_IN) as usize - 1).copied(),
        }
    }
}
