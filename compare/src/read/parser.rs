//! The grammar: one loop over the text with the open brackets on a stack of its own,
//! so that any nesting is read. Refusals 19 and 20 end it, whichever comes first.

use super::lexemes::{Cursor, Run, Word};
use super::records::Records;
use super::sorts::{Rest, Sorts};
use crate::answer::{Reason, Refusal};
use crate::bundle::BUILT_IN;
use crate::check::{Declarations, Sort};
use crate::fault::{Fault, OLD_VARIABLES, Rules};
use crate::set::Set;

/// A term that has been read; its record is 0 where the records are full.
#[derive(Clone, Copy, Debug)]
pub struct Value {
    pub sort: Sort,
    pub record: u32,
}

/// An open bracket: what it is, and where its parts start on the stack of parts.
#[derive(Clone, Copy, Debug)]
enum Open {
    /// not, and, or, =>: so many arguments are due.
    Connective {
        symbol: u32,
        due: u32,
        start: usize,
    },
    /// =, and the sort of its first argument once that was read.
    Equality {
        first: Option<Sort>,
        start: usize,
    },
    Application {
        symbol: u32,
        result: Sort,
        rest: Rest,
        start: usize,
    },
    /// Its variables are its parts; the body is due.
    Quantifier {
        kind: u32,
        start: usize,
    },
    /// Variables and bound terms in turn are its parts; a bound term for a variable of
    /// this sort is due.
    Bindings {
        sort: Sort,
        start: usize,
    },
    /// A let whose body is due.
    Body {
        start: usize,
    },
}

#[derive(Debug)]
pub struct Parser<'a, R> {
    rules: R,
    cursor: Cursor<'a, R>,
    variables: u32,
    symbols: u32,
    pub sorts: Sorts<'a, R>,
    pub records: Records<R>,
    open: Vec<Open>,
    /// Parts of the open brackets: records of terms, and variables of binders.
    parts: Vec<u32>,
    /// The variables so far of each let whose bound terms are being read.
    listed: Vec<Set>,
    /// The first unknown name, where a fault lets it wait.
    unknown: Option<Refusal>,
}

impl<'a, R: Rules> Parser<'a, R> {
    pub fn new(rules: R, declared: &'a Declarations, text: &'a [u8]) -> Self {
        use crate::bundle::Section::{Links, Symbols, Variables};
        let counts = &declared.header.counts;
        Parser {
            rules,
            cursor: Cursor::new(rules, text),
            variables: counts[Variables],
            symbols: counts[Symbols],
            sorts: Sorts::new(rules, &declared.signature, &declared.lists),
            records: Records::new(rules, declared.section(Links), text.len() / 8),
            open: Vec::new(),
            parts: Vec::new(),
            listed: Vec::new(),
            unknown: None,
        }
    }

    /// The formula, whatever its sorts and however many records it takes.
    pub fn formula(&mut self) -> Result<Value, Refusal> {
        loop {
            // A term is due.
            let Some(mut value) = self.begin()? else { continue };
            // It is the next part of the innermost bracket, and may be its last.
            while let Some(open) = self.open.pop() {
                match self.take(open, value)? {
                    Some(whole) => value = whole,
                    None => break,
                }
            }
            if self.open.is_empty() {
                self.cursor.end()?;
                return self.unknown.map_or(Ok(value), Err);
            }
        }
    }

    /// A term without brackets; or `None` after an opening bracket and all that comes
    /// before its first term.
    fn begin(&mut self) -> Result<Option<Value>, Refusal> {
        if self.cursor.opens() {
            self.head()?;
            return Ok(None);
        }
        let run = self.cursor.run()?;
        match run.word() {
            Some(Word::True) => Ok(Some(self.application(1, Sort::Truth, self.parts.len()))),
            Some(Word::False) => Ok(Some(self.application(2, Sort::Truth, self.parts.len()))),
            Some(_) => Err(self.cursor.grown(run)),
            None => self.name(run).map(Some),
        }
    }

    /// A name that is a term: a variable, or a symbol without arguments.
    fn name(&mut self, run: Run) -> Result<Value, Refusal> {
        if let Some(variable) = self.variable_of(run) {
            let record = self.records.variable(variable);
            return Ok(Value { sort: self.sorts.variable(variable), record });
        }
        let symbol = self.symbol(run)?;
        let (result, rest) = self.sorts.symbol(symbol);
        self.sorts.no_more(rest);
        Ok(self.application(symbol, result, self.parts.len()))
    }

    fn variable_of(&self, run: Run) -> Option<u32> {
        let number = run.number_after(self.rules, b'v')?;
        let old = self.rules.has(Fault::NamesOfOldLimit);
        let last = if old { self.variables.min(OLD_VARIABLES) } else { self.variables };
        (1..=last).contains(&number).then_some(number)
    }

    fn symbol_of(&self, run: Run) -> Option<u32> {
        let number = run.number_after(self.rules, b'f')?;
        (BUILT_IN + 1..=BUILT_IN + self.symbols).contains(&number).then_some(number)
    }

    /// A variable to be bound.
    fn variable(&mut self) -> Result<u32, Refusal> {
        let run = self.cursor.run()?;
        if run.word().is_some() {
            return Err(self.cursor.grown(run));
        }
        match self.variable_of(run) {
            Some(variable) => Ok(variable),
            None if self.rules.has(Fault::SymbolBound) && self.symbol_of(run).is_some() => {
                self.sorts.sound = false;
                Ok(1)
            }
            None => self.unknown(run, 1),
        }
    }

    fn symbol(&mut self, run: Run) -> Result<u32, Refusal> {
        match self.symbol_of(run) {
            Some(symbol) => Ok(symbol),
            None if self.rules.has(Fault::VariableAsHead) && self.variable_of(run).is_some() => {
                self.sorts.sound = false;
                Ok(BUILT_IN + 1)
            }
            None => self.unknown(run, BUILT_IN + 1),
        }
    }

    /// 20; or `instead`, where a fault reads on.
    fn unknown(&mut self, run: Run, instead: u32) -> Result<u32, Refusal> {
        let refusal = Refusal::at_byte(Reason::UnknownName, run.start);
        let declared = self.variables > 0 && self.symbols > 0;
        if self.rules.has(Fault::UnknownAfterUnread) && declared {
            self.unknown.get_or_insert(refusal);
            return Ok(instead);
        }
        if self.rules.has(Fault::TypingBeforeUnknown) && !self.sorts.sound {
            return Err(Refusal::whole(Reason::Typing));
        }
        Err(refusal)
    }

    /// What follows an opening bracket, up to its first term.
    fn head(&mut self) -> Result<(), Refusal> {
        let run = self.cursor.run()?;
        let start = self.parts.len();
        let open = match run.word() {
            Some(Word::Not) => Open::Connective { symbol: 3, due: 1, start },
            Some(Word::And) => Open::Connective { symbol: 4, due: 2, start },
            Some(Word::Or) => Open::Connective { symbol: 5, due: 2, start },
            Some(Word::Implies) => Open::Connective { symbol: 6, due: 2, start },
            Some(Word::Equals) => Open::Equality { first: None, start },
            Some(Word::ForAll) => self.binders(3, start)?,
            Some(Word::Exists) => self.binders(4, start)?,
            Some(Word::Let) => {
                self.cursor.open()?;
                self.listed.push(Set::EMPTY);
                self.bind(start)?
            }
            Some(Word::True | Word::False | Word::Bool | Word::Item) => {
                return Err(self.cursor.grown(run));
            }
            None => {
                let symbol = self.symbol(run)?;
                let (result, rest) = self.sorts.symbol(symbol);
                Open::Application { symbol, result, rest, start }
            }
        };
        self.open.push(open);
        Ok(())
    }

    /// A quantifier's variables, one or more, each with its declared sort.
    fn binders(&mut self, kind: u32, start: usize) -> Result<Open, Refusal> {
        let mut listed = Set::EMPTY;
        self.cursor.open()?;
        if !(self.rules.has(Fault::EmptyBindersTaken) && self.cursor.closes()) {
            loop {
                self.cursor.open()?;
                let variable = self.variable()?;
                let sort = match self.cursor.sort()? {
                    Word::Item => Sort::Item,
                    _ => Sort::Truth,
                };
                self.cursor.close()?;
                if !self.rules.has(Fault::BinderSortUnread) {
                    self.sorts.same(sort, self.sorts.variable(variable));
                }
                if self.rules.has(Fault::BinderRepeatsRefused) {
                    self.sorts.sound &= !listed.has(variable);
                    listed.insert(variable);
                }
                if self.rules.has(Fault::BinderGetsTerm) {
                    self.records.variable(variable);
                }
                self.parts.push(variable);
                if self.cursor.closes() {
                    break;
                }
            }
        }
        Ok(Open::Quantifier { kind, start })
    }

    /// The next pair of a let, up to its bound term.
    fn bind(&mut self, start: usize) -> Result<Open, Refusal> {
        self.cursor.open()?;
        let variable = self.variable()?;
        let folded = self.rules.has(Fault::RepeatsFolded);
        let own = if folded { (variable - 1) % OLD_VARIABLES + 1 } else { variable };
        if let Some(listed) = self.listed.last_mut() {
            if listed.has(own) {
                self.sorts.repeated();
            }
            listed.insert(own);
        }
        self.parts.push(variable);
        Ok(Open::Bindings { sort: self.sorts.variable(variable), start })
    }

    /// Gives a term to the innermost bracket: its value, where that was its last part.
    fn take(&mut self, open: Open, value: Value) -> Result<Option<Value>, Refusal> {
        match open {
            Open::Connective { symbol, due, start } => {
                self.sorts.truth(value.sort);
                self.parts.push(value.record);
                if due > 1 && !(self.rules.has(Fault::FewArgumentsAreTyping) && self.ends_short()) {
                    self.open.push(Open::Connective { symbol, due: due - 1, start });
                    return Ok(None);
                }
                self.last(due == 1)?;
                Ok(Some(self.application(symbol, Sort::Truth, start)))
            }
            Open::Equality { first: None, start } => {
                self.parts.push(value.record);
                self.open.push(Open::Equality { first: Some(value.sort), start });
                Ok(None)
            }
            Open::Equality { first: Some(first), start } => {
                if !self.rules.has(Fault::EqualSortsUnread) {
                    self.sorts.same(first, value.sort);
                }
                self.parts.push(value.record);
                self.last(true)?;
                let on_items = first == Sort::Item && !self.rules.has(Fault::OneEquality);
                Ok(Some(self.application(if on_items { 8 } else { 7 }, Sort::Truth, start)))
            }
            Open::Application { symbol, result, rest, start } => {
                let rest = self.sorts.argument(rest, value.sort);
                self.parts.push(value.record);
                if !self.cursor.closes() {
                    self.open.push(Open::Application { symbol, result, rest, start });
                    return Ok(None);
                }
                self.sorts.no_more(rest);
                Ok(Some(self.application(symbol, result, start)))
            }
            Open::Quantifier { kind, start } => {
                if !self.rules.has(Fault::ReadBodySortUnread) {
                    self.sorts.truth(value.sort);
                }
                self.cursor.close()?;
                Ok(Some(self.quantifier(kind, start, value.record)))
            }
            Open::Bindings { sort, start } => {
                if !self.rules.has(Fault::BoundSortsUnread) {
                    self.sorts.same(sort, value.sort);
                }
                self.parts.push(value.record);
                self.cursor.close()?;
                let open = if self.cursor.closes() {
                    self.listed.pop();
                    Open::Body { start }
                } else {
                    self.bind(start)?
                };
                self.open.push(open);
                Ok(None)
            }
            Open::Body { start } => {
                self.cursor.close()?;
                let record = self.records.binding(&self.parts[start..], value.record);
                self.parts.truncate(start);
                Ok(Some(Value { sort: value.sort, record }))
            }
        }
    }

    /// The bracket that ends a built-in symbol's arguments.
    fn last(&mut self, due: bool) -> Result<(), Refusal> {
        if due { self.cursor.close() } else { Ok(()) }
    }

    /// A fault's reading of a bracket that comes too soon.
    fn ends_short(&mut self) -> bool {
        let ends = self.cursor.closes();
        self.sorts.sound &= !ends;
        ends
    }

    /// The application of a symbol to the parts from `start`.
    fn application(&mut self, symbol: u32, sort: Sort, start: usize) -> Value {
        let record = self.records.application(symbol, &self.parts[start..]);
        self.parts.truncate(start);
        Value { sort, record }
    }

    /// Quantifiers nested from the left: the last variable is the innermost.
    fn quantifier(&mut self, kind: u32, start: usize, body: u32) -> Value {
        let mut record = body;
        if self.rules.has(Fault::NestedFromTheRight) {
            self.parts[start..].reverse();
        }
        for &variable in self.parts[start..].iter().rev() {
            record = self.records.quantifier(kind, variable, record);
        }
        self.parts.truncate(start);
        Value { sort: Sort::Truth, record }
    }
}
