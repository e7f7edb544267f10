//! Terms as texts: the lexemes of a term, and lexemes with white space and comments. A choice
//! has no text.

use super::builder::{Builder, CHOICE, FOR_ALL, Shape, TRUTH};
use crate::rng::Rng;

/// Terms are printed as trees, a shared one again and again; not beyond so many
/// lexemes.
const MOST: usize = 30_000;

/// The lexemes of a term; `None` where they are too many, or a choice is in it.
pub fn lexemes(builder: &mut Builder, term: u32) -> Option<Vec<String>> {
    let mut printer = Printer { builder, lexemes: Vec::new() };
    printer.term(term)?;
    Some(printer.lexemes)
}

struct Printer<'a> {
    builder: &'a mut Builder,
    lexemes: Vec<String>,
}

impl Printer<'_> {
    fn put(&mut self, lexeme: &str) {
        self.lexemes.push(lexeme.into());
    }

    /// A bracket, a word, and the bracket of its list.
    fn put_binder(&mut self, word: &str) {
        self.put("(");
        self.put(word);
        self.put("(");
    }

    fn variable(&mut self, variable: u32) {
        self.lexemes.push(format!("v{variable}"));
    }

    fn term(&mut self, term: u32) -> Option<()> {
        if self.lexemes.len() > MOST {
            return None;
        }
        match self.builder.shape(term).clone() {
            Shape::Variable(variable) => self.variable(variable),
            Shape::Application(symbol, arguments) if arguments.is_empty() => {
                self.put(&name(symbol));
            }
            Shape::Application(symbol, arguments) => {
                self.put("(");
                self.put(&name(symbol));
                for argument in arguments {
                    self.term(argument)?;
                }
                self.put(")");
            }
            Shape::Binder(CHOICE, ..) => return None,
            Shape::Binder(kind, variable, body) => self.quantifier(kind, variable, body)?,
            Shape::Let(variables, bounds, body) => {
                self.put_binder("let");
                for (variable, bound) in variables.into_iter().zip(bounds) {
                    self.put("(");
                    self.variable(variable);
                    self.term(bound)?;
                    self.put(")");
                }
                self.put(")");
                self.term(body)?;
                self.put(")");
            }
        }
        Some(())
    }

    /// Quantifiers of one kind in a row often share one list.
    fn quantifier(&mut self, kind: u32, variable: u32, body: u32) -> Option<()> {
        self.put_binder(if kind == FOR_ALL { "forall" } else { "exists" });
        let (mut variable, mut body) = (variable, body);
        loop {
            self.put("(");
            self.variable(variable);
            let sort = self.builder.variable_sort(variable);
            self.put(if sort == TRUTH { "Bool" } else { "Item" });
            self.put(")");
            let together = self.builder.rng.chance(60);
            match *self.builder.shape(body) {
                Shape::Binder(inner, next, rest) if inner == kind && together => {
                    (variable, body) = (next, rest);
                }
                _ => break,
            }
        }
        self.put(")");
        self.term(body)?;
        self.put(")");
        Some(())
    }
}

fn name(symbol: u32) -> String {
    match symbol {
        1 => "true".into(),
        2 => "false".into(),
        3 => "not".into(),
        4 => "and".into(),
        5 => "or".into(),
        6 => "=>".into(),
        7 | 8 => "=".into(),
        _ => format!("f{symbol}"),
    }
}

/// How much stands between lexemes.
#[derive(Clone, Copy, Debug, PartialEq, Eq)]
pub enum Spacing {
    /// No more than has to.
    Least,
    /// A space between lexemes, but not inside brackets.
    Usual,
    /// White space of all kinds, and comments.
    Wild,
}

pub const SPACINGS: [Spacing; 3] = [Spacing::Least, Spacing::Usual, Spacing::Wild];

/// The text of lexemes. Two runs always have something between them.
pub fn text(rng: &mut Rng, lexemes: &[String], spacing: Spacing) -> Vec<u8> {
    let is_bracket = |lexeme: &str| lexeme == "(" || lexeme == ")";
    let mut text = Vec::new();
    let mut before: Option<&str> = None;
    for lexeme in lexemes {
        let needed = before.is_some_and(|before| !is_bracket(before) && !is_bracket(lexeme));
        let usual = before.is_some_and(|before| before != "(" && lexeme != ")");
        match spacing {
            Spacing::Least if needed => text.push(b' '),
            Spacing::Usual if usual => text.push(b' '),
            Spacing::Wild => space(rng, needed, &mut text),
            _ => {}
        }
        text.extend(lexeme.as_bytes());
        before = Some(lexeme);
    }
    if spacing == Spacing::Wild {
        space(rng, false, &mut text);
        if rng.chance(20) {
            // The text's end closes it.
            comment(rng, &mut text);
        }
    }
    text
}

/// White space and comments, at least something where `needed`.
fn space(rng: &mut Rng, needed: bool, text: &mut Vec<u8>) {
    let least = u32::from(needed);
    for _ in 0..rng.between(least, least + 2) {
        if rng.chance(12) {
            comment(rng, text);
            text.push(rng.one_of([10, 13]));
        } else {
            text.push(rng.one_of([9, 10, 13, 32, 32, 32]));
        }
    }
}

/// A comment without its end.
fn comment(rng: &mut Rng, text: &mut Vec<u8>) {
    text.push(b';');
    for _ in 0..rng.below(8) {
        let any = rng.next_u32() as u8;
        let byte = rng.one_of([b'(', b')', b';', b'v', b'1', b'"', b'|', any]);
        text.push(if byte == 10 || byte == 13 { 0 } else { byte });
    }
}
