//! A second reader, as plain as possible. The grammar is a table; whether a text can
//! be continued is asked of a general recogniser (Earley's) for each of its prefixes.
//! Names are compared letter by letter, and terms are found by trying all of them.
//! Slow, and it calls itself as deep as the text is nested: for short texts.

use crate::answer::{Reason, Refusal};
use crate::bundle::{MAX_BYTES, MAX_SETS, MAX_WORDS, Section, counts_of, to_bytes, to_words};
use crate::naive::{Plain, Tree, declarations};

/// A line is a rule. What stands left of a colon is a nonterminal; the three names are
/// any names of the text, and all else stands for itself. Each left side can be ended,
/// so whatever the recogniser still follows can be continued.
const GRAMMAR: &str = "
    term : true
    term : false
    term : TERM-NAME
    term : ( not term )
    term : ( and term term )
    term : ( or term term )
    term : ( => term term )
    term : ( = term term )
    term : ( SYMBOL-NAME terms )
    term : ( forall ( binders ) term )
    term : ( exists ( binders ) term )
    term : ( let ( bindings ) term )
    terms : term
    terms : terms term
    binders : binder
    binders : binders binder
    binder : ( VARIABLE-NAME sort )
    sort : Bool
    sort : Item
    bindings : binding
    bindings : bindings binding
    binding : ( VARIABLE-NAME term )
";

const NAMES: [&str; 3] = ["TERM-NAME", "SYMBOL-NAME", "VARIABLE-NAME"];

const WORDS: [&str; 12] =
    ["true", "false", "not", "and", "or", "=>", "=", "forall", "exists", "let", "Bool", "Item"];

/// Same answers and same areas as [`crate::read::read`].
pub fn read(
    declared: &[u8],
    text: &[u8],
    out: &mut [u8],
    words: &mut [u32],
    sets: &mut [u64],
) -> Result<usize, Refusal> {
    let areas = out.len() >= MAX_BYTES && words.len() >= MAX_WORDS && sets.len() >= MAX_SETS;
    out.fill(0);
    words.fill(0);
    sets.fill(0);
    let job = job_of(declared, text, areas)?;
    out[..job.len()].copy_from_slice(&job);
    Ok(job.len())
}

fn job_of(declared: &[u8], text: &[u8], areas: bool) -> Result<Vec<u8>, Refusal> {
    let plain = declarations(declared, |_| areas)?;
    let counts = counts_of(declared).unwrap_or_default();
    let whole = |reason| Err(Refusal::whole(reason));
    let empty = |section: Section| counts[section] == 0;
    if !empty(Section::Terms)
        || !empty(Section::Contexts)
        || !empty(Section::Steps)
        || plain.left != 0
        || plain.right != 0
    {
        return whole(Reason::NotBare);
    }
    let unread = unread(text);
    let unknown = unknown(&plain, text);
    match (unread, unknown) {
        (Some(byte), None) => return Err(Refusal::at_byte(Reason::Unread, byte)),
        (Some(byte), Some(name)) if byte < name => {
            return Err(Refusal::at_byte(Reason::Unread, byte));
        }
        (_, Some(name)) => return Err(Refusal::at_byte(Reason::UnknownName, name)),
        (None, None) => {}
    }
    let node = tree(&mut lexemes(text).iter().map(|lexeme| lexeme.text));
    if plain.sort_of_node(&node) != Some(0) {
        return whole(Reason::Typing);
    }
    let words = to_words(declared);
    let links = &words[counts.start(Section::Links)..counts.start(Section::Contexts)];
    let mut job = Job {
        plain: &plain,
        terms: Vec::new(),
        links: links.chunks(2).map(|link| [link[0], link[1]]).collect(),
    };
    let left = job.add(&node);
    if job.terms.len() > Section::Terms.limit() as usize
        || job.links.len() > Section::Links.limit() as usize
    {
        return whole(Reason::Full);
    }
    let mut file = vec![1];
    file.extend([counts[Section::Symbols], counts[Section::Variables]]);
    file.extend([job.terms.len() as u32, job.links.len() as u32, 0, 0, left, 0]);
    file.extend(&words[counts.start(Section::Symbols)..counts.start(Section::Terms)]);
    file.extend(job.terms.iter().flat_map(|(record, _)| record));
    file.extend(job.links.iter().flatten());
    Ok(to_bytes(&file))
}

/// A bracket, a run of symbol characters, or a byte that is neither.
#[derive(Clone, Copy, Debug)]
struct Lexeme<'a> {
    text: &'a [u8],
    start: usize,
}

fn is_symbol_character(byte: u8) -> bool {
    byte.is_ascii_alphanumeric() || b"~!@$%^&*_-+=<>.?/".contains(&byte)
}

fn lexemes(text: &[u8]) -> Vec<Lexeme<'_>> {
    let mut found = Vec::new();
    let mut at = 0;
    while at < text.len() {
        let start = at;
        at += 1;
        match text[start] {
            9 | 10 | 13 | 32 => continue,
            b';' => {
                while at < text.len() && text[at] != 10 && text[at] != 13 {
                    at += 1;
                }
                continue;
            }
            byte if is_symbol_character(byte) => {
                while at < text.len() && is_symbol_character(text[at]) {
                    at += 1;
                }
            }
            _ => {}
        }
        found.push(Lexeme { text: &text[start..at], start });
    }
    found
}

impl Lexeme<'_> {
    fn is_word(&self) -> bool {
        WORDS.iter().any(|word| word.as_bytes() == self.text)
    }

    fn could_be_name(&self) -> bool {
        is_symbol_character(self.text[0]) && !self.text[0].is_ascii_digit()
    }

    /// Whether the lexeme can stand for a part of a rule. Where more text may follow it
    /// at once, a run can grow: into a name, or into a word that starts with it.
    fn stands_for(&self, part: &str, may_grow: bool) -> bool {
        if NAMES.contains(&part) {
            self.could_be_name() && (may_grow || !self.is_word())
        } else if may_grow && WORDS.contains(&part) {
            part.as_bytes().starts_with(self.text)
        } else {
            part.as_bytes() == self.text
        }
    }
}

type Rule = (&'static str, Vec<&'static str>);

fn grammar() -> Vec<Rule> {
    GRAMMAR
        .lines()
        .filter_map(|line| line.split_once(" : "))
        .map(|(left, right)| (left.trim(), right.split_whitespace().collect()))
        .collect()
}

/// A rule, how many of its parts have been read, and the lexeme it started at.
type State = (usize, usize, usize);

/// What is followed before each lexeme and after the last, by Earley's algorithm; it
/// ends early where nothing is.
fn followed(rules: &[Rule], lexemes: &[Lexeme], may_grow: bool) -> Vec<Vec<State>> {
    let part = |&(rule, read, _): &State| rules[rule].1.get(read).copied();
    let starts = |name: &str, at: usize| -> Vec<State> {
        let of_name = |&rule: &usize| rules[rule].0 == name;
        (0..rules.len()).filter(of_name).map(|rule| (rule, 0, at)).collect()
    };
    let mut sets: Vec<Vec<State>> = vec![starts("term", 0)];
    for at in 0.. {
        let mut place = 0;
        while let Some(&state) = sets[at].get(place) {
            place += 1;
            let new: Vec<State> = match part(&state) {
                // A whole rule: what waited for it goes on.
                None => sets[state.2]
                    .iter()
                    .filter(|waiting| part(waiting) == Some(rules[state.0].0))
                    .map(|&(rule, read, from)| (rule, read + 1, from))
                    .collect(),
                Some(part) => starts(part, at),
            };
            for state in new {
                if !sets[at].contains(&state) {
                    sets[at].push(state);
                }
            }
        }
        let Some(lexeme) = lexemes.get(at) else { break };
        let grows = may_grow && at + 1 == lexemes.len();
        let next: Vec<State> = sets[at]
            .iter()
            .filter(|state| part(state).is_some_and(|part| lexeme.stands_for(part, grows)))
            .map(|&(rule, read, from)| (rule, read + 1, from))
            .collect();
        if next.is_empty() {
            break;
        }
        sets.push(next);
    }
    sets
}

/// Whether some text of the grammar starts so.
fn can_be_continued(rules: &[Rule], start: &[u8]) -> bool {
    let lexemes = lexemes(start);
    let at_end =
        |lexeme: &Lexeme| lexeme.start + lexeme.text.len() == start.len() && lexeme.could_be_name();
    let may_grow = lexemes.last().is_some_and(at_end);
    followed(rules, &lexemes, may_grow).len() == lexemes.len() + 1
}

fn is_in_grammar(rules: &[Rule], text: &[u8]) -> bool {
    let lexemes = lexemes(text);
    let sets = followed(rules, &lexemes, false);
    sets.get(lexemes.len()).is_some_and(|set| {
        set.iter().any(|&(rule, read, from)| {
            rules[rule].0 == "term" && read == rules[rule].1.len() && from == 0
        })
    })
}

/// The byte of 19: the first one with which no text of the grammar starts, or the
/// text's length.
fn unread(text: &[u8]) -> Option<usize> {
    let rules = grammar();
    // What starts a text of the grammar does so up to any byte: halve.
    let (mut good, mut bad) = (0, text.len() + 1);
    while good + 1 < bad {
        let middle = (good + bad) / 2;
        if can_be_continued(&rules, &text[..middle]) {
            good = middle;
        } else {
            bad = middle;
        }
    }
    match good {
        length if length < text.len() => Some(length),
        length => (!is_in_grammar(&rules, text)).then_some(length),
    }
}

/// The byte of 20: the first name, where names are due, that is none of the kind due.
fn unknown(plain: &Plain, text: &[u8]) -> Option<usize> {
    let rules = grammar();
    let lexemes = lexemes(text);
    let sets = followed(&rules, &lexemes, false);
    let name = lexemes.iter().zip(&sets).find(|(lexeme, set)| {
        let due: Vec<&str> = set
            .iter()
            .filter_map(|&(rule, read, _)| rules[rule].1.get(read).copied())
            .filter(|part| NAMES.contains(part))
            .collect();
        let known = due.iter().any(|&kind| plain.declares(kind, lexeme.text));
        !due.is_empty() && lexeme.could_be_name() && !lexeme.is_word() && !known
    });
    name.map(|(lexeme, _)| lexeme.start)
}

/// A text by its brackets.
#[derive(Clone, Debug)]
enum Node<'a> {
    Leaf(&'a str),
    Bracket(Vec<Node<'a>>),
}

fn tree<'a>(lexemes: &mut impl Iterator<Item = &'a [u8]>) -> Node<'a> {
    match lexemes.next().map(|bytes| str::from_utf8(bytes).unwrap_or_default()) {
        Some("(") => {
            let mut parts = Vec::new();
            loop {
                match tree(lexemes) {
                    Node::Leaf(")" | "") => return Node::Bracket(parts),
                    part => parts.push(part),
                }
            }
        }
        other => Node::Leaf(other.unwrap_or_default()),
    }
}

/// The leaf, or the parts.
fn leaf<'a>(node: &Node<'a>) -> &'a str {
    match node {
        Node::Leaf(leaf) => leaf,
        Node::Bracket(_) => "",
    }
}

fn parts<'n, 'a>(node: &'n Node<'a>) -> &'n [Node<'a>] {
    match node {
        Node::Leaf(_) => &[],
        Node::Bracket(parts) => parts,
    }
}

impl Plain {
    fn variable_named(&self, name: &str) -> Option<u32> {
        (1..=self.variables.len() as u32).find(|number| format!("v{number}") == name)
    }

    fn symbol_named(&self, name: &str) -> Option<u32> {
        (33..33 + self.symbols.len() as u32).find(|number| format!("f{number}") == name)
    }

    fn declares(&self, kind: &str, name: &[u8]) -> bool {
        let name = str::from_utf8(name).unwrap_or_default();
        let (variable, symbol) = (self.variable_named(name), self.symbol_named(name));
        match kind {
            "SYMBOL-NAME" => symbol.is_some(),
            "VARIABLE-NAME" => variable.is_some(),
            _ => symbol.is_some() || variable.is_some(),
        }
    }

    fn sort_of_variable(&self, name: &str) -> Option<u32> {
        Some(self.variables[self.variable_named(name)? as usize - 1])
    }

    /// The sort of a term, if all in it fits.
    fn sort_of_node(&self, node: &Node) -> Option<u32> {
        let Node::Bracket(all) = node else {
            return match leaf(node) {
                "true" | "false" => Some(0),
                name => self.sort_of_variable(name).or_else(|| {
                    let (result, sorts) = self.profile(self.symbol_named(name)?)?;
                    sorts.is_empty().then_some(result)
                }),
            };
        };
        let (head, rest) = all.split_first()?;
        match leaf(head) {
            "forall" | "exists" => {
                for binder in parts(&rest[0]) {
                    let sort = match leaf(&parts(binder)[1]) {
                        "Bool" => 0,
                        _ => 1,
                    };
                    if self.sort_of_variable(leaf(&parts(binder)[0])) != Some(sort) {
                        return None;
                    }
                }
                (self.sort_of_node(&rest[1]) == Some(0)).then_some(0)
            }
            "let" => {
                let mut names = Vec::new();
                for binding in parts(&rest[0]) {
                    let [name, bound] = parts(binding) else { return None };
                    let sort = self.sort_of_variable(leaf(name))?;
                    if names.contains(&leaf(name)) || self.sort_of_node(bound)? != sort {
                        return None;
                    }
                    names.push(leaf(name));
                }
                self.sort_of_node(&rest[1])
            }
            name => {
                let given: Option<Vec<u32>> =
                    rest.iter().map(|part| self.sort_of_node(part)).collect();
                let (result, sorts) = self.profile(self.symbol_of(name, given.as_ref()?)?)?;
                (given? == sorts).then_some(result)
            }
        }
    }

    /// The symbol of a word or name, given the sorts of its arguments.
    fn symbol_of(&self, name: &str, sorts: &[u32]) -> Option<u32> {
        match name {
            "true" => Some(1),
            "false" => Some(2),
            "not" => Some(3),
            "and" => Some(4),
            "or" => Some(5),
            "=>" => Some(6),
            "=" if sorts == [1, 1] => Some(8),
            "=" => Some(7),
            _ => self.symbol_named(name),
        }
    }
}

struct Job<'a> {
    plain: &'a Plain,
    /// Record, and the term by value.
    terms: Vec<([u32; 4], Tree)>,
    links: Vec<[u32; 2]>,
}

impl Job<'_> {
    fn list(&mut self, values: &[u32]) -> u32 {
        let first = self.links.len() as u32 + 1;
        for (place, &value) in values.iter().enumerate() {
            let last = place + 1 == values.len();
            self.links.push([value, if last { 0 } else { first + place as u32 + 1 }]);
        }
        if values.is_empty() { 0 } else { first }
    }

    /// The number of a term; a new one has its lists just before it.
    fn term(&mut self, tree: Tree) -> u32 {
        if let Some(place) = self.terms.iter().position(|(_, own)| *own == tree) {
            return place as u32 + 1;
        }
        let record = match &tree {
            Tree::Variable(variable) => [1, *variable, 0, 0],
            Tree::Application(symbol, arguments) => [2, *symbol, self.list(arguments), 0],
            Tree::ForAll(variable, body) => [3, *variable, *body, 0],
            Tree::Exists(variable, body) => [4, *variable, *body, 0],
            Tree::Let(variables, bounds, body) => {
                let variables = self.list(variables);
                [5, variables, self.list(bounds), *body]
            }
            Tree::Choice(..) => unreachable!("no text has a choice"),
        };
        self.terms.push((record, tree));
        self.terms.len() as u32
    }

    fn variable(&self, node: &Node) -> u32 {
        self.plain.variable_named(leaf(node)).unwrap_or_default()
    }

    /// A well sorted term, its parts first.
    fn add(&mut self, node: &Node) -> u32 {
        let Node::Bracket(all) = node else {
            return match self.plain.variable_named(leaf(node)) {
                Some(variable) => self.term(Tree::Variable(variable)),
                None => {
                    let symbol = self.plain.symbol_of(leaf(node), &[]).unwrap_or_default();
                    self.term(Tree::Application(symbol, Vec::new()))
                }
            };
        };
        match leaf(&all[0]) {
            quantifier @ ("forall" | "exists") => {
                let mut term = self.add(&all[2]);
                for binder in parts(&all[1]).iter().rev() {
                    let variable = self.variable(&parts(binder)[0]);
                    term = self.term(match quantifier {
                        "forall" => Tree::ForAll(variable, term),
                        _ => Tree::Exists(variable, term),
                    });
                }
                term
            }
            "let" => {
                let bindings = parts(&all[1]);
                let variables =
                    bindings.iter().map(|pair| self.variable(&parts(pair)[0])).collect();
                let bounds = bindings.iter().map(|pair| self.add(&parts(pair)[1])).collect();
                let body = self.add(&all[2]);
                self.term(Tree::Let(variables, bounds, body))
            }
            name => {
                let rest = &all[1..];
                let sorts: Vec<u32> =
                    rest.iter().filter_map(|part| self.plain.sort_of_node(part)).collect();
                let symbol = self.plain.symbol_of(name, &sorts).unwrap_or_default();
                let arguments = rest.iter().map(|part| self.add(part)).collect();
                self.term(Tree::Application(symbol, arguments))
            }
        }
    }
}

#[cfg(test)]
mod tests {
    use super::*;

    /// Halving finds what the definition says: the first prefix that cannot go on.
    #[test]
    fn halving_is_trying_every_prefix() {
        let rules = grammar();
        for text in
            ["", "(", "true", "(let((v1 x))Bool)", "(and ;c\r a\tb)c", "(=>(not 1))", "((a)"]
        {
            let text = text.as_bytes();
            let first = (0..text.len()).find(|&byte| !can_be_continued(&rules, &text[..=byte]));
            let found = unread(text);
            match first {
                Some(byte) => assert_eq!(found, Some(byte)),
                None if is_in_grammar(&rules, text) => assert_eq!(found, None),
                None => assert_eq!(found, Some(text.len())),
            }
        }
    }
}
