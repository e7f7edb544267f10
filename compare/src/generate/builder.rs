//! Builds files record by record. Terms are looked up before they are added, so
//! no two are equal; lists may share their tails. Nothing here judges a file:
//! what is put in is written out.

use crate::bundle::{BUILT_IN, Counts, Section};
use crate::rng::Rng;
use crate::set::Set;
use std::collections::HashMap;

pub const TRUTH: u32 = 0;
pub const ITEM: u32 = 1;

pub const FOR_ALL: u32 = 3;
pub const EXISTS: u32 = 4;
pub const CHOICE: u32 = 6;

/// The binders of one variable.
pub const BINDERS: [u32; 3] = [FOR_ALL, EXISTS, CHOICE];

pub const NOT: u32 = 3;

#[derive(Clone, Debug, PartialEq, Eq, Hash)]
pub enum Shape {
    Variable(u32),
    Application(u32, Vec<u32>),
    /// Kind, variable, body: a quantifier or a choice.
    Binder(u32, u32, u32),
    Let(Vec<u32>, Vec<u32>, u32),
}

#[derive(Clone, Debug, PartialEq, Eq, Hash)]
pub enum Entry {
    Fixes(u32),
    Replaces(Vec<u32>, Vec<u32>),
}

/// A field of a record as it is kept until the links are numbered.
#[derive(Clone, Copy, Debug)]
enum Field {
    Word(u32),
    /// A list, by its first cell.
    List(u32),
}

use Field::{List, Word};

#[derive(Clone, Debug)]
struct Made {
    shape: Shape,
    fields: [Field; 4],
    sort: u32,
    free: Set,
}

#[derive(Clone, Debug)]
struct Context {
    entry: Entry,
    fields: [Field; 4],
    /// The image's term by variable - 1, 0 where no entry replaces it.
    images: Vec<u32>,
    moved: Set,
    /// What this entry and those towards the empty context fix or replace.
    mentioned: Set,
    parent: u32,
}

#[derive(Clone, Copy, Debug)]
pub struct Step {
    pub rule: u32,
    pub context: u32,
    pub left: u32,
    pub right: u32,
    premises: Field,
}

#[derive(Clone, Debug)]
struct Symbol {
    result: u32,
    arguments: Vec<u32>,
    list: Field,
}

#[derive(Clone, Debug)]
pub struct Builder {
    pub rng: Rng,
    symbols: Vec<Symbol>,
    variables: Vec<u32>,
    /// The variables that random choices draw from.
    drawn: Vec<u32>,
    terms: Vec<Made>,
    numbers: HashMap<Shape, u32>,
    contexts: Vec<Context>,
    known_contexts: HashMap<(Entry, u32), u32>,
    steps: Vec<Step>,
    /// Value and tail, the tail made earlier; numbered from 1.
    cells: Vec<(u32, u32)>,
    known_cells: HashMap<(u32, u32), u32>,
    /// How often, in percent, a list shares the tail of an earlier one.
    sharing: u32,
    /// Whether random terms have choices.
    choices: bool,
}

impl Builder {
    pub fn new(rng: Rng, sharing: u32) -> Self {
        Builder {
            rng,
            symbols: Vec::new(),
            variables: Vec::new(),
            drawn: Vec::new(),
            terms: Vec::new(),
            numbers: HashMap::new(),
            contexts: Vec::new(),
            known_contexts: HashMap::new(),
            steps: Vec::new(),
            cells: Vec::new(),
            known_cells: HashMap::new(),
            sharing,
            choices: true,
        }
    }

    /// The same without choices in random terms.
    pub fn without_choices(self) -> Self {
        Builder { choices: false, ..self }
    }

    pub fn has_choices(&self) -> bool {
        self.choices
    }

    /// A kind of binder for random terms.
    pub fn random_kind(&mut self) -> u32 {
        match self.rng.below(100) {
            0..20 if self.choices => CHOICE,
            0..65 => FOR_ALL,
            _ => EXISTS,
        }
    }

    pub fn count(&self, section: Section) -> u32 {
        let count = match section {
            Section::Symbols => self.symbols.len(),
            Section::Variables => self.variables.len(),
            Section::Terms => self.terms.len(),
            Section::Links => self.cells.len(),
            Section::Contexts => self.contexts.len(),
            Section::Steps => self.steps.len(),
        };
        count as u32
    }

    /// How many more records a section can take.
    pub fn room(&self, section: Section) -> u32 {
        section.limit().saturating_sub(self.count(section))
    }

    pub fn list(&mut self, values: &[u32]) -> u32 {
        let share = self.rng.chance(self.sharing);
        values.iter().rev().fold(0, |tail, &value| {
            let known = self.known_cells.get(&(value, tail)).copied().filter(|_| share);
            known.unwrap_or_else(|| {
                self.cells.push((value, tail));
                let cell = self.cells.len() as u32;
                self.known_cells.insert((value, tail), cell);
                cell
            })
        })
    }

    pub fn symbol(&mut self, result: u32, arguments: &[u32]) -> u32 {
        let list = List(self.list(arguments));
        self.symbols.push(Symbol { result, arguments: arguments.to_vec(), list });
        BUILT_IN + self.symbols.len() as u32
    }

    pub fn variable(&mut self, sort: u32) -> u32 {
        let variable = self.spare_variable(sort);
        self.drawn.push(variable);
        variable
    }

    /// A variable that no random choice draws.
    pub fn spare_variable(&mut self, sort: u32) -> u32 {
        self.variables.push(sort);
        self.variables.len() as u32
    }

    pub fn variable_sort(&self, variable: u32) -> u32 {
        self.variables[variable as usize - 1]
    }

    /// The variables that random choices draw from.
    pub fn drawn(&self) -> &[u32] {
        &self.drawn
    }

    pub fn draw_variable(&mut self) -> u32 {
        let place = self.rng.below(self.drawn.len() as u32);
        self.drawn[place as usize]
    }

    /// Those of a sort that random choices draw from.
    pub fn variables_of(&self, sort: u32) -> Vec<u32> {
        let of_sort = |&variable: &u32| self.variable_sort(variable) == sort;
        self.drawn.iter().copied().filter(of_sort).collect()
    }

    /// Result and argument sorts.
    pub fn profile(&self, symbol: u32) -> (u32, Vec<u32>) {
        match symbol {
            1 | 2 => (TRUTH, vec![]),
            3 => (TRUTH, vec![TRUTH]),
            8 => (TRUTH, vec![ITEM, ITEM]),
            0..=BUILT_IN => (TRUTH, vec![TRUTH, TRUTH]),
            _ => {
                let declared = &self.symbols[(symbol - BUILT_IN) as usize - 1];
                (declared.result, declared.arguments.clone())
            }
        }
    }

    pub fn term(&mut self, shape: Shape) -> u32 {
        if let Some(&number) = self.numbers.get(&shape) {
            return number;
        }
        let zero = Word(0);
        let fields = match &shape {
            Shape::Variable(variable) => [Word(1), Word(*variable), zero, zero],
            Shape::Application(symbol, arguments) => {
                [Word(2), Word(*symbol), List(self.list(arguments)), zero]
            }
            Shape::Binder(kind, variable, body) => {
                [Word(*kind), Word(*variable), Word(*body), zero]
            }
            Shape::Let(variables, bounds, body) => {
                [Word(5), List(self.list(variables)), List(self.list(bounds)), Word(*body)]
            }
        };
        let (sort, free) = (self.sort_of(&shape), self.free_of(&shape));
        self.terms.push(Made { shape: shape.clone(), fields, sort, free });
        let number = self.terms.len() as u32;
        self.numbers.insert(shape, number);
        number
    }

    pub fn variable_term(&mut self, variable: u32) -> u32 {
        self.term(Shape::Variable(variable))
    }

    pub fn apply(&mut self, symbol: u32, arguments: &[u32]) -> u32 {
        self.term(Shape::Application(symbol, arguments.to_vec()))
    }

    pub fn bind(&mut self, kind: u32, variable: u32, body: u32) -> u32 {
        self.term(Shape::Binder(kind, variable, body))
    }

    pub fn bind_let(&mut self, variables: &[u32], bounds: &[u32], body: u32) -> u32 {
        self.term(Shape::Let(variables.to_vec(), bounds.to_vec(), body))
    }

    fn sort_of(&self, shape: &Shape) -> u32 {
        match shape {
            Shape::Variable(variable) => self.variable_sort(*variable),
            Shape::Application(symbol, _) => self.profile(*symbol).0,
            Shape::Binder(CHOICE, variable, _) => self.variable_sort(*variable),
            Shape::Binder(..) => TRUTH,
            Shape::Let(_, _, body) => self.sort(*body),
        }
    }

    fn free_of(&self, shape: &Shape) -> Set {
        let of_all =
            |terms: &[u32]| terms.iter().fold(Set::EMPTY, |set, &term| set.union(self.free(term)));
        match shape {
            Shape::Variable(variable) => Set::of(*variable),
            Shape::Application(_, arguments) => of_all(arguments),
            Shape::Binder(_, variable, body) => self.free(*body).but(*variable),
            Shape::Let(variables, bounds, body) => {
                self.free(*body).without(variables.iter().copied().collect()).union(of_all(bounds))
            }
        }
    }

    pub fn shape(&self, term: u32) -> &Shape {
        &self.terms[term as usize - 1].shape
    }

    pub fn sort(&self, term: u32) -> u32 {
        self.terms[term as usize - 1].sort
    }

    /// Free variables.
    pub fn free(&self, term: u32) -> Set {
        self.terms[term as usize - 1].free
    }

    pub fn terms_of(&self, sort: u32) -> Vec<u32> {
        (1..)
            .zip(&self.terms)
            .filter(|(_, made)| made.sort == sort)
            .map(|(number, _)| number)
            .collect()
    }

    pub fn fix(&mut self, variable: u32, parent: u32) -> u32 {
        self.context(Entry::Fixes(variable), parent)
    }

    pub fn replace(&mut self, variables: &[u32], terms: &[u32], parent: u32) -> u32 {
        self.context(Entry::Replaces(variables.to_vec(), terms.to_vec()), parent)
    }

    /// A context with this entry and parent, now and then an earlier one.
    pub fn context(&mut self, entry: Entry, parent: u32) -> u32 {
        let known = self.known_contexts.get(&(entry.clone(), parent)).copied();
        if let Some(number) = known.filter(|_| self.rng.chance(40)) {
            return number;
        }
        let mut images = match parent {
            0 => Vec::new(),
            _ => self.contexts[parent as usize - 1].images.clone(),
        };
        images.resize(self.variables.len(), 0);
        let (mut moved, mut mentioned) = (self.moved(parent), self.mentioned(parent));
        let fields = match &entry {
            Entry::Fixes(variable) => {
                images[*variable as usize - 1] = 0;
                moved.remove(*variable);
                mentioned.insert(*variable);
                [Word(1), Word(*variable), Word(0), Word(parent)]
            }
            Entry::Replaces(variables, terms) => {
                for (&variable, &term) in variables.iter().zip(terms) {
                    images[variable as usize - 1] = term;
                    mentioned.insert(variable);
                    if *self.shape(term) == Shape::Variable(variable) {
                        moved.remove(variable);
                    } else {
                        moved.insert(variable);
                    }
                }
                [Word(2), List(self.list(variables)), List(self.list(terms)), Word(parent)]
            }
        };
        let made = Context { entry: entry.clone(), fields, images, moved, mentioned, parent };
        self.contexts.push(made);
        let number = self.contexts.len() as u32;
        self.known_contexts.insert((entry, parent), number);
        number
    }

    /// A new context equal to another one.
    pub fn copy_context(&mut self, context: u32) -> u32 {
        self.contexts.push(self.contexts[context as usize - 1].clone());
        self.contexts.len() as u32
    }

    pub fn parent(&self, context: u32) -> u32 {
        self.contexts[context as usize - 1].parent
    }

    pub fn entry(&self, context: u32) -> &Entry {
        &self.contexts[context as usize - 1].entry
    }

    pub fn moved(&self, context: u32) -> Set {
        if context == 0 { Set::EMPTY } else { self.contexts[context as usize - 1].moved }
    }

    pub fn mentioned(&self, context: u32) -> Set {
        if context == 0 { Set::EMPTY } else { self.contexts[context as usize - 1].mentioned }
    }

    /// Whether a context mentions every free variable of a term.
    pub fn in_scope(&self, context: u32, term: u32) -> bool {
        self.free(term).within(self.mentioned(context))
    }

    /// A context above this one that mentions the free variables of these terms, too: it fixes
    /// those that were not mentioned, so that no image changes.
    pub fn scope(&mut self, context: u32, terms: &[u32]) -> u32 {
        let free = terms.iter().fold(Set::EMPTY, |free, &term| free.union(self.free(term)));
        let stray = free.without(self.mentioned(context));
        stray.members().fold(context, |context, variable| self.fix(variable, context))
    }

    /// The term that replaces a variable in a context.
    pub fn image(&self, context: u32, variable: u32) -> Option<u32> {
        let context = self.contexts.get((context as usize).checked_sub(1)?)?;
        context.images.get(variable as usize - 1).copied().filter(|&term| term != 0)
    }

    pub fn settled(&self, context: u32, term: u32) -> bool {
        self.free(term).disjoint(self.moved(context))
    }

    pub fn add_step(
        &mut self,
        rule: u32,
        context: u32,
        left: u32,
        right: u32,
        premises: &[u32],
    ) -> u32 {
        let premises = List(self.list(premises));
        self.steps.push(Step { rule, context, left, right, premises });
        self.steps.len() as u32
    }

    /// A copy of a step as the last one, with its premises.
    pub fn repeat_step(&mut self, step: u32) -> u32 {
        self.steps.push(self.steps[step as usize - 1]);
        self.steps.len() as u32
    }

    pub fn step(&self, step: u32) -> Step {
        self.steps[step as usize - 1]
    }

    /// The premises of a step.
    pub fn premises(&self, step: u32) -> Vec<u32> {
        let List(mut cell) = self.step(step).premises else { return Vec::new() };
        let mut premises = Vec::new();
        while cell != 0 {
            let (value, tail) = self.cells[cell as usize - 1];
            premises.push(value);
            cell = tail;
        }
        premises
    }

    /// A link that no record uses.
    pub fn spare_link(&mut self, value: u32) {
        self.cells.push((value, 0));
    }

    /// The file that claims the last step.
    pub fn claim_last(&mut self) -> Vec<u32> {
        let (left, right) = self.steps.last().map_or((0, 0), |step| (step.left, step.right));
        self.words(left, right)
    }

    /// The file as words, with the given claim.
    pub fn words(&mut self, left: u32, right: u32) -> Vec<u32> {
        let numbers = self.link_numbers();
        let word = |field: Field| match field {
            Word(word) => word,
            List(cell) => numbers[cell as usize],
        };
        let counts = Counts::new(Section::ALL.map(|section| self.count(section)));
        let mut words = Vec::with_capacity(counts.words() as usize);
        words.push(1);
        words.extend(Section::ALL.map(|section| counts[section]));
        words.extend([left, right]);
        words.extend(self.symbols.iter().flat_map(|symbol| [symbol.result, word(symbol.list)]));
        words.extend(&self.variables);
        words.extend(self.terms.iter().flat_map(|term| term.fields.map(word)));
        let mut links = vec![[0; 2]; self.cells.len()];
        for (cell, &(value, tail)) in (1..).zip(&self.cells) {
            links[numbers[cell] as usize - 1] = [value, numbers[tail as usize]];
        }
        words.extend(links.into_iter().flatten());
        words.extend(self.contexts.iter().flat_map(|context| context.fields.map(word)));
        words.extend(self.steps.iter().flat_map(|step| {
            [step.rule, step.context, step.left, step.right, word(step.premises)]
        }));
        words
    }

    /// A number for each cell, a tail's above those of the cells before it: the
    /// order of making turned round, or mixed at random.
    fn link_numbers(&mut self) -> Vec<u32> {
        let count = self.cells.len();
        let mixed = self.rng.chance(30);
        let mut keys = vec![0; count + 1];
        for (cell, &(_, tail)) in (1..).zip(&self.cells) {
            let key = if mixed { self.rng.next_u32() } else { 0 };
            keys[cell] = key.max(keys[tail as usize]);
        }
        let mut order: Vec<usize> = (1..=count).collect();
        order.sort_by_key(|&cell| (keys[cell], cell));
        let mut numbers = vec![0; count + 1];
        for (place, cell) in order.into_iter().enumerate() {
            numbers[cell] = (count - place) as u32;
        }
        numbers
    }
}
