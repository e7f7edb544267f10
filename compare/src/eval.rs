//! Values of terms in finite worlds (document 01, "Values"; Req 07), to test that what
//! is accepted holds. A world has items 0 to n - 1, a meaning for each declared symbol, and a
//! pick for each sort. Truth is 0 or 1.

use crate::bundle::BUILT_IN;
use crate::naive::{Plain, Tree};
use crate::rng::Rng;
use std::collections::BTreeSet;

/// Larger meanings are computed from a seed instead of stored.
const LARGEST_TABLE: usize = 4096;

#[derive(Clone, Debug)]
enum Meaning {
    /// The result for each tuple of arguments, the last argument fastest.
    Table(Vec<u32>),
    /// A function drawn by hashing.
    Seeded(u64),
}

/// The pick of a sort: a value for each set of its values. Value v is in set s where bit v of
/// s is set, so that the same set always gives the same pick.
pub type Pick = Vec<u32>;

#[derive(Clone, Debug)]
pub struct World {
    items: u32,
    meanings: Vec<Meaning>,
    /// By sort.
    picks: [Pick; 2],
}

const SORTS: [u32; 2] = [0, 1];

fn size(sort: u32, items: u32) -> u32 {
    if sort == 0 { 2 } else { items }
}

/// What may be picked from each set: a member, or any value from the empty set.
fn choices(sort: u32, items: u32) -> Vec<Vec<u32>> {
    let values = size(sort, items);
    let members = |set: u32| (0..values).filter(move |value| set == 0 || set >> value & 1 == 1);
    (0..1 << values).map(|set| members(set).collect()).collect()
}

/// The number of argument tuples, if a table can hold them.
fn tuples(sorts: &[u32], items: u32) -> Option<usize> {
    sorts.iter().try_fold(1usize, |product, &sort| {
        product.checked_mul(size(sort, items) as usize).filter(|&product| product <= LARGEST_TABLE)
    })
}

impl World {
    pub fn random(plain: &Plain, items: u32, rng: &mut Rng) -> Self {
        let meanings = plain
            .symbols
            .iter()
            .map(|(result, sorts)| match tuples(sorts, items) {
                Some(tuples) => {
                    Meaning::Table((0..tuples).map(|_| rng.below(size(*result, items))).collect())
                }
                None => Meaning::Seeded(rng.next_u64()),
            })
            .collect();
        let picks = SORTS.map(|sort| {
            let choices = choices(sort, items);
            choices
                .iter()
                .map(|members| members[rng.below(members.len() as u32) as usize])
                .collect()
        });
        World { items, meanings, picks }
    }

    /// Every world with so many items, as far as what is `used` goes; `None`
    /// where there are more than `most`.
    pub fn all(plain: &Plain, items: u32, used: &Used, most: usize) -> Option<Vec<World>> {
        // Each table entry is a digit; its base is the result's size. A symbol with one
        // meaning only, or that is not used, needs no table.
        let mut bases = Vec::new();
        let mut tables = Vec::new();
        let mut worlds = 1usize;
        for (index, (result, sorts)) in plain.symbols.iter().enumerate() {
            let base = size(*result, items);
            if base == 1 || !used.symbols.contains(&(BUILT_IN + 1 + index as u32)) {
                tables.push(None);
                continue;
            }
            let entries = tuples(sorts, items)?;
            for _ in 0..entries {
                worlds = worlds.checked_mul(base as usize).filter(|&worlds| worlds <= most)?;
            }
            bases.extend(std::iter::repeat_n(base, entries));
            tables.push(Some(entries));
        }
        // So is what is picked from each set, of those that may be picked.
        let choices = SORTS.map(|sort| {
            let mut choices = choices(sort, items);
            if !used.picks.contains(&sort) {
                choices.iter_mut().for_each(|members| members.truncate(1));
            }
            choices
        });
        for members in choices.iter().flatten() {
            worlds = worlds.checked_mul(members.len()).filter(|&worlds| worlds <= most)?;
            bases.push(members.len() as u32);
        }
        let mut digits = vec![0; bases.len()];
        let mut found = Vec::with_capacity(worlds);
        loop {
            let mut rest = digits.as_slice();
            let mut take = |count: usize| {
                let (taken, others) = rest.split_at(count);
                rest = others;
                taken
            };
            let meanings = tables
                .iter()
                .map(|&entries| match entries {
                    Some(entries) => Meaning::Table(take(entries).to_vec()),
                    None => Meaning::Seeded(0),
                })
                .collect();
            let picks = choices.each_ref().map(|choices| {
                let places = take(choices.len());
                choices
                    .iter()
                    .zip(places)
                    .map(|(members, &place)| members[place as usize])
                    .collect()
            });
            found.push(World { items, meanings, picks });
            let Some(place) = (0..digits.len()).find(|&place| digits[place] + 1 < bases[place])
            else {
                return Some(found);
            };
            digits[..place].fill(0);
            digits[place] += 1;
        }
    }

    /// The world in which each declared symbol has the given table, and the least value is
    /// picked.
    pub fn with_tables(items: u32, tables: &[&[u32]]) -> Self {
        World {
            items,
            meanings: tables.iter().map(|table| Meaning::Table(table.to_vec())).collect(),
            picks: SORTS
                .map(|sort| choices(sort, items).iter().map(|members| members[0]).collect()),
        }
    }

    /// The same with these picks, of truth and of items.
    pub fn picking(self, picks: [Pick; 2]) -> Self {
        World { picks, ..self }
    }

    /// What is picked from the set of the values of a sort for which a test holds.
    fn pick(&self, sort: u32, set: usize) -> u32 {
        self.picks[sort as usize][set]
    }

    fn apply(&self, plain: &Plain, symbol: u32, arguments: &[u32]) -> u32 {
        match (symbol, arguments) {
            (1, []) => 1,
            (2, []) => 0,
            (3, [a]) => 1 - a,
            (4, [a, b]) => a & b,
            (5, [a, b]) => a | b,
            (6, [a, b]) => (1 - a) | b,
            (7 | 8, [a, b]) => u32::from(a == b),
            _ => {
                let index = (symbol - BUILT_IN) as usize - 1;
                let (result, sorts) = &plain.symbols[index];
                match &self.meanings[index] {
                    Meaning::Table(table) => {
                        let place =
                            sorts.iter().zip(arguments).fold(0, |place, (&sort, &argument)| {
                                place * size(sort, self.items) as usize + argument as usize
                            });
                        table[place]
                    }
                    Meaning::Seeded(seed) => {
                        let drawn = arguments.iter().fold(*seed, |seed, &argument| {
                            Rng::for_file(seed, argument.into()).next_u64()
                        });
                        Rng::new(drawn).below(size(*result, self.items))
                    }
                }
            }
        }
    }
}

/// The work was more than allowed, so nothing is known.
#[derive(Clone, Copy, Debug, PartialEq, Eq)]
pub struct TooMuch;

/// Evaluates terms of one file in one world, visiting at most `fuel` nodes.
#[derive(Debug)]
pub struct Evaluator<'a> {
    plain: &'a Plain,
    world: &'a World,
    /// What each variable takes, by number - 1.
    pub values: Vec<u32>,
    fuel: u64,
}

impl<'a> Evaluator<'a> {
    pub fn new(plain: &'a Plain, world: &'a World, fuel: u64) -> Self {
        Evaluator { plain, world, values: vec![0; plain.variables.len()], fuel }
    }

    pub fn value(&mut self, term: u32) -> Result<u32, TooMuch> {
        self.fuel = self.fuel.checked_sub(1).ok_or(TooMuch)?;
        match self.plain.tree(term) {
            Tree::Variable(variable) => Ok(self.values[*variable as usize - 1]),
            Tree::Application(symbol, arguments) => {
                let values: Result<Vec<u32>, TooMuch> =
                    arguments.iter().map(|&argument| self.value(argument)).collect();
                Ok(self.world.apply(self.plain, *symbol, &values?))
            }
            Tree::ForAll(variable, body) => self.quantified(*variable, *body, 0),
            Tree::Exists(variable, body) => self.quantified(*variable, *body, 1),
            Tree::Choice(variable, body) => self.chosen(*variable, *body),
            Tree::Let(variables, bounds, body) => {
                let values: Result<Vec<u32>, TooMuch> =
                    bounds.iter().map(|&bound| self.value(bound)).collect();
                // Values of the let's variables, exchanged for those outside and back.
                let mut values = values?;
                self.exchange(variables, &mut values);
                let value = self.value(*body);
                self.exchange(variables, &mut values);
                value
            }
        }
    }

    /// `decisive` once the body has that value somewhere, else its opposite.
    fn quantified(&mut self, variable: u32, body: u32, decisive: u32) -> Result<u32, TooMuch> {
        let place = variable as usize - 1;
        let before = self.values[place];
        let mut value = Ok(1 - decisive);
        for taken in 0..size(self.plain.variables[place], self.world.items) {
            self.values[place] = taken;
            match self.value(body) {
                Ok(found) if found != decisive => {}
                other => {
                    value = other;
                    break;
                }
            }
        }
        self.values[place] = before;
        value
    }

    /// The pick from the set of the values for which the body is true.
    fn chosen(&mut self, variable: u32, body: u32) -> Result<u32, TooMuch> {
        let place = variable as usize - 1;
        let sort = self.plain.variables[place];
        let before = self.values[place];
        let mut set = Ok(0);
        for taken in 0..size(sort, self.world.items) {
            self.values[place] = taken;
            match self.value(body) {
                Ok(holds) => set = set.map(|set| set | (holds as usize) << taken),
                Err(TooMuch) => {
                    set = Err(TooMuch);
                    break;
                }
            }
        }
        self.values[place] = before;
        set.map(|set| self.world.pick(sort, set))
    }

    /// Exchanges what these variables, all different, take for other values.
    fn exchange(&mut self, variables: &[u32], values: &mut [u32]) {
        for (&variable, value) in variables.iter().zip(values) {
            std::mem::swap(&mut self.values[variable as usize - 1], value);
        }
    }

    /// Random values for these variables.
    fn randomise(&mut self, variables: impl IntoIterator<Item = u32>, rng: &mut Rng) {
        for place in variables.into_iter().map(|variable| variable as usize - 1) {
            self.values[place] = rng.below(size(self.plain.variables[place], self.world.items));
        }
    }
}

/// What of a world the values of some terms depend on.
#[derive(Clone, Debug, Default)]
pub struct Used {
    /// Declared symbols.
    pub symbols: BTreeSet<u32>,
    /// The sorts of choices.
    pub picks: BTreeSet<u32>,
}

/// What these terms and the terms below them use.
pub fn used_in(plain: &Plain, terms: &[u32]) -> Used {
    let mut used = Used::default();
    let mut seen = BTreeSet::new();
    let mut pending = terms.to_vec();
    while let Some(term) = pending.pop() {
        if !seen.insert(term) {
            continue;
        }
        match plain.tree(term) {
            Tree::Variable(_) => {}
            Tree::Application(symbol, arguments) => {
                used.symbols.extend(Some(*symbol).filter(|&symbol| symbol > BUILT_IN));
                pending.extend(arguments);
            }
            Tree::ForAll(_, body) | Tree::Exists(_, body) => pending.push(*body),
            Tree::Let(_, bounds, body) => {
                pending.extend(bounds);
                pending.push(*body);
            }
            Tree::Choice(variable, body) => {
                used.picks.insert(plain.variables[*variable as usize - 1]);
                pending.push(*body);
            }
        }
    }
    used
}

/// How a claim was tested.
#[derive(Clone, Copy, Debug, Default, PartialEq, Eq)]
pub struct Tested {
    pub worlds: usize,
    /// Every world of 1 and of 2 items was among them, as far as the claim's symbols
    /// and choices go, each with every value of the claim's free variables.
    pub all_small: bool,
    /// Evaluations that were given up.
    pub given_up: usize,
}

/// Up to so many free variables, all their values are tried.
const FREE: usize = 6;

/// Compares the claim's sides in worlds of 1 and of 2 items, all of them where there
/// are at most `most` of a size, else 12 random ones, and in 4 random worlds of 3
/// items. In those of 1 and 2 items for every value of the free variables where
/// these are few, else, and with 3 items, for up to 64 random ones.
pub fn claim_holds(plain: &Plain, most: usize, rng: &mut Rng) -> Result<Tested, String> {
    let (left, right) = (plain.left, plain.right);
    let used = used_in(plain, &[left, right]);
    let free: Vec<u32> = plain.free(left).union(plain.free(right)).copied().collect();
    let mut tested = Tested { all_small: free.len() <= FREE, ..Tested::default() };
    let mut worlds = Vec::new();
    for items in 1..=2 {
        match World::all(plain, items, &used, most) {
            Some(all) => worlds.extend(all),
            None => {
                tested.all_small = false;
                worlds.extend((0..12).map(|_| World::random(plain, items, rng)));
            }
        }
    }
    worlds.extend((0..4).map(|_| World::random(plain, 3, rng)));
    for world in &worlds {
        tested.worlds += 1;
        let mut evaluator = Evaluator::new(plain, world, 40_000);
        for assignment in 0..1u32 << free.len().min(FREE) {
            evaluator.randomise(free.iter().copied(), rng);
            if world.items <= 2 && free.len() <= FREE {
                for (place, &variable) in free.iter().enumerate() {
                    let largest = size(plain.variables[variable as usize - 1], world.items) - 1;
                    evaluator.values[variable as usize - 1] =
                        (assignment >> place & 1).min(largest);
                }
            }
            match (evaluator.value(left), evaluator.value(right)) {
                (Ok(a), Ok(b)) if a != b => {
                    return Err(format!(
                        "left {left} is {a} and right {right} is {b} in {world:?}"
                    ));
                }
                (Ok(_), Ok(_)) => {}
                _ => tested.given_up += 1,
            }
        }
    }
    Ok(tested)
}

/// What a step says of its context: left, where each variable takes the value
/// of its image, has right's value. Tested for random worlds and values.
pub fn steps_hold(plain: &Plain, tries: u32, rng: &mut Rng) -> Result<(), String> {
    for (number, step) in (1..).zip(&plain.steps) {
        for _ in 0..tries {
            let items = rng.between(1, 3);
            let world = World::random(plain, items, rng);
            let mut outside = Evaluator::new(plain, &world, 20_000);
            outside.randomise(1..=plain.variables.len() as u32, rng);
            let right = outside.value(step.right);
            let mut inside = Evaluator::new(plain, &world, 20_000);
            inside.values.clone_from(&outside.values);
            let mut complete = true;
            for variable in plain.free(step.left).iter().copied() {
                if let Some(term) = plain.image(step.context, variable) {
                    match outside.value(term) {
                        Ok(value) => inside.values[variable as usize - 1] = value,
                        Err(TooMuch) => complete = false,
                    }
                }
            }
            let left = inside.value(step.left);
            if let (Ok(a), Ok(b), true) = (left, right, complete)
                && a != b
            {
                return Err(format!("step {number}: left is {a}, right is {b} in {world:?}"));
            }
        }
    }
    Ok(())
}
