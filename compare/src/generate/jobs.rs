//! Jobs for the writer.

use super::builder::{BINDERS, Builder, CHOICE, EXISTS, FOR_ALL, ITEM, TRUTH};
use super::derive::Care;
use super::{derivation, examples, limits};
use crate::bundle::{LEFT, MAX_BYTES, RIGHT, Section, counts_of, to_bytes};
use crate::damage::{Draft, random_bytes, random_words};
use crate::expand::{Names, written};
use crate::fault::OLD_VARIABLES;
use crate::rng::Rng;

#[derive(Clone, Copy, Debug, PartialEq, Eq, PartialOrd, Ord, Hash)]
pub enum JobFamily {
    /// Closed rules.
    Closed,
    /// Closed rules about names that are kept, or not, or only just.
    Named,
    /// Rules with free variables, often too large as well.
    Open,
    /// Jobs whose expansion fills a section, or needs one record more.
    Limit,
    /// Contexts, steps or a right word; a left that is no term.
    NotBare,
    /// Faults.
    Damaged,
    /// Random words and bytes.
    Random,
}

#[derive(Clone, Debug)]
pub struct Job {
    pub family: JobFamily,
    pub bytes: Vec<u8>,
}

/// Job `index` of the run `seed`.
pub fn job(seed: u64, index: u64) -> Job {
    // A stream of its own, apart from that of the files.
    let mut rng = Rng::for_file(seed ^ 0x6a6f_6273, index);
    let family = match rng.below(100) {
        0..26 => JobFamily::Closed,
        26..42 => JobFamily::Named,
        42..50 => JobFamily::Open,
        50..58 => JobFamily::Limit,
        58..66 => JobFamily::NotBare,
        66..95 => JobFamily::Damaged,
        _ => JobFamily::Random,
    };
    let words = match family {
        JobFamily::Closed => closed(rng),
        JobFamily::Named => named(rng),
        JobFamily::Open => open(rng),
        JobFamily::Limit => {
            let past = rng.chance(50);
            at_limit(rng, past)
        }
        JobFamily::NotBare => not_bare(rng),
        JobFamily::Damaged => {
            let mut draft = Draft::new(match rng.below(10) {
                0 => examples::JOB.to_vec(),
                1..4 => named(rng.clone()),
                _ => closed(rng.clone()),
            });
            if rng.chance(70) {
                draft.spoil(&mut rng);
            } else {
                draft.spoil_many(&mut rng);
            }
            return Job { family, bytes: draft.bytes() };
        }
        JobFamily::Random => {
            let bytes =
                if rng.chance(70) { random_words(&mut rng, true) } else { random_bytes(&mut rng) };
            return Job { family, bytes };
        }
    };
    Job { family, bytes: to_bytes(&words) }
}

fn builder(mut rng: Rng) -> Builder {
    let sharing = rng.one_of([0, 30, 70, 100]);
    // The formulas of some jobs are texts.
    let choices = rng.chance(60);
    let mut builder = Builder::new(rng, sharing);
    if !choices {
        builder = builder.without_choices();
    }
    builder.random_signature();
    builder
}

/// A rule without free variables.
pub fn closed(rng: Rng) -> Vec<u32> {
    let mut b = builder(rng);
    let sort = b.rng.one_of([TRUTH, TRUTH, TRUTH, ITEM]);
    let depth = b.rng.between(1, 6);
    let term = b.random_compound(sort, depth);
    let rule = b.close(term);
    // Terms that the rule does not need may still be found by the writer.
    for _ in 0..b.rng.below(3) {
        let sort = b.rng.below(2);
        b.random_term(sort, 2);
    }
    b.words(rule, 0)
}

/// A rule about names, with variables of its own that random choices do not draw: each is
/// bound by one record or by more, or listed by a let, in the rule or beside it.
pub fn named(rng: Rng) -> Vec<u32> {
    let (mut b, rule) = named_rule(rng);
    b.words(rule, 0)
}

fn named_rule(rng: Rng) -> (Builder, u32) {
    let mut b = builder(rng);
    let count = b.rng.between(1, 6).min(b.room(Section::Variables));
    let mut own: Vec<u32> = (0..count)
        .map(|_| {
            let sort = if b.rng.chance(70) { ITEM } else { TRUTH };
            b.spare_variable(sort)
        })
        .collect();
    if own.is_empty() {
        own = b.drawn().to_vec();
    }
    beside(&mut b, &own);
    let mut rule = b.random_term(TRUTH, 1);
    for &x in &own {
        // One that does not occur often has no term.
        if b.rng.chance(75) {
            let x_term = b.variable_term(x);
            let mut atom = x_term;
            if b.variable_sort(x) == ITEM {
                let other = b.random_leaf(ITEM);
                atom = b.apply(8, &[x_term, other]);
            }
            let connective = b.rng.between(4, 7);
            rule = b.apply(connective, &[atom, rule]);
        }
    }
    b.rng.shuffle(&mut own);
    for &x in &own {
        rule = bound(&mut b, x, rule);
    }
    let rule = b.close(rule);
    beside(&mut b, &own);
    (b, rule)
}

/// Binds a variable in a rule: mostly once.
fn bound(b: &mut Builder, x: u32, rule: u32) -> u32 {
    let kind = b.random_kind();
    let other = b.another_kind(kind);
    let one = match b.rng.below(12) {
        // No binder of one variable at all.
        0 => return listed(b, x, rule),
        _ => b.bind_as_truth(kind, x, rule),
    };
    let parts = match b.rng.below(12) {
        // Another record binds it too: of another kind, another body, around the first.
        0 => [one, b.bind_as_truth(other, x, rule)],
        1 => {
            let negated = b.apply(3, &[rule]);
            [one, b.bind_as_truth(kind, x, negated)]
        }
        2 => {
            let kind = b.rng.one_of([kind, other]);
            return b.bind_as_truth(kind, x, one);
        }
        // A let lists it beside the binder.
        3 => [one, listed(b, x, rule)],
        // One record is visited twice, in the same context or in two.
        4 => [one, one],
        5 | 6 => {
            let drawn = b.free(one).members().find(|variable| b.drawn().contains(variable));
            let variable = drawn.unwrap_or_else(|| b.draw_variable());
            let sort = b.variable_sort(variable);
            [0, 1].map(|_| {
                let value = b.random_term(sort, 1);
                b.bind_let(&[variable], &[value], one)
            })
        }
        _ => return one,
    };
    let connective = b.rng.between(4, 7);
    b.apply(connective, &parts)
}

/// A let that lists a variable, first or after another one.
fn listed(b: &mut Builder, x: u32, body: u32) -> u32 {
    let mut variables = vec![x];
    let before = b.draw_variable();
    if before != x && b.rng.chance(60) {
        variables.insert(0, before);
    }
    let bounds: Vec<u32> = variables
        .iter()
        .map(|&variable| {
            let sort = b.variable_sort(variable);
            b.random_leaf(sort)
        })
        .collect();
    b.bind_let(&variables, &bounds, body)
}

/// Records that the rule does not need: for a few of the variables a term, a binder or a let.
fn beside(b: &mut Builder, own: &[u32]) {
    for &x in own {
        match b.rng.below(12) {
            0 => _ = b.variable_term(x),
            1 => {
                let (body, kind) = (b.random_leaf(TRUTH), b.random_kind());
                b.bind(kind, x, body);
            }
            2 => {
                let body = b.random_leaf(TRUTH);
                listed(b, x, body);
            }
            _ => {}
        }
    }
}

/// A rule with free variables; sometimes its expansion does not fit either.
fn open(rng: Rng) -> Vec<u32> {
    let mut b = builder(rng);
    let variable = b.variable(TRUTH);
    let mut term = b.variable_term(variable);
    if b.rng.chance(50) {
        let depth = b.rng.between(1, 3);
        let other = b.random_term(TRUTH, depth);
        term = b.apply(4, &[term, other]);
    }
    if b.rng.chance(40) {
        for _ in 0..12 {
            term = b.apply(5, &[term, term]);
        }
    }
    if b.rng.chance(30) {
        // Another variable closed, this one not.
        let other = b.drawn()[0];
        term = b.bind(FOR_ALL, other, term);
    }
    b.words(term, 0)
}

fn not_bare(mut rng: Rng) -> Vec<u32> {
    match rng.below(5) {
        // Contexts and steps of a derivation, with or without its right side.
        0 | 1 => {
            let mut words = derivation(rng.clone(), Care::Full);
            if rng.chance(50) {
                words[RIGHT] = 0;
            }
            words
        }
        2 => {
            let mut words = closed(rng.clone());
            words[RIGHT] = rng.one_of([1, 2, u32::MAX]);
            if rng.chance(30) {
                words[LEFT] = 0;
            }
            words
        }
        3 => {
            let mut words = closed(rng.clone());
            let terms = words[1 + Section::Terms as usize];
            words[LEFT] = rng.one_of([0, terms + 1, u32::MAX]);
            words
        }
        _ => {
            let mut b = builder(rng);
            let term = b.random_compound(TRUTH, 2);
            let rule = b.close(term);
            b.fix(1, 0);
            b.words(rule, 0)
        }
    }
}

/// A job whose written file has a section exactly at its limit, under one of the choices
/// of names; one record more where `past`.
fn at_limit(mut rng: Rng, past: bool) -> Vec<u32> {
    let more = u32::from(past);
    match rng.below(6) {
        0 => many_lets(rng, Section::Contexts.limit() + more),
        1 => many_steps(rng, Section::Steps.limit() + more),
        2 => {
            // Renamed, they have all variables; kept, they need none. A quantifier takes two
            // contexts.
            let most = Section::Contexts.limit() / 2;
            let count = rng.between(1, most + 1);
            many_names(rng, count, count.max(Section::Variables.limit() - count + more))
        }
        choice => {
            let (mut b, rule) = if rng.chance(50) {
                named_rule(rng)
            } else {
                let mut b = builder(rng);
                let depth = b.rng.between(2, 4);
                let term = b.random_compound(TRUTH, depth);
                let rule = b.close(term);
                (b, rule)
            };
            // Bound in what fills up, so that no name of the rule's is bound again.
            let spare = (b.room(Section::Variables) > 0).then(|| b.spare_variable(TRUTH));
            let job = b.words(rule, 0);
            let names = b.rng.one_of(Names::ALL);
            let Ok(file) = written(&to_bytes(&job), names) else { return job };
            let after = counts_of(&file).unwrap_or_default();
            let section = match choice {
                3 => Section::Variables,
                4 => Section::Terms,
                _ => Section::Links,
            };
            let grown = after[section] - b.count(section);
            let target = section.limit() - grown + more;
            match spare {
                Some(spare) if section == Section::Terms => fill_terms(&mut b, spare, target),
                _ => limits::fill(&mut b, section, target),
            }
            b.words(rule, 0)
        }
    }
}

/// Adds binders of this truth variable, one on the other, until there are so many terms.
fn fill_terms(b: &mut Builder, variable: u32, target: u32) {
    let mut last = b.apply(1, &[]);
    while b.count(Section::Terms) < target {
        let kind = b.rng.one_of(BINDERS);
        last = b.bind(kind, variable, last);
    }
}

/// How many quantifiers the benchmark's rule of them has: all that fit, with new names too.
pub const QUANTIFIERS: u32 = 128;

/// So many quantifiers over different variables, a few of them over truth values.
pub fn quantified(count: u32) -> Vec<u32> {
    many_names(Rng::new(1), count, count)
}

/// How many choices the benchmark's rule of them has: nearly all that fit, with new names too.
pub const CHOICES: u32 = 96;

/// A conjunction over so many choices of different variables.
pub fn chosen(count: u32) -> Vec<u32> {
    let mut b = Builder::new(Rng::new(1), 100);
    let a = b.symbol(ITEM, &[]);
    let p = b.symbol(TRUTH, &[ITEM, ITEM]);
    let a_term = b.apply(a, &[]);
    let mut rule = b.apply(1, &[]);
    for _ in 0..count {
        let x = b.spare_variable(ITEM);
        let x_term = b.variable_term(x);
        let body = b.apply(p, &[x_term, a_term]);
        let choice = b.bind(CHOICE, x, body);
        let atom = b.apply(p, &[choice, a_term]);
        rule = b.apply(4, &[atom, rule]);
    }
    b.words(rule, 0)
}

/// Quantifiers over the first of these variables, which occur in pairs; one without a
/// partner has no term.
fn many_names(rng: Rng, quantifiers: u32, variables: u32) -> Vec<u32> {
    let mut b = Builder::new(rng, 100);
    let p = b.symbol(TRUTH, &[ITEM, ITEM]);
    for index in 0..variables {
        b.spare_variable(if index / 2 % 4 == 3 { TRUTH } else { ITEM });
    }
    let own: Vec<u32> = (1..=quantifiers).collect();
    let mut rule = b.apply(1, &[]);
    for pair in own.chunks_exact(2) {
        let symbol = if b.variable_sort(pair[0]) == TRUTH { 7 } else { p };
        let (one, other) = (b.variable_term(pair[0]), b.variable_term(pair[1]));
        let atom = b.apply(symbol, &[one, other]);
        rule = b.apply(4, &[atom, rule]);
    }
    for (index, &variable) in own.iter().enumerate().rev() {
        let kind = if index % 3 == 2 { EXISTS } else { FOR_ALL };
        rule = b.bind(kind, variable, rule);
    }
    b.words(rule, 0)
}

/// Nested lets, some over several variables and some shadowing, with `contexts`
/// contexts in their expansion.
pub fn many_lets(rng: Rng, contexts: u32) -> Vec<u32> {
    let mut b = Builder::new(rng, 100);
    let a = b.symbol(ITEM, &[]);
    let p = b.symbol(TRUTH, &[ITEM, ITEM]);
    let variables: Vec<u32> = (0..4).map(|_| b.variable(ITEM)).collect();
    let terms: Vec<u32> = variables.iter().map(|&variable| b.variable_term(variable)).collect();
    let a_term = b.apply(a, &[]);
    let mut rule = b.apply(p, &[terms[0], terms[1]]);
    for _ in 0..contexts {
        let first = b.rng.below(4) as usize;
        rule = b.bind_let(&[variables[first]], &[a_term], rule);
    }
    // Every let costs one context. Variables that are still free are bound by
    // one more let, which takes the place of the outermost.
    if !b.free(rule).is_empty() {
        let super::builder::Shape::Let(_, _, body) = b.shape(rule).clone() else {
            return b.words(rule, 0);
        };
        rule = b.bind_let(&variables, &[a_term; 4], body);
    }
    b.words(rule, 0)
}

/// A term without variables that takes `steps` visits, shared as far as it can
/// be.
pub fn many_steps(rng: Rng, steps: u32) -> Vec<u32> {
    let mut b = Builder::new(rng, 100);
    let kind = b.rng.one_of([FOR_ALL, EXISTS]);
    let variable = b.variable(ITEM);
    let mut full = vec![(b.apply(1, &[]), 1)];
    while let Some(&(term, visits)) = full.last() {
        if 2 * visits + 1 > steps {
            break;
        }
        full.push((b.apply(4, &[term, term]), 2 * visits + 1));
    }
    // Now and then a quantifier on top costs a step and two contexts.
    let quantified = b.rng.chance(30) && steps > 8;
    let rule = with_visits(&mut b, &full, steps - u32::from(quantified));
    let rule = if quantified { b.bind(kind, variable, rule) } else { rule };
    b.words(rule, 0)
}

/// A term of exactly so many visits, out of terms with known ones.
fn with_visits(b: &mut Builder, full: &[(u32, u32)], visits: u32) -> u32 {
    if let Some(&(term, _)) = full.iter().find(|&&(_, own)| own == visits) {
        return term;
    }
    let part = full.iter().rev().find(|&&(_, own)| own + 2 <= visits);
    match part {
        Some(&(term, own)) => {
            let rest = with_visits(b, full, visits - 1 - own);
            b.apply(4, &[term, rest])
        }
        None => {
            let rest = with_visits(b, full, visits - 1);
            b.apply(3, &[rest])
        }
    }
}

/// The largest job of its kind whose written file `fits`, for the benchmark, with all names
/// renamed. Its rule is a conjunction of parts that let, quantify and apply.
pub fn largest(fits: impl Fn(&[u8]) -> bool) -> Vec<u32> {
    conjunction(largest_width(fits)).0
}

fn largest_width(fits: impl Fn(&[u8]) -> bool) -> u32 {
    let file = |width: u32| written(&to_bytes(&conjunction(width).0), Names::RenameAll);
    (1..).take_while(|&width| file(width).is_ok_and(|file| fits(&file))).last().unwrap_or(1)
}

/// The longest file before Req 02, and the variables it could have. The benchmark's
/// expansions keep to both, so that its runs are about the same files.
pub const OLD_BYTES: usize = MAX_BYTES - 4 * (Section::Variables.limit() - OLD_VARIABLES) as usize;

/// A job whose written file has nearly so many bytes. Where the rule cannot be
/// larger, terms, links, variables and symbols that it does not need fill up.
pub fn of_size(bytes: usize) -> Vec<u32> {
    let (job, mut b, rule) = conjunction(largest_width(|file| file.len() <= bytes));
    let Ok(file) = written(&to_bytes(&job), Names::RenameAll) else { return job };
    let after = counts_of(&file).unwrap_or_default();
    let mut missing = bytes.saturating_sub(file.len());
    for section in [Section::Terms, Section::Links, Section::Variables, Section::Symbols] {
        let record = 4 * section.width();
        let limit = if section == Section::Variables { OLD_VARIABLES } else { section.limit() };
        let more = (missing / record).min(limit.saturating_sub(after[section]) as usize);
        missing -= more * record;
        let target = b.count(section) + more as u32;
        limits::fill(&mut b, section, target);
    }
    b.words(rule, 0)
}

/// What a conjunction is made of: twelve items, a function f, a relation p, and the
/// variables x and y.
pub fn signature() -> (Builder, Vec<u32>, [u32; 4]) {
    let mut b = Builder::new(Rng::new(1), 0);
    let constants: Vec<u32> = (0..12).map(|_| b.symbol(ITEM, &[])).collect();
    let f = b.symbol(ITEM, &[ITEM]);
    let p = b.symbol(TRUTH, &[ITEM, ITEM]);
    let (x, y) = (b.variable(ITEM), b.variable(ITEM));
    (b, constants, [f, p, x, y])
}

/// A conjunction of `width` parts, as a job, with its builder and rule.
pub fn conjunction(width: u32) -> (Vec<u32>, Builder, u32) {
    let (mut b, constants, [f, p, x, y]) = signature();
    let (x_term, y_term) = (b.variable_term(x), b.variable_term(y));
    let f_x = b.apply(f, &[x_term]);
    let p_x_y = b.apply(p, &[x_term, y_term]);
    let (one_way, other_way) = (b.apply(p, &[f_x, x_term]), b.apply(p, &[x_term, f_x]));
    let both_ways = b.apply(6, &[one_way, other_way]);
    let swapped = b.bind_let(&[x, y], &[y_term, x_term], p_x_y);
    let over_f = b.bind_let(&[y], &[f_x], p_x_y);
    let mut rule = b.apply(1, &[]);
    for part in 0..width {
        let value = b.apply(constants[part as usize % constants.len()], &[]);
        let body = match part % 4 {
            0 => b.bind_let(&[x], &[value], both_ways),
            1 => b.bind(FOR_ALL, x, over_f),
            2 => b.bind_let(&[x, y], &[value, value], swapped),
            _ => {
                let exists = b.bind(EXISTS, y, swapped);
                b.bind_let(&[x], &[value], exists)
            }
        };
        rule = b.apply(4, &[body, rule]);
    }
    (b.words(rule, 0), b, rule)
}
