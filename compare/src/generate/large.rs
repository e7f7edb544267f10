//! Large derivations of given shapes, for the comparison and the benchmark.

use super::builder::{Builder, CHOICE, EXISTS, FOR_ALL, ITEM, NOT, TRUTH};
use super::derive::{BIND, CONG, Care, Derivation, LET, REFL, sko};
use super::limits;
use crate::bundle::Section;
use crate::rng::Rng;

/// `depth` contexts above one another, and steps up to `steps` that ask the
/// deepest for images of variables replaced far below.
pub fn deep_contexts(rng: Rng, depth: u32, steps: u32) -> Vec<u32> {
    let mut b = Builder::new(rng, 100);
    let a = b.symbol(ITEM, &[]);
    let f = b.symbol(ITEM, &[ITEM]);
    let variables: Vec<u32> = (0..24).map(|_| b.variable(ITEM)).collect();
    let variable_terms: Vec<u32> =
        variables.iter().map(|&variable| b.variable_term(variable)).collect();
    let mut value = b.apply(a, &[]);
    // The first few variables are replaced at the bottom and never again.
    let mut context = 0;
    for index in 0..depth as usize {
        context = match index {
            0..8 => {
                value = b.apply(f, &[value]);
                b.replace(&[variables[index]], &[value], context)
            }
            _ if index % 2 == 0 => b.fix(variables[8 + index % 16], context),
            _ => b.replace(&[variables[8 + index % 16]], &[value], context),
        };
    }
    while b.count(Section::Steps) + 3 < steps {
        let place = b.rng.below(8) as usize;
        let image = b.image(context, variables[place]).unwrap_or(variable_terms[place]);
        let carried = b.add_step(REFL, context, variable_terms[place], image, &[]);
        let (left, right) = (b.apply(f, &[variable_terms[place]]), b.apply(f, &[image]));
        b.add_step(CONG, context, left, right, &[carried]);
    }
    b.add_step(REFL, 0, value, value, &[]);
    b.claim_last()
}

/// Applications with `arguments` arguments that share all but their first, and
/// CONG steps up to `steps` over shared premises.
pub fn long_lists(rng: Rng, arguments: usize, steps: u32) -> Vec<u32> {
    let mut b = Builder::new(rng, 100);
    let a = b.symbol(ITEM, &[]);
    let g = b.symbol(TRUTH, &vec![ITEM; arguments]);
    let heads: Vec<u32> = (0..8).map(|_| b.variable(ITEM)).collect();
    let tail = b.variable(ITEM);
    let tail_term = b.variable_term(tail);
    let a_term = b.apply(a, &[]);
    let fixing = heads.iter().fold(0, |parent, &head| b.fix(head, parent));
    let context = b.replace(&[tail], &[a_term], fixing);
    let tail_step = b.add_step(REFL, context, tail_term, a_term, &[]);
    let mut last = (0, 0, 0);
    while b.count(Section::Steps) + 2 < steps || last.0 == 0 {
        let head = heads[b.rng.below(8) as usize];
        let head_term = b.variable_term(head);
        let premise = b.add_step(REFL, context, head_term, head_term, &[]);
        let row = |head: u32, tail: u32| {
            let mut row = vec![tail; arguments];
            row[0] = head;
            row
        };
        let left = b.apply(g, &row(head_term, tail_term));
        let right = b.apply(g, &row(head_term, a_term));
        let step = b.add_step(CONG, context, left, right, &row(premise, tail_step));
        last = (step, left, right);
    }
    b.add_step(REFL, 0, a_term, a_term, &[]);
    b.claim_last()
}

/// `count` terms, each a symbol of one argument on one before it, and a CONG step
/// for each.
pub fn many_terms(rng: Rng, count: u32) -> Vec<u32> {
    let mut b = Builder::new(rng, 100);
    let a = b.symbol(ITEM, &[]);
    let symbols: [u32; 8] = std::array::from_fn(|_| b.symbol(ITEM, &[ITEM]));
    let mut terms = vec![b.apply(a, &[])];
    let mut last = b.add_step(CONG, 0, terms[0], terms[0], &[]);
    while (terms.len() as u32) < count {
        let symbol = b.rng.one_of(symbols);
        let argument = terms[terms.len() - 1];
        let term = b.apply(symbol, &[argument]);
        last = b.add_step(CONG, 0, term, term, &[last]);
        terms.push(term);
    }
    b.claim_last()
}

/// One CONG step whose lists together take every link: sorts, arguments and
/// premises, none shared.
pub fn full_lists(rng: Rng) -> Vec<u32> {
    let mut b = Builder::new(rng, 0);
    let count = 407;
    let a = b.symbol(ITEM, &[]);
    let g = b.symbol(TRUTH, &vec![ITEM; count]);
    let x = b.variable(ITEM);
    let (x_term, a_term) = (b.variable_term(x), b.apply(a, &[]));
    let context = b.replace(&[x], &[a_term], 0);
    let (left, right) = (b.apply(g, &vec![x_term; count]), b.apply(g, &vec![a_term; count]));
    let bound = b.bind_let(&[x], &[a_term], left);
    let premises: Vec<u32> =
        (0..count).map(|_| b.add_step(REFL, context, x_term, a_term, &[])).collect();
    let under = b.add_step(CONG, context, left, right, &premises);
    let constant = b.add_step(CONG, 0, a_term, a_term, &[]);
    let expanded = b.add_step(LET, 0, bound, right, &[constant, under]);
    // The same once more, so that the premises are walked twice.
    let again = b.add_step(CONG, context, left, right, &premises);
    b.add_step(LET, 0, bound, right, &[constant, again]);
    b.repeat_step(expanded);
    limits::fill(&mut b, Section::Links, Section::Links.limit());
    b.claim_last()
}

/// `depth` quantifiers of both kinds and sorts, all renamed by BIND, again and
/// again while contexts and steps last (up to `steps`).
pub fn many_quantifiers(rng: Rng, depth: usize, steps: u32) -> Vec<u32> {
    let mut b = Builder::new(rng, 100);
    let p = b.symbol(TRUTH, &[ITEM, ITEM]);
    let sorts: Vec<u32> =
        (0..depth).map(|index| if index % 4 == 3 { TRUTH } else { ITEM }).collect();
    let old: Vec<u32> = sorts.iter().map(|&sort| b.variable(sort)).collect();
    let new: Vec<u32> = sorts.iter().map(|&sort| b.variable(sort)).collect();
    let matrix = |b: &mut Builder, names: &[u32]| {
        let mut body = b.apply(1, &[]);
        for pair in names.windows(2) {
            if b.variable_sort(pair[0]) == ITEM && b.variable_sort(pair[1]) == ITEM {
                let (one, other) = (b.variable_term(pair[0]), b.variable_term(pair[1]));
                let atom = b.apply(p, &[one, other]);
                body = b.apply(4, &[atom, body]);
            }
        }
        body
    };
    let kind = |index: usize| if index % 3 == 2 { EXISTS } else { FOR_ALL };
    let prefixes = |b: &mut Builder, names: &[u32]| {
        let mut terms = vec![matrix(b, names)];
        for (index, &name) in names.iter().enumerate().rev() {
            let body = *terms.last().expect("the matrix is there");
            terms.push(b.bind(kind(index), name, body));
        }
        terms.reverse();
        terms
    };
    let (left, right) = (prefixes(&mut b, &old), prefixes(&mut b, &new));
    loop {
        let mut contexts = vec![0];
        for (&x, &y) in old.iter().zip(&new) {
            let y_term = b.variable_term(y);
            let fixing = b.fix(y, contexts[contexts.len() - 1]);
            contexts.push(b.replace(&[x], &[y_term], fixing));
        }
        let mut step = Derivation::renaming(&mut b, contexts[depth], left[depth]);
        for index in (0..depth).rev() {
            step = b.add_step(BIND, contexts[index], left[index], right[index], &[step]);
        }
        let again = 2 * depth as u32;
        if b.room(Section::Contexts) < again || b.count(Section::Steps) + 4 * again > steps {
            break;
        }
    }
    b.claim_last()
}

/// `depth` quantifiers (an even number) over variables 1 to `depth`, renamed to those
/// after them by BIND; then the same with the other quantifiers. A renaming takes two
/// contexts, so both formulas use the same ones, and the same steps of the part without
/// quantifiers, where every variable occurs: with a depth of 128 all 256 contexts are
/// there, 256 BIND steps, and all 256 variables are bound.
pub fn wide_quantifiers(rng: Rng, depth: usize) -> Vec<u32> {
    let mut b = Builder::new(rng, 100);
    let p = b.symbol(TRUTH, &[ITEM, ITEM]);
    // The variables in pairs of a sort; a pair of truth values is compared.
    let sorts: Vec<u32> =
        (0..depth).map(|index| if index / 2 % 4 == 3 { TRUTH } else { ITEM }).collect();
    let old: Vec<u32> = sorts.iter().map(|&sort| b.variable(sort)).collect();
    let new: Vec<u32> = sorts.iter().map(|&sort| b.variable(sort)).collect();
    let matrix = |b: &mut Builder, names: &[u32]| {
        let mut body = None;
        for pair in names.chunks(2) {
            let symbol = if b.variable_sort(pair[0]) == TRUTH { 7 } else { p };
            let (one, other) = (b.variable_term(pair[0]), b.variable_term(pair[1]));
            let atom = b.apply(symbol, &[one, other]);
            body = Some(body.map_or(atom, |body| b.apply(4, &[atom, body])));
        }
        body.expect("there is a pair")
    };
    let mut contexts = vec![0];
    for (&x, &y) in old.iter().zip(&new) {
        let y_term = b.variable_term(y);
        let fixing = b.fix(y, contexts[contexts.len() - 1]);
        contexts.push(b.replace(&[x], &[y_term], fixing));
    }
    let (left, right) = (matrix(&mut b, &old), matrix(&mut b, &new));
    let inside = Derivation::renaming(&mut b, contexts[depth], left);
    for formula in 0..2 {
        let (mut left, mut right, mut step) = (left, right, inside);
        for index in (0..depth).rev() {
            let kind = if index % 3 == formula { EXISTS } else { FOR_ALL };
            left = b.bind(kind, old[index], left);
            right = b.bind(kind, new[index], right);
            step = b.add_step(BIND, contexts[index], left, right, &[step]);
        }
    }
    b.claim_last()
}

/// So many quantifiers, at most 128, for-all and exists in turn, that SKO takes away, and a
/// balanced conjunction of them.
pub fn many_skolem(rng: Rng, count: u32) -> Vec<u32> {
    let mut b = Builder::new(rng, 100);
    let constants: [u32; 16] = std::array::from_fn(|_| b.symbol(ITEM, &[]));
    let symbols: [u32; 8] = std::array::from_fn(|_| b.symbol(TRUTH, &[ITEM, ITEM]));
    let x = b.variable(ITEM);
    let x_term = b.variable_term(x);
    let mut parts = Vec::new();
    for part in 0..count as usize {
        let (p, kind) = (symbols[part / 16], [FOR_ALL, EXISTS][part % 2]);
        let constant = b.apply(constants[part % 16], &[]);
        let body = b.apply(p, &[x_term, constant]);
        let inner = if kind == FOR_ALL { b.apply(NOT, &[body]) } else { body };
        let choice = b.bind(CHOICE, x, inner);
        let context = b.replace(&[x], &[choice], 0);
        let chosen = b.add_step(REFL, context, x_term, choice, &[]);
        let stays = b.add_step(CONG, context, constant, constant, &[]);
        let (left, right) = (b.bind(kind, x, body), b.apply(p, &[choice, constant]));
        let premise = b.add_step(CONG, context, body, right, &[chosen, stays]);
        parts.push((left, right, b.add_step(sko(kind), 0, left, right, &[premise])));
    }
    while parts.len() > 1 {
        parts = parts
            .chunks(2)
            .map(|pair| match *pair {
                [(left, right, step), (other, result, next)] => {
                    let (left, right) = (b.apply(4, &[left, other]), b.apply(4, &[right, result]));
                    (left, right, b.add_step(CONG, 0, left, right, &[step, next]))
                }
                _ => pair[0],
            })
            .collect();
    }
    b.repeat_step(parts[0].2);
    b.claim_last()
}

/// A derivation of a large random term.
pub fn random(rng: Rng, care: Care) -> Vec<u32> {
    let mut b = Builder::new(rng, 60);
    b.random_signature();
    let depth = b.rng.between(5, 8);
    let term = b.random_term(TRUTH, depth);
    let lemmas = b.rng.below(12);
    let mut derivation = Derivation::with_growth(&mut b, care, [350, 800, 150, 600]);
    derivation.lemmas(lemmas);
    derivation.claim(term);
    b.claim_last()
}

impl Derivation<'_> {
    /// Carries a term without quantifiers and lets by REFL at its variables and
    /// CONG everywhere else.
    fn renaming(b: &mut Builder, context: u32, term: u32) -> u32 {
        use super::builder::Shape;
        match b.shape(term).clone() {
            Shape::Application(symbol, arguments) => {
                let premises: Vec<u32> = arguments
                    .into_iter()
                    .map(|argument| Derivation::renaming(b, context, argument))
                    .collect();
                let results: Vec<u32> =
                    premises.iter().map(|&premise| b.step(premise).right).collect();
                let right = b.apply(symbol, &results);
                b.add_step(CONG, context, term, right, &premises)
            }
            Shape::Variable(variable) => {
                let right = b.image(context, variable).unwrap_or(term);
                b.add_step(REFL, context, term, right, &[])
            }
            _ => b.add_step(REFL, context, term, term, &[]),
        }
    }
}
