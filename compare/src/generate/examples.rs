//! The files of document 01's examples. Where an example names no file, the one
//! here has a closed claim.

use super::builder::{Builder, FOR_ALL, ITEM, TRUTH};
use super::derive::{BIND, CONG, LET, REFL, TRANS};
use crate::bundle::{Counts, HEADER_WORDS, LEFT, RIGHT, Section};
use crate::rng::Rng;

/// Example 1: let x≃a in p(x,x) to p(a,a).
pub const LET_EXPANSION: &[u32] = &[
    1, 2, 1, 5, 6, 1, 4, 5, 4, // header
    1, 0, 0, 1, // symbols
    1, // variable
    1, 1, 0, 0, 2, 33, 0, 0, 2, 34, 1, 0, 2, 34, 3, 0, 5, 2, 4, 3, // terms
    1, 2, 1, 0, 2, 4, 2, 0, 1, 6, 3, 0, // links
    2, 2, 4, 0, // context
    2, 0, 2, 2, 0, 1, 1, 1, 2, 0, 2, 1, 3, 4, 3, 5, 0, 5, 4, 5, // steps
];

/// Example 11's job, lists in the order sorts, arguments, variables, bound
/// terms.
pub const JOB: &[u32] = &[
    1, 2, 1, 4, 6, 0, 0, 4, 0, // header
    1, 0, 0, 1, // symbols
    1, // variable
    1, 1, 0, 0, 2, 33, 0, 0, 2, 34, 3, 0, 5, 5, 6, 3, // terms
    1, 2, 1, 0, 1, 4, 1, 0, 1, 0, 2, 0, // links
];

/// Example 11's file: what the writer makes of [`JOB`].
pub const WRITTEN: &[u32] = &[
    1, 2, 1, 5, 13, 1, 5, 4, 5, // header
    1, 0, 0, 1, // symbols
    1, // variable
    1, 1, 0, 0, 2, 33, 0, 0, 2, 34, 3, 0, 5, 5, 6, 3, 2, 34, 8, 0, // terms
    1, 2, 1, 0, 1, 4, 1, 0, 1, 0, 2, 0, 2, 0, 2, 9, 2, 0, 2, 11, 3, 0, 1, 13, 4, 0, // links
    2, 5, 7, 0, // context
    2, 0, 2, 2, 0, 1, 1, 1, 2, 0, 1, 1, 1, 2, 0, 2, 1, 3, 5, 10, 5, 0, 4, 5, 12, // steps
];

fn changed(place: usize, word: u32) -> Vec<u32> {
    let mut words = LET_EXPANSION.to_vec();
    words[place] = word;
    words
}

fn place(section: Section, record: u32, field: usize) -> usize {
    Counts::new([2, 1, 5, 6, 1, 4]).place(section, record, field)
}

/// Examples 2 to 4: one word of example 1 changed.
pub fn other_claim() -> Vec<u32> {
    changed(RIGHT, 2)
}

pub fn wrong_right() -> Vec<u32> {
    changed(place(Section::Steps, 3, 3), 3)
}

pub fn broken_chain() -> Vec<u32> {
    changed(place(Section::Links, 2, 1), 1)
}

/// Example 6: a header with nothing behind it.
pub fn bare_header() -> Vec<u32> {
    let mut words = vec![0; HEADER_WORDS];
    words[0] = 1;
    words
}

fn builder(seed: u64) -> Builder {
    Builder::new(Rng::new(seed), 50)
}

/// Example 7: ∀y. let v≃f(y) in ∀z. p(v,z) to ∀y.∀y. p(f(y),y). The inner BIND
/// is step 6.
pub fn image_taken_by_quantifier(seed: u64) -> Vec<u32> {
    let mut b = builder(seed);
    let f = b.symbol(ITEM, &[ITEM]);
    let p = b.symbol(TRUTH, &[ITEM, ITEM]);
    let (y, v, z) = (b.variable(ITEM), b.variable(ITEM), b.variable(ITEM));
    let (y_term, v_term, z_term) = (b.variable_term(y), b.variable_term(v), b.variable_term(z));
    let f_y = b.apply(f, &[y_term]);
    let p_v_z = b.apply(p, &[v_term, z_term]);
    let for_z = b.bind(FOR_ALL, z, p_v_z);
    let bound = b.bind_let(&[v], &[f_y], for_z);
    let left = b.bind(FOR_ALL, y, bound);
    let p_f_y = b.apply(p, &[f_y, y_term]);
    let for_y = b.bind(FOR_ALL, y, p_f_y);
    let right = b.bind(FOR_ALL, y, for_y);

    let outer_fixing = b.fix(y, 0);
    let outer = b.replace(&[y], &[y_term], outer_fixing);
    let replacing = b.replace(&[v], &[f_y], outer);
    let inner_fixing = b.fix(y, replacing);
    let inner = b.replace(&[z], &[y_term], inner_fixing);
    let keeps_y = b.add_step(REFL, outer, y_term, y_term, &[]);
    let keeps_f = b.add_step(CONG, outer, f_y, f_y, &[keeps_y]);
    let v_to_f = b.add_step(REFL, inner, v_term, f_y, &[]);
    let z_to_y = b.add_step(REFL, inner, z_term, y_term, &[]);
    let under_p = b.add_step(CONG, inner, p_v_z, p_f_y, &[v_to_f, z_to_y]);
    let inner_bind = b.add_step(BIND, replacing, for_z, for_y, &[under_p]);
    let expands = b.add_step(LET, outer, bound, for_y, &[keeps_f, inner_bind]);
    b.add_step(BIND, 0, left, right, &[expands]);
    b.claim_last()
}

/// Example 8: x is replaced by a and then fixed; REFL takes x to itself, or to a
/// where `wrongly`.
pub fn fixed_again(seed: u64, wrongly: bool) -> Vec<u32> {
    let mut b = builder(seed);
    let a = b.symbol(ITEM, &[]);
    let x = b.variable(ITEM);
    let (x_term, a_term) = (b.variable_term(x), b.apply(a, &[]));
    let replacing = b.replace(&[x], &[a_term], 0);
    let fixing = b.fix(x, replacing);
    b.add_step(REFL, fixing, x_term, if wrongly { a_term } else { x_term }, &[]);
    b.add_step(REFL, 0, a_term, a_term, &[]);
    b.claim_last()
}

/// Example 9: z becomes p(x,x) in a context that then replaces x by a; TRANS
/// from z by p(x,x) to p(a,a) is step 5.
pub fn unsettled_middle(seed: u64) -> Vec<u32> {
    let mut b = builder(seed);
    let a = b.symbol(ITEM, &[]);
    let p = b.symbol(TRUTH, &[ITEM, ITEM]);
    let (x, z) = (b.variable(ITEM), b.variable(TRUTH));
    let (x_term, z_term) = (b.variable_term(x), b.variable_term(z));
    let a_term = b.apply(a, &[]);
    let (p_x, p_a) = (b.apply(p, &[x_term, x_term]), b.apply(p, &[a_term, a_term]));
    let outer = b.replace(&[z], &[p_x], 0);
    let inner = b.replace(&[x], &[a_term], outer);
    let z_to_p = b.add_step(REFL, inner, z_term, p_x, &[]);
    let first = b.add_step(REFL, inner, x_term, a_term, &[]);
    let second = b.add_step(REFL, inner, x_term, a_term, &[]);
    let under_p = b.add_step(CONG, inner, p_x, p_a, &[first, second]);
    b.add_step(TRANS, inner, z_term, p_a, &[z_to_p, under_p]);
    b.add_step(REFL, 0, p_a, p_a, &[]);
    b.claim_last()
}

/// Example 10: a let over x, x, which is term 3.
pub fn repeated_variable(seed: u64) -> Vec<u32> {
    let mut b = builder(seed);
    let a = b.symbol(ITEM, &[]);
    let x = b.variable(ITEM);
    let (x_term, a_term) = (b.variable_term(x), b.apply(a, &[]));
    let bound = b.bind_let(&[x, x], &[a_term, a_term], x_term);
    b.add_step(REFL, 0, bound, bound, &[]);
    b.claim_last()
}

/// Example 12: x and y fixed, then replaced by y and x together; REFL takes x to
/// y, or to x where `in_turn`.
pub fn replaced_together(seed: u64, in_turn: bool) -> Vec<u32> {
    let mut b = builder(seed);
    let a = b.symbol(ITEM, &[]);
    let (x, y) = (b.variable(ITEM), b.variable(ITEM));
    let (x_term, y_term) = (b.variable_term(x), b.variable_term(y));
    let fixing_x = b.fix(x, 0);
    let fixing_y = b.fix(y, fixing_x);
    let swapping = b.replace(&[x, y], &[y_term, x_term], fixing_y);
    b.add_step(REFL, swapping, x_term, if in_turn { x_term } else { y_term }, &[]);
    let a_term = b.apply(a, &[]);
    b.add_step(REFL, 0, a_term, a_term, &[]);
    b.claim_last()
}

/// One of the examples.
pub fn any(rng: &mut Rng) -> Vec<u32> {
    let seed = rng.next_u64();
    let wrong = rng.chance(50);
    match rng.below(12) {
        0 => LET_EXPANSION.to_vec(),
        1 => other_claim(),
        2 => wrong_right(),
        3 => broken_chain(),
        4 => bare_header(),
        5 => image_taken_by_quantifier(seed),
        6 => fixed_again(seed, wrong),
        7 => unsettled_middle(seed),
        8 => repeated_variable(seed),
        9 => replaced_together(seed, wrong),
        10 => WRITTEN.to_vec(),
        _ => {
            let mut job = JOB.to_vec();
            job[LEFT] = rng.below(6);
            job
        }
    }
}
