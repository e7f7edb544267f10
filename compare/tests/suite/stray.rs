//! Free variables that no entry mentions (Req 05): refusal 22, for the two readings, and for
//! the library where it is there.

use crate::{exact_links, judge_bytes, plain_links};
use nezkaldo_compare::bundle::{MAX_SETS, Section, counts_of, to_bytes};
use nezkaldo_compare::ffi::{self, Library};
use nezkaldo_compare::generate::builder::{Builder, EXISTS, FOR_ALL, ITEM, TRUTH};
use nezkaldo_compare::generate::derive::{BIND, CONG, LET, REFL, TRANS};
use nezkaldo_compare::generate::{Family, case};
use nezkaldo_compare::naive;
use nezkaldo_compare::rng::Rng;

const SOUND: (u32, u32) = (0, 0);

/// Number and record, on which all agree; (0, 0) where accepted without a walk.
fn held(words: &[u32]) -> (u32, u32) {
    let file = to_bytes(words);
    let answer = judge_bytes(&file).0;
    if let Some(library) = ffi::library() {
        let found = (library.check)(&file, &mut vec![0; MAX_SETS]);
        assert_eq!(((found >> 32) as u32, found as u32), answer, "the library's answer");
    }
    answer
}

/// Symbols, and item variables: as many as there may be, x, y and z among them.
struct Given {
    b: Builder,
    f: u32,
    p: u32,
    d: u32,
    x: u32,
    y: u32,
    z: u32,
    a_term: u32,
    x_term: u32,
    y_term: u32,
    z_term: u32,
}

fn given_with([x, y, z]: [u32; 3]) -> Given {
    let mut b = Builder::new(Rng::new(1), 100);
    let (a, f) = (b.symbol(ITEM, &[]), b.symbol(ITEM, &[ITEM]));
    let (p, d) = (b.symbol(TRUTH, &[ITEM, ITEM]), b.symbol(ITEM, &[ITEM, ITEM]));
    (0..Section::Variables.limit()).for_each(|_| _ = b.variable(ITEM));
    let a_term = b.apply(a, &[]);
    let [x_term, y_term, z_term] = [x, y, z].map(|variable| b.variable_term(variable));
    Given { b, f, p, d, x, y, z, a_term, x_term, y_term, z_term }
}

fn given() -> Given {
    given_with([1, 2, 3])
}

impl Given {
    fn f(&mut self, term: u32) -> u32 {
        self.b.apply(self.f, &[term])
    }

    fn p(&mut self, one: u32, other: u32) -> u32 {
        self.b.apply(self.p, &[one, other])
    }

    fn refl(&mut self, context: u32, left: u32, right: u32) -> u32 {
        self.b.add_step(REFL, context, left, right, &[])
    }

    /// What is answered where the claim is that a is a.
    fn answer(&self) -> (u32, u32) {
        let mut b = self.b.clone();
        b.add_step(REFL, 0, self.a_term, self.a_term, &[]);
        held(&b.claim_last())
    }

    /// What is answered to a REFL with these sides.
    fn answer_to(&self, context: u32, left: u32, right: u32) -> (u32, u32) {
        let mut b = self.b.clone();
        b.add_step(REFL, context, left, right, &[]);
        b.add_step(REFL, 0, self.a_term, self.a_term, &[]);
        held(&b.claim_last())
    }
}

/// The ends of a set's words, each with another variable that has the same bit.
const EDGES: [[u32; 3]; 8] = [
    [1, 65, 2],
    [63, 64, 127],
    [64, 128, 65],
    [65, 1, 129],
    [128, 64, 256],
    [129, 193, 65],
    [192, 256, 193],
    [256, 192, 1],
];

/// What mentions a variable, and what does not.
#[test]
fn mentioned_or_not() {
    for names in EDGES {
        let mut g = given_with(names);
        let (x, y, a_term, x_term, y_term) = (g.x, g.y, g.a_term, g.x_term, g.y_term);
        let f_x = g.f(x_term);
        // Where the image of x is x itself.
        let fixed = g.b.fix(x, 0);
        let further = g.b.fix(y, fixed);
        let furthest = g.b.replace(&[y], &[a_term], further);
        let itself = g.b.replace(&[x], &[x_term], 0);
        for context in [fixed, further, furthest, itself] {
            assert_eq!(g.answer_to(context, f_x, f_x), SOUND, "{names:?}");
        }
        // Where it is a.
        let replaced = g.b.replace(&[x], &[a_term], 0);
        let second = g.b.replace(&[y, x], &[a_term, a_term], 0);
        let above = g.b.fix(y, second);
        for context in [replaced, second, above] {
            assert_eq!(g.answer_to(context, x_term, a_term), SOUND, "{names:?}");
            assert_eq!(g.answer_to(context, x_term, x_term), (13, 1), "{names:?}");
        }
        let again = g.b.fix(x, replaced);
        assert_eq!(g.answer_to(again, f_x, f_x), SOUND, "{names:?}");
        // Not in the empty context, by another variable, beside, or inside a replacement.
        let other = g.b.fix(y, 0);
        let beside = g.b.replace(&[y], &[a_term], 0);
        g.b.fix(x, beside);
        let inside = g.b.replace(&[y], &[f_x], 0);
        let itself_inside = g.b.replace(&[y], &[x_term], 0);
        for context in [0, other, beside, inside, itself_inside] {
            assert_eq!(g.answer_to(context, f_x, f_x), (22, 1), "{names:?} {context}");
        }
        // The right side alone, which is what REFL makes of the left.
        assert_eq!(g.answer_to(inside, y_term, f_x), (22, 1), "{names:?}");
        let in_scope = g.b.replace(&[y], &[f_x], fixed);
        assert_eq!(g.answer_to(in_scope, y_term, f_x), SOUND, "{names:?}");
    }
}

/// Free and bound in every kind of term, on either side.
#[test]
fn free_and_bound() {
    let mut g = given();
    let (x, y, a_term, x_term, y_term) = (g.x, g.y, g.a_term, g.x_term, g.y_term);
    let (f_x, both) = (g.f(x_term), g.p(x_term, x_term));
    let for_all = g.b.bind(FOR_ALL, x, both);
    let exists = g.b.bind(EXISTS, y, both);
    let beside = g.b.apply(4, &[for_all, both]);
    let p_y = g.p(y_term, y_term);
    let outside = g.b.bind_let(&[x], &[x_term], both);
    let bound = g.b.bind_let(&[x], &[a_term], both);
    let second = g.b.bind_let(&[x, y], &[a_term, f_x], both);
    let body = g.b.bind_let(&[y], &[a_term], both);
    let inner = g.b.bind_let(&[y], &[a_term], p_y);
    let truth = g.b.apply(1, &[]);
    let fixing = g.b.fix(x, 0);
    for (term, free) in [
        (both, true),
        (for_all, false),
        (exists, true),
        (beside, true),
        (outside, true),
        (bound, false),
        (second, true),
        (body, true),
        (inner, false),
    ] {
        let refused = |otherwise| if free { (22, 1) } else { otherwise };
        assert_eq!(g.answer_to(0, term, term), refused(SOUND));
        assert_eq!(g.answer_to(0, term, truth), refused((13, 1)));
        assert_eq!(g.answer_to(0, truth, term), refused((13, 1)));
        assert_eq!(g.answer_to(fixing, term, term), SOUND);
        assert_eq!(g.answer_to(fixing, truth, term), (13, 1));
    }
}

/// 12, 22, 21, 13 and 14, in this order; the first bad step counts.
#[test]
fn the_order_of_refusals() {
    // 12 before 22.
    let mut g = given();
    let over = g.b.count(Section::Contexts) + 1;
    for (rule, context, premises) in [
        (0, 0, vec![]),
        (6, 0, vec![]),
        (REFL, over, vec![]),
        (CONG, 0, vec![1]),
        (BIND, 0, vec![]),
    ] {
        let mut b = g.b.clone();
        b.add_step(rule, context, g.x_term, g.x_term, &premises);
        assert_eq!(held(&b.claim_last()), (12, 1));
    }
    // 22 before 21.
    let big = (0..13).fold(g.a_term, |term, _| g.b.apply(g.d, &[term, term]));
    let (left, right) = (g.p(big, g.x_term), g.p(big, g.y_term));
    let fixing = g.b.fix(g.x, 0);
    let both = g.b.fix(g.y, fixing);
    assert_eq!(g.answer_to(0, left, right), (22, 1));
    assert_eq!(g.answer_to(fixing, left, right), (22, 1));
    assert_eq!(g.answer_to(both, left, right), (21, 1));
    // 22 before 13, by every rule.
    for (rule, premises) in
        [(REFL, 0), (CONG, 0), (CONG, 1), (TRANS, 2), (BIND, 1), (LET, 0), (LET, 2)]
    {
        for (context, number) in [(0, 22), (fixing, 13)] {
            let mut b = g.b.clone();
            let premise = b.add_step(REFL, context, g.a_term, g.a_term, &[]);
            b.add_step(rule, context, g.x_term, g.a_term, &vec![premise; premises]);
            assert_eq!(held(&b.claim_last()), (number, 2), "rule {rule}");
        }
    }
    // The first bad step counts.
    for (steps, answer) in [([0, 1], (22, 1)), ([1, 0], (12, 1))] {
        let mut b = g.b.clone();
        for place in steps {
            b.add_step([REFL, 9][place], 0, g.x_term, g.x_term, &[]);
        }
        assert_eq!(held(&b.claim_last()), answer);
    }
}

/// 22 before 14: BIND to a variable that is free in the left. The premise is in scope, since
/// its context fixes it.
#[test]
fn stray_before_captured() {
    for names in EDGES {
        for (fixed, answer) in [(false, (22, 4)), (true, (14, 4))] {
            let mut g = given_with(names);
            let (x, y, x_term, y_term) = (g.x, g.y, g.x_term, g.y_term);
            let outer = if fixed { g.b.fix(y, 0) } else { g.b.fix(g.z, 0) };
            let fixing = g.b.fix(y, outer);
            let inner = g.b.replace(&[x], &[y_term], fixing);
            let (from, to) = (g.p(x_term, y_term), g.p(y_term, y_term));
            let (one, other) = (g.refl(inner, x_term, y_term), g.refl(inner, y_term, y_term));
            let premise = g.b.add_step(CONG, inner, from, to, &[one, other]);
            let (left, right) = (g.b.bind(FOR_ALL, x, from), g.b.bind(FOR_ALL, y, to));
            g.b.add_step(BIND, outer, left, right, &[premise]);
            assert_eq!(g.answer(), answer, "{names:?}");
        }
    }
}

/// LET and BIND whose right alone is stray: what the context of the last premise mentions
/// comes out of its scope.
#[test]
fn out_of_scope() {
    for names in EDGES {
        for (fixed, answer) in [(false, 22), (true, 0)] {
            let start = || {
                let mut g = given_with(names);
                let f_x = g.f(g.x_term);
                let base = if fixed { g.b.fix(g.x, 0) } else { 0 };
                let outer = g.b.replace(&[g.z], &[f_x], base);
                (g, f_x, outer)
            };
            // let x = a in z, where z is replaced by f(x), to f(x).
            let (mut g, f_x, outer) = start();
            let constant = g.refl(outer, g.a_term, g.a_term);
            let inner = g.b.replace(&[g.x], &[g.a_term], outer);
            let body = g.refl(inner, g.z_term, f_x);
            let left = g.b.bind_let(&[g.x], &[g.a_term], g.z_term);
            let last = g.b.add_step(LET, outer, left, f_x, &[constant, body]);
            assert_eq!(g.answer(), (answer, if answer == 0 { 0 } else { last }), "{names:?}");
            // For all x. p(x, z) to for all y. p(y, f(x)).
            let (mut g, f_x, outer) = start();
            let fixing = g.b.fix(g.y, outer);
            let inner = g.b.replace(&[g.x], &[g.y_term], fixing);
            let (one, other) = (g.refl(inner, g.x_term, g.y_term), g.refl(inner, g.z_term, f_x));
            let (from, to) = (g.p(g.x_term, g.z_term), g.p(g.y_term, f_x));
            let premise = g.b.add_step(CONG, inner, from, to, &[one, other]);
            let (left, right) = (g.b.bind(FOR_ALL, g.x, from), g.b.bind(FOR_ALL, g.y, to));
            let last = g.b.add_step(BIND, outer, left, right, &[premise]);
            assert_eq!(g.answer(), (answer, if answer == 0 { 0 } else { last }), "{names:?}");
        }
    }
}

/// The count of a CONG step's links is the same whether or not it is stray.
#[test]
fn links_of_stray_steps() {
    let mut counts = Vec::new();
    for fixed in [false, true] {
        let mut g = given();
        let context = if fixed { g.b.fix(g.x, 0) } else { g.b.fix(g.y, 0) };
        let f_x = g.f(g.x_term);
        let premise = g.refl(context, g.x_term, g.x_term);
        let step = g.b.add_step(CONG, context, f_x, f_x, &[premise]) as usize;
        let file = to_bytes(&g.b.claim_last());
        let links = exact_links(&file, step);
        assert_eq!(plain_links(&file, step), links);
        if let Some(Library { links: of_library, .. }) = ffi::library() {
            assert_eq!(of_library(&file, step), links);
        }
        counts.push(links);
        assert_eq!(judge_bytes(&file).0, if fixed { (15, 0) } else { (22, 1) });
    }
    assert_eq!(counts, [3, 3]);
}

/// An accepted claim is closed, by the plain reading's sets; sound derivations are accepted.
#[test]
fn accepted_claims_are_closed() {
    let mut sound = 0;
    for index in 0..8_000 {
        let case = case(41, index);
        let loaded = naive::load(&case.bytes, MAX_SETS);
        if case.family == Family::Derivation {
            assert!(loaded.is_ok(), "file {index}: {loaded:?}");
            assert_eq!(judge_bytes(&case.bytes).0.0, 0);
            sound += 1;
        }
        if let Ok(plain) = loaded {
            assert!(plain.free(plain.left).is_empty() && plain.free(plain.right).is_empty());
        }
    }
    assert!(sound > 1_000);
}

/// Any entry of a long chain that fixes another variable leaves the step out of scope.
#[test]
fn each_entry_of_a_deep_chain_counts() {
    let mut g = given();
    let variables: Vec<u32> = (1..=200).collect();
    let context = variables.iter().fold(0, |parent, &variable| g.b.fix(variable, parent));
    let terms: Vec<u32> = variables.iter().map(|&variable| g.b.variable_term(variable)).collect();
    let wide = g.b.symbol(TRUTH, &vec![ITEM; terms.len()]);
    let all = g.b.apply(wide, &terms);
    g.refl(context, all, all);
    g.refl(0, g.a_term, g.a_term);
    let words = g.b.claim_last();
    assert_eq!(held(&words), SOUND);
    let counts = counts_of(&to_bytes(&words)).unwrap();
    for entry in (1..=200).step_by(23) {
        let mut changed = words.clone();
        changed[counts.place(Section::Contexts, entry, 1)] = 201;
        assert_eq!(held(&changed), (22, 1), "entry {entry}");
    }
}
