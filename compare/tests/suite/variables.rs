//! Variables at the ends of a set's words, up to the last: free, bound, replaced, moved and
//! not; for the two readings, and for the library where it is there.

use crate::{
    exact, exact_expand, exact_read, judge_bytes, plain, plain_expand, plain_read, with_stack,
};
use nezkaldo_compare::bundle::{
    MAX_BYTES, MAX_SETS, MAX_WORDS, RIGHT, SET_WORDS, Section, area_words, counts_of, to_bytes,
    to_words,
};
use nezkaldo_compare::compare::{self, Checker};
use nezkaldo_compare::compare_reader::{self, Reader};
use nezkaldo_compare::compare_writer::{self, Writer, misfit};
use nezkaldo_compare::expand::Names;
use nezkaldo_compare::ffi;
use nezkaldo_compare::generate::builder::{Builder, EXISTS, FOR_ALL, ITEM, TRUTH};
use nezkaldo_compare::generate::derive::{BIND, CONG, LET, REFL, TRANS};
use nezkaldo_compare::generate::limits;
use nezkaldo_compare::rng::Rng;

const LAST: u32 = Section::Variables.limit();

/// The ends of the words, and a few beside them.
const EDGES: [u32; 10] = [1, 63, 64, 65, 128, 129, 192, 193, 255, 256];

/// Number and record, and the area, on which all agree; (0, 0) where accepted.
fn held(words: &[u32]) -> ((u32, u32), Vec<u64>) {
    let file = to_bytes(words);
    let (answer, free) = judge_bytes(&file);
    if let Some(library) = ffi::library() {
        let mut area = vec![u64::MAX; free.len()];
        let found = (library.check)(&file, &mut area);
        assert_eq!(((found >> 32) as u32, found as u32), answer, "the library's answer");
        assert_eq!(area, free, "the library's area");
    }
    (answer, free)
}

/// The words of a set.
fn words_of(variables: &[u32]) -> [u64; SET_WORDS] {
    let mut words = [0; SET_WORDS];
    for index in variables.iter().map(|variable| variable - 1) {
        words[index as usize / 64] |= 1 << (index % 64);
    }
    words
}

/// A builder with as many item variables as there may be, an item a, a function f of an
/// item and a relation p of two.
struct Given {
    b: Builder,
    a: u32,
    f: u32,
    p: u32,
}

/// The same without the term a: its symbols are f33, f34 and f35.
fn declared() -> (Builder, [u32; 3]) {
    let mut b = Builder::new(Rng::new(1), 50);
    let (a, f) = (b.symbol(ITEM, &[]), b.symbol(ITEM, &[ITEM]));
    let p = b.symbol(TRUTH, &[ITEM, ITEM]);
    (0..LAST).for_each(|_| _ = b.variable(ITEM));
    (b, [a, f, p])
}

impl Given {
    fn new() -> Self {
        let (mut b, [a, f, p]) = declared();
        let a = b.apply(a, &[]);
        Given { b, a, f, p }
    }

    /// The term p of two terms.
    fn p(&mut self, one: u32, other: u32) -> u32 {
        self.b.apply(self.p, &[one, other])
    }

    fn f(&mut self, term: u32) -> u32 {
        self.b.apply(self.f, &[term])
    }

    /// A REFL step; answers it.
    fn refl(&mut self, context: u32, left: u32, right: u32) -> u32 {
        self.b.add_step(REFL, context, left, right, &[])
    }

    /// CONG from p to p by two steps.
    fn cong(&mut self, context: u32, one: u32, other: u32) -> u32 {
        let (one_step, other_step) = (self.b.step(one), self.b.step(other));
        let (left, right) =
            (self.p(one_step.left, other_step.left), self.p(one_step.right, other_step.right));
        self.b.add_step(CONG, context, left, right, &[one, other])
    }

    /// BIND from for all `x` to for all `y`, where a premise has the body.
    fn bind(&mut self, context: u32, x: u32, y: u32, premise: u32) -> u32 {
        let body = self.b.step(premise);
        let left = self.b.bind(FOR_ALL, x, body.left);
        let right = self.b.bind(FOR_ALL, y, body.right);
        self.b.add_step(BIND, context, left, right, &[premise])
    }

    /// The context of such a premise.
    fn renaming(&mut self, context: u32, x: u32, y: u32) -> u32 {
        let y_term = self.b.variable_term(y);
        let fixing = self.b.fix(y, context);
        self.b.replace(&[x], &[y_term], fixing)
    }

    /// What is answered where the claim is that a is a.
    fn answer(mut self) -> (u32, u32) {
        let a = self.a;
        self.refl(0, a, a);
        held(&self.b.claim_last()).0
    }
}

/// Every ordered pair of edges, with two further edges.
fn for_edges(mut test: impl FnMut([u32; 4])) {
    for x in EDGES {
        for y in EDGES.into_iter().filter(|&y| y != x) {
            let others: Vec<u32> =
                EDGES.into_iter().filter(|other| ![x, y].contains(other)).collect();
            let place = (x + y) as usize % others.len();
            test([x, y, others[place], others[(place + 1) % others.len()]]);
        }
    }
}

#[test]
fn free_sets_of_every_kind_of_term() {
    for_edges(|[x, y, _, _]| {
        let mut g = Given::new();
        let (x_term, y_term) = (g.b.variable_term(x), g.b.variable_term(y));
        let (f_y, a) = (g.f(y_term), g.a);
        let both = g.p(x_term, y_term);
        let terms = [
            (x_term, vec![x]),
            (f_y, vec![y]),
            (both, vec![x, y]),
            (g.b.bind(FOR_ALL, x, both), vec![y]),
            (g.b.bind(EXISTS, y, both), vec![x]),
            (g.b.bind_let(&[x], &[a], both), vec![y]),
            (g.b.bind_let(&[x], &[f_y], both), vec![y]),
            (g.b.bind_let(&[y], &[f_y], both), vec![x, y]),
            (g.b.bind_let(&[x, y], &[y_term, x_term], both), vec![x, y]),
            (g.b.bind_let(&[x, y], &[a, a], both), vec![]),
            (a, vec![]),
        ];
        let context = g.b.scope(0, &[both]);
        g.refl(context, both, both);
        g.refl(0, a, a);
        let (answer, free) = held(&g.b.claim_last());
        assert_eq!(answer, (0, 0));
        for (term, variables) in terms {
            let start = area_words(term - 1);
            assert_eq!(
                free[start..start + SET_WORDS],
                words_of(&variables),
                "{x} {y} {variables:?}"
            );
        }
        let end = area_words(g.b.count(Section::Terms));
        assert!(free[end..].iter().all(|&word| word == 0));
    });
}

/// Every variable has a bit of its own.
#[test]
fn a_term_with_every_variable() {
    let mut b = Builder::new(Rng::new(2), 100);
    let g = b.symbol(TRUTH, &vec![ITEM; LAST as usize]);
    let variables: Vec<u32> = (0..LAST).map(|_| b.variable(ITEM)).collect();
    let terms: Vec<u32> = variables.iter().map(|&variable| b.variable_term(variable)).collect();
    let all = b.apply(g, &terms);
    let mut rest = all;
    for &variable in &variables {
        rest = b.bind(EXISTS, variable, rest);
    }
    b.add_step(REFL, 0, rest, rest, &[]);
    let (answer, free) = held(&b.claim_last());
    assert_eq!(answer, (0, 0));
    let set = |term: u32| &free[area_words(term - 1)..area_words(term)];
    assert_eq!(set(all), [u64::MAX; SET_WORDS]);
    for (bound, term) in (1..).zip(all + 1..=rest) {
        assert_eq!(set(term), words_of(&variables[bound..]), "the first {bound} bound");
    }
}

/// BIND to another variable, to one that is free, and to one that is free in an image.
#[test]
fn renamed_by_bind() {
    for_edges(|[x, y, z, w]| {
        let given = || {
            let mut g = Given::new();
            let terms = [x, y, z, w].map(|variable| g.b.variable_term(variable));
            (g, terms)
        };
        // For all x. p(x, a) to for all y. p(y, a).
        let (mut g, [x_term, y_term, ..]) = given();
        let inner = g.renaming(0, x, y);
        let (one, other) = (g.refl(inner, x_term, y_term), g.refl(inner, g.a, g.a));
        let premise = g.cong(inner, one, other);
        g.bind(0, x, y, premise);
        assert_eq!(g.answer(), (0, 0), "{x} to {y}");
        // The same where y is free, and mentioned or not.
        for (fixed, answer) in [(y, (14, 4)), (z, (22, 4))] {
            let (mut g, [x_term, y_term, ..]) = given();
            let outer = g.b.fix(fixed, 0);
            let inner = g.renaming(outer, x, y);
            let (one, other) = (g.refl(inner, x_term, y_term), g.refl(inner, y_term, y_term));
            let premise = g.cong(inner, one, other);
            g.bind(outer, x, y, premise);
            assert_eq!(g.answer(), answer, "{x} to {y}, which is free, {fixed} fixed");
        }
        // For all x. p(x, z) where z is replaced by f(y): not to y, but to w.
        for (new, answer) in [(y, (14, 4)), (w, (0, 0))] {
            let (mut g, [x_term, y_term, z_term, _]) = given();
            let (new_term, f_y) = (g.b.variable_term(new), g.f(y_term));
            let fixing = g.b.fix(y, 0);
            let outer = g.b.replace(&[z], &[f_y], fixing);
            let inner = g.renaming(outer, x, new);
            let (one, other) = (g.refl(inner, x_term, new_term), g.refl(inner, z_term, f_y));
            let premise = g.cong(inner, one, other);
            g.bind(outer, x, new, premise);
            assert_eq!(g.answer(), answer, "{x} to {new}, {z} replaced by f of {y}");
        }
    });
}

/// Let x = a in p(x, y) to p(a, y), and to p(a, x), where y is fixed.
#[test]
fn let_bound() {
    for_edges(|[x, y, _, _]| {
        for (image, answer) in [(y, (0, 0)), (x, (13, 3))] {
            let mut g = Given::new();
            let [x_term, y_term, image] = [x, y, image].map(|variable| g.b.variable_term(variable));
            let a = g.a;
            let outer = g.b.fix(y, 0);
            let bound = g.refl(outer, a, a);
            let inner = g.b.replace(&[x], &[a], outer);
            let (one, other) = (g.refl(inner, x_term, a), g.refl(inner, y_term, image));
            let last = g.cong(inner, one, other);
            let step = g.b.step(last);
            let left = g.b.bind_let(&[x], &[a], step.left);
            g.b.add_step(LET, outer, left, step.right, &[bound, last]);
            assert_eq!(g.answer(), answer, "{x} {y}");
        }
    });
}

/// A term is settled exactly where none of its variables is moved.
#[test]
fn moved_and_not() {
    for_edges(|[x, y, z, _]| {
        // x is replaced by a, by itself, or fixed again; y is fixed.
        for (entry, holds_x) in [(0, false), (1, true), (2, true)] {
            for (variable, settled) in [(x, holds_x), (y, true)] {
                let mut g = Given::new();
                let (x_term, term) = (g.b.variable_term(x), g.b.variable_term(variable));
                let a = g.a;
                let fixing = g.b.fix(y, 0);
                let context = match entry {
                    0 => g.b.replace(&[x], &[a], fixing),
                    1 => g.b.replace(&[x], &[x_term], fixing),
                    _ => {
                        let outer = g.b.replace(&[x], &[a], fixing);
                        g.b.fix(x, outer)
                    }
                };
                let whole = g.p(term, a);
                g.refl(context, whole, whole);
                let answer = if settled { (0, 0) } else { (13, 1) };
                assert_eq!(g.answer(), answer, "{x} {variable} {entry}");
            }
        }
        // z by f(x) where x is moved, is not, or is fixed between.
        for (place, answer) in [(0, (11, 2)), (1, (0, 0)), (2, (0, 0))] {
            let mut g = Given::new();
            let (x_term, a) = (g.b.variable_term(x), g.a);
            let f_x = g.f(x_term);
            let mut context = g.b.replace(&[if place == 1 { y } else { x }], &[a], 0);
            if place == 2 {
                context = g.b.fix(x, context);
            }
            g.b.replace(&[z], &[f_x], context);
            assert_eq!(g.answer(), answer, "{x} {y} {z} {place}");
        }
        // TRANS from z by p(x, x), or by p(y, y), in a context that moves x.
        for (middle, answer) in [(x, (14, 4)), (y, (0, 0))] {
            let mut b = Builder::new(Rng::new(3), 0);
            let (a, p) = (b.symbol(ITEM, &[]), b.symbol(TRUTH, &[ITEM, ITEM]));
            for variable in 1..=LAST {
                b.variable(if variable == z { TRUTH } else { ITEM });
            }
            let (a, z_term, middle_term) =
                (b.apply(a, &[]), b.variable_term(z), b.variable_term(middle));
            let whole = b.apply(p, &[middle_term, middle_term]);
            let fixing = b.fix(middle, 0);
            let outer = b.replace(&[z], &[whole], fixing);
            let context = b.replace(&[x], &[a], outer);
            let image = b.image(context, middle).unwrap_or(middle_term);
            let result = b.apply(p, &[image, image]);
            let first = b.add_step(REFL, context, z_term, whole, &[]);
            let part = b.add_step(REFL, context, middle_term, image, &[]);
            let second = b.add_step(CONG, context, whole, result, &[part, part]);
            b.add_step(TRANS, context, z_term, result, &[first, second]);
            b.add_step(REFL, 0, a, a, &[]);
            assert_eq!(held(&b.claim_last()).0, answer, "{x} {middle}");
        }
    });
}

/// Two variables with the same bit in their words are no repeat.
#[test]
fn repeats() {
    for_edges(|[x, y, _, _]| {
        for (other, in_let, in_context) in [(y, (0, 0), (0, 0)), (x, (8, 4), (10, 1))] {
            let mut g = Given::new();
            let (x_term, a) = (g.b.variable_term(x), g.a);
            let body = g.p(x_term, x_term);
            g.b.bind_let(&[x, other], &[a, a], body);
            assert_eq!(g.answer(), in_let, "{x} {other}");
            let mut g = Given::new();
            g.b.replace(&[x, other], &[g.a, g.a], 0);
            assert_eq!(g.answer(), in_context, "{x} {other}");
        }
    });
    for same in 1..=64 {
        let mut g = Given::new();
        let four: Vec<u32> = (0..4).map(|word| 64 * word + same).collect();
        g.b.replace(&four, &[g.a; 4], 0);
        assert_eq!(g.answer(), (0, 0));
    }
}

/// Every section full: 58,916 bytes; and one variable more.
#[test]
fn the_longest_file() {
    let mut longest = (0..)
        .map(|index| limits::filled(Rng::for_file(4, index), false))
        .filter(|words| 4 * words.len() == MAX_BYTES);
    for _ in 0..3 {
        let words = longest.next().unwrap();
        assert_eq!((4 * words.len(), words[1 + Section::Variables as usize]), (58_916, 256));
        assert_eq!(held(&words).0.0, 0, "accepted, with a walk or without");
    }
    let mut words = declared().0.words(0, 0);
    assert_eq!(held(&words).0, (15, 0), "256 variables, and no step");
    let counts = counts_of(&to_bytes(&words)).unwrap();
    words.insert(counts.place(Section::Variables, LAST, 0), ITEM);
    words[1 + Section::Variables as usize] += 1;
    assert_eq!(held(&words).0, (3, 0));
}

#[test]
fn areas_of_four_words_a_term() {
    let mut checkers: Vec<Checker> = vec![&exact, &plain];
    let library = ffi::library();
    checkers.extend(library.as_ref().map(|library| library.check));
    let mut b = declared().0;
    for terms in [1, 2, 255, 1_024] {
        // The first term is closed and claimed, the last one a variable.
        let closed = b.apply(1, &[]);
        limits::fill(&mut b, Section::Terms, terms - 1);
        let free: &[u32] = if terms == 1 { &[] } else { &[terms.min(LAST)] };
        free.iter().for_each(|&variable| _ = b.variable_term(variable));
        assert_eq!(b.count(Section::Terms), terms);
        b.add_step(REFL, 0, closed, closed, &[]);
        let file = to_bytes(&b.claim_last());
        for check in &checkers {
            for (length, answer) in
                [(0, 4), (terms, 4), (4 * terms - 1, 4), (4 * terms, 0), (4 * terms + 5, 0)]
            {
                let (found, area) = compare::call(*check, &file, length as usize, 1);
                assert_eq!(found, answer << 32, "{length} words for {terms} terms");
                if answer == 4 {
                    assert!(area.iter().all(|&word| word == 0));
                } else {
                    assert!(area[4 * terms as usize..].iter().all(|&word| word == 0));
                    let start = 4 * terms as usize - 4;
                    assert_eq!(area[start..start + 4], words_of(free));
                }
            }
        }
    }
}

const ENOUGH: [usize; 3] = [MAX_BYTES, MAX_WORDS, MAX_SETS];

/// The answer and the areas of all writers, which rename all.
fn renamed(job: &[u8]) -> (u64, Vec<u8>) {
    let library = ffi::library();
    let mut writers: Vec<Writer> = vec![&plain_expand];
    writers.extend(library.as_ref().map(|library| library.expand));
    let call = |write| compare_writer::call(write, job, Names::RenameAll, ENOUGH, 1);
    let (answer, mut areas) = call(&exact_expand);
    for write in writers {
        assert!(call(write) == (answer, areas.clone()));
    }
    if answer >> 32 == 0 {
        areas.out.truncate(answer as usize);
    }
    (answer, areas.out)
}

/// A job with so many variables and quantifiers, which the writer renames one by one.
fn quantified(variables: u32, quantifiers: u32) -> Vec<u8> {
    let mut b = Builder::new(Rng::new(1), 0);
    let p = b.symbol(TRUTH, &[ITEM, ITEM]);
    (0..variables).for_each(|_| _ = b.variable(ITEM));
    let (first, last) = (b.variable_term(1), b.variable_term(variables));
    let mut rule = b.apply(p, &[first, last]);
    for quantifier in (1..=quantifiers).rev() {
        // Variables 1 and V, and others that do not occur.
        let variable = if quantifier == 1 { variables } else { (quantifier - 1) % variables };
        rule = b.bind(FOR_ALL, variable.max(1), rule);
    }
    b.words(rule, 0).iter().flat_map(|word| word.to_le_bytes()).collect()
}

#[test]
fn renamed_up_to_the_last_variable() {
    with_stack(|| {
        for (variables, quantifiers) in [(2, 62), (2, 63), (64, 65), (128, 128), (253, 3), (254, 2)]
        {
            let job = quantified(variables, quantifiers);
            let (answer, file) = renamed(&job);
            assert_eq!(answer, file.len() as u64, "{variables} and {quantifiers}");
            let counts = counts_of(&file).unwrap();
            assert_eq!(counts[Section::Variables], variables + quantifiers);
            assert_eq!(misfit(&[&exact, &plain], &job, &file), None);
            let words = to_words(&file);
            assert_eq!(held(&words).0, (0, 0));
            // The outermost quantifier has the first new variable.
            let outermost = counts.place(Section::Terms, words[RIGHT], 0);
            assert_eq!(words[outermost..outermost + 2], [3, variables + 1]);
        }
        for (variables, quantifiers) in [(129, 128), (254, 3), (255, 2), (256, 2)] {
            let (answer, out) = renamed(&quantified(variables, quantifiers));
            assert_eq!(answer, 16 << 32, "{variables} and {quantifiers}");
            assert!(out.iter().all(|&byte| byte == 0));
        }
    });
}

/// The answer of all readers, as number and byte; a length is (0, 0).
fn read(declarations: &[u8], text: &str) -> (u64, u64) {
    let library = ffi::library();
    let mut readers: Vec<Reader> = vec![&plain_read];
    readers.extend(library.as_ref().map(|library| library.read));
    let call = |read| compare_reader::call(read, declarations, text.as_bytes(), ENOUGH, 1);
    let expected = call(&exact_read);
    for read in readers {
        assert!(call(read) == expected, "{text}");
    }
    match expected.0 >> 32 {
        0 => (0, 0),
        number => (number, expected.0 & 0xffff_ffff),
    }
}

#[test]
fn names_up_to_the_last_variable() {
    with_stack(|| {
        let declarations = to_bytes(&declared().0.words(0, 0));
        for variable in EDGES {
            for text in [
                format!("(= v{variable} v{variable})"),
                format!("(forall ((v{variable} Item)) (f35 v{variable} v1))"),
                format!("(let ((v{variable} f33)) (f35 v{variable} v256))"),
                format!("(exists ((v{variable} Item) (v{variable} Item)) true)"),
            ] {
                assert_eq!(read(&declarations, &text), (0, 0), "{text}");
            }
            for other in EDGES {
                let text = format!("(let ((v{variable} f33) (v{other} f33)) true)");
                let answer = if other == variable { (8, 0) } else { (0, 0) };
                assert_eq!(read(&declarations, &text), answer, "{text}");
            }
        }
        for (text, byte) in [
            ("v257", 0),
            ("(forall ((v257 Item)) true)", 10),
            ("(let ((v256 f33) (v257 f33)) true)", 18),
            ("(f35 v256 v512)", 10),
            ("(f35 v256 v0)", 10),
        ] {
            assert_eq!(read(&declarations, text), (20, byte), "{text}");
        }
        // With fewer variables declared the last of them is the last name.
        let mut b = Builder::new(Rng::new(1), 0);
        (0..65).for_each(|_| _ = b.variable(ITEM));
        let declarations = to_bytes(&b.words(0, 0));
        assert_eq!(read(&declarations, "(exists ((v65 Item)) (= v65 v1))"), (0, 0));
        assert_eq!(read(&declarations, "(exists ((v66 Item)) (= v66 v1))"), (20, 10));
    });
}
