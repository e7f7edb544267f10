//! REFL for whole terms (Req 04): what it takes, and the pairs that its walk visits.

use crate::{exact, judge, judge_bytes, plain, with_stack};
use nezkaldo_compare::answer::{Ending, Whole};
use nezkaldo_compare::bundle::{MAX_SETS, Section, counts_of, to_bytes};
use nezkaldo_compare::check;
use nezkaldo_compare::compare::Checker;
use nezkaldo_compare::compare_pairs;
use nezkaldo_compare::eval::{claim_holds, steps_hold};
use nezkaldo_compare::ffi;
use nezkaldo_compare::generate::builder::{Builder, EXISTS, FOR_ALL, ITEM, TRUTH};
use nezkaldo_compare::generate::derive::{CONG, REFL};
use nezkaldo_compare::generate::whole::{self, Length};
use nezkaldo_compare::generate::{Family, case};
use nezkaldo_compare::naive::{self, Plain, Tree};
use nezkaldo_compare::padding::Question;
use nezkaldo_compare::rng::Rng;

/// Those who answer: the two readings, and the library where it is there.
fn checkers() -> Vec<Checker<'static>> {
    let mut checkers: Vec<Checker> = vec![&exact, &plain];
    checkers.extend(ffi::library().map(|library| library.check));
    checkers
}

/// Symbols and variables to build terms from.
struct Terms {
    b: Builder,
    f: u32,
    p: u32,
    x: u32,
    y: u32,
    z: u32,
    /// Of truth.
    u: u32,
    x_term: u32,
    y_term: u32,
    z_term: u32,
    a_term: u32,
}

fn terms() -> Terms {
    let mut b = Builder::new(Rng::new(1), 100);
    let (a, f) = (b.symbol(ITEM, &[]), b.symbol(ITEM, &[ITEM]));
    let p = b.symbol(TRUTH, &[ITEM, ITEM]);
    let [x, y, z] = [0; 3].map(|_| b.variable(ITEM));
    let u = b.variable(TRUTH);
    let [x_term, y_term, z_term] = [x, y, z].map(|variable| b.variable_term(variable));
    let a_term = b.apply(a, &[]);
    Terms { b, f, p, x, y, z, u, x_term, y_term, z_term, a_term }
}

impl Terms {
    fn atom(&mut self, one: u32, other: u32) -> u32 {
        self.b.apply(self.p, &[one, other])
    }

    fn for_all(&mut self, variable: u32, body: u32) -> u32 {
        self.b.bind(FOR_ALL, variable, body)
    }

    /// The walk as the readings and the library tell it, and the answer to a file with this
    /// REFL and a claim that takes no walk: in a context that mentions all that is free in the
    /// sides, and in the one that is given.
    fn walk(&self, context: u32, left: u32, right: u32) -> Whole {
        let mut scoped = self.b.clone();
        let above = scoped.scope(context, &[left, right]);
        let walk = self.walk_in(scoped, above, [left, right]);
        assert_eq!(self.walk_in(self.b.clone(), context, [left, right]), walk);
        walk
    }

    fn walk_in(&self, mut b: Builder, context: u32, [left, right]: [u32; 2]) -> Whole {
        let stray = !(b.in_scope(context, left) && b.in_scope(context, right));
        b.add_step(REFL, context, left, right, &[]);
        b.add_step(REFL, 0, self.a_term, self.a_term, &[]);
        let file = to_bytes(&b.claim_last());
        let walk = check::walk(&file, context, [left, right]).unwrap();
        assert_eq!(naive::walk(&file, context, [left, right]), Some(walk));
        let question = Question::new(&file, context, [left, right]).unwrap();
        for check in checkers() {
            assert_eq!(question.measure(check), Some(Ok(walk)));
        }
        let answer = judge_bytes(&file).0;
        let stays = answer == (0, 0);
        match walk.ending {
            _ if stray => assert_eq!(answer, (22, 1)),
            Ending::Same => assert!(stays || answer == (0, walk.pairs), "{answer:?}"),
            Ending::Differs => assert_eq!(answer, (13, 1)),
            Ending::Spent => assert_eq!(answer, (21, 1)),
        }
        walk
    }
}

fn same(pairs: u32) -> Whole {
    Whole { ending: Ending::Same, pairs }
}

fn differs(pairs: u32) -> Whole {
    Whole { ending: Ending::Differs, pairs }
}

#[test]
fn binders_may_be_renamed() {
    let mut t = terms();
    let (left, right) = (t.atom(t.x_term, t.a_term), t.atom(t.y_term, t.a_term));
    let (left, right) = (t.for_all(t.x, left), t.for_all(t.y, right));
    assert_eq!(t.walk(0, left, right), same(4));
}

#[test]
fn kinds_and_sorts_of_binders() {
    let mut t = terms();
    let truth = t.b.apply(1, &[]);
    let sides = [(FOR_ALL, t.x), (EXISTS, t.x), (FOR_ALL, t.u), (FOR_ALL, t.y)];
    let [all, exists, other_sort, other_name] =
        sides.map(|(kind, variable)| t.b.bind(kind, variable, truth));
    assert_eq!(t.walk(0, all, exists), differs(1));
    assert_eq!(t.walk(0, all, other_sort), differs(1));
    assert_eq!(t.walk(0, all, other_name), same(2));
}

/// The nearest binder counts on each side.
#[test]
fn nearer_binders_hide() {
    for (left, right, expected) in [
        // for all x, x: p(x, x) against y, z
        ([0, 0, 0], [1, 2, 2], same(5)),
        ([0, 0, 0], [1, 2, 1], differs(4)),
        // for all x, z: p(x, x) against y, y
        ([0, 2, 0], [1, 1, 1], differs(4)),
        ([0, 2, 2], [1, 1, 1], same(5)),
        ([0, 1, 0], [1, 0, 1], same(5)),
        ([0, 1, 0], [1, 0, 0], differs(4)),
    ] {
        let mut t = terms();
        let variables = [t.x, t.y, t.z];
        let [left, right] = [left, right].map(|[outer, inner, leaf]| {
            let leaf = t.b.variable_term(variables[leaf]);
            let atom = t.atom(leaf, leaf);
            let inside = t.for_all(variables[inner], atom);
            t.for_all(variables[outer], inside)
        });
        assert_eq!(t.walk(0, left, right), expected);
    }
}

/// Behind its body a binder is gone, and what it hid is back.
#[test]
fn binders_end() {
    let mut t = terms();
    // For all x: (for all y: p(x, y)) and p(x, y), against names z and x.
    let [left, right] = [[t.x, t.y], [t.z, t.x]].map(|[outer, inner]| {
        let (outer_term, inner_term) = (t.b.variable_term(outer), t.b.variable_term(inner));
        let atom = t.atom(outer_term, inner_term);
        let inside = t.for_all(inner, atom);
        let after = t.atom(outer_term, t.y_term);
        let both = t.b.apply(4, &[inside, after]);
        t.for_all(outer, both)
    });
    assert_eq!(t.walk(0, left, right), same(9));
    let mut t = terms();
    // For all x: (for all x: p(x, x)) and p(x, x), against y outside and z inside.
    let [left, right] = [[t.x, t.x], [t.y, t.z]].map(|[outer, inner]| {
        let [outer_term, inner_term] = [outer, inner].map(|name| t.b.variable_term(name));
        let (inside, after) = (t.atom(inner_term, inner_term), t.atom(outer_term, outer_term));
        let inside = t.for_all(inner, inside);
        let both = t.b.apply(4, &[inside, after]);
        t.for_all(outer, both)
    });
    assert_eq!(t.walk(0, left, right), same(9));
}

/// An image may not meet a binder on the right that takes a variable of it.
#[test]
fn images_are_not_captured() {
    let mut t = terms();
    let image = t.b.apply(t.f, &[t.y_term]);
    let context = t.b.replace(&[t.z], &[image], 0);
    let left = t.atom(t.x_term, t.z_term);
    let left = t.for_all(t.x, left);
    let [captured, free] = [(t.y, t.y_term), (t.z, t.z_term)].map(|(name, term)| {
        let atom = t.atom(term, image);
        t.for_all(name, atom)
    });
    assert_eq!(t.walk(context, left, captured), differs(4));
    assert_eq!(t.walk(context, left, free), same(4));
    // A variable that is its own image.
    let (left, right) = (t.atom(t.x_term, t.y_term), t.atom(t.y_term, t.y_term));
    let (left, right) = (t.for_all(t.x, left), t.for_all(t.y, right));
    assert_eq!(t.walk(0, left, right), differs(4));
}

/// Captured by a variable past the first word of a set.
#[test]
fn capture_in_every_word() {
    for number in [64, 65, 128, 129, 192, 193, 256] {
        let mut b = Builder::new(Rng::new(2), 0);
        let p = b.symbol(TRUTH, &[ITEM, ITEM]);
        let names: Vec<u32> = (0..256).map(|_| b.variable(ITEM)).collect();
        let (x, y) = (names[1], names[number - 1]);
        let (x_term, y_term) = (b.variable_term(x), b.variable_term(y));
        let (left, right) = (b.apply(p, &[x_term, y_term]), b.apply(p, &[y_term, y_term]));
        let (left, right) = (b.bind(FOR_ALL, x, left), b.bind(FOR_ALL, y, right));
        let context = b.fix(y, 0);
        b.add_step(REFL, context, left, right, &[]);
        assert_eq!(judge(&b.claim_last()).0, (13, 1));
    }
}

/// Images are compared by record: binders in them keep their names, and no variable in them
/// is replaced again.
#[test]
fn images_stay_as_they_are() {
    let mut t = terms();
    let images = [(t.x, t.x_term), (t.y, t.y_term)].map(|(name, term)| {
        let atom = t.atom(term, t.a_term);
        t.for_all(name, atom)
    });
    let context = t.b.replace(&[t.u], &[images[0]], 0);
    let u_term = t.b.variable_term(t.u);
    let [left, right, renamed] = [u_term, images[0], images[1]].map(|term| t.b.apply(3, &[term]));
    assert_eq!(t.walk(context, left, right), same(2));
    assert_eq!(t.walk(context, left, renamed), differs(2));
    // x and y replaced by one another together.
    let context = t.b.replace(&[t.x, t.y], &[t.y_term, t.x_term], 0);
    let left = t.atom(t.x_term, t.y_term);
    let (turned, twice) = (t.atom(t.y_term, t.x_term), t.atom(t.y_term, t.y_term));
    assert_eq!(t.walk(context, left, turned), same(3));
    assert_eq!(t.walk(context, left, left), differs(2));
    assert_eq!(t.walk(context, left, twice), differs(3));
}

/// A variable that is bound inside left is not replaced; a fixed one is itself.
#[test]
fn bound_and_fixed_variables() {
    let mut t = terms();
    let context = t.b.replace(&[t.x], &[t.a_term], 0);
    let (left, right) = (t.atom(t.x_term, t.x_term), t.atom(t.a_term, t.a_term));
    let (left, right) = (t.for_all(t.x, left), t.for_all(t.x, right));
    assert_eq!(t.walk(context, left, right), differs(3));
    let mut t = terms();
    let context = t.b.replace(&[t.x], &[t.a_term], 0);
    let context = t.b.fix(t.x, context);
    let context = t.b.replace(&[t.y], &[t.a_term], context);
    let (left, right) = (t.atom(t.x_term, t.y_term), t.atom(t.x_term, t.a_term));
    assert_eq!(t.walk(context, left, right), same(3));
}

/// A let's variables are crossed together, in order; its bound terms stand outside them.
#[test]
fn lets() {
    // Names of the right let's two variables, and of the arguments of its body.
    for (names, body, expected) in [
        ([0, 1], [0, 1], same(7)),
        ([1, 0], [1, 0], same(7)),
        ([1, 0], [0, 1], differs(6)),
        ([1, 2], [1, 2], same(7)),
        ([1, 2], [1, 1], differs(7)),
    ] {
        let mut t = terms();
        let variables = [t.x, t.y, t.z];
        let f_a = t.b.apply(t.f, &[t.a_term]);
        let mut side = |names: [usize; 2], body: [usize; 2]| {
            let arguments = body.map(|place| t.b.variable_term(variables[place]));
            let body = t.b.apply(t.p, &arguments);
            t.b.bind_let(&names.map(|place| variables[place]), &[t.a_term, f_a], body)
        };
        let (left, right) = (side([0, 1], [0, 1]), side(names, body));
        assert_eq!(t.walk(0, left, right), expected);
    }
    // let x = x against let y = a, where x becomes a.
    let mut t = terms();
    let context = t.b.replace(&[t.x], &[t.a_term], 0);
    let (left, right) = (t.atom(t.x_term, t.x_term), t.atom(t.y_term, t.y_term));
    let left = t.b.bind_let(&[t.x], &[t.x_term], left);
    let right = t.b.bind_let(&[t.y], &[t.a_term], right);
    assert_eq!(t.walk(context, left, right), same(5));
    // let x = y against let y = y.
    let mut t = terms();
    let (left, right) = (t.atom(t.x_term, t.x_term), t.atom(t.y_term, t.y_term));
    let left = t.b.bind_let(&[t.x], &[t.y_term], left);
    let right = t.b.bind_let(&[t.y], &[t.y_term], right);
    assert_eq!(t.walk(0, left, right), same(5));
}

/// Other numbers of variables or sorts are a difference at the let, an expanded let too.
#[test]
fn lets_that_do_not_meet() {
    let mut t = terms();
    let truth = t.b.apply(1, &[]);
    let left = t.b.bind_let(&[t.x, t.y], &[t.a_term, t.a_term], truth);
    let fewer = t.b.bind_let(&[t.x], &[t.a_term], truth);
    let other_sort = t.b.bind_let(&[t.x, t.u], &[t.a_term, truth], truth);
    for right in [fewer, other_sort, truth] {
        assert_eq!(t.walk(0, left, right), differs(1));
        assert_eq!(t.walk(0, right, left), differs(1));
    }
    assert_eq!(t.walk(0, left, left), same(4), "measured behind two names, since it stays");
}

/// Sides of different sorts: padded by a let.
#[test]
fn sides_of_different_sorts() {
    let mut t = terms();
    let truth = t.b.apply(1, &[]);
    let left = t.b.bind_let(&[t.x], &[t.a_term], truth);
    let right = t.b.bind_let(&[t.y], &[t.a_term], t.a_term);
    assert_eq!(t.walk(0, left, right), differs(3));
}

#[test]
fn other_symbols_and_kinds() {
    let mut t = terms();
    let (f_a, atom) = (t.b.apply(t.f, &[t.a_term]), t.atom(t.a_term, t.a_term));
    let equal = t.b.apply(8, &[t.a_term, t.a_term]);
    let (left, leaf) = (t.atom(f_a, t.a_term), t.atom(f_a, f_a));
    assert_eq!(t.walk(0, atom, equal), differs(1));
    assert_eq!(t.walk(0, f_a, t.a_term), differs(1));
    assert_eq!(t.walk(0, left, atom), differs(2));
    assert_eq!(t.walk(0, left, leaf), differs(4));
}

/// The first two forms take no pairs; one term that is not settled is walked.
#[test]
fn the_first_forms_take_no_pairs() {
    let mut t = terms();
    let fixing = t.b.fix(t.y, 0);
    let context = t.b.replace(&[t.x], &[t.a_term], fixing);
    t.b.add_step(REFL, context, t.x_term, t.a_term, &[]);
    let term = t.atom(t.y_term, t.a_term);
    t.b.add_step(REFL, context, term, term, &[]);
    let closed = t.for_all(t.y, term);
    t.b.add_step(REFL, 0, closed, closed, &[]);
    assert_eq!(judge(&t.b.claim_last()).0, (0, 0));
    let mut t = terms();
    let context = t.b.replace(&[t.x], &[t.a_term], 0);
    let term = t.atom(t.y_term, t.x_term);
    assert_eq!(t.walk(context, term, term), differs(3));
    assert_eq!(t.walk(0, t.x_term, t.a_term), differs(1));
}

/// The last walk's pairs are answered, whatever follows it without a walk.
#[test]
fn the_last_walk_counts() {
    for (order, expected) in [([0, 1], 3), ([1, 0], 4)] {
        let mut t = terms();
        let fixing = t.b.fix(t.y, 0);
        let context = t.b.replace(&[t.x], &[t.a_term], fixing);
        let (left, right) = (t.atom(t.y_term, t.x_term), t.atom(t.y_term, t.a_term));
        let (one, other) = (t.for_all(t.y, left), t.for_all(t.y, right));
        let walks = [(one, other), (left, right)];
        for place in order {
            t.b.add_step(REFL, context, walks[place].0, walks[place].1, &[]);
        }
        t.b.add_step(REFL, context, t.x_term, t.a_term, &[]);
        t.b.add_step(CONG, 0, t.a_term, t.a_term, &[]);
        assert_eq!(judge(&t.b.claim_last()).0, (0, expected));
    }
}

/// A file with one walk of so many pairs, and what it is answered.
fn answer_to(pairs: u32, differs: bool, binders: u32) -> (u32, u32) {
    judge(&whole::one_walk(Rng::new(u64::from(pairs)), Length { pairs, differs, binders })).0
}

#[test]
fn the_limit() {
    for binders in [0, 1, 5, 9] {
        for pairs in [20, 4_095, 4_096] {
            assert_eq!(answer_to(pairs, false, binders), (0, pairs));
            assert_eq!(answer_to(pairs, true, binders), (13, 1));
        }
        for pairs in [4_097, 4_098, 9_000] {
            assert_eq!(answer_to(pairs, false, binders), (21, 1));
            assert_eq!(answer_to(pairs, true, binders), (21, 1));
        }
    }
}

/// A doubled term takes 2^n - 1 pairs; its size does not matter behind a difference.
#[test]
fn doubled_terms() {
    let doubled = |level: u32, wrong: Option<usize>| {
        let mut b = Builder::new(Rng::new(3), 100);
        let a = b.symbol(ITEM, &[]);
        let d = b.symbol(ITEM, &[ITEM, ITEM]);
        let x = b.variable(ITEM);
        let (x_term, a_term) = (b.variable_term(x), b.apply(a, &[]));
        let context = b.replace(&[x], &[a_term], 0);
        let (mut left, mut right) = (x_term, a_term);
        for _ in 1..level {
            (left, right) = (b.apply(d, &[left, left]), b.apply(d, &[right, right]));
        }
        if let Some(place) = wrong {
            let (mut one, mut other) = ([left; 2], [right; 2]);
            (one[place], other[place]) = (x_term, x_term);
            (left, right) = (b.apply(d, &one), b.apply(d, &other));
        }
        b.add_step(REFL, context, left, right, &[]);
        b.add_step(REFL, 0, a_term, a_term, &[]);
        judge(&b.claim_last()).0
    };
    for level in 2..=12 {
        assert_eq!(doubled(level, None), (0, (1 << level) - 1));
    }
    for level in [13, 30, 500] {
        assert_eq!(doubled(level, None), (21, 1));
        assert_eq!(doubled(level, Some(0)), (13, 1), "the difference comes first");
        assert_eq!(doubled(level, Some(1)), (21, 1), "the difference comes too late");
    }
    assert_eq!(doubled(12, Some(1)), (21, 1), "at pair 4,097");
    assert_eq!(doubled(11, Some(1)), (13, 1));
}

/// 12 and 22 come before 21, and a step that is spent before what follows it.
#[test]
fn the_order_of_refusals() {
    let words = whole::one_walk(Rng::new(1), Length { pairs: 5_000, differs: false, binders: 0 });
    let counts = counts_of(&to_bytes(&words)).unwrap();
    let changed = |step: u32, field: usize, word: u32| {
        let mut words = words.clone();
        words[counts.place(Section::Steps, step, field)] = word;
        judge(&words).0
    };
    assert_eq!(judge(&words).0, (21, 1));
    assert_eq!(changed(1, 1, counts[Section::Contexts] + 1), (12, 1));
    assert_eq!(changed(2, 0, 9), (21, 1));
    assert_eq!(changed(1, 0, CONG), (13, 1), "no other rule walks");
    assert_eq!(changed(1, 1, 0), (22, 1), "not mentioned");
}

/// A thousand binders in one another, within the stack that the header asks for.
#[test]
fn many_binders() {
    with_stack(|| {
        for depth in [5, 100, 1_000] {
            let words = whole::shared_binders(Rng::new(5), depth, 100);
            let ((number, pairs), _) = judge(&words);
            assert_eq!(number, 0);
            assert!(pairs > depth && pairs < depth + 80, "{pairs}");
            let plain = naive::load(&to_bytes(&words), MAX_SETS).unwrap();
            if depth == 5 {
                claim_holds(&plain, 300, &mut Rng::new(1)).unwrap();
            }
        }
    });
}

/// Nested applications and lets, as deep as a file can have them.
#[test]
fn deep_terms() {
    with_stack(|| {
        for lets in [false, true] {
            let mut t = terms();
            let context = t.b.replace(&[t.x], &[t.a_term], 0);
            let (mut left, mut right) = (t.x_term, t.a_term);
            for _ in 0..500 {
                (left, right) = if lets {
                    let one = t.b.bind_let(&[t.y], &[left], t.y_term);
                    (one, t.b.bind_let(&[t.z], &[right], t.z_term))
                } else {
                    (t.b.apply(t.f, &[left]), t.b.apply(t.f, &[right]))
                };
            }
            let pairs = if lets { 1_001 } else { 501 };
            assert_eq!(t.walk(context, left, right), same(pairs));
        }
    });
}

/// A file of many such steps is accepted and holds.
#[test]
fn one_step_for_many() {
    let file = to_bytes(&whole::one_for_many(Rng::new(1), 50));
    assert_eq!(judge_bytes(&file).0, (0, 40));
    let plain = naive::load(&file, MAX_SETS).unwrap();
    let mut rng = Rng::new(4);
    assert!(claim_holds(&plain, 300, &mut rng).is_ok() && steps_hold(&plain, 3, &mut rng).is_ok());
}

/// The walks of generated files, as each party's answers tell them.
#[test]
fn generated_walks_are_measured() {
    let mut seen = [0; 3];
    for index in 0..1_200 {
        let case = case(31, index);
        let answer = exact(&case.bytes, &mut [0; MAX_SETS]);
        if case.family != Family::Whole {
            continue;
        }
        for (context, sides) in compare_pairs::walks(&case.bytes, answer, index) {
            let Some(walk) = check::walk(&case.bytes, context, sides) else { continue };
            let question = Question::new(&case.bytes, context, sides).unwrap();
            for check in checkers() {
                if let Some(found) = question.measure(check) {
                    assert_eq!(found, Ok(walk), "file {index}");
                    seen[walk.ending as usize] += 1;
                }
            }
        }
    }
    assert!(seen.iter().all(|&seen| seen >= 4), "{seen:?}");
}

/// The term that a term becomes where its binders get the names that they have in `like`, and
/// each other variable its image: by its record. `None` where the two have other shapes, a
/// name takes a variable, or the file has no such term.
fn rebuilt(
    plain: &Plain,
    context: u32,
    names: &mut Vec<(u32, u32)>,
    term: u32,
    like: u32,
) -> Option<u32> {
    let record = |tree: &Tree| plain.terms.iter().position(|other| other == tree);
    let sort = |variable: &u32| plain.variables[*variable as usize - 1];
    // Those of the body, with these names; each has to have its sort.
    let mut within = |from: &[u32], to: &[u32], parts: [u32; 2]| {
        let outside = names.len();
        let same = from.iter().map(sort).eq(to.iter().map(sort));
        names.extend(from.iter().copied().zip(to.iter().copied()));
        let body = if same { rebuilt(plain, context, names, parts[0], parts[1]) } else { None };
        names.truncate(outside);
        body
    };
    let tree = match (plain.tree(term), plain.tree(like)) {
        (Tree::Variable(x), _) => {
            let bound = names.iter().rposition(|(from, _)| from == x);
            let (becomes, inner) = match bound {
                Some(place) => (record(&Tree::Variable(names[place].1))?, place + 1),
                None => (plain.image(context, *x).unwrap_or(term) as usize - 1, 0),
            };
            let free = &plain.free[becomes];
            let taken = names[inner..].iter().any(|(_, to)| free.contains(to));
            return (!taken).then_some(becomes as u32 + 1);
        }
        (Tree::Application(f, from), Tree::Application(_, to)) if from.len() == to.len() => {
            let parts = from.iter().zip(to).map(|(&a, &b)| rebuilt(plain, context, names, a, b));
            Tree::Application(*f, parts.collect::<Option<_>>()?)
        }
        (Tree::ForAll(x, body), Tree::ForAll(y, other)) => {
            Tree::ForAll(*y, within(&[*x], &[*y], [*body, *other])?)
        }
        (Tree::Exists(x, body), Tree::Exists(y, other)) => {
            Tree::Exists(*y, within(&[*x], &[*y], [*body, *other])?)
        }
        (Tree::Choice(x, body), Tree::Choice(y, other)) => {
            Tree::Choice(*y, within(&[*x], &[*y], [*body, *other])?)
        }
        (Tree::Let(from, bounds, body), Tree::Let(to, results, other))
            if bounds.len() == results.len() =>
        {
            let body = within(from, to, [*body, *other])?;
            let parts =
                bounds.iter().zip(results).map(|(&a, &b)| rebuilt(plain, context, names, a, b));
            Tree::Let(to.clone(), parts.collect::<Option<_>>()?, body)
        }
        _ => return None,
    };
    record(&tree).map(|place| place as u32 + 1)
}

/// What the walk takes is what replacing makes, by its record, and nothing else.
#[test]
fn walks_are_replacements() {
    let mut seen = [0; 2];
    for index in 0..6_000 {
        let case = case(32, index);
        if case.family != Family::Whole || case.bytes.len() > 4_000 {
            continue;
        }
        let Ok(plain) = naive::load(&case.bytes, usize::MAX) else { continue };
        for step in plain.steps.iter().filter(|step| step.rule == REFL) {
            // A right side of another step too.
            for right in plain.steps.iter().map(|other| other.right).take(12).chain([step.right]) {
                let walk = check::walk(&case.bytes, step.context, [step.left, right]).unwrap();
                if walk.ending == Ending::Spent {
                    continue;
                }
                let made = rebuilt(&plain, step.context, &mut Vec::new(), step.left, right);
                let same = walk.ending == Ending::Same;
                assert_eq!(made == Some(right), same, "file {index}: {step:?} to {right}");
                seen[usize::from(same)] += 1;
            }
        }
    }
    assert!(seen.iter().all(|&seen| seen >= 300), "{seen:?}");
}
