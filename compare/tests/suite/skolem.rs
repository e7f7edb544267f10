//! Choices and SKO (Req 07), by hand: both rules, what is nearly one, choices as terms, and
//! worlds with picks.

use crate::judge;
use nezkaldo_compare::bundle::{MAX_SETS, to_bytes};
use nezkaldo_compare::eval::{Evaluator, World, claim_holds, steps_hold};
use nezkaldo_compare::expand::{Names, written};
use nezkaldo_compare::fault::Fault;
use nezkaldo_compare::generate::builder::{
    BINDERS, Builder, CHOICE, EXISTS, FOR_ALL, ITEM, NOT, Shape, TRUTH,
};
use nezkaldo_compare::generate::derive::{BIND, CONG, REFL, SKO_EXISTS, SKO_FOR_ALL, sko};
use nezkaldo_compare::generate::{large, skolem};
use nezkaldo_compare::mutants::broken_checker;
use nezkaldo_compare::naive;
use nezkaldo_compare::rng::Rng;

const ACCEPTED: (u32, u32) = (0, 0);

/// Symbols a, f, p and n, and variables x, y and z, items, and t, a truth value.
struct Ground {
    b: Builder,
    p: u32,
    n: u32,
    x: u32,
    y: u32,
    t: u32,
    a_term: u32,
    x_term: u32,
    y_term: u32,
}

impl Ground {
    fn new() -> Self {
        let mut b = Builder::new(Rng::new(1), 0);
        let a = b.symbol(ITEM, &[]);
        let p = b.symbol(TRUTH, &[ITEM, ITEM]);
        let n = b.symbol(TRUTH, &[TRUTH]);
        let [x, y] = std::array::from_fn(|_| b.variable(ITEM));
        let t = b.variable(TRUTH);
        let (a_term, x_term, y_term) = (b.apply(a, &[]), b.variable_term(x), b.variable_term(y));
        Ground { b, p, n, x, y, t, a_term, x_term, y_term }
    }

    fn p_of(&mut self, one: u32, other: u32) -> u32 {
        self.b.apply(self.p, &[one, other])
    }

    fn not(&mut self, term: u32) -> u32 {
        self.b.apply(NOT, &[term])
    }

    /// Number and record of the file.
    fn answer(mut self) -> (u32, u32) {
        match judge(&self.b.claim_last()).0 {
            // The pairs of a walk.
            (0, _) => ACCEPTED,
            refused => refused,
        }
    }
}

/// A step of SKO over p(x, a), from a quantifier, by a rule, with a term in x's place. Answers
/// what is said of the file.
fn step(
    kind: u32,
    rule: u32,
    witness: impl Fn(&mut Ground, u32) -> u32,
    premises: &[usize],
) -> (u32, u32) {
    let mut g = Ground::new();
    let (x_term, a_term) = (g.x_term, g.a_term);
    let body = g.p_of(x_term, a_term);
    let term = witness(&mut g, body);
    let parent = g.b.scope(0, &[term]);
    let context = g.b.replace(&[g.x], &[term], parent);
    let right = g.p_of(term, a_term);
    let carried = g.b.add_step(REFL, context, body, right, &[]);
    let left = g.b.bind(kind, g.x, body);
    let premises: Vec<u32> = premises.iter().map(|_| carried).collect();
    g.b.add_step(rule, parent, left, right, &premises);
    g.answer()
}

fn plain(g: &mut Ground, body: u32) -> u32 {
    g.b.bind(CHOICE, g.x, body)
}

fn negated(g: &mut Ground, body: u32) -> u32 {
    let not = g.not(body);
    g.b.bind(CHOICE, g.x, not)
}

#[test]
fn each_rule_has_its_choice() {
    assert_eq!(step(EXISTS, SKO_EXISTS, plain, &[0]), ACCEPTED);
    assert_eq!(step(FOR_ALL, SKO_FOR_ALL, negated, &[0]), ACCEPTED);
    for (kind, rule) in [EXISTS, FOR_ALL, CHOICE]
        .map(|kind| [SKO_EXISTS, SKO_FOR_ALL].map(|rule| (kind, rule)))
        .concat()
    {
        let good = [plain, negated].map(|witness| step(kind, rule, witness, &[0]) == ACCEPTED);
        let due = [(EXISTS, SKO_EXISTS), (FOR_ALL, SKO_FOR_ALL)].map(|own| own == (kind, rule));
        assert_eq!(good, due, "{kind} by {rule}");
    }
}

#[test]
fn one_premise_each() {
    for (kind, rule, witness) in [
        (EXISTS, SKO_EXISTS, plain as fn(&mut Ground, u32) -> u32),
        (FOR_ALL, SKO_FOR_ALL, negated),
    ] {
        assert_eq!(step(kind, rule, witness, &[]), (12, 2));
        assert_eq!(step(kind, rule, witness, &[0, 0]), (12, 2));
    }
    assert_eq!(step(EXISTS, SKO_FOR_ALL + 1, plain, &[0]), (12, 2));
}

/// The choice is of x, in the body, or in its not alone.
#[test]
fn no_other_term_takes_the_place() {
    let refused = |kind, rule, witness: &dyn Fn(&mut Ground, u32) -> u32| {
        assert_eq!(step(kind, rule, |g, body| witness(g, body), &[0]), (13, 2));
    };
    for (kind, rule) in [(EXISTS, SKO_EXISTS), (FOR_ALL, SKO_FOR_ALL)] {
        let inner = move |g: &mut Ground, body| if kind == EXISTS { body } else { g.not(body) };
        // Of another variable.
        refused(kind, rule, &|g, body| {
            let inner = inner(g, body);
            g.b.bind(CHOICE, g.y, inner)
        });
        // In another body.
        refused(kind, rule, &|g, _| {
            let other = g.p_of(g.a_term, g.x_term);
            let inner = inner(g, other);
            g.b.bind(CHOICE, g.x, inner)
        });
        // Up to its name: the choice of y in p(y, a) is another term.
        refused(kind, rule, &|g, _| {
            let other = g.p_of(g.y_term, g.a_term);
            let inner = inner(g, other);
            g.b.bind(CHOICE, g.y, inner)
        });
        refused(kind, rule, &|g, _| g.a_term);
        // Twice negated, or by another symbol of the same sorts.
        refused(kind, rule, &|g, body| {
            let inner = inner(g, body);
            let twice = g.not(inner);
            let twice = g.not(twice);
            g.b.bind(CHOICE, g.x, twice)
        });
        refused(kind, rule, &|g, body| {
            let other = g.b.apply(g.n, &[body]);
            g.b.bind(CHOICE, g.x, other)
        });
    }
}

/// How the context of the premise, or a side, is not as it has to be.
#[test]
fn the_context_is_the_steps() {
    for kind in [EXISTS, FOR_ALL] {
        let made = |change: &str| {
            let mut g = Ground::new();
            let (x, y, x_term, a_term) = (g.x, g.y, g.x_term, g.a_term);
            let body = g.p_of(x_term, a_term);
            let choice = if kind == EXISTS { plain(&mut g, body) } else { negated(&mut g, body) };
            let own = g.b.fix(x, 0);
            let parent = match change {
                "above" => g.b.fix(y, own),
                "equal parent" => g.b.copy_context(own),
                "grandparent" => 0,
                _ => own,
            };
            let context = match change {
                "more" => g.b.replace(&[x, y], &[choice, a_term], parent),
                "more before" => g.b.replace(&[y, x], &[a_term, choice], parent),
                "another" => g.b.replace(&[y], &[choice], parent),
                "fixes" => g.b.fix(x, parent),
                _ => g.b.replace(&[x], &[choice], parent),
            };
            let image = g.b.image(context, x).unwrap_or(x_term);
            let (carried, right) = match change {
                "left" => (g.p_of(a_term, x_term), g.p_of(a_term, image)),
                _ => (body, g.p_of(image, a_term)),
            };
            let premise = g.b.add_step(REFL, context, carried, right, &[]);
            let right = if change == "right" { g.p_of(a_term, a_term) } else { right };
            let left = g.b.bind(kind, x, body);
            g.b.add_step(sko(kind), own, left, right, &[premise]);
            g.b.add_step(CONG, 0, a_term, a_term, &[]);
            g.answer()
        };
        assert_eq!(made("none"), ACCEPTED);
        for change in [
            "more",
            "more before",
            "another",
            "fixes",
            "above",
            "equal parent",
            "grandparent",
            "left",
            "right",
        ] {
            assert_eq!(made(change), (13, 2), "{change}");
        }
    }
}

/// The choice has a free variable that the step's context moves: 11 at the context of the
/// premise. Where it is replaced by itself, it is settled.
#[test]
fn the_choice_is_settled() {
    for (kind, moved) in [(EXISTS, true), (EXISTS, false), (FOR_ALL, true), (FOR_ALL, false)] {
        let mut g = Ground::new();
        let (x, y, x_term, y_term, a_term) = (g.x, g.y, g.x_term, g.y_term, g.a_term);
        let body = g.p_of(x_term, y_term);
        let choice = if kind == EXISTS { plain(&mut g, body) } else { negated(&mut g, body) };
        let fixing = g.b.fix(y, 0);
        let image = if moved { a_term } else { y_term };
        let outer = g.b.replace(&[y], &[image], fixing);
        let inner = g.b.replace(&[x], &[choice], outer);
        let right = g.p_of(choice, image);
        let premise = g.b.add_step(REFL, inner, body, right, &[]);
        let left = g.b.bind(kind, x, body);
        g.b.add_step(sko(kind), outer, left, right, &[premise]);
        g.b.add_step(CONG, 0, a_term, a_term, &[]);
        assert_eq!(g.answer(), if moved { (11, 3) } else { ACCEPTED });
    }
}

/// A choice has its variable's sort, a truth body, and binds its variable.
#[test]
fn choices_are_terms() {
    let refl = |term: &dyn Fn(&mut Ground) -> u32| {
        let mut g = Ground::new();
        let term = term(&mut g);
        g.b.add_step(REFL, 0, term, term, &[]);
        g.answer()
    };
    let item = |g: &mut Ground| {
        let body = g.p_of(g.x_term, g.x_term);
        g.b.bind(CHOICE, g.x, body)
    };
    assert_eq!(refl(&item), ACCEPTED);
    // An item: an argument of p.
    assert_eq!(
        refl(&|g| {
            let choice = item(g);
            g.p_of(choice, choice)
        }),
        ACCEPTED
    );
    // Of a truth value: an argument of not.
    assert_eq!(
        refl(&|g| {
            let t_term = g.b.variable_term(g.t);
            let choice = g.b.bind(CHOICE, g.t, t_term);
            g.not(choice)
        }),
        ACCEPTED
    );
    // Not of the other sort; a body that is an item; y stays free.
    assert_eq!(
        refl(&|g| {
            let choice = item(g);
            g.not(choice)
        })
        .0,
        8
    );
    assert_eq!(refl(&|g| g.b.bind(CHOICE, g.x, g.a_term)), (8, 4));
    assert_eq!(
        refl(&|g| {
            let body = g.p_of(g.x_term, g.y_term);
            g.b.bind(CHOICE, g.x, body)
        }),
        (22, 1)
    );
}

/// BIND and one REFL rename a choice; neither takes it to a quantifier, nor captures.
#[test]
fn choices_bind() {
    let renamed = |from: u32, to: u32, by_refl: bool, capture: bool| {
        let mut g = Ground::new();
        let (x, y, x_term, y_term, a_term) = (g.x, g.y, g.x_term, g.y_term, g.a_term);
        let second = if capture { y_term } else { a_term };
        let (left, right) = (g.p_of(x_term, second), g.p_of(y_term, second));
        let context = if capture { g.b.fix(y, 0) } else { 0 };
        let fixing = g.b.fix(y, context);
        let renaming = g.b.replace(&[x], &[y_term], fixing);
        let [from, to] =
            [(from, x, left), (to, y, right)].map(|(kind, x, body)| g.b.bind(kind, x, body));
        if by_refl {
            g.b.add_step(REFL, context, from, to, &[]);
        } else {
            let premise = g.b.add_step(REFL, renaming, left, right, &[]);
            g.b.add_step(BIND, context, from, to, &[premise]);
        }
        if context != 0 {
            g.b.add_step(CONG, 0, a_term, a_term, &[]);
        }
        g.answer().0
    };
    for from in BINDERS {
        for to in BINDERS {
            for by_refl in [false, true] {
                let due = if from == to { 0 } else { 13 };
                assert_eq!(renamed(from, to, by_refl, false), due, "{from} to {to}");
            }
        }
        assert_eq!(renamed(from, from, false, true), 14);
        assert_eq!(renamed(from, from, true, true), 13);
    }
}

/// The value of a choice is what is picked from the set of the values with a true body.
#[test]
fn a_world_picks() {
    let mut g = Ground::new();
    let (x, x_term, a_term) = (g.x, g.x_term, g.a_term);
    let is_a = g.b.apply(8, &[x_term, a_term]);
    let not_a = g.not(is_a);
    let never = g.b.apply(2, &[]);
    let terms = [is_a, not_a, never].map(|body| g.b.bind(CHOICE, x, body));
    g.b.add_step(REFL, 0, a_term, a_term, &[]);
    let plain = naive::load(&to_bytes(&g.b.claim_last()), MAX_SETS).unwrap();
    // Items 0 to 2, and a is 1. By the sets {}, {0}, {1}, {0, 1}, {2}, and so on.
    let p = [0; 9];
    let tables: [&[u32]; 3] = [&[1], &p, &[0, 0]];
    for pick in [[2, 0, 1, 0, 2, 2, 1, 0], [0, 0, 1, 1, 2, 0, 2, 2]] {
        let world = World::with_tables(3, &tables).picking([vec![0, 0, 1, 0], pick.to_vec()]);
        let values = terms.map(|term| Evaluator::new(&plain, &world, 100).value(term));
        assert_eq!(values, [Ok(1), Ok(pick[5]), Ok(pick[0])]);
    }
}

/// SKO by the rule that forgets the not is false somewhere, and so are choices in other bodies.
#[test]
fn wrong_sko_is_unsound() {
    for fault in [
        Fault::SkoForAllWithoutNot,
        Fault::SkoExistsWithNot,
        Fault::SkoOfAnyBody,
        Fault::SkoTakesAnyTerm,
        Fault::SkoTakesEitherQuantifier,
    ] {
        let broken = broken_checker(fault);
        let found = (0..20_000).any(|index| {
            let file = to_bytes(&skolem::any(Rng::for_file(1, index)));
            let mut area = vec![0; MAX_SETS];
            if broken(&file, &mut area) >> 32 != 0 || naive::load(&file, MAX_SETS).is_ok() {
                return false;
            }
            let plain = naive::tables(&file, |_| true).unwrap();
            claim_holds(&plain, 300, &mut Rng::new(index)).is_err()
        });
        assert!(found, "{fault:?} was not seen to let a false claim through");
    }
}

/// Accepted files of the family hold, and each kind of them is there.
#[test]
fn accepted_files_hold() {
    let mut steps = [0; 2];
    for index in 0..4_000 {
        let file = to_bytes(&skolem::any(Rng::for_file(2, index)));
        let Ok(plain) = naive::load(&file, MAX_SETS) else { continue };
        let mut rng = Rng::new(index);
        claim_holds(&plain, 600, &mut rng).unwrap_or_else(|text| panic!("file {index}: {text}"));
        steps_hold(&plain, 3, &mut rng).unwrap_or_else(|text| panic!("file {index}: {text}"));
        for (count, rule) in steps.iter_mut().zip([SKO_EXISTS, SKO_FOR_ALL]) {
            *count += plain.steps.iter().filter(|step| step.rule == rule).count();
        }
    }
    assert!(steps.iter().all(|&count| count > 300), "{steps:?}");
}

/// The benchmark's file: so many steps of SKO.
#[test]
fn many_skolem_steps_are_accepted() {
    for count in [1, 2, 3, 64, 127, 128] {
        let file = to_bytes(&large::many_skolem(Rng::new(1), count));
        let plain = naive::load(&file, MAX_SETS).unwrap();
        let rules = [SKO_EXISTS, SKO_FOR_ALL];
        let own = plain.steps.iter().filter(|step| rules.contains(&step.rule)).count();
        // The last step of a file with one is its only one once more.
        assert_eq!(own as u32, count + u32::from(count == 1));
    }
}

/// The writer renames or keeps a choice as a quantifier, by BIND.
#[test]
fn the_writer_takes_choices() {
    let mut g = Ground::new();
    let body = g.p_of(g.x_term, g.a_term);
    let choice = g.b.bind(CHOICE, g.x, body);
    let rule = g.p_of(choice, choice);
    let job = to_bytes(&g.b.words(rule, 0));
    for (names, kept) in [(Names::Keep, true), (Names::RenameAll, false)] {
        let plain = naive::load(&written(&job, names).unwrap(), MAX_SETS).unwrap();
        let binds: Vec<_> = plain.steps.iter().filter(|step| step.rule == BIND).collect();
        assert_eq!(binds.len(), 2);
        assert!(binds.iter().all(|step| (step.left == step.right) == kept));
        assert_eq!(plain.left == plain.right, kept);
    }
    // A second binder of x, which the rule does not reach.
    g.b.bind(EXISTS, g.x, body);
    assert!(matches!(g.b.shape(choice), Shape::Binder(CHOICE, ..)));
    let job = to_bytes(&g.b.words(rule, 0));
    let plain = naive::load(&written(&job, Names::Keep).unwrap(), MAX_SETS).unwrap();
    assert!(plain.left != plain.right);
}
