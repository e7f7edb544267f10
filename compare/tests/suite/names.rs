//! Req 06, by hand: which variables keep their names, what is written for them, and what is
//! refused. Every job goes to both readings, and to the library where it is there.

use crate::{exact, exact_expand, plain, plain_expand};
use nezkaldo_compare::bundle::{
    LEFT, MAX_BYTES, MAX_SETS, MAX_WORDS, RIGHT, Section, counts_of, to_bytes, to_words,
};
use nezkaldo_compare::compare_writer::{self, Quantified, Writer, misfit};
use nezkaldo_compare::expand::{self, Names};
use nezkaldo_compare::ffi;
use nezkaldo_compare::generate::builder::{Builder, EXISTS, FOR_ALL, ITEM, TRUTH};
use nezkaldo_compare::generate::jobs::{self, named};
use nezkaldo_compare::rng::Rng;

/// The words that all writers write, or the number that they refuse by.
fn written(job: &[u32], names: Names) -> Result<Vec<u32>, u64> {
    let job = to_bytes(job);
    let call = |write| {
        compare_writer::call(write, &job, names, [MAX_BYTES, MAX_WORDS, MAX_SETS], u64::MAX)
    };
    let (answer, areas) = call(&exact_expand as Writer);
    let library = ffi::library();
    let others = [Some(&plain_expand as Writer), library.as_ref().map(|library| library.expand)];
    for other in others.into_iter().flatten() {
        assert!(call(other) == (answer, areas.clone()), "the writers differ, {names}");
    }
    if answer >> 32 != 0 {
        return Err(answer >> 32);
    }
    let file = &areas.out[..answer as usize];
    assert_eq!(misfit(&[&exact, &plain], &job, file), None, "{names}");
    Ok(to_words(file))
}

/// The records of a section of a file.
fn records(words: &[u32], section: Section) -> Vec<Vec<u32>> {
    let counts = counts_of(&to_bytes(words)).unwrap();
    let start = counts.start(section);
    let section_words = &words[start..start + counts[section] as usize * section.width()];
    section_words.chunks(section.width()).map(<[u32]>::to_vec).collect()
}

/// The variables of the two sides of each BIND step, in the steps' order.
fn names_in(words: &[u32]) -> Vec<(u32, u32)> {
    let terms = records(words, Section::Terms);
    let variable = |term: u32| terms[term as usize - 1][1];
    let bind = |step: &Vec<u32>| step[0] == 4;
    let steps = records(words, Section::Steps);
    steps.into_iter().filter(bind).map(|step| (variable(step[2]), variable(step[3]))).collect()
}

/// Variables 1 to 3 are items, 4 is a truth value; a constant a and a relation p.
struct Given {
    b: Builder,
    p: u32,
    a: u32,
}

const X: u32 = 1;
const Y: u32 = 2;
const Z: u32 = 3;
const T: u32 = 4;

impl Given {
    fn new() -> Self {
        let mut b = Builder::new(Rng::new(1), 0);
        let constant = b.symbol(ITEM, &[]);
        let p = b.symbol(TRUTH, &[ITEM, ITEM]);
        [ITEM, ITEM, ITEM, TRUTH].into_iter().for_each(|sort| _ = b.variable(sort));
        let a = b.apply(constant, &[]);
        Given { b, p, a }
    }

    /// p over two variables.
    fn p(&mut self, one: u32, other: u32) -> u32 {
        let arguments = [one, other].map(|variable| self.b.variable_term(variable));
        self.b.apply(self.p, &arguments)
    }

    fn and(&mut self, one: u32, other: u32) -> u32 {
        self.b.apply(4, &[one, other])
    }

    fn truth(&mut self) -> u32 {
        self.b.apply(1, &[])
    }

    /// The names in the file of a rule where they are kept, and in the one where none is.
    fn names(&mut self, rule: u32) -> Vec<(u32, u32)> {
        let job = self.b.words(rule, 0);
        let renamed = written(&job, Names::RenameAll).unwrap();
        let variables = counts_of(&to_bytes(&job)).unwrap()[Section::Variables];
        for (place, (old, new)) in names_in(&renamed).into_iter().enumerate() {
            assert!(old <= variables && new > variables, "step {place} keeps {old}");
        }
        names_in(&written(&job, Names::Keep).unwrap())
    }
}

/// Ax.p(x,x), word by word: x fixed, then replaced by its own term, and the result is the rule.
#[test]
fn a_rule_that_is_its_own_result() {
    let declared = [1, 0, 0, 1, 1, 1, 1, 0];
    let terms = [2, 33, 0, 0, 1, 1, 0, 0, 2, 34, 3, 0, 3, 1, 3, 0];
    let links = [1, 2, 1, 0, 2, 4, 2, 0];
    let job = [&[1, 2, 4, 4, 4, 0, 0, 4, 0][..], &declared, &terms, &links].concat();
    // x; its term; the premises of CONG; the premise of BIND.
    let more_links = [1, 0, 2, 0, 1, 8, 2, 0, 3, 0];
    let contexts = [1, 1, 0, 0, 2, 5, 6, 1];
    let steps = [1, 2, 2, 2, 0, 1, 2, 2, 2, 0, 2, 2, 3, 3, 7, 4, 0, 4, 4, 9];
    let header = [1, 2, 4, 4, 9, 2, 4, 4, 4];
    let kept = [&header[..], &declared, &terms, &links, &more_links, &contexts, &steps].concat();
    assert_eq!(written(&job, Names::Keep), Ok(kept));
    // Variable 5 and its term, then p over it and the for-all over that.
    let more_terms = [1, 5, 0, 0, 2, 34, 7, 0, 3, 5, 6, 0];
    let more_links = [1, 0, 5, 0, 5, 8, 5, 0, 1, 10, 2, 0, 3, 0];
    let contexts = [1, 5, 0, 0, 2, 5, 6, 1];
    let steps = [1, 2, 2, 5, 0, 1, 2, 2, 5, 0, 2, 2, 3, 6, 9, 4, 0, 4, 7, 11];
    let header = [1, 2, 5, 7, 11, 2, 4, 4, 7];
    let renamed =
        [&header[..], &declared, &[1], &terms, &more_terms, &links, &more_links, &contexts, &steps];
    assert_eq!(written(&job, Names::RenameAll), Ok(renamed.concat()));
}

/// One record binds it, whatever its kind and sort; inner BIND steps come first.
#[test]
fn bound_by_one_record() {
    for kind in [FOR_ALL, EXISTS] {
        let mut g = Given::new();
        let body = g.p(X, X);
        let rule = g.b.bind(kind, X, body);
        assert_eq!(g.names(rule), [(X, X)]);

        let mut g = Given::new();
        let body = g.b.variable_term(T);
        let rule = g.b.bind(kind, T, body);
        assert_eq!(g.names(rule), [(T, T)], "over a truth value");

        let mut g = Given::new();
        let body = g.p(X, Y);
        let inner = g.b.bind(kind, Y, body);
        let rule = g.b.bind(FOR_ALL, X, inner);
        assert_eq!(g.names(rule), [(Y, Y), (X, X)]);
    }
}

/// More than one record binds it: for-alls and exists count together, and no other variable
/// is asked.
#[test]
fn bound_by_two_records() {
    for (one, other) in [(FOR_ALL, EXISTS), (EXISTS, FOR_ALL)] {
        let mut g = Given::new();
        let body = g.p(X, X);
        let parts = [one, other].map(|kind| g.b.bind(kind, X, body));
        let rule = g.and(parts[0], parts[1]);
        assert_eq!(g.names(rule), [(X, 5), (X, 6)], "the same body");

        let mut g = Given::new();
        let (body, truth) = (g.p(X, X), g.truth());
        let parts = [body, truth].map(|body| g.b.bind(one, X, body));
        let rule = g.and(parts[0], parts[1]);
        assert_eq!(g.names(rule), [(X, 5), (X, 6)], "the same kind");

        let mut g = Given::new();
        let body = g.p(X, X);
        let inner = g.b.bind(one, X, body);
        let rule = g.b.bind(other, X, inner);
        assert_eq!(g.names(rule), [(X, 6), (X, 5)], "one within the other");

        let mut g = Given::new();
        let body = g.p(X, Y);
        let parts = [one, other].map(|kind| g.b.bind(kind, Y, body));
        let both = g.and(parts[0], parts[1]);
        let rule = g.b.bind(one, X, both);
        assert_eq!(g.names(rule), [(Y, 5), (Y, 6), (X, X)], "x once, y twice");
    }
}

/// A let lists it, at any place of its list; what other lets list is not asked.
#[test]
fn listed_by_a_let() {
    for (variables, kept) in
        [(&[X][..], false), (&[X, Y], false), (&[Y, X], false), (&[Y], true), (&[Y, Z], true)]
    {
        for beside in [false, true] {
            let mut g = Given::new();
            let (body, a) = (g.p(X, X), g.a);
            let bounds = vec![a; variables.len()];
            let rule = if beside {
                let truth = g.truth();
                let one = g.b.bind_let(variables, &bounds, truth);
                let other = g.b.bind(EXISTS, X, body);
                g.and(one, other)
            } else {
                let body = g.b.bind_let(variables, &bounds, body);
                g.b.bind(FOR_ALL, X, body)
            };
            let name = if kept { X } else { 5 };
            assert_eq!(g.names(rule), [(X, name)], "{variables:?}, beside: {beside}");
        }
    }
}

/// Records that the left does not reach count like the others, before it and after it.
#[test]
fn records_that_left_does_not_reach() {
    for first in [false, true] {
        for (record, kept) in
            [("nothing", true), ("for-all", false), ("exists", false), ("let", false), ("y", true)]
        {
            let mut g = Given::new();
            let beside = |g: &mut Given| {
                let (truth, a) = (g.truth(), g.a);
                match record {
                    "for-all" => _ = g.b.bind(FOR_ALL, X, truth),
                    "exists" => _ = g.b.bind(EXISTS, X, truth),
                    "let" => _ = g.b.bind_let(&[Y, X], &[a, a], truth),
                    "y" => _ = g.b.bind(FOR_ALL, Y, truth),
                    _ => {}
                }
            };
            if first {
                beside(&mut g);
            }
            let body = g.p(X, X);
            let rule = g.b.bind(FOR_ALL, X, body);
            if !first {
                beside(&mut g);
            }
            let name = if kept { X } else { 5 };
            assert_eq!(g.names(rule), [(X, name)], "{record}, first: {first}");
        }
    }
}

/// It is decided from the job: a record that is visited twice keeps its variable both times,
/// also where the first visit has appended another record that binds it.
#[test]
fn a_record_visited_twice() {
    let mut g = Given::new();
    let body = g.p(X, X);
    let one = g.b.bind(FOR_ALL, X, body);
    let rule = g.and(one, one);
    assert_eq!(g.names(rule), [(X, X), (X, X)]);

    // Ay.((let z = a in Ex.p(x,z)) and (let z = y in Ex.p(x,z)))
    let mut g = Given::new();
    let (body, a) = (g.p(X, Z), g.a);
    let one = g.b.bind(EXISTS, X, body);
    let y_term = g.b.variable_term(Y);
    let [first, second] = [a, y_term].map(|value| g.b.bind_let(&[Z], &[value], one));
    let both = g.and(first, second);
    let rule = g.b.bind(FOR_ALL, Y, both);
    assert_eq!(g.names(rule), [(X, X), (X, X), (Y, Y)]);
    let job = g.b.words(rule, 0);
    let file = written(&job, Names::Keep).unwrap();
    let binders = |words: &[u32]| {
        let terms = records(words, Section::Terms);
        terms.iter().filter(|term| term[..2] == [4, X]).count()
    };
    assert_eq!((binders(&job), binders(&file)), (1, 3));
    // Each visit has a fixing and a replacing context of its own, both with x.
    let contexts = records(&file, Section::Contexts);
    let fixing = contexts.iter().filter(|context| context[..2] == [1, X]).count();
    assert_eq!((fixing, contexts.len()), (2, 2 + 2 + 2 * 2));
}

/// Its term is looked up, and appended only where there is none: before the body's results.
#[test]
fn the_term_of_a_kept_variable() {
    for there in [false, true] {
        // Ax.let y = a in p(y,y)
        let mut g = Given::new();
        if there {
            g.b.variable_term(X);
        }
        let (body, a) = (g.p(Y, Y), g.a);
        let body = g.b.bind_let(&[Y], &[a], body);
        let rule = g.b.bind(FOR_ALL, X, body);
        let job = g.b.words(rule, 0);
        let file = written(&job, Names::Keep).unwrap();
        let (old, new) = (records(&job, Section::Terms), records(&file, Section::Terms));
        let appended: Vec<[u32; 2]> =
            new[old.len()..].iter().map(|term| [term[0], term[1]]).collect();
        let expected = [[1, X], [2, g.p], [3, X]];
        assert_eq!(appended, &expected[usize::from(there)..]);
        // Links: x, then its term; the replacing context has both.
        let place = new.iter().position(|term| term[..2] == [1, X]).unwrap() as u32 + 1;
        let contexts = records(&file, Section::Contexts);
        let links = records(&file, Section::Links);
        let first = records(&job, Section::Links).len() as u32 + 1;
        assert_eq!(contexts[..2], [[1, X, 0, 0], [2, first, first + 1, 1]]);
        assert_eq!(links[first as usize - 1..][..2], [[X, 0], [place, 0]]);
    }
}

/// The result is looked up as any other: an old record, the rule itself, or a new one.
#[test]
fn the_result_of_a_kept_name() {
    // Ax.let y = x in p(x,y), where p(x,x) is there, and where it is not.
    for (there, more) in [(false, 2), (true, 1)] {
        let mut g = Given::new();
        if there {
            g.p(X, X);
        }
        let body = g.p(X, Y);
        let x_term = g.b.variable_term(X);
        let body = g.b.bind_let(&[Y], &[x_term], body);
        let rule = g.b.bind(FOR_ALL, X, body);
        let job = g.b.words(rule, 0);
        let file = written(&job, Names::Keep).unwrap();
        let terms = [&job, &file].map(|words| records(words, Section::Terms).len());
        assert_eq!(terms[1] - terms[0], more);
        assert_eq!(file[RIGHT] as usize, terms[1]);
    }
    // A part without lets whose names are kept is its own result.
    let mut g = Given::new();
    let (body, a) = (g.p(X, Y), g.a);
    let inner = g.b.bind(EXISTS, Y, body);
    let part = g.b.bind(FOR_ALL, X, inner);
    let truth = g.b.variable_term(T);
    let both = g.and(part, truth);
    let rule = g.b.bind(FOR_ALL, T, both);
    let job = g.b.words(rule, 0);
    let file = written(&job, Names::Keep).unwrap();
    assert_eq!((file[LEFT], file[RIGHT]), (rule, rule));
    assert_eq!(records(&file, Section::Terms), records(&job, Section::Terms));
    let steps = records(&file, Section::Steps);
    assert!(steps.iter().all(|step| step[2] == step[3]));
    // One let in it, and all above the let are new.
    let listed = g.b.bind_let(&[Z], &[a], both);
    let rule = g.b.bind(EXISTS, T, listed);
    let job = g.b.words(rule, 0);
    assert_eq!(names_in(&written(&job, Names::Keep).unwrap()), [(Y, Y), (X, X), (T, 5)]);
}

/// Where nothing is kept, or there is no quantifier, both choices write the same.
#[test]
fn both_choices_alike() {
    let mut g = Given::new();
    let (body, a) = (g.p(X, Y), g.a);
    let bound = g.b.bind_let(&[X, Y], &[a, a], body);
    let listed = g.b.bind(FOR_ALL, X, bound);
    for rule in [bound, listed] {
        let job = g.b.words(rule, 0);
        let file = written(&job, Names::Keep);
        assert!(file.is_ok());
        assert_eq!(file, written(&job, Names::RenameAll));
    }
}

/// Variables at the ends of a set's words, and two with the same bit: where another record
/// binds the one, the other is kept still.
#[test]
fn kept_at_the_ends_of_words() {
    for [x, y] in [[1, 65], [65, 1], [64, 128], [65, 129], [128, 192], [193, 129], [255, 191]] {
        for twice in [false, true] {
            let mut b = Builder::new(Rng::new(1), 0);
            (0..255).for_each(|_| _ = b.variable(ITEM));
            let terms = [x, y].map(|variable| b.variable_term(variable));
            let body = b.apply(8, &terms);
            let inner = b.bind(FOR_ALL, y, body);
            let rule = b.bind(EXISTS, x, inner);
            if twice {
                let truth = b.apply(1, &[]);
                b.bind(EXISTS, y, truth);
            }
            let found = written(&b.words(rule, 0), Names::Keep).unwrap();
            let name = if twice { 256 } else { y };
            assert_eq!(names_in(&found), [(y, name), (x, x)], "{x} {y}");
        }
    }
}

/// A kept name takes no variable, and no term where its own is there; a new one takes both.
#[test]
fn limits_by_the_choice() {
    let both = |job: &[u32]| Names::ALL.map(|names| written(job, names).map(|_| ()));
    // Every variable there may be; one less.
    for (variables, expected) in [(255, [Ok(()), Ok(())]), (256, [Ok(()), Err(16)])] {
        let mut b = Builder::new(Rng::new(1), 0);
        (0..variables).for_each(|_| _ = b.variable(ITEM));
        let body = b.apply(1, &[]);
        let rule = b.bind(FOR_ALL, variables, body);
        assert_eq!(both(&b.words(rule, 0)), expected, "{variables} variables");
    }
    // Two contexts for each quantifier.
    assert_eq!(both(&jobs::quantified(128)), [Ok(()), Ok(())]);
    assert_eq!(both(&jobs::quantified(129)), [Err(16), Err(16)]);
    // So many terms: the one of x is there or not; renamed, x, the body and the rule are new.
    for (there, terms, expected) in [
        (true, 1_024, [Ok(()), Err(16)]),
        (true, 1_022, [Ok(()), Err(16)]),
        (true, 1_021, [Ok(()), Ok(())]),
        (false, 1_024, [Err(16), Err(16)]),
        (false, 1_023, [Ok(()), Err(16)]),
        (false, 1_022, [Ok(()), Ok(())]),
    ] {
        let mut g = Given::new();
        let body = if there { g.p(X, X) } else { g.truth() };
        let rule = g.b.bind(FOR_ALL, X, body);
        let mut last = g.truth();
        while g.b.count(Section::Terms) < terms {
            last = g.b.apply(3, &[last]);
        }
        assert_eq!(both(&g.b.words(rule, 0)), expected, "{terms} terms, there: {there}");
    }
}

/// The generated jobs have what the faults are told by.
#[test]
fn generated_jobs() {
    let mut quantified = Quantified::default();
    let (mut itself, mut appended, mut files) = (0, 0, 0);
    for index in 0..700 {
        let job = named(Rng::for_file(3, index));
        let Ok(file) = written(&job, Names::Keep) else { continue };
        files += 1;
        quantified.add(&to_bytes(&file));
        itself += u32::from(file[LEFT] == file[RIGHT]);
        let old = records(&job, Section::Variables).len() as u32;
        let terms = records(&file, Section::Terms);
        let new = &terms[records(&job, Section::Terms).len()..];
        appended += u32::from(new.iter().any(|term| term[0] == 1 && term[1] <= old));
    }
    assert!(files >= 600 && itself >= 20 && appended >= 20, "{files} {itself} {appended}");
    assert!(quantified.unseen(100).is_empty(), "{quantified:?}");
    // Some fit where names are kept, and do not where all are renamed; never the other way.
    let answers = (0..2_000).map(|index| {
        let job = jobs::job(3, index).bytes;
        Names::ALL.map(|names| compare_writer::packed(expand::written(&job, names).map(|_| 0)))
    });
    let apart: Vec<[u64; 2]> = answers.filter(|[kept, renamed]| kept != renamed).collect();
    assert!(apart.len() >= 20, "{}", apart.len());
    assert!(apart.iter().all(|answers| *answers == [0, 16 << 32]));
}
