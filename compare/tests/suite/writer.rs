//! The writer: its refusals in order, its areas, its limits.

use crate::exact;
use nezkaldo_compare::answer::{Reason, Refusal};
use nezkaldo_compare::bundle::{
    LEFT, MAX_BYTES, MAX_SETS, MAX_WORDS, RIGHT, Section, counts_of, to_bytes,
};
use nezkaldo_compare::compare_writer::misfit;
use nezkaldo_compare::expand::{Names, expand, written};
use nezkaldo_compare::generate::builder::{Builder, FOR_ALL, ITEM, TRUTH};
use nezkaldo_compare::generate::{examples, jobs, limits};
use nezkaldo_compare::rng::Rng;

/// The refusal of a job, the same under both choices of names.
fn reason(words: &[u32]) -> Option<Reason> {
    let [kept, renamed] = Names::ALL.map(|names| written(&to_bytes(words), names).err());
    assert_eq!(kept, renamed);
    kept.map(|refusal| {
        assert!(refusal.record == 0 || refusal.reason < Reason::Context);
        refusal.reason
    })
}

/// A job whose rule has a free variable.
fn open_job(too_large: bool) -> Vec<u32> {
    let mut b = Builder::new(Rng::new(1), 0);
    let x = b.variable(TRUTH);
    let mut rule = b.variable_term(x);
    for _ in 0..if too_large { 12 } else { 1 } {
        rule = b.apply(4, &[rule, rule]);
    }
    b.words(rule, 0)
}

#[test]
fn refusals_come_in_order() {
    let job = examples::JOB.to_vec();
    assert_eq!(reason(&job), None);
    let changed = |changes: &[(usize, u32)]| {
        let mut words = job.clone();
        changes.iter().for_each(|&(place, word)| words[place] = word);
        reason(&words)
    };
    assert_eq!(changed(&[(RIGHT, 1)]), Some(Reason::NotBare));
    assert_eq!(changed(&[(LEFT, 0)]), Some(Reason::Claim));
    assert_eq!(changed(&[(LEFT, 5)]), Some(Reason::Claim));
    assert_eq!(changed(&[(RIGHT, 1), (LEFT, 0)]), Some(Reason::NotBare));
    assert_eq!(changed(&[(LEFT, 3)]), Some(Reason::Open));
    assert_eq!(changed(&[(LEFT, 3), (RIGHT, 3)]), Some(Reason::NotBare));
    // A term's fault comes before all of these.
    assert_eq!(changed(&[(14, 9), (RIGHT, 1), (LEFT, 0)]), Some(Reason::Term));
    assert_eq!(reason(&open_job(false)), Some(Reason::Open));
    assert_eq!(reason(&open_job(true)), Some(Reason::Open));
    // Contexts and steps are counted, not looked into.
    let mut with_steps = examples::LET_EXPANSION.to_vec();
    assert_eq!(reason(&with_steps), Some(Reason::NotBare));
    let last = with_steps.len() - 1;
    with_steps[last] = 99;
    assert_eq!(reason(&with_steps), Some(Reason::NotBare));
}

#[test]
fn short_areas_are_refused_and_cleared() {
    let job = to_bytes(examples::JOB);
    for [out, words, sets] in [
        [MAX_BYTES - 1, MAX_WORDS, MAX_SETS],
        [MAX_BYTES, MAX_WORDS - 1, MAX_SETS],
        [MAX_BYTES, MAX_WORDS, MAX_SETS - 1],
        [0, 0, 0],
    ] {
        for names in Names::ALL {
            let (mut out, mut words, mut sets) = (vec![7; out], vec![7; words], vec![7; sets]);
            let refused = Err(Refusal::whole(Reason::Area));
            assert_eq!(expand(&job, names, &mut out, &mut words, &mut sets), refused);
            assert!(out.iter().all(|&byte| byte == 0));
            assert!(words.iter().all(|&word| word == 0) && sets.iter().all(|&set| set == 0));
        }
    }
}

#[test]
fn each_section_fits_to_its_limit() {
    for (section, job) in [
        (Section::Contexts, jobs::many_lets as fn(Rng, u32) -> Vec<u32>),
        (Section::Steps, jobs::many_steps),
    ] {
        for seed in 0..8 {
            let fits = to_bytes(&job(Rng::new(seed), section.limit()));
            for names in Names::ALL {
                let file = written(&fits, names).expect("the limit itself fits");
                assert_eq!(counts_of(&file).unwrap()[section], section.limit());
                assert_eq!(misfit(&[&exact], &fits, &file), None);
            }
            assert_eq!(reason(&job(Rng::new(seed), section.limit() + 1)), Some(Reason::Full));
        }
    }
    for section in [Section::Variables, Section::Terms, Section::Links] {
        let (file, more) = filled(section);
        assert_eq!(counts_of(&file.unwrap()).unwrap()[section], section.limit());
        assert_eq!(more, Err(Refusal::whole(Reason::Full)));
    }
}

/// What a small job that fills a section is written as, all renamed, and one with a record
/// more.
fn filled(section: Section) -> (Result<Vec<u8>, Refusal>, Result<Vec<u8>, Refusal>) {
    let mut b = Builder::new(Rng::new(1), 0);
    let a = b.symbol(ITEM, &[]);
    let p = b.symbol(TRUTH, &[ITEM, ITEM]);
    let x = b.variable(ITEM);
    let y = b.variable(ITEM);
    let (x_term, y_term, a_term) = (b.variable_term(x), b.variable_term(y), b.apply(a, &[]));
    let body = b.apply(p, &[x_term, y_term]);
    let bound = b.bind_let(&[y], &[a_term], body);
    let rule = b.bind(FOR_ALL, x, bound);
    let small = written(&to_bytes(&b.words(rule, 0)), Names::RenameAll).unwrap();
    let grown = counts_of(&small).unwrap()[section] - b.count(section);
    limits::fill(&mut b, section, section.limit() - grown);
    let exactly = written(&to_bytes(&b.words(rule, 0)), Names::RenameAll);
    limits::fill(&mut b, section, section.limit() - grown + 1);
    (exactly, written(&to_bytes(&b.words(rule, 0)), Names::RenameAll))
}

/// Deep terms do not exhaust the stack.
#[test]
fn deep_terms_are_written() {
    let mut b = Builder::new(Rng::new(1), 100);
    let mut rule = b.apply(1, &[]);
    for _ in 0..1022 {
        rule = b.apply(3, &[rule]);
    }
    for names in Names::ALL {
        let file = written(&to_bytes(&b.words(rule, 0)), names).unwrap();
        assert_eq!(counts_of(&file).unwrap()[Section::Steps], 1023);
    }
}
