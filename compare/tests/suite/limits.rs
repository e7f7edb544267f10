//! Files at each limit and one past it, and lent areas at theirs.

use crate::{judge, judge_bytes};
use nezkaldo_compare::answer::{Reason, Refusal};
use nezkaldo_compare::bundle::{Counts, MAX_BYTES, SET_WORDS, Section, to_bytes};
use nezkaldo_compare::check::check;
use nezkaldo_compare::generate::builder::{Builder, ITEM, TRUTH};
use nezkaldo_compare::generate::derive::REFL;
use nezkaldo_compare::generate::{examples, large, limits};
use nezkaldo_compare::rng::Rng;

/// A small file with one section filled to `count`.
fn filled(section: Section, count: u32) -> Vec<u32> {
    let mut b = Builder::new(Rng::new(1), 0);
    b.symbol(ITEM, &[]);
    b.variable(TRUTH);
    let truth = b.apply(1, &[]);
    let steps = count.saturating_sub(u32::from(section == Section::Steps));
    limits::fill(&mut b, section, steps);
    b.add_step(REFL, 0, truth, truth, &[]);
    b.claim_last()
}

#[test]
fn each_section_at_its_limit_and_one_past() {
    for section in Section::ALL {
        assert_eq!(judge(&filled(section, section.limit())).0, (0, 0), "{section:?}");
        assert_eq!(judge(&filled(section, section.limit() + 1)).0, (3, 0), "{section:?}");
    }
}

#[test]
fn the_longest_file_is_accepted() {
    let longest = (0..40)
        .map(|index| limits::filled(Rng::for_file(2, index), false))
        .filter(|words| 4 * words.len() == MAX_BYTES)
        .map(|words| judge(&words).0.0)
        .collect::<Vec<_>>();
    assert!(longest.len() >= 3, "few files have every section full");
    assert!(longest.iter().all(|&number| number == 0));
}

#[test]
fn counts_that_overflow_are_refused_as_counts() {
    for section in Section::ALL {
        let mut words = examples::bare_header();
        words[1 + section as usize] = u32::MAX;
        assert_eq!(judge(&words).0, (3, 0));
        words[0] = 2;
        assert_eq!(judge(&words).0, (2, 0));
    }
}

#[test]
fn areas_shorter_than_the_terms_are_refused_and_cleared() {
    let file = to_bytes(examples::LET_EXPANSION);
    for length in 0..20 {
        let mut free = vec![7; length];
        assert_eq!(check(&file, &mut free), Err(Refusal::whole(Reason::Area)));
        assert!(free.iter().all(|&word| word == 0));
    }
    for length in 20..27 {
        let mut free = vec![7; length];
        assert!(check(&file, &mut free).is_ok());
        // x is free in terms 1 and 3.
        let x = |place: usize| u64::from(place == 0 || place == 2 * SET_WORDS);
        assert!((0..length).all(|place| free[place] == x(place)), "{free:?}");
    }
}

/// The exact length comes before the area, the counts before the length.
#[test]
fn header_refusals_come_in_order() {
    let file = to_bytes(examples::LET_EXPANSION);
    let answer = |file: &[u8]| check(file, &mut []).map_err(|refusal| refusal.reason);
    assert_eq!(answer(&file[..35]), Err(Reason::Length));
    assert_eq!(answer(&file[..file.len() - 1]), Err(Reason::Length));
    assert_eq!(answer(&[&file[..], &[0]].concat()), Err(Reason::Length));
    assert_eq!(answer(&file), Err(Reason::Area));
    let mut oversize = file.clone();
    oversize[4] = 65;
    assert_eq!(answer(&oversize), Err(Reason::Limit));
    oversize[0] = 2;
    assert_eq!(answer(&oversize), Err(Reason::Version));
    assert_eq!(answer(&oversize[..35]), Err(Reason::Length));
}

/// Lists shared by hundreds of records: the answers are the plain reading's.
#[test]
fn shared_long_lists() {
    for (arguments, steps) in [(1, 10), (2, 900), (500, 900), (650, 40)] {
        assert_eq!(judge(&large::long_lists(Rng::new(4), arguments, steps)).0, (0, 0));
    }
}

/// A link's next may be the last link, not one past it, and not itself.
#[test]
fn bounds_of_references() {
    let counts = Counts::new([2, 1, 5, 6, 1, 4]);
    let changed = |section, record, field, word| {
        let mut words = examples::LET_EXPANSION.to_vec();
        words[counts.place(section, record, field)] = word;
        judge_bytes(&to_bytes(&words)).0
    };
    use Section::{Contexts, Links, Steps, Symbols, Terms, Variables};
    assert_eq!(changed(Links, 2, 1, 6), (6, 2), "the last link, whose value is no sort");
    assert_eq!(changed(Links, 2, 1, 7), (5, 2));
    assert_eq!(changed(Links, 2, 1, 2), (5, 2));
    assert_eq!(changed(Symbols, 2, 0, 2), (6, 2));
    assert_eq!(changed(Symbols, 2, 1, 7), (6, 2));
    assert_eq!(changed(Variables, 1, 0, 2), (6, 1));
    for kind in [0, 6, u32::MAX] {
        assert_eq!(changed(Terms, 1, 0, kind), (7, 1));
    }
    for variable in [0, 2] {
        assert_eq!(changed(Terms, 1, 1, variable), (7, 1));
    }
    for symbol in [0, 9, 32, 35] {
        assert_eq!(changed(Terms, 2, 1, symbol), (7, 2));
    }
    assert_eq!(changed(Terms, 1, 2, 1), (7, 1), "an unused field");
    assert_eq!(changed(Terms, 2, 2, 7), (7, 2), "a list start over L");
    assert_eq!(changed(Terms, 5, 3, 5), (7, 5), "a body that is the let itself");
    assert_eq!(changed(Contexts, 1, 3, 1), (10, 1), "a context above itself");
    assert_eq!(changed(Contexts, 1, 1, 7), (10, 1), "a list start over L");
    assert_eq!(changed(Contexts, 1, 0, 3), (10, 1));
    for rule in [0, 6] {
        assert_eq!(changed(Steps, 2, 0, rule), (12, 2));
    }
    assert_eq!(changed(Steps, 2, 1, 2), (12, 2), "a context over C");
    assert_eq!(changed(Steps, 2, 2, 6), (12, 2), "a left side over T");
    assert_eq!(changed(Steps, 2, 4, 7), (12, 2), "a list start over L");
    assert_eq!(changed(Steps, 1, 4, 3), (12, 1), "a premise that is not earlier");
}
