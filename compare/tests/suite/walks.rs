//! How many links CONG's test reads (Req 03).

use crate::{exact_links, judge, plain_links};
use nezkaldo_compare::bundle::{Section, counts_of, to_bytes};
use nezkaldo_compare::ffi::{self, Library};
use nezkaldo_compare::generate::builder::{Builder, ITEM, TRUTH};
use nezkaldo_compare::generate::derive::{CONG, REFL};
use nezkaldo_compare::generate::{examples, large};
use nezkaldo_compare::rng::Rng;

/// The number and the count that the two readings, and the library where it is there,
/// answer for a step.
fn links_of_bytes(file: &[u8], step: usize) -> (u64, u64) {
    let answer = exact_links(file, step);
    assert_eq!(answer, plain_links(file, step), "the two readings count alike");
    if let Some(Library { links, .. }) = ffi::library() {
        assert_eq!(answer, links(file, step), "the library counts as the readings do");
    }
    (answer >> 32, answer & 0xffff_ffff)
}

fn links(words: &[u32], step: usize) -> (u64, u64) {
    links_of_bytes(&to_bytes(words), step)
}

const PASSES: u64 = 0;
const FAILS: u64 = 13;
const NO_CONG: u64 = 12;

/// The CONG step of the files below; step 1 carries x to a, step 2 does not.
const STEP: usize = 3;
const CARRIES: u32 = 1;
const OTHER: u32 = 2;

/// A CONG step from f(x, ..., x) to f(a, ..., a), with so many arguments on each side and
/// these premises, in a context that replaces x by a. Its claim is missing.
fn cong(sharing: u32, left: usize, right: usize, premises: &[u32]) -> Vec<u32> {
    let mut b = Builder::new(Rng::new(1), sharing);
    let a = b.symbol(ITEM, &[]);
    let f = b.symbol(TRUTH, &vec![ITEM; left]);
    let x = b.variable(ITEM);
    let (x_term, a_term) = (b.variable_term(x), b.apply(a, &[]));
    let context = b.replace(&[x], &[a_term], 0);
    b.add_step(REFL, context, x_term, a_term, &[]);
    b.add_step(REFL, context, a_term, a_term, &[]);
    let (left, right) = (b.apply(f, &vec![x_term; left]), b.apply(f, &vec![a_term; right]));
    b.add_step(CONG, context, left, right, premises);
    b.words(left, right)
}

/// The file with one field of a record changed.
fn changed(words: &[u32], section: Section, record: u32, field: usize, word: u32) -> Vec<u32> {
    let counts = counts_of(&to_bytes(words)).unwrap();
    let mut words = words.to_vec();
    words[counts.place(section, record, field)] = word;
    words
}

/// The three lengths together; a link that lists share counts for each.
#[test]
fn a_test_that_passes_reads_every_link() {
    for arguments in [0, 1, 2, 7, 500] {
        for sharing in [0, 100] {
            let words = cong(sharing, arguments, arguments, &vec![CARRIES; arguments]);
            assert_eq!(links(&words, STEP), (PASSES, 3 * arguments as u64));
            assert_eq!(judge(&words).0, (15, 0), "nothing but the claim is missing");
        }
    }
    assert_eq!(links(examples::LET_EXPANSION, 1), (PASSES, 0));
    assert_eq!(links(examples::LET_EXPANSION, 3), (PASSES, 6));
}

/// Both sides are one term, so left and right are one list; it is taken once for each.
#[test]
fn one_list_for_both_sides() {
    for arguments in [1, 2, 300] {
        let mut b = Builder::new(Rng::new(1), 100);
        let g = b.symbol(TRUTH, &vec![TRUTH; arguments]);
        let truth = b.apply(1, &[]);
        let carries = b.add_step(REFL, 0, truth, truth, &[]);
        let term = b.apply(g, &vec![truth; arguments]);
        let step = b.add_step(CONG, 0, term, term, &vec![carries; arguments]);
        let words = b.claim_last();
        assert_eq!(links(&words, step as usize), (PASSES, 3 * arguments as u64));
        assert_eq!(judge(&words).0, (0, 0));
    }
}

/// Steps that share all of their lists but the first links: each walks all of them.
#[test]
fn shared_lists_are_walked_at_every_step() {
    let words = large::long_lists(Rng::new(4), 500, 40);
    assert_eq!(judge(&words).0, (0, 0));
    let counts = counts_of(&to_bytes(&words)).unwrap();
    let walked: Vec<(u64, u64)> = (1..=counts[Section::Steps])
        .filter(|&step| words[counts.place(Section::Steps, step, 0)] == CONG)
        .map(|step| links(&words, step as usize))
        .collect();
    assert!(walked.len() >= 10);
    assert!(walked.iter().all(|&walk| walk == (PASSES, 1_500)), "{walked:?}");
}

/// The walk ends where a list ends, and reads no more of the others.
#[test]
fn a_list_that_is_too_short_or_too_long() {
    for (left, right, premises, positions) in [
        (2, 3, 3, 2),
        (3, 2, 3, 2),
        (3, 3, 2, 2),
        (4, 3, 3, 3),
        (3, 4, 3, 3),
        (3, 3, 4, 3),
        (0, 3, 3, 0),
        (3, 0, 3, 0),
        (3, 3, 0, 0),
        (0, 0, 1, 0),
        (0, 1, 0, 0),
    ] {
        let words = cong(0, left, right, &vec![CARRIES; premises]);
        assert_eq!(links(&words, STEP), (FAILS, 3 * positions), "{left}, {right}, {premises}");
        if left == right {
            assert_eq!(judge(&words).0, (13, STEP as u32));
        }
    }
}

/// The walk ends at the first premise that does not carry its pair; its links are read.
#[test]
fn a_premise_that_does_not_carry_its_pair() {
    for arguments in [1, 2, 9] {
        for place in 0..arguments {
            let mut premises = vec![CARRIES; arguments];
            premises[place..].fill(OTHER);
            let words = cong(100, arguments, arguments, &premises);
            assert_eq!(links(&words, STEP), (FAILS, 3 * (place as u64 + 1)));
            assert_eq!(judge(&words).0, (13, STEP as u32));
        }
    }
    let words = cong(0, 2, 2, &[CARRIES, CARRIES]);
    let other_context = changed(&words, Section::Steps, STEP as u32, 1, 0);
    assert_eq!(links(&other_context, STEP), (FAILS, 3));
}

/// No link is read where the sides are no applications of one symbol.
#[test]
fn other_sides() {
    let words = cong(0, 2, 2, &[CARRIES, CARRIES]);
    let counts = counts_of(&to_bytes(&words)).unwrap();
    let right = words[counts.place(Section::Steps, STEP as u32, 3)];
    assert_eq!(links(&changed(&words, Section::Terms, right, 1, 33), STEP), (FAILS, 0));
    let no_terms = [0, counts[Section::Terms] + 1, u32::MAX];
    let variable = 1;
    for side in [2, 3] {
        for term in no_terms.into_iter().chain([variable]) {
            let other = changed(&words, Section::Steps, STEP as u32, side, term);
            assert_eq!(links(&other, STEP), (FAILS, 0), "{side}, {term}");
        }
    }
}

#[test]
fn no_step_of_cong() {
    let words = cong(0, 1, 1, &[CARRIES]);
    for step in [0, 1, 2, STEP + 1, 4_000, usize::MAX, (1 << 32) + STEP] {
        assert_eq!(links(&words, step), (NO_CONG, 0), "{step}");
    }
    assert_eq!(links(&examples::bare_header(), 1), (NO_CONG, 0));
    assert_eq!(links(&changed(&words, Section::Steps, STEP as u32, 0, 0), STEP), (NO_CONG, 0));
}

/// The header is judged first, and no area is asked for.
#[test]
fn headers() {
    let file = to_bytes(&cong(0, 1, 1, &[CARRIES]));
    let mut changed = file.clone();
    assert_eq!(links_of_bytes(&file, STEP), (PASSES, 3));
    for length in [0, 35, file.len() - 1] {
        assert_eq!(links_of_bytes(&file[..length], STEP), (1, 0));
    }
    assert_eq!(links_of_bytes(&[&file[..], &[0]].concat(), STEP), (1, 0));
    changed[4] = 65;
    assert_eq!(links_of_bytes(&changed, STEP), (3, 0));
    changed[0] = 2;
    assert_eq!(links_of_bytes(&changed, STEP), (2, 0));
}

/// The walk is that of the records as they are, whatever is wrong with them.
#[test]
fn records_out_of_order() {
    let words = cong(0, 3, 3, &[CARRIES; 3]);
    let counts = counts_of(&to_bytes(&words)).unwrap();
    let over = counts[Section::Links] + 1;
    let start = words[counts.place(Section::Steps, STEP as u32, 4)];
    let step = |field, word| changed(&words, Section::Steps, STEP as u32, field, word);
    let link = |field, word| changed(&words, Section::Links, start, field, word);
    for start in [0, over, u32::MAX] {
        assert_eq!(
            links(&step(4, start), STEP),
            (FAILS, 0),
            "a list start over L is the empty one"
        );
    }
    for next in [0, start, over, u32::MAX] {
        assert_eq!(links(&link(1, next), STEP), (FAILS, 3), "the list ends after {next}");
    }
    for premise in [0, STEP as u32, counts[Section::Steps] + 1, u32::MAX] {
        assert_eq!(links(&link(0, premise), STEP), (FAILS, 3), "premise {premise}");
    }
    let fault = changed(&words, Section::Variables, 1, 0, 7);
    assert_eq!(judge(&fault).0, (6, 1));
    assert_eq!(links(&fault, STEP), (PASSES, 9), "what else is in the file is not judged");
}

/// A premise that is no step is a record of zeros, which carries 0 to 0 in context 0.
#[test]
fn zeros_carry_zeros() {
    for premise in [0, 9] {
        let words = [
            &[1, 0, 0, 2, 2, 0, 1, 0, 0][..],
            &[2, 33, 1, 0, 2, 33, 1, 0], // terms
            &[0, 0, premise, 0],         // links
            &[CONG, 0, 1, 2, 2],         // step
        ]
        .concat();
        assert_eq!(links(&words, 1), (PASSES, 3));
    }
}
