//! The twelve examples of document 01.

use crate::{judge, judge_bytes};
use nezkaldo_compare::bundle::{MAX_BYTES, MAX_SETS, MAX_WORDS, SET_WORDS, to_bytes, to_words};
use nezkaldo_compare::check::check;
use nezkaldo_compare::eval::{Evaluator, World};
use nezkaldo_compare::expand::{Names, expand, written};
use nezkaldo_compare::generate::examples;
use nezkaldo_compare::naive::{self, Plain};

/// Seeds for the files that are built: lists lie differently in each.
const SEEDS: std::ops::Range<u64> = 0..20;

#[test]
fn example_1_accepted_with_its_free_sets() {
    let (answer, free) = judge(examples::LET_EXPANSION);
    assert_eq!(answer, (0, 0));
    let first_words: Vec<u64> = free.iter().copied().step_by(SET_WORDS).collect();
    assert_eq!(first_words[..5], [1, 0, 1, 0, 0]);
    assert_eq!(free.iter().sum::<u64>(), 2, "all else is zero");
    let claim = check(&to_bytes(examples::LET_EXPANSION), &mut [0; 5 * SET_WORDS]).unwrap();
    assert_eq!((claim.left, claim.right), (5, 4));
}

#[test]
fn example_2_other_claim() {
    assert_eq!(judge(&examples::other_claim()).0, (15, 0));
}

#[test]
fn example_3_wrong_right_side() {
    assert_eq!(judge(&examples::wrong_right()).0, (13, 3));
}

#[test]
fn example_4_broken_chain() {
    assert_eq!(judge(&examples::broken_chain()).0, (5, 2));
}

#[test]
fn example_5_too_short() {
    assert_eq!(judge_bytes(&[]).0, (1, 0));
    assert_eq!(judge_bytes(&to_bytes(&examples::bare_header())[..35]).0, (1, 0));
    assert_eq!(judge_bytes(&to_bytes(examples::LET_EXPANSION)[..35]).0, (1, 0));
}

#[test]
fn example_6_bare_header() {
    let file = to_bytes(&examples::bare_header());
    assert_eq!(file.len(), 36);
    assert_eq!(judge_bytes(&file).0, (15, 0));
}

#[test]
fn example_7_image_taken_by_the_inner_quantifier() {
    for seed in SEEDS {
        assert_eq!(judge(&examples::image_taken_by_quantifier(seed)).0, (14, 6));
    }
}

/// With f the identity, p equality and two items, the two sides of example 7
/// differ.
#[test]
fn example_7_sides_differ_in_a_world() {
    let words = examples::image_taken_by_quantifier(0);
    let plain: Plain = naive::tables(&to_bytes(&words), |_| true).unwrap();
    let world = World::with_tables(2, &[&[0, 1], &[1, 0, 0, 1]]);
    let mut evaluator = Evaluator::new(&plain, &world, 1000);
    assert_eq!(evaluator.value(words[7]), Ok(0));
    assert_eq!(evaluator.value(words[8]), Ok(1));
}

#[test]
fn example_8_fixing_hides_a_replacement() {
    for seed in SEEDS {
        assert_eq!(judge(&examples::fixed_again(seed, false)).0, (0, 0));
        assert_eq!(judge(&examples::fixed_again(seed, true)).0, (13, 1));
    }
}

#[test]
fn example_9_unsettled_middle() {
    for seed in SEEDS {
        assert_eq!(judge(&examples::unsettled_middle(seed)).0, (14, 5));
    }
}

#[test]
fn example_10_repeated_variable() {
    for seed in SEEDS {
        assert_eq!(judge(&examples::repeated_variable(seed)).0, (8, 3));
    }
}

#[test]
fn example_11_written_file() {
    let job = to_bytes(examples::JOB);
    // There is no quantifier, so both choices of names write the same.
    let [file, renamed] = Names::ALL.map(|names| written(&job, names).unwrap());
    assert_eq!(to_words(&file), examples::WRITTEN);
    assert_eq!(renamed, file);
    assert_eq!(judge_bytes(&file).0, (0, 0));
    // Steps CONG, REFL, REFL, CONG, LET; right is term 5.
    let steps: Vec<u32> =
        examples::WRITTEN[examples::WRITTEN.len() - 25..].chunks(5).map(|step| step[0]).collect();
    assert_eq!(steps, [2, 1, 1, 2, 5]);
    assert_eq!(examples::WRITTEN[8], 5);

    let (mut out, mut words, mut sets) =
        (vec![9; MAX_BYTES], vec![9; MAX_WORDS], vec![9; MAX_SETS]);
    assert_eq!(expand(&job, Names::Keep, &mut out, &mut words, &mut sets), Ok(file.len()));
    assert_eq!(out[..file.len()], file);
    assert!(out[file.len()..].iter().all(|&byte| byte == 0));
    assert!(words.iter().all(|&word| word == 0) && sets.iter().all(|&set| set == 0));
}

#[test]
fn example_12_replaced_together() {
    for seed in SEEDS {
        assert_eq!(judge(&examples::replaced_together(seed, false)).0, (0, 0));
        assert_eq!(judge(&examples::replaced_together(seed, true)).0, (13, 1));
    }
}
