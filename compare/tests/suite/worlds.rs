//! What is accepted holds: claims in all small worlds, steps in random ones.

use nezkaldo_compare::bundle::{MAX_SETS, to_bytes};
use nezkaldo_compare::eval::{claim_holds, steps_hold};
use nezkaldo_compare::expand::{Names, written};
use nezkaldo_compare::generate::derive::Care;
use nezkaldo_compare::generate::jobs::{closed, named};
use nezkaldo_compare::generate::{case, derivation, large};
use nezkaldo_compare::naive;
use nezkaldo_compare::rng::Rng;

const SEED: u64 = 11;

fn holds(file: &[u8], index: u64) -> Option<bool> {
    let plain = naive::load(file, MAX_SETS).ok()?;
    let mut rng = Rng::for_file(SEED, index);
    let tested =
        claim_holds(&plain, 600, &mut rng).unwrap_or_else(|text| panic!("file {index}: {text}"));
    steps_hold(&plain, 2, &mut rng).unwrap_or_else(|text| panic!("file {index}: {text}"));
    Some(tested.all_small && tested.given_up == 0)
}

#[test]
fn accepted_derivations_hold() {
    let mut in_all_small = 0;
    for index in 0..6_000 {
        let file = to_bytes(&derivation(Rng::for_file(SEED, index), Care::Full));
        let complete = holds(&file, index).unwrap_or_else(|| panic!("file {index} is refused"));
        in_all_small += u32::from(complete);
    }
    assert!(in_all_small > 4_000, "only {in_all_small} claims were tried in every small world");
}

/// Damaged files that are accepted all the same.
#[test]
fn whatever_is_accepted_holds() {
    let accepted =
        (0..12_000).filter(|&index| holds(&case(SEED, index).bytes, index).is_some()).count();
    assert!(accepted > 1_000, "only {accepted} files were accepted");
}

#[test]
fn large_derivations_are_accepted_and_hold() {
    for index in 0..6 {
        let rng = || Rng::for_file(SEED, index);
        for words in [
            large::deep_contexts(rng(), 256, 300),
            large::long_lists(rng(), 600, 60),
            large::many_quantifiers(rng(), 32, 600),
            large::wide_quantifiers(rng(), 128),
            large::random(rng(), Care::Full),
        ] {
            assert!(naive::load(&to_bytes(&words), MAX_SETS).is_ok());
            assert!(holds(&to_bytes(&words), index).is_some());
        }
    }
}

#[test]
fn written_expansions_hold() {
    for make in [closed, named] {
        for names in Names::ALL {
            let mut written_files = 0;
            for index in 0..1_000 {
                let job = to_bytes(&make(Rng::for_file(SEED, index)));
                if let Ok(file) = written(&job, names) {
                    let held = holds(&file, index);
                    assert!(held.is_some(), "the expansion of job {index} is refused, {names}");
                    written_files += 1;
                }
            }
            assert!(written_files > 500, "{written_files} files, {names}");
        }
    }
}
