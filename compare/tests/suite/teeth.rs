//! The comparison notices every single fault, by the ordinary files alone.

use crate::{EXACT, exact, exact_expand, exact_links, exact_read};
use nezkaldo_compare::answer::number;
use nezkaldo_compare::bundle::MAX_SETS;
use nezkaldo_compare::compare::{self, Calls, Checkers};
use nezkaldo_compare::eval::claim_holds;
use nezkaldo_compare::fault::Fault;
use nezkaldo_compare::generate::case;
use nezkaldo_compare::mutants::{
    Verdict, broken_checker, broken_links, try_checkers, try_readers, try_walks, try_writers,
};
use nezkaldo_compare::naive;
use nezkaldo_compare::rng::Rng;

const SEED: u64 = 5;

fn assert_all_told(verdicts: &[Verdict]) {
    let missed: Vec<Fault> = verdicts
        .iter()
        .filter(|verdict| verdict.first.is_none())
        .map(|verdict| verdict.fault)
        .collect();
    assert_eq!(missed, [], "these faults went unnoticed");
}

#[test]
fn every_broken_checker_is_told_apart() {
    assert!(Fault::CHECKER.len() >= 20);
    assert_all_told(&try_checkers(&exact, SEED, 20_000, true));
}

#[test]
fn every_broken_writer_is_told_apart() {
    assert_all_told(&try_writers(&exact_expand, SEED, 3_000, true));
}

#[test]
fn every_broken_reader_is_told_apart() {
    assert_all_told(&try_readers(&exact_read, SEED, 6_000, true));
}

/// An exact copy is not told apart: no fault is no difference.
#[test]
fn the_exact_checker_is_not() {
    let report = compare::run(Checkers::two(EXACT, EXACT), SEED, 500, None).unwrap();
    assert!(report.agrees());
}

/// A walk is told apart by its count, in the library's place and in the plain reading's.
#[test]
fn every_broken_walk_is_told_apart() {
    assert_all_told(&try_walks(&exact_links, SEED, 2_000, true));
    for &fault in Fault::WALK {
        let broken = broken_links(fault);
        let broken = Calls { links: &broken, ..EXACT };
        for (checkers, from) in [
            (Checkers::two(broken, EXACT), "from the Rust checker"),
            (Checkers { plain: Some(broken), ..Checkers::two(EXACT, EXACT) }, "from the plain"),
        ] {
            let report = compare::run(checkers, SEED, 2_000, None).unwrap();
            let said = report.differences.first().map(|difference| difference.text.clone());
            let said = said.unwrap_or_default();
            assert!(said.starts_with("links of step") && said.contains(from), "{fault:?}: {said}");
        }
    }
}

/// The count of a walk that differs is in no answer; the files that are made of it tell it.
#[test]
fn the_count_of_a_walk_that_differs_is_told_apart() {
    for fault in [Fault::WholeDifferenceUncounted, Fault::SpentAfterRule] {
        let broken = broken_checker(fault);
        let broken = Calls { check: &broken, ..EXACT };
        let report = compare::run(Checkers::two(broken, EXACT), SEED, 3_000, None).unwrap();
        let by_walk = |difference: &&compare::Difference| difference.text.starts_with("walk ");
        let told = report.differences.iter().filter(by_walk).count();
        assert!(told >= 3, "{fault:?}: {told} of {}", report.differences.len());
    }
}

/// The evaluator has teeth too: files that only an unsound checker accepts claim
/// something false in some world.
#[test]
fn unsound_faults_let_false_claims_through() {
    for fault in [
        Fault::BindImagesUnread,
        Fault::BindNameUnread,
        Fault::CongSymbolsDiffer,
        Fault::BindKindsDiffer,
        Fault::WholeCaptureTaken,
        Fault::WholeLeftNotHidden,
        Fault::WholeKindsUnread,
        Fault::WholeSymbolsUnread,
        Fault::WholeBoundsInside,
    ] {
        let broken = broken_checker(fault);
        let found = (0..40_000).any(|index| {
            let file = case(SEED, index).bytes;
            let mut free = vec![0; MAX_SETS];
            let accepts = |answer: u64| number(answer) == 0;
            if !accepts(broken(&file, &mut free)) || accepts(exact(&file, &mut free)) {
                return false;
            }
            let Ok(plain) = naive::tables(&file, |_| true) else { return false };
            let inside = |term: u32| term >= 1 && term as usize <= plain.terms.len();
            if !inside(plain.left) || !inside(plain.right) {
                return false;
            }
            claim_holds(&plain, 300, &mut Rng::new(index)).is_err()
        });
        assert!(found, "{fault:?} was not seen to let a false claim through");
    }
}
