//! The comparison on files, jobs and texts: with the proved library and the programs where
//! they are there, and with the plain readings always.

use crate::{
    EXACT, PLAIN, exact, exact_expand, exact_read, plain, plain_expand, plain_read, with_stack,
};
use nezkaldo_compare::compare::{self, Calls, Checkers};
use nezkaldo_compare::compare_reader::{self, Readers};
use nezkaldo_compare::compare_writer::{self, Writers};
use nezkaldo_compare::ffi::{self, Library};
use nezkaldo_compare::programs::{self, JobProgram, Program, TextProgram};
use std::path::Path;

const SEED: u64 = 20;
const FILES: u64 = 20_000;
const JOBS: u64 = 3_000;
const TEXTS: u64 = 4_000;

fn failures() -> Option<&'static Path> {
    Some(Path::new(concat!(env!("CARGO_MANIFEST_DIR"), "/failures")))
}

fn check_files(checkers: Checkers) {
    let report = compare::run(checkers, SEED, FILES, failures()).unwrap();
    assert!(report.agrees(), "{report}");
    assert_eq!(report.unseen(1), [], "{report}");
    assert_eq!(report.walks.unseen(1), [], "{report}");
    assert_eq!(report.pairs.unseen(20), [], "{report}");
    assert_eq!(report.unseen_stray(10), [], "{report}");
    assert_eq!(report.skolem.unseen(10), <[&str; 0]>::default(), "{report}");
    assert!(report.walked > FILES / 30, "{report}");
}

fn check_jobs(writers: Writers) {
    let report = compare_writer::run(writers, SEED, JOBS, failures()).unwrap();
    assert!(report.agrees(), "{report}");
    assert_eq!(report.unseen(1), [], "{report}");
    assert_eq!(report.quantified.unseen(JOBS / 20), <[&str; 0]>::default(), "{report}");
}

fn check_texts(readers: Readers) {
    let report = compare_reader::run(readers, SEED, TEXTS, failures()).unwrap();
    assert!(report.agrees(), "{report}");
    assert_eq!(report.unseen(1), [], "{report}");
    assert!(report.values.iter().all(|&values| values > TEXTS / 10), "{report}");
}

#[test]
fn the_two_readings_agree_on_files() {
    check_files(Checkers::two(PLAIN, EXACT));
}

#[test]
fn the_two_readings_agree_on_jobs() {
    check_jobs(Writers {
        subject: &plain_expand,
        reference: &exact_expand,
        plain: None,
        program: None,
        checkers: &[&plain, &exact],
    });
}

#[test]
fn the_two_readings_agree_on_texts() {
    check_texts(Readers {
        subject: None,
        reference: &exact_read,
        plain: Some(&plain_read),
        program: None,
        checkers: &[&plain, &exact],
    });
}

#[test]
fn the_proved_check_agrees() {
    let Some(Library { check, links, .. }) = ffi::library() else {
        eprintln!("no proved library in this build: not compared");
        return;
    };
    let program = programs::program(Path::new(programs::FOLDER), programs::CHECK).ok();
    if program.is_none() {
        eprintln!("no program check: not compared");
    }
    let program = program.as_ref().map(|program| program as Program);
    let subject = Calls { check, links };
    check_files(Checkers { subject, reference: EXACT, plain: Some(PLAIN), program });
}

#[test]
fn the_proved_writer_agrees() {
    let Some(Library { check, expand, .. }) = ffi::library() else {
        eprintln!("no proved library in this build: not compared");
        return;
    };
    let program = programs::job_program(Path::new(programs::FOLDER), programs::EXPAND).ok();
    if program.is_none() {
        eprintln!("no program expand: not compared");
    }
    check_jobs(Writers {
        subject: expand,
        reference: &exact_expand,
        plain: Some(&plain_expand),
        program: program.as_ref().map(|program| program as JobProgram),
        checkers: &[check, &exact],
    });
}

#[test]
fn the_proved_reader_agrees() {
    with_stack(|| {
        let Some(Library { check, read, .. }) = ffi::library() else {
            eprintln!("no proved library in this build: not compared");
            return;
        };
        let program = programs::text_program(Path::new(programs::FOLDER), programs::READ).ok();
        if program.is_none() {
            eprintln!("no program read: not compared");
        }
        check_texts(Readers {
            subject: Some(read),
            reference: &exact_read,
            plain: Some(&plain_read),
            program: program.as_ref().map(|program| program as TextProgram),
            checkers: &[check, &exact],
        });
    });
}

/// A run is repeatable: the same seed gives the same files.
#[test]
fn files_are_seeded() {
    for index in 0..200 {
        let (one, other) = (
            nezkaldo_compare::generate::case(3, index),
            nezkaldo_compare::generate::case(3, index),
        );
        assert_eq!(one.bytes, other.bytes);
        let (one, other) = (
            nezkaldo_compare::generate::texts::case(3, index),
            nezkaldo_compare::generate::texts::case(3, index),
        );
        assert_eq!((one.declarations, one.text), (other.declarations, other.text));
    }
}
