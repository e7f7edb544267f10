//! The two readings, and the library where it is there, are held to the cases with answers
//! of each request that has landed, with the answers that later ones moved.

use crate::{
    exact, exact_expand, exact_links, exact_read, plain, plain_expand, plain_links, plain_read,
    with_stack,
};
use nezkaldo_compare::ffi::{self, Library};
use nezkaldo_compare::vectors::{self, Party, Report};

/// The last request that has landed.
const LANDED: u32 = 7;

const MOVES: &str = include_str!("../../vectors/moves.txt");
const REQ_01: &str = include_str!("../../vectors/req01.txt");
const REQ_02: &str = include_str!("../../vectors/req02.txt");
const REQ_03: &str = include_str!("../../vectors/req03.txt");
const REQ_04: &str = include_str!("../../vectors/req04.txt");
const REQ_05: &str = include_str!("../../vectors/req05.txt");
const REQ_06: &str = include_str!("../../vectors/req06.txt");
const REQ_07: &str = include_str!("../../vectors/req07.txt");

fn held(name: &str, text: &str) -> Report {
    let moved = vectors::moves(MOVES, name, LANDED).unwrap();
    let mut parties = vec![
        Party {
            name: "Rust",
            check: &exact,
            expand: &exact_expand,
            read: &exact_read,
            links: &exact_links,
            longest_text: usize::MAX,
        },
        Party {
            name: "the plain reading",
            check: &plain,
            expand: &plain_expand,
            read: &plain_read,
            links: &plain_links,
            longest_text: 2_000,
        },
    ];
    match ffi::library() {
        Some(Library { check, expand, read, links }) => {
            let longest_text = usize::MAX;
            parties.push(Party { name: "the library", check, expand, read, links, longest_text });
        }
        None => eprintln!("no proved library in this build: not held to {name}"),
    }
    let report = vectors::run(text, &moved, &parties);
    assert!(report.agrees(), "{report}");
    for party in parties {
        let answered: usize = report
            .answered
            .iter()
            .filter(|((name, _), _)| name == party.name)
            .map(|(_, count)| count)
            .sum();
        let left_out = report.left_out.get(party.name).map_or(0, Vec::len);
        assert_eq!(answered + left_out, report.cases, "{}", party.name);
        assert!(left_out == 0 || party.name == "the plain reading");
    }
    report
}

/// How many cases of these calls the Rust programs answered.
fn by_call<const N: usize>(report: &Report, calls: [&'static str; N]) -> [usize; N] {
    calls.map(|call| report.answered[&("Rust".to_string(), call)])
}

/// The texts have every number that a reader answers. Those that lent as much as Req 01
/// asked for are refused by Req 02.
#[test]
fn vectors_of_req_01() {
    with_stack(|| {
        let report = held("req01", REQ_01);
        assert_eq!((report.cases, report.moved), (311, 28));
        assert_eq!(vectors::refusals(REQ_01), [1, 2, 3, 4, 5, 6, 8, 16, 18, 19, 20]);
    });
}

#[test]
fn vectors_of_req_02() {
    with_stack(|| {
        let report = held("req02", REQ_02);
        assert_eq!((report.cases, report.moved), (281, 36));
        assert_eq!(by_call(&report, ["check", "read", "sets", "write rename"]), [195, 17, 22, 47]);
    });
}

#[test]
fn vectors_of_req_03() {
    let report = held("req03", REQ_03);
    assert_eq!((report.cases, report.moved), (338, 20));
    assert_eq!(by_call(&report, ["check", "links"]), [185, 153]);
}

/// Walks too are held to by what a check answers, so by every party.
#[test]
fn vectors_of_req_04() {
    let report = held("req04", REQ_04);
    assert_eq!((report.cases, report.moved), (251, 48));
    assert_eq!(by_call(&report, ["check", "walk"]), [211, 40]);
    assert!(report.left_out.is_empty());
    assert_eq!(vectors::refusals(REQ_04), (1..=15).chain([21]).collect::<Vec<u32>>());
}

#[test]
fn vectors_of_req_05() {
    let report = held("req05", REQ_05);
    assert_eq!((report.cases, report.moved), (249, 2));
    assert_eq!(by_call(&report, ["check"]), [249]);
    assert!(vectors::refusals(REQ_05).contains(&22));
}

/// Nearly every job under both choices.
#[test]
fn vectors_of_req_06() {
    let report = held("req06", REQ_06);
    assert_eq!((report.cases, report.moved), (335, 0));
    assert_eq!(by_call(&report, ["write keep", "write rename"]), [169, 166]);
    assert_eq!(vectors::refusals(REQ_06), (1..=9).chain(15..=18).collect::<Vec<u32>>());
}

/// Choices and SKO: every number of the checker and of the writer.
#[test]
fn vectors_of_req_07() {
    let report = held("req07", REQ_07);
    assert_eq!((report.cases, report.moved), (314, 0));
    let calls = ["check", "sets", "write keep", "write rename"];
    assert_eq!(by_call(&report, calls), [182, 4, 64, 64]);
    assert_eq!(vectors::refusals(REQ_07), (1..=18).chain([21, 22]).collect::<Vec<u32>>());
}
