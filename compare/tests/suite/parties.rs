//! The plain readings and the programs have a say of their own: one that differs
//! from an otherwise exact comparison is noticed.

use crate::{EXACT, exact, exact_expand, exact_read};
use nezkaldo_compare::answer::{Accepted, Reason, Refusal, line};
use nezkaldo_compare::bundle::{MAX_SETS, to_bytes};
use nezkaldo_compare::check::check;
use nezkaldo_compare::compare::{self, Calls, Checkers};
use nezkaldo_compare::compare_reader::{self, Readers};
use nezkaldo_compare::compare_writer::{self, Quantified, Writers, numbers};
use nezkaldo_compare::expand::{Names, written};
use nezkaldo_compare::fault::Fault;
use nezkaldo_compare::generate::builder::{Builder, CHOICE, EXISTS, FOR_ALL, TRUTH};
use nezkaldo_compare::generate::jobs::{Job, JobFamily};
use nezkaldo_compare::generate::texts::{Text, TextFamily};
use nezkaldo_compare::mutants::{broken_checker, broken_reader, broken_writer};
use nezkaldo_compare::programs::{self, JobProgram, Program, TextProgram};
use nezkaldo_compare::read::job;
use nezkaldo_compare::rng::Rng;
use nezkaldo_compare::tally::Sample;
use std::io::{self, ErrorKind};
use std::os::unix::process::ExitStatusExt;
use std::path::Path;
use std::process::{ExitStatus, Output};

const SEED: u64 = 7;
const FILES: u64 = 3_000;
const JOBS: u64 = 600;
const TEXTS: u64 = 600;

fn checkers(program: Program) -> Checkers {
    Checkers { program: Some(program), ..Checkers::two(EXACT, EXACT) }
}

fn writers(program: Option<JobProgram>) -> Writers {
    Writers {
        subject: &exact_expand,
        reference: &exact_expand,
        plain: None,
        program,
        checkers: &[&exact],
    }
}

/// What the comparison of files says of a program at its first difference.
fn said_of_check(program: Program) -> Option<String> {
    let report = compare::run(checkers(program), SEED, FILES, None).unwrap();
    report.differences.first().map(|difference| difference.text.clone())
}

fn said_of_expand(program: JobProgram) -> Option<String> {
    let report = compare_writer::run(writers(Some(program)), SEED, JOBS, None).unwrap();
    report.differences.first().map(|difference| difference.text.clone())
}

fn readers(program: Option<TextProgram>) -> Readers {
    Readers { subject: None, reference: &exact_read, plain: None, program, checkers: &[&exact] }
}

fn said_of_read(program: TextProgram) -> Option<String> {
    let report = compare_reader::run(readers(Some(program)), SEED, TEXTS, None).unwrap();
    report.differences.first().map(|difference| difference.text.clone())
}

fn prints(stdout: impl Into<Vec<u8>>, stderr: impl Into<Vec<u8>>) -> io::Result<Output> {
    Ok(Output { status: ExitStatus::default(), stdout: stdout.into(), stderr: stderr.into() })
}

/// The program check, but for what `change` makes of the answer.
fn check_but(
    change: impl Fn(Result<Accepted, Refusal>) -> Result<Accepted, Refusal>,
) -> impl Fn(&[u8]) -> io::Result<Output> {
    move |file| prints(line(change(check(file, &mut [0; MAX_SETS]))), "")
}

#[test]
fn the_right_programs_agree() {
    assert_eq!(said_of_check(&check_but(|answer| answer)), None);
    let expand = |job: &[u8], names| match written(job, names) {
        Ok(file) => prints(file, ""),
        Err(refusal) => prints("", refusal.line()),
    };
    assert_eq!(said_of_expand(&expand), None);
}

#[test]
fn another_claim_or_refusal_is_noticed() {
    let left = |answer: Result<Accepted, Refusal>| {
        answer.map(|claim| Accepted { left: claim.right, ..claim })
    };
    let right = |answer: Result<Accepted, Refusal>| {
        answer.map(|claim| Accepted { right: claim.left, ..claim })
    };
    let record = |answer: Result<Accepted, Refusal>| {
        answer.map_err(|refusal| Refusal { record: refusal.record.min(7), ..refusal })
    };
    for (program, text) in [
        (&check_but(left) as Program, "accepted"),
        (&check_but(right), "accepted"),
        (&check_but(record), "refused"),
        (&|_: &[u8]| prints("accepted 1 1\n", ""), "refused"),
    ] {
        let said = said_of_check(program).expect("the program is wrong");
        assert!(said.contains(text), "{said}");
    }
}

#[test]
fn another_file_or_refusal_is_noticed() {
    let one_byte = |job: &[u8], names| match written(job, names) {
        Ok(mut file) => {
            *file.last_mut().unwrap() ^= 1;
            prints(file, "")
        }
        Err(refusal) => prints("", refusal.line()),
    };
    let silent = |job: &[u8], names| prints(written(job, names).unwrap_or_default(), "");
    let on_output = |job: &[u8], names| match written(job, names) {
        Ok(file) => prints(file, ""),
        Err(refusal) => prints(refusal.line(), ""),
    };
    for program in [&one_byte as JobProgram, &silent, &on_output] {
        assert!(said_of_expand(program).is_some());
    }
}

/// The program is told to rename all, and to keep names it is told nothing; one that does not
/// listen is noticed under the choice that it does not take.
#[test]
fn expand_is_told_the_choice() {
    let echo = programs::job_program(Path::new("/bin"), "echo").unwrap();
    assert_eq!(echo(b"", Names::Keep).unwrap().stdout, b"\n");
    assert_eq!(echo(b"", Names::RenameAll).unwrap().stdout, b"--rename\n");
    for (only, other) in [(Names::Keep, Names::RenameAll), (Names::RenameAll, Names::Keep)] {
        let deaf = |job: &[u8], _: Names| match written(job, only) {
            Ok(file) => prints(file, ""),
            Err(refusal) => prints("", refusal.line()),
        };
        let said = said_of_expand(&deaf).expect("the program is wrong");
        assert!(said.starts_with(&format!("{other}: the program's")), "{said}");
    }
}

/// A writer that does not listen to the choice is noticed in the library's place and in the
/// plain reading's, and the difference says under which choice.
#[test]
fn another_choice_is_noticed() {
    for (fault, names) in
        [(Fault::AlwaysKeeps, Names::RenameAll), (Fault::AlwaysRenames, Names::Keep)]
    {
        let broken = broken_writer(fault);
        for (writers, from) in [
            (Writers { subject: &broken, ..writers(None) }, "the Rust writer"),
            (Writers { plain: Some(&broken), ..writers(None) }, "the plain reading"),
        ] {
            let report = compare_writer::run(writers, SEED, JOBS, None).unwrap();
            assert!(!report.agrees(), "{fault:?}");
            for difference in &report.differences {
                let text = &difference.text;
                assert!(text.starts_with(&format!("{names}: areas of")), "{text}");
                assert!(text.contains(from), "{text}");
            }
        }
    }
}

/// Every job goes through both choices, with a table for each, and a kind of names that was
/// not seen is named.
#[test]
fn names_not_seen_are_named() {
    let report = compare_writer::run(writers(None), SEED, JOBS, None).unwrap();
    assert_eq!((report.jobs, report.calls), (JOBS, 4 * JOBS));
    for tally in &report.tallies {
        assert_eq!(tally.inputs.values().sum::<u64>(), JOBS);
        assert_eq!(tally.calls.values().sum::<u64>(), 2 * JOBS);
    }
    let Quantified { kept, renamed, both, choices } = report.quantified;
    assert!(both > 0 && both < kept.min(renamed), "{report}");
    let text = report.to_string();
    let line = format!(
        "{kept} have a variable kept, {renamed} one renamed, {both} both; {} have a choice's \
         variable kept, {} one's renamed\n",
        choices[0], choices[1]
    );
    assert!(text.contains(&line), "{text}");
    assert!(text.contains("names kept:\n") && text.contains("all renamed:\n"), "{text}");

    let none = Quantified::default();
    let kinds = ["kept", "renamed", "both", "choice kept", "choice renamed"];
    assert_eq!(none.unseen(1), kinds);
    // A rule without binders, one whose name is kept, one with two binders of a variable, and
    // one with another name kept beside these; the same of choices.
    let file = |kinds: [usize; 3]| {
        let mut b = Builder::new(Rng::new(1), 0);
        let [x, y, z] = std::array::from_fn(|_| b.variable(TRUTH));
        let mut rule = b.apply(1, &[]);
        (0..kinds[0]).for_each(|_| rule = b.bind(FOR_ALL, x, rule));
        (0..kinds[1]).for_each(|_| rule = b.bind(EXISTS, y, rule));
        (0..kinds[2]).for_each(|_| rule = b.bind(CHOICE, z, rule));
        written(&to_bytes(&b.words(rule, 0)), Names::Keep).unwrap()
    };
    let [kept, renamed, both, choice_kept, choice_renamed] = kinds;
    let choices = [choice_kept, choice_renamed];
    for (binders, unseen) in [
        ([0, 0, 0], kinds.to_vec()),
        ([1, 0, 0], [[renamed, both], choices].concat()),
        ([1, 1, 0], [[renamed, both], choices].concat()),
        ([0, 2, 0], [[kept, both], choices].concat()),
        ([2, 1, 0], choices.to_vec()),
        ([0, 0, 1], vec![renamed, both, choice_renamed]),
        ([0, 0, 2], vec![kept, both, choice_kept]),
        ([1, 0, 2], vec![choice_kept]),
    ] {
        let mut quantified = none;
        quantified.add(&file(binders));
        assert_eq!(quantified.unseen(1), unseen, "{binders:?}");
    }
}

/// A number counts under the choice that answers it.
#[test]
fn numbers_count_by_the_choice() {
    let mut report = compare_writer::Report::default();
    let count = numbers().count();
    assert_eq!(report.unseen(1).len(), 2 * (count + 1));
    // 256 variables, and one more for each new name.
    let mut b = Builder::new(Rng::new(1), 0);
    (0..256).for_each(|_| _ = b.variable(TRUTH));
    let truth = b.apply(1, &[]);
    let rule = b.bind(FOR_ALL, 1, truth);
    let bytes = to_bytes(&b.words(rule, 0));
    report.add(writers(None), 0, &Job { family: JobFamily::Limit, bytes });
    assert!(report.agrees(), "{report}");
    let unseen = report.unseen(1);
    let full = Reason::Full.number();
    assert!(unseen.contains(&(Names::Keep, full)) && unseen.contains(&(Names::RenameAll, 0)));
    assert!(!unseen.contains(&(Names::Keep, 0)) && !unseen.contains(&(Names::RenameAll, full)));
}

/// What read says of a refusal starts with number and record; more may follow.
#[test]
fn another_job_or_refusal_of_a_text_is_noticed() {
    let program = |say: fn(Refusal) -> io::Result<Output>| {
        move |declarations: &[u8], text: &[u8]| match job(declarations, text) {
            Ok(job) => prints(job, ""),
            Err(refusal) => say(refusal),
        }
    };
    assert_eq!(said_of_read(&program(|refusal| prints("", refusal.line()))), None);
    let more = |refusal| prints("", format!("{refusal}: line 1, column 1\n(not\n ^\n"));
    assert_eq!(said_of_read(&program(more)), None);
    let wrong: [fn(Refusal) -> io::Result<Output>; 7] = [
        |_| prints("", ""),
        |refusal| prints(refusal.line(), ""),
        |refusal| prints("x", refusal.line()),
        |refusal| prints("", format!("{refusal}0\n")),
        |refusal| prints("", format!("read: {refusal}\n")),
        |refusal| prints("", format!("line 1\n{refusal}\n")),
        |refusal| prints("", Refusal { record: refusal.record.min(7), ..refusal }.line()),
    ];
    for wrong in wrong {
        let said = said_of_read(&program(wrong)).expect("the program is wrong");
        assert!(said.contains("the program's"), "{said}");
    }
    let one_byte = |declarations: &[u8], text: &[u8]| match job(declarations, text) {
        Ok(mut job) => {
            *job.last_mut().unwrap() ^= 1;
            prints(job, "")
        }
        Err(refusal) => prints("", refusal.line()),
    };
    let with_errors = |declarations: &[u8], text: &[u8]| match job(declarations, text) {
        Ok(job) => prints(job, "written\n"),
        Err(refusal) => prints("", refusal.line()),
    };
    for wrong in [&one_byte as TextProgram, &with_errors] {
        assert!(said_of_read(wrong).is_some());
    }
}

/// A refusal may be the exit status 1; a job is written with 0, and a signal is no end.
#[test]
fn the_status_of_read() {
    let ends = |number: i32| {
        move |declarations: &[u8], text: &[u8]| {
            let status = ExitStatus::from_raw(number);
            match job(declarations, text) {
                Ok(job) => Ok(Output { status, stdout: job, stderr: vec![] }),
                Err(refusal) => {
                    Ok(Output { status, stdout: vec![], stderr: refusal.line().into() })
                }
            }
        }
    };
    let said = |number: i32, text: &str| {
        let declarations = to_bytes(&[1, 0, 0, 0, 0, 0, 0, 0, 0]);
        let job = job(&declarations, text.as_bytes());
        let refusal = job.as_ref().err().map(|refusal| refusal.to_string()).unwrap_or_default();
        let expected = job.as_deref().map_err(|_| refusal.as_str());
        programs::text_difference(&ends(number), (&declarations, text.as_bytes()), expected)
    };
    let (one, two, signal) = (1 << 8, 2 << 8, 11);
    assert_eq!([said(0, "true"), said(0, "("), said(one, "(")], [None, None, None]);
    for (number, text) in [(one, "true"), (two, "("), (signal, "("), (signal, "true")] {
        assert!(said(number, text).unwrap().contains("ends with"), "{number} {text}");
    }
}

/// The declarations are in the file that is named, the text on standard input.
#[test]
fn read_gets_declarations_and_text() {
    let cat = programs::text_program(Path::new("/bin"), "cat").unwrap();
    let text: Vec<u8> = (0..200_000).map(|place| place as u8).collect();
    for declarations in [b"one".as_slice(), b"a second", b""] {
        assert_eq!(cat(declarations, &text).unwrap().stdout, declarations);
    }
    let tee = programs::text_program(Path::new("/bin"), "tee")
        .or_else(|_| programs::text_program(Path::new("/usr/bin"), "tee"));
    assert_eq!(tee.unwrap()(b"", &text).unwrap().stdout, text);
    for name in ["true", "false", "cat"] {
        let other = programs::text_program(Path::new("/bin"), name).unwrap();
        assert!(said_of_read(&other).is_some(), "{name}");
    }
    let missing = programs::text_program(Path::new("/nowhere"), programs::READ).err().unwrap();
    assert!(missing.contains("./build read_text"), "{missing}");
}

/// A text that is too long for the program is not given to it.
#[test]
fn long_texts_are_not_given_to_read() {
    let never = |_: &[u8], _: &[u8]| panic!("the text is too long");
    let mut report = compare_reader::Report::default();
    let mut text = b"true;".to_vec();
    text.resize(programs::LONGEST_TEXT + 1, b' ');
    let declarations = to_bytes(&[1, 0, 0, 0, 0, 0, 0, 0, 0]);
    let case = Text { family: TextFamily::Large, declarations, text, formula: None };
    report.add(readers(Some(&never)), 0, &case);
    assert!(report.agrees() && report.tally.program.total() == 0, "{report}");
}

/// Programs of the system in place of ours: one that prints nothing, one that fails,
/// one that prints its input; and none at all.
#[test]
fn other_programs_are_noticed() {
    for name in ["true", "false", "cat"] {
        let other = programs::program(Path::new("/bin"), name).unwrap();
        assert!(said_of_check(&other).is_some(), "{name}");
        let other = programs::job_program(Path::new("/bin"), name).unwrap();
        assert!(said_of_expand(&other).is_some(), "{name}");
    }
    let failing = |file: &[u8]| {
        let mut output = check_but(|answer| answer)(file)?;
        output.status = programs::program(Path::new("/bin"), "false").unwrap()(b"")?.status;
        Ok(output)
    };
    assert!(said_of_check(&failing).unwrap().contains("ends with"));
    let gone = |_: &[u8]| Err(ErrorKind::NotFound.into());
    assert!(said_of_check(&gone).unwrap().contains("cannot be run"));
    let missing = programs::program(Path::new("/nowhere"), programs::CHECK).err().unwrap();
    assert!(missing.contains("./build check_bundle"), "{missing}");
}

/// Input and output that are longer than a pipe holds.
#[test]
fn long_inputs_pass_through() {
    let input: Vec<u8> = (0..200_000).map(|place| place as u8).collect();
    let cat = programs::program(Path::new("/bin"), "cat").unwrap();
    assert_eq!(programs::difference(&cat, &input, &input, b""), None);
    assert!(programs::difference(&cat, &input, &input[1..], b"").is_some());
    // A program that does not read its input is judged by what it prints.
    let silent = programs::program(Path::new("/bin"), "true").unwrap();
    assert_eq!(programs::difference(&silent, &input, b"", b""), None);
}

#[test]
fn another_plain_reading_is_noticed() {
    for fault in [Fault::BindImagesUnread, Fault::AreaTailKept, Fault::AreaKeptOnRefusal] {
        let broken = broken_checker(fault);
        let plain = Some(Calls { check: &broken, ..EXACT });
        let checkers = Checkers { plain, ..Checkers::two(EXACT, EXACT) };
        let report = compare::run(checkers, SEED, 20_000, None).unwrap();
        assert!(!report.agrees(), "{fault:?}");
        assert!(report.to_string().contains("from the plain reading"), "{report}");
    }
    for fault in [Fault::ScratchKept, Fault::OutputTailKept, Fault::RightUnread] {
        let broken = broken_writer(fault);
        let writers = Writers { plain: Some(&broken), ..writers(None) };
        let report = compare_writer::run(writers, SEED, JOBS, None).unwrap();
        assert!(!report.agrees(), "{fault:?}");
        assert!(report.to_string().contains("the plain reading"), "{report}");
    }
}

/// A reader that differs is noticed in the library's place and in the plain reading's;
/// one that is wrong by itself is noticed by the formulas it was given.
#[test]
fn another_reader_is_noticed() {
    let exact_one = readers(None);
    let said = |readers: Readers| {
        let report = compare_reader::run(readers, SEED, 1_000, None).unwrap();
        report.differences.first().map(|difference| difference.text.clone())
    };
    assert_eq!(said(exact_one), None);
    for fault in [Fault::ReadScratchKept, Fault::WordsMayNotGrow, Fault::LetsNotShared] {
        let broken = broken_reader(fault);
        let found = said(Readers { subject: Some(&broken), ..exact_one }).unwrap();
        assert!(found.contains("the Rust reader"), "{fault:?}: {found}");
        let found = said(Readers { plain: Some(&broken), ..exact_one }).unwrap();
        assert!(found.contains("the plain reading"), "{fault:?}: {found}");
    }
    for (fault, text) in [
        (Fault::NestedFromTheRight, "not the printed formula"),
        (Fault::ApplicationsNotShared, "the job is refused 9"),
        (Fault::CommentPassesReturn, "the text of a formula is refused 19"),
    ] {
        let broken = broken_reader(fault);
        let found = said(Readers { reference: &broken, ..exact_one }).unwrap();
        assert!(found.contains(text), "{fault:?}: {found}");
    }
}

/// A number that was not answered often enough is named, 0 for what is written too.
#[test]
fn numbers_not_seen_are_named() {
    let mut report = compare_reader::Report::default();
    assert_eq!(report.unseen(1), [0, 1, 2, 3, 4, 5, 6, 8, 16, 18, 19, 20]);
    let all = compare_reader::run(readers(None), SEED, 2_000, None).unwrap();
    assert_eq!(all.unseen(1), []);
    for index in 0..3 {
        let declarations = to_bytes(&[1, 0, 0, 0, 0, 0, 0, 0, 0]);
        let text = b"true".to_vec();
        let case = Text { family: TextFamily::Formula, declarations, text, formula: None };
        report.add(readers(None), 7 * index, &case);
    }
    assert_eq!(report.unseen(6), [1, 2, 3, 4, 5, 6, 8, 16, 18, 19, 20]);
    assert!(report.unseen(7).contains(&0));
}

/// Of each kind the first few, then one in so many.
#[test]
fn samples_have_every_kind() {
    let mut sample = Sample::new(10);
    let refusal = |number: u64| number << 32 | 3;
    let taken = (1..=100).filter(|_| sample.takes('a', refusal(5))).count();
    assert_eq!(taken, 5 + 10);
    assert!(sample.takes('b', refusal(5)) && sample.takes('a', refusal(6)) && sample.takes('a', 0));
    assert_eq!((sample.taken(5), sample.taken(6), sample.taken(0)), (16, 1, 1));
    assert_eq!(sample.total(), 18);
}
