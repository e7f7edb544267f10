//! Long, deep and wide texts, for the Rust reader and the library's, in a thread with the
//! stack that the header asks for: each ends with the right answer and leaves its areas as
//! document 01 says. Times are printed (`-- --nocapture`), never judged.

use crate::{exact_read, with_stack};
use nezkaldo_compare::answer::PackedLength;
use nezkaldo_compare::bundle::{MAX_BYTES, MAX_SETS, MAX_WORDS, to_bytes};
use nezkaldo_compare::compare_reader::{Reader, call};
use nezkaldo_compare::compare_writer::Areas;
use nezkaldo_compare::ffi;
use nezkaldo_compare::read::job;
use std::time::Instant;

/// f33 is an item, f34 a predicate of two items, f35 takes so many truth values; v1 is an
/// item, v2 a truth value.
fn declarations(width: u32) -> Vec<u8> {
    let last = 2 + width;
    let list = if width == 0 { 0 } else { 3 };
    let mut words = vec![1, 3, 2, 0, last, 0, 0, 0, 0, 1, 0, 0, 1, 0, list, 1, 0, 1, 2, 1, 0];
    words.extend((3..=last).flat_map(|link| [0, if link == last { 0 } else { link + 1 }]));
    to_bytes(&words)
}

const MEGABYTES: usize = 10_000_000;
const ENOUGH: [usize; 3] = [MAX_BYTES, MAX_WORDS, MAX_SETS];

#[derive(Clone, Copy, Debug, PartialEq, Eq)]
enum Answer {
    Written,
    Refused(u64, u64),
}
use Answer::{Refused, Written};

fn hold(name: &str, text: &str, expected: Answer) {
    hold_with(0, name, text, expected);
}

/// Holds both readers to the answer, with areas just long enough; for a text under 1 MB
/// with longer ones too.
fn hold_with(width: u32, name: &str, text: &str, expected: Answer) {
    let declarations = declarations(width);
    with_stack(|| {
        hold_one("Rust", &exact_read, name, (&declarations, text), expected);
        match ffi::library() {
            Some(it) => hold_one("library", it.read, name, (&declarations, text), expected),
            None => eprintln!("no proved library in this build: not held to {name}"),
        }
    });
}

fn hold_one(
    party: &str,
    read: Reader,
    name: &str,
    (declarations, text): (&[u8], &str),
    expected: Answer,
) {
    let right = match expected {
        Written => job(declarations, text.as_bytes()).unwrap(),
        Refused(..) => Vec::new(),
    };
    let [out, words, sets] = ENOUGH;
    let more = [out + 9, words + 3, sets + 5];
    for lengths in [ENOUGH, more].into_iter().take(if text.len() < 1_000_000 { 2 } else { 1 }) {
        let begun = Instant::now();
        let (answer, areas) = call(read, declarations, text.as_bytes(), lengths, 1);
        let time = begun.elapsed().as_secs_f64();
        if lengths == ENOUGH {
            println!(
                "{time:>8.3} s {party:>8} {name}, {} bytes: {}",
                text.len(),
                PackedLength(answer)
            );
        }
        let found = match answer >> 32 {
            0 => Written,
            number => Refused(number, answer & 0xffff_ffff),
        };
        assert_eq!(found, expected, "{party} on {name}");
        assert!(expected != Written || answer as usize == right.len(), "{party} on {name}");
        let Areas { out, words, sets } = areas;
        assert!(out[..right.len()] == right, "{party} writes another job for {name}");
        let clear = out[right.len()..].iter().all(|&byte| byte == 0);
        assert!(clear, "{party} on {name}: the output is not zero after the job");
        let clear = words.iter().all(|&word| word == 0) && sets.iter().all(|&set| set == 0);
        assert!(clear, "{party} on {name}: the scratch is not zero");
    }
}

fn nested(open: &str, depth: usize, inside: &str, close: &str) -> String {
    open.repeat(depth) + inside + &close.repeat(depth)
}

fn up_to(bytes: usize, part: &str) -> String {
    part.repeat(bytes / part.len())
}

#[test]
fn ten_megabytes_of_brackets() {
    hold("open brackets", &up_to(MEGABYTES, "("), Refused(19, 1));
    hold("closing brackets", &up_to(MEGABYTES, ")"), Refused(19, 0));
    for open in ["(not ", "(and true ", "(and ", "(let ((v2 ", "(forall((v1 Item))", "(f35 "] {
        let text = up_to(MEGABYTES, open);
        hold(&format!("{open:?} again and again"), &text, Refused(19, text.len() as u64));
    }
    let text = up_to(MEGABYTES, "(not ") + "v9";
    hold("an unknown name inside", &text, Refused(20, 10_000_000));
    let text = up_to(MEGABYTES, "(not ") + "(v2 v2)";
    hold("a variable as head inside", &text, Refused(20, 10_000_001));
    let text = up_to(MEGABYTES, "(not ") + "()";
    hold("no head inside", &text, Refused(19, 10_000_001));
}

/// 19, 20 and 8 are judged over the whole text, at any depth, before 16.
#[test]
fn twenty_thousand_deep() {
    let depth = 20_000;
    hold("not, open", &"(not ".repeat(depth), Refused(19, 100_000));
    hold("not", &nested("(not ", depth, "true", ")"), Refused(16, 0));
    hold("not on an item", &nested("(not ", depth, "v1", ")"), Refused(8, 0));
    hold("not on an unknown name", &nested("(not ", depth, "v9", ")"), Refused(20, 100_000));
    let text = nested("(not ", depth, "true", ")");
    hold("not, one bracket too many", &(text.clone() + ")"), Refused(19, 120_004));
    hold("not, one bracket missing", &text[..text.len() - 1], Refused(19, 120_003));
    hold("not, ten times as deep", &nested("(not ", 10 * depth, "true", ")"), Refused(16, 0));
    hold("an item as deep", &nested("(not ", 10 * depth, "f33", ")"), Refused(8, 0));
    let and = |inside| nested("(and true ", depth, inside, ")");
    hold("and", &and("v2"), Refused(16, 0));
    hold("and on an item", &and("v1"), Refused(8, 0));
    let forall = |inside| nested("(forall ((v1 Item)) ", depth, inside, ")");
    hold("for all", &forall("v2"), Refused(16, 0));
    hold("for all on an item", &forall("v1"), Refused(8, 0));
    let body = |inside| nested("(let ((v2 v2)) ", depth, inside, ")");
    hold("let", &body("v2"), Refused(16, 0));
    hold("let on an item", &body("v1"), Refused(8, 0));
    hold("let, open", &"(let ((v2 ".repeat(depth), Refused(19, 200_000));
}

/// What comes after the deep part is judged after it. The library's time grows with length
/// times depth there: it is held to 2,000 levels, the Rust reader to more.
#[test]
fn deep_first_parts() {
    for (open, close) in [("(or ", " v2)"), ("(= ", " v2)"), ("(let ((v2 ", ")) v2)")] {
        hold(open, &nested(open, 2_000, "v2", close), Refused(16, 0));
        hold(open, &nested(open, 2_000, "v1", close), Refused(8, 0));
        let text = format!("(and {} v1)", nested(open, 2_000, "v2", close));
        hold(open, &text, Refused(8, 0));
        let rust = |inside, expected| {
            let text = nested(open, 500_000, inside, close);
            hold_one("Rust", &exact_read, open, (&declarations(0), &text), expected);
        };
        with_stack(|| rust("v2", Refused(16, 0)));
        with_stack(|| rust("v1", Refused(8, 0)));
    }
    for (inside, expected) in [("v2", Refused(16, 0)), ("v1", Refused(8, 0))] {
        let text = nested("(not ", 2_000_000, inside, ")");
        hold_one("Rust", &exact_read, "not", (&declarations(0), &text), expected);
    }
}

/// The deepest that fits, and one and two more; the thread's stack is enough.
#[test]
fn at_the_limit_of_terms() {
    for (depth, answer) in [(1_023, Written), (1_024, Refused(16, 0)), (1_025, Refused(16, 0))] {
        let name = |what: &str| format!("{depth} {what}");
        hold(&name("nots"), &nested("(not ", depth, "true", ")"), answer);
        hold(&name("nots on an item"), &nested("(not ", depth, "v1", ")"), Refused(8, 0));
        let open = "(not ".repeat(depth);
        hold(&name("nots, open"), &open, Refused(19, open.len() as u64));
        for (open, close) in [
            ("(forall ((v1 Item)) ", ")"),
            ("(exists((v2 Bool))", ")"),
            ("(let ((v2 v2)) ", ")"),
            ("(let ((v2 ", ")) v2)"),
            ("(= v2 ", ")"),
            ("(or ", " v2)"),
        ] {
            hold(&name(open), &nested(open, depth, "v2", close), answer);
            hold(&name(open), &nested(open, depth, "f33", close), Refused(8, 0));
        }
        let binders = "(v1 Item)".repeat(depth);
        hold(&name("binders"), &format!("(forall ({binders}) v2)"), answer);
        hold(&name("binders"), &format!("(exists ({binders}) v1)"), Refused(8, 0));
    }
    let deep = nested("(forall ((v1 Item)) ", 1_000, &format!("(f35{})", " v2".repeat(1_000)), ")");
    hold_with(1_000, "a wide application under 1,000 for alls", &deep, Written);
}

#[test]
fn ten_megabytes_of_white_space_and_comments() {
    let brackets = up_to(MEGABYTES, "(");
    let comment = format!(";{brackets}");
    hold("a comment to the end", &comment, Refused(19, comment.len() as u64));
    hold("a comment up to 10", &format!("{comment}\ntrue"), Written);
    hold("a comment up to 13", &format!("{comment}\rtrue"), Written);
    hold("a comment after the formula", &format!("true {comment}"), Written);
    hold("a comment inside", &format!("(not {comment}\n v2)"), Written);
    hold("many comments", &format!("{}true", up_to(MEGABYTES, ";\n")), Written);
    for white in [" ", "\t\r\n "] {
        let space = up_to(MEGABYTES, white);
        hold(&format!("{white:?}, then a formula"), &format!("{space}true"), Written);
        hold(&format!("a formula, then {white:?}"), &format!("true{space}"), Written);
        let text = format!("{space}|");
        hold(&format!("{white:?}, then a bar"), &text, Refused(19, space.len() as u64));
    }
}

#[test]
fn ten_megabytes_of_symbol_characters() {
    let run = up_to(MEGABYTES, "x");
    let ones = up_to(MEGABYTES, "1");
    hold("a run", &run, Refused(20, 0));
    hold("a run, then a bar", &format!("(and {run}|"), Refused(20, 5));
    hold("a run as head", &format!("(\n{run} v2)"), Refused(20, 2));
    hold("a run as variable", &format!("(let (({run} v2)) v2)"), Refused(20, 7));
    hold("every symbol character", &up_to(MEGABYTES, "~!@$%^&*_-+=<>.?/a1"), Refused(20, 0));
    hold("v and ones", &format!("v{ones}"), Refused(20, 0));
    hold("f33 and ones", &format!("(f33{ones} v2)"), Refused(20, 1));
    hold("true and more", &format!("true{run}"), Refused(20, 0));
    hold("a sort and more", &format!("(exists ((v1 Item{run})) v2)"), Refused(19, 17));
    hold("digits", &ones, Refused(19, 0));
}

#[test]
fn wide_texts() {
    for count in [999, 1_000, 1_001, 5_000, 3_000_000] {
        let answer = if count == 1_000 { Written } else { Refused(8, 0) };
        let hold = |name: &str, text: &str, answer| {
            hold_with(1_000, &format!("{count} arguments{name}"), text, answer);
        };
        let text = format!("(f35{}", " v2".repeat(count));
        hold(", open", &text, Refused(19, text.len() as u64));
        hold("", &format!("{text})"), answer);
        hold(", an item last", &format!("(f35{} v1)", " v2".repeat(count - 1)), Refused(8, 0));
    }
    for count in [5_000, 1_000_000] {
        let name = format!("{count} pairs of a let");
        hold(&name, &format!("(let ({}) v2)", "(v2 true)".repeat(count)), Refused(8, 0));
        let text = format!("(let ({}", "(v2 true)".repeat(count));
        hold(&format!("{name}, open"), &text, Refused(19, text.len() as u64));
        let name = format!("{count} binders");
        let binders = "(v2 Bool)".repeat(count);
        hold(&name, &format!("(forall ({binders}) v2)"), Refused(16, 0));
        hold(&name, &format!("(forall ({binders}(v1 Bool)) v2)"), Refused(8, 0));
    }
    let lets = format!("(f35{})", "(let((v1 f33))v2)".repeat(1_000));
    hold_with(1_000, "a let in each argument", &lets, Written);
}

/// Areas too short are refused and cleared, whatever the text.
#[test]
fn short_areas() {
    let [out, words, sets] = ENOUGH;
    let declarations = declarations(0);
    let text = up_to(MEGABYTES, "(not ");
    for lengths in [[out - 1, words, sets], [out, words - 1, sets], [out, words, sets - 1], [0; 3]]
    {
        for read in [Some(&exact_read as Reader), ffi::library().map(|library| library.read)] {
            let Some(read) = read else { continue };
            let (answer, areas) = call(read, &declarations, text.as_bytes(), lengths, 3);
            assert_eq!(answer, 4 << 32, "{lengths:?}");
            assert!(areas.out.iter().all(|&byte| byte == 0), "{lengths:?}");
            assert!(areas.words.iter().all(|&word| word == 0), "{lengths:?}");
            assert!(areas.sets.iter().all(|&set| set == 0), "{lengths:?}");
        }
    }
}
