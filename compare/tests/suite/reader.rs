//! The reader: its refusals in order, its areas and its limits.

use crate::{exact_read, plain_read};
use nezkaldo_compare::answer::{PackedLength, Reason, Refusal};
use nezkaldo_compare::bundle::{
    LEFT, MAX_BYTES, MAX_SETS, MAX_WORDS, RIGHT, Section, counts_of, to_bytes, to_words,
};
use nezkaldo_compare::compare_reader::call;
use nezkaldo_compare::read::{job, read};

/// f33 is an item, f34 a predicate of two items, f35 a truth value; v1 is an item, v2 a
/// truth value.
const DECLARATIONS: [u32; 21] = [1, 3, 2, 0, 2, 0, 0, 0, 0, 1, 0, 0, 1, 0, 0, 1, 0, 1, 2, 1, 0];

const ENOUGH: [usize; 3] = [MAX_BYTES, MAX_WORDS, MAX_SETS];

/// Number and record, (0, 0) where a job is written. A short text goes to both readers.
fn answer_to(declarations: &[u8], text: &[u8]) -> (u64, u64) {
    let exact = call(&exact_read, declarations, text, ENOUGH, 1);
    if text.len() < 200 {
        let plain = call(&plain_read, declarations, text, ENOUGH, 1);
        let text = String::from_utf8_lossy(text);
        assert_eq!(
            exact.0,
            plain.0,
            "{} against {} on {text}",
            PackedLength(exact.0),
            PackedLength(plain.0)
        );
        assert!(exact == plain, "the areas differ on {text}");
    }
    match exact.0 >> 32 {
        0 => (0, 0),
        number => (number, exact.0 & 0xffff_ffff),
    }
}

fn answer(text: &str) -> (u64, u64) {
    answer_to(&to_bytes(&DECLARATIONS), text.as_bytes())
}

/// A fault of each kind taken away in turn.
#[test]
fn refusals_come_in_order() {
    let with = |changes: &[(usize, u32)]| {
        let mut words = DECLARATIONS.to_vec();
        changes.iter().for_each(|&(place, word)| words[place] = word);
        to_bytes(&words)
    };
    let bad_link = (18, 1);
    let bad_sort = (16, 2);
    let bad_claim = (RIGHT, 1);
    let text = b"(and (f34 true) foo) |";
    let all = with(&[(0, 2), (1, 65), bad_link, bad_sort, bad_claim]);
    assert_eq!(answer_to(&all[..35], text), (1, 0));
    assert_eq!(answer_to(&all, text), (2, 0));
    assert_eq!(answer_to(&with(&[(1, 65), bad_link]), text), (3, 0));
    assert_eq!(answer_to(&with(&[(1, 64), bad_link]), text), (1, 0));
    let short =
        call(&exact_read, &with(&[bad_link]), text, [MAX_BYTES - 1, MAX_WORDS, MAX_SETS], 1);
    assert_eq!(short.0, Refusal::whole(Reason::Area).packed());
    assert_eq!(answer_to(&with(&[bad_link, bad_sort, bad_claim]), text), (5, 1));
    assert_eq!(answer_to(&with(&[bad_sort, bad_claim]), text), (6, 2));
    assert_eq!(answer_to(&with(&[bad_claim]), text), (18, 0));
    assert_eq!(answer_to(&with(&[(LEFT, 9)]), text), (18, 0));
    // The earlier byte of 19 and 20, then 8, then 16.
    assert_eq!(answer("(and (f34 true) foo) |"), (20, 16));
    assert_eq!(answer("(and (f34 true) | foo)"), (19, 16));
    assert_eq!(answer("(and (f34 true) f35) |"), (19, 21));
    assert_eq!(answer("(and (f34 true) f35)"), (8, 0));
    let deep = "(not ".repeat(1_200);
    let closed = ")".repeat(1_200);
    assert_eq!(answer(&format!("(and {deep}f35{closed} (f34 true))")), (8, 0));
    assert_eq!(answer(&format!("(and {deep}f35{closed} f35)")), (16, 0));
    assert_eq!(answer(&format!("(and {deep}f35{closed} f9)")), (20, 7_209));
    assert_eq!(answer("(and f35 f35)"), (0, 0));
}

/// Terms, contexts and steps in the declarations are counted, not looked into.
#[test]
fn declarations_are_bare() {
    for section in [Section::Terms, Section::Contexts, Section::Steps] {
        let mut words = DECLARATIONS.to_vec();
        words[1 + section as usize] = 1;
        let counts = counts_of(&to_bytes(&words)).unwrap();
        let place = counts.start(section);
        words.splice(place..place, vec![9; section.width()]);
        assert_eq!(answer_to(&to_bytes(&words), b"("), (18, 0), "{section:?}");
    }
}

#[test]
fn words_and_names() {
    // One of the twelve words could still grow into a name: the byte after it.
    for word in ["not", "and", "or", "=>", "=", "forall", "exists", "let", "Bool", "Item"] {
        assert_eq!(answer(word), (19, word.len() as u64));
        assert_eq!(answer(&format!("{word} ")), (19, word.len() as u64));
        assert_eq!(answer(&format!("{word}x")), (20, 0));
    }
    for word in ["true", "false", "Bool", "Item"] {
        assert_eq!(answer(&format!("({word} v2)")), (19, 1 + word.len() as u64));
    }
    for name in ["v0", "v01", "v3", "f32", "f033", "f36", "v4294967297", "v", "f", "V2", "vv2"] {
        assert_eq!(answer(name), (20, 0), "{name}");
    }
    assert_eq!(answer(&format!("v{}1", "0".repeat(60))), (20, 0));
    assert_eq!(answer("(v2 true)"), (20, 1));
    assert_eq!(answer("(exists ((f33 Item)) true)"), (20, 10));
    assert_eq!(answer("v2|"), (19, 2));
    assert_eq!(answer("7"), (19, 0));
    // A sort word: the first byte that leaves both.
    for (word, byte) in [("Bool", 0), ("Boolean", 4), ("Boo", 3), ("Int", 1), ("item", 0), ("I", 1)]
    {
        let number = if word == "Bool" { 0 } else { 19 };
        let byte = if word == "Bool" { 0 } else { 12 + byte };
        assert_eq!(answer(&format!("(exists((v2 {word}))v2)")), (number, byte), "{word}");
    }
}

#[test]
fn white_space_and_comments() {
    let written = job(&to_bytes(&DECLARATIONS), b"(and v2 (not v2))").unwrap();
    for text in [
        "(and v2(not v2))",
        "\t( and\nv2\r(\tnot v2 ) )\n",
        "(and;c\nv2;(\r(not;\n;\nv2));",
        ";\u{ff}\0\"|\n(and v2 (not v2)) ; the end",
    ] {
        let found = job(&to_bytes(&DECLARATIONS), text.as_bytes());
        assert_eq!(found.as_ref(), Ok(&written), "{text:?}");
        assert_eq!(answer(text), (0, 0));
    }
    assert_eq!(answer("(and\u{b}v2 v2)"), (19, 4));
    assert_eq!(answer("true\0"), (19, 4));
    assert_eq!(answer("(and v2 ;c) v2)"), (19, 15));
    assert_eq!(answer(";"), (19, 1));
}

#[test]
fn counts_and_sorts() {
    for (text, answered) in [
        ("(and v2)", (19, 7)),
        ("(and v2 v2 v2)", (19, 11)),
        ("(not v2 v2)", (19, 8)),
        ("(f35)", (19, 4)),
        ("f34", (8, 0)),
        ("(f34 v1)", (8, 0)),
        ("(f34 v1 v1 v1)", (8, 0)),
        ("(f35 v2)", (8, 0)),
        ("(f34 v1 v2)", (8, 0)),
        ("(= v1 v2)", (8, 0)),
        ("(= v1 f33)", (0, 0)),
        ("(= v2 f35)", (0, 0)),
        ("v1", (8, 0)),
        ("(let ((v1 f33)) v1)", (8, 0)),
        ("(let ((v1 v2)) v2)", (8, 0)),
        ("(let ((v2 v2) (v2 v2)) v2)", (8, 0)),
        ("(exists ((v2 Bool) (v2 Bool)) v2)", (0, 0)),
        ("(exists ((v2 Item)) v2)", (8, 0)),
        ("(forall ((v1 Item)) v1)", (8, 0)),
        ("(forall () v2)", (19, 9)),
        ("(let () v2)", (19, 6)),
    ] {
        assert_eq!(answer(text), answered, "{text}");
    }
}

#[test]
fn areas_are_cleared() {
    let declarations = to_bytes(&DECLARATIONS);
    for [out, words, sets] in [
        [MAX_BYTES - 1, MAX_WORDS, MAX_SETS],
        [MAX_BYTES, MAX_WORDS - 1, MAX_SETS],
        [MAX_BYTES, MAX_WORDS, MAX_SETS - 1],
        [0, 0, 0],
    ] {
        let (mut out, mut words, mut sets) = (vec![7; out], vec![7; words], vec![7; sets]);
        let refused = Err(Refusal::whole(Reason::Area));
        assert_eq!(read(&declarations, b"true", &mut out, &mut words, &mut sets), refused);
        assert!(out.iter().all(|&byte| byte == 0));
        assert!(words.iter().all(|&word| word == 0) && sets.iter().all(|&set| set == 0));
    }
    let (mut out, mut words, mut sets) =
        (vec![7; MAX_BYTES + 3], vec![7; MAX_WORDS + 1], vec![7; MAX_SETS + 2]);
    let length = read(&declarations, b"(not v2)", &mut out, &mut words, &mut sets).unwrap();
    assert_eq!(out[..length], job(&declarations, b"(not v2)").unwrap());
    assert!(out[length..].iter().all(|&byte| byte == 0));
    assert!(words.iter().all(|&word| word == 0) && sets.iter().all(|&set| set == 0));
}

/// Records in the order of the text, lists just before them.
#[test]
fn records_of_a_let() {
    let text = b"(let ((v1 f33) (v2 f35)) (forall ((v1 Item) (v2 Bool)) (f34 v1 v1)))";
    let words = to_words(&job(&to_bytes(&DECLARATIONS), text).unwrap());
    let expected = [
        1, 3, 2, 7, 8, 0, 0, 7, 0, // header
        1, 0, 0, 1, 0, 0, // symbols
        1, 0, // variables
        2, 33, 0, 0, 2, 35, 0, 0, 1, 1, 0, 0, 2, 34, 3, 0, // f33, f35, v1, f34 v1 v1
        3, 2, 4, 0, 3, 1, 5, 0, 5, 5, 7, 6, // for all v2, for all v1, let
        1, 2, 1, 0, 3, 4, 3, 0, 1, 6, 2, 0, 1, 8, 2, 0, // links
    ];
    assert_eq!(words, expected);
}

#[test]
fn sections_fit_to_their_limits() {
    let nested = |depth: usize| format!("{}true{}", "(not ".repeat(depth), ")".repeat(depth));
    let counts = |text: &str| counts_of(&job(&to_bytes(&DECLARATIONS), text.as_bytes()).unwrap());
    assert_eq!(counts(&nested(1_023)).unwrap()[Section::Terms], 1_024);
    assert_eq!(answer(&nested(1_024)), (16, 0));
    // f33 takes 1,024 truth values, so that many links are there and as many more fit.
    let mut words = vec![1, 1, 1, 0, 1_024, 0, 0, 0, 0, 0, 1, 0];
    words.extend((1..=1_024).flat_map(|link| [0, if link == 1_024 { 0 } else { link + 1 }]));
    let declarations = to_bytes(&words);
    let wide = format!("(f33{})", " v1".repeat(1_024));
    let file = job(&declarations, wide.as_bytes()).unwrap();
    assert_eq!(counts_of(&file).unwrap()[Section::Links], 2_048);
    assert_eq!(answer_to(&declarations, format!("(not {wide})").as_bytes()), (16, 0));
    assert_eq!(answer_to(&declarations, format!("(exists ((v1 Bool)) {wide})").as_bytes()), (0, 0));
    let many = format!("(forall ({}) v1)", "(v1 Bool)".repeat(1_023));
    assert_eq!(answer_to(&declarations, many.as_bytes()), (0, 0));
    let many = format!("(forall ({}) v1)", "(v1 Bool)".repeat(1_024));
    assert_eq!(answer_to(&declarations, many.as_bytes()), (16, 0));
}

/// Every text of a few lexemes, and every text of a few bytes, goes to both readers.
#[test]
fn every_short_text() {
    let declarations = to_bytes(&DECLARATIONS);
    let every = |parts: &[&str], most: usize| {
        let mut texts = vec![String::new()];
        let mut level = texts.clone();
        for _ in 0..most {
            level = level
                .iter()
                .flat_map(|text| parts.iter().map(move |part| text.clone() + part))
                .collect();
            texts.extend(level.iter().cloned());
        }
        for text in &texts {
            answer_to(&declarations, text.as_bytes());
        }
        texts.len()
    };
    let lexemes = ["(", ")", "not ", "v2 ", "f34 ", "let ", "v1", " Item", "= "];
    assert_eq!(every(&lexemes, 5), 66_430);
    let bytes = ["(", ")", " ", "v", "2", "=", ">", ";", "\r"];
    assert_eq!(every(&bytes, 5), 66_430);
    // What starts a binder, and then anything.
    for start in ["(let((v2 ", "(forall((v1 ", "(exists((v2 Bool)", "(f34 v1 ", "(=> v2"] {
        for end in ["", "v2", ")", "v2)", "Item)", "Bool", "(v1 f33)", ")v2", ")true)", "Item))v2)"]
        {
            for last in ["", ")", "))", "))v2)", ")v2)", " ;", "|"] {
                answer_to(&declarations, format!("{start}{end}{last}").as_bytes());
            }
        }
    }
}
