//! Damage to texts: a lexeme or a part of a formula changed, so that the text is often
//! nearly right, and bytes changed, cut and doubled.

use crate::rng::Rng;

/// What a lexeme may be replaced by: words, brackets, and what the grammar has not.
const OTHERS: [&str; 35] = [
    "(",
    ")",
    "true",
    "false",
    "not",
    "and",
    "or",
    "=>",
    "=",
    "forall",
    "exists",
    "choice",
    "let",
    "Bool",
    "Item",
    "Boolean",
    "Int",
    "item",
    "tru",
    "truex",
    "le",
    "lets",
    "==",
    "xor",
    "ite",
    "distinct",
    "!",
    "_",
    ":named",
    "7",
    "|v1|",
    "\"a\"",
    "#b1",
    "~+-*/<>.?@$%^&",
    "é",
];

/// Names that are not declared, most of them nearly; v65 and v256 are in some files.
const STRANGE: [&str; 16] = [
    "v",
    "f",
    "v0",
    "v01",
    "v00",
    "f033",
    "f32",
    "f97",
    "v65",
    "v256",
    "v257",
    "v4294967297",
    "f4294967329",
    "v18446744073709551617",
    "V1",
    "v1a",
];

fn is_name(lexeme: &str) -> bool {
    let mut bytes = lexeme.bytes();
    matches!(bytes.next(), Some(b'v' | b'f')) && bytes.next().is_some_and(|b| b.is_ascii_digit())
}

/// The place after the term that starts at a lexeme.
fn end_of(lexemes: &[String], start: usize) -> usize {
    let mut depth = 0usize;
    for (place, lexeme) in lexemes.iter().enumerate().skip(start) {
        match lexeme.as_str() {
            "(" => depth += 1,
            ")" => depth = depth.saturating_sub(1),
            _ => {}
        }
        if depth == 0 {
            return place + 1;
        }
    }
    lexemes.len()
}

fn some_place(rng: &mut Rng, lexemes: &[String]) -> usize {
    rng.below(lexemes.len() as u32) as usize
}

/// A place whose lexeme is as asked.
fn place_of(rng: &mut Rng, lexemes: &[String], asked: impl Fn(&str) -> bool) -> Option<usize> {
    let places: Vec<usize> =
        (0..lexemes.len()).filter(|&place| asked(lexemes[place].as_str())).collect();
    rng.pick(&places).copied()
}

/// A part of a formula, as its first and the place after its last lexeme.
fn some_part(rng: &mut Rng, lexemes: &[String]) -> Option<(usize, usize)> {
    let start = place_of(rng, lexemes, |lexeme| lexeme == "(" || is_name(lexeme))?;
    Some((start, end_of(lexemes, start)))
}

/// A fault of sorts, counts or repeats, more often than not.
pub fn missort(rng: &mut Rng, lexemes: &mut Vec<String>) {
    let name = |rng: &mut Rng, lexemes: &[String]| place_of(rng, lexemes, is_name);
    match rng.below(10) {
        // Another declared name.
        0..4 => {
            let (Some(from), Some(to)) = (name(rng, lexemes), name(rng, lexemes)) else { return };
            lexemes[to] = lexemes[from].clone();
        }
        4 => {
            let sort = |lexeme: &str| lexeme == "Bool" || lexeme == "Item";
            let Some(place) = place_of(rng, lexemes, sort) else { return };
            lexemes[place] = if lexemes[place] == "Bool" { "Item" } else { "Bool" }.into();
        }
        // A part twice: an argument too many, or a pair of a binder repeated.
        5 => double_part(rng, lexemes),
        6 => {
            let Some((start, end)) = some_part(rng, lexemes) else { return };
            lexemes.drain(start..end);
        }
        // A part in another's place.
        7 | 8 => {
            let (Some(from), Some(to)) = (some_part(rng, lexemes), some_part(rng, lexemes)) else {
                return;
            };
            let part = lexemes[from.0..from.1].to_vec();
            lexemes.splice(to.0..to.1, part);
        }
        // The whole is an item.
        _ => *lexemes = ["f33".to_string()].into(),
    }
}

fn double_part(rng: &mut Rng, lexemes: &mut Vec<String>) {
    let Some((start, end)) = some_part(rng, lexemes) else { return };
    let part = lexemes[start..end].to_vec();
    lexemes.splice(end..end, part);
}

/// A fault in the lexemes.
pub fn spoil_lexemes(rng: &mut Rng, lexemes: &mut Vec<String>) {
    if lexemes.is_empty() {
        return;
    }
    let place = some_place(rng, lexemes);
    match rng.below(20) {
        0..3 => missort(rng, lexemes),
        3..5 => {
            let other = some_place(rng, lexemes);
            lexemes.swap(place, other);
        }
        5..7 => {
            lexemes.remove(place);
        }
        7 => lexemes.insert(place, lexemes[place].clone()),
        8..11 => lexemes[place] = rng.one_of(OTHERS).into(),
        11 => lexemes.insert(place, rng.one_of(OTHERS).into()),
        12..14 => lexemes[place] = rng.one_of(STRANGE).into(),
        // A name off by one.
        14..16 => {
            let Some(place) = place_of(rng, lexemes, is_name) else { return };
            let (letter, digits) = lexemes[place].split_at(1);
            let number: u64 = digits.parse().unwrap_or(1);
            let off = rng.one_of([1, 2, 32, 64, 256, 1 << 32]);
            let number = if rng.chance(60) { number + off } else { number.saturating_sub(off) };
            lexemes[place] = format!("{letter}{number}");
        }
        // v for f, or f for v.
        16 => {
            let Some(place) = place_of(rng, lexemes, is_name) else { return };
            let (letter, digits) = lexemes[place].split_at(1);
            lexemes[place] = format!("{}{digits}", if letter == "v" { "f" } else { "v" });
        }
        // Two runs grown together.
        17 if place + 1 < lexemes.len() => {
            let next = lexemes.remove(place + 1);
            lexemes[place].push_str(&next);
        }
        18 => double_part(rng, lexemes),
        // One more bracket around a part, with a head or without.
        _ => {
            let Some((start, end)) = some_part(rng, lexemes) else { return };
            lexemes.insert(end, ")".into());
            let head = rng.one_of(["not", "f33", "v1", "and", "", "let", "forall"]);
            if !head.is_empty() {
                lexemes.insert(start, head.into());
            }
            lexemes.insert(start, "(".into());
        }
    }
}

/// A fault in the bytes.
pub fn spoil_bytes(rng: &mut Rng, text: &mut Vec<u8>) {
    let place = rng.below(text.len() as u32 + 1) as usize;
    let inside = place < text.len();
    let any = rng.next_u32() as u8;
    let some = rng.one_of([b'(', b')', b';', b' ', 10, 11, 12, 13, b'|', b'a', b'7', b'/', any]);
    match rng.below(9) {
        0 | 1 => text.insert(place, some),
        2 if inside => text[place] = some,
        3 if inside => {
            text.remove(place);
        }
        4 if inside => text[place] ^= 1 << rng.below(8),
        5 if inside => {
            let end = (place + 1 + rng.below(12) as usize).min(text.len());
            let part = text[place..end].to_vec();
            text.splice(place..place, part);
        }
        6 if place + 1 < text.len() => text.swap(place, place + 1),
        7 => {
            let end = (place + 1 + rng.below(12) as usize).min(text.len());
            text.drain(place..end);
        }
        _ => text.truncate(place),
    }
}

/// Bytes of a text, and lexemes one after another, at random.
pub fn random_text(rng: &mut Rng) -> Vec<u8> {
    let mut text = Vec::new();
    let bytes = rng.chance(30);
    for _ in 0..rng.below(24) {
        let any = rng.next_u32() as u8;
        if bytes {
            text.push(rng.one_of([b'(', b')', b' ', b';', 10, 13, b'v', b'1', b'=', b'>', any]));
            continue;
        }
        let name = rng.one_of(["v1", "v2", "v65", "f33", "f34", "f35"]);
        let word = match rng.below(4) {
            0 => rng.one_of(OTHERS),
            1 => rng.one_of(["(", "(", ")", "not", "true"]),
            2 => rng.one_of(STRANGE),
            _ => name,
        };
        text.extend(word.as_bytes());
        if rng.chance(60) {
            text.push(b' ');
        }
    }
    text
}
