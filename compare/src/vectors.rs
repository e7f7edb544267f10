//! Cases with answers, one a line: `CALL = ANSWER`. The format is that of
//! shared/vectors/README.md; a call that is not here yet is an error of its line.

use crate::answer::Reason;
use crate::bundle::{LEFT, RIGHT, to_bytes, to_words};
use crate::compare::{self, Checker};
use crate::compare_links::Counter;
use crate::compare_reader::{self, Reader};
use crate::compare_writer::{self, Areas, Writer};
use crate::expand::Names;
use crate::padding::Question;
use std::collections::BTreeMap;
use std::fmt;

/// The plain reading's longest text: it calls itself as deep as a text is nested.
pub const SHORT: usize = 8_000;

/// A call with its inputs and the lengths of its areas.
#[derive(Clone, Debug, PartialEq, Eq)]
pub enum Call {
    Check { lent: usize, file: Vec<u8> },
    Sets { lent: usize, file: Vec<u8> },
    Write { names: Names, lengths: [usize; 3], job: Vec<u8> },
    Read { lengths: [usize; 3], declarations: Vec<u8>, text: Vec<u8> },
    Links { step: usize, file: Vec<u8> },
    Walk { context: u32, sides: [u32; 2], file: Vec<u8> },
}

/// One of those who are held to the lines, with its calls.
#[allow(missing_debug_implementations)]
#[derive(Clone, Copy)]
pub struct Party<'a> {
    pub name: &'a str,
    pub check: Checker<'a>,
    pub expand: Writer<'a>,
    pub read: Reader<'a>,
    pub links: Counter<'a>,
    /// Longer texts are not given to its reader; the report names their lines.
    pub longest_text: usize,
}

impl Call {
    fn parse(line: &str) -> Result<Call, String> {
        let words: Vec<&str> = line.split(' ').collect();
        match words[..] {
            ["check", lent, file] => Ok(Call::Check { lent: number(lent)?, file: bytes(file)? }),
            ["sets", lent, file] => Ok(Call::Sets { lent: number(lent)?, file: bytes(file)? }),
            ["write", names, out, words, sets, job] => {
                let names = match names {
                    "keep" => Names::Keep,
                    "rename" => Names::RenameAll,
                    _ => return Err(format!("there is no such choice of names: {names}")),
                };
                let lengths = [number(out)?, number(words)?, number(sets)?];
                Ok(Call::Write { names, lengths, job: bytes(job)? })
            }
            ["read", out, words, sets, declarations, text] => Ok(Call::Read {
                lengths: [number(out)?, number(words)?, number(sets)?],
                declarations: bytes(declarations)?,
                text: bytes(text)?,
            }),
            ["links", step, file] => Ok(Call::Links { step: number(step)?, file: bytes(file)? }),
            ["walk", context, left, right, file] => {
                let [context, left, right] = [number(context)?, number(left)?, number(right)?]
                    .map(|number| u32::try_from(number).unwrap_or(u32::MAX));
                Ok(Call::Walk { context, sides: [left, right], file: bytes(file)? })
            }
            _ => Err(format!("there is no such call here: {}", words[0])),
        }
    }

    fn name(&self) -> &'static str {
        match self {
            Call::Check { .. } => "check",
            Call::Sets { .. } => "sets",
            Call::Write { names: Names::Keep, .. } => "write keep",
            Call::Write { names: Names::RenameAll, .. } => "write rename",
            Call::Read { .. } => "read",
            Call::Links { .. } => "links",
            Call::Walk { .. } => "walk",
        }
    }

    /// What a party answers, and what is wrong with the areas that it leaves; `None`
    /// where the text is too long for it, or a walk's file has no room for what tells its
    /// pairs.
    fn ask(&self, party: Party, junk: u64) -> Option<(String, Option<&'static str>)> {
        match self {
            Call::Check { lent, file } => {
                let (answer, area) = compare::call(party.check, file, *lent, junk);
                if answer >> 32 != 0 {
                    let dirty = area.iter().any(|&word| word != 0);
                    return Some((refused(answer), dirty.then_some("the area is not zero")));
                }
                let words = to_words(file);
                Some((format!("accepted {} {} {answer}", words[LEFT], words[RIGHT]), None))
            }
            Call::Sets { lent, file } => {
                let (_, area) = compare::call(party.check, file, *lent, junk);
                let used = area.iter().rposition(|&word| word != 0).map_or(0, |last| last + 1);
                let sets: Vec<String> =
                    area[..used].iter().map(|word| format!("{word:016x}")).collect();
                Some((if used == 0 { "-".into() } else { sets.join(" ") }, None))
            }
            Call::Write { names, lengths, job } => {
                Some(written(compare_writer::call(party.expand, job, *names, *lengths, junk)))
            }
            Call::Read { lengths, declarations, text } => {
                (text.len() <= party.longest_text).then(|| {
                    let read = party.read;
                    written(compare_reader::call(read, declarations, text, *lengths, junk))
                })
            }
            Call::Links { step, file } => Some((counted((party.links)(file, *step)), None)),
            Call::Walk { context, sides, file } => {
                let walk = Question::new(file, *context, *sides)?.measure(party.check)?;
                Some((walk.map_or_else(refused, |walk| walk.to_string()), None))
            }
        }
    }
}

/// The answer of a call that writes a file, and what is wrong with its areas.
fn written((answer, areas): (u64, Areas)) -> (String, Option<&'static str>) {
    let Areas { mut out, words, sets } = areas;
    let length = if answer >> 32 == 0 { (answer as usize).min(out.len()) } else { 0 };
    let clear = |bytes: &[u8]| bytes.iter().all(|&byte| byte == 0);
    let problem = if !clear(&out[length..]) {
        Some("the output is not zero after the file")
    } else if words.iter().any(|&word| word != 0) || sets.iter().any(|&set| set != 0) {
        Some("the scratch is not zero")
    } else {
        None
    };
    if answer >> 32 != 0 {
        return (refused(answer), problem);
    }
    out.truncate(length);
    (format!("written {}", spelled(&out)), problem)
}

/// How many links were read: exactly so many where the test passes.
fn counted(answer: u64) -> String {
    let links = answer & 0xffff_ffff;
    match answer >> 32 {
        0 => format!("exactly {links}"),
        13 => format!("at-most {links}"),
        _ => refused(answer),
    }
}

/// Whether what was found is the answer. Fewer links than `at-most` gives are, too.
fn meets(found: &str, answer: &str) -> bool {
    let most = |text: &str| text.strip_prefix("at-most ")?.parse::<u64>().ok();
    match (most(found), most(answer)) {
        (Some(links), Some(most)) => links <= most,
        _ => found == answer,
    }
}

/// Number and record. A byte of 2^32 or more is none of a vector's.
fn refused(answer: u64) -> String {
    format!("refused {} {}", answer >> 32, answer & 0xffff_ffff)
}

fn number(word: &str) -> Result<usize, String> {
    word.parse().map_err(|_| format!("not a number: {word}"))
}

/// Bytes as the README spells them.
fn bytes(word: &str) -> Result<Vec<u8>, String> {
    let bad = || format!("not bytes: {}", word.chars().take(40).collect::<String>());
    if word == "-" {
        return Ok(Vec::new());
    }
    if let Some(words) = word.strip_prefix('w') {
        let words: Option<Vec<u32>> = words.split(',').map(|word| word.parse().ok()).collect();
        return words.map(|words| to_bytes(&words)).ok_or_else(bad);
    }
    let hex = |pair: &[u8]| {
        let pair = str::from_utf8(pair).ok().filter(|pair| pair.len() == 2)?;
        u8::from_str_radix(pair, 16).ok()
    };
    let Some(text) = word.strip_prefix('t') else {
        let bytes: Option<Vec<u8>> = word.as_bytes().chunks(2).map(hex).collect();
        return bytes.ok_or_else(bad);
    };
    let mut parts = text.split('%');
    let mut found = parts.next().unwrap_or_default().as_bytes().to_vec();
    for part in parts {
        let (pair, rest) = part.as_bytes().split_at_checked(2).ok_or_else(bad)?;
        found.push(hex(pair).ok_or_else(bad)?);
        found.extend(rest);
    }
    Ok(found)
}

/// A file as words.
fn spelled(file: &[u8]) -> String {
    let words: Vec<String> = to_words(file).iter().map(u32::to_string).collect();
    if words.is_empty() { "-".into() } else { format!("w{}", words.join(",")) }
}

/// Later answers of the lines of `file` (as `req01`), by line from 1, for the requests up
/// to `until`.
pub fn moves(text: &str, file: &str, until: u32) -> Result<BTreeMap<usize, String>, String> {
    let mut moved = BTreeMap::new();
    let mut request = 0;
    for line in text.lines() {
        if let Some(heading) = line.strip_prefix("# == Req ") {
            request = number(heading)? as u32;
        }
        let Some((place, answer)) = line.split_once(" = ").filter(|_| !line.starts_with('#'))
        else {
            continue;
        };
        let Some((name, place)) = place.split_once(' ') else {
            return Err(format!("not a move: {line}"));
        };
        if name == file && request <= until {
            moved.insert(number(place)?, answer.to_string());
        }
    }
    Ok(moved)
}

/// What was held to the lines of a file.
#[derive(Clone, Debug, Default)]
pub struct Report {
    pub cases: usize,
    /// Lines whose answer was moved by a later request.
    pub moved: usize,
    /// Cases that a party answered, by its name and the call.
    pub answered: BTreeMap<(String, &'static str), usize>,
    /// The lines, from 1, that it was not held to, by its name.
    pub left_out: BTreeMap<String, Vec<usize>>,
    pub differences: Vec<String>,
}

/// Holds the parties to every line of a file.
pub fn run(text: &str, moved: &BTreeMap<usize, String>, parties: &[Party]) -> Report {
    let mut report = Report::default();
    for (place, line) in (1..).zip(text.lines()) {
        if line.is_empty() || line.starts_with('#') {
            continue;
        }
        report.cases += 1;
        let case = line.split_once(" = ").ok_or_else(|| "a line without an answer".to_string());
        let parsed = case.and_then(|(call, answer)| Ok((Call::parse(call)?, answer)));
        match parsed {
            Ok((call, answer)) => {
                let answer = moved.get(&place).map_or(answer, String::as_str);
                report.moved += usize::from(moved.contains_key(&place));
                report.hold(place, &call, answer, parties);
            }
            Err(text) => report.differences.push(format!("line {place}: {text}")),
        }
    }
    report
}

impl Report {
    fn hold(&mut self, place: usize, call: &Call, answer: &str, parties: &[Party]) {
        for &party in parties {
            let name = party.name.to_string();
            let Some((found, problem)) = call.ask(party, place as u64) else {
                self.left_out.entry(name).or_default().push(place);
                continue;
            };
            *self.answered.entry((name, call.name())).or_default() += 1;
            if !meets(&found, answer) {
                let (found, answer) = (shortened(&found), shortened(answer));
                let text = format!("line {place}: {} says {found}, not {answer}", party.name);
                self.differences.push(text);
            }
            if let Some(problem) = problem {
                self.differences.push(format!("line {place}: {}: {problem}", party.name));
            }
        }
    }

    pub fn agrees(&self) -> bool {
        self.differences.is_empty()
    }
}

fn shortened(answer: &str) -> String {
    const MOST: usize = 300;
    if answer.len() <= MOST { answer.into() } else { format!("{}...", &answer[..MOST]) }
}

impl fmt::Display for Report {
    fn fmt(&self, out: &mut fmt::Formatter<'_>) -> fmt::Result {
        writeln!(out, "{} cases, {} with a later answer", self.cases, self.moved)?;
        for ((party, call), count) in &self.answered {
            writeln!(out, "{party}: {count} of {call}")?;
        }
        for (party, lines) in &self.left_out {
            writeln!(
                out,
                "{party}: NOT held to lines {lines:?}: too long a text, or no room in the file"
            )?;
        }
        for difference in &self.differences {
            writeln!(out, "DIFFERENCE: {difference}")?;
        }
        Ok(())
    }
}

/// The numbers that the vectors of a file answer, for a test that all are there.
pub fn refusals(text: &str) -> Vec<u32> {
    let mut numbers: Vec<u32> = text
        .lines()
        .filter_map(|line| line.rsplit_once(" = refused ")?.1.split(' ').next()?.parse().ok())
        .filter(|&number| number <= Reason::Stray.number())
        .collect();
    numbers.sort_unstable();
    numbers.dedup();
    numbers
}

#[cfg(test)]
mod tests {
    use super::*;

    #[test]
    fn bytes_are_read_as_the_readme_says() {
        assert_eq!(bytes("-"), Ok(vec![]));
        assert_eq!(bytes("w1,258"), Ok(vec![1, 0, 0, 0, 2, 1, 0, 0]));
        assert_eq!(bytes("t(a%20%ff%25)"), Ok(b"(a \xff%)".to_vec()));
        assert_eq!(bytes("01ff"), Ok(vec![1, 255]));
        assert!(bytes("w1,x").is_err() && bytes("t%2").is_err() && bytes("012").is_err());
    }

    #[test]
    fn moves_of_later_requests() {
        let text = "# == Req 02\nreq01 5 = refused 4 0\nreq02 6 = -\n# == Req 05\nreq01 7 = a b\n";
        let found = moves(text, "req01", 2).unwrap();
        assert_eq!(found.into_iter().collect::<Vec<_>>(), [(5, "refused 4 0".to_string())]);
        assert_eq!(moves(text, "req01", 5).unwrap().len(), 2);
        assert!(moves(text, "req01", 1).unwrap().is_empty());
    }

    /// A text that is too long for one party is held to by the others, and its line named.
    #[test]
    fn left_out_lines_are_named() {
        let party = |name, longest_text| Party {
            name,
            check: &|_, _| 1 << 32,
            expand: &|_, _, _, _, _| 1 << 32,
            read: &|_, _, out: &mut [u8], _: &mut [u32], _: &mut [u64]| {
                out.fill(0);
                1 << 32
            },
            links: &|_, _| 1 << 32,
            longest_text,
        };
        let text =
            "# a comment\nread 3 0 0 - ttrue = refused 1 0\nread 3 0 0 - t(( = refused 1 0\n";
        let report = run(text, &BTreeMap::new(), &[party("all", 9), party("few", 3)]);
        assert!(report.agrees(), "{report}");
        assert_eq!(report.answered.values().copied().collect::<Vec<_>>(), [2, 1]);
        assert!(report.to_string().contains("few: NOT held to lines [2]"), "{report}");
    }

    /// A count has to be the one where the test passes, and no more where it fails.
    #[test]
    fn counts_of_links() {
        let failed = |links: u64| (13 << 32) + links;
        let said = |answer: u64| counted(answer);
        assert!(meets(&said(6), "exactly 6") && !meets(&said(5), "exactly 6"));
        assert!(meets(&said(failed(6)), "at-most 6") && meets(&said(failed(0)), "at-most 6"));
        assert!(!meets(&said(failed(7)), "at-most 6"));
        assert!(!meets(&said(6), "at-most 6") && !meets(&said(failed(6)), "exactly 6"));
        assert!(!meets(&said(12 << 32), "at-most 6") && !meets(&said(1 << 32), "exactly 0"));
    }

    #[test]
    fn other_calls_are_named() {
        let text = "cut 7 2 = 3 1\nnonsense\nwrite none 0 0 0 - = refused 1 0\n";
        let report = run(text, &BTreeMap::new(), &[]);
        assert_eq!(report.differences.len(), 3);
        assert!(report.to_string().contains("no such call here: cut"), "{report}");
        assert!(report.to_string().contains("no such choice of names: none"), "{report}");
    }

    /// A line's choice is handed on.
    #[test]
    fn each_line_has_its_choice() {
        let party = Party {
            name: "a",
            check: &|_, _| 1 << 32,
            expand: &|_, names, _, _, _| match names {
                Names::Keep => 4 << 32,
                Names::RenameAll => 5 << 32,
            },
            read: &|_, _, _, _, _| 1 << 32,
            links: &|_, _| 1 << 32,
            longest_text: 0,
        };
        let differences = |keep: u32, rename: u32| {
            let text = format!(
                "write keep 0 0 0 - = refused {keep} 0\nwrite rename 0 0 0 - = refused {rename} 0\n"
            );
            let report = run(&text, &BTreeMap::new(), &[party]);
            let calls: Vec<&str> = report.answered.keys().map(|(_, call)| *call).collect();
            assert_eq!(calls, ["write keep", "write rename"]);
            report.differences.len()
        };
        assert_eq!([differences(4, 5), differences(5, 4)], [0, 2]);
    }
}
