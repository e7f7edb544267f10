//! The comparison of the pairs that REFL's walk visits (Req 04), of walks taken from the files
//! of the comparison of checks: each is put into files at the limit and one pair past it,
//! which tell its count by the check's answer alone.

use crate::answer::{Ending, Packed, Reason, number};
use crate::bundle::{MAX_SETS, Section, counts_of, to_words};
use crate::check;
use crate::compare::Checker;
use crate::generate::derive::REFL;
use crate::naive;
use crate::padding::Question;
use crate::rng::Rng;
use std::fmt;

/// The kind of a term that is a variable.
const VARIABLE: u32 = 1;

/// Of so many files in a hundred, walks are compared.
const SHARE: u32 = 30;

/// The walks to compare: one of a REFL step whose sides differ, one of any step, and the one
/// of the REFL step that the check's answer refuses, as contexts and sides.
pub fn walks(file: &[u8], answer: u64, index: u64) -> Vec<(u32, [u32; 2])> {
    let mut rng = Rng::new(index ^ 4);
    let sound = [0, Reason::Step.number(), Reason::Rule.number(), Reason::Side.number()]
        .into_iter()
        .chain([Reason::Claim.number(), Reason::Spent.number(), Reason::Stray.number()]);
    let Some(counts) = counts_of(file).filter(|_| sound.into_iter().any(|n| n == number(answer)))
    else {
        return Vec::new();
    };
    if !rng.chance(SHARE) {
        return Vec::new();
    }
    let words = to_words(file);
    let steps: Vec<[u32; 4]> = (1..=counts[Section::Steps])
        .map(|step| [0, 1, 2, 3].map(|field| words[counts.place(Section::Steps, step, field)]))
        .collect();
    // Not those from a variable to its image, which are in every file.
    let is_compound = |term: u32| {
        (1..=counts[Section::Terms]).contains(&term)
            && words[counts.place(Section::Terms, term, 0)] != VARIABLE
    };
    let is_walked =
        |&&[rule, _, left, right]: &&[u32; 4]| rule == REFL && left != right && is_compound(left);
    let walked: Vec<[u32; 4]> = steps.iter().filter(is_walked).copied().collect();
    let refused = (answer as u32 as usize).checked_sub(1).filter(|_| number(answer) != 0);
    let refused = refused.and_then(|place| steps.get(place)).filter(|step| step[0] == REFL);
    let mut found: Vec<(u32, [u32; 2])> = [rng.pick(&walked), rng.pick(&steps), refused]
        .into_iter()
        .flatten()
        .map(|&[_, context, left, right]| (context, [left, right]))
        .collect();
    found.dedup();
    found
}

/// The walks that were compared.
#[derive(Clone, Debug, Default)]
pub struct Pairs {
    /// By ending: same, differs, spent.
    walks: [u64; 3],
    /// Their pairs.
    pairs: [u64; 3],
    /// Files that were made of them.
    files: u64,
    /// Walks whose sides are stray.
    stray: u64,
    /// Walks whose files would pass a limit, in part or all.
    no_room: u64,
    /// Walks that went to the plain reading too.
    plain: u64,
}

impl Pairs {
    /// What differs at a walk, if something does: the answers of the checkers to the files
    /// that are made of it, and the count of the plain reading where it is asked.
    pub fn problem(
        &mut self,
        checkers: &[(&str, Checker)],
        plain: bool,
        file: &[u8],
        (context, sides): (u32, [u32; 2]),
    ) -> Option<String> {
        let walk = check::walk(file, context, sides)?;
        let what = format!("walk {context} {} {}", sides[0], sides[1]);
        let ending = match walk.ending {
            Ending::Same => 0,
            Ending::Differs => 1,
            Ending::Spent => 2,
        };
        self.walks[ending] += 1;
        self.pairs[ending] += u64::from(walk.pairs);
        if plain {
            self.plain += 1;
            let other = naive::walk(file, context, sides);
            if other != Some(walk) {
                return Some(format!("{what}: {walk} against {other:?} from the plain reading"));
            }
        }
        let question = Question::new(file, context, sides)?;
        let expected = question.expected(walk);
        self.files += expected.len() as u64;
        self.stray += u64::from(question.is_stray());
        self.no_room += u64::from(expected.len() < question.all_files(walk));
        let mut free = [0; MAX_SETS];
        for (file, answer) in expected {
            for (name, check) in checkers {
                let found = check(&file, &mut free);
                if found != answer {
                    let (found, answer) = (Packed(found), Packed(answer));
                    return Some(format!("{what}: {walk}, but {name} says {found}, not {answer}"));
                }
            }
        }
        None
    }

    /// The endings, as 0, 13 and 21, seen fewer than `least` times.
    pub fn unseen(&self, least: u64) -> Vec<u32> {
        [0, Reason::Rule.number(), Reason::Spent.number()]
            .into_iter()
            .zip(self.walks)
            .filter(|(_, seen)| *seen < least)
            .map(|(number, _)| number)
            .collect()
    }
}

impl fmt::Display for Pairs {
    fn fmt(&self, out: &mut fmt::Formatter<'_>) -> fmt::Result {
        let [same, differ, spent] = self.walks;
        let [same_pairs, differ_pairs, _] = self.pairs;
        writeln!(
            out,
            "{} walks of REFL compared by {} files, at the limit and past it: {same} with no \
             difference, {same_pairs} pairs, {differ} with one, {differ_pairs} pairs, and {spent} \
             spent; {} with a free variable that no entry mentions; {} without room for all \
             their files; {} of all also with the plain reading",
            same + differ + spent,
            self.files,
            self.stray,
            self.no_room,
            self.plain
        )
    }
}
