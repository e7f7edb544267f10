//! How many links CONG's test reads at a step (Req 03), in any file with a sound header.

use super::contexts::Contexts;
use super::steps::{CONG, Side, Step, cong_walk, walk_of};
use super::{Header, Lists, Tables, records};
use crate::answer::{Reason, Refusal, Walk};
use crate::bundle::{Counts, Section, to_words};
use crate::fault::{Exact, Rules};

/// The kind of a term that is an application.
const APPLICATION: u32 = 2;

/// The walk of the CONG step of this number; refused by 1 to 3, or by 12 where there
/// is no such step. It is the checker's own where the tables and the step's references
/// are sound.
pub fn links(file: &[u8], number: usize) -> Result<Walk, Refusal> {
    links_with(Exact, file, number)
}

/// The walk by the given rules: the exact ones in [`links`].
pub(crate) fn links_with<R: Rules>(rules: R, file: &[u8], number: usize) -> Result<Walk, Refusal> {
    let counts = Header::read(rules, file, |_| true)?.counts;
    let words = to_words(file);
    let steps = Step::all(records(&words, &counts, Section::Steps).as_chunks().0);
    let Some(step) = steps.get(number).filter(|step| step.rule == CONG) else {
        return Err(Refusal::whole(Reason::Step));
    };
    let checked = Tables::decode(rules, file, |_| true).and_then(|tables| {
        let contexts = Contexts::decode(rules, &tables)?;
        Ok(walk_of(rules, &tables, &contexts, number as u32))
    });
    Ok(match checked {
        Ok(Some(walk)) => walk,
        _ => walk_of_records(rules, &words, &counts, &steps, step),
    })
}

/// The walk over records as they are: a number that is none reads as zeros, a start
/// over L as the empty list.
fn walk_of_records<R: Rules>(
    rules: R,
    words: &[u32],
    counts: &Counts,
    steps: &[Step],
    step: &Step,
) -> Walk {
    let (lists, _) = Lists::read(records(words, counts, Section::Links).as_chunks().0);
    let terms = records(words, counts, Section::Terms).as_chunks::<4>().0;
    let start = |list: u32| if lists.starts(list) { list } else { 0 };
    let sides = [step.left, step.right].map(|side| {
        let place = (side as usize).checked_sub(1)?;
        match *terms.get(place)? {
            [APPLICATION, symbol, arguments, _] => {
                Some(Side { symbol, arguments: start(arguments) })
            }
            _ => None,
        }
    });
    let step = Step { premises: start(step.premises), ..*step };
    cong_walk(rules, &lists, steps, &step, sides, |one, other| one == other)
}

#[cfg(test)]
mod tests {
    use super::*;
    use crate::generate::case;

    /// The checker's own walk, on its tables, is the one over the records.
    #[test]
    fn the_two_walks_agree() {
        let mut walks = [0, 0];
        for index in 0..5_000 {
            let file = case(9, index).bytes;
            let Ok(tables) = Tables::decode(Exact, &file, |_| true) else { continue };
            let Ok(contexts) = Contexts::decode(Exact, &tables) else { continue };
            let Header { counts, .. } = tables.header;
            let steps = Step::all(tables.section(Section::Steps).as_chunks().0);
            for (number, step) in (0..).zip(&steps).filter(|(_, step)| step.rule == CONG) {
                let Some(walk) = walk_of(Exact, &tables, &contexts, number) else { continue };
                let other = walk_of_records(Exact, &tables.words, &counts, &steps, step);
                assert_eq!(walk, other, "file {index}, step {number}");
                walks[usize::from(walk.passes)] += 1;
            }
        }
        assert!(walks[0] >= 100 && walks[1] >= 5_000, "{walks:?}");
    }
}
