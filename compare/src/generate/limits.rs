//! Files whose sections are filled to their limits, or one record past.

use super::builder::{Builder, EXISTS, FOR_ALL, TRUTH};
use super::derive::{Care, Derivation, REFL};
use crate::bundle::Section;
use crate::rng::Rng;

/// What a small derivation may still need, in the file's order of sections.
const KEPT_FREE: [u32; 6] = [0, 24, 300, 600, 120, 220];

/// A derivation in a file with some sections full: one, several or all; where
/// `past`, one section has one record too many.
pub fn filled(rng: Rng, past: bool) -> Vec<u32> {
    let mut builder = Builder::new(rng, 100);
    let full: Vec<Section> = match builder.rng.below(4) {
        0 => Section::ALL.to_vec(),
        1 => Section::ALL.into_iter().filter(|_| builder.rng.chance(40)).collect(),
        _ => vec![builder.rng.one_of(Section::ALL)],
    };
    let overfull = past.then(|| builder.rng.one_of(Section::ALL));

    builder.random_signature();
    // With the filling first, the derivation uses the highest numbers.
    if builder.rng.chance(60) {
        for (section, kept) in Section::ALL.into_iter().zip(KEPT_FREE) {
            if full.contains(&section) {
                fill(&mut builder, section, section.limit() - kept);
            }
        }
    }
    let depth = builder.rng.between(1, 3);
    let term = builder.random_term(TRUTH, depth);
    let mut derivation = Derivation::new(&mut builder, Care::Full);
    derivation.lemmas(1);
    derivation.claim(term);
    let claimed = builder.count(Section::Steps);
    for section in Section::ALL {
        let target = section.limit() + u32::from(overfull == Some(section));
        if !full.contains(&section) && overfull != Some(section) {
            continue;
        }
        if section == Section::Steps {
            fill(&mut builder, section, target - 1);
            builder.repeat_step(claimed);
        } else {
            fill(&mut builder, section, target);
        }
    }
    builder.claim_last()
}

/// Adds sound records that nothing needs until a section has `target`.
pub fn fill(builder: &mut Builder, section: Section, target: u32) {
    let mut last = None;
    while builder.count(section) < target {
        let sort = builder.rng.below(2);
        match section {
            Section::Symbols => {
                builder.symbol(sort, &[]);
            }
            Section::Variables => {
                builder.variable(sort);
            }
            Section::Terms => {
                let body = match last {
                    Some(body) => body,
                    None => builder.apply(1, &[]),
                };
                let variable = some_variable(builder);
                let kind = builder.rng.one_of([FOR_ALL, EXISTS]);
                last = Some(builder.bind(kind, variable, body));
            }
            Section::Links => {
                let value = builder.rng.next_u32();
                builder.spare_link(value);
            }
            Section::Contexts => {
                let parent = builder.rng.below(builder.count(Section::Contexts) + 1);
                let variable = some_variable(builder);
                builder.fix(variable, parent);
            }
            Section::Steps => {
                let truth = builder.apply(1, &[]);
                builder.add_step(REFL, 0, truth, truth, &[]);
            }
        }
    }
}

fn some_variable(builder: &mut Builder) -> u32 {
    let count = builder.count(Section::Variables);
    builder.rng.between(1, count)
}
