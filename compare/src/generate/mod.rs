//! Seeded files for the comparison: file `index` of run `seed` is always the
//! same.

pub mod builder;
pub mod derive;
pub mod examples;
pub mod jobs;
pub mod large;
pub mod limits;
pub mod printing;
pub mod replace;
pub mod skolem;
pub mod stray;
mod terms;
pub mod texts;
pub mod whole;

use crate::bundle::{Section, to_bytes};
use crate::damage::{Draft, random_bytes, random_words};
use crate::rng::Rng;
use builder::{Builder, ITEM, TRUTH};
use derive::{Care, Derivation, SELDOM, SLIPS};

#[derive(Clone, Copy, Debug, PartialEq, Eq, PartialOrd, Ord, Hash)]
pub enum Family {
    /// Sound derivations.
    Derivation,
    /// Derivations with wrong choices in them.
    Careless,
    /// One fault.
    Damaged,
    /// Several faults.
    Order,
    /// Sections at their limits, or one past.
    Limit,
    /// Deep contexts, long lists, many quantifiers, large terms.
    Large,
    /// REFL for whole terms, some of them damaged there.
    Whole,
    /// Free variables that no entry mentions, or only just.
    Stray,
    /// Choices and SKO, some of them damaged there.
    Choice,
    /// Document 01's examples, often damaged.
    Example,
    /// Random words of the right length, random bytes.
    Random,
}

#[derive(Clone, Debug)]
pub struct Case {
    pub family: Family,
    pub bytes: Vec<u8>,
}

/// File `index` of the run `seed`.
pub fn case(seed: u64, index: u64) -> Case {
    let mut rng = Rng::for_file(seed, index);
    let family = match rng.below(1000) {
        0..180 => Family::Derivation,
        180..340 => Family::Careless,
        340..625 => Family::Damaged,
        625..730 => Family::Order,
        730..770 => Family::Choice,
        770..870 => Family::Whole,
        870..910 => Family::Stray,
        910..925 => Family::Limit,
        925..935 => Family::Large,
        935..955 => Family::Example,
        _ => Family::Random,
    };
    let bytes = match family {
        Family::Derivation => to_bytes(&derivation(rng, Care::Full)),
        Family::Careless => {
            let care = match rng.below(100) {
                0..35 => Care::Wanting(rng.one_of([3, 8, 16])),
                _ => Care::But(rng.one_of(SLIPS)),
            };
            to_bytes(&careless(rng, care))
        }
        Family::Damaged => {
            let mut draft = Draft::new(derivation(rng.clone(), Care::Full));
            draft.spoil(&mut rng);
            draft.bytes()
        }
        Family::Order => {
            let mut draft = Draft::new(derivation(rng.clone(), Care::Full));
            draft.spoil_many(&mut rng);
            draft.bytes()
        }
        Family::Limit => {
            let past = rng.chance(40);
            let mut draft = Draft::new(limits::filled(rng.clone(), past));
            if rng.chance(25) {
                draft.spoil(&mut rng);
            }
            draft.bytes()
        }
        Family::Large => {
            let mut draft = Draft::new(large(rng.clone()));
            if rng.chance(40) {
                draft.spoil(&mut rng);
            }
            draft.bytes()
        }
        Family::Whole => {
            let mut draft = Draft::new(whole::any(rng.clone()));
            if rng.chance(25) {
                draft.spoil_walk(&mut rng);
            }
            draft.bytes()
        }
        Family::Stray => {
            let mut draft = Draft::new(stray::any(rng.clone()));
            if rng.chance(15) {
                draft.spoil_scope(&mut rng);
            }
            draft.bytes()
        }
        Family::Choice => {
            let mut draft = Draft::new(skolem::any(rng.clone()));
            if rng.chance(20) {
                draft.spoil_skolem(&mut rng);
            }
            draft.bytes()
        }
        Family::Example => {
            let mut draft = Draft::new(examples::any(&mut rng));
            if rng.chance(60) {
                draft.spoil(&mut rng);
            }
            draft.bytes()
        }
        Family::Random => match rng.below(10) {
            0..5 => random_words(&mut rng, true),
            5 => random_words(&mut rng, false),
            6 => {
                let mut draft = Draft::new(derivation(rng.clone(), Care::Full));
                draft.spoil_header(&mut rng);
                draft.bytes()
            }
            _ => random_bytes(&mut rng),
        },
    };
    Case { family, bytes }
}

/// A derivation that uses the rules in varied ways.
pub fn derivation(rng: Rng, care: Care) -> Vec<u32> {
    attempt(rng, care, SELDOM).0
}

/// A derivation in which REFL often carries whole terms.
fn walking(rng: Rng, care: Care) -> Vec<u32> {
    attempt(rng, care, 60).0
}

/// A derivation with a wrong choice in it, if one offers itself soon.
fn careless(mut rng: Rng, care: Care) -> Vec<u32> {
    for _ in 0..7 {
        let (words, slipped) = attempt(Rng::new(rng.next_u64()), care, SELDOM);
        if slipped {
            return words;
        }
    }
    attempt(rng, care, SELDOM).0
}

/// A derivation, and whether a wrong choice was taken in it.
fn attempt(mut rng: Rng, care: Care, whole: u32) -> (Vec<u32>, bool) {
    let sharing = rng.one_of([0, 30, 70, 100]);
    let mut builder = Builder::new(rng, sharing);
    builder.random_signature();
    let depth = builder.rng.between(1, 6);
    let sort = builder.rng.one_of([TRUTH, TRUTH, TRUTH, TRUTH, TRUTH, ITEM]);
    let term = builder.random_compound(sort, depth);
    let lemmas = if builder.rng.chance(50) { builder.rng.between(1, 5) } else { 0 };
    let mut derivation = Derivation::new(&mut builder, care).walking(whole);
    derivation.lemmas(lemmas);
    derivation.claim(term);
    let slipped = derivation.slipped;
    if builder.rng.chance(15) {
        let value = builder.rng.next_u32();
        builder.spare_link(value);
    }
    (builder.claim_last(), slipped)
}

fn large(mut rng: Rng) -> Vec<u32> {
    match rng.below(7) {
        4 => {
            let count = rng.between(1, 128);
            large::many_skolem(rng, count)
        }
        0 => {
            let (depth, steps) = (rng.between(20, 256), rng.between(8, 120));
            large::deep_contexts(rng, depth, steps)
        }
        1 => {
            let (arguments, steps) = (rng.between(2, 600) as usize, rng.between(4, 60));
            large::long_lists(rng, arguments, steps)
        }
        2 => {
            let (depth, steps) = (rng.between(4, 32) as usize, rng.between(60, 600));
            large::many_quantifiers(rng, depth, steps)
        }
        3 => {
            let pairs = rng.between(1, Section::Variables.limit() / 4) as usize;
            large::wide_quantifiers(rng, 2 * pairs)
        }
        _ => {
            let care = rng.one_of([Care::Full, Care::Wanting(1), Care::Wanting(2)]);
            large::random(rng, care)
        }
    }
}
