//! Declarations and texts for the reader.

use super::builder::{Builder, ITEM, TRUTH};
use super::derive::Care;
use super::printing::{SPACINGS, Spacing, lexemes, text};
use super::{derivation, jobs};
use crate::bundle::{Counts, LEFT, RIGHT, Section, counts_of, to_bytes};
use crate::damage::{Draft, random_bytes, random_words};
use crate::damage_text::{missort, random_text, spoil_bytes, spoil_lexemes};
use crate::read;
use crate::rng::Rng;

#[derive(Clone, Copy, Debug, PartialEq, Eq, PartialOrd, Ord, Hash)]
pub enum TextFamily {
    /// Formulas, closed or open.
    Formula,
    /// Formulas with a fault of sorts, counts or repeats.
    Missorted,
    /// A fault in the lexemes, or in the bytes.
    Damaged,
    /// Several faults.
    Order,
    /// Deep nesting and long lists, most of which do not fit.
    Large,
    /// Jobs with a section at its limit, or one record past.
    Limit,
    /// Faults in the declarations.
    Declarations,
    /// Terms, contexts, steps or claim words in the declarations.
    NotBare,
    /// Random lexemes and bytes.
    Random,
}

#[derive(Clone, Debug)]
pub struct Text {
    pub family: TextFamily,
    pub declarations: Vec<u8>,
    pub text: Vec<u8>,
    /// The job with the formula that the text was printed from, where it was left as it
    /// is: same declarations, records in another order.
    pub formula: Option<Vec<u8>>,
}

/// Text `index` of the run `seed`.
pub fn case(seed: u64, index: u64) -> Text {
    // A stream of its own, apart from those of the files and the jobs.
    let mut rng = Rng::for_file(seed ^ 0x7465_7874, index);
    let family = match rng.below(100) {
        0..30 => TextFamily::Formula,
        30..42 => TextFamily::Missorted,
        42..66 => TextFamily::Damaged,
        66..74 => TextFamily::Order,
        74..78 => TextFamily::Large,
        78..82 => TextFamily::Limit,
        82..90 => TextFamily::Declarations,
        90..94 => TextFamily::NotBare,
        _ => TextFamily::Random,
    };
    match family {
        TextFamily::Formula => formula(rng),
        TextFamily::Missorted => Source::new(&mut rng).spoiled(family, &mut rng, missort),
        TextFamily::Damaged if rng.chance(60) => {
            Source::new(&mut rng).spoiled(family, &mut rng, spoil_lexemes)
        }
        TextFamily::Damaged => {
            let mut case = Source::new(&mut rng).spoiled(family, &mut rng, |_, _| {});
            spoil_bytes(&mut rng, &mut case.text);
            case
        }
        TextFamily::Order => several(&mut rng),
        TextFamily::Large => large(rng),
        TextFamily::Limit => at_limit(rng),
        TextFamily::Declarations => {
            let mut draft = Draft::new(Source::new(&mut rng).declarations);
            match rng.below(5) {
                0 => draft.spoil_header(&mut rng),
                1 => draft.spoil_many(&mut rng),
                2 => draft.spoil_next(&mut rng),
                _ => draft.spoil(&mut rng),
            }
            let bytes = match rng.below(20) {
                0 => random_words(&mut rng, true),
                1 => random_bytes(&mut rng),
                _ => draft.bytes(),
            };
            Text { declarations: bytes, ..any_text(family, &mut rng) }
        }
        TextFamily::NotBare => {
            let declarations = not_bare(&mut rng);
            Text { declarations, ..any_text(family, &mut rng) }
        }
        TextFamily::Random => {
            let text = random_text(&mut rng);
            let declarations = to_bytes(&Source::new(&mut rng).declarations);
            Text { family, declarations, text, formula: None }
        }
    }
}

/// A signature as declarations, and a formula over it.
struct Source {
    builder: Builder,
    declarations: Vec<u32>,
    rule: u32,
}

impl Source {
    fn new(rng: &mut Rng) -> Self {
        let mut source = Source::signature(rng);
        let b = &mut source.builder;
        let depth = b.rng.between(1, 5);
        let term = b.random_compound(TRUTH, depth);
        source.rule = if b.rng.chance(60) { b.close(term) } else { term };
        source
    }

    fn signature(rng: &mut Rng) -> Self {
        let sharing = rng.one_of([0, 30, 70, 100]);
        let mut builder = Builder::new(Rng::new(rng.next_u64()), sharing).without_choices();
        builder.random_signature();
        // Sort lists of other symbols, and links that nobody uses.
        for _ in 0..rng.below(3) {
            let (sort, value) = (rng.below(2), rng.next_u32());
            builder.symbol(sort, &[ITEM, TRUTH]);
            builder.spare_link(value);
        }
        let declarations = builder.words(0, 0);
        Source { builder, declarations, rule: 0 }
    }

    /// The lexemes of the formula; of a smaller one where they are too many.
    fn lexemes(&mut self) -> Vec<String> {
        if let Some(lexemes) = lexemes(&mut self.builder, self.rule) {
            return lexemes;
        }
        self.rule = self.builder.random_leaf(TRUTH);
        lexemes(&mut self.builder, self.rule).unwrap_or_default()
    }

    /// The formula's text with a fault in its lexemes.
    fn spoiled(
        mut self,
        family: TextFamily,
        rng: &mut Rng,
        spoil: impl Fn(&mut Rng, &mut Vec<String>),
    ) -> Text {
        let mut lexemes = self.lexemes();
        spoil(rng, &mut lexemes);
        let spacing = rng.one_of(SPACINGS);
        let text = text(rng, &lexemes, spacing);
        Text { family, declarations: to_bytes(&self.declarations), text, formula: None }
    }
}

fn formula(mut rng: Rng) -> Text {
    let mut source = Source::new(&mut rng);
    let lexemes = source.lexemes();
    let spacing = rng.one_of(SPACINGS);
    Text {
        family: TextFamily::Formula,
        declarations: to_bytes(&source.declarations),
        text: text(&mut rng, &lexemes, spacing),
        formula: Some(to_bytes(&source.builder.words(source.rule, 0))),
    }
}

/// Several faults, so that the order of refusals decides.
fn several(rng: &mut Rng) -> Text {
    let source = Source::new(rng);
    let mut case = source.spoiled(TextFamily::Order, rng, |rng, lexemes| {
        for _ in 0..rng.between(1, 4) {
            if rng.chance(50) {
                missort(rng, lexemes);
            } else {
                spoil_lexemes(rng, lexemes);
            }
        }
    });
    if rng.chance(30) {
        spoil_bytes(rng, &mut case.text);
    }
    case
}

/// A good or a bad text, for declarations that are not as they should be.
fn any_text(family: TextFamily, rng: &mut Rng) -> Text {
    let source = Source::new(rng);
    match rng.below(3) {
        0 => source.spoiled(family, rng, |_, _| {}),
        1 => source.spoiled(family, rng, spoil_lexemes),
        _ => Text { text: random_text(rng), ..source.spoiled(family, rng, |_, _| {}) },
    }
}

fn not_bare(rng: &mut Rng) -> Vec<u8> {
    let fresh = Rng::new(rng.next_u64());
    let words = match rng.below(6) {
        0 => jobs::closed(fresh),
        1 => derivation(fresh, Care::Full),
        // A term, context or step of any words; no one looks at them.
        2 | 3 => {
            let words = Source::signature(rng).declarations;
            let counts = words[1..7].try_into().map(Counts::new).unwrap_or_default();
            let section = rng.one_of([Section::Terms, Section::Contexts, Section::Steps]);
            let mut words = words;
            let place = counts.start(section);
            let record: Vec<u32> = (0..section.width()).map(|_| rng.below(10)).collect();
            words.splice(place..place, record);
            words[1 + section as usize] = 1;
            words
        }
        _ => {
            let mut words = Source::signature(rng).declarations;
            words[rng.one_of([LEFT, RIGHT])] = rng.one_of([1, 2, u32::MAX]);
            words
        }
    };
    let mut draft = Draft::new(words);
    if rng.chance(20) {
        draft.spoil(rng);
    }
    draft.bytes()
}

/// A signature for long texts: f33 an item, f34 takes an item, f35 two items; v1 and v2
/// are items, v3 a truth value. f36 takes so many truth values.
fn long_signature(rng: &Rng, arguments: usize) -> Builder {
    let mut b = Builder::new(rng.clone(), 100);
    b.symbol(ITEM, &[]);
    b.symbol(TRUTH, &[ITEM]);
    b.symbol(TRUTH, &[ITEM, ITEM]);
    b.symbol(TRUTH, &vec![TRUTH; arguments]);
    b.variable(ITEM);
    b.variable(ITEM);
    b.variable(TRUTH);
    b
}

/// A bracket again and again, with its end.
const NESTS: [(&str, &str); 7] = [
    ("(not ", ")"),
    ("(and true ", ")"),
    ("(or ", " v3)"),
    ("(forall ((v1 Item)) ", ")"),
    ("(exists((v3 Bool)(v2 Item))", ")"),
    ("(let ((v1 v2)) ", ")"),
    ("(let ((v3 ", ")) v3)"),
];

/// Deep nesting, or long lists.
fn large(mut rng: Rng) -> Text {
    let depth = match rng.below(10) {
        0..4 => rng.between(300, 1_100),
        4..9 => rng.between(1_000, 3_000),
        _ => rng.between(3_000, 20_000),
    } as usize;
    let inside = rng.one_of(["true", "v3", "(f34 v1)", "(f34 v3)", "v1", "v9", "(", "false)"]);
    let arguments = rng.between(0, 700) as usize;
    let text = match rng.below(6) {
        0..3 => {
            let (open, close) = rng.one_of(NESTS);
            let closed = depth - rng.one_of([0, 0, 0, 1, depth]);
            open.repeat(depth) + inside + &close.repeat(closed)
        }
        // As many arguments as declared, or others.
        3 => {
            let given = rng.one_of([arguments, arguments, arguments + 1, depth]).max(1);
            format!("(f36{})", " true".repeat(given))
        }
        4 => {
            let kind = rng.one_of(["forall", "exists"]);
            let pairs = "(v1 Item)(v3 Bool)".repeat(depth / 2);
            format!("({kind} ({pairs}) {inside})")
        }
        _ => {
            let pair = rng.one_of(["(v1 v2)", "(v3 true)(v1 v2)", "(v3 v1)"]);
            format!("(let ({}) {inside})", pair.repeat(depth / 8))
        }
    };
    let declarations = to_bytes(&long_signature(&rng, arguments).words(0, 0));
    Text { family: TextFamily::Large, declarations, text: text.into(), formula: None }
}

/// A job with exactly as many terms or links as there may be, or one more.
fn at_limit(mut rng: Rng) -> Text {
    let family = TextFamily::Limit;
    let more = u32::from(rng.chance(50));
    let mut source = Source::new(&mut rng);
    let lexemes = source.lexemes();
    let spacing = rng.one_of([Spacing::Least, Spacing::Usual]);
    let inner = text(&mut rng, &lexemes, spacing);
    let declarations = to_bytes(&source.declarations);
    let job = read::job(&declarations, &inner);
    let as_is = |text| Text { family, declarations: declarations.clone(), text, formula: None };
    let Ok(job) = job else { return as_is(inner) };
    let after = counts_of(&job).unwrap_or_default();
    if rng.chance(50) {
        // Each for-all on top is a term more, whatever there is.
        let missing = (Section::Terms.limit() + more).saturating_sub(after[Section::Terms]);
        let mut text = "(forall((v1 Item))".repeat(missing as usize).into_bytes();
        text.extend(inner);
        text.extend(")".repeat(missing as usize).bytes());
        return as_is(text);
    }
    let old = counts_of(&declarations).unwrap_or_default()[Section::Links];
    let grown = after[Section::Links] - old;
    let target = (Section::Links.limit() + more).saturating_sub(grown);
    // Spare links at the end leave all starts as they are.
    let spare = target.min(Section::Links.limit()).saturating_sub(old);
    let mut words = source.declarations;
    words.extend((0..spare).flat_map(|value| [value, 0]));
    words[1 + Section::Links as usize] += spare;
    Text { family, declarations: to_bytes(&words), text: inner, formula: None }
}

/// Declarations, and a text of about so many bytes whose job fits, for the benchmark: a
/// conjunction of parts that let, quantify and apply.
pub fn of_size(bytes: usize) -> (Vec<u8>, Vec<u8>) {
    let printed = |width: u32| {
        let (_, mut b, rule) = jobs::conjunction(width);
        let lexemes = lexemes(&mut b, rule).unwrap_or_default();
        text(&mut Rng::new(1), &lexemes, Spacing::Usual)
    };
    let fits = |&width: &u32| printed(width).len() <= bytes;
    let width = (1..).take_while(fits).last().unwrap_or(1);
    (to_bytes(&jobs::signature().0.words(0, 0)), printed(width))
}

/// Declarations, and a text with as many terms on each other as there may be.
pub fn deepest() -> (Vec<u8>, Vec<u8>) {
    let depth = Section::Terms.limit() as usize - 1;
    let text = "(not ".repeat(depth) + "true" + &")".repeat(depth);
    (to_bytes(&[1, 0, 0, 0, 0, 0, 0, 0, 0]), text.into())
}
