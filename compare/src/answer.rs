//! Answers: a refusal is a number from document 01's table and a record.

use std::fmt;

/// Why a file is refused; the discriminant is the number in document 01.
#[derive(Clone, Copy, Debug, PartialEq, Eq, PartialOrd, Ord, Hash)]
#[repr(u32)]
pub enum Reason {
    Length = 1,
    Version = 2,
    Limit = 3,
    Area = 4,
    Link = 5,
    Sort = 6,
    Term = 7,
    Typing = 8,
    Duplicate = 9,
    Context = 10,
    Unsettled = 11,
    Step = 12,
    Rule = 13,
    Side = 14,
    Claim = 15,
    Full = 16,
    Open = 17,
    NotBare = 18,
    Unread = 19,
    UnknownName = 20,
    Spent = 21,
    Stray = 22,
}

impl Reason {
    pub const ALL: [Reason; 22] = [
        Reason::Length,
        Reason::Version,
        Reason::Limit,
        Reason::Area,
        Reason::Link,
        Reason::Sort,
        Reason::Term,
        Reason::Typing,
        Reason::Duplicate,
        Reason::Context,
        Reason::Unsettled,
        Reason::Step,
        Reason::Rule,
        Reason::Side,
        Reason::Claim,
        Reason::Full,
        Reason::Open,
        Reason::NotBare,
        Reason::Unread,
        Reason::UnknownName,
        Reason::Spent,
        Reason::Stray,
    ];

    pub fn number(self) -> u32 {
        self as u32
    }

    pub fn text(self) -> &'static str {
        match self {
            Reason::Length => "too short, or not the length the counts give",
            Reason::Version => "version is not 1",
            Reason::Limit => "a count over its limit",
            Reason::Area => "a lent area too short",
            Reason::Link => "a link's next",
            Reason::Sort => "a sort or list start in a symbol or variable",
            Reason::Term => "a term's kind, unused field or reference",
            Reason::Typing => "counts, sorts or repeats in a term",
            Reason::Duplicate => "a term equal to an earlier one",
            Reason::Context => "a context's kind, field, reference or lists",
            Reason::Unsettled => "a replacement moved in its parent",
            Reason::Step => "a step's rule, reference or premise count",
            Reason::Rule => "a step that does not follow by its rule",
            Reason::Side => "a side condition of TRANS or BIND",
            Reason::Claim => "the last step is not the claim",
            Reason::Full => "writer, reader: a section would pass its limit",
            Reason::Open => "writer: the rule has a free variable",
            Reason::NotBare => "writer: contexts, steps or right not 0; reader: terms or left too",
            Reason::Unread => "reader: no text of the grammar goes on so",
            Reason::UnknownName => "reader: a name that is not declared, or of another kind",
            Reason::Spent => "a REFL that would visit more than 4,096 pairs",
            Reason::Stray => "a step with a free variable that no entry mentions",
        }
    }
}

#[derive(Clone, Copy, Debug, PartialEq, Eq)]
pub struct Refusal {
    pub reason: Reason,
    /// The record in its section, from 1; 0 where the table names none. For 19 and 20
    /// the byte of the text, from 0; for a walk that fails, the links that it read.
    pub record: u64,
}

impl Refusal {
    /// A refusal of the whole file.
    pub fn whole(reason: Reason) -> Self {
        Refusal { reason, record: 0 }
    }

    pub fn at(reason: Reason, record: u32) -> Self {
        Refusal { reason, record: record.into() }
    }

    /// A refusal of the text at a byte.
    pub fn at_byte(reason: Reason, byte: usize) -> Self {
        Refusal { reason, record: byte as u64 }
    }

    /// The form in which the proved library answers: number * 2^32 + record, also for a
    /// byte of 2^32 or more.
    pub fn packed(self) -> u64 {
        (u64::from(self.reason.number()) << 32) + self.record
    }

    /// The form in which the programs print it.
    pub fn line(self) -> String {
        format!("{self}\n")
    }
}

/// The claim of an accepted file, and what its last walk cost.
#[derive(Clone, Copy, Debug, PartialEq, Eq)]
pub struct Accepted {
    pub left: u32,
    pub right: u32,
    /// The pairs of the last REFL step that was walked, 0 where none was (Req 04).
    pub pairs: u32,
}

/// As the program check prints it.
impl fmt::Display for Accepted {
    fn fmt(&self, out: &mut fmt::Formatter<'_>) -> fmt::Result {
        write!(out, "accepted {} {}", self.left, self.right)
    }
}

/// What a check answers, as the program check prints it.
pub fn line(outcome: Result<Accepted, Refusal>) -> String {
    match outcome {
        Ok(accepted) => format!("{accepted}\n"),
        Err(refusal) => refusal.line(),
    }
}

/// What a check answers, as the proved library packs it: the pairs of the last walk
/// where accepted, else number * 2^32 + record.
pub fn packed(outcome: Result<Accepted, Refusal>) -> u64 {
    outcome.map_or_else(Refusal::packed, |accepted| accepted.pairs.into())
}

/// The number of a packed answer, 0 where there is no refusal.
pub fn number(answer: u64) -> u32 {
    (answer >> 32) as u32
}

/// How a whole-term REFL's walk ends.
#[derive(Clone, Copy, Debug, PartialEq, Eq)]
pub enum Ending {
    Same,
    Differs,
    /// There is a pair past the limit.
    Spent,
}

/// A whole-term REFL's walk: how it ends, and how many pairs it visits. A pair that
/// differs is visited, one past the limit is not.
#[derive(Clone, Copy, Debug, PartialEq, Eq)]
pub struct Whole {
    pub ending: Ending,
    pub pairs: u32,
}

/// As the vectors spell it.
impl fmt::Display for Whole {
    fn fmt(&self, out: &mut fmt::Formatter<'_>) -> fmt::Result {
        let word = match self.ending {
            Ending::Same => "same",
            Ending::Differs => "differ",
            Ending::Spent => "spent",
        };
        write!(out, "{word} {}", self.pairs)
    }
}

/// What CONG's test finds: whether it passes, and how many links it read.
#[derive(Clone, Copy, Debug, PartialEq, Eq)]
pub struct Walk {
    pub passes: bool,
    pub links: usize,
}

/// A walk, as the proved library packs it: the count where the test passes,
/// 13 * 2^32 + count where it fails; where there is no walk, the refusal.
pub fn packed_walk(outcome: Result<Walk, Refusal>) -> u64 {
    match outcome {
        Ok(Walk { passes: true, links }) => links as u64,
        Ok(Walk { passes: false, links }) => {
            Refusal { reason: Reason::Rule, record: links as u64 }.packed()
        }
        Err(refusal) => refusal.packed(),
    }
}

/// A packed answer of the checker, for people.
#[derive(Clone, Copy, Debug)]
pub struct Packed(pub u64);

impl fmt::Display for Packed {
    fn fmt(&self, out: &mut fmt::Formatter<'_>) -> fmt::Result {
        match self.0 {
            pairs if number(pairs) == 0 => write!(out, "accepted with {pairs} pairs"),
            answer => write!(out, "refused {} {}", number(answer), answer & 0xffff_ffff),
        }
    }
}

/// A packed answer of the writer or the reader, for people.
#[derive(Clone, Copy, Debug)]
pub struct PackedLength(pub u64);

impl fmt::Display for PackedLength {
    fn fmt(&self, out: &mut fmt::Formatter<'_>) -> fmt::Result {
        match self.0 {
            length if number(length) == 0 => write!(out, "written, {length} bytes"),
            answer => Packed(answer).fmt(out),
        }
    }
}

impl fmt::Display for Refusal {
    fn fmt(&self, out: &mut fmt::Formatter<'_>) -> fmt::Result {
        write!(out, "refused {} {}", self.reason.number(), self.record)
    }
}
