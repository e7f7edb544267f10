//! The Rust programs in the form of the library's calls: `exact` are the ones that it is
//! held to, `plain` the second reading.

use crate::answer::{packed, packed_walk};
use crate::compare::Calls;
use crate::expand::Names;
use crate::{check, compare_reader, compare_writer, expand, naive, naive_expand, naive_read, read};

pub const EXACT: Calls = Calls { check: &exact, links: &exact_links };
pub const PLAIN: Calls = Calls { check: &plain, links: &plain_links };

/// The checker.
pub fn exact(file: &[u8], free: &mut [u64]) -> u64 {
    packed(check::check(file, free))
}

pub fn plain(file: &[u8], free: &mut [u64]) -> u64 {
    packed(naive::check(file, free))
}

/// The links that the checker's CONG test reads at a step.
pub fn exact_links(file: &[u8], step: usize) -> u64 {
    packed_walk(check::links(file, step))
}

pub fn plain_links(file: &[u8], step: usize) -> u64 {
    packed_walk(naive::links(file, step))
}

/// The writer.
pub fn exact_expand(
    job: &[u8],
    names: Names,
    out: &mut [u8],
    words: &mut [u32],
    sets: &mut [u64],
) -> u64 {
    compare_writer::packed(expand::expand(job, names, out, words, sets))
}

pub fn plain_expand(
    job: &[u8],
    names: Names,
    out: &mut [u8],
    words: &mut [u32],
    sets: &mut [u64],
) -> u64 {
    compare_writer::packed(naive_expand::expand(job, names, out, words, sets))
}

/// The reader.
pub fn exact_read(
    declarations: &[u8],
    text: &[u8],
    out: &mut [u8],
    words: &mut [u32],
    sets: &mut [u64],
) -> u64 {
    compare_reader::packed(read::read(declarations, text, out, words, sets))
}

pub fn plain_read(
    declarations: &[u8],
    text: &[u8],
    out: &mut [u8],
    words: &mut [u32],
    sets: &mut [u64],
) -> u64 {
    compare_reader::packed(naive_read::read(declarations, text, out, words, sets))
}
