//! One binary for all tests that use the library from outside.

mod agreement;
mod examples;
mod limits;
mod long_texts;
mod names;
mod parties;
mod reader;
mod skolem;
mod stray;
mod teeth;
mod variables;
mod vectors;
mod walks;
mod whole;
mod worlds;
mod writer;

use nezkaldo_compare::bundle::{MAX_SETS, to_bytes};
pub use nezkaldo_compare::rust_calls::{
    EXACT, PLAIN, exact, exact_expand, exact_links, exact_read, plain, plain_expand, plain_links,
    plain_read,
};
use std::{panic, thread};

/// The stack that the header asks for; a test's thread has less.
const STACK: usize = 4 << 20;

/// Runs in a thread with that stack.
pub fn with_stack(work: impl FnOnce() + Send) {
    thread::scope(|scope| {
        let thread = thread::Builder::new().stack_size(STACK).spawn_scoped(scope, work);
        if let Err(panic) = thread.expect("a thread starts").join() {
            panic::resume_unwind(panic);
        }
    });
}

/// Number and record of the checker, which the plain reading shares; (0, 0) where
/// accepted. The free sets come with it.
pub fn judge(words: &[u32]) -> ((u32, u32), Vec<u64>) {
    judge_bytes(&to_bytes(words))
}

pub fn judge_bytes(file: &[u8]) -> ((u32, u32), Vec<u64>) {
    let area = vec![u64::MAX; MAX_SETS + 3];
    let (mut free, mut other) = (area.clone(), area);
    let answer = exact(file, &mut free);
    assert_eq!(answer, plain(file, &mut other), "the two readings answer alike");
    assert_eq!(free, other, "the two readings leave the same area");
    (((answer >> 32) as u32, answer as u32), free)
}
