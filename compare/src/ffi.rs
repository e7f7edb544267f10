//! The proved library's calls behind safe functions: the only unsafe code here.

#![allow(unsafe_code)]

use crate::compare::Checker;
use crate::compare_links::Counter;
use crate::compare_reader::Reader;
use crate::compare_writer::Writer;
#[cfg(proved)]
use crate::expand::Names;

/// The proved library.
#[allow(missing_debug_implementations)]
#[derive(Clone, Copy)]
pub struct Library {
    pub check: Checker<'static>,
    pub expand: Writer<'static>,
    pub read: Reader<'static>,
    pub links: Counter<'static>,
}

/// `None` where an archive of the library was not there when this was built.
pub fn library() -> Option<Library> {
    #[cfg(proved)]
    return Some(Library { check: &check, expand: &expand, read: &read, links: &links });
    #[cfg(not(proved))]
    None
}

#[cfg(proved)]
unsafe extern "C" {
    fn nezkaldo_check(file: *const u8, file_len: usize, free: *mut u64, free_len: usize) -> u64;
    fn nezkaldo_expand(
        job: *const u8,
        job_len: usize,
        out: *mut u8,
        out_len: usize,
        words: *mut u32,
        words_len: usize,
        sets: *mut u64,
        sets_len: usize,
    ) -> u64;
    fn nezkaldo_expand_renamed(
        job: *const u8,
        job_len: usize,
        out: *mut u8,
        out_len: usize,
        words: *mut u32,
        words_len: usize,
        sets: *mut u64,
        sets_len: usize,
    ) -> u64;
    fn nezkaldo_read(
        declarations: *const u8,
        declarations_len: usize,
        text: *const u8,
        text_len: usize,
        out: *mut u8,
        out_len: usize,
        words: *mut u32,
        words_len: usize,
        sets: *mut u64,
        sets_len: usize,
    ) -> u64;
    fn nezkaldo_links(file: *const u8, file_len: usize, step: usize) -> u64;
}

#[cfg(proved)]
fn check(file: &[u8], free: &mut [u64]) -> u64 {
    // SAFETY: each pointer is a slice's, with that slice's length, and the two do
    // not overlap; the call reads the first, writes the second and keeps neither.
    unsafe { nezkaldo_check(file.as_ptr(), file.len(), free.as_mut_ptr(), free.len()) }
}

#[cfg(proved)]
fn expand(job: &[u8], names: Names, out: &mut [u8], words: &mut [u32], sets: &mut [u64]) -> u64 {
    let call = match names {
        Names::Keep => nezkaldo_expand,
        Names::RenameAll => nezkaldo_expand_renamed,
    };
    // SAFETY: as above; either call reads the first slice and writes the others.
    unsafe {
        call(
            job.as_ptr(),
            job.len(),
            out.as_mut_ptr(),
            out.len(),
            words.as_mut_ptr(),
            words.len(),
            sets.as_mut_ptr(),
            sets.len(),
        )
    }
}

#[cfg(proved)]
fn read(
    declarations: &[u8],
    text: &[u8],
    out: &mut [u8],
    words: &mut [u32],
    sets: &mut [u64],
) -> u64 {
    // SAFETY: as above; the call reads the first two slices and writes the others.
    unsafe {
        nezkaldo_read(
            declarations.as_ptr(),
            declarations.len(),
            text.as_ptr(),
            text.len(),
            out.as_mut_ptr(),
            out.len(),
            words.as_mut_ptr(),
            words.len(),
            sets.as_mut_ptr(),
            sets.len(),
        )
    }
}

#[cfg(proved)]
fn links(file: &[u8], step: usize) -> u64 {
    // SAFETY: the pointer is a slice's, with its length; the call reads it alone.
    unsafe { nezkaldo_links(file.as_ptr(), file.len(), step) }
}
