//! Checks a bundle, or expands a job and checks what comes out: check-rust FILE.
//! Reads a rule typed as SMT-LIB beside its declarations, expands it and checks what
//! comes out: check-rust DECLARATIONS TEXT. A quantifier's variable that nothing else in
//! the job binds keeps its name; with --rename before the files every quantifier gets a
//! new one.
//!
//!     rustc --edition 2024 -O -o check-rust examples/embedding/check.rs -l static=nezkaldo -L target/staticlib

use std::process::ExitCode;

const OUT: usize = 58_916;
const WORDS: usize = 14_729;
const SETS: usize = 4_096;

unsafe extern "C" {
    fn nezkaldo_check(file: *const u8, file_length: usize, free: *mut u64, free_length: usize) -> u64;
    fn nezkaldo_expand(
        job: *const u8,
        job_length: usize,
        out: *mut u8,
        out_length: usize,
        words: *mut u32,
        words_length: usize,
        sets: *mut u64,
        sets_length: usize,
    ) -> u64;
    fn nezkaldo_expand_renamed(
        job: *const u8,
        job_length: usize,
        out: *mut u8,
        out_length: usize,
        words: *mut u32,
        words_length: usize,
        sets: *mut u64,
        sets_length: usize,
    ) -> u64;
    fn nezkaldo_read(
        declarations: *const u8,
        declarations_length: usize,
        text: *const u8,
        text_length: usize,
        out: *mut u8,
        out_length: usize,
        words: *mut u32,
        words_length: usize,
        sets: *mut u64,
        sets_length: usize,
    ) -> u64;
}

/// The number of the first check that fails, and its record, or byte of the text.
struct Refusal(u64);

impl std::fmt::Display for Refusal {
    fn fmt(&self, f: &mut std::fmt::Formatter) -> std::fmt::Result {
        let (number, place) = (self.0 >> 32, self.0 & 0xffff_ffff);
        let what = if number == 19 || number == 20 { "byte" } else { "record" };
        write!(f, "refused: check {number}, {what} {place}")
    }
}

fn check(file: &[u8]) -> Result<(), Refusal> {
    let mut free = vec![0; SETS];
    // SAFETY: two slices that do not overlap, each with its length; the call keeps neither.
    let answer = unsafe { nezkaldo_check(file.as_ptr(), file.len(), free.as_mut_ptr(), free.len()) };
    // Below 2^32 it is accepted: the number is that of the pairs that its last walked REFL visited, mostly 0.
    if answer >> 32 == 0 { Ok(()) } else { Err(Refusal(answer)) }
}

/// The choice of names is by the call.
fn expand(rename_all: bool, job: &[u8]) -> Result<Vec<u8>, Refusal> {
    let call = if rename_all { nezkaldo_expand_renamed } else { nezkaldo_expand };
    let (mut out, mut words, mut sets) = (vec![0; OUT], vec![0; WORDS], vec![0; SETS]);
    // SAFETY: four slices that do not overlap, each with its length; the call keeps none.
    let answer = unsafe {
        call(
            job.as_ptr(),
            job.len(),
            out.as_mut_ptr(),
            out.len(),
            words.as_mut_ptr(),
            words.len(),
            sets.as_mut_ptr(),
            sets.len(),
        )
    };
    if answer >> 32 != 0 {
        return Err(Refusal(answer));
    }
    out.truncate(answer as usize);
    Ok(out)
}

fn read(declarations: &[u8], text: &[u8]) -> Result<Vec<u8>, Refusal> {
    let (mut out, mut words, mut sets) = (vec![0; OUT], vec![0; WORDS], vec![0; SETS]);
    // SAFETY: five slices that do not overlap, each with its length; the call keeps none.
    let answer = unsafe {
        nezkaldo_read(
            declarations.as_ptr(),
            declarations.len(),
            text.as_ptr(),
            text.len(),
            out.as_mut_ptr(),
            out.len(),
            words.as_mut_ptr(),
            words.len(),
            sets.as_mut_ptr(),
            sets.len(),
        )
    };
    if answer >> 32 != 0 {
        return Err(Refusal(answer));
    }
    out.truncate(answer as usize);
    Ok(out)
}

/// Word k of a file: 7 is the claim's left, 8 its right.
fn word_at(file: &[u8], k: usize) -> Option<u32> {
    let bytes = file.get(4 * k..4 * k + 4)?;
    Some(u32::from_le_bytes(bytes.try_into().ok()?))
}

fn judge(rename_all: bool, input: &[u8]) -> Result<String, Refusal> {
    // A job has no contexts, no steps and right 0.
    let is_job = [5, 6, 8].into_iter().all(|k| word_at(input, k) == Some(0));
    let file = if is_job { expand(rename_all, input)? } else { input.to_vec() };
    check(&file)?;
    let claim = |k| word_at(&file, k).unwrap_or_default();
    let written = if is_job { format!("written {}, ", file.len()) } else { String::new() };
    Ok(format!("{written}accepted: term {} is equal to term {}", claim(7), claim(8)))
}

fn run(rename_all: bool, files: &[Vec<u8>]) -> Result<String, Refusal> {
    let [declarations, text] = files else { return judge(rename_all, &files[0]) };
    let job = read(declarations, text)?;
    Ok(format!("read {}, {}", job.len(), judge(rename_all, &job)?))
}

fn main() -> ExitCode {
    let rename_all = std::env::args().nth(1).is_some_and(|word| word == "--rename");
    let paths = std::env::args().skip(1 + usize::from(rename_all));
    let files: Option<Vec<_>> = paths.map(|path| std::fs::read(path).ok()).collect();
    let Some(files) = files.filter(|files| [1, 2].contains(&files.len())) else {
        eprintln!("usage: check-rust [--rename] FILE\n       check-rust [--rename] DECLARATIONS TEXT");
        return ExitCode::from(2);
    };
    match run(rename_all, &files) {
        Ok(line) => {
            println!("{line}");
            ExitCode::SUCCESS
        }
        Err(refusal) => {
            println!("{refusal}");
            ExitCode::FAILURE
        }
    }
}
