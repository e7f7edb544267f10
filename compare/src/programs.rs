//! The programs: check and expand, each run on a file on its standard input, expand with or
//! without --rename, and read, run on a text there with the declarations in a file that it is
//! named.

use crate::expand::Names;
use crate::tally::first_difference;
use std::io::{self, ErrorKind, Write};
use std::path::{Path, PathBuf};
use std::process::{Command, ExitStatus, Output, Stdio};
use std::sync::atomic::{AtomicU64, Ordering};
use std::{env, fs, process, thread};

/// What a program leaves for an input.
pub type Program<'a> = &'a dyn Fn(&[u8]) -> io::Result<Output>;
/// What it leaves for a job and a choice of names.
pub type JobProgram<'a> = &'a dyn Fn(&[u8], Names) -> io::Result<Output>;
/// What it leaves for declarations and a text.
pub type TextProgram<'a> = &'a dyn Fn(&[u8], &[u8]) -> io::Result<Output>;

/// Where `./build` puts the programs.
pub const FOLDER: &str = concat!(env!("CARGO_MANIFEST_DIR"), "/../target/bin");
/// The crates of the programs check, expand and read.
pub const CHECK: &str = "check_bundle";
pub const EXPAND: &str = "expand_job";
pub const READ: &str = "read_text";
/// Longer texts are not given to the program read.
pub const LONGEST_TEXT: usize = 1 << 20;

/// The program of a crate, or what to do where it is not in the folder.
pub fn program(folder: &Path, name: &str) -> Result<impl Fn(&[u8]) -> io::Result<Output>, String> {
    let path = place(folder, name)?;
    Ok(move |input: &[u8]| run(&mut Command::new(&path), input))
}

/// The same of the program expand, which renames all names where it is told to.
pub fn job_program(
    folder: &Path,
    name: &str,
) -> Result<impl Fn(&[u8], Names) -> io::Result<Output>, String> {
    let path = place(folder, name)?;
    Ok(move |job: &[u8], names| {
        let mut command = Command::new(&path);
        match names {
            Names::Keep => {}
            Names::RenameAll => _ = command.arg("--rename"),
        }
        run(&mut command, job)
    })
}

/// The same of a program that takes declarations too.
pub fn text_program(
    folder: &Path,
    name: &str,
) -> Result<impl Fn(&[u8], &[u8]) -> io::Result<Output>, String> {
    let path = place(folder, name)?;
    let file = Passing::new();
    Ok(move |declarations: &[u8], text: &[u8]| {
        fs::write(&file.path, declarations)?;
        run(Command::new(&path).arg(&file.path), text)
    })
}

fn place(folder: &Path, name: &str) -> Result<PathBuf, String> {
    folder.join(name).canonicalize().map_err(|error| {
        format!(
            "there is no program {name} in {} ({error}). Run `./build {name}` in the \
             repository's root, or name its folder with --programs; or compare with --self.",
            folder.display()
        )
    })
}

/// A file for one program's declarations, gone with it.
struct Passing {
    path: PathBuf,
}

impl Passing {
    fn new() -> Self {
        static MADE: AtomicU64 = AtomicU64::new(0);
        let number = MADE.fetch_add(1, Ordering::Relaxed);
        let name = format!("nezkaldo-compare-{}-{number}", process::id());
        Passing { path: env::temp_dir().join(name) }
    }
}

impl Drop for Passing {
    fn drop(&mut self) {
        // Not there where the program was never run.
        let _ = fs::remove_file(&self.path);
    }
}

fn run(command: &mut Command, input: &[u8]) -> io::Result<Output> {
    let mut child =
        command.stdin(Stdio::piped()).stdout(Stdio::piped()).stderr(Stdio::piped()).spawn()?;
    let stdin = child.stdin.take();
    // Written beside the reading: a pipe may hold neither all of it nor all of the output.
    thread::scope(|scope| {
        let writing = scope.spawn(|| stdin.map_or(Ok(()), |mut stdin| stdin.write_all(input)));
        let output = child.wait_with_output()?;
        match writing.join() {
            // A program that does not read to the end is judged by what it prints.
            Ok(Err(error)) if error.kind() != ErrorKind::BrokenPipe => Err(error),
            _ => Ok(output),
        }
    })
}

/// How a program's run differs from the one with this output and these errors.
pub fn difference(program: Program, input: &[u8], output: &[u8], errors: &[u8]) -> Option<String> {
    let said = match program(input) {
        Ok(said) => said,
        Err(error) => return Some(not_run(&error)),
    };
    part("output", &said.stdout, output)
        .or_else(|| part("standard error", &said.stderr, errors))
        .or_else(|| (!said.status.success()).then(|| ended(said.status)))
}

/// How the run of read differs from the one that writes this job, or that refuses so: a
/// refusal starts the first line of the errors, and may be the exit status 1 too.
pub fn text_difference(
    program: TextProgram,
    (declarations, text): (&[u8], &[u8]),
    expected: Result<&[u8], &str>,
) -> Option<String> {
    let said = match program(declarations, text) {
        Ok(said) => said,
        Err(error) => return Some(not_run(&error)),
    };
    let right = match expected {
        Ok(_) => said.status.success(),
        Err(_) => matches!(said.status.code(), Some(0 | 1)),
    };
    part("output", &said.stdout, expected.unwrap_or_default())
        .or_else(|| match expected {
            Ok(_) => part("standard error", &said.stderr, b""),
            Err(refusal) if starts_with(&said.stderr, refusal) => None,
            Err(refusal) => {
                let line = said.stderr.split(|&byte| byte == b'\n').next().unwrap_or_default();
                let line = String::from_utf8_lossy(&line[..line.len().min(80)]);
                Some(format!("the program's first error is {line:?}, not {refusal:?} as from Rust"))
            }
        })
        .or_else(|| (!right).then(|| ended(said.status)))
}

/// Whether the errors start with this refusal, and its record ends there.
fn starts_with(errors: &[u8], refusal: &str) -> bool {
    errors
        .strip_prefix(refusal.as_bytes())
        .is_some_and(|rest| rest.first().is_some_and(|next| !next.is_ascii_digit()))
}

fn not_run(error: &io::Error) -> String {
    format!("the program cannot be run: {error}")
}

fn ended(status: ExitStatus) -> String {
    format!("the program ends with {status}")
}

fn part(name: &str, found: &[u8], expected: &[u8]) -> Option<String> {
    let place = first_difference(found, expected)?;
    Some(match (text(found), text(expected)) {
        (Some(found), Some(expected)) => {
            format!("the program's {name} is {found:?}, not {expected:?} as from Rust")
        }
        _ => format!(
            "the program's {name} has {} bytes, {} from Rust; it differs at place {place} (from 0)",
            found.len(),
            expected.len()
        ),
    })
}

/// A line, as against a file.
fn text(bytes: &[u8]) -> Option<&str> {
    str::from_utf8(bytes).ok().filter(|text| text.len() <= 80)
}
