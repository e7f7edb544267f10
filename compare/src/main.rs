//! The command line; see README.md.

mod arguments;

use arguments::Arguments;
use nezkaldo_compare::bench::Share;
use nezkaldo_compare::bundle::MAX_SETS;
use nezkaldo_compare::compare::{Calls, Checkers};
use nezkaldo_compare::compare_reader::Readers;
use nezkaldo_compare::compare_writer::Writers;
use nezkaldo_compare::expand::Names;
use nezkaldo_compare::ffi::Library;
use nezkaldo_compare::mutants::Verdict;
use nezkaldo_compare::report::Results;
use nezkaldo_compare::rust_calls::{
    EXACT, PLAIN, exact, exact_expand, exact_links, exact_read, plain, plain_expand, plain_links,
    plain_read,
};
use nezkaldo_compare::vectors::Party;
use nezkaldo_compare::{
    answer, bench, check, compare, compare_reader, compare_writer, expand, ffi, generate, mutants,
    naive, plot, programs, read as reader, smt, vectors,
};
use std::fmt::Debug;
use std::io::{self, Read};
use std::path::{Path, PathBuf};
use std::process::ExitCode;
use std::time::{Duration, Instant};
use std::{env, fs};

const USAGE: &str = "\
usage: compare COMMAND [OPTIONS]
  compare  --files N --seed S   the proved library and the programs against the Rust checker,
                                writer and reader, and against a second, plain reading
           [--jobs N]           jobs for the writer (default: files / 10)
           [--texts N]          texts for the reader (default: files / 10)
           [--least N]          fail if a number was seen less often (default 1)
           [--failures DIR]     where to write files that differ (default: failures)
           [--programs DIR]     where check_bundle, expand_job and read_text are
                                (default: ../target/bin)
           [--self]             no library and no programs: the plain reading in their place
  mutants  --files N --seed S   how the broken copies are told apart
  bench    [--ms N]             time for each measurement (default 120)
           [--only TEXT]        only rows whose name has this text
           [--write DIR]        write BENCHMARK.md and benchmark.svg there
  check    [FILE]               judge a file, or standard input
  expand   JOB FILE             write the expansion of a job, with names kept
           [--rename]           with all quantifiers renamed
  read     DECLARATIONS TEXT JOB
                                write the job of a text
  vectors  FILE                 the library and the Rust programs against cases with answers
           [--moves FILE --until NN]
                                with the answers that requests up to NN move
           [--self]             no library
  smt      FILE                 the claim of an accepted file as an SMT-LIB query
  file     --seed S --index I --out FILE [--job | --text]
                                write one generated file, or job, or text (its declarations
                                into FILE.bin)";

fn main() -> ExitCode {
    let mut words = env::args().skip(1);
    let Some(command) = words.next() else {
        eprintln!("{USAGE}");
        return ExitCode::from(2);
    };
    let outcome = Arguments::parse(words).and_then(|arguments| match command.as_str() {
        "compare" => run_compare(&arguments),
        "mutants" => run_mutants(&arguments),
        "bench" => run_bench(&arguments),
        "check" => run_check(&arguments),
        "expand" => run_expand(&arguments),
        "read" => run_read(&arguments),
        "vectors" => run_vectors(&arguments),
        "smt" => run_smt(&arguments),
        "file" => run_file(&arguments),
        other => Err(format!("there is no command {other}\n{USAGE}")),
    });
    match outcome {
        Ok(code) => code,
        Err(text) => {
            eprintln!("compare: {text}");
            ExitCode::from(2)
        }
    }
}

fn run_compare(arguments: &Arguments) -> Result<ExitCode, String> {
    let options = ["files", "seed", "jobs", "texts", "least", "failures", "programs", "self"];
    arguments.allow(&options, 0)?;
    let files = arguments.number("files", 20_000)?;
    let jobs = arguments.number("jobs", (files / 10).max(1))?;
    let texts = arguments.number("texts", (files / 10).max(1))?;
    if files == 0 || jobs == 0 || texts == 0 {
        return Err("--files, --jobs and --texts are at least 1".into());
    }
    let run = Run {
        seed: arguments.number("seed", 1)?,
        files,
        jobs,
        texts,
        least: arguments.number("least", 1)?,
        failures: PathBuf::from(arguments.text("failures").unwrap_or("failures")),
    };
    let alone = arguments.flag("self");
    let good = if alone {
        println!("no library: the Rust programs against a second, plain reading");
        let writers = Writers {
            subject: &plain_expand,
            reference: &exact_expand,
            plain: None,
            program: None,
            checkers: &[&plain, &exact],
        };
        let readers = Readers {
            subject: None,
            reference: &exact_read,
            plain: Some(&plain_read),
            program: None,
            checkers: &[&plain, &exact],
        };
        run.compare(Checkers::two(PLAIN, EXACT), writers, readers)?
    } else {
        let Library { check, expand, read, links } = library()?;
        let folder = Path::new(arguments.text("programs").unwrap_or(programs::FOLDER));
        let check_program = programs::program(folder, programs::CHECK)?;
        let expand_program = programs::job_program(folder, programs::EXPAND)?;
        let read_program = programs::text_program(folder, programs::READ)?;
        println!("the proved library and the programs against the Rust programs");
        let checkers = Checkers {
            subject: Calls { check, links },
            reference: EXACT,
            plain: Some(PLAIN),
            program: Some(&check_program),
        };
        let writers = Writers {
            subject: expand,
            reference: &exact_expand,
            plain: Some(&plain_expand),
            program: Some(&expand_program),
            checkers: &[check, &exact],
        };
        let readers = Readers {
            subject: Some(read),
            reference: &exact_read,
            plain: Some(&plain_read),
            program: Some(&read_program),
            checkers: &[check, &exact],
        };
        run.compare(checkers, writers, readers)?
    };
    println!("{}", verdict(good, alone));
    Ok(if good { ExitCode::SUCCESS } else { ExitCode::FAILURE })
}

/// The library, or what to do where it is not there.
fn library() -> Result<Library, String> {
    ffi::library().ok_or_else(|| {
        "there is no proved library in this build. Run `./build nezkaldo` and `./build \
         nezkaldo_links` in the repository's root, or set NEZKALDO_LIB_DIR to the folder of \
         libnezkaldo.a and libnezkaldo_links.a, and build again; or compare with --self."
            .into()
    })
}

/// The last line of a comparison.
fn verdict(good: bool, alone: bool) -> &'static str {
    match (good, alone) {
        (true, false) => "no difference",
        (true, true) => "no difference, without the library",
        (false, _) => "FAILED",
    }
}

/// What a comparison runs on, and what it has to have seen.
struct Run {
    seed: u64,
    files: u64,
    jobs: u64,
    texts: u64,
    least: u64,
    failures: PathBuf,
}

impl Run {
    /// Whether nothing differs on files, jobs and texts, and every number was seen.
    fn compare(
        &self,
        checkers: Checkers,
        writers: Writers,
        readers: Readers,
    ) -> Result<bool, String> {
        let failures = Some(self.failures.as_path());
        let unwritten = |error| format!("cannot write into {}: {error}", self.failures.display());
        let begun = Instant::now();
        let report = compare::run(checkers, self.seed, self.files, failures).map_err(unwritten)?;
        print!("{report}");
        let good = self.ended(begun, &report.unseen(self.least))
            & self.seen("counts of links", &report.walks.unseen(self.least))
            & self.seen("walks of REFL", &report.pairs.unseen(self.least))
            & self.seen("other numbers of stray steps", &report.unseen_stray(self.least))
            & self.seen("choices and SKO steps", &report.skolem.unseen(self.least))
            & report.agrees();
        let begun = Instant::now();
        let report =
            compare_writer::run(writers, self.seed, self.jobs, failures).map_err(unwritten)?;
        print!("{report}");
        let good = self.ended(begun, &report.unseen(self.least))
            & self.seen("names", &report.quantified.unseen(self.least))
            & report.agrees()
            & good;
        let begun = Instant::now();
        let report =
            compare_reader::run(readers, self.seed, self.texts, failures).map_err(unwritten)?;
        print!("{report}");
        Ok(self.ended(begun, &report.unseen(self.least)) & report.agrees() & good)
    }

    /// Prints the time, and which numbers were answered too seldom; whether none was.
    fn ended(&self, begun: Instant, unseen: &[impl Debug]) -> bool {
        println!("seed {}, {:.1} s", self.seed, begun.elapsed().as_secs_f64());
        self.seen("answers", unseen)
    }

    /// Prints what was seen too seldom; whether nothing was.
    fn seen(&self, what: &str, unseen: &[impl Debug]) -> bool {
        if !unseen.is_empty() {
            println!("{what} seen fewer than {} times: {unseen:?}", self.least);
        }
        unseen.is_empty()
    }
}

fn run_mutants(arguments: &Arguments) -> Result<ExitCode, String> {
    arguments.allow(&["files", "seed"], 0)?;
    let files = arguments.number("files", 20_000)?;
    let seed = arguments.number("seed", 1)?;
    let checkers = mutants::try_checkers(&exact, seed, files, false);
    let walks = mutants::try_walks(&exact_links, seed, files, false);
    let writers = mutants::try_writers(&exact_expand, seed, files / 10, false);
    let readers = mutants::try_readers(&exact_read, seed, files / 10, false);
    let good = print_verdicts("checker, files", &checkers)
        & print_verdicts("counts of CONG's links, files", &walks)
        & print_verdicts("writer, jobs", &writers)
        & print_verdicts("reader, texts", &readers);
    Ok(if good { ExitCode::SUCCESS } else { ExitCode::FAILURE })
}

/// Whether every fault was told apart.
fn print_verdicts(what: &str, verdicts: &[Verdict]) -> bool {
    println!("{:>8} {:>8}  {what}", "first", "differ");
    for Verdict { fault, first, differs } in verdicts {
        let first = first.map_or("never".into(), |index| index.to_string());
        println!("{first:>8} {differs:>8}  {fault:?}: {}", fault.text());
    }
    let told = verdicts.iter().filter(|verdict| verdict.first.is_some()).count();
    println!("{told} of {} faults told apart", verdicts.len());
    told == verdicts.len()
}

fn run_bench(arguments: &Arguments) -> Result<ExitCode, String> {
    arguments.allow(&["ms", "only", "write"], 0)?;
    let only = arguments.text("only").unwrap_or("");
    let budget = Duration::from_millis(arguments.number("ms", 120)?);
    let proved = ffi::library();
    let check = |subject: &bench::Subject| {
        bench::time_check(subject, proved.map(|library| library.check), &exact, budget)
    };
    let rows = |subjects: Vec<bench::Subject>| {
        subjects.iter().filter(|subject| subject.name.contains(only)).map(check).collect()
    };
    let results = Results {
        checks: rows(bench::subjects()),
        terms: rows(bench::doubling(Share::Term)),
        doubling: rows(bench::doubling(Share::Step)),
        writers: Names::ALL.map(|names| {
            let proved = proved.map(|library| library.expand);
            bench::jobs()
                .iter()
                .filter(|job| job.name.contains(only))
                .map(|job| bench::time_writer(job, names, proved, &exact_expand, budget))
                .collect()
        }),
        readers: bench::texts()
            .iter()
            .filter(|typed| typed.name.contains(only))
            .map(|typed| {
                let proved = proved.map(|library| library.read);
                bench::time_reader(typed, proved, &exact_read, budget)
            })
            .collect(),
    };
    print!("{}", results.text());
    if let Some(folder) = arguments.text("write") {
        let folder = Path::new(folder);
        fs::create_dir_all(folder)
            .map_err(|error| format!("cannot make {}: {error}", folder.display()))?;
        for (name, text) in
            [("BENCHMARK.md", results.markdown()), ("benchmark.svg", plot::svg(&results))]
        {
            let path = folder.join(name);
            fs::write(&path, text)
                .map_err(|error| format!("cannot write {}: {error}", path.display()))?;
            println!("written {}", path.display());
        }
    }
    Ok(ExitCode::SUCCESS)
}

fn run_check(arguments: &Arguments) -> Result<ExitCode, String> {
    arguments.allow(&[], 1)?;
    let mut file = Vec::new();
    match arguments.plain().first() {
        Some(path) => file = read(path)?,
        None => {
            io::stdin()
                .take(65_536)
                .read_to_end(&mut file)
                .map_err(|error| format!("cannot read standard input: {error}"))?;
        }
    }
    let mut free = vec![0; MAX_SETS];
    print!("{}", answer::line(check::check(&file, &mut free)));
    Ok(ExitCode::SUCCESS)
}

fn run_smt(arguments: &Arguments) -> Result<ExitCode, String> {
    arguments.allow(&[], 1)?;
    let path = arguments.plain().first().ok_or("smt needs a file")?;
    let plain =
        naive::load(&read(path)?, MAX_SETS).map_err(|refusal| format!("{path}: {refusal}"))?;
    let query = smt::query(&plain).ok_or(format!(
        "{path}: a side of the claim is too long to write out, or holds a choice"
    ))?;
    print!("{query}");
    Ok(ExitCode::SUCCESS)
}

fn run_expand(arguments: &Arguments) -> Result<ExitCode, String> {
    arguments.allow(&["rename"], 2)?;
    let [job, out] = arguments.plain() else {
        return Err("expand needs a job and the file to write".into());
    };
    let names = if arguments.flag("rename") { Names::RenameAll } else { Names::Keep };
    match expand::written(&read(job)?, names) {
        Ok(file) => {
            write(out, &file)?;
            println!("written {}", file.len());
        }
        Err(refusal) => println!("{refusal}"),
    }
    Ok(ExitCode::SUCCESS)
}

fn run_read(arguments: &Arguments) -> Result<ExitCode, String> {
    arguments.allow(&[], 3)?;
    let [declarations, text, out] = arguments.plain() else {
        return Err("read needs declarations, a text and the job to write".into());
    };
    match reader::job(&read(declarations)?, &read(text)?) {
        Ok(job) => {
            write(out, &job)?;
            println!("written {}", job.len());
        }
        Err(refusal) => println!("{refusal}"),
    }
    Ok(ExitCode::SUCCESS)
}

fn run_vectors(arguments: &Arguments) -> Result<ExitCode, String> {
    arguments.allow(&["moves", "until", "self"], 1)?;
    let path = arguments.plain().first().ok_or("vectors needs a file")?;
    let text = read_text(path)?;
    let name = Path::new(path).file_stem().unwrap_or_default().to_string_lossy();
    let moved = match arguments.text("moves") {
        Some(moves) => {
            let until = arguments.number("until", u64::from(u32::MAX))?;
            vectors::moves(&read_text(moves)?, &name, until.try_into().unwrap_or(u32::MAX))?
        }
        None => Default::default(),
    };
    let rust = Party {
        name: "Rust",
        check: &exact,
        expand: &exact_expand,
        read: &exact_read,
        links: &exact_links,
        longest_text: usize::MAX,
    };
    let plain = Party {
        name: "the plain reading",
        check: &plain,
        expand: &plain_expand,
        read: &plain_read,
        links: &plain_links,
        longest_text: vectors::SHORT,
    };
    let mut parties = vec![rust, plain];
    let alone = arguments.flag("self");
    if !alone {
        let Library { check, expand, read, links } = library()?;
        let longest_text = usize::MAX;
        parties.push(Party { name: "the library", check, expand, read, links, longest_text });
    }
    let report = vectors::run(&text, &moved, &parties);
    if report.cases == 0 {
        return Err(format!("{path} has no case"));
    }
    print!("{report}");
    println!("{}", verdict(report.agrees(), alone));
    Ok(if report.agrees() { ExitCode::SUCCESS } else { ExitCode::FAILURE })
}

fn read_text(path: &str) -> Result<String, String> {
    fs::read_to_string(path).map_err(|error| format!("cannot read {path}: {error}"))
}

fn run_file(arguments: &Arguments) -> Result<ExitCode, String> {
    arguments.allow(&["seed", "index", "out", "job", "text"], 0)?;
    let seed = arguments.number("seed", 1)?;
    let index = arguments.number("index", 0)?;
    let out = arguments.text("out").ok_or("file needs --out FILE")?;
    if arguments.flag("text") {
        let case = generate::texts::case(seed, index);
        write(out, &case.text)?;
        write(&format!("{out}.bin"), &case.declarations)?;
        return Ok(ExitCode::SUCCESS);
    }
    let bytes = if arguments.flag("job") {
        generate::jobs::job(seed, index).bytes
    } else {
        generate::case(seed, index).bytes
    };
    write(out, &bytes)?;
    Ok(ExitCode::SUCCESS)
}

fn read(path: &str) -> Result<Vec<u8>, String> {
    fs::read(path).map_err(|error| format!("cannot read {path}: {error}"))
}

fn write(path: &str, bytes: &[u8]) -> Result<(), String> {
    fs::write(path, bytes).map_err(|error| format!("cannot write {path}: {error}"))
}
