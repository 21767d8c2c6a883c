//! Compares the C libraries libsm3rows.a and libpassage_c.a with the judge, the
//! digest with OpenSSL's too, and the programs `rows`, `steps`, `packed`,
//! `axle_rows` and `axle_steps` with the judge.
//!
//! `compare --rows FILE --steps FILE --packed FILE --axle-rows FILE
//! --axle-steps FILE [--short | --full] [--seed N] [--threads N] [--only WORD]`
//! `compare --soak MINUTES [--seed N]`
//!
//! With a word, only those jobs are done that have it in their names. They make
//! the calls that they make among all.
//!
//! Leaves with 0 when nothing differs, with 1 when something does, with 2
//! when the arguments are not understood.

mod answers;
mod axles;
mod calls;
mod claim;
mod damage;
mod forge;
mod kinds;
mod lent;
mod limits;
mod listings;
mod openssl;
mod packed;
mod packing;
mod passage;
mod plan;
mod prime;
mod program;
mod random;
mod records;
mod refusals;
mod sections;
mod soak;
mod tally;

use std::collections::BTreeMap;
use std::io::{stderr, IsTerminal, Write};
use std::path::PathBuf;
use std::process::ExitCode;
use std::sync::atomic::{AtomicUsize, Ordering};
use std::sync::Mutex;
use std::thread;
use std::time::{Duration, Instant};

use calls::Calls;
use plan::{Amounts, Job};
use program::{Program, Programs};
use tally::{Tally, TOLD};

const USAGE: &str =
    "usage: compare --rows FILE --steps FILE --packed FILE --axle-rows FILE --axle-steps FILE
               [--short | --full] [--seed N] [--threads N] [--only WORD]
       compare --soak MINUTES [--seed N]";

/// The form: a comparison, which needs the programs, or the soak.
enum Form {
    Compare { full: bool, programs: Box<Programs> },
    Soak(Duration),
}

struct Options {
    form: Form,
    seed: u64,
    threads: usize,
    only: String,
}

/// The programs by the options that name their files.
fn programs(mut files: BTreeMap<&str, PathBuf>) -> Option<Programs> {
    Some(Programs {
        rows: Program::rows(files.remove("--rows")?),
        steps: Program::steps(files.remove("--steps")?),
        packed: Program::packed(files.remove("--packed")?),
        axle_rows: Program::axle_rows(files.remove("--axle-rows")?),
        axle_steps: Program::axle_steps(files.remove("--axle-steps")?),
    })
}

fn options(arguments: &[String]) -> Option<Options> {
    let (mut full, mut minutes, mut seed) = (false, None, 1);
    let mut only = String::new();
    let mut files = BTreeMap::new();
    let mut threads = thread::available_parallelism().map_or(1, |n| n.get());
    let mut words = arguments.iter().map(String::as_str);
    while let Some(word) = words.next() {
        match word {
            "--short" => full = false,
            "--full" => full = true,
            "--soak" => minutes = Some(words.next()?.parse::<f64>().ok()?),
            "--seed" => seed = words.next()?.parse().ok()?,
            "--threads" => threads = words.next()?.parse().ok()?,
            "--only" => only = String::from(words.next()?),
            "--rows" | "--steps" | "--packed" | "--axle-rows" | "--axle-steps" => {
                files.insert(word, PathBuf::from(words.next()?));
            }
            _ => return None,
        }
    }
    let form = match minutes {
        Some(minutes) => Form::Soak(Duration::try_from_secs_f64(60.0 * minutes).ok()?),
        None => Form::Compare {
            full,
            programs: Box::new(programs(files)?),
        },
    };
    Some(Options {
        form,
        seed,
        threads,
        only,
    })
}

/// A line that is written over on a terminal, and every 10 s elsewhere.
fn progress(begin: Instant, told: &Mutex<Instant>, done: usize, of: usize, name: &str) {
    let mut told = told.lock().expect("no thread panicked");
    let (every, end) = if stderr().is_terminal() {
        (Duration::from_millis(200), "\x1b[K\r")
    } else {
        (Duration::from_secs(10), "\n")
    };
    if told.elapsed() >= every {
        let seconds = begin.elapsed().as_secs();
        let _ = write!(stderr(), "{seconds:>5} s, {done} of {of} jobs, {name}{end}");
        *told = Instant::now();
    }
}

/// Does the jobs with that word in their names on some threads; stops early when
/// much differs. Each has the stream of its number among all.
fn compare(jobs: &[Job], seed: u64, threads: usize, only: &str) -> Tally {
    let (begin, told) = (Instant::now(), Mutex::new(Instant::now()));
    let (next, total) = (AtomicUsize::new(0), Mutex::new(Tally::default()));
    let work = || loop {
        let number = next.fetch_add(1, Ordering::Relaxed);
        let Some(job) = jobs.get(number) else { break };
        if !job.name.contains(only) {
            continue;
        }
        progress(begin, &told, number, jobs.len(), &job.name);
        let mut calls = Calls::new(seed, number as u64);
        (job.work)(&mut calls);
        let mut total = total.lock().expect("no thread panicked");
        total.add(calls.tally);
        if total.differences.len() >= TOLD {
            break;
        }
    };
    thread::scope(|scope| {
        for _ in 0..threads.max(1) {
            scope.spawn(work);
        }
    });
    total.into_inner().expect("no thread panicked")
}

/// The comparison with its report. True when nothing differs.
fn report(full: bool, programs: &Programs, seed: u64, threads: usize, only: &str) -> bool {
    let (amounts, form) = if full {
        (Amounts::full(), "full")
    } else {
        (Amounts::short(), "short")
    };
    println!("{form} comparison, seed {seed}, {threads} threads");
    let begin = Instant::now();
    let jobs = plan::jobs(&amounts, seed, programs);
    if !jobs.iter().any(|job| job.name.contains(only)) {
        println!("no job has '{only}' in its name");
        return false;
    }
    let tally = compare(&jobs, seed, threads, only);
    println!("{tally}");
    for difference in tally.differences.iter().take(TOLD) {
        println!("DIFFERS: {difference}");
    }
    let (calls, seconds) = (tally.calls(), begin.elapsed().as_secs());
    match tally.differences.len() {
        0 => println!("{calls} calls in {seconds} s, no difference"),
        many => println!("{calls} calls in {seconds} s, {many} or more differences"),
    }
    tally.differences.is_empty()
}

fn main() -> ExitCode {
    let arguments: Vec<String> = std::env::args().skip(1).collect();
    let Some(options) = options(&arguments) else {
        eprintln!("{USAGE}");
        return ExitCode::from(2);
    };
    let (seed, threads) = (options.seed, options.threads);
    let same = match options.form {
        Form::Compare { full, programs } => report(full, &programs, seed, threads, &options.only),
        Form::Soak(time) => soak::soak(seed, time),
    };
    ExitCode::from(u8::from(!same))
}
