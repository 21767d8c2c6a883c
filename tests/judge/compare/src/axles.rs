//! The circuit of axles between two bounds beside the judge, topic by topic, as
//! jobs of the plan.

mod bands;
mod bounds;
mod calls;
mod claims;
mod damages;
mod digits;
mod faults;
mod forged;
mod lines;
mod rows;
pub mod soak;

use host::axles::Pair;

use crate::calls::Calls;
use crate::claim::Ground;
use crate::plan::{job, Job};
use crate::program::{Program, Programs};
use claims::LINE_BITS;

/// How much of everything.
pub struct Amounts {
    /// Whether each number of axles is tried under all bounds, or under those
    /// that it stands at and beside.
    every_pair: bool,
    /// Records produced and checked by all rows of the judge.
    produced: usize,
    /// Bounds with every pair of bytes in the place of the digits.
    byte_pairs: Vec<Pair>,
    /// How often each number of axles has its appended entries made to fit, and
    /// each choice of faults.
    times: usize,
    /// Claims with each appended wire set to other values, and claims damaged
    /// in every way.
    appended: usize,
    damaged: usize,
    /// Rows at random, and bounds with whole tables of rows and whole listings.
    sampled_rows: usize,
    tables: Vec<Pair>,
    listed: Vec<Pair>,
    /// Right lines, and as many damaged ones, to each program.
    lines: usize,
}

impl Amounts {
    pub fn short() -> Amounts {
        Amounts {
            every_pair: false,
            produced: 20,
            byte_pairs: vec![[2, 99]],
            times: 1,
            appended: 6,
            damaged: 5,
            sampled_rows: 2_000,
            tables: vec![],
            listed: vec![[2, 99], [37, 37]],
            lines: 40,
        }
    }

    pub fn full() -> Amounts {
        let tables = vec![[2, 99], [2, 2], [99, 99], [2, 5], [9, 10], [37, 64]];
        Amounts {
            every_pair: true,
            produced: 1_000,
            byte_pairs: vec![[2, 99], [2, 2], [99, 99], [9, 10], [30, 69]],
            times: 20,
            appended: 100,
            damaged: 200,
            sampled_rows: 100_000,
            listed: tables.clone(),
            tables,
            lines: 1_000,
        }
    }
}

/// All jobs, those that take long first.
pub fn jobs(amounts: &Amounts, programs: &Programs) -> Vec<Job> {
    let mut jobs = Vec::new();
    for program in [&programs.axle_rows, &programs.axle_steps] {
        program_jobs(&mut jobs, amounts, program);
    }
    row_jobs(&mut jobs, amounts);
    claim_jobs(&mut jobs, amounts);
    fault_jobs(&mut jobs, amounts);
    let every_pair = amounts.every_pair;
    for axles in (0..=99).rev() {
        push(&mut jobs, &format!("bands of {axles}"), move |calls| {
            bands::axles(calls, axles, every_pair);
        });
    }
    jobs
}

/// A job by what it is about.
fn push(jobs: &mut Vec<Job>, about: &str, work: impl Fn(&mut Calls) + Send + Sync + 'static) {
    jobs.push(job(format!("axles: {about}"), work));
}

/// Whole listings and lines of one program.
fn program_jobs(jobs: &mut Vec<Job>, amounts: &Amounts, program: &Program) {
    for &pair in &amounts.listed {
        let (about, program) = (format!("all rows by {}", program.name), program.clone());
        push(jobs, &about, move |calls| {
            lines::all_rows(&program, calls, pair);
        });
    }
    let (about, program) = (format!("lines to {}", program.name), program.clone());
    let count = amounts.lines;
    push(jobs, &about, move |calls| {
        lines::lines(&program, calls, count)
    });
}

/// Lower bounds of which one job takes all rows that are appended.
const LOWERS_A_JOB: usize = 14;

fn row_jobs(jobs: &mut Vec<Job>, amounts: &Amounts) {
    for &pair in &amounts.tables {
        push(jobs, "a whole table of rows", move |calls| {
            rows::whole_table(calls, pair);
        });
    }
    for lower in (2..=99).step_by(LOWERS_A_JOB) {
        push(jobs, "appended rows", move |calls| {
            rows::appended(calls, lower..lower + LOWERS_A_JOB as u64);
        });
    }
    let count = amounts.sampled_rows;
    push(jobs, "sampled rows", move |calls| {
        rows::sampled(calls, count);
        rows::limits(calls);
    });
}

/// Claims, right, damaged and forged.
fn claim_jobs(jobs: &mut Vec<Job>, amounts: &Amounts) {
    let &Amounts {
        produced,
        times,
        appended,
        damaged,
        ..
    } = amounts;
    push(jobs, "records produced", move |calls| {
        bands::produced(calls, produced);
    });
    push(jobs, "appended wires changed", move |calls| {
        damages::each_appended(calls, appended);
    });
    push(jobs, "entries of p or more", move |calls| {
        damages::from_prime(calls, &mut Ground::new(LINE_BITS), times);
    });
    push(jobs, "claims damaged", move |calls| {
        let mut ground = Ground::new(LINE_BITS);
        damages::plain_records(calls, &ground, damaged);
        damages::any_entries(calls, &mut ground, damaged);
        damages::each_digit_wire(calls, &mut ground);
        damages::overlapping(calls, &mut ground, 2 * damaged);
        damages::digest_bits(calls);
    });
    push(jobs, "appended entries made to fit", move |calls| {
        for axles in (0..=99).cycle().take(100 * times) {
            forged::made_to_fit(calls, axles);
        }
    });
    for tens_too in [true, false] {
        push(jobs, "any byte for a digit", move |calls| {
            digits::every_byte(calls, tens_too);
        });
    }
    for &pair in &amounts.byte_pairs {
        push(jobs, "any bytes for digits", move |calls| {
            digits::every_pair(calls, pair);
        });
    }
}

/// Bounds, sizes and all choices of faults.
fn fault_jobs(jobs: &mut Vec<Job>, amounts: &Amounts) {
    let times = amounts.times;
    push(jobs, "wrong bounds", bounds::refused);
    push(jobs, "faults", move |calls| {
        let wrong = bounds::refused_pairs();
        rows::faults(calls, &wrong, 20 * times);
        faults::produces(calls, &wrong, 8 * times);
        faults::checks(calls, &wrong, times);
        faults::record_sizes(calls);
        faults::buffers(calls);
        faults::check_sizes(calls);
    });
}
