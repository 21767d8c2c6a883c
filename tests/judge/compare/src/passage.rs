//! The passage library beside the judge, topic by topic, as jobs of the plan.

mod calls;
mod faults;
pub mod fields;
mod lines;
mod plates;
mod seals;
pub mod soak;
mod writes;

use crate::plan::{job, Job};

/// How much of everything.
pub struct Amounts {
    /// Lines with every byte at every place, for each count of letters and
    /// digits that a plate may have.
    lines: usize,
    /// How often patterns of plates, pairs of wrong bytes and choices of faults.
    times: usize,
    /// Jobs of fields written and read, and of as many damaged lines.
    there_and_back: usize,
    /// Lines sealed, damages of one in every way, and the step from length to
    /// length of other records.
    sealed: usize,
    damages: usize,
    length_step: usize,
}

impl Amounts {
    pub fn short() -> Amounts {
        Amounts {
            lines: 1,
            times: 1,
            there_and_back: 2,
            sealed: 20,
            damages: 5,
            length_step: 128,
        }
    }

    pub fn full() -> Amounts {
        Amounts {
            lines: 10,
            times: 20,
            there_and_back: 100,
            sealed: 1_000,
            damages: 200,
            length_step: 1,
        }
    }
}

/// Lines that one job writes and reads.
const LINES_A_JOB: usize = 10_000;

/// All jobs, those that take long first.
pub fn jobs(amounts: &Amounts) -> Vec<Job> {
    let mut jobs = Vec::new();
    seal_jobs(&mut jobs, amounts);
    line_jobs(&mut jobs, amounts);
    jobs
}

/// Sealed lines and their check.
fn seal_jobs(jobs: &mut Vec<Job>, amounts: &Amounts) {
    let &Amounts {
        times,
        sealed,
        damages,
        length_step,
        ..
    } = amounts;
    jobs.push(job(String::from("sealed lines damaged"), move |calls| {
        let ground = seals::ground();
        seals::damages(calls, &ground, damages);
        seals::digest_bits(calls, &ground);
    }));
    let name = String::from("entries of p or more in sealed lines");
    jobs.push(job(name, move |calls| {
        seals::from_prime(calls, &seals::ground(), times);
    }));
    jobs.push(job(String::from("sealed lines"), move |calls| {
        let ground = seals::ground();
        seals::right(calls, &ground, sealed);
        seals::other_records(calls, &ground, length_step);
    }));
    jobs.push(job(String::from("refusals of seals"), move |calls| {
        let ground = seals::ground();
        seals::buffers(calls);
        faults::seals(calls, 4 * times);
        seals::sizes(calls, &ground);
        seals::faults(calls, &ground, times);
        seals::overlapping(calls, &ground, 10 * times);
    }));
}

/// Lines that are read and fields that are written.
fn line_jobs(jobs: &mut Vec<Job>, amounts: &Amounts) {
    let times = amounts.times;
    for filled in (1..=10).cycle().take(10 * amounts.lines) {
        let name = format!("every byte of a line with {filled} letters");
        jobs.push(job(name, move |calls| {
            lines::every_byte(calls, filled);
            writes::every_byte(calls, filled);
        }));
    }
    for _ in 0..amounts.there_and_back {
        jobs.push(job(String::from("lines there and back"), |calls| {
            writes::there_and_back(calls, LINES_A_JOB);
            lines::damages(calls, LINES_A_JOB);
        }));
    }
    jobs.push(job(String::from("wrong lines"), move |calls| {
        lines::two_wrong_bytes(calls, times);
        plates::patterns(calls, times);
        lines::lengths(calls);
        faults::reads(calls, 100 * times);
    }));
    jobs.push(job(
        String::from("numbers and wrong fields"),
        move |calls| {
            lines::numbers(calls);
            writes::numbers(calls);
            writes::choices_of_numbers(calls);
            writes::two_wrong_fields(calls);
            writes::sizes(calls);
            writes::buffers(calls);
            writes::parts_of_one_slice(calls);
            faults::writes(calls, 100 * times);
        },
    ));
}
