//! The two forms of the comparison as lists of jobs. Every job has a stream
//! of random numbers of its own, so threads take jobs in any order.

use judge::length::{Length, LONGEST};

use crate::calls::Calls;
use crate::claim::Ground;
use crate::program::{Program, Programs};
use crate::{axles, kinds, limits, listings, packed, packing, passage, prime};
use crate::{records, refusals, sections};

/// How much of everything. Lengths are in bits.
pub struct Amounts {
    /// Digests and produced assignments at every length.
    digests: usize,
    produced: usize,
    /// Rows of padding, changed block bits and assignments packed and unpacked
    /// at lengths that are multiples of this, counted from one drawn by the
    /// seed, and at lengths beside block ends. Steps are odd, so that records
    /// end at every place of a byte.
    padding_step: u64,
    packed: usize,
    block_bit_claims: usize,
    /// Rows, checks and records that are refused although there is room for
    /// their results, at such lengths by this step.
    length_step: u64,
    sampled_rows: usize,
    some_damages: usize,
    /// Lengths with whole tables of rows and whole listings of the programs.
    tables: Vec<u64>,
    /// Lengths with every way of damage, and how often.
    damaged: Vec<(u64, usize)>,
    /// Lengths with wires turned over, and the step from wire to wire.
    wires: Vec<(u64, usize)>,
    several_wires: usize,
    /// Lengths with changes placed by the kind of the wire and by the block,
    /// and how many for each.
    kinds: Vec<(u64, usize)>,
    /// Lengths with all refusals, and how often each choice of faults.
    refused: Vec<(u64, usize)>,
    /// Right lines, and as many damaged ones, to `rows` and to `steps`.
    lines: usize,
    /// Claims at random lengths, and as many damaged lines, to `packed`.
    claims: usize,
    limits: limits::Amounts,
    passages: passage::Amounts,
    axles: axles::Amounts,
}

impl Amounts {
    /// For the gate: a minute at most on two cores.
    pub fn short() -> Amounts {
        Amounts {
            digests: 2,
            produced: 1,
            padding_step: 15,
            packed: 1,
            block_bit_claims: 1,
            length_step: 91,
            sampled_rows: 200,
            some_damages: 3,
            tables: vec![0, 451, 8127],
            damaged: vec![(75, 40), (802, 12), (8127, 1)],
            wires: vec![(447, 61), (957, 997), (8127, 40_009)],
            several_wires: 20,
            kinds: vec![(447, 20), (958, 10), (8127, 1)],
            refused: vec![(0, 2), (3, 2), (453, 1)],
            lines: 40,
            claims: 10,
            limits: limits::Amounts::short(),
            passages: passage::Amounts::short(),
            axles: axles::Amounts::short(),
        }
    }

    pub fn full() -> Amounts {
        Amounts {
            digests: 16,
            produced: 2,
            padding_step: 1,
            packed: 1,
            block_bit_claims: 2,
            length_step: 11,
            sampled_rows: 1_000,
            some_damages: 8,
            tables: all_blocks(),
            damaged: vec![
                (0, 100),
                (75, 400),
                (447, 400),
                (802, 200),
                (957, 200),
                (4003, 20),
                (8127, 20),
            ],
            wires: vec![(0, 7), (447, 1), (957, 13), (8127, 997)],
            several_wires: 400,
            kinds: vec![(0, 50), (447, 200), (958, 100), (4003, 10), (8127, 5)],
            refused: vec![
                (0, 20),
                (3, 20),
                (446, 20),
                (448, 10),
                (453, 10),
                (4003, 2),
                (8127, 2),
            ],
            lines: 1_000,
            claims: 200,
            limits: limits::Amounts::full(),
            passages: passage::Amounts::full(),
            axles: axles::Amounts::full(),
        }
    }
}

/// A length for every number of blocks, and some more.
fn all_blocks() -> Vec<u64> {
    let more = [0, 1, 249, 256, 440, 448, 511, 512, 513, 958, 960, 4003];
    (1..=16)
        .map(|blocks| 512 * blocks - 65)
        .chain(more)
        .collect()
}

type Work = Box<dyn Fn(&mut Calls) + Send + Sync>;

/// A piece of the comparison, by name.
pub struct Job {
    pub name: String,
    pub work: Work,
}

pub fn job(name: String, work: impl Fn(&mut Calls) + Send + Sync + 'static) -> Job {
    let work = Box::new(work);
    Job { name, work }
}

/// Wires that one job turns over.
const WIRES_A_JOB: usize = 500;

/// Lengths on both sides of where the number of blocks changes, and where the
/// record fills blocks; the longest is one of them.
fn beside_block_end(length: u64) -> bool {
    matches!(length % 512, 0 | 1 | 447 | 448 | 511)
}

/// Lengths that are sampled by a step, which is odd.
fn sampled(step: u64, seed: u64, length: u64) -> bool {
    length % step == seed % step || beside_block_end(length)
}

/// All jobs. Those that take long stand first, so that no thread is left
/// alone with one at the end.
pub fn jobs(amounts: &Amounts, seed: u64, programs: &Programs) -> Vec<Job> {
    let mut jobs = Vec::new();
    for &length in amounts.tables.iter().rev() {
        jobs.push(job(
            format!("whole table of length {length}"),
            move |calls| {
                sections::whole_table(calls, &Ground::new(length));
            },
        ));
    }
    claim_jobs(&mut jobs, amounts, seed);
    refusal_jobs(&mut jobs, amounts);
    jobs.extend(limits::jobs(&amounts.limits));
    packed_jobs(&mut jobs, amounts, &programs.packed);
    jobs.extend(passage::jobs(&amounts.passages));
    jobs.extend(axles::jobs(&amounts.axles, programs));
    listing_jobs(&mut jobs, amounts, seed, &programs.rows);
    listing_jobs(&mut jobs, amounts, seed, &programs.steps);
    length_jobs(&mut jobs, amounts, seed);
    jobs
}

/// Claims damaged, changed kind by kind and with wires turned over, and those
/// of other lengths.
fn claim_jobs(jobs: &mut Vec<Job>, amounts: &Amounts, seed: u64) {
    for &(length, count) in amounts.damaged.iter().rev() {
        jobs.push(job(format!("damages at length {length}"), move |calls| {
            sections::damages(calls, &Ground::new(length), count);
        }));
    }
    for &(length, count) in amounts.kinds.iter().rev() {
        jobs.push(job(
            format!("kind by kind at length {length}"),
            move |calls| {
                let ground = Ground::new(length);
                kinds::each_kind(calls, &ground, count);
                kinds::single_shifts(calls, &ground, count);
                kinds::two_changes(calls, &ground, 20 * count);
                kinds::other_beginnings(calls, &ground, count);
            },
        ));
        jobs.push(job(
            format!("entries of p or more at length {length}"),
            move |calls| {
                let ground = Ground::new(length);
                let right = ground.claim(&mut calls.random);
                let wires = kinds::wires(ground.length, count.div_ceil(5), &mut calls.random);
                let (check, pack) = (prime::check(&ground), prime::pack(ground.length));
                prime::all(calls, &right, &wires, 4 * count, &check);
                prime::all(calls, &right, &wires, 4 * count, &pack);
            },
        ));
    }
    for &(length, step) in amounts.wires.iter().rev() {
        wire_jobs(jobs, length, step, amounts.several_wires, seed);
    }
    for length in [27, 447, 805] {
        jobs.push(job(
            format!("other lengths' claims at {length}"),
            move |calls| {
                sections::other_lengths(calls, &Ground::new(length));
            },
        ));
    }
}

/// All refusals of the library.
fn refusal_jobs(jobs: &mut Vec<Job>, amounts: &Amounts) {
    for &(length, times) in amounts.refused.iter().rev() {
        jobs.push(job(format!("refusals at length {length}"), move |calls| {
            let ground = Ground::new(length);
            records::buffers(calls, ground.length);
            records::faults(calls, ground.length, 4 * times);
            refusals::rows(calls, &ground);
            refusals::row_faults(calls, &ground, 4 * times);
            refusals::checks(calls, &ground, times);
            refusals::lengths_above(calls, &ground);
            refusals::overlapping(calls, &ground, 4 * times);
        }));
        let name = format!("refusals of packing at length {length}");
        jobs.push(job(name, move |calls| {
            let length = Length::new(length).expect("a length in range");
            packing::refusals(calls, length, times);
            packing::no_bits(calls, length, times);
            packing::spare_bits(calls, length);
            packing::all_sizes(calls, length);
            packing::lengths_above(calls, length);
        }));
    }
}

/// The program `packed`: claims of some lengths, bad lines, and every refusal.
fn packed_jobs(jobs: &mut Vec<Job>, amounts: &Amounts, program: &Program) {
    for length in [8127, 960, 959, 453, 448, 447, 440, 3, 0] {
        let program = program.clone();
        let name = format!("claims of length {length} to packed");
        jobs.push(job(name, move |calls| {
            packed::claims(&program, calls, length);
        }));
    }
    for &(length, times) in amounts.refused.iter().rev() {
        let program = program.clone();
        let name = format!("refusals of packed at length {length}");
        jobs.push(job(name, move |calls| {
            packed::faults(&program, calls, length, times);
        }));
    }
    let (program, count) = (program.clone(), amounts.claims);
    jobs.push(job(String::from("lines to packed"), move |calls| {
        packed::bad_lines(&program, calls);
        packed::random(&program, calls, count);
    }));
}

/// `rows` or `steps`: right and damaged lines, all rows of some lengths, and the
/// block bits where the record ends at the sampled lengths.
fn listing_jobs(jobs: &mut Vec<Job>, amounts: &Amounts, seed: u64, program: &Program) {
    for &length in amounts.tables.iter().rev() {
        let name = format!("all rows of length {length} by {}", program.name);
        let program = program.clone();
        jobs.push(job(name, move |calls| {
            listings::all_rows(&program, calls, length);
        }));
    }
    let (lines, count) = (program.clone(), amounts.lines);
    jobs.push(job(format!("lines to {}", program.name), move |calls| {
        listings::lines(&lines, calls, count);
    }));
    let step = amounts.length_step;
    for length in (0..=LONGEST).filter(|&length| sampled(step, seed, length)) {
        let name = format!("the end of a record of {length} bits by {}", program.name);
        let program = program.clone();
        jobs.push(job(name, move |calls| {
            listings::record_end(&program, calls, length);
        }));
    }
}

/// Wires of one length turned over, some hundreds a job.
fn wire_jobs(jobs: &mut Vec<Job>, length: u64, step: usize, several: usize, seed: u64) {
    // Wire 0 is left out; the wires begin anywhere below the step.
    let first = 1 + seed as usize % step;
    let wires = Length::new(length).map_or(0, Length::wires);
    for begin in (first..wires).step_by(step * WIRES_A_JOB) {
        let end = wires.min(begin + step * WIRES_A_JOB);
        let name = format!(
            "wires {begin} to {} turned over at length {length}",
            end - 1
        );
        jobs.push(job(name, move |calls| {
            sections::each_wire(calls, &Ground::new(length), begin, end, step);
        }));
    }
    // Fewer of them at long records, which take longer.
    let count = several / (1 + length as usize / 512);
    jobs.push(job(
        format!("several wires turned over at length {length}"),
        move |calls| {
            sections::several_wires(calls, &Ground::new(length), count);
        },
    ));
}

/// Every length from the longest down.
fn length_jobs(jobs: &mut Vec<Job>, amounts: &Amounts, seed: u64) {
    let (digests, produced) = (amounts.digests, amounts.produced);
    for bits in (0..=LONGEST).rev() {
        if sampled(amounts.length_step, seed, bits) {
            jobs.push(sampled_job(amounts, bits));
        }
        if sampled(amounts.padding_step, seed, bits) {
            jobs.push(padding_job(amounts, bits));
        }
        jobs.push(job(format!("records of {bits} bits"), move |calls| {
            let length = Length::new(bits).expect("a length in range");
            sections::digests(calls, bits, digests);
            sections::produced(calls, bits, produced);
            records::bits_after(calls, length, records::NO_ROOM);
            records::a_byte_off(calls, length, records::NO_ROOM);
        }));
    }
}

/// Where the record ends, and what of it needs no whole table.
fn padding_job(amounts: &Amounts, bits: u64) -> Job {
    let (packed, claims) = (amounts.packed, amounts.block_bit_claims);
    job(format!("padding of {bits} bits"), move |calls| {
        packing::records(calls, bits, packed);
        sections::block_bit_rows(calls, bits);
        sections::block_bit_claims(calls, bits, claims);
    })
}

/// Rows, checks and sizes, most of which need the whole table.
fn sampled_job(amounts: &Amounts, bits: u64) -> Job {
    let (rows, damages) = (amounts.sampled_rows, amounts.some_damages);
    job(format!("rows and claims of {bits} bits"), move |calls| {
        let ground = Ground::new(bits);
        sections::sampled_rows(calls, &ground, rows);
        refusals::edges(calls, &ground);
        let sizes = records::exact(ground.length);
        records::bits_after(calls, ground.length, sizes);
        records::a_byte_off(calls, ground.length, sizes);
        records::other_byte_counts(calls, ground.length);
        packing::edges(calls, ground.length);
        packing::random_bytes(calls, ground.length);
        sections::right_claims(calls, &ground);
        sections::some_damages(calls, &ground, damages);
    })
}
