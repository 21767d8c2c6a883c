//! The speed of libsm3rows.a beside OpenSSL, libgcrypt, plain C and the judge,
//! and of libpassage_c.a beside plain C and libsm3rows.a, in one run:
//! `bench [--runs N] [--csv FILE] [--program FILE] [--without FEATURE]`.

mod axles;
mod baseline;
mod checks;
mod inside;
mod libgcrypt;
mod measures;
mod packing;
mod passages;
mod timing;

use std::fmt::Write;
use std::fs;
use std::path::Path;
use std::process::ExitCode;

use judge::length::Length;

use inside::Pair;
use measures::OURS;
use timing::Figure;

// All lengths are in bits.

/// Records of 0, 63 and 1,015 bytes, for the digest beside the libraries.
const DIGESTS: [u64; 3] = [0, 504, 8120];

/// Records of 1, 2, 4, 8 and 16 blocks, the longest of each that are whole
/// bytes.
const GROWTH: [u64; 5] = [440, 952, 1976, 4024, 8120];

/// Those of 1, 2 and 16 blocks, at which the check and packing are timed on
/// other claims too.
const OTHER_CLAIMS: [u64; 3] = [440, 952, 8120];

/// Records that end inside a byte, each beside one of whole bytes that has as
/// many blocks.
const DIGESTS_INSIDE: [Pair; 3] = [[501, 504], [8117, 8120], [8127, 8120]];
const PRODUCERS_INSIDE: [Pair; 3] = [[437, 440], [8117, 8120], [8127, 8120]];

struct Options {
    runs: u32,
    csv: Option<String>,
    program: Option<String>,
    /// A feature of the processor that libgcrypt is to leave aside.
    without: Option<String>,
}

fn options(arguments: &[String]) -> Option<Options> {
    let mut options = Options {
        runs: 15,
        csv: None,
        program: None,
        without: None,
    };
    let mut words = arguments.iter();
    while let Some(word) = words.next() {
        let value = words.next()?;
        match word.as_str() {
            "--runs" => options.runs = value.parse().ok()?,
            "--csv" => options.csv = Some(value.clone()),
            "--program" => options.program = Some(value.clone()),
            "--without" => options.without = Some(value.clone()),
            _ => return None,
        }
    }
    Some(options)
}

/// The target of a ratio, where the measure has one beside that side.
fn target(measure: &str, side: &str) -> Option<f64> {
    match (measure, side) {
        ("digest" | "digest-inside", "openssl") => Some(0.9),
        ("digest" | "digest-inside", "libgcrypt") => Some(1.1),
        ("produce" | "produce-inside", "c-loop") => Some(1.5),
        ("check" | "check-refused", "c-sparse") => Some(0.25),
        (hostile, "c-sparse") if hostile.starts_with("check-hostile") => Some(0.25),
        ("pack" | "unpack", "c-loop") => Some(1.0),
        _ => None,
    }
}

fn print_heading() {
    println!(
        "{:19} {:>6} {:>6} {:>12} {:>12}  {:19} {:>6}  target",
        "measure", "bits", "blocks", "ours us", "other us", "other side", "ratio"
    );
}

/// The other side of a line, with its length where that is another one.
fn other_side(ours: &Figure, other: &Figure) -> String {
    match other.bits == ours.bits {
        true => other.side.to_string(),
        false => format!("{} {} bits", other.side, other.bits),
    }
}

/// One measure at one length: a line for every side beside ours.
fn print_measure(figures: &[Figure]) {
    let (ours, others) = figures.split_first().expect("our side stands first");
    let us = |figure: &Figure| figure.nanoseconds / 1000.0;
    for other in others {
        let ratio = us(ours) / us(other);
        let target = match target(ours.measure, other.side) {
            Some(most) if ratio <= most => format!("{most:?} met"),
            Some(most) => format!("{most:?} MISSED"),
            None => String::from("-"),
        };
        println!(
            "{:19} {:>6} {:>6} {:>12.3} {:>12.3}  {:19} {ratio:>6.2}  {target}",
            ours.measure,
            ours.bits,
            ours.blocks,
            us(ours),
            us(other),
            other_side(ours, other)
        );
    }
}

/// How far times over the blocks are from a straight line: the largest
/// deviation, as a part of the time. The line is the one of least squares of
/// such deviations.
fn deviation(points: &[(f64, f64)]) -> f64 {
    let sum = |of: &dyn Fn(f64, f64) -> f64| -> f64 {
        points.iter().map(|&(x, y)| of(x, y) / (y * y)).sum()
    };
    let (n, x, y) = (sum(&|_, _| 1.0), sum(&|x, _| x), sum(&|_, y| y));
    let (xx, xy) = (sum(&|x, _| x * x), sum(&|x, y| x * y));
    let slope = (n * xy - x * y) / (n * xx - x * x);
    let line = |blocks: f64| (y - slope * x) / n + slope * blocks;
    let off = points.iter().map(|&(x, y)| (line(x) / y - 1.0).abs());
    off.fold(0.0, f64::max)
}

fn print_growth(figures: &[Figure], measure: &str, name: &str) {
    let ours = figures
        .iter()
        .filter(|figure| figure.measure == measure && figure.side == OURS);
    let points: Vec<(f64, f64)> = ours
        .map(|figure| (figure.blocks as f64, figure.nanoseconds))
        .collect();
    print!("{name}, us a block over 1, 2, 4, 8, 16 blocks:");
    for (blocks, nanoseconds) in &points {
        print!(" {:.2}", nanoseconds / blocks / 1000.0);
    }
    println!(
        "; off a straight line by at most {:.0} %",
        100.0 * deviation(&points)
    );
}

/// How much of an assignment each side goes through in a second.
fn print_rates(figures: &[Figure], measure: &str) {
    let of_measure = || figures.iter().filter(|figure| figure.measure == measure);
    for side in of_measure().filter(|figure| figure.blocks == 1) {
        print!(
            "{measure} by {}, billion bytes of the assignment a second over 1, 2, 4, 8, 16 blocks:",
            side.side
        );
        for figure in of_measure().filter(|figure| figure.side == side.side) {
            let bytes = Length::new(figure.bits).map_or(0, Length::assignment_bytes);
            print!(" {:.1}", bytes as f64 / figure.nanoseconds);
        }
        println!();
    }
}

/// What stands below the table.
fn print_below(figures: &[Figure]) {
    let same_memory = "produce, in the same memory";
    print_growth(figures, "produce", "produce");
    print_growth(figures, measures::SAME_MEMORY, same_memory);
    print_growth(figures, "check", "check");
    print_rates(figures, "pack");
    print_rates(figures, "unpack");
    passages::print_rates(figures);
}

fn csv(figures: &[Figure]) -> String {
    let mut text = String::from("measure,bits,blocks,side,nanoseconds\n");
    for figure in figures {
        let Figure {
            measure,
            bits,
            blocks,
            side,
            nanoseconds,
        } = figure;
        let _ = writeln!(text, "{measure},{bits},{blocks},{side},{nanoseconds:.1}");
    }
    text
}

fn processor() -> String {
    let text = fs::read_to_string("/proc/cpuinfo").unwrap_or_default();
    let line = text.lines().find(|line| line.starts_with("model name"));
    let name = line.and_then(|line| line.split(':').nth(1));
    name.unwrap_or("unknown").trim().to_string()
}

fn measure_all(runs: u32) -> Vec<Figure> {
    print_heading();
    let mut all = Vec::new();
    let mut take = |figures: Vec<Figure>| {
        print_measure(&figures);
        all.extend(figures);
    };
    for bits in DIGESTS {
        take(measures::digest(bits, runs));
    }
    let producing = [
        inside::digest(&DIGESTS_INSIDE, runs),
        measures::produce(&GROWTH, runs),
        inside::produce(&PRODUCERS_INSIDE, runs),
    ];
    producing.into_iter().flatten().for_each(&mut take);
    for bits in GROWTH {
        take(checks::check(bits, runs));
    }
    for bits in OTHER_CLAIMS {
        take(checks::check_refused(bits, runs));
    }
    for hostile in &checks::HOSTILE {
        for bits in OTHER_CLAIMS {
            take(checks::check_hostile(hostile, bits, runs));
        }
    }
    for check in [
        checks::check_not_below,
        checks::check_shifted,
        checks::check_tested,
    ] {
        for bits in OTHER_CLAIMS {
            take(check(bits, runs));
        }
    }
    let packing = [
        packing::pack(&GROWTH, runs),
        packing::unpack(&GROWTH, runs),
        packing::pack_refused(&OTHER_CLAIMS, runs),
        packing::pack_not_below(&OTHER_CLAIMS, runs),
        packing::pack_tested(&OTHER_CLAIMS, runs),
    ];
    packing.into_iter().flatten().for_each(&mut take);
    let axles = [axles::row(runs), axles::produce(runs), axles::check(runs)];
    axles.into_iter().for_each(&mut take);
    let passages = [
        passages::read(runs),
        passages::read_wrong(runs),
        passages::write(runs),
        passages::write_wrong(runs),
        passages::seal(runs),
        passages::check(runs),
    ];
    passages.into_iter().for_each(&mut take);
    all.extend(measures::growth(&GROWTH, runs));
    all
}

fn main() -> ExitCode {
    let arguments: Vec<String> = std::env::args().skip(1).collect();
    let Some(options) = options(&arguments) else {
        eprintln!("usage: bench [--runs N] [--csv FILE] [--program FILE] [--without FEATURE]");
        return ExitCode::from(2);
    };
    if !libgcrypt::start(options.without.as_deref()) {
        eprintln!("libgcrypt knows no such feature");
        return ExitCode::from(2);
    }
    println!(
        "best of {} runs, processor time; {}",
        options.runs,
        processor()
    );
    println!(
        "C side: {}; {}; {}",
        env!("BASELINE_BUILD"),
        host::openssl::version(),
        libgcrypt::version()
    );
    let figures = measure_all(options.runs);
    print_below(&figures);
    if let Some(program) = options.program {
        match measures::lines_a_second(Path::new(&program)) {
            Ok(lines) => println!("rows          {lines:.0} lines a second"),
            Err(error) => println!("rows          {error}"),
        }
    }
    if let Some(file) = options.csv {
        if let Err(error) = fs::write(&file, csv(&figures)) {
            eprintln!("{file}: {error}");
            return ExitCode::FAILURE;
        }
    }
    ExitCode::SUCCESS
}
