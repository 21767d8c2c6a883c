//! A program by its standard input and output, beside the judge.

use std::io::Write;
use std::path::{Path, PathBuf};
use std::process::{Command, Stdio};
use std::thread;
use std::time::Duration;

use judge::{axles, listing, packed, steps};

use crate::calls::Calls;
use crate::random::Random;

/// A program, and what the judge has it print for an input.
#[derive(Clone)]
pub struct Program {
    pub name: &'static str,
    file: PathBuf,
    judge: fn(&[u8]) -> String,
    /// What its inputs are counted as, and what it prints.
    given: &'static str,
    printed: fn(&str) -> (&'static str, u64),
}

/// All programs that are compared.
pub struct Programs {
    pub rows: Program,
    pub steps: Program,
    pub packed: Program,
    pub axle_rows: Program,
    pub axle_steps: Program,
}

/// How long a program has to read the first part of an input before the
/// second is written.
const PAUSE: Duration = Duration::from_millis(20);

/// What a program prints for an input that comes in two parts.
fn run(program: &Path, input: &[u8], cut: usize) -> std::io::Result<Vec<u8>> {
    let mut child = Command::new(program)
        .stdin(Stdio::piped())
        .stdout(Stdio::piped())
        .spawn()?;
    let mut stdin = child.stdin.take().expect("a pipe");
    let (first, second) = input.split_at(cut);
    // A program that refuses early may close its input: no failure.
    let _ = stdin.write_all(first);
    if !second.is_empty() {
        thread::sleep(PAUSE);
        let _ = stdin.write_all(second);
    }
    drop(stdin);
    Ok(child.wait_with_output()?.stdout)
}

/// The first line in which two texts differ, told; none where they are equal.
fn first_difference(judged: &str, printed: &str) -> Option<String> {
    if judged == printed {
        return None;
    }
    let (mut ours, mut theirs) = (judged.split('\n'), printed.split('\n'));
    loop {
        let (our, their) = (ours.next(), theirs.next());
        if our != their {
            return Some(format!("the judge prints {our:?}, the program {their:?}"));
        }
    }
}

/// An input with one to three bytes changed, put in or taken out; a byte is
/// one of those given.
pub fn damaged(mut input: Vec<u8>, bytes: &[u8], random: &mut Random) -> Vec<u8> {
    for _ in 0..random.range(1, 4) {
        let at = random.below(input.len().max(1));
        match random.below(3) {
            0 => input.insert(at, random.pick(bytes)),
            1 if !input.is_empty() => input[at] = random.pick(bytes),
            _ if !input.is_empty() => drop(input.remove(at)),
            _ => {}
        }
    }
    input
}

/// How many lines a listing has.
fn lines(listing: &str) -> u64 {
    listing.lines().count() as u64
}

/// An answer of `packed`, by its name in the tally.
fn answer(text: &str) -> (&'static str, u64) {
    let name = match text.trim_end() {
        "accepted" => "claims that the program packed accepted",
        "refused,1" => "claims to the program packed: refusal 1",
        "refused,2" => "claims to the program packed: refusal 2",
        "refused,7" => "claims to the program packed: refusal 7",
        "refused,8" => "claims to the program packed: refusal 8",
        "refused,9" => "claims to the program packed: refusal 9",
        "refused,11" => "claims to the program packed: refusal 11",
        "refused,12" => "claims to the program packed: refusal 12",
        _ => "claims to the program packed: another answer",
    };
    (name, 1)
}

impl Program {
    pub fn rows(file: PathBuf) -> Program {
        Program {
            name: "rows",
            file,
            judge: listing::listing,
            given: "lines to the program rows",
            printed: |text| ("lines that the program rows printed", lines(text)),
        }
    }

    pub fn steps(file: PathBuf) -> Program {
        Program {
            name: "steps",
            file,
            judge: steps::listing,
            given: "lines to the program steps",
            printed: |text| ("lines that the program steps printed", lines(text)),
        }
    }

    pub fn packed(file: PathBuf) -> Program {
        Program {
            name: "packed",
            file,
            judge: packed::answer,
            given: "claims to the program packed",
            printed: answer,
        }
    }

    pub fn axle_rows(file: PathBuf) -> Program {
        Program {
            name: "axle_rows",
            file,
            judge: axles::listing::axle_rows,
            given: "lines to the program axle_rows",
            printed: |text| ("lines that the program axle_rows printed", lines(text)),
        }
    }

    pub fn axle_steps(file: PathBuf) -> Program {
        Program {
            name: "axle_steps",
            file,
            judge: axles::listing::axle_steps,
            given: "lines to the program axle_steps",
            printed: |text| ("lines that the program axle_steps printed", lines(text)),
        }
    }

    /// One input, to the program and to the judge. Returns what the judge has
    /// it print.
    pub fn compare(&self, calls: &mut Calls, input: &[u8], note: &str) -> String {
        self.compare_cut(calls, input, input.len(), note)
    }

    /// The same with an input that comes in two parts, cut there.
    pub fn compare_cut(&self, calls: &mut Calls, input: &[u8], cut: usize, note: &str) -> String {
        let judged = (self.judge)(input);
        let told = match run(&self.file, input, cut) {
            Ok(printed) => first_difference(&judged, &String::from_utf8_lossy(&printed)),
            Err(error) => Some(error.to_string()),
        };
        if let Some(told) = told {
            let shown = String::from_utf8_lossy(&input[..input.len().min(80)]);
            let (name, bytes) = (self.name, input.len());
            calls.tally.difference(format!(
                "{name}, {note}, {bytes} bytes that begin {shown:?}: {told}"
            ));
        }
        calls.tally.count(self.given, 1);
        let (printed, count) = (self.printed)(&judged);
        calls.tally.count(printed, count);
        judged
    }
}
