//! `judge rows`: reads the line of the program `rows` on standard input and
//! prints what that program must print.
//! `judge steps`: the same for the program `steps`.
//! `judge axle_rows` and `judge axle_steps`: the same for these two programs.
//! `judge packed`: the same for the program `packed`, its line and bytes.
//! `judge digest BITS`: the digest, in hexadecimal, of the record of so many
//! bits whose bytes are on standard input; without BITS, of all their bits.
//! `judge counts BITS`: blocks, wires and rows of a record length.
//! The limit is sixteen blocks everywhere.

use std::io::{self, Read, Write};
use std::process::ExitCode;

use judge::limit::{self, SIXTEEN};
use judge::listing::{listing, refused};
use judge::operations;
use judge::refusal::Refusal;
use judge::{axles, packed, steps};

const USAGE: &str = "usage: judge rows | judge steps | judge axle_rows | judge axle_steps | \
                     judge packed | judge digest [BITS] | judge counts BITS";

fn standard_input() -> io::Result<Vec<u8>> {
    let mut bytes = Vec::new();
    io::stdin().lock().read_to_end(&mut bytes)?;
    Ok(bytes)
}

fn digest_text(length: u64, record: &[u8]) -> Result<String, Refusal> {
    let mut digest = [0; 32];
    operations::digest(SIXTEEN, length, record, &mut digest)?;
    let hex: String = digest.iter().map(|byte| format!("{byte:02x}")).collect();
    Ok(hex + "\n")
}

fn counts_text(length: u64) -> Result<String, Refusal> {
    let length = limit::length(SIXTEEN, length)?;
    let (blocks, wires, rows) = (length.blocks(), length.wires(), length.rows());
    Ok(format!("blocks,{blocks}\nwires,{wires}\nrows,{rows}\n"))
}

/// The digest of the record on standard input; without a length, its bytes
/// are whole ones.
fn digest(length: Option<u64>) -> io::Result<String> {
    let record = standard_input()?;
    let length = length.unwrap_or(8 * record.len() as u64);
    Ok(digest_text(length, &record).unwrap_or_else(refused))
}

/// The text to print, or `None` when the arguments are not understood.
fn answer(arguments: &[String]) -> io::Result<Option<String>> {
    let words: Vec<&str> = arguments.iter().map(String::as_str).collect();
    let text = match words[..] {
        ["rows"] => listing(&standard_input()?),
        ["steps"] => steps::listing(&standard_input()?),
        ["axle_rows"] => axles::listing::axle_rows(&standard_input()?),
        ["axle_steps"] => axles::listing::axle_steps(&standard_input()?),
        ["packed"] => packed::answer(&standard_input()?),
        ["digest"] => digest(None)?,
        ["digest", length] => match length.parse() {
            Ok(length) => digest(Some(length))?,
            Err(_) => return Ok(None),
        },
        ["counts", length] => match length.parse() {
            Ok(length) => counts_text(length).unwrap_or_else(refused),
            Err(_) => return Ok(None),
        },
        _ => return Ok(None),
    };
    Ok(Some(text))
}

fn main() -> io::Result<ExitCode> {
    let arguments: Vec<String> = std::env::args().skip(1).collect();
    match answer(&arguments)? {
        Some(text) => {
            io::stdout().lock().write_all(text.as_bytes())?;
            Ok(ExitCode::SUCCESS)
        }
        None => {
            eprintln!("{USAGE}");
            Ok(ExitCode::from(2))
        }
    }
}
