//! The program `packed`: it "reads from standard input a line of length
//! (written as for `rows`), comma and digest (64 lower-case hexadecimal
//! digits), ended by one line feed, then the packed bytes to the end, and
//! prints `accepted` or the refusal as `rows` does".

use crate::check;
use crate::limit::{self, SIXTEEN};
use crate::listing::{number, refused};
use crate::packing::unpacked;
use crate::refusal::Refusal;

/// What a right line says.
struct Line {
    length: u64,
    digest: [u8; 32],
}

/// One hexadecimal digit; upper-case letters are none.
fn hexadecimal(digit: u8) -> Option<u8> {
    match digit {
        b'0'..=b'9' => Some(digit - b'0'),
        b'a'..=b'f' => Some(digit - b'a' + 10),
        _ => None,
    }
}

/// "64 lower-case hexadecimal digits", two a byte, the higher first.
fn digest(field: &[u8]) -> Option<[u8; 32]> {
    let digits: Option<Vec<u8>> = field.iter().map(|&digit| hexadecimal(digit)).collect();
    let digits: [u8; 64] = digits?.try_into().ok()?;
    Some(std::array::from_fn(|byte| {
        digits[2 * byte] << 4 | digits[2 * byte + 1]
    }))
}

/// The line up to the first line feed, and what stands behind it.
fn parse(input: &[u8]) -> Option<(Line, &[u8])> {
    let end = input.iter().position(|&byte| byte == b'\n')?;
    let mut fields = input[..end].split(|&byte| byte == b',');
    let length = number(fields.next()?)?;
    let digest = digest(fields.next()?)?;
    if fields.next().is_some() {
        return None;
    }
    Some((Line { length, digest }, &input[end + 1..]))
}

/// Refusals 1, 2, 11, 12, 7, 8, 9; `Ok` when the packed assignment is accepted. The
/// limit is sixteen.
pub fn accept(input: &[u8]) -> Result<(), Refusal> {
    let (line, packed) = parse(input).ok_or(Refusal::Line)?;
    let assignment = unpacked(limit::length(SIXTEEN, line.length)?, packed)?;
    check::check(SIXTEEN, line.length, &assignment, &line.digest)
}

/// All that the program prints for what stood on standard input.
pub fn answer(input: &[u8]) -> String {
    accept(input).map_or_else(refused, |()| String::from("accepted\n"))
}
