//! The program `rows`: its input line and "What `rows` prints".

use std::ops::Range;

use crate::forms::{Row, RowNumber, RowTable, Term};
use crate::length::Length;
use crate::limit::{self, SIXTEEN};
use crate::refusal::Refusal;
use crate::rows;

/// One "decimal number of 1 to 9 digits, without leading zeros". The number
/// 0 is the one digit 0.
pub(crate) fn number(field: &[u8]) -> Option<u64> {
    let digits = (1..=9).contains(&field.len()) && field.iter().all(u8::is_ascii_digit);
    let leading_zero = field.len() > 1 && field[0] == b'0';
    if !digits || leading_zero {
        return None;
    }
    Some(
        field
            .iter()
            .fold(0, |value, digit| 10 * value + u64::from(digit - b'0')),
    )
}

/// So many "decimal numbers, parted by commas, ended by one line feed and
/// nothing after". The input is all of standard input.
fn parse_line<const COUNT: usize>(input: &[u8]) -> Option<[u64; COUNT]> {
    let line = input.strip_suffix(b"\n")?;
    let fields = line.split(|&byte| byte == b',');
    let numbers: Option<Vec<u64>> = fields.map(number).collect();
    numbers?.try_into().ok()
}

/// Refusal 1 alone.
pub(crate) fn parse<const COUNT: usize>(input: &[u8]) -> Result<[u64; COUNT], Refusal> {
    parse_line(input).ok_or(Refusal::Line)
}

/// Refusal 3: "first row plus how many exceeds the count".
pub(crate) fn asked(first: u64, how_many: u64, count: usize) -> Result<Range<usize>, Refusal> {
    if first + how_many > count as u64 {
        return Err(Refusal::Row);
    }
    Ok(first as usize..(first + how_many) as usize)
}

/// Refusals 1, 2 and 3: the length, and the rows that are asked for. The limit is
/// sixteen.
pub(crate) fn accept(input: &[u8]) -> Result<(Length, Range<usize>), Refusal> {
    let [length, first, how_many] = parse(input)?;
    let length = limit::length(SIXTEEN, length)?;
    Ok((length, asked(first, how_many, length.rows())?))
}

/// Lines `row,part,wire,coefficient` of one sum, a negative coefficient "with a
/// leading `-`".
fn print_sum(out: &mut String, row: RowNumber, part: char, sum: &[Term]) {
    for term in sum {
        out.push_str(&format!(
            "{},{part},{},{}\n",
            row.0, term.wire.0, term.coefficient
        ));
    }
}

fn print_row(out: &mut String, number: RowNumber, row: Row<'_>) {
    print_sum(out, number, 'A', row.a);
    print_sum(out, number, 'B', row.b);
    print_sum(out, number, 'C', row.c);
}

/// "A refused line prints `refused,` and the number, and nothing else"; like
/// "each printed line" it is "ended by one line feed".
pub fn refused(refusal: Refusal) -> String {
    format!("refused,{}\n", refusal.number())
}

/// What is printed of these rows of a table, which is built where there are any.
pub(crate) fn print_rows(asked: Range<usize>, table: impl FnOnce() -> RowTable) -> String {
    let mut out = String::from("row,part,wire,coefficient\n");
    if !asked.is_empty() {
        let table = table();
        for number in asked {
            let number = RowNumber(number as u32);
            print_row(&mut out, number, table.row(number));
        }
    }
    out
}

/// All that the program `rows` prints for what stood on standard input.
pub fn listing(input: &[u8]) -> String {
    match accept(input) {
        Ok((length, asked)) => print_rows(asked, || rows::rows(length)),
        Err(refusal) => refused(refusal),
    }
}
