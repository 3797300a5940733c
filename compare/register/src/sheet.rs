//! The season sheet: a history that has an order, on pages of 60 lines of 72 columns.

use crate::history::{judge, parse, Judgement, Record};
use crate::params::Refusal;

pub const COLUMNS: usize = 72;
/// Lines of a page that hold operations; one more holds its number.
pub const OPERATIONS: usize = 59;
/// Bytes of a page, each line with its newline.
pub const PAGE: usize = (OPERATIONS + 1) * (COLUMNS + 1);

#[derive(Clone, Debug, PartialEq, Eq)]
pub enum Laid {
    Sheet(Vec<u8>),
    /// Line numbers of an offending pair, the earlier operation first.
    NoOrder(usize, usize),
}

fn line(place: usize, r: &Record) -> String {
    let kind = if r.write { 'W' } else { 'R' };
    let (time, writer, sequence) = (r.stamp.time, r.stamp.writer, r.stamp.sequence);
    format!("{place:>3} {kind} {:>10} {:>10} {time:>20} {writer} {sequence:>10} {}", r.start, r.end, r.caller)
}

/// The sheet of records in an order, given by line numbers.
pub fn sheet(records: &[Record], order: &[usize]) -> Vec<u8> {
    let lines: Vec<String> =
        order.iter().enumerate().map(|(i, &number)| line(i + 1, &records[number - 1])).collect();
    let mut pages: Vec<&[String]> = lines.chunks(OPERATIONS).collect();
    if pages.is_empty() {
        pages.push(&[]);
    }
    let mut text = String::new();
    for (p, page) in pages.iter().enumerate() {
        for i in 0..OPERATIONS {
            let line = page.get(i).map_or("", String::as_str);
            text += &format!("{line:<COLUMNS$}\n");
        }
        text += &format!("{:>COLUMNS$}\n", p + 1);
    }
    text.into_bytes()
}

/// The sheet of a history, or its offending pair. Refusals 18 and 19; 10 is the caller's.
pub fn lay(input: &[u8]) -> Result<Laid, Refusal> {
    let records = parse(input)?;
    Ok(match judge(&records)? {
        Judgement::Order(order) => Laid::Sheet(sheet(&records, &order)),
        Judgement::NoOrder(a, b) => Laid::NoOrder(a, b),
    })
}

/// What the sheet program prints for an input.
pub fn report(input: &[u8]) -> Vec<u8> {
    match lay(input) {
        Ok(Laid::Sheet(sheet)) => sheet,
        Ok(Laid::NoOrder(a, b)) => format!("no order {a} {b}\n").into_bytes(),
        Err(refusal) => format!("refused {}\n", refusal.number()).into_bytes(),
    }
}
