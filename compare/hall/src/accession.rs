//! The accession program's text protocol: an index kept from lines.

use crate::{hex, number};
use register::accession::Values;
use std::io::{self, BufRead, Write};

/// A decimal number without leading zeros, below 2^64.
fn accession_number(text: &[u8]) -> Option<u64> {
    number(text)?;
    std::str::from_utf8(text).ok()?.parse().ok()
}

fn insert(values: &mut Values, text: &[u8]) -> Option<String> {
    let value = hex(text)?;
    Some(match values.insert(&value) {
        Ok(place) => format!("place {place}"),
        Err(refusal) => format!("refused {}", refusal as u8),
    })
}

fn search(values: &Values, text: &[u8]) -> Option<String> {
    let place = values.search(accession_number(text)?);
    Some(place.map_or_else(|| "none".to_string(), |place| format!("place {place}")))
}

fn answer(values: &mut Values, line: &[u8]) -> Option<String> {
    let fields: Vec<&[u8]> = line.split(|&c| c == b' ').collect();
    match fields[..] {
        [b"insert", text] => insert(values, text),
        [b"search", text] => search(values, text),
        [b"index"] => {
            let places = values.rows().into_iter().map(|(_, place)| format!(" {place}"));
            Some(format!("index{}", places.collect::<String>()))
        }
        _ => None,
    }
}

/// Answers each line. A last line without a newline is a line too.
pub fn run(input: &mut impl BufRead, out: &mut impl Write) -> io::Result<()> {
    let mut values = Values::default();
    let mut line = Vec::new();
    while input.read_until(b'\n', &mut line)? > 0 {
        let text = line.strip_suffix(b"\n").unwrap_or(&line);
        writeln!(out, "{}", answer(&mut values, text).unwrap_or_else(|| "what?".to_string()))?;
        line.clear();
    }
    Ok(())
}
