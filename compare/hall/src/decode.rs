//! The decode program's text protocol: blocks decoded from lines.

use crate::{hex, number, to_hex};
use register::blocks::decode_joined;
use register::params::MAX_VALUE;
use register::Params;
use std::io::{self, BufRead, Write};

fn answer(line: &[u8]) -> Option<String> {
    let fields: Vec<&[u8]> = line.split(|&c| c == b' ').collect();
    let [b"decode", n, t, k, l, room, numbers, blocks] = fields[..] else { return None };
    let p = Params::new(number(n)?, number(t)?, number(k)?, number(l)?);
    // A value has 256 bytes at most: more room is not needed.
    let mut out = vec![0; number(room)?.min(MAX_VALUE)];
    Some(match decode_joined(&p, &hex(numbers)?, &hex(blocks)?, &mut out) {
        Ok(length) => format!("value {}", to_hex(&out[..length])),
        Err(refusal) => format!("refused {}", refusal.number()),
    })
}

/// Answers each line. A last line without a newline is a line too.
pub fn run(input: &mut impl BufRead, out: &mut impl Write) -> io::Result<()> {
    let mut line = Vec::new();
    while input.read_until(b'\n', &mut line)? > 0 {
        let text = line.strip_suffix(b"\n").unwrap_or(&line);
        writeln!(out, "{}", answer(text).unwrap_or_else(|| "what?".to_string()))?;
        line.clear();
    }
    Ok(())
}
