//! Runs all parties of a register from a script on standard input.

use std::io::{stdin, stdout, BufWriter};

fn main() -> std::io::Result<()> {
    hall::run(&mut stdin().lock(), &mut BufWriter::new(stdout().lock()))
}
