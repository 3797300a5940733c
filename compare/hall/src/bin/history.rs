//! Reads a history from standard input and prints its order, an offending pair or a refusal.

use std::io::{stdin, Read};

fn main() -> std::io::Result<()> {
    let mut input = Vec::new();
    stdin().lock().read_to_end(&mut input)?;
    print!("{}", register::history::report(&input));
    Ok(())
}
