//! Standard output. One that can't be written is said, except where the reader has seen enough and closed it.

use crate::failure::{code, Failure};
use std::io::{ErrorKind, Write};

pub fn bytes(bytes: &[u8]) -> Result<(), Failure> {
    let mut out = std::io::stdout();
    match out.write_all(bytes).and_then(|()| out.flush()) {
        Ok(()) => Ok(()),
        Err(e) if e.kind() == ErrorKind::BrokenPipe => Ok(()),
        Err(e) => Err(Failure::new(code::USE, format!("standard output can't be written: {e}"))),
    }
}

pub fn line(text: impl std::fmt::Display) -> Result<(), Failure> {
    bytes(format!("{text}\n").as_bytes())
}
