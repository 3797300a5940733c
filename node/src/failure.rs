//! How a command ends if it does not succeed: an exit code, and a line that says what to do.

/// Exit codes, beside 0. Those from 10 on end a node, and a restart does not help.
pub mod code {
    pub const USE: u8 = 1;
    pub const CLUSTER: u8 = 2;
    pub const NO_NODE: u8 = 3;
    pub const REFUSED: u8 = 4;
    pub const OPEN: u8 = 5;
    pub const NO_VALUE: u8 = 6;
    pub const NO_ORDER: u8 = 7;
    pub const DISK: u8 = semduoli::events::exit::DISK;
}

#[derive(Debug, PartialEq)]
pub struct Failure {
    pub code: u8,
    pub line: String,
}

impl Failure {
    pub fn new(code: u8, line: impl Into<String>) -> Failure {
        Failure { code, line: line.into() }
    }
}
