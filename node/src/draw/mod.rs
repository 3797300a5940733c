//! Pictures: a history as bars over time, a run as arrows between parties. Pure: text and bytes in, one self-contained SVG out, of bounded size whatever
//! goes in. What a picture says of a history or a call is the proved library's answer; the code here only lays it out.

pub mod bars;
pub mod chart;
pub mod history;
pub mod run;
pub mod script;
pub mod svg;
pub mod trace;
pub mod words;

/// What is wrong with an input, and in which line of it, from 1 (0: no line of its own).
#[derive(Clone, Debug, PartialEq, Eq)]
pub struct Wrong {
    /// Which of the files it is in.
    pub file: Source,
    pub line: usize,
    pub what: String,
    /// The library's number, where it refuses the input.
    pub refused: Option<u8>,
}

#[derive(Clone, Copy, Debug, PartialEq, Eq)]
pub enum Source {
    File,
    Answers,
}

impl Wrong {
    pub fn at(line: usize, what: impl Into<String>) -> Wrong {
        Wrong { file: Source::File, line, what: what.into(), refused: None }
    }

    pub fn refused(number: u8, line: usize, what: impl Into<String>) -> Wrong {
        Wrong { refused: Some(number), ..Wrong::at(line, what) }
    }
}

/// A picture, and what it says in one line.
#[derive(Clone, Debug, PartialEq, Eq)]
pub struct Picture {
    pub svg: String,
    pub line: String,
    /// Lines of the input, and how many of them are drawn.
    pub all: usize,
    pub drawn: usize,
}
