//! Pictures of histories and runs, from files: no node is needed.

use super::folder::read_cluster;
use super::use_error;
use crate::failure::{code, Failure};
use crate::out;
use crate::progress::Progress;
use clap::{Args, Subcommand};
use semduoli::draw::run::{Choice, Run};
use semduoli::draw::{bars, chart, history, script, trace, Picture, Source, Wrong};
use serde_json::json;
use std::fs::{File, OpenOptions};
use std::io::{Read, Write};
use std::path::{Path, PathBuf};

/// The largest file that is read.
const INPUT_MOST: u64 = 256 << 20;

#[derive(Subcommand)]
pub enum Draw {
    /// Draw a history as bars over time: in the order that the proved judge finds, or with the offending pair marked. At most 64 bars; what is left out is
    /// said. A history without an order is drawn too, with exit code 0: `judge` is for scripts
    History {
        /// A line for each operation, as `history` prints them: kind, start, end, time, writer, sequence, caller
        file: PathBuf,
        #[command(flatten)]
        to: To,
    },
    /// Draw a run as arrows between parties: a script of `hall` with its answers, or with --server a trace
    Run {
        /// The script; without --answers with the answers to each line after it. With --server a trace, as `trace` writes it
        file: PathBuf,
        /// What `hall` answered to the script
        #[arg(long, conflicts_with = "server")]
        answers: Option<PathBuf>,
        /// The server whose trace it is
        #[arg(long, requires = "cluster")]
        server: Option<u8>,
        /// The cluster file of the trace's register
        #[arg(long, requires = "server")]
        cluster: Option<PathBuf>,
        /// The first line, or entry of a trace, that is drawn [default: the last ones are]
        #[arg(long)]
        from: Option<usize>,
        /// How many calls are drawn, at most 200; 64 fit on a page
        #[arg(long, default_value_t = chart::ROWS)]
        rows: usize,
        #[command(flatten)]
        to: To,
    },
}

#[derive(Args)]
pub struct To {
    /// The file to write, which must not be there yet [default: standard output]
    #[arg(long)]
    out: Option<PathBuf>,
}

pub fn draw(what: &Draw, as_json: bool) -> Result<(), Failure> {
    match what {
        Draw::History { file, to } => put(&of_history(file)?, to, as_json),
        Draw::Run { file, answers, server, cluster, from, rows, to } => {
            if !(1..=chart::ROWS_MOST).contains(rows) {
                return Err(use_error(format!("--rows {rows}: from 1 to {}", chart::ROWS_MOST)));
            }
            let choice = Choice { from: *from, rows: *rows };
            let run = match (server, cluster) {
                (Some(server), Some(cluster)) => of_trace(file, *server, cluster, &choice)?,
                _ => of_script(file, answers.as_deref())?,
            };
            put(&chart::draw(&run, &choice), to, as_json)
        }
    }
}

fn input(file: &Path) -> Result<Vec<u8>, Failure> {
    let failed = |e: std::io::Error| use_error(format!("{}: {e}", file.display()));
    let mut bytes = vec![];
    File::open(file).map_err(failed)?.take(INPUT_MOST + 1).read_to_end(&mut bytes).map_err(failed)?;
    match bytes.len() as u64 > INPUT_MOST {
        true => Err(use_error(format!("{}: it has more than {} MiB", file.display(), INPUT_MOST >> 20))),
        false => Ok(bytes),
    }
}

/// What is wrong with a file, as a command's end.
fn failure(wrong: &Wrong, file: &Path) -> Failure {
    let place = if wrong.line > 0 { format!("{}, line {}", file.display(), wrong.line) } else { file.display().to_string() };
    match wrong.refused {
        Some(number) => Failure::new(code::REFUSED, format!("refused {number}: {place}: {}", wrong.what)),
        None => use_error(format!("{place}: {}", wrong.what)),
    }
}

fn of_history(file: &Path) -> Result<Picture, Failure> {
    let text = input(file)?;
    let mut progress = Progress::new();
    let read = history::read(&text, &mut |done, all| progress.tell(|| format!("judged {done} of {all} windows")));
    drop(progress);
    Ok(bars::draw(&read.map_err(|wrong| failure(&wrong, file))?))
}

fn of_script(file: &Path, answers: Option<&Path>) -> Result<Run, Failure> {
    let text = input(file)?;
    let answered = answers.map(input).transpose()?;
    script::read(&text, answered.as_deref()).map_err(|wrong| match wrong.file {
        Source::File => failure(&wrong, file),
        Source::Answers => failure(&wrong, answers.unwrap_or(file)),
    })
}

fn of_trace(file: &Path, server: u8, cluster: &Path, choice: &Choice) -> Result<Run, Failure> {
    let cluster = read_cluster(cluster)?;
    let trace = input(file)?;
    let refused = |line: String| Failure::new(code::REFUSED, line);
    let run = trace::read(&cluster.parameters, server, &cluster.initial, &trace, choice);
    let run = run.map_err(|number| refused(format!("refused {number}: no server {server} of this register")))?;
    match (&run.closed, run.all == 0) {
        (Some(closed), true) => Err(refused(format!("{}: {closed}", file.display()))),
        _ => Ok(run),
    }
}

fn put(picture: &Picture, to: &To, as_json: bool) -> Result<(), Failure> {
    let Picture { svg, line, all, drawn } = picture;
    let Some(file) = &to.out else {
        return match as_json {
            true => out::line(json!({ "svg": svg, "said": line, "all": all, "drawn": drawn })),
            false => out::bytes(svg.as_bytes()),
        };
    };
    let failed = |e: std::io::Error| match e.kind() {
        std::io::ErrorKind::AlreadyExists => use_error(format!("{} is there already, and stays as it is", file.display())),
        _ => use_error(format!("{}: {e}", file.display())),
    };
    let mut picture = OpenOptions::new().write(true).create_new(true).open(file).map_err(failed)?;
    picture.write_all(svg.as_bytes()).map_err(failed)?;
    match as_json {
        true => out::line(json!({ "file": file.to_string_lossy(), "said": line, "all": all, "drawn": drawn })),
        false => out::line(line),
    }
}
