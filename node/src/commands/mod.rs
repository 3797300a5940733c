//! The commands, as they are written on the command line.

mod desk;
mod draw;
mod files;
mod find;
mod folder;
mod history;
mod page;
mod recent;
mod status;
mod trace;

use crate::demo;
use crate::failure::{code, Failure};
use clap::{Args, Parser, Subcommand, ValueEnum};
use std::path::PathBuf;

const EXIT_CODES: &str =
    "Exit codes: 0 done; 1 wrong use; 2 cluster file, key or folder; 3 no node answers; 4 refused, by the number that is printed; \
5 still open after --wait (it goes on); 6 a read without a value, or out of stamps; 7 a history without an order; 10 log damaged; 11 disk full or \
failing; 12 state lost; 13 log of another version or register.";

/// A proved register of results, kept together by the machines of several seed banks.
#[derive(Parser)]
#[command(name = "semduoli", version, after_help = EXIT_CODES)]
pub struct Arguments {
    /// Answers as JSON, one object a line
    #[arg(long, global = true)]
    pub json: bool,
    #[command(subcommand)]
    command: Command,
}

#[derive(Subcommand)]
enum Command {
    /// Make a key and a certificate in a folder, and print the certificate's fingerprint for the cluster file
    Keygen { folder: PathBuf },
    /// Say what is wrong with a cluster file
    CheckConfig { file: PathBuf },
    /// Run the node whose folder it is, until it is stopped
    Serve {
        folder: PathBuf,
        /// The cluster file [default: cluster.toml in the folder]
        #[arg(long)]
        cluster: Option<PathBuf>,
        /// Frames a second that are taken from a partner with desks alone, after 10,000 at any speed; a write is two, a read two
        #[arg(long, default_value_t = 500)]
        rate: u32,
        #[command(flatten)]
        budget: Budget,
    },
    /// Read the register by a desk of this node
    Read {
        #[command(flatten)]
        desk: Desk,
        /// Print the value as hexadecimal digits
        #[arg(long)]
        hex: bool,
        /// Put the value into this file, which must not be there yet
        #[arg(long)]
        file: Option<PathBuf>,
    },
    /// Write a value by a desk of this node
    Write {
        #[command(flatten)]
        desk: Desk,
        /// The value: text, or with --hex hexadecimal digits
        #[arg(required_unless_present = "file", conflicts_with = "file")]
        value: Option<String>,
        /// The value is hexadecimal digits
        #[arg(long, conflicts_with = "file")]
        hex: bool,
        /// Take the value from this file
        #[arg(long)]
        file: Option<PathBuf>,
        /// Fill a value that is too short with spaces
        #[arg(long)]
        pad: bool,
    },
    /// Wait for an operation that was begun earlier
    Wait {
        #[command(flatten)]
        desk: Desk,
        /// The number that the operation was given when it began
        operation: u64,
        /// Print a value as hexadecimal digits
        #[arg(long)]
        hex: bool,
    },
    /// Show links, stamps, open operations, what is owed and held, refusals, log
    Status {
        #[command(flatten)]
        node: NodeFolder,
    },
    /// Make a snapshot now
    Snapshot {
        #[command(flatten)]
        node: NodeFolder,
    },
    /// Print the operations of this node's desks as lines that `judge` takes
    History {
        #[command(flatten)]
        node: NodeFolder,
        #[command(flatten)]
        clock: Clock,
    },
    /// Judge histories as one: whether all operations have an order
    Judge {
        #[arg(required = true)]
        files: Vec<PathBuf>,
    },
    /// Lay out the last operations of this node's desks as a season sheet
    Sheet {
        #[command(flatten)]
        node: NodeFolder,
        /// How many operations
        #[arg(long, default_value_t = history::SHEET_MOST)]
        last: usize,
    },
    /// Find the last value read by this node's desks that has an accession number: its first eight bytes, high byte first
    Find {
        #[command(flatten)]
        node: NodeFolder,
        /// The accession number, or with --text the eight bytes that the value begins with
        number: String,
        /// The number is given as text
        #[arg(long)]
        text: bool,
        /// Print the value as hexadecimal digits
        #[arg(long)]
        hex: bool,
    },
    /// Write the trace of this node's server: every frame that it took
    Trace {
        #[command(flatten)]
        node: NodeFolder,
        /// The file to write, which must not be there yet
        file: PathBuf,
    },
    /// Play a trace back with the proved playback
    Play {
        file: PathBuf,
        /// The cluster file
        #[arg(long)]
        cluster: PathBuf,
        /// The server whose trace it is
        #[arg(long)]
        server: u8,
    },
    /// Draw a history or a run as a picture (SVG); no node is needed
    #[command(subcommand)]
    Draw(draw::Draw),
    /// Show the node whose folder it is on a page for browsers, until it is stopped: a process of its own, which only looks
    Page(page::Page),
    /// Check the whole log: every byte, and every step by the proved playback
    Verify {
        #[command(flatten)]
        node: NodeFolder,
    },
    /// Show it: four nodes on this machine, one of them killed, nothing lost
    Demo {
        /// Keep the nodes' folders here
        #[arg(long)]
        keep: Option<PathBuf>,
    },
}

#[derive(Args)]
pub struct NodeFolder {
    /// The node's folder
    #[arg(long, default_value = ".")]
    pub folder: PathBuf,
    /// The cluster file, for commands that read the log [default: cluster.toml in the folder]
    #[arg(long)]
    pub cluster: Option<PathBuf>,
}

#[derive(Args)]
pub struct Desk {
    /// The node's folder
    #[arg(long, default_value = ".")]
    pub folder: PathBuf,
    /// Which client [default: the only one of this node]
    #[arg(long)]
    pub client: Option<u8>,
    /// Which register
    #[arg(long, default_value_t = 0)]
    pub register: u8,
    /// Wait at most so many seconds; what was begun goes on
    #[arg(long)]
    pub wait: Option<f64>,
}

/// How long the log may become.
#[derive(Args)]
pub struct Budget {
    /// MiB of log that are kept: traces, histories and `find` reach back so far [default: a quarter of the disk]
    #[arg(long)]
    pub keep: Option<u32>,
    /// MiB of log that are kept beyond that for a partner's server that is away; then it is given up for good [default: a quarter of the disk]
    #[arg(long)]
    pub owed: Option<u32>,
}

#[derive(Clone, Copy, PartialEq, ValueEnum)]
pub enum ClockKind {
    /// Counts the begins and ends of this node's desks: exact, for one node
    Local,
    /// Seconds since 1970, to be judged with other nodes' histories
    Wall,
}

#[derive(Args)]
pub struct Clock {
    #[arg(long, value_enum, default_value = "local")]
    pub clock: ClockKind,
    /// With --clock wall: seconds that the nodes' clocks may differ by
    #[arg(long, default_value_t = 0)]
    pub widen: u32,
}

pub fn carry_out(arguments: Arguments) -> Result<(), Failure> {
    let json = arguments.json;
    match arguments.command {
        Command::Keygen { folder } => folder::keygen(&folder, json),
        Command::CheckConfig { file } => folder::check_config(&file, json),
        Command::Serve { folder, cluster, rate, budget } => Err(folder::serve(folder, cluster, rate, &budget)),
        Command::Read { desk, hex, file } => desk::read(&desk, hex, file.as_deref(), json),
        Command::Write { desk, value, hex, file, pad } => desk::write(&desk, value, hex, file.as_deref(), pad, json),
        Command::Wait { desk, operation, hex } => desk::wait(&desk, operation, hex, json),
        Command::Status { node } => status::status(&node.folder, json),
        Command::Snapshot { node } => status::snapshot(&node.folder, json),
        Command::History { node, clock } => history::history(&node, &clock, json),
        Command::Judge { files } => history::judge(&files, json),
        Command::Sheet { node, last } => history::sheet(&node, last, json),
        Command::Find { node, number, text, hex } => find::find(&node, &number, text, hex, json),
        Command::Trace { node, file } => trace::trace(&node, &file, json),
        Command::Play { file, cluster, server } => trace::play(&file, &cluster, server, json),
        Command::Page(page) => page::page(page, json),
        Command::Draw(what) => draw::draw(&what, json),
        Command::Verify { node } => trace::verify(&node, json),
        Command::Demo { keep } => demo::demo(keep, json),
    }
}

fn use_error(line: impl Into<String>) -> Failure {
    Failure::new(code::USE, line)
}
