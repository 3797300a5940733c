//! `semduoli`: a node of a register between machines, and the commands around it.
mod bucket;
mod commands;
mod demo;
mod disk;
mod door;
mod failure;
mod keys;
mod link;
mod local;
mod note;
mod out;
mod progress;
mod rate;
mod run;
mod wake;

use clap::Parser;
use failure::{code, Failure};
use serde_json::json;
use std::process::ExitCode;

fn main() -> ExitCode {
    let arguments = match commands::Arguments::try_parse() {
        Ok(arguments) => arguments,
        // help and the version are asked for, anything else is wrong use
        Err(e) => {
            let _ = e.print();
            return if e.use_stderr() { code::USE.into() } else { ExitCode::SUCCESS };
        }
    };
    let as_json = arguments.json;
    match commands::carry_out(arguments) {
        Ok(()) => ExitCode::SUCCESS,
        Err(Failure { code, line }) => {
            eprintln!("semduoli: {line}");
            if as_json {
                let _ = out::line(json!({ "error": line, "code": code }));
            }
            code.into()
        }
    }
}
