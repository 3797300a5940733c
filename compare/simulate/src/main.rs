//! simulate [COUNT [SEED]] [--both] [--many] [--variant NAME] [--scripts FOLDER] [--traces FOLDER]: COUNT runs from SEED
//! on. A failure prints the seed that reproduces it: simulate 1 SEED. With --many n − t or more servers are
//! false, and only the styles are compared. With --scripts each run is also written as input of the hall program
//! with the expected output, SEED.in and SEED.out. With --traces each honest server's trace is written,
//! SEED-J.trace, with the other arguments of the playback program and what it prints, SEED-J.args and SEED-J.out.

use hall::to_hex;
use register::staff::report;
use register::{Params, Variant};
use simulate::progress::{refusal_lines, Progress};
use simulate::recorded::Recorded;
use simulate::run::{parameters_of, run, Options, Summary};
use simulate::style::FLAT;
use std::process::ExitCode;

fn usage() -> ExitCode {
    eprintln!(
        "simulate [COUNT [SEED]] [--both] [--many] [--variant NAME] [--scripts FOLDER] [--traces FOLDER]"
    );
    ExitCode::from(2)
}

/// What is asked beside the right rules in the clear style.
fn in_words(options: &Options) -> String {
    let mut words = String::new();
    if let Some(style) = options.style {
        words += &format!(", {style:?} beside the clear style");
    }
    if options.many {
        words += ", with n − t or more false servers";
    }
    if options.variant != Variant::Right {
        words += &format!(", with a wrong rule: {:?}", options.variant);
    }
    words
}

fn write_script(folder: &str, seed: u64, lines: &[String]) -> std::io::Result<()> {
    let input = lines.join("\n") + "\n";
    let mut output = Vec::new();
    hall::run(&mut input.as_bytes(), &mut output)?;
    std::fs::create_dir_all(folder)?;
    std::fs::write(format!("{folder}/{seed:05}.in"), input)?;
    std::fs::write(format!("{folder}/{seed:05}.out"), output)
}

fn write_traces(folder: &str, seed: u64, recorded: &[Recorded]) -> std::io::Result<()> {
    std::fs::create_dir_all(folder)?;
    for Recorded { p, own, initial, trace, .. } in recorded {
        let name = |suffix| format!("{folder}/{seed:05}-{own}.{suffix}");
        std::fs::write(name("trace"), trace)?;
        std::fs::write(name("out"), report(*p, *own, initial, trace, false))?;
        let Params { n, t, k, l } = p;
        std::fs::write(name("args"), format!("{n} {t} {k} {l} {own} {}\n", to_hex(initial)))?;
    }
    Ok(())
}

fn main() -> ExitCode {
    let mut numbers = vec![];
    let mut options = Options::RIGHT;
    let mut folder = None;
    let mut traces = None;
    let mut arguments = std::env::args().skip(1);
    while let Some(argument) = arguments.next() {
        if argument == "--both" {
            options.style = Some(FLAT);
        } else if argument == "--many" {
            options.many = true;
        } else if argument == "--variant" {
            let name = arguments.next().unwrap_or_default();
            match Variant::WRONG.iter().find(|v| format!("{v:?}") == name) {
                Some(variant) => options.variant = *variant,
                None => return usage(),
            }
        } else if argument == "--scripts" {
            folder = arguments.next();
            options.script = true;
            if folder.is_none() {
                return usage();
            }
        } else if argument == "--traces" {
            traces = arguments.next();
            options.record = true;
            if traces.is_none() {
                return usage();
            }
        } else if let Ok(number) = argument.parse::<u64>() {
            numbers.push(number);
        } else {
            return usage();
        }
    }
    if numbers.len() > 2 {
        return usage();
    }
    let count = numbers.first().copied().unwrap_or(1000);
    let seed = numbers.get(1).copied().unwrap_or(1);
    println!("simulate: {count} runs from seed {seed}{}", in_words(&options));
    let mut progress = Progress::new("simulate", count);
    let mut total = Summary::default();
    let mut failures = 0;
    for (done, seed) in (0..).zip(seed..seed.saturating_add(count)) {
        progress.at(done);
        match run(seed, options) {
            Ok(summary) => {
                total.add(&summary);
                let scripts =
                    folder.as_ref().map(|folder| (folder, write_script(folder, seed, &summary.script)));
                let traces =
                    traces.as_ref().map(|folder| (folder, write_traces(folder, seed, &summary.recorded)));
                for (folder, written) in scripts.into_iter().chain(traces) {
                    if let Err(error) = written {
                        eprintln!("{folder}: {error}");
                        return ExitCode::FAILURE;
                    }
                }
            }
            Err(violation) => {
                failures += 1;
                println!("seed {seed}, {:?}: {violation}", parameters_of(seed));
                if failures == 10 {
                    println!("and no further");
                    break;
                }
            }
        }
    }
    let Summary { reads, writes, foreign, steps, refusals, overflows, closed, disagreements, .. } = total;
    let Summary { several, freed, .. } = total;
    println!("{steps} steps; honest clients ended {reads} reads and {writes} writes");
    if options.many {
        println!("{disagreements} reads ended since their blocks disagree");
    }
    println!("{foreign} writes of false clients accepted; {overflows} values came to a row that had four; {closed} writes out of stamps");
    println!("{several} steps accepted several writes; {freed} reports freed writes");
    print!("{}", refusal_lines(&refusals));
    println!("simulate: {failures} of {count} runs fail, {:.1} s", progress.seconds());
    if failures == 0 {
        ExitCode::SUCCESS
    } else {
        ExitCode::FAILURE
    }
}
