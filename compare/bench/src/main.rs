//! bench [--quick] [TEXT]: the proved static library beside plain Rust, in the tables that docs/PERFORMANCE.md sums up. Each row is measured in runs of
//! many short rounds; in a round every side works for a fraction of a millisecond, one after the other, the first and the last in
//! turns. A run's ratio is that of the sides' median times. The rule, fixed before measuring: a row keeps its bound if the median of its
//! runs' ratios is at most the bound. With TEXT only rows whose name has it. `bench --turns EARLIER LATER [--quick]` is what bench/whole runs: whole
//! operations of two such programs, each linked with a library of its own.

mod lean;
mod rows;
mod side;
mod system;
mod turns;

use register::Params;
use rows::{
    decode, digest, encode, fill, insert, least_decode, search, server_steps, whole_read, whole_write, Row,
};
use side::{Bytes, Plain, Proved, Side};
use std::time::Duration;

struct Plan {
    /// Rows are measured whose name has this.
    only: String,
    runs: usize,
    rounds: usize,
    length: Duration,
}

/// Times that fill a round, by the quickest of several trials: others may have been interrupted.
fn times_for(row: &mut Row, length: Duration) -> u64 {
    let mut times = 1;
    loop {
        let spent = (0..5).map(|_| (row.work)(times)).min().expect("trials");
        if spent >= length / 2 {
            return ((times as f64 * length.as_secs_f64() / spent.as_secs_f64()) as u64).max(1);
        }
        times *= 2;
    }
}

fn median(values: impl IntoIterator<Item = f64>) -> f64 {
    let mut sorted: Vec<f64> = values.into_iter().collect();
    sorted.sort_by(f64::total_cmp);
    sorted[sorted.len() / 2]
}

/// The median nanoseconds of each side, by run.
fn measure(sides: &mut [Row], plan: &Plan) -> Vec<Vec<f64>> {
    let times: Vec<u64> = sides.iter_mut().map(|row| times_for(row, plan.length)).collect();
    let run = |_| {
        let mut figures = vec![Vec::new(); sides.len()];
        for round in 0..plan.rounds {
            for turn in 0..sides.len() {
                let i = if round % 2 == 0 { turn } else { sides.len() - 1 - turn };
                let spent = (sides[i].work)(times[i]);
                figures[i].push(spent.as_nanos() as f64 / times[i] as f64);
            }
        }
        figures.into_iter().map(median).collect()
    };
    (0..plan.runs).map(run).collect()
}

/// The ratios of the last side, proved, to another: their median, the worst, and how many are above the bound.
fn ratios(runs: &[Vec<f64>], other: usize, bound: f64) -> (f64, f64, usize) {
    let ratio = |run: &Vec<f64>| run[run.len() - 1] / run[other];
    let above = runs.iter().filter(|run| ratio(run) > bound).count();
    (median(runs.iter().map(ratio)), runs.iter().map(ratio).fold(0.0, f64::max), above)
}

/// The names of the sides in their order: plain Rust with its records in memory, then it in another form if there is one, the proved library last.
const TWO: [&str; 2] = [Plain::NAME, Proved::NAME];
const RECORDS: [&str; 3] = [Plain::NAME, Bytes::NAME, Proved::NAME];
const DECODERS: [&str; 3] = [Plain::NAME, lean::NAME, Proved::NAME];

/// A table of rows in two sides or in three. A median above the bound is bold.
fn table(title: &str, names: &[&str], rows: Vec<Vec<Row>>, bound: f64, plan: &Plan) {
    let rows: Vec<Vec<Row>> = rows.into_iter().filter(|sides| sides[0].name.contains(&plan.only)).collect();
    if rows.is_empty() {
        return;
    }
    println!("\n### {title}\n");
    print!("| what |");
    names.iter().for_each(|name| print!(" {name}, ns |"));
    for name in names[..names.len() - 1].iter().rev() {
        let of = if names.len() == 2 {
            String::new()
        } else {
            format!(" to {}", name.trim_start_matches("plain, "))
        };
        print!(" ratio{of} | worst | of {} runs above {bound:.1} |", plan.runs);
    }
    println!("\n|---{}|", "|---".repeat(4 * names.len() - 3));
    for mut sides in rows {
        let runs = measure(&mut sides, plan);
        print!("| {} |", sides[0].name);
        (0..sides.len()).for_each(|i| print!(" {:.0} |", median(runs.iter().map(|run| run[i]))));
        for other in (0..sides.len() - 1).rev() {
            let (middle, worst, above) = ratios(&runs, other, bound);
            let mark = if middle > bound { "**" } else { "" };
            print!(" {mark}{middle:.2}{mark} | {worst:.2} | {above} |");
        }
        println!();
    }
}

/// The rows of two sides, or of three, beside each other.
macro_rules! sides {
    ($sets:expr, $row:ident, [$($side:ty),*]) => {
        $sets.iter().map(|set| vec![$($row::<$side>(*set)),*]).collect::<Vec<Vec<Row>>>()
    };
}

fn main() {
    let arguments: Vec<String> = std::env::args().skip(1).collect();
    let (options, texts): (Vec<&String>, Vec<&String>) = arguments.iter().partition(|a| a.starts_with("--"));
    let has = |option: &str| options.iter().any(|a| *a == option);
    let plan = |only: &str, length| Plan {
        only: only.to_string(),
        runs: if has("--quick") { 3 } else { 11 },
        rounds: 41,
        length: Duration::from_micros(length),
    };
    let known = options.iter().all(|a| ["--quick", "--turns", "--work"].contains(&a.as_str()));
    match texts[..] {
        [] if known && has("--work") => turns::work(),
        // Turns are longer: between them one program wakes the other.
        [earlier, later] if known && has("--turns") => turns::compare(earlier, later, &plan("", 3000)),
        [] if known && !has("--turns") => tables(&plan("", 150)),
        [only] if known && !has("--turns") => tables(&plan(only, 150)),
        _ => {
            eprintln!("bench [--quick] [TEXT], or bench --turns EARLIER LATER [--quick]");
            std::process::exit(2);
        }
    }
}

/// Decoding of k blocks, or of all n, by three decoders.
fn decoders(sets: &[Params], all: bool) -> Vec<Vec<Row>> {
    let three =
        |&p: &Params| vec![decode::<Plain>((p, all)), least_decode((p, all)), decode::<Proved>((p, all))];
    sets.iter().map(three).collect()
}

/// The proved library beside plain Rust.
fn tables(plan: &Plan) {
    let p = Params::new;
    table("Digests", &TWO, sides!([32, 64, 256], digest, [Plain, Proved]), 1.0, plan);
    let base = [p(4, 1, 2, 32), p(4, 1, 2, 256), p(10, 3, 4, 256), p(10, 1, 8, 256)];
    table("Encoding", &TWO, sides!(base, encode, [Plain, Proved]), 1.0, plan);
    for (title, all) in [("Decoding, of k blocks", false), ("Decoding, of n blocks", true)] {
        table(title, &DECODERS, decoders(&base, all), 1.3, plan);
    }
    let mut index = sides!([()], insert, [Plain, Proved]);
    index.extend(sides!([()], fill, [Plain, Proved]));
    index.extend(sides!([true, false], search, [Plain, Proved]));
    table("The index of accession numbers", &TWO, index, 1.0, plan);
    for set in [p(4, 1, 2, 64), p(10, 3, 4, 256)] {
        let steps = server_steps::<Plain>(set)
            .into_iter()
            .zip(server_steps::<Bytes>(set))
            .zip(server_steps::<Proved>(set));
        let title = format!("Steps of a server, n = {}", set.n);
        table(&title, &RECORDS, steps.map(|((a, b), c)| vec![a, b, c]).collect(), 1.3, plan);
    }
    let whole = [p(4, 1, 2, 64), p(10, 3, 4, 64)];
    table("A whole write", &RECORDS, sides!(whole, whole_write, [Plain, Bytes, Proved]), 1.3, plan);
    table("A whole read", &RECORDS, sides!(whole, whole_read, [Plain, Bytes, Proved]), 1.3, plan);
    let by_n = [p(4, 1, 2, 64), p(6, 1, 2, 64), p(8, 1, 2, 64), p(10, 1, 2, 64)];
    let by_k = [p(10, 1, 1, 64), p(10, 1, 2, 64), p(10, 1, 4, 64), p(10, 1, 8, 64)];
    let by_l = [p(7, 2, 3, 1), p(7, 2, 3, 16), p(7, 2, 3, 64), p(7, 2, 3, 256)];
    for (what, sets) in [("n", by_n), ("k", by_k), ("L", by_l)] {
        table(&format!("Encoding, by {what}"), &TWO, sides!(sets, encode, [Plain, Proved]), 1.0, plan);
        table(&format!("Decoding of n blocks, by {what}"), &DECODERS, decoders(&sets, true), 1.3, plan);
        table(
            &format!("A whole write, by {what}"),
            &RECORDS,
            sides!(sets, whole_write, [Plain, Bytes, Proved]),
            1.3,
            plan,
        );
        table(
            &format!("A whole read, by {what}"),
            &RECORDS,
            sides!(sets, whole_read, [Plain, Bytes, Proved]),
            1.3,
            plan,
        );
    }
}
