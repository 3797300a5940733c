//! Runs the simulation: `sim COUNT FIRST [MUTANT]`. Prints each seed that fails, then a line that sums up. Exit status 1 if a seed failed (or, with a
//! mutant, if none did).
use semduoli::settings::Mutant;
use semduoli::sim;
use std::time::Instant;

const MUTANTS: [(&str, Mutant); 12] = [
    ("send-early", Mutant::SendEarly),
    ("ack-early", Mutant::AckEarly),
    ("no-settle", Mutant::NoSettle),
    ("snapshot-ahead", Mutant::SnapshotAhead),
    ("one-stream", Mutant::OneStream),
    ("numbers-lost", Mutant::NumbersLost),
    ("weak-sum", Mutant::WeakSum),
    ("no-wait", Mutant::NoWait),
    ("sign-passes", Mutant::SignPasses),
    ("sign-forgotten", Mutant::SignForgotten),
    ("sender-by-frame", Mutant::SenderByFrame),
    ("given-up-forgotten", Mutant::GivenUpForgotten),
];

fn usage() -> ! {
    let names: Vec<&str> = MUTANTS.iter().map(|m| m.0).collect();
    eprintln!("usage: sim COUNT FIRST-SEED [MUTANT]\nmutants: {}", names.join(" "));
    std::process::exit(1);
}

fn main() {
    let words: Vec<String> = std::env::args().skip(1).collect();
    let number = |at: usize| words.get(at).and_then(|w| w.parse::<u64>().ok());
    let (Some(count), Some(first), true) = (number(0), number(1), words.len() <= 3) else { usage() };
    let mutant = words.get(2).map(|name| MUTANTS.iter().find(|m| m.0 == name).map_or_else(|| usage(), |m| m.1));
    let begun = Instant::now();
    let (mut failed, mut events, mut operations, mut crashes, mut torn, mut hash) = (0, 0, 0, 0, 0, 0);
    let (mut rolled, mut caught, mut given_up, mut fetches, mut removed) = (0, 0, 0, 0, 0);
    for (done, seed) in (first..first.saturating_add(count)).enumerate() {
        let report = sim::run(seed, mutant);
        events += report.events;
        operations += report.operations;
        crashes += report.crashes;
        torn += report.torn;
        fetches += report.fetches;
        removed += report.removed;
        rolled += report.rolled;
        caught += report.caught;
        given_up += report.given_up;
        hash ^= report.hash.rotate_left((seed % 64) as u32);
        if !report.failures.is_empty() {
            failed += 1;
            if mutant.is_some() {
                println!("{} falls at seed {seed}, the {}th: {}", words[2], done + 1, report.failures[0]);
                return;
            }
            println!("seed {seed} fails:");
            report.failures.iter().take(5).for_each(|f| println!("  {f}"));
        }
        if (done + 1) % 50 == 0 {
            eprintln!("{} of {count} seeds, {failed} failed, {:.0} s", done + 1, begun.elapsed().as_secs_f64());
        }
    }
    print!("{count} seeds from {first}: {failed} failed; {events} events, {operations} operations, {crashes} crashes, {torn} torn batches, ");
    print!("{fetches} pieces of logs read for what is owed, {removed} segments removed, {given_up} times a server given up, ");
    println!("{caught} of {rolled} old folders caught, hash {hash:016x}");
    std::process::exit(i32::from((failed > 0) != mutant.is_some()));
}
