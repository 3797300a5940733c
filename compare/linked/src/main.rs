//! linked [KIND [COUNT [SEED]]]: the comparison with the proved library, COUNT cases from SEED (0) on. KIND `all` is every kind.
//! COUNT xN is N times as many as the gate tries, which is x1.

use linked::{try_seeds, Seen, KINDS};
use simulate::progress::refusal_lines;
use std::process::ExitCode;
use std::time::Instant;

fn main() -> ExitCode {
    let arguments: Vec<String> = std::env::args().skip(1).collect();
    let name = arguments.first().map_or("all", String::as_str);
    let kinds: Vec<_> = KINDS.iter().filter(|kind| name == "all" || name == kind.name).collect();
    let count = arguments.get(1).map_or("x1", String::as_str);
    let (times, count) = match count.strip_prefix('x') {
        Some(times) => (true, times.parse::<u64>()),
        None => (false, count.parse()),
    };
    let first = arguments.get(2).map_or(Ok(0), |text| text.parse::<u64>());
    let (Ok(count), Ok(first), false, true) = (count, first, kinds.is_empty(), arguments.len() < 4) else {
        let names: Vec<&str> = KINDS.iter().map(|kind| kind.name).collect();
        eprintln!("linked [KIND [COUNT [SEED]]], KIND all or one of {}", names.join(", "));
        return ExitCode::from(2);
    };
    let mut code = ExitCode::SUCCESS;
    let mut total = Seen::default();
    for kind in kinds {
        let count = if times { count.saturating_mul(kind.usual) } else { count };
        let begun = Instant::now();
        match try_seeds(kind, first, count) {
            Ok(seen) => {
                let (name, words, seconds) = (kind.name, kind.words(&seen), begun.elapsed().as_secs_f64());
                println!("{name}: {count} cases from seed {first} agree, {seconds:.1} s: {words}");
                total = total.and(seen);
            }
            Err(failure) => {
                println!("{failure}");
                code = ExitCode::FAILURE;
            }
        }
    }
    print!("{}", refusal_lines(&total.refusals));
    code
}
