//! Histories: document 01's examples, the judgement against brute force, and damaged input.

use register::frame::Stamp;
use register::history::{judge, offends, parse, precedes, report, Judgement, Record};
use register::orders::{is_order, line, some_history, some_order};
use register::random::Random;
use register::Refusal;

const EXAMPLE: &str = "W 1 4 1 2 1 0\nR 2 6 0 0 0 0\nR 5 8 1 2 1 0\n";

#[test]
fn examples() {
    let answer = |text: &str| report(text.as_bytes());
    assert_eq!(answer(""), "order\n");
    assert_eq!(answer(EXAMPLE), "order 2 1 3\n");
    assert_eq!(answer("W 1 4 1 2 1 0\nR 5 6 0 0 0 0\nR 5 8 1 2 1 0\n"), "no order 1 2\n");
    assert_eq!(answer("R 6 6 0 0 0 0\n"), "refused 18\n");
    assert_eq!(answer("R 1 2 7 1 1 0\n"), "refused 19\n");
    // 18 anywhere comes before 19; a read with some zero parts is unlisted.
    assert_eq!(answer("R 1 2 7 1 1 0\nR 6 6 0 0 0 0\n"), "refused 18\n");
    assert_eq!(answer("R 1 2 7 0 1 0\n"), "refused 19\n");
    assert_eq!(answer("R 1 2 0 1 0 0\n"), "refused 19\n");
    // A read before the write of its own stamp.
    assert_eq!(answer("R 1 2 1 1 1 0\nW 3 4 1 1 1 0\n"), "no order 1 2\n");
    // Equal points are concurrent; an unknown end precedes nothing.
    assert_eq!(answer("R 1 3 1 1 1 0\nW 3 4 1 1 1 0\n"), "order 2 1\n");
    assert_eq!(answer("W 0 4294967295 2 1 1 0\nW 5 6 1 1 2 0\nR 7 8 1 1 2 0\n"), "order 2 3 1\n");
    // Reads of equal stamps go by end, then line.
    assert_eq!(answer("R 1 9 0 0 0 0\nR 2 5 0 0 0 0\nR 3 5 0 0 0 0\n"), "order 2 3 1\n");
    // The pair whose later operation has the smallest line number, then the smallest earlier one.
    let three = "W 5 6 1 1 1 0\nR 1 2 1 1 1 0\nR 2 3 1 1 1 0\nR 7 8 0 0 0 0\n";
    assert_eq!(answer(three), "no order 2 1\n");
    assert_eq!(answer("R 9 10 0 0 0 0\nW 1 2 2 1 1 0\nR 5 6 0 0 0 0\n"), "no order 2 1\n");
    assert_eq!(answer("W 1 5 1 1 1 3\nR 5 6 0 0 0 4\nR 5 6 0 0 0 3\n"), "no order 1 3\n");
    // The smallest earlier line first would give 1 and 4.
    let four = "W 10 11 5 1 1 0\nW 8 9 2 1 2 0\nW 1 2 3 1 3 0\nW 20 21 1 1 4 0\n";
    assert_eq!(answer(four), "no order 3 2\n");
}

/// Request F-2: equal points of one known caller precede; else an end below the other's start.
#[test]
fn callers() {
    let answer = |text: &str| report(text.as_bytes());
    assert_eq!(answer("W 1 4 1 2 1 2\nR 4 6 0 0 0 2\n"), "no order 1 2\n");
    assert_eq!(answer("W 1 4 1 2 1 2\nR 4 6 0 0 0 3\n"), "order 2 1\n");
    assert_eq!(answer("W 1 4 1 2 1 0\nR 4 6 0 0 0 0\n"), "order 2 1\n");
    assert_eq!(answer("R 1 2 1 1 1 1\nW 2 3 1 1 1 1\n"), "no order 1 2\n");
    assert_eq!(answer("R 1 2 0 0 0 9\n"), "refused 18\n");
    assert_eq!(answer("R 1 2 0 0 0\n"), "refused 18\n");
    // A caller that is not the writer; one caller's operations that overlap are concurrent.
    assert_eq!(answer("W 1 4 1 2 1 5\n"), "order 1\n");
    assert_eq!(answer("W 1 5 1 2 1 2\nR 4 6 0 0 0 2\n"), "order 2 1\n");
    // A lent row: no text has refused the caller.
    let at = |end, start, x: u8, y: u8| {
        let a = Record { write: false, start: 0, end, stamp: Stamp::default(), caller: x };
        (a, Record { start, end: start + 1, caller: y, ..a })
    };
    let (nobody, _) = at(1, 1, 9, 9);
    assert_eq!(judge(&[nobody]), Err(Refusal::Record));
    let (mut equal, mut below) = (0, 0);
    for x in 0..=8 {
        for y in 0..=8 {
            for end in 1..4 {
                for start in 0..4 {
                    let (a, b) = at(end, start, x, y);
                    let expected = match (x, y) {
                        (0, _) | (_, 0) => end < start,
                        _ if x == y => end <= start,
                        _ => end < start,
                    };
                    assert_eq!(precedes(&a, &b), expected, "{a:?} {b:?}");
                    equal += (expected && end == start) as usize;
                    below += (expected && end < start) as usize;
                }
            }
        }
    }
    assert_eq!((equal, below), (8 * 3, 81 * 3));
}

#[test]
fn malformed() {
    for line in [
        "\n",
        " \n",
        "W 1 4 1 2 1 0",
        "W 1 4 1 2 1 0\r\n",
        "W 1 4 1 2 1 0 \n",
        " W 1 4 1 2 1 0\n",
        "W  1 4 1 2 1 0\n",
        "W 1 4 1 2\n",
        "W 1 4 1 2 1\n",
        "W 1 4 1 2 1 \n",
        "W 1 4 1 2 1 0 0\n",
        "X 1 4 1 2 1 0\n",
        "w 1 4 1 2 1 0\n",
        "W 01 4 1 2 1 0\n",
        "W 1 4 1 2 01 0\n",
        "W 1 4 1 2 1 00\n",
        "W 1 4 1 2 1 -0\n",
        "W 1 4 1 2 1 9\n",
        "W 1 4 1 2 1 10\n",
        "W 1 4 1 2 1 256\n",
        "W 1 4 1 9 1 0\n",
        "W 4 4 1 2 1 0\n",
        "W 5 4 1 2 1 0\n",
        "W 1 4294967296 1 2 1 0\n",
        "W 1 4 18446744073709551616 2 1 0\n",
        "W 1 4 1 2 4294967296 0\n",
        "W 1 4 1 2 -1 0\n",
        "W +1 4 1 2 1 0\n",
        "W 1 4 1 2 1 0\n\n",
        "W\t1 4 1 2 1 0\n",
        "W 1 4 0 2 1 0\n",
        "W 1 4 1 0 1 0\n",
        "W 1 4 1 2 0 0\n",
        "W 1 4 1 2 1 0\nW 5 6 1 2 1 0\n",
        "W 1 4 00 2 1 0\n",
        "W 1 4 1 2 1 0\0\n",
        "W 1 4 999999999999999999999999999999 2 1 0\n",
    ] {
        assert_eq!(report(line.as_bytes()), "refused 18\n", "{line:?}");
    }
    assert_eq!(report(b"W 0 4294967295 18446744073709551615 8 4294967295 8\n"), "order 1\n");
    let many = |count: usize| "R 1 2 0 0 0 0\n".repeat(count);
    assert!(report(many(64).as_bytes()).starts_with("order 1 2"));
    assert_eq!(report(many(65).as_bytes()), "refused 18\n");
}

/// Three reads of one stamp, ordered by precedence and then by identifier, go round in a ring;
/// by end they do not.
#[test]
fn no_ring_of_reads() {
    // 3 precedes 1; by line 1 before 2 and 2 before 3.
    let text = "R 5 6 0 0 0 0\nR 1 7 0 0 0 0\nR 2 3 0 0 0 0\n";
    let reads = parse(text.as_bytes()).unwrap();
    let by_identifier = |a: usize, b: usize| {
        let (x, y) = (&reads[a - 1], &reads[b - 1]);
        precedes(x, y) || (!precedes(y, x) && a < b)
    };
    assert!(by_identifier(1, 2) && by_identifier(2, 3) && by_identifier(3, 1));
    assert_eq!(report(text.as_bytes()), "order 3 1 2\n");
}

#[test]
fn against_all_permutations() {
    let mut random = Random::new(5);
    let (mut orders, mut pairs, mut refused) = (0, 0, 0);
    // Pairs that another order of choosing would not give, and pairs whose later operation has the
    // smaller line number.
    let (mut differ, mut upwards) = (0, 0);
    for round in 0..6000 {
        let length = if round % 20 == 0 { 7 } else { random.range(1, 5) };
        let mut records = some_history(&mut random, length);
        for i in (1..length).rev() {
            records.swap(i, random.below(i + 1));
        }
        let text: String = records.iter().map(line).collect();
        assert_eq!(parse(text.as_bytes()).as_ref(), Ok(&records));
        match judge(&records) {
            Err(refusal) => {
                assert!(matches!(refusal, Refusal::Record | Refusal::Unlisted));
                refused += 1;
            }
            Ok(Judgement::Order(row)) => {
                let row: Vec<usize> = row.iter().map(|i| i - 1).collect();
                let mut sorted = row.clone();
                sorted.sort();
                assert!(sorted.iter().copied().eq(0..length));
                assert!(is_order(&records, &row), "round {round}: {text}");
                orders += 1;
            }
            Ok(Judgement::NoOrder(a, b)) => {
                // Of all offending pairs, by the line of the later operation and then of the earlier.
                let mut all = Vec::new();
                for (i, x) in records.iter().enumerate() {
                    let later = records.iter().enumerate().filter(|(_, y)| offends(x, y));
                    all.extend(later.map(|(j, _)| (j + 1, i + 1)));
                }
                let earlier_first = all.iter().map(|&(j, i)| (i, j)).min();
                assert_eq!(Some((b, a)), all.into_iter().min(), "round {round}: {text}");
                differ += (earlier_first != Some((a, b))) as usize;
                upwards += (b < a) as usize;
                assert!(!some_order(&records), "round {round}: {text}");
                pairs += 1;
            }
        }
    }
    assert!(orders > 1000 && pairs > 1000 && refused > 300, "{orders} {pairs} {refused}");
    assert!(differ > 50 && upwards > 500, "{differ} {upwards}");
}

/// Damaged input: what parses is exactly what prints back to the same bytes.
#[test]
fn damaged_input() {
    let mut random = Random::new(6);
    let mut parsed = 0;
    for _ in 0..100_000 {
        let length = random.range(0, 4);
        let records = some_history(&mut random, length);
        let mut text: Vec<u8> = records.iter().map(line).collect::<String>().into_bytes();
        for _ in 0..random.range(0, 2) {
            let spare = *b" 0123456789WR\n-+x";
            let c = if random.chance(1, 10) { random.byte() } else { random.pick(&spare) };
            let at = random.below(text.len() + 1);
            match random.below(3) {
                0 => text.insert(at, c),
                1 if at < text.len() => text[at] = c,
                _ if at < text.len() => {
                    text.remove(at);
                }
                _ => {}
            }
        }
        if let Ok(records) = parse(&text) {
            let back: String = records.iter().map(line).collect();
            assert_eq!(back.as_bytes(), &text[..]);
            parsed += 1;
        }
        report(&text);
    }
    assert!(parsed > 10_000 && parsed < 90_000);
}
