//! The season sheet: the request's examples, sheets byte by byte, and the cases of the proved program.

use register::history::{judge, parse, Judgement};
use register::orders::{line, some_overlapping};
use register::random::Random;
use register::sheet::{lay, report, sheet, Laid, COLUMNS, OPERATIONS, PAGE};
use std::path::Path;

fn laid(text: &str) -> Vec<u8> {
    let Ok(Laid::Sheet(sheet)) = lay(text.as_bytes()) else { panic!("{text:?} has no sheet") };
    sheet
}

#[test]
fn examples() {
    let one = laid("W 1 4 1 2 1 2\nR 2 6 0 0 0 0\nR 5 8 1 2 1 3\n");
    assert_eq!(one.len(), PAGE);
    let text = String::from_utf8(one).unwrap();
    let lines: Vec<&str> = text.lines().collect();
    assert_eq!(lines[0], "  1 R          2          6                    0 0          0 0         ");
    assert_eq!(lines[1], "  2 W          1          4                    1 2          1 2         ");
    assert_eq!(lines[2], "  3 R          5          8                    1 2          1 3         ");
    assert!(lines[3..59].iter().all(|line| line.len() == COLUMNS && line.trim().is_empty()));
    assert_eq!(lines[59], format!("{:>72}", 1));
    let two = String::from_utf8(laid(&"R 0 1 0 0 0 0\n".repeat(60))).unwrap();
    assert_eq!(two.len(), 2 * PAGE);
    assert!(two.lines().nth(60).unwrap().starts_with(" 60 R"));
    assert_eq!(two.lines().nth(119).unwrap().trim_start(), "2");
    let empty = laid("");
    assert_eq!(empty.len(), PAGE);
    assert_eq!(empty.iter().filter(|&&c| c != b' ' && c != b'\n').collect::<Vec<_>>(), [&b'1']);
    assert_eq!(report(b"W 1 4 1 2 1 2\nR 4 6 0 0 0 2\n"), b"no order 1 2\n");
    assert_eq!(report(b"R 6 6 0 0 0 0\n"), b"refused 18\n");
    assert_eq!(report(b"R 1 2 7 1 1 0\n"), b"refused 19\n");
}

/// The request's second formulation: each byte of a sheet by its index.
fn byte(records: &[register::history::Record], order: &[usize], i: usize) -> u8 {
    let (page, line, column) = (i / PAGE, i % PAGE / (COLUMNS + 1), i % PAGE % (COLUMNS + 1));
    let right = |text: String, width: usize, at: usize| {
        let from = width - text.len();
        if at < from {
            b' '
        } else {
            text.as_bytes()[at - from]
        }
    };
    if column == COLUMNS {
        return b'\n';
    }
    if line == OPERATIONS {
        return right((page + 1).to_string(), COLUMNS, column);
    }
    let place = OPERATIONS * page + line;
    let Some(&number) = order.get(place) else { return b' ' };
    let r = &records[number - 1];
    match column {
        0..=2 => right((place + 1).to_string(), 3, column),
        4 => b"RW"[r.write as usize],
        6..=15 => right(r.start.to_string(), 10, column - 6),
        17..=26 => right(r.end.to_string(), 10, column - 17),
        28..=47 => right(r.stamp.time.to_string(), 20, column - 28),
        49 => b'0' + r.stamp.writer,
        51..=60 => right(r.stamp.sequence.to_string(), 10, column - 51),
        62 => b'0' + r.caller,
        _ => b' ',
    }
}

#[test]
fn by_index() {
    let mut random = Random::new(5);
    for length in (0..=64).chain([58, 59, 60, 64]) {
        let records = some_overlapping(&mut random, length);
        let text: String = records.iter().map(line).collect();
        assert_eq!(parse(text.as_bytes()).unwrap(), records);
        let Ok(Judgement::Order(order)) = judge(&records) else { panic!("{text}") };
        let sheet = sheet(&records, &order);
        assert_eq!(sheet.len(), if length < 60 { PAGE } else { 2 * PAGE });
        for (i, &given) in sheet.iter().enumerate() {
            assert_eq!(given, byte(&records, &order, i), "byte {i} of {length} operations");
        }
    }
}

/// The cases of the proved program: its expected output is that of the second implementation too.
#[test]
fn cases() {
    let folder = Path::new(env!("CARGO_MANIFEST_DIR")).join("../../crates");
    let read = |name: &str| std::fs::read(folder.join(name)).unwrap();
    assert!(report(&read("sheet/stdin")) == read("sheet/stdout"));
    let mut given = Vec::new();
    for name in String::from_utf8(read("sheet_cases/args")).unwrap().lines() {
        given.extend(format!("{name}\n").bytes());
        given.extend(report(&read(&format!("sheet_cases/data/{name}"))));
    }
    assert!(given == read("sheet_cases/stdout"));
}
