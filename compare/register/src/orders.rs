//! Orders of a history by trying all, and random histories: what comparisons of judgements need.

use crate::frame::Stamp;
use crate::history::{precedes, Record};
use crate::random::Random;

/// Document 01's words: a row that keeps precedence, has writes in stamp order, and each read
/// after the write of its own stamp and before any larger.
pub fn is_order(records: &[Record], row: &[usize]) -> bool {
    for (place, &later) in row.iter().enumerate() {
        for &earlier in &row[..place] {
            let (a, b) = (&records[earlier], &records[later]);
            let wrong = precedes(b, a)
                || (a.write && a.stamp > b.stamp)
                || (!a.write && b.write && a.stamp >= b.stamp);
            if wrong {
                return false;
            }
        }
    }
    true
}

/// Whether some permutation of the records is an order, trying all.
pub fn some_order(records: &[Record]) -> bool {
    some_order_from(records, &mut Vec::new())
}

fn some_order_from(records: &[Record], row: &mut Vec<usize>) -> bool {
    if row.len() == records.len() {
        return is_order(records, row);
    }
    (0..records.len()).any(|i| {
        if row.contains(&i) {
            return false;
        }
        row.push(i);
        let found = some_order_from(records, row);
        row.pop();
        found
    })
}

/// A random history whose reads are mostly of listed stamps; callers are often one, often not known.
pub fn some_history(random: &mut Random, length: usize) -> Vec<Record> {
    let mut stamps = vec![Stamp::default()];
    (0..length)
        .map(|_| {
            let start = random.below(8) as u32;
            let end = if random.chance(1, 10) { u32::MAX } else { start + 1 + random.below(4) as u32 };
            let caller = random.pick(&[0, 0, 1, 1, 2, 8]);
            if random.chance(1, 2) {
                let time = random.range(1, 3) as u64;
                let stamp =
                    Stamp { time, writer: random.range(1, 2) as u8, sequence: random.range(1, 2) as u32 };
                stamps.push(stamp);
                Record { write: true, start, end, stamp, caller }
            } else {
                Record { write: false, start, end, stamp: random.pick(&stamps), caller }
            }
        })
        .collect()
}

/// A random history that has an order, since all its operations overlap: numbers of any length up to the largest, writes of
/// different stamps, reads of these and of stamp zero.
pub fn some_overlapping(random: &mut Random, length: usize) -> Vec<Record> {
    let mut stamps = vec![Stamp::default()];
    (0..length)
        .map(|_| {
            let end = if random.chance(1, 4) {
                u32::MAX
            } else {
                10 + (random.word() as u32 >> random.range(1, 29))
            };
            let (start, caller) = (random.below(10) as u32, random.below(9) as u8);
            let sequence = (random.word() as u32 >> random.below(32)).max(1);
            let time = (random.word() >> random.below(64)).max(1);
            let stamp = Stamp { time, writer: random.range(1, 8) as u8, sequence };
            if random.chance(1, 2) && !stamps.contains(&stamp) {
                stamps.push(stamp);
                Record { write: true, start, end, stamp, caller }
            } else {
                Record { write: false, start, end, stamp: random.pick(&stamps), caller }
            }
        })
        .collect()
}

/// A record as its line.
pub fn line(r: &Record) -> String {
    let kind = if r.write { 'W' } else { 'R' };
    let Stamp { time, writer, sequence } = r.stamp;
    format!("{kind} {} {} {time} {writer} {sequence} {}\n", r.start, r.end, r.caller)
}
