//! Histories as text: sound, offending and damaged ones; short ones against all permutations too. And their sheets.

use crate::{calls, pattern, same_answer, same_bytes, Difference, Seen};
use register::history::{judge, parse, Judgement};
use register::orders::{is_order, line, some_history, some_order, some_overlapping};
use register::random::Random;
use register::sheet::{lay, Laid, PAGE};

/// Up to 66 lines; one history in three is damaged somewhere.
fn text(random: &mut Random) -> Vec<u8> {
    let most = random.pick(&[3, 5, 5, 5, 66]);
    let length = random.range(0, most);
    let mut records = some_history(random, length);
    for i in (1..length).rev() {
        records.swap(i, random.below(i + 1));
    }
    if random.chance(1, 2) {
        // Each stamp is written once.
        for i in (0..length).rev() {
            let twice = |r: &register::history::Record| r.write && r.stamp == records[i].stamp;
            if records[i].write && records[..i].iter().any(twice) {
                records.remove(i);
            }
        }
    }
    let mut text: Vec<u8> = records.iter().map(line).collect::<String>().into_bytes();
    if random.chance(1, 3) && !text.is_empty() {
        let at = random.below(text.len());
        match random.below(3) {
            0 => text[at] = random.pick(b"0129 RWX\n\r\0-"),
            1 => text.truncate(at),
            _ => text.insert(at, random.pick(b"0129 RW\n")),
        }
    }
    text
}

/// Whether the judgement is that of all permutations tried.
fn by_trial(text: &[u8], answer: u64, lines: &[u8]) -> Result<(), Difference> {
    let Ok(records) = parse(text) else { return Ok(()) };
    if answer & 0xff != 0 || records.len() > 5 {
        return Ok(());
    }
    let right = if answer >> 8 & 0xff == 0 {
        let row: Vec<usize> = lines[..records.len()].iter().map(|&line| line as usize - 1).collect();
        is_order(&records, &row)
    } else {
        !some_order(&records)
    };
    if right {
        Ok(())
    } else {
        Err("not what trying all permutations says".to_string())
    }
}

pub fn history(seed: u64) -> Result<Seen, Difference> {
    let mut random = Random::new(seed);
    let text = text(&mut random);
    let room = if random.chance(1, 20) { random.below(64) } else { 64 + random.below(3) };
    let mut expected = pattern(room, seed);
    let mut answer = 10;
    if room >= 64 {
        answer = match parse(&text).and_then(|records| judge(&records)) {
            Err(refusal) => refusal.number() as u64,
            Ok(Judgement::NoOrder(a, b)) => 1 << 8 | (a as u64) << 16 | (b as u64) << 24,
            Ok(Judgement::Order(order)) => {
                for (place, line) in expected.iter_mut().zip(&order) {
                    *place = *line as u8;
                }
                (order.len() as u64) << 16
            }
        };
    }
    let mut lines = pattern(room, seed);
    let at = |difference| format!("{:?}: {difference}", String::from_utf8_lossy(&text));
    same_answer(calls::judge(&text, &mut lines), answer).map_err(at)?;
    same_bytes("lines", &lines, &expected).map_err(at)?;
    by_trial(&text, answer, &lines).map_err(at)?;
    Ok(Seen::of(answer))
}

/// The sheet of a history, in an area of any length: none, under a page, the pages, one byte less or some more.
pub fn sheet(seed: u64) -> Result<Seen, Difference> {
    let mut random = Random::new(seed);
    let text = if random.chance(2, 3) {
        let any = random.range(0, 66);
        let length = random.pick(&[0, 1, 9, 10, 58, 59, 60, 64, 65, any, any, any]);
        some_overlapping(&mut random, length).iter().map(line).collect::<String>().into_bytes()
    } else {
        text(&mut random)
    };
    let room = match random.below(8) {
        0 => 0,
        1 => random.below(2 * PAGE),
        2 => PAGE - 1,
        3 => PAGE,
        4 => 2 * PAGE - 1,
        5 => 2 * PAGE,
        _ => 2 * PAGE + random.below(100),
    };
    let mut expected = pattern(room, seed);
    let answer = match lay(&text) {
        Err(refusal) => refusal.number() as u64,
        Ok(Laid::NoOrder(a, b)) => 1 << 8 | (a as u64) << 16 | (b as u64) << 24,
        Ok(Laid::Sheet(sheet)) if room < sheet.len() => 10,
        Ok(Laid::Sheet(sheet)) => {
            expected[..sheet.len()].copy_from_slice(&sheet);
            ((sheet.len() / PAGE) as u64) << 16
        }
    };
    let mut out = pattern(room, seed);
    let at = |difference| format!("{:?}, {room} bytes: {difference}", String::from_utf8_lossy(&text));
    same_answer(calls::sheet(&text, &mut out), answer).map_err(at)?;
    same_bytes("out", &out, &expected).map_err(at)?;
    Ok(Seen::of(answer))
}
