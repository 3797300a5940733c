//! The index of accession numbers: insertions and searches from an empty index on, and on any bytes that a host may lend.

use crate::{calls, pattern, same_answer, same_bytes, Difference, Seen};
use register::accession::{fresh, insert, search, Refusal, Values, INDEX, ROW};
use register::random::Random;

/// An answer in the bits of include/semduoli.h, the place from bit 16 on.
fn bits(answer: Result<Option<u8>, Refusal>) -> u64 {
    match answer {
        Err(refusal) => refusal as u64,
        Ok(place) => (place.unwrap_or(0) as u64) << 16,
    }
}

/// Numbers that come again and again, the least and the largest among them.
fn some_number(apart: usize, random: &mut Random) -> u64 {
    match random.below(12) {
        0 => 0,
        1 => u64::MAX,
        2 => random.word(),
        _ => (random.below(apart) as u64).rotate_right(random.pick(&[0, 8])),
    }
}

/// The index that the bytes hold is the one worked out afresh.
fn same_rows(index: &[u8], values: &Values) -> Result<(), Difference> {
    let rows: Vec<u8> = values
        .rows()
        .iter()
        .flat_map(|(number, place)| [&number.to_be_bytes()[..], &[*place]].concat())
        .collect();
    same_answer(index[0] as u64, values.0.len() as u64)?;
    same_bytes("rows worked out afresh", &index[1..1 + values.0.len() * ROW], &rows)
}

/// Up to 70 calls on one area. Half of the areas are made empty first and then compared with the index worked out afresh too; the
/// others hold any bytes, most of them a count of 64 or less; one in 20 is short.
pub fn index(seed: u64) -> Result<Seen, Difference> {
    let mut random = Random::new(seed);
    let room = if random.chance(1, 20) { random.below(INDEX) } else { INDEX + random.below(3) };
    let mut given = if random.chance(1, 2) { pattern(room, seed) } else { random.bytes(room) };
    if room > 0 && random.chance(3, 4) {
        given[0] = random.below(66) as u8;
    }
    let mut expected = given.clone();
    let mut values = None;
    let mut seen = Seen::default();
    if random.chance(1, 2) {
        let answer = fresh(&mut expected);
        same_answer(calls::index_fresh(&mut given), answer.err().map_or(0, |refusal| refusal as u64))?;
        same_bytes("index", &given, &expected)?;
        values = answer.is_ok().then(Values::default);
    }
    let apart = random.pick(&[1, 3, 40, 1 << 20]);
    for _ in 0..random.range(1, 70) {
        let number = some_number(apart, &mut random);
        if random.chance(1, 4) {
            let answer = bits(search(number, &expected));
            same_answer(calls::index_search(number, &given), answer)?;
            if let Some(values) = &values {
                same_answer(answer, bits(Ok(values.search(number))))?;
            }
            seen = seen.and(Seen::of(answer));
            continue;
        }
        let mut value = [&number.to_be_bytes()[..], &random.bytes(3)].concat();
        value.truncate(random.pick(&[0, 7, 8, 8, 8, 9, 11]));
        let answer = bits(insert(&value, &mut expected).map(Some));
        same_answer(calls::index_insert(&value, &mut given), answer)?;
        same_bytes("index", &given, &expected)?;
        if let Some(values) = &mut values {
            same_answer(answer, bits(values.insert(&value).map(Some)))?;
            same_rows(&given, values)?;
        }
        seen = seen.and(Seen::of(answer));
    }
    Ok(seen)
}
