//! The index of accession numbers: request F-11's rule by example, and the index kept as bytes against the one worked out afresh.

use register::accession::{fresh, insert, search, Refusal, Values, INDEX, ROW, VALUES};
use register::random::Random;

/// A value of a number, with more bytes behind.
fn value(number: u64) -> Vec<u8> {
    [&number.to_be_bytes()[..], b"lot"].concat()
}

fn places(index: &[u8]) -> Vec<u8> {
    (0..index[0] as usize).map(|row| index[(row + 1) * ROW]).collect()
}

#[test]
fn example() {
    let mut index = vec![0xaa; INDEX];
    fresh(&mut index).unwrap();
    for (number, place) in [(5, 1), (3, 2), (5, 3)] {
        assert_eq!(insert(&value(number), &mut index), Ok(place));
    }
    assert_eq!(places(&index), [2, 1, 3]);
    assert_eq!(search(5, &index), Ok(Some(3)));
    assert_eq!(search(4, &index), Ok(None));
    assert_eq!(index[1 + 3 * ROW..], vec![0xaa; INDEX - 1 - 3 * ROW]);
}

#[test]
fn refusals() {
    let mut index = vec![0xaa; INDEX];
    fresh(&mut index).unwrap();
    assert_eq!(insert(b"1234567", &mut index), Err(Refusal::Short));
    for i in 0..VALUES {
        assert_eq!(insert(&value(i as u64 % 7), &mut index), Ok(i as u8 + 1));
    }
    let full = index.clone();
    assert_eq!(insert(b"12345678", &mut index), Err(Refusal::Full));
    assert_eq!(insert(b"1234567", &mut index), Err(Refusal::Short));
    assert_eq!(insert(b"1234567", &mut index[..INDEX - 1]), Err(Refusal::Room));
    assert_eq!(search(0, &index[..INDEX - 1]), Err(Refusal::Room));
    assert_eq!(fresh(&mut index[..INDEX - 1]), Err(Refusal::Room));
    assert_eq!(index, full);
}

#[test]
fn afresh() {
    let mut random = Random::new(11);
    for _ in 0..500 {
        let mut index = random.bytes(INDEX);
        fresh(&mut index).unwrap();
        let mut values = Values::default();
        let apart = random.pick(&[1, 3, 40, 1 << 20]);
        for _ in 0..70 {
            let number = random.below(apart) as u64;
            let mut value = value(number);
            value.truncate(random.pick(&[7, 8, 11]));
            assert_eq!(insert(&value, &mut index), values.insert(&value));
            let rows: Vec<u8> = values.rows().iter().map(|row| row.1).collect();
            assert_eq!(places(&index), rows);
            let wanted = random.below(apart) as u64;
            assert_eq!(search(wanted, &index), Ok(values.search(wanted)));
        }
    }
}
