//! Digests, encoding and decoding.

use crate::{calls, pattern, same_answer, same_bytes, Difference, Seen};
use register::params::MAX_VALUE;
use register::random::Random;
use register::{blocks, sha256, Params, Refusal};

/// The number of a refusal, or 0.
fn number<T>(answer: Result<T, Refusal>) -> u64 {
    answer.err().map_or(0, |refusal| refusal.number() as u64)
}

/// A message of seed mod 260 bytes, of which 257 on are too long; one area in eight is short.
pub fn digest(seed: u64) -> Result<Seen, Difference> {
    let mut random = Random::new(seed);
    let message = match seed / 260 {
        0 => vec![0; seed as usize % 260],
        1 => vec![0xff; seed as usize % 260],
        _ => random.bytes(seed as usize % 260),
    };
    let room = if random.chance(1, 8) { random.below(32) } else { 32 + random.below(3) };
    let mut expected = pattern(room, seed);
    let answer = if message.len() > 256 {
        3
    } else if room < 32 {
        10
    } else {
        expected[..32].copy_from_slice(&sha256::digest(&message));
        0
    };
    let mut out = pattern(room, seed);
    same_answer(calls::digest(&message, &mut out), answer)?;
    same_bytes("out", &out, &expected)?;
    Ok(Seen::of(answer))
}

fn compare_encode(p: &Params, value: &[u8], room: usize, seed: u64) -> Result<Seen, Difference> {
    let (mut out, mut expected) = (pattern(room, seed), pattern(room, seed));
    let answer = number(blocks::encode(p, value, &mut expected));
    same_answer(calls::encode(p, value, &mut out), answer)?;
    same_bytes("blocks", &out, &expected)?;
    Ok(Seen::of(answer))
}

fn compare_decode(
    p: &Params,
    numbers: &[u8],
    given: &[u8],
    room: usize,
    seed: u64,
) -> Result<Seen, Difference> {
    let (mut out, mut expected) = (pattern(room, seed), pattern(room, seed));
    let answer = number(blocks::decode_joined(p, numbers, given, &mut expected));
    same_answer(calls::decode(p, numbers, given, &mut out), answer)?;
    same_bytes("value", &out, &expected)?;
    Ok(Seen::of(answer))
}

/// k to n different numbers of 1 to n, in any order.
fn some_numbers(p: &Params, random: &mut Random) -> Vec<u8> {
    let mut numbers: Vec<u8> = (1..=p.n as u8).collect();
    for i in (1..numbers.len()).rev() {
        numbers.swap(i, random.below(i + 1));
    }
    numbers.truncate(random.range(p.k, p.n));
    numbers
}

/// All parameter sets, each with L = 1 to 256 in turn: a value's blocks, and the value of k to n of them, which must be the value.
pub fn coding(seed: u64) -> Result<Seen, Difference> {
    let mut random = Random::new(seed);
    let sets = Params::all(1 + (seed as usize / 57) % 256);
    let p = sets[seed as usize % sets.len()];
    let at = |difference| format!("{p:?}: {difference}");
    let value = random.bytes(p.l);
    compare_encode(&p, &value, p.n * p.block() + random.below(3), seed).map_err(at)?;
    let encoded = blocks::encoded(&p, &value);
    let numbers = some_numbers(&p, &mut random);
    let chosen = numbers.iter().flat_map(|&j| encoded[j as usize - 1].clone()).collect::<Vec<u8>>();
    let seen = compare_decode(&p, &numbers, &chosen, p.l + random.below(3), seed).map_err(at)?;
    let mut back = vec![0; p.l];
    calls::decode(&p, &numbers, &chosen, &mut back);
    same_bytes("the decoded value", &back, &value).map_err(at)?;
    Ok(seen)
}

/// Some parameters within their bounds, and the same with one number wrong in half of the cases.
fn some_params(random: &mut Random) -> (Params, Params) {
    let length = random.range(1, 256);
    let sane = random.pick(&Params::all(length));
    let mut p = sane;
    let wild = [0, 1, 2, 3, 5, 9, 10, 11, 12, 255, 256, 257, 1 << 32, usize::MAX / 3, usize::MAX];
    if random.chance(1, 2) {
        let number = random.pick(&wild);
        match random.below(4) {
            0 => p.n = number,
            1 => p.t = number,
            2 => p.k = number,
            _ => p.l = number,
        }
    }
    (sane, p)
}

/// Mostly this length.
fn near(length: usize, random: &mut Random) -> usize {
    match random.below(12) {
        0 => length - 1,
        1 => length + 1,
        2 => random.below(2 * length),
        _ => length,
    }
}

/// Encoding with any parameters and lengths.
pub fn any_encode(seed: u64) -> Result<Seen, Difference> {
    let mut random = Random::new(seed);
    let (sane, p) = some_params(&mut random);
    let length = near(sane.l, &mut random);
    let value = random.bytes(length);
    let room = near(sane.n * sane.block(), &mut random);
    compare_encode(&p, &value, room, seed).map_err(|difference| format!("{p:?}: {difference}"))
}

/// Blocks of a value, of which one is foreign in a third of the cases, or whose padding is not zero in another; or any bytes.
fn some_blocks(p: &Params, numbers: &[u8], random: &mut Random) -> Vec<u8> {
    let whole = Params { l: (p.k * p.block()).min(MAX_VALUE), ..*p };
    let encoded = match random.below(3) {
        0 => blocks::encoded(&whole, &random.bytes(whole.l)),
        _ => blocks::encoded(p, &random.bytes(p.l)),
    };
    let mut chosen: Vec<u8> = numbers.iter().flat_map(|&j| encoded[j as usize - 1].clone()).collect();
    if random.chance(1, 3) {
        let at = random.below(chosen.len());
        chosen[at] ^= random.range(1, 255) as u8;
    }
    if random.chance(1, 8) {
        chosen = random.bytes(chosen.len());
    }
    chosen
}

/// Decoding with any parameters, lengths, numbers and blocks.
pub fn any_decode(seed: u64) -> Result<Seen, Difference> {
    let mut random = Random::new(seed);
    let (sane, p) = some_params(&mut random);
    let mut numbers = some_numbers(&sane, &mut random);
    let mut blocks = some_blocks(&sane, &numbers, &mut random);
    if random.chance(1, 3) {
        let i = random.below(numbers.len());
        numbers[i] = random.pick(&[0, 1, 2, 3, 10, 11, 255]);
    }
    numbers.resize(near(numbers.len(), &mut random), 1);
    let length = (numbers.len() * sane.block()).max(1);
    blocks.resize(near(length, &mut random), 1);
    let room = near(sane.l, &mut random);
    compare_decode(&p, &numbers, &blocks, room, seed).map_err(|difference| format!("{p:?}: {difference}"))
}
