//! The block code: a value of l bytes as n blocks of b bytes, any k of which give it back.
//! Depends on the field alone.

use crate::field::{inverse, mul};
use crate::params::{Params, Refusal, MAX_K, MAX_SERVERS, MAX_VALUE};

/// Block `j` of a value, written to the first b bytes of `out`. Byte r is the polynomial of
/// stripe r (bytes r·k to r·k + k − 1, constant first, zeros past the end) at j.
pub fn block_of(p: &Params, value: &[u8], j: usize, out: &mut [u8]) {
    let point = j as u8;
    for (r, byte) in out[..p.block()].iter_mut().enumerate() {
        let stripe = &value[r * p.k..p.l.min(r * p.k + p.k)];
        let mut sum = 0;
        for coefficient in stripe.iter().rev() {
            sum = mul(sum, point) ^ coefficient;
        }
        *byte = sum;
    }
}

/// All blocks, 1 to n, end to end. Refusals 1, 2, 3, 10.
pub fn encode(p: &Params, value: &[u8], out: &mut [u8]) -> Result<usize, Refusal> {
    p.check_parties()?;
    p.check_sizes()?;
    if value.len() != p.l {
        return Err(Refusal::ValueLength);
    }
    let size = p.block();
    if out.len() < p.n * size {
        return Err(Refusal::Room);
    }
    for j in 1..=p.n {
        block_of(p, value, j, &mut out[(j - 1) * size..j * size]);
    }
    Ok(p.n * size)
}

/// All blocks as separate byte vectors, for parameters within bounds and a value of l bytes.
pub fn encoded(p: &Params, value: &[u8]) -> Vec<Vec<u8>> {
    let mut all = vec![0; p.n * p.block()];
    encode(p, value, &mut all).expect("parameters within bounds");
    all.chunks(p.block()).map(|block| block.to_vec()).collect()
}

/// Lagrange's basis of k numbers: row i is the polynomial, constant first, that is 1 at number i and 0 at the others.
pub fn basis(numbers: &[u8]) -> [[u8; MAX_K]; MAX_K] {
    let mut rows = [[0; MAX_K]; MAX_K];
    for (row, &own) in rows.iter_mut().zip(numbers) {
        let mut product = [0; MAX_K + 1];
        product[0] = 1;
        let mut scale = 1;
        for &other in numbers.iter().filter(|&&other| other != own) {
            for d in (0..numbers.len()).rev() {
                product[d + 1] ^= product[d];
                product[d] = mul(product[d], other);
            }
            scale = mul(scale, own ^ other);
        }
        let scale = inverse(scale);
        for (coefficient, factor) in row.iter_mut().zip(product) {
            *coefficient = mul(factor, scale);
        }
    }
    rows
}

/// The value behind k blocks with different numbers, for parameters within bounds: stripe by stripe, the first l bytes. The basis is
/// computed once for all stripes.
pub fn decode_into(p: &Params, numbers: &[u8], blocks: &[&[u8]], out: &mut [u8]) {
    let basis = basis(&numbers[..p.k]);
    for (r, stripe) in out[..p.l].chunks_mut(p.k).enumerate() {
        stripe.fill(0);
        for (row, block) in basis.iter().zip(&blocks[..p.k]) {
            for (byte, coefficient) in stripe.iter_mut().zip(row) {
                *byte ^= mul(*coefficient, block[r]);
            }
        }
    }
}

/// Whether the given blocks are those of a value's encoding, each at its number.
pub fn agree(p: &Params, value: &[u8], numbers: &[u8], blocks: &[&[u8]]) -> bool {
    let mut fresh = [0; MAX_VALUE];
    numbers.iter().zip(blocks).all(|(&number, block)| {
        block_of(p, value, number as usize, &mut fresh);
        fresh[..p.block()] == **block
    })
}

/// Decoding from k to n numbered blocks. Refusals 1, 2, 3, 9, 10, and 21 unless all are blocks of one value.
pub fn decode(p: &Params, given: &[(usize, &[u8])], out: &mut [u8]) -> Result<usize, Refusal> {
    p.check_parties()?;
    p.check_sizes()?;
    if given.len() < p.k || given.len() > p.n {
        return Err(Refusal::Parts);
    }
    let mut seen = [false; MAX_SERVERS + 1];
    let mut numbers = [0; MAX_SERVERS];
    let mut blocks: [&[u8]; MAX_SERVERS] = [&[]; MAX_SERVERS];
    for (i, &(number, block)) in given.iter().enumerate() {
        if number < 1 || number > p.n || seen[number] || block.len() != p.block() {
            return Err(Refusal::Parts);
        }
        seen[number] = true;
        numbers[i] = number as u8;
        blocks[i] = block;
    }
    if out.len() < p.l {
        return Err(Refusal::Room);
    }
    let mut value = [0; MAX_VALUE];
    let value = &mut value[..p.l];
    decode_into(p, &numbers, &blocks, value);
    if !agree(p, value, &numbers[..given.len()], &blocks[..given.len()]) {
        return Err(Refusal::Disagreement);
    }
    out[..p.l].copy_from_slice(value);
    Ok(p.l)
}

/// The same from blocks that lie end to end, in the order of their numbers.
pub fn decode_joined(p: &Params, numbers: &[u8], blocks: &[u8], out: &mut [u8]) -> Result<usize, Refusal> {
    // The last block gets what remains, so that a wrong length shows in it.
    let size = if p.check_parties().is_ok() && p.check_sizes().is_ok() { p.block() } else { 1 };
    let mut rest = blocks;
    let mut given = Vec::new();
    for (i, &number) in numbers.iter().enumerate() {
        let length = if i + 1 == numbers.len() { rest.len() } else { size.min(rest.len()) };
        let (block, behind) = rest.split_at(length);
        given.push((number as usize, block));
        rest = behind;
    }
    decode(p, &given, out)
}

#[cfg(test)]
mod tests {
    use super::*;
    use crate::field::mul_by_shift;
    use crate::random::Random;

    /// The polynomial through the given points, constant first: built from the one through all but the last, and with it the product
    /// of (X − x) over the points.
    fn interpolate(xs: &[u8], ys: &[u8]) -> (Vec<u8>, Vec<u8>) {
        let at = |coefficients: &[u8], x| coefficients.iter().rev().fold(0, |sum, c| mul(sum, x) ^ c);
        let Some(last) = xs.len().checked_sub(1) else { return (Vec::new(), vec![1]) };
        let (mut polynomial, product) = interpolate(&xs[..last], &ys[..last]);
        let x = xs[last];
        let factor = mul(ys[last] ^ at(&polynomial, x), inverse(at(&product, x)));
        polynomial.push(0);
        let mut next = vec![0; last + 2];
        for (i, &c) in product.iter().enumerate() {
            polynomial[i] ^= mul(factor, c);
            next[i + 1] ^= c;
            next[i] ^= mul(c, x);
        }
        (polynomial, next)
    }

    /// The value by interpolation of each stripe, with its padding: k · b bytes.
    fn by_interpolation(p: &Params, numbers: &[u8], blocks: &[&[u8]]) -> Vec<u8> {
        let stripe = |r: usize| {
            let ys: Vec<u8> = blocks[..p.k].iter().map(|block| block[r]).collect();
            interpolate(&numbers[..p.k], &ys).0
        };
        (0..p.block()).flat_map(stripe).collect()
    }

    /// Whether the blocks lie on one encoding, from the words: the polynomial of each stripe through the first k goes through all, and
    /// the padding is zero.
    fn on_one_encoding(p: &Params, numbers: &[u8], blocks: &[&[u8]]) -> bool {
        let whole = by_interpolation(p, numbers, blocks);
        let goes_through = |number: u8, block: &[u8]| {
            whole.chunks(p.k).zip(block).all(|(stripe, byte)| {
                let sum = stripe.iter().rev().fold(0, |sum, c| mul_by_shift(sum, number) ^ c);
                sum == *byte
            })
        };
        whole[p.l..].iter().all(|&byte| byte == 0)
            && numbers.iter().zip(blocks).all(|(&number, block)| goes_through(number, block))
    }

    #[test]
    fn example_of_document_01() {
        let p = Params::new(4, 1, 2, 3);
        let blocks = encoded(&p, &[1, 2, 3]);
        assert_eq!(blocks, [[3, 3], [5, 3], [7, 3], [9, 3]]);
        for i in 0..4 {
            for j in 0..4 {
                if i != j {
                    let mut out = [0; 3];
                    let given = [(i + 1, &blocks[i][..]), (j + 1, &blocks[j][..])];
                    assert_eq!(decode(&p, &given, &mut out), Ok(3));
                    assert_eq!(out, [1, 2, 3]);
                }
            }
        }
    }

    /// Every choice of k to n blocks of a random value gives it back; of k, interpolation does too.
    #[test]
    fn any_blocks() {
        let mut random = Random::new(1);
        for l in [1, 2, 7, 13, 40] {
            for p in Params::all(l) {
                let value = random.bytes(l);
                let blocks = encoded(&p, &value);
                for (j, block) in blocks.iter().enumerate() {
                    for (r, byte) in block.iter().enumerate() {
                        let mut sum = 0;
                        let mut factor = 1;
                        for coefficient in &value[r * p.k..(r * p.k + p.k).min(l)] {
                            sum ^= mul_by_shift(factor, *coefficient);
                            factor = mul_by_shift(factor, j as u8 + 1);
                        }
                        assert_eq!(*byte, sum);
                    }
                }
                for set in 0u32..1 << p.n {
                    if (set.count_ones() as usize) < p.k {
                        continue;
                    }
                    let mut chosen: Vec<usize> = (0..p.n).filter(|i| set >> i & 1 == 1).collect();
                    let turn = random.below(chosen.len());
                    chosen.rotate_left(turn);
                    let given: Vec<(usize, &[u8])> =
                        chosen.iter().map(|&i| (i + 1, &blocks[i][..])).collect();
                    let mut out = vec![0xee; l + 3];
                    assert_eq!(decode(&p, &given, &mut out), Ok(l));
                    assert_eq!(out[..l], value);
                    assert_eq!(out[l..], [0xee; 3]);
                    let numbers: Vec<u8> = chosen.iter().map(|&i| i as u8 + 1).collect();
                    let parts: Vec<&[u8]> = chosen.iter().map(|&i| &blocks[i][..]).collect();
                    let padded = by_interpolation(&p, &numbers, &parts);
                    assert_eq!(padded[..l], value);
                    assert!(padded[l..].iter().all(|&byte| byte == 0));
                }
            }
        }
    }

    /// Arbitrary blocks, and blocks of one encoding of which one is foreign or whose padding is not zero: what decodes lies on one
    /// encoding, and the rest is 21 with nothing written. The first k give what interpolation does.
    #[test]
    fn blocks_that_disagree() {
        let mut random = Random::new(2);
        let mut answers = [[0; 2]; 4];
        for l in [1, 5, 23, 24] {
            for p in Params::all(l) {
                for round in 0..24 {
                    let mut numbers: Vec<u8> = (1..=p.n as u8).collect();
                    for i in 0..p.n {
                        numbers.swap(i, random.below(p.n));
                    }
                    numbers.truncate(random.range(p.k, p.n));
                    let m = numbers.len();
                    let padded = Params { l: p.k * p.block(), ..p };
                    let kind = round % 4;
                    let whole = encoded(&padded, &random.bytes(padded.l));
                    let value = encoded(&p, &random.bytes(p.l));
                    let block = |j: &u8| match kind {
                        0 => random.bytes(p.block()),
                        1 => whole[*j as usize - 1].clone(),
                        _ => value[*j as usize - 1].clone(),
                    };
                    let mut blocks: Vec<Vec<u8>> = numbers.iter().map(block).collect();
                    if kind == 2 {
                        let at = random.below(p.block());
                        blocks[random.below(m)][at] ^= random.range(1, 255) as u8;
                    }
                    let parts: Vec<&[u8]> = blocks.iter().map(|block| &block[..]).collect();
                    let mut first = vec![0; p.l];
                    decode_into(&p, &numbers, &parts, &mut first);
                    assert_eq!(first, by_interpolation(&p, &numbers, &parts)[..p.l]);
                    let given: Vec<(usize, &[u8])> =
                        numbers.iter().zip(&parts).map(|(&j, part)| (j as usize, *part)).collect();
                    let mut out = vec![0xee; p.l + 1];
                    let agree = on_one_encoding(&p, &numbers, &parts);
                    answers[kind][agree as usize] += 1;
                    if agree {
                        assert_eq!(decode(&p, &given, &mut out), Ok(p.l));
                        assert_eq!(out[..p.l], first);
                        assert_eq!(out[p.l], 0xee);
                    } else {
                        assert_eq!(decode(&p, &given, &mut out), Err(Refusal::Disagreement));
                        assert_eq!(out, vec![0xee; p.l + 1]);
                    }
                    // The order of the blocks does not matter.
                    let turned: Vec<(usize, &[u8])> = given.iter().rev().copied().collect();
                    let mut again = vec![0xee; p.l + 1];
                    assert_eq!(decode(&p, &turned, &mut again).is_ok(), agree);
                    assert_eq!(again, out);
                }
            }
        }
        let [arbitrary, padding, foreign, sound] = answers;
        assert!(arbitrary[0] > 0 && padding[0] > 0 && padding[1] > 0 && foreign[0] > 0 && sound[0] == 0);
    }

    /// The examples of request F-7, as worked out in words.
    #[test]
    fn examples_of_every_block() {
        let p = Params::new(4, 1, 2, 3);
        let answer = |numbers: &[u8], blocks: &[u8], room: usize| {
            let given: Vec<(usize, &[u8])> =
                numbers.iter().zip(blocks.chunks(2)).map(|(&j, block)| (j as usize, block)).collect();
            let mut out = vec![0xee; room];
            let answer = decode(&p, &given, &mut out);
            assert!(answer.is_ok() || out == vec![0xee; room]);
            answer.map(|_| out)
        };
        assert_eq!(answer(&[1, 2], &[3, 3, 5, 3], 3), Ok(vec![1, 2, 3]));
        assert_eq!(answer(&[4, 3, 2, 1], &[9, 3, 7, 3, 5, 3, 3, 3], 3), Ok(vec![1, 2, 3]));
        assert_eq!(answer(&[1, 2, 3], &[3, 3, 5, 3, 8, 3], 3), Err(Refusal::Disagreement));
        assert_eq!(answer(&[1, 2], &[3, 3, 5, 4], 3), Err(Refusal::Disagreement));
        assert_eq!(answer(&[1, 2, 2], &[3, 3, 5, 3, 5, 3], 3), Err(Refusal::Parts));
        assert_eq!(answer(&[1, 2, 3, 4, 1], &[3, 3, 5, 3, 7, 3, 9, 3, 3, 3], 3), Err(Refusal::Parts));
        assert_eq!(answer(&[1, 2, 3], &[3, 3, 5, 3, 8, 3], 2), Err(Refusal::Room));
    }

    #[test]
    fn refusals() {
        let p = Params::new(4, 1, 2, 3);
        let (a, b): (&[u8], &[u8]) = (&[3, 3], &[5, 3]);
        let mut out = [9; 3];
        let parts = Err(Refusal::Parts);
        assert_eq!(decode(&p, &[(1, a)], &mut out), parts);
        assert_eq!(decode(&p, &[], &mut out), parts);
        assert_eq!(decode(&p, &[(1, a), (2, b), (3, a), (4, a), (1, a)], &mut out), parts);
        assert_eq!(decode(&p, &[(1, a), (2, b), (2, b)], &mut out), parts);
        assert_eq!(decode(&p, &[(1, a), (2, b), (3, &[7])], &mut out), parts);
        assert_eq!(decode(&p, &[(1, a), (1, b)], &mut out), parts);
        assert_eq!(decode(&p, &[(0, a), (2, b)], &mut out), parts);
        assert_eq!(decode(&p, &[(5, a), (2, b)], &mut out), parts);
        assert_eq!(decode(&p, &[(1, a), (2, &[5])], &mut out), parts);
        assert_eq!(decode(&p, &[(1, a), (2, b)], &mut out[..2]), Err(Refusal::Room));
        assert_eq!(out, [9; 3]);
        let bad = |n, t, k, l| decode(&Params::new(n, t, k, l), &[], &mut []);
        assert_eq!(bad(6, 2, 9, 0), Err(Refusal::Parties));
        assert_eq!(bad(4, 1, 3, 0), Err(Refusal::Threshold));
        assert_eq!(bad(4, 1, 2, 257), Err(Refusal::ValueLength));
        assert_eq!(encode(&p, &[1, 2], &mut [0; 8]), Err(Refusal::ValueLength));
        assert_eq!(encode(&p, &[1, 2, 3], &mut [0; 7]), Err(Refusal::Room));
        assert_eq!(encode(&p, &[1, 2, 3], &mut [0; 9]), Ok(8));
        assert_eq!(bad(4, usize::MAX, 1, 1), Err(Refusal::Parties));
    }
}
