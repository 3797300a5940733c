//! Decoding in plain Rust with as little work as the answer needs: the basis is computed once, the value is that of the first k
//! blocks, and of the rest only what these do not tell is worked out: the padding, and the blocks behind them.

use register::blocks::{basis, block_of};
use register::field::mul;
use register::params::{MAX_K, MAX_VALUE};
use register::{Params, Refusal};

pub const NAME: &str = "plain, least";

/// From k to n blocks, which lie end to end. Refusals 1, 2, 3, 9, 10 and 21.
fn decode_joined(p: &Params, numbers: &[u8], blocks: &[u8], out: &mut [u8]) -> Result<(), Refusal> {
    p.check_parties()?;
    p.check_sizes()?;
    let (m, size) = (numbers.len(), p.block());
    if m < p.k || m > p.n || blocks.len() != m * size {
        return Err(Refusal::Parts);
    }
    let mut seen = 0u16;
    for &j in numbers {
        if j < 1 || j as usize > p.n || seen >> j & 1 == 1 {
            return Err(Refusal::Parts);
        }
        seen |= 1 << j;
    }
    if out.len() < p.l {
        return Err(Refusal::Room);
    }
    let basis = basis(&numbers[..p.k]);
    let mut padded = [0; MAX_VALUE + MAX_K];
    let padded = &mut padded[..p.k * size];
    for (r, stripe) in padded.chunks_exact_mut(p.k).enumerate() {
        for (row, block) in basis.iter().zip(blocks.chunks_exact(size)).take(p.k) {
            for (byte, coefficient) in stripe.iter_mut().zip(row) {
                *byte ^= mul(*coefficient, block[r]);
            }
        }
    }
    let (value, padding) = padded.split_at(p.l);
    let mut fresh = [0; MAX_VALUE];
    let stands = |(&j, block): (&u8, &[u8])| {
        block_of(p, value, j as usize, &mut fresh);
        fresh[..size] == *block
    };
    if padding.iter().any(|&byte| byte != 0)
        || !numbers.iter().zip(blocks.chunks_exact(size)).skip(p.k).all(stands)
    {
        return Err(Refusal::Disagreement);
    }
    out[..p.l].copy_from_slice(value);
    Ok(())
}

pub fn decode(p: &Params, numbers: &[u8], blocks: &[u8], out: &mut [u8]) {
    decode_joined(p, numbers, blocks, out).unwrap();
}
