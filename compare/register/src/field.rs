//! The byte field of FIPS 197, polynomial 11B: products by tables of powers and logarithms of 03.

pub struct Tables {
    /// Power i of 03.
    pub powers: [u8; 255],
    /// Logarithm of a byte to base 03; the entry for 00 is 0 and unused.
    pub logs: [u8; 256],
}

/// The tables by their rule: power 0 is 1, each further power is 03 times the one before.
pub const fn generate() -> Tables {
    let mut powers = [0; 255];
    let mut logs = [0; 256];
    let mut x: u8 = 1;
    let mut i = 0;
    while i < 255 {
        powers[i] = x;
        logs[x as usize] = i as u8;
        x = mul_by_shift(x, 3);
        i += 1;
    }
    Tables { powers, logs }
}

pub static TABLES: Tables = generate();

/// The product by tables.
#[inline]
pub fn mul(a: u8, b: u8) -> u8 {
    if a == 0 || b == 0 {
        return 0;
    }
    let sum = TABLES.logs[a as usize] as usize + TABLES.logs[b as usize] as usize;
    TABLES.powers[if sum >= 255 { sum - 255 } else { sum }]
}

/// The product by shifting and adding, as FIPS 197 section 4.2 describes it.
pub const fn mul_by_shift(a: u8, b: u8) -> u8 {
    let mut a = a;
    let mut b = b;
    let mut product = 0;
    while b != 0 {
        if b & 1 == 1 {
            product ^= a;
        }
        a = (a << 1) ^ if a & 0x80 != 0 { 0x1b } else { 0 };
        b >>= 1;
    }
    product
}

/// A power, the exponent halved in a loop.
pub fn power(base: u8, exponent: u32) -> u8 {
    let mut square = base;
    let mut rest = exponent;
    let mut product = 1;
    while rest > 0 {
        if rest % 2 == 1 {
            product = mul(product, square);
        }
        square = mul(square, square);
        rest /= 2;
    }
    product
}

/// The 254th power: the inverse, and 00 for 00.
pub fn inverse(a: u8) -> u8 {
    power(a, 254)
}

#[cfg(test)]
mod tests {
    use super::*;

    #[test]
    fn fips_197_examples() {
        // Section 4.2: {57} times {83} is {c1}, {57} times {13} is {fe}; 4.2.1: repeated xtime.
        for product in [mul, mul_by_shift] {
            assert_eq!(product(0x57, 0x83), 0xc1);
            assert_eq!(product(0x57, 0x13), 0xfe);
            assert_eq!(product(0x57, 0x02), 0xae);
            assert_eq!(product(0x57, 0x04), 0x47);
            assert_eq!(product(0x57, 0x08), 0x8e);
            assert_eq!(product(0x57, 0x10), 0x07);
        }
        assert_eq!(inverse(0x53), 0xca);
    }

    #[test]
    fn s_box_of_fips_197() {
        // Section 5.1.1: the inverse and then the affine map gives the S-box; some entries of Figure 7.
        let s_box = |x: u8| {
            let i = inverse(x);
            i ^ i.rotate_left(1) ^ i.rotate_left(2) ^ i.rotate_left(3) ^ i.rotate_left(4) ^ 0x63
        };
        for (x, y) in [(0x00, 0x63), (0x01, 0x7c), (0x53, 0xed), (0x9a, 0xb8), (0xff, 0x16)] {
            assert_eq!(s_box(x), y);
        }
    }

    #[test]
    fn tables_agree_with_shifting() {
        for a in 0..=255 {
            for b in 0..=255 {
                assert_eq!(mul(a, b), mul_by_shift(a, b));
            }
        }
    }

    #[test]
    fn inverses() {
        assert_eq!(inverse(0), 0);
        for a in 1..=255 {
            assert_eq!(mul(a, inverse(a)), 1);
            let mut slow = 1;
            for _ in 0..254 {
                slow = mul_by_shift(slow, a);
            }
            assert_eq!(inverse(a), slow);
        }
    }

    #[test]
    fn tables_are_a_cycle() {
        assert_eq!(TABLES.logs[0], 0);
        for i in 0..255 {
            assert_eq!(TABLES.logs[TABLES.powers[i] as usize] as usize, i);
        }
    }
}
