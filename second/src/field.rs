//! The field of 2^16 elements by carry-less product and reduction, and the inverse by Euclid's algorithm on polynomials.

/// x^16 + x^5 + x^3 + x^2 + 1, bit i being the coefficient of x^i.
const POLYNOMIAL: u32 = 0b1_0000_0000_0010_1101;

/// The degree of a polynomial over one bit; that of 0 counts as -1.
fn degree(p: u32) -> i32 {
    31 - p.leading_zeros() as i32
}

/// The quotient and the remainder of two polynomials.
fn divide(dividend: u32, divisor: u32) -> (u32, u32) {
    let (mut quotient, mut rest) = (0, dividend);
    while degree(rest) >= degree(divisor) {
        let shift = degree(rest) - degree(divisor);
        quotient ^= 1 << shift;
        rest ^= divisor << shift;
    }
    (quotient, rest)
}

/// The product of two polynomials, not reduced.
fn carry_less(a: u32, b: u32) -> u32 {
    (0..32)
        .filter(|i| b >> i & 1 == 1)
        .fold(0, |sum, i| sum ^ (a << i))
}

pub fn mul(a: u16, b: u16) -> u16 {
    divide(carry_less(a.into(), b.into()), POLYNOMIAL).1 as u16
}

/// One over a, and 0 at 0.
pub fn inverse(a: u16) -> u16 {
    // in each row: rest = something * POLYNOMIAL + factor * a
    let (mut rest, mut factor) = (POLYNOMIAL, 0);
    let (mut next_rest, mut next_factor) = (u32::from(a), 1);
    while next_rest != 0 {
        let (quotient, remainder) = divide(rest, next_rest);
        (rest, next_rest) = (next_rest, remainder);
        (factor, next_factor) = (next_factor, factor ^ carry_less(quotient, next_factor));
    }
    if a == 0 {
        0
    } else {
        divide(factor, POLYNOMIAL).1 as u16
    }
}
