//! The answers of the field: the worked values, every inverse in digests, and ten thousand products.
use crate::field::{inverse, mul};

/// The numbers as digits at base 65537, modulo two primes below 2^32.
fn digest(numbers: impl Iterator<Item = u16>) -> (u64, u64) {
    const PRIMES: (u64, u64) = (4_294_967_291, 4_294_967_279);
    numbers.fold((1, 1), |(low, high), x| {
        let x = u64::from(x);
        ((low * 65537 + x) % PRIMES.0, (high * 65537 + x) % PRIMES.1)
    })
}

fn worked() {
    println!("C1 {:04x}", mul(2, 0x8016));
    println!("C2 {:04x}", mul(3, 0x8016));
    println!("C3 {:04x}", mul(4, 0x8016));
    println!("C4 {:04x}", mul(2, 0x8000));
    println!("C5 {:04x}", inverse(1));
}

fn all_inverses() {
    for first in (0..=0xffff_u16).step_by(4096) {
        let (low, high) = digest((first..=first + 4095).map(inverse));
        println!("inverses from {first:04x}: {low:08x} {high:08x}");
    }
}

fn products() {
    let product = |i: u64| mul((i * 40503 + 1) as u16, (i * 25717 + 3) as u16);
    for row in 0..640 {
        let line: String = (row * 16..row * 16 + 16)
            .map(|i| format!("{:04x}", product(i)))
            .collect();
        println!("{line}");
    }
}

pub fn print() {
    worked();
    all_inverses();
    products();
}
