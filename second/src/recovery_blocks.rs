//! The recovery blocks of some sets of data blocks, in the lines that bench/jerasure/witness.c prints for the same seed.
use crate::blake3::hex;
use crate::chance::Chance;
use crate::code::recovery;

/// How many data blocks a set has, how many for recovery, and how many bytes each block has.
#[rustfmt::skip]
const SHAPES: [(usize, usize, usize); 13] = [
    (1, 1, 2), (2, 1, 4), (3, 2, 4), (1, 32, 2), (5, 3, 8), (10, 4, 16), (31, 7, 6), (64, 16, 10), (100, 20, 34),
    (255, 12, 64), (512, 1, 12), (1023, 31, 2), (1024, 32, 4),
];

/// A line for each recovery block: the shape, which of them it is, and its bytes.
pub fn print(seed: u64) {
    let mut chance = Chance(seed);
    for (n, m, s) in SHAPES {
        let data: Vec<Vec<u8>> = (0..n).map(|_| chance.bytes(s)).collect();
        for k in 0..m {
            println!("{n} {m} {s} {k} {}", hex(&recovery(m, k, &data)));
        }
    }
}
