//! The erasure code, with missing blocks found by Gauss elimination on the full n by n system, pivots sought, nothing assumed
//! about the system but that it has one solution.
use crate::field::{inverse, mul};

/// Word w of a block.
fn word(block: &[u8], w: usize) -> u16 {
    u16::from_le_bytes([block[2 * w], block[2 * w + 1]])
}

/// The coefficient of data block j in recovery block k.
fn coefficient(m: usize, k: usize, j: usize) -> u16 {
    inverse((k ^ (m + j)) as u16)
}

/// Recovery block k of the data blocks.
pub fn recovery(m: usize, k: usize, data: &[Vec<u8>]) -> Vec<u8> {
    let mut words = vec![0u16; data[0].len() / 2];
    for (j, block) in data.iter().enumerate() {
        let c = coefficient(m, k, j);
        for (w, sum) in words.iter_mut().enumerate() {
            *sum ^= mul(c, word(block, w));
        }
    }
    words.iter().flat_map(|v| v.to_le_bytes()).collect()
}

/// All data blocks from at least n held ones of the n + m, `None` where fewer are held. The equations are those of all held data
/// blocks and of the lowest held recovery blocks that are needed.
pub fn decode(n: usize, m: usize, held: &[Option<Vec<u8>>]) -> Option<Vec<Vec<u8>>> {
    let chosen: Vec<usize> = (0..n + m).filter(|i| held[*i].is_some()).take(n).collect();
    if chosen.len() < n {
        return None;
    }
    let row = |i: usize| -> Vec<u16> {
        (0..n).map(|j| if i < n { (i == j) as u16 } else { coefficient(m, i - n, j) }).collect()
    };
    let mut left: Vec<Vec<u16>> = chosen.iter().map(|i| row(*i)).collect();
    let block_words = |b: &Vec<u8>| (0..b.len() / 2).map(|w| word(b, w)).collect();
    let mut right: Vec<Vec<u16>> = chosen.iter().map(|i| block_words(held[*i].as_ref().unwrap())).collect();
    eliminate(&mut left, &mut right);
    Some(right.iter().map(|row| row.iter().flat_map(|v| v.to_le_bytes()).collect()).collect())
}

/// Brings `left` to the unit matrix by row operations, done to `right` too.
fn eliminate(left: &mut [Vec<u16>], right: &mut [Vec<u16>]) {
    for p in 0..left.len() {
        let pivot = (p..left.len()).find(|i| left[*i][p] != 0).expect("a pivot");
        left.swap(p, pivot);
        right.swap(p, pivot);
        let factor = inverse(left[p][p]);
        scale(&mut left[p], factor);
        scale(&mut right[p], factor);
        let (pl, pr) = (left[p].clone(), right[p].clone());
        for i in (0..left.len()).filter(|i| *i != p) {
            let c = left[i][p];
            add_times(&mut left[i], c, &pl);
            add_times(&mut right[i], c, &pr);
        }
    }
}

fn scale(row: &mut [u16], c: u16) {
    if c != 1 {
        row.iter_mut().for_each(|v| *v = mul(c, *v));
    }
}

fn add_times(row: &mut [u16], c: u16, other: &[u16]) {
    if c != 0 {
        row.iter_mut().zip(other).filter(|(_, o)| **o != 0).for_each(|(v, o)| *v ^= mul(c, *o));
    }
}
