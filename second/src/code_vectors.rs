//! The answers of the code that `cauchy_vectors` prints, by elimination on the whole system.
use crate::blake3::hex;
use crate::code::{decode, recovery};

/// Document 01's numbers, and 0 where there is none.
const DONE: u64 = 0;
const BAD_SHAPE: u64 = 71;
const TOO_FEW: u64 = 50;

/// The first bytes of a linear congruential generator.
fn content(count: usize) -> Vec<u8> {
    let mut state: u32 = 1;
    let mut next = || {
        state = state.wrapping_mul(1_103_515_245).wrapping_add(12_345);
        (state >> 16) as u8
    };
    (0..count).map(|_| next()).collect()
}

/// The numbers as digits at base 65599, each one up, modulo a prime below 2^32.
fn digest(start: u64, numbers: impl IntoIterator<Item = u64>) -> u64 {
    numbers.into_iter().fold(start, |sum, x| (sum * 65_599 + x + 1) % 4_294_967_291)
}

fn numbers_of(bytes: &[u8]) -> impl Iterator<Item = u64> + '_ {
    bytes.iter().map(|b| u64::from(*b))
}

/// A code of n data blocks of s bytes and m recovery blocks.
struct Code {
    n: usize,
    m: usize,
    s: usize,
}

/// What a rebuilding call leaves.
struct Left {
    answer: u64,
    scratch: Vec<u8>,
    numbers: Vec<u64>,
}

impl Left {
    fn digest(&self, start: u64) -> u64 {
        let answer = std::iter::once(self.answer);
        digest(start, answer.chain(numbers_of(&self.scratch)).chain(self.numbers.iter().copied()))
    }
}

impl Code {
    fn blocks(&self) -> Vec<Vec<u8>> {
        let data: Vec<Vec<u8>> = content(self.n * self.s).chunks(self.s).map(<[u8]>::to_vec).collect();
        let more: Vec<Vec<u8>> = (0..self.m).map(|k| recovery(self.m, k, &data)).collect();
        [data, more].concat()
    }

    /// Lent memory as it was, dirty.
    fn refused(&self, answer: u64) -> Left {
        Left { answer, scratch: vec![0xEE; self.m * self.s], numbers: vec![7; 1024] }
    }

    /// Rebuilding from the blocks that are not gone: the words from `first` on, `count` of them, of each missing data block.
    fn rebuilt(&self, blocks: &[Vec<u8>], gone: impl Fn(usize) -> bool, first: usize, count: usize) -> Left {
        if first + count > self.s / 2 {
            return self.refused(BAD_SHAPE);
        }
        let mut left = self.refused(TOO_FEW);
        let held: Vec<Option<Vec<u8>>> =
            blocks.iter().enumerate().map(|(i, b)| (!gone(i)).then(|| b.clone())).collect();
        if let Some(data) = decode(self.n, self.m, &held) {
            left.answer = DONE;
            left.numbers.fill(0);
            for (place, j) in (0..self.n).filter(|j| gone(*j)).enumerate() {
                let bytes = 2 * first..2 * (first + count);
                left.scratch[place * self.s..][bytes.clone()].copy_from_slice(&data[j][bytes]);
            }
        }
        left
    }

    fn rebuilt_all(&self, blocks: &[Vec<u8>], gone: impl Fn(usize) -> bool) -> Left {
        self.rebuilt(blocks, gone, 0, self.s / 2)
    }
}

fn three_and_two() {
    let code = Code { n: 3, m: 2, s: 4 };
    let blocks = code.blocks();
    for mask in 0..32u64 {
        let left = code.rebuilt_all(&blocks, |i| mask >> i & 1 == 1);
        println!("3+2 without {mask:08x}: {} {:08x}", hex(&left.scratch), left.digest(1));
    }
}

fn small_codes() {
    for (n, m) in (1..=8).flat_map(|n| (0..=4).map(move |m| (n, m))) {
        let code = Code { n, m, s: 4 };
        let blocks = code.blocks();
        let all = (0..1u64 << (n + m))
            .fold(1, |sum, mask| code.rebuilt_all(&blocks, |i| mask >> i & 1 == 1).digest(sum));
        println!("{n}+{m} without every set: {all:08x}");
    }
}

fn full_code() {
    let code = Code { n: 1024, m: 32, s: 4 };
    let blocks = code.blocks();
    println!("1024+32 whole: {:08x}", digest(1, numbers_of(&blocks.concat())));
    let show = |label: &str, gone: &dyn Fn(usize) -> bool| {
        println!("1024+32 without {label}: {:08x}", code.rebuilt_all(&blocks, gone).digest(1));
    };
    show("the first 32", &|i| i < 32);
    show("the last 32 data", &|i| (992..1024).contains(&i));
    show("24 data and 8 recovery", &|i| (1000..1032).contains(&i));
    show("each 33rd", &|i| i % 33 == 7);
    show("the first 33", &|i| i < 33);
}

fn wide_codes() {
    for s in [64, 514] {
        let code = Code { n: 3, m: 2, s };
        let left = code.rebuilt_all(&code.blocks(), |i| i == 1 || i == 2);
        println!("3+2 of {s} bytes without 1 and 2: {:08x}", left.digest(1));
    }
}

/// Blocks of 1, 3, 5, 31 and 33 words. There is one way to encode here, so its digest stands for both of the calls.
fn odd_blocks() {
    for (s, m) in [2, 6, 10, 62, 66].into_iter().flat_map(|s| (1..=7).map(move |m| (s, m))) {
        let code = Code { n: 8, m, s };
        let blocks = code.blocks();
        let whole = digest(1, numbers_of(&blocks.concat()));
        let left = code.rebuilt_all(&blocks, |i| (1..=m).contains(&i));
        println!("8+{m} of {s} bytes: {whole:08x} {whole:08x} {:08x}", left.digest(1));
    }
}

fn column_ranges() {
    let code = Code { n: 5, m: 3, s: 8 };
    let blocks = code.blocks();
    for (first, count) in (0..6).flat_map(|first| (0..6).map(move |count| (first, count))) {
        let left = code.rebuilt(&blocks, |i| 0b00101001 >> i & 1 == 1, first, count);
        let numbers = digest(1, std::iter::once(left.answer).chain(left.numbers.iter().copied()));
        println!("5+3 of 8 bytes, columns {first} and {count}: {numbers:08x} {}", hex(&left.scratch));
    }
}

/// All but one of the data blocks are gone, and just enough blocks are held.
fn odd_ranges() {
    let code = Code { n: 6, m: 5, s: 20 };
    let blocks = code.blocks();
    for (first, count) in (0..=10).flat_map(|first| [1, 3, 5].map(|count| (first, count))) {
        let left = code.rebuilt(&blocks, |i| i < 6 && i != 2, first, count);
        println!("6+5 of 20 bytes, columns {first} and {count}: {:08x}", left.digest(1));
    }
}

/// The house limits of document 01.
fn is_in_bounds(n: usize, m: usize, s: usize) -> bool {
    (1..=1024).contains(&n) && m <= 32 && (2..=4096).contains(&s) && s % 2 == 0
}

fn recoveries() {
    let shapes = [
        (3, 2, 4, 1), (3, 2, 4, 2), (0, 2, 4, 1), (1025, 2, 4, 1), (3, 33, 4, 1), (3, 32, 4, 31),
        (3, 2, 0, 1), (4, 2, 3, 1), (2, 2, 6, 1), (3, 2, 4098, 1), (2, 2, 4, 1),
    ];
    for (n, m, s, k) in shapes {
        let good = is_in_bounds(n, m, s) && k < m && n * s == 12 && s == 4;
        let data: Vec<Vec<u8>> = content(12).chunks(4).map(<[u8]>::to_vec).collect();
        let (answer, out) = if good { (DONE, recovery(m, k, &data)) } else { (BAD_SHAPE, vec![0xEE; 4]) };
        println!("recovery {n} {m} {s} {k}: {answer} {:08x}", digest(1, numbers_of(&out)));
    }
}

/// The last three numbers are the lengths of the data blocks but the last, of the last, and of the room for recovery blocks.
fn fours() {
    let calls = [
        (3, 5, 4, 0, 8, 4, 16), (3, 7, 4, 4, 8, 4, 12), (3, 32, 4, 31, 8, 4, 4), (1, 4, 4, 0, 0, 4, 16),
        (3, 4, 4, 4, 8, 4, 0), (3, 4, 4, 5, 8, 4, 16), (3, 5, 4, 0, 4, 4, 16), (3, 5, 4, 0, 8, 2, 16),
        (3, 7, 4, 4, 8, 4, 16), (3, 8, 4, 4, 8, 4, 12), (3, 0, 4, 0, 8, 4, 0), (3, 5, 3, 0, 6, 3, 12),
        (3, 5, 0, 0, 0, 0, 0), (0, 5, 4, 0, 0, 4, 16), (3, 5, 4098, 0, 8, 4, 16), (1025, 5, 4, 0, 8, 4, 16),
        (3, 33, 4, 0, 8, 4, 16),
    ];
    for (n, m, s, k, front, last, out) in calls {
        let count = 4.min(if k < m { m - k } else { 0 });
        let good = is_in_bounds(n, m, s) && count > 0 && (front, last, out) == ((n - 1) * s, s, count * s);
        let (answer, left) = if good {
            let data: Vec<Vec<u8>> = content(n * s).chunks(s).map(<[u8]>::to_vec).collect();
            (DONE, (k..k + count).flat_map(|k| recovery(m, k, &data)).collect())
        } else {
            (BAD_SHAPE, vec![0xEE; out])
        };
        let left = digest(1, numbers_of(&left));
        println!("recovery_four {n} {m} {s} {k} front {front} last {last} out {out}: {answer} {left:08x}");
    }
}

fn rebuilds() {
    let shapes =
        [(3, 2, 4), (2, 3, 4), (0, 5, 4), (5, 0, 4), (3, 2, 3), (3, 33, 4), (1025, 2, 4), (3, 2, 4098)];
    for (n, m, s) in shapes {
        let good = is_in_bounds(n, m, s) && n + m == 5 && (n + m) * s == 20 && m * s == 8;
        let answer = if good { DONE } else { BAD_SHAPE };
        println!("rebuild {n} {m} {s}: {answer} {:08x}", digest(1, numbers_of(&[0xEE; 8])));
    }
}

pub fn print() {
    three_and_two();
    small_codes();
    full_code();
    wide_codes();
    odd_blocks();
    column_ranges();
    odd_ranges();
    recoveries();
    fours();
    rebuilds();
}
