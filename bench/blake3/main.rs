//! Measures the proved hash against a plain scalar implementation, in one run, and prints the ratio of their speeds.
use std::time::Instant;

extern "C" {
    fn embercymbal_blake3(input: *const u8, input_len: usize, out: *mut u8, out_len: usize);
}

fn proved(input: &[u8]) -> [u8; 32] {
    let mut out = [0u8; 32];
    unsafe { embercymbal_blake3(input.as_ptr(), input.len(), out.as_mut_ptr(), out.len()) };
    out
}

/// BLAKE3 as one would write it for speed without vectors: seven rounds in a row, the message's order as constants.
mod plain {
    const START: [u32; 8] = [
        0x6a09e667, 0xbb67ae85, 0x3c6ef372, 0xa54ff53a, 0x510e527f, 0x9b05688c, 0x1f83d9ab, 0x5be0cd19,
    ];
    const SCHEDULE: [[usize; 16]; 7] = [
        [0, 1, 2, 3, 4, 5, 6, 7, 8, 9, 10, 11, 12, 13, 14, 15],
        [2, 6, 3, 10, 7, 0, 4, 13, 1, 11, 12, 5, 9, 14, 15, 8],
        [3, 4, 10, 12, 13, 2, 7, 14, 6, 5, 9, 0, 11, 15, 8, 1],
        [10, 7, 12, 9, 14, 3, 13, 15, 4, 0, 11, 2, 5, 8, 1, 6],
        [12, 13, 9, 11, 15, 10, 14, 8, 7, 2, 5, 3, 0, 1, 6, 4],
        [9, 14, 11, 5, 8, 12, 15, 1, 13, 3, 0, 10, 2, 6, 4, 7],
        [11, 15, 5, 0, 1, 9, 8, 6, 14, 10, 2, 12, 3, 4, 7, 13],
    ];

    #[inline(always)]
    fn mix(v: &mut [u32; 16], a: usize, b: usize, c: usize, d: usize, x: u32, y: u32) {
        v[a] = v[a].wrapping_add(v[b]).wrapping_add(x);
        v[d] = (v[d] ^ v[a]).rotate_right(16);
        v[c] = v[c].wrapping_add(v[d]);
        v[b] = (v[b] ^ v[c]).rotate_right(12);
        v[a] = v[a].wrapping_add(v[b]).wrapping_add(y);
        v[d] = (v[d] ^ v[a]).rotate_right(8);
        v[c] = v[c].wrapping_add(v[d]);
        v[b] = (v[b] ^ v[c]).rotate_right(7);
    }

    #[inline(always)]
    fn round(v: &mut [u32; 16], m: &[u32; 16], s: [usize; 16]) {
        mix(v, 0, 4, 8, 12, m[s[0]], m[s[1]]);
        mix(v, 1, 5, 9, 13, m[s[2]], m[s[3]]);
        mix(v, 2, 6, 10, 14, m[s[4]], m[s[5]]);
        mix(v, 3, 7, 11, 15, m[s[6]], m[s[7]]);
        mix(v, 0, 5, 10, 15, m[s[8]], m[s[9]]);
        mix(v, 1, 6, 11, 12, m[s[10]], m[s[11]]);
        mix(v, 2, 7, 8, 13, m[s[12]], m[s[13]]);
        mix(v, 3, 4, 9, 14, m[s[14]], m[s[15]]);
    }

    fn compress(cv: &[u32; 8], m: &[u32; 16], counter: u64, len: u32, flags: u32) -> [u32; 8] {
        let mut v = [
            cv[0], cv[1], cv[2], cv[3], cv[4], cv[5], cv[6], cv[7], START[0], START[1], START[2], START[3],
            counter as u32, (counter >> 32) as u32, len, flags,
        ];
        round(&mut v, m, SCHEDULE[0]);
        round(&mut v, m, SCHEDULE[1]);
        round(&mut v, m, SCHEDULE[2]);
        round(&mut v, m, SCHEDULE[3]);
        round(&mut v, m, SCHEDULE[4]);
        round(&mut v, m, SCHEDULE[5]);
        round(&mut v, m, SCHEDULE[6]);
        [v[0] ^ v[8], v[1] ^ v[9], v[2] ^ v[10], v[3] ^ v[11], v[4] ^ v[12], v[5] ^ v[13], v[6] ^ v[14], v[7] ^ v[15]]
    }

    fn words(block: &[u8]) -> [u32; 16] {
        let mut padded = [0u8; 64];
        let whole: &[u8; 64] = match block.try_into() {
            Ok(whole) => whole,
            Err(_) => {
                padded[..block.len()].copy_from_slice(block);
                &padded
            }
        };
        let mut m = [0u32; 16];
        for k in 0..16 {
            m[k] = u32::from_le_bytes([whole[4 * k], whole[4 * k + 1], whole[4 * k + 2], whole[4 * k + 3]]);
        }
        m
    }

    fn piece(bytes: &[u8], index: u64, root: u32) -> [u32; 8] {
        let mut cv = START;
        let mut at = 0;
        let mut first = 1;
        while bytes.len() - at > 64 {
            cv = compress(&cv, &words(&bytes[at..at + 64]), index, 64, first);
            at += 64;
            first = 0;
        }
        compress(&cv, &words(&bytes[at..]), index, (bytes.len() - at) as u32, first | 2 | root)
    }

    fn tree(bytes: &[u8], index: u64, root: u32) -> [u32; 8] {
        if bytes.len() <= 1024 {
            return piece(bytes, index, root);
        }
        let pieces = 1usize << ((bytes.len() - 1) / 1024).ilog2();
        let l = tree(&bytes[..pieces * 1024], index, 0);
        let r = tree(&bytes[pieces * 1024..], index + pieces as u64, 0);
        let m = [l[0], l[1], l[2], l[3], l[4], l[5], l[6], l[7], r[0], r[1], r[2], r[3], r[4], r[5], r[6], r[7]];
        compress(&START, &m, 0, 64, 4 | root)
    }

    pub fn hash(bytes: &[u8]) -> [u8; 32] {
        let mut out = [0u8; 32];
        for (four, word) in out.chunks_mut(4).zip(tree(bytes, 0, 8)) {
            four.copy_from_slice(&word.to_le_bytes());
        }
        out
    }
}

fn seconds(work: impl Fn() -> [u8; 32]) -> f64 {
    let start = Instant::now();
    std::hint::black_box(work());
    start.elapsed().as_secs_f64()
}

fn main() {
    for length in [0, 1, 64, 1023, 1024, 1025, 5121, 65536, 100000] {
        let text: Vec<u8> = (0..length).map(|i| (i % 251) as u8).collect();
        assert_eq!(proved(&text), plain::hash(&text), "at {length}");
    }
    let text: Vec<u8> = (0..64usize << 20).map(|i| (i % 251) as u8).collect();
    let (mut ours, mut theirs) = (f64::MAX, f64::MAX);
    for _ in 0..9 {
        ours = ours.min(seconds(|| proved(&text)));
        theirs = theirs.min(seconds(|| plain::hash(&text)));
    }
    let rate = |s: f64| text.len() as f64 / s / 1e6;
    println!("proved {:.0} MB/s, plain scalar {:.0} MB/s, ratio {:.2}", rate(ours), rate(theirs), theirs / ours);
}
