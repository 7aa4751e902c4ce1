//! BLAKE3 without a key, for comparison: every piece is hashed first, then the tree is built level by level.

const START: [u32; 8] = [
    0x6a09e667, 0xbb67ae85, 0x3c6ef372, 0xa54ff53a, 0x510e527f, 0x9b05688c, 0x1f83d9ab, 0x5be0cd19,
];
const ORDER: [usize; 16] = [2, 6, 3, 10, 7, 0, 4, 13, 1, 11, 12, 5, 9, 14, 15, 8];
/// The places that the eight mixing steps of a round work on: four columns, then four diagonals.
const STEPS: [[usize; 4]; 8] = [
    [0, 4, 8, 12], [1, 5, 9, 13], [2, 6, 10, 14], [3, 7, 11, 15],
    [0, 5, 10, 15], [1, 6, 11, 12], [2, 7, 8, 13], [3, 4, 9, 14],
];
const FIRST: u32 = 1;
const LAST: u32 = 2;
const PARENT: u32 = 4;
const ROOT: u32 = 8;

fn mix(state: &mut [u32; 16], at: [usize; 4], x: u32, y: u32) {
    let [a, b, c, d] = at;
    for (word, turns) in [(x, (16, 12)), (y, (8, 7))] {
        state[a] = state[a].wrapping_add(state[b]).wrapping_add(word);
        state[d] = (state[d] ^ state[a]).rotate_right(turns.0);
        state[c] = state[c].wrapping_add(state[d]);
        state[b] = (state[b] ^ state[c]).rotate_right(turns.1);
    }
}

fn compress(chaining: &[u32; 8], message: [u32; 16], counter: u64, length: u32, flags: u32) -> [u32; 8] {
    let mut state = [0u32; 16];
    state[..8].copy_from_slice(chaining);
    state[8..12].copy_from_slice(&START[..4]);
    state[12..].copy_from_slice(&[counter as u32, (counter >> 32) as u32, length, flags]);
    let mut words = message;
    for _ in 0..7 {
        for (k, at) in STEPS.into_iter().enumerate() {
            mix(&mut state, at, words[2 * k], words[2 * k + 1]);
        }
        words = ORDER.map(|place| words[place]);
    }
    std::array::from_fn(|k| state[k] ^ state[k + 8])
}

fn words(block: &[u8]) -> [u32; 16] {
    let mut padded = [0u8; 64];
    padded[..block.len()].copy_from_slice(block);
    std::array::from_fn(|k| u32::from_le_bytes(padded[4 * k..4 * k + 4].try_into().unwrap()))
}

fn piece(bytes: &[u8], number: u64, root: u32) -> [u32; 8] {
    let blocks: Vec<&[u8]> = if bytes.is_empty() { vec![bytes] } else { bytes.chunks(64).collect() };
    let mut chaining = START;
    for (k, block) in blocks.iter().enumerate() {
        let mut flags = if k == 0 { FIRST } else { 0 };
        if k + 1 == blocks.len() {
            flags |= LAST | root;
        }
        chaining = compress(&chaining, words(block), number, block.len() as u32, flags);
    }
    chaining
}

fn parent(left: &[u32; 8], right: &[u32; 8], root: u32) -> [u32; 8] {
    let both = std::array::from_fn(|k| if k < 8 { left[k] } else { right[k - 8] });
    compress(&START, both, 0, 64, PARENT | root)
}

/// The hash of a text: pairs of neighbours are joined on each level, and one without a neighbour goes up as it is.
pub fn hash(input: &[u8]) -> [u8; 32] {
    let mut level: Vec<[u32; 8]> = if input.len() <= 1024 {
        vec![piece(input, 0, ROOT)]
    } else {
        input.chunks(1024).enumerate().map(|(i, bytes)| piece(bytes, i as u64, 0)).collect()
    };
    while level.len() > 1 {
        let root = if level.len() == 2 { ROOT } else { 0 };
        level = level.chunks(2).map(|pair| if pair.len() == 2 { parent(&pair[0], &pair[1], root) } else { pair[0] }).collect();
    }
    let mut out = [0u8; 32];
    for (four, word) in out.chunks_mut(4).zip(level[0]) {
        four.copy_from_slice(&word.to_le_bytes());
    }
    out
}

/// The lengths of the published vectors, whose bytes are i mod 251.
pub const LENGTHS: [usize; 35] = [
    0, 1, 2, 3, 4, 5, 6, 7, 8, 63, 64, 65, 127, 128, 129, 1023, 1024, 1025, 2048, 2049, 3072, 3073, 4096, 4097, 5120, 5121,
    6144, 6145, 7168, 7169, 8192, 8193, 16384, 31744, 102400,
];
/// Lengths that the running hash is fed, and the length of each part but the last.
pub const CUTS: [(usize, usize); 18] = [
    (0, 1), (1, 1), (64, 63), (65, 64), (1023, 1), (1024, 1024), (1025, 1024), (1025, 63), (2048, 1023), (2049, 1024),
    (3073, 1025), (4096, 2048), (4097, 100), (5121, 4096), (8193, 700), (16384, 1024), (31744, 3000), (102400, 65536),
];

/// The bytes that every vector is cut from.
pub fn pattern(length: usize) -> Vec<u8> {
    (0..length).map(|i| (i % 251) as u8).collect()
}

pub fn hex(bytes: &[u8]) -> String {
    bytes.iter().map(|byte| format!("{byte:02x}")).collect()
}

/// What the program blake3_vectors prints. A hash does not depend on how its text was cut, so the whole text is hashed here;
/// each cut stands twice, for the running hash by value and in place.
pub fn print_vectors() {
    for length in LENGTHS {
        println!("{length} {}", hex(&hash(&pattern(length))));
    }
    for (length, cut) in CUTS {
        let line = format!("{length} {cut} {}", hex(&hash(&pattern(length))));
        println!("{line}\n{line}");
    }
}
