//! jerasure over gf-complete, on one thread, by the functions of bench/jerasure/rival.c.
extern "C" {
    fn rival_field(bits: i32);
    fn rival_encode(n: i32, m: i32, s: i32, data: *const u8, out: *mut u8);
    fn rival_rebuild(n: i32, m: i32, s: i32, store: *mut u8, gone: i32);
}

/// Which of gf-complete's split tables for words of 16 bits is used: 8 bits by 16, or 4 bits by 16, the one with vectors.
pub fn use_tables(bits: i32) {
    unsafe { rival_field(bits) }
}

/// All recovery blocks.
pub fn encode(n: usize, m: usize, s: usize, data: &[u8], out: &mut [u8]) {
    assert!(data.len() == n * s && out.len() == m * s);
    unsafe { rival_encode(n as i32, m as i32, s as i32, data.as_ptr(), out.as_mut_ptr()) }
}

/// The first `gone` data blocks of a store, in their places.
pub fn rebuild(n: usize, m: usize, s: usize, store: &mut [u8], gone: usize) {
    assert!(store.len() == (n + m) * s && gone <= m);
    unsafe { rival_rebuild(n as i32, m as i32, s as i32, store.as_mut_ptr(), gone as i32) }
}
