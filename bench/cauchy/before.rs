//! The same calls of the revision that is compared with; it had no call for several recovery blocks.
extern "C" {
    fn before_cauchy_recovery(n: usize, m: usize, s: usize, k: usize, store: *const u8, store_len: usize, out: *mut u8, out_len: usize) -> u8;
    fn before_cauchy_rebuild_all(
        n: usize, m: usize, s: usize, store: *const u8, store_len: usize, marks: *const u8, marks_len: usize,
        scratch: *mut u8, scratch_len: usize, numbers: *mut u16, numbers_len: usize,
    ) -> u8;
}

pub fn recovery(n: usize, m: usize, s: usize, k: usize, store: &[u8], out: &mut [u8]) {
    let answer = unsafe { before_cauchy_recovery(n, m, s, k, store.as_ptr(), store.len(), out.as_mut_ptr(), out.len()) };
    assert!(answer == 0, "recovery was refused");
}

pub fn encode(n: usize, m: usize, s: usize, data: &[u8], out: &mut [u8]) {
    for (k, block) in out.chunks_mut(s).enumerate() {
        recovery(n, m, s, k, data, block);
    }
}

pub fn rebuild_all(n: usize, m: usize, s: usize, store: &[u8], marks: &[u8], scratch: &mut [u8], numbers: &mut [u16]) {
    let answer = unsafe {
        before_cauchy_rebuild_all(
            n, m, s, store.as_ptr(), store.len(), marks.as_ptr(), marks.len(),
            scratch.as_mut_ptr(), scratch.len(), numbers.as_mut_ptr(), numbers.len(),
        )
    };
    assert!(answer == 0, "rebuild_all was refused");
}
