//! The proved calls, linked from the static library: a slice goes over as a pointer and a length.
extern "C" {
    fn cauchy_recovery(n: usize, m: usize, s: usize, k: usize, store: *const u8, store_len: usize, out: *mut u8, out_len: usize) -> u8;
    fn cauchy_recovery_four(
        n: usize, m: usize, s: usize, k: usize, front: *const u8, front_len: usize, last: *const u8, last_len: usize,
        out: *mut u8, out_len: usize,
    ) -> u8;
    fn cauchy_rebuild_all(
        n: usize, m: usize, s: usize, store: *const u8, store_len: usize, marks: *const u8, marks_len: usize,
        scratch: *mut u8, scratch_len: usize, numbers: *mut u16, numbers_len: usize,
    ) -> u8;
}

/// Recovery block k alone.
pub fn recovery(n: usize, m: usize, s: usize, k: usize, store: &[u8], out: &mut [u8]) {
    let answer = unsafe { cauchy_recovery(n, m, s, k, store.as_ptr(), store.len(), out.as_mut_ptr(), out.len()) };
    assert!(answer == 0, "recovery was refused");
}

/// All recovery blocks, as the writer makes them: up to four in a call.
pub fn encode(n: usize, m: usize, s: usize, data: &[u8], out: &mut [u8]) {
    let (front, last) = data.split_at((n - 1) * s);
    for (i, four) in out.chunks_mut(4 * s).enumerate() {
        let answer = unsafe {
            cauchy_recovery_four(
                n, m, s, 4 * i, front.as_ptr(), front.len(), last.as_ptr(), last.len(), four.as_mut_ptr(), four.len(),
            )
        };
        assert!(answer == 0, "recovery_four was refused");
    }
}

pub fn rebuild_all(n: usize, m: usize, s: usize, store: &[u8], marks: &[u8], scratch: &mut [u8], numbers: &mut [u16]) {
    let answer = unsafe {
        cauchy_rebuild_all(
            n, m, s, store.as_ptr(), store.len(), marks.as_ptr(), marks.len(),
            scratch.as_mut_ptr(), scratch.len(), numbers.as_mut_ptr(), numbers.len(),
        )
    };
    assert!(answer == 0, "rebuild_all was refused");
}
