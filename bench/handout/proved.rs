//! The proved calls, linked from the static libraries: a slice goes over as a pointer and a length.
extern "C" {
    fn embercymbal_blake3(input: *const u8, input_len: usize, out: *mut u8, out_len: usize);
    fn sfc_turn(
        header: *const u8, header_len: usize, store: *const u8, store_len: usize, marks: *const u8, marks_len: usize,
        scratch: *mut u8, scratch_len: usize, numbers: *mut u16, numbers_len: usize, finished: *mut u32, budget: u32,
    ) -> u8;
    fn sfc_release(
        header: *const u8, header_len: usize, store: *const u8, store_len: usize, marks: *const u8, marks_len: usize,
        scratch: *mut u8, scratch_len: usize, finished: *mut u32, out: *mut u8, out_len: usize,
    ) -> u8;
}

pub fn hash(input: &[u8]) -> [u8; 32] {
    let mut out = [0; 32];
    unsafe { embercymbal_blake3(input.as_ptr(), input.len(), out.as_mut_ptr(), out.len()) };
    out
}

/// 0 where `finished` grew by the columns done, else the number of the refusal.
pub fn turn(header: &[u8], store: &[u8], marks: &[u8], scratch: &mut [u8], finished: &mut u32, budget: u32) -> u8 {
    let mut numbers = [7u16; 1024];
    unsafe {
        sfc_turn(
            header.as_ptr(), header.len(), store.as_ptr(), store.len(), marks.as_ptr(), marks.len(),
            scratch.as_mut_ptr(), scratch.len(), numbers.as_mut_ptr(), numbers.len(), finished, budget,
        )
    }
}

/// 0 for complete, else the number of the refusal.
pub fn release(header: &[u8], store: &[u8], marks: &[u8], scratch: &mut [u8], finished: &mut u32, out: &mut [u8]) -> u8 {
    unsafe {
        sfc_release(
            header.as_ptr(), header.len(), store.as_ptr(), store.len(), marks.as_ptr(), marks.len(),
            scratch.as_mut_ptr(), scratch.len(), finished, out.as_mut_ptr(), out.len(),
        )
    }
}

/// One turn for all columns, and a release.
pub fn hand_out(header: &[u8], store: &[u8], marks: &[u8], scratch: &mut [u8], out: &mut [u8]) -> u8 {
    let mut finished = 0;
    match turn(header, store, marks, scratch, &mut finished, u32::MAX) {
        0 => release(header, store, marks, scratch, &mut finished, out),
        number => number,
    }
}
