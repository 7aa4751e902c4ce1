//! The hand-out of the revision that is compared with, in one call where it had no turns.
#[cfg(before = "whole")]
pub fn hand_out(header: &[u8], store: &[u8], marks: &[u8], scratch: &mut [u8], out: &mut [u8]) -> u8 {
    extern "C" {
        fn before_sfc_hand_out(
            header: *const u8, header_len: usize, store: *const u8, store_len: usize, marks: *const u8, marks_len: usize,
            scratch: *mut u8, scratch_len: usize, numbers: *mut u16, numbers_len: usize, out: *mut u8, out_len: usize,
        ) -> u8;
    }
    let mut numbers = [7u16; 1024];
    unsafe {
        before_sfc_hand_out(
            header.as_ptr(), header.len(), store.as_ptr(), store.len(), marks.as_ptr(), marks.len(),
            scratch.as_mut_ptr(), scratch.len(), numbers.as_mut_ptr(), numbers.len(), out.as_mut_ptr(), out.len(),
        )
    }
}

#[cfg(before = "turns")]
pub fn hand_out(header: &[u8], store: &[u8], marks: &[u8], scratch: &mut [u8], out: &mut [u8]) -> u8 {
    extern "C" {
        fn before_sfc_turn(
            header: *const u8, header_len: usize, store: *const u8, store_len: usize, marks: *const u8, marks_len: usize,
            scratch: *mut u8, scratch_len: usize, numbers: *mut u16, numbers_len: usize, finished: *mut u32, budget: u32,
        ) -> u8;
        fn before_sfc_release(
            header: *const u8, header_len: usize, store: *const u8, store_len: usize, marks: *const u8, marks_len: usize,
            scratch: *mut u8, scratch_len: usize, finished: *mut u32, out: *mut u8, out_len: usize,
        ) -> u8;
    }
    let (mut numbers, mut finished) = ([7u16; 1024], 0);
    let turned = unsafe {
        before_sfc_turn(
            header.as_ptr(), header.len(), store.as_ptr(), store.len(), marks.as_ptr(), marks.len(),
            scratch.as_mut_ptr(), scratch.len(), numbers.as_mut_ptr(), numbers.len(), &mut finished, u32::MAX,
        )
    };
    if turned != 0 {
        return turned;
    }
    unsafe {
        before_sfc_release(
            header.as_ptr(), header.len(), store.as_ptr(), store.len(), marks.as_ptr(), marks.len(),
            scratch.as_mut_ptr(), scratch.len(), &mut finished, out.as_mut_ptr(), out.len(),
        )
    }
}
