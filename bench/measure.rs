//! What every measurement wants: bytes that are the same in each run, and the time of a call.
use crate::cpu;

/// The bytes of a linear congruential generator.
pub fn bytes(count: usize) -> Vec<u8> {
    let mut state: u32 = 1;
    (0..count)
        .map(|_| {
            state = state.wrapping_mul(1103515245).wrapping_add(12345);
            (state >> 16) as u8
        })
        .collect()
}

fn time(call: &mut dyn FnMut()) -> f64 {
    let start = cpu::own();
    call();
    cpu::own() - start
}

/// The least processor time of some runs of a call, in seconds.
#[allow(dead_code)]
pub fn seconds<T>(runs: usize, mut call: impl FnMut() -> T) -> f64 {
    (0..runs).map(|_| time(&mut || drop(std::hint::black_box(call())))).fold(f64::MAX, f64::min)
}

/// The least processor time of one call, of several calls that take turns: each is repeated until it takes two milliseconds, so that
/// a short one can be timed.
#[allow(dead_code)]
pub fn each_call<const K: usize>(mut calls: [&mut dyn FnMut(); K]) -> [f64; K] {
    let mut repeats = [1u32; K];
    for (call, repeats) in calls.iter_mut().zip(&mut repeats) {
        while time(&mut || (0..*repeats).for_each(|_| call())) < 2e-3 {
            *repeats *= 2;
        }
    }
    let mut least = [f64::MAX; K];
    for _ in 0..9 {
        for ((call, least), repeats) in calls.iter_mut().zip(&mut least).zip(repeats) {
            *least = least.min(time(&mut || (0..repeats).for_each(|_| call())) / f64::from(repeats));
        }
    }
    least
}
