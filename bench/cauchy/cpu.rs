//! Processor time, user and system, of this process or of its children that have ended: it does not count who else was running.
extern "C" {
    fn getrusage(who: i32, usage: *mut [i64; 18]) -> i32;
}

fn used(who: i32) -> f64 {
    let mut usage = [0i64; 18];
    assert!(unsafe { getrusage(who, &mut usage) } == 0, "getrusage failed");
    (usage[0] + usage[2]) as f64 + (usage[1] + usage[3]) as f64 / 1e6
}

/// The seconds that this process has used.
pub fn own() -> f64 {
    used(0)
}

/// The seconds that its children have used.
pub fn children() -> f64 {
    used(-1)
}
