//! par2 on a file of the same bytes: as many recovery blocks, as many blocks lost. Its times hold reading,
//! hashing and writing too.
use crate::cpu;
use std::path::Path;
use std::process::{Command, Stdio};

/// Runs par2 in a folder on one thread and gives its processor time, in seconds.
fn run(folder: &Path, args: &[&str]) -> Option<f64> {
    let start = cpu::children();
    let status = Command::new("par2").args(args).current_dir(folder).stdout(Stdio::null()).stderr(Stdio::null()).status().ok()?;
    status.success().then(|| cpu::children() - start)
}

/// The seconds of making m recovery blocks of s bytes, and of repairing the file when its first blocks are overwritten.
pub fn times(data: &[u8], s: usize, m: usize, gone: usize) -> Option<(f64, f64)> {
    let folder = std::env::temp_dir().join(format!("cauchy-bench-{}", std::process::id()));
    std::fs::create_dir_all(&folder).ok()?;
    let file = folder.join("data");
    std::fs::write(&file, data).ok()?;
    let (size, count) = (format!("-s{s}"), format!("-c{m}"));
    let create = run(&folder, &["create", "-q", "-q", "-t1", &size, &count, "-n1", "data.par2", "data"]);
    let mut damaged = data.to_vec();
    damaged[..gone * s].fill(0xA5);
    std::fs::write(&file, &damaged).ok()?;
    let repair = run(&folder, &["repair", "-q", "-q", "-t1", "data.par2"]);
    std::fs::remove_dir_all(&folder).ok()?;
    Some((create?, repair?))
}
