//! Processor times of writing a file at the house limits, in one run: the proved writer, the one of an earlier revision where one
//! is linked, the second program's writer on the same inputs, and what a writer cannot do without, encoding and hashing, by the
//! proved calls. Only ratios within a run say something.
#[path = "../../second/src/blake3.rs"]
#[allow(dead_code)]
mod blake3;
#[path = "../../second/src/code.rs"]
#[allow(dead_code)]
mod code;
#[path = "../../second/src/container.rs"]
#[allow(dead_code)]
mod container;
#[path = "../cauchy/cpu.rs"]
#[allow(dead_code)]
mod cpu;
#[path = "../../second/src/field.rs"]
mod field;
#[path = "../measure.rs"]
#[allow(dead_code)]
mod measure;
mod proved;
#[path = "../cauchy/proved.rs"]
#[allow(dead_code)]
mod proved_code;
#[path = "../handout/proved.rs"]
#[allow(dead_code)]
mod proved_hash;
#[path = "../../second/src/writer.rs"]
#[allow(dead_code)]
mod writer;

use measure::{bytes, each_call};
use std::hint::black_box;
use writer::{encoded, Plan};

/// With a name, a priority list and a field, and a last data block that is padded.
fn plan(n: usize, m: usize, s: usize) -> Plan {
    Plan {
        content: bytes(n * s - 1),
        s: s as u32,
        m: m as u32,
        uuid: *b"sixteen bytes ID",
        time: 1_700_000_000,
        format: 1,
        name: b"measured".to_vec(),
        flags: 0,
        priorities: vec![2, 0, n as u32 - 1],
        fields: encoded(&[(0x8001, vec![1, 2, 3])]),
    }
}

/// The m recovery blocks alone, from data that lie in one piece.
fn encode(plan: &Plan, data: &[u8], out: &mut [u8]) {
    proved_code::encode(plan.data_count(), plan.m as usize, plan.s as usize, data, out);
}

/// The hashes alone: of the content, of the header region, and of each chunk before its own hash.
fn hash(plan: &Plan, region: &[u8], chunks: &[Vec<u8>]) {
    black_box(proved_hash::hash(&plan.content));
    black_box(proved_hash::hash(region));
    for chunk in chunks {
        black_box(proved_hash::hash(&chunk[..chunk.len() - 36]));
    }
}

/// The times of the proved writer, the second program's, encoding and hashing. The file that was written is held to the second
/// program's.
fn times(plan: &Plan, file: &[u8]) -> [f64; 4] {
    let (region, chunks) = (plan.region(), plan.chunks());
    let mut data = plan.content.clone();
    data.resize(plan.data_count() * plan.s as usize, 0);
    let mut out = vec![0xEE; file.len()];
    let mut write = || assert!(proved::write(plan, &mut out) == file.len() as u64, "refused, or of another length");
    let mut second = || drop(black_box(plan.write(file.len())));
    let mut recovery = vec![0; plan.m as usize * plan.s as usize];
    let mut encode = || encode(plan, &data, &mut recovery);
    let mut hash = || hash(plan, &region, &chunks);
    let times = each_call([&mut write, &mut second, &mut encode, &mut hash]);
    assert!(out == file, "the files differ");
    times
}

#[cfg(before)]
fn compare_before(plan: &Plan, file: &[u8]) {
    let (mut out, mut old) = (vec![0xEE; file.len()], vec![0xEE; file.len()]);
    let [now, before] = each_call([
        &mut || assert!(proved::write(plan, &mut out) == file.len() as u64, "refused"),
        &mut || assert!(proved::write_before(plan, &mut old) == file.len() as u64, "refused"),
    ]);
    assert!(out == file && old == file, "the files differ");
    println!("before / now: {:.2}", before / now);
}

#[cfg(not(before))]
fn compare_before(_: &Plan, _: &[u8]) {}

fn main() {
    for s in [4096, 64] {
        let (n, m) = (1024, 32);
        let plan = plan(n, m, s);
        let file = plan.write(usize::MAX).expect("the second program refuses the inputs");
        let [proved, second, encode, hash] = times(&plan, &file);
        println!("n={n} m={m} s={s}: both write the same {} bytes, the proved writer in {proved:.5} s", file.len());
        compare_before(&plan, &file);
        println!("second program / proved: {:.1}", second / proved);
        println!("proved / encoding and hashing the same bytes: {:.2}", proved / (encode + hash));
        println!("of the proved writer's time: encoding {:.2}, hashing {:.2}", encode / proved, hash / proved);
    }
}
