//! Processor times of reading headers that are filled with empty foreign fields, as many as H can count and fewer, without and with
//! each known tag before them. From each the time is taken off that a header of the same length with few fields takes, most of it
//! the hash: what is left is the walk over fields, and should grow with their number. Only ratios within a run say something.
#[path = "../../second/src/blake3.rs"]
#[allow(dead_code)]
mod blake3;
#[path = "../../second/src/code.rs"]
#[allow(dead_code)]
mod code;
#[path = "../../second/src/container.rs"]
#[allow(dead_code)]
mod container;
#[path = "../cauchy/cpu.rs"]
#[allow(dead_code)]
mod cpu;
#[path = "../../second/src/field.rs"]
mod field;
#[path = "../measure.rs"]
#[allow(dead_code)]
mod measure;
#[path = "../handout/proved.rs"]
#[allow(dead_code)]
mod proved;
#[path = "../../second/src/writer.rs"]
#[allow(dead_code)]
mod writer;

use measure::each_call;
use writer::{encoded, Plan};

/// The known tags, each with a value that its rule wants in a file of one block with flag bits 6 and 7.
fn known() -> Vec<u8> {
    let texts = (0x0100..=0x0104).map(|tag| (tag, vec![b'x']));
    encoded(&[(0x0020, vec![0; 8]), (0x0030, vec![0; 2])].into_iter().chain(texts).collect::<Vec<_>>())
}

/// As many bytes in as few fields as there can be; no field may be longer than 16,384.
fn long_fields(mut bytes: usize) -> Vec<u8> {
    let mut fields = Vec::new();
    while bytes > 0 {
        let length = (bytes - 6).min(16_384);
        fields.push((0x0200, vec![0; length]));
        bytes -= 6 + length;
    }
    encoded(&fields)
}

/// A header with these fields behind those of `front`. Reading is all that a turn does where no store is lent: 71.
fn reading(front: &[u8], fields: Vec<u8>) -> impl FnMut() {
    let header = Plan { fields: [front, &fields].concat(), flags: 0xC0, s: 2, ..Plan::default() }.file_around(&[]);
    move || assert_eq!(proved::turn(&header, &[], &[], &mut [], &mut 0, 0), 71, "the header is refused")
}

/// The time that so many empty fields take, and its part of the reading.
fn walk(front: &[u8], count: usize) -> (f64, f64) {
    let (mut many, mut few) = (reading(front, vec![0; 6 * count]), reading(front, long_fields(6 * count)));
    let [many, few] = each_call([&mut many, &mut few]);
    (many - few, (many - few) / many)
}

fn main() {
    for (title, front) in [("alone", vec![]), ("behind each known tag", known())] {
        let most = (65_536 - 331 - front.len()) / 6;
        let (least, _) = walk(&front, most / 8);
        for count in [most / 4, most / 2, most] {
            let (time, part) = walk(&front, count);
            let fields = count as f64 / (most / 8) as f64;
            println!(
                "{count} empty foreign fields {title}: {fields:.2} times as many as {} take {:.2} times as long, {:.1} ns each, {part:.2} of the reading",
                most / 8,
                time / least,
                time * 1e9 / count as f64
            );
        }
    }
}
