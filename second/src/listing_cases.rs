//! The files beside document 01's example that sfc_list is run on, by name: one for each way that a listing can end, one that
//! is read as far as a break and one with a chunk for each refusal, one for each number and each of the program's limits that
//! it refuses by, and the longest file that it takes.
use crate::probe::file_left;
use crate::probe_cases::{conflicting_chunks, headers, listings};
use crate::script::{places, plan, Script};
use crate::writer::{encoded, Plan};
use std::io::Write;

/// Two of four data blocks have not come, and both for recovery have.
fn rebuilt() -> Vec<u8> {
    let plan = plan(14, 4, 2);
    plan.file_around(&plan.chunks_of(&[0, 2, 4, 5]))
}

/// Nine blocks are held, three of them for recovery, and ten are needed: a copy of the barred one must not be the tenth.
fn missing_and_barred() -> Vec<u8> {
    let plan = plan(38, 4, 3);
    let chunks = plan.chunks_of(&[0, 3, 4, 5, 6, 7, 9, 10, 11, 12]);
    plan.file_around(&[&chunks[..], &conflicting_chunks(&plan)[6]].concat())
}

/// Every chunk is good, but of another content than the header's.
fn hash_differs() -> Vec<u8> {
    let plan = plan(14, 4, 1);
    plan.file_around(&conflicting_chunks(&plan).concat())
}

/// A byte of the third chunk was lost on the way: the chunk takes the first one of the next for it, and what is left of that
/// is no chunk.
fn stopped() -> Vec<u8> {
    let plan = plan(14, 4, 1);
    let (lost, _) = places(&plan)[2];
    let mut file = plan.file();
    file.remove(lost + 48);
    file
}

/// A header with one breach; nothing comes after it but the trailer, or a file cut short would still be long enough.
fn refused(number: u8) -> Vec<u8> {
    let file = headers::breakable().file_around(&[]);
    let breaches = headers::breaches(file.len());
    let breach = breaches.iter().find(|breach| breach.number == number).expect("each number of a header has a breach");
    let mut script = Script::default();
    script.load(&file);
    script.break_header(&breach.before, &breach.after);
    file_left(script.0)
}

/// A whole file of so many bytes. The chunks fill it, and each is needed, so that none of its bytes can go unread; a field
/// makes up the length.
fn whole_file(length: usize) -> Vec<u8> {
    let plan = plan(387 * 84, 84, 0);
    let value = vec![0; length - plan.file().len() - 6];
    Plan { fields: encoded(&[(0x0200, value)]), ..plan }.file()
}

fn cases() -> Vec<(String, Vec<u8>)> {
    let named = [
        ("complete", plan(14, 4, 1).file()),
        ("rebuilt", rebuilt()),
        ("missing-and-barred", missing_and_barred()),
        ("hash-differs", hash_differs()),
        ("stopped", stopped()),
        ("refused-chunks", listings::file_of_refused(false)),
        // the most bytes that the program takes, and one more
        ("longest-file", whole_file(65_536)),
        ("refused-15-long-file", whole_file(65_537)),
        // 145 blocks of 226 bytes are two bytes more than the program's store
        ("refused-15-large-store", plan(32_770, 226, 0).file()),
    ];
    let refusals = (10..=23).map(|number| (format!("refused-{number}"), refused(number)));
    named.map(|(name, file)| (name.to_string(), file)).into_iter().chain(refusals).collect()
}

/// The names, one to a line.
pub fn print_names() {
    for (name, _) in cases() {
        println!("{name}");
    }
}

/// Writes the file with this name.
pub fn write(name: &str) {
    let named = cases().into_iter().find(|(known, _)| known == name);
    let (_, file) = named.expect("NAME is one of those that `second listings` prints");
    std::io::stdout().write_all(&file).expect("standard output can be written");
}
