//! Listings: document 01's example, every set of withheld chunks, damage that is stepped over and that ends the reading,
//! refused headers, the program's limits, and lent memory.
use super::headers::at;
use super::{chunks, conflicting_chunks, headers, load_longest_header};
use crate::listing::example;
use crate::probe::*;
use crate::script::*;
use crate::writer::Plan;

fn list(script: &mut Script) {
    script.frame(LISTING, 0, LEAST_OUTPUT, 0);
}

fn listed(script: &mut Script, title: &str, file: &[u8]) {
    script.say(title);
    script.load(file);
    list(script);
}

/// The file at hand, changed; then it is as it was.
fn changed(script: &mut Script, title: &str, edits: &[Edit]) {
    script.say(title);
    script.edit(edits);
    list(script);
    script.restore();
}

/// The header at hand, changed and sealed; then it is as it was.
fn sealed(script: &mut Script, title: &str, edits: &[Edit]) {
    script.say(title);
    script.edit(edits);
    script.seal();
    list(script);
    script.restore();
}

/// Fills the file at hand, which has header and chunks, up to a length with zeros and a trailer, and keeps it.
fn close(script: &mut Script, length: usize, end: usize) {
    script.frame(GROW, 0, end - length, 0);
    script.edit(&[Four(end - 64, usize::from_le_bytes(*b"TRLR\0\0\0\0"))]);
    script.seal();
    script.frame(KEEP, 0, 0, 0);
}

/// Damages the payload of a chunk, so that it is stepped over as if it had not come.
fn spoil(plan: &Plan, index: usize) -> Edit {
    let (at, _) = places(plan)[index];
    Byte(at + 48, !plan.blocks()[index][0])
}

/// Changes a chunk, which stays one: it is sealed again.
fn forge(script: &mut Script, at: usize, edits: &[Edit]) {
    script.edit(edits);
    script.frame(SEAL_CHUNK, 0, at, 0);
}

pub fn whole_files(script: &mut Script) {
    listed(script, "the listing of document 01", &example());
    listed(script, "the listing of a whole file", &plan(14, 4, 1).file());
    listed(script, "no recovery", &plan(14, 4, 0).file());
    listed(script, "size 0", &plan(0, 2, 0).file());
    listed(script, "one data block and 32 for recovery", &plan(2, 2, 32).file());
    listed(script, "fields of every rule", &headers::every_rule().file());
    listed(script, "no chunks", &plan(14, 4, 1).file_around(&[]));
    let uuid = [0x00, 0x09, 0x0A, 0x0F, 0x10, 0x7F, 0x80, 0x90, 0x99, 0x9A, 0xA0, 0xA9, 0xAF, 0xF0, 0xFA, 0xFF];
    listed(script, "each digit of a UUID", &Plan { uuid, ..plan(0, 2, 0) }.file_around(&[]));
    let plan = plan(14, 4, 1);
    let mut backwards = plan.chunks();
    backwards.reverse();
    listed(script, "chunks from the last to the first", &plan.file_around(&backwards.concat()));
}

/// N = 3 and M = 2: what each set of chunks comes to, with the right content hash and with another.
pub fn withheld_sets(script: &mut Script) {
    let plan = plan(10, 4, 2);
    script.load(&plan.file());
    for set in 0..32 {
        let withheld: Vec<usize> = (0..5).filter(|index| set >> index & 1 == 1).collect();
        let edits: Vec<Edit> = withheld.iter().map(|&index| spoil(&plan, index)).collect();
        changed(script, &format!("withheld {withheld:?}"), &edits);
        if withheld.len() == 2 {
            let hash = Byte(at::HASH + 31, 0x77);
            sealed(script, "the same, with another content hash", &[&edits[..], &[hash]].concat());
        }
    }
    let (at, _) = places(&plan)[1];
    script.say("a forged data block, and all others");
    forge(script, at, &[Byte(at + 48, 0xEE)]);
    list(script);
    script.restore();
}

/// A chunk at the front, in the middle and at the end, damaged in each way that a check finds.
pub fn damaged_chunks(script: &mut Script) {
    let plan = plan(20, 8, 2);
    script.load(&plan.file());
    for place in [0, 1, 4] {
        let (at, _) = places(&plan)[place];
        for breach in chunks::breaches(at).into_iter().filter(|breach| breach.number != 30) {
            script.say(&format!("chunk {place} with {}", breach.number));
            script.break_chunk(at, &breach.before, &breach.after);
            list(script);
            script.restore();
        }
    }
    let (at, _) = places(&plan)[4];
    changed(script, "the last chunk would end in the trailer", &[Four(at + 28, 16)]);
    changed(script, "it would end behind the file", &[Four(at + 28, 1000)]);
    let (at, _) = places(&plan)[3];
    changed(script, "a chunk would end in the next one", &[Four(at + 28, 16)]);
}

/// Payload lengths that are stepped over, and that are not; chunks that are cut short.
pub fn lengths(script: &mut Script) {
    let plan = plan(11, 4, 1);
    let whole = plan.chunks();
    for length in [0, 3, 5, 8, 9] {
        let odd = plan.chunk(1, 1, &text(length));
        let middle = [&whole[0][..], &odd, &whole[1], &whole[2]].concat();
        listed(script, &format!("a chunk of {length} bytes behind the first"), &plan.file_around(&middle));
    }
    for length in [1, 47, 48, 87] {
        let middle = [&whole[0][..], &whole[1], &whole[2][..length]].concat();
        listed(script, &format!("{length} bytes of the third chunk"), &plan.file_around(&middle));
    }
    let middle = [&whole[0][..], &[0], &whole[1], &whole[2]].concat();
    listed(script, "a byte between two chunks", &plan.file_around(&middle));
    for count in 1..=4 {
        let middle = [&whole[0][..], &whole[1][..count], &whole[1], &whole[2]].concat();
        listed(script, &format!("the first {count} bytes of a chunk twice"), &plan.file_around(&middle));
    }
    for count in [1, 47, 48] {
        let middle = [&whole[0][..], &vec![0; count]].concat();
        listed(script, &format!("{count} zeros after a chunk"), &plan.file_around(&middle));
    }
    let middle = [&whole[0][..], b"TRLR", &whole[1]].concat();
    listed(script, "chunks behind what looks like a trailer", &plan.file_around(&middle));
}

/// A file with a chunk for each number from 33 to 42, and good ones around each: of data blocks 0 and 2 and both for
/// recovery, of which 0 becomes barred. The numbers from 33 to 40 rise, or fall.
pub fn file_of_refused(falling: bool) -> Vec<u8> {
    let plan = plan(20, 8, 2);
    let (good, other) = (plan.chunks(), conflicting_chunks(&plan));
    let mut refused = chunks::refused_chunks(&plan);
    if falling {
        refused.reverse();
    }
    // index 0 is held when the first of these comes, and barred when the second does
    refused.extend([other[0].clone(), good[0].clone()]);
    let middle = refused.join(&good[2][..]);
    plan.file_around(&[&good[0][..], &middle, &good[3], &good[4]].concat())
}

pub fn refused_chunks(script: &mut Script) {
    listed(script, "a chunk for each number from 33 to 42, with good ones around it", &file_of_refused(false));
    listed(script, "the same, those from 33 to 40 in the other order", &file_of_refused(true));
}

/// Copies that are the same, and that differ: up to twelve indices are barred.
pub fn copies(script: &mut Script) {
    let plan = Plan { content: text(24), ..plan(24, 2, 0) };
    let start = 8 + plan.region().len();
    let length = 12 * 86;
    script.say("each chunk twice");
    script.load(&[&plan.file_around(&[])[..start], &plan.chunks().concat()].concat());
    script.frame(REPEAT, 0, start, length);
    close(script, start + 2 * length, start + 2 * length + 64);
    list(script);
    for index in 0..12 {
        let at = start + length + index * 86;
        script.say(&format!("copies of {} differ", index + 1));
        forge(script, at, &[Byte(at + 48, 0xEE)]);
        list(script);
    }
    barred(script);
}

/// Barred indices, with recovery and without.
fn barred(script: &mut Script) {
    let plan = plan(13, 8, 1);
    let chunks = plan.chunks();
    let others: Vec<Vec<u8>> =
        (0..3).map(|index| plan.chunk(index, if index < 2 { 1 } else { 2 }, &text(9)[1..])).collect();
    let orders: [(&str, &[&Vec<u8>]); 5] = [
        ("a barred block", &[&chunks[0], &others[0], &chunks[1]]),
        ("a barred block that is rebuilt", &[&chunks[0], &chunks[2], &others[0], &chunks[1]]),
        ("copies behind a conflict", &[&others[1], &chunks[1], &chunks[1], &others[1], &chunks[0]]),
        ("a barred recovery block", &[&chunks[2], &others[2], &chunks[1], &chunks[0]]),
        ("all barred", &[&chunks[0], &others[0], &chunks[1], &others[1], &chunks[2], &others[2]]),
    ];
    for (title, order) in orders {
        let middle: Vec<u8> = order.iter().flat_map(|chunk| chunk.to_vec()).collect();
        listed(script, title, &plan.file_around(&middle));
    }
}

/// Each refusal of a header, and the same with more blocks than the program takes, whose 15 comes last.
pub fn refused_headers(script: &mut Script) {
    let file = headers::breakable().file_around(&[]);
    script.load(&file);
    for above in [false, true] {
        let shape = if above { headers::shape(20_478, 5, 32, 4096) } else { Vec::new() };
        sealed(script, &format!("a header with no breach, too many blocks {above}"), &shape);
        // with other numbers that breach of 15 is one of 14 too
        for breach in headers::breaches(file.len()).into_iter().filter(|breach| !above || breach.number != 15) {
            script.say(&format!("header with {}", breach.number));
            script.break_header(&[&shape[..], &breach.before].concat(), &breach.after);
            list(script);
            script.restore();
        }
    }
    for length in [0, 7, 11, 12] {
        changed(script, &format!("a file of {length} bytes"), &[Cut(length)]);
    }
}

/// Numbers of one to five digits, and (N+M)·S at the program's limit, below it and above.
pub fn numbers(script: &mut Script) {
    script.load(&plan(18, 4, 2).file_around(&[]));
    #[rustfmt::skip]
    let shapes: [(u64, usize, usize, usize); 27] = [
        (0, 1, 0, 2), (9, 5, 1, 2), (10, 5, 9, 2), (99, 50, 10, 2), (100, 50, 11, 2), (999, 100, 31, 10), (1000, 100, 32, 10),
        (1998, 999, 0, 2), (2000, 1000, 32, 2), (2048, 1024, 32, 2), (9999, 100, 9, 100), (10_000, 100, 10, 100),
        (9990, 10, 1, 1000), (9980, 10, 1, 998), (4095, 1, 7, 4096), (32_767, 8, 0, 4096),
        (28_672, 7, 1, 4096), (28_672, 7, 2, 4096), (32_768, 8, 0, 4096), (32_769, 9, 0, 4096),
        (32_768, 1024, 0, 32), (32_768, 1024, 1, 32), (31_744, 992, 32, 32), (31_745, 993, 32, 32),
        (32_766, 127, 0, 258), (32_770, 145, 0, 226), (4_194_304, 1024, 32, 4096),
    ];
    for (size, n, m, s) in shapes {
        sealed(script, &format!("size {size}, N {n}, M {m}, S {s}"), &headers::shape(size, n, m, s));
    }
}

/// As many blocks as the program takes, seven of data and one for recovery, nearly all of them zeros.
pub fn full_store(script: &mut Script) {
    let mut content = vec![0; 7 * 4096];
    for block in 0..7 {
        content[block * 4096 + 4] = block as u8 + 1;
    }
    let plan = Plan { content, ..plan(0, 4096, 1) };
    script.say("blocks up to the program's limit");
    script.load_sparse(&plan.file());
    list(script);
    changed(script, "one of them rebuilt", &[spoil(&plan, 6)]);
    changed(script, "two of them missing", &[spoil(&plan, 0), spoil(&plan, 6)]);
    sealed(script, "another content hash", &[spoil(&plan, 3), Byte(at::HASH, 0x77)]);
}

/// Repeats the chunk of this length that ends the file at hand until there are so many.
fn multiply(script: &mut Script, at: usize, length: usize, count: usize) {
    let mut made = 1;
    while made < count {
        let more = made.min(count - made);
        script.frame(REPEAT, 0, at, length * more);
        made += more;
    }
}

/// As many chunks as a file has room for: none has a payload, so each is refused by 40. The 29 bytes that are left are
/// too few for one more.
pub fn most_refusals(script: &mut Script) {
    let plan = plan(2, 2, 0);
    let start = 8 + plan.region().len();
    script.say("775 refused chunks and a stop");
    script.load(&[&plan.file_around(&[])[..start], &plan.chunk(0, 1, &[])].concat());
    multiply(script, start, 84, 775);
    close(script, start + 84 * 775, 65_536);
    list(script);
}

/// N = 1,024, and every second block has come; then chunks without a payload fill the file.
pub fn most_ranges(script: &mut Script) {
    let plan = Plan { content: [1, 2].repeat(1024), ..plan(0, 2, 0) };
    let start = 8 + plan.region().len();
    script.say("512 missing ranges");
    script.load(&[&plan.file_around(&[])[..start], &plan.chunk(1, 1, &[1, 2])].concat());
    multiply(script, start, 86, 512);
    for place in 1..512 {
        let at = start + 86 * place;
        forge(script, at, &[Two(at + 20, 2 * place + 1)]);
    }
    let end = start + 86 * 512;
    close(script, end, end + 64);
    list(script);
    script.say("the first block in place of the second, and one less");
    forge(script, start, &[Two(start + 20, 0)]);
    script.edit(&[Byte(start + 86 * 500 + 48, 7)]);
    list(script);
    script.restore();
    script.say("512 missing ranges, 251 refused chunks and a stop");
    script.edit(&[Cut(end)]);
    script.frame(REPEAT, 0, start, 84);
    forge(script, end, &[Four(end + 28, 0), Four(end + 80, END_MARKER)]);
    multiply(script, end, 84, 251);
    close(script, end + 84 * 251, 65_536);
    list(script);
}

/// Files of 65,536 bytes, and a byte more; 15 comes before all else.
pub fn longest_files(script: &mut Script) {
    let plan = plan(14, 4, 1);
    let end = plan.file().len() - 64;
    script.say("a whole file of 65,536 bytes");
    script.load(&plan.file()[..end]);
    close(script, end, 65_536);
    list(script);
    script.say("the longest header");
    load_longest_header(script);
    list(script);
    for (title, byte) in [("a byte more, or less", 0x53), ("the same with another magic", 0x52)] {
        script.say(title);
        script.edit(&[Byte(0, byte)]);
        for length in [65_535, 65_536, 65_537, 65_538] {
            script.frame(LISTING, OTHER_LENGTH, LEAST_OUTPUT, length);
        }
    }
}

/// Each piece of lent memory too short or too long, and the output.
pub fn lent_memory(script: &mut Script) {
    script.say("lent memory of wrong lengths, each with an output that is right and with one that is short");
    script.load(&example());
    for (piece, right) in (1..).zip([32_768, 1_056, 32_768, 1_024, 32_768, 1_024]) {
        for length in [0, right - 1, right + 1, right] {
            script.frame(LISTING, piece, LEAST_OUTPUT, length);
            script.frame(LISTING, piece, LEAST_OUTPUT - 1, length);
        }
    }
    script.say("outputs of other lengths");
    for room in [0, 1, 32_768, LEAST_OUTPUT - 1, LEAST_OUTPUT, LEAST_OUTPUT + 1] {
        script.frame(LISTING, 0, room, 0);
    }
    script.say("wrong memory for a file that is refused");
    script.edit(&[Cut(11)]);
    list(script);
    script.frame(LISTING, 1, LEAST_OUTPUT, 0);
    script.frame(LISTING, 0, LEAST_OUTPUT - 1, 0);
}
