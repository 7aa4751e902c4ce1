//! What sessions know: prefix, missing list and note of marks that were offered or lent, and notes that are read.
use super::sessions::{each_head_number, set_head_numbers, Stage, AT_HOUSE_LIMITS};
use crate::note::note;
use crate::probe::*;
use crate::script::*;
use crate::writer::Plan;

/// The note of document 01.
const WORKED: [u8; 39] = [
    0x00, 0x00, 0x00, 0x23, 0x01, 0x00, 0x01, 0x02, 0x03, 0x04, 0x05, 0x06, 0x07, 0x08, 0x09, 0x0A, 0x0B, 0x0C, 0x0D,
    0x0E, 0x0F, 0x00, 0x02, 0x00, 0x00, 0x00, 0x01, 0x00, 0x00, 0x00, 0x01, 0x00, 0x00, 0x00, 0x03, 0x00, 0x00, 0x00,
    0x03,
];

const UUID: [u8; 16] = [0, 1, 2, 3, 4, 5, 6, 7, 8, 9, 10, 11, 12, 13, 14, 15];
const MOST: u32 = u32::MAX;

/// One call with an output of each of several lengths.
fn call(script: &mut Script, opcode: u8, rooms: &[usize]) {
    for &room in rooms {
        script.frame(opcode, 0, room, 0);
    }
}

/// All calls, with outputs that suffice where those of the three numbers do.
fn call_all(script: &mut Script, bytes: usize, numbers: usize, note: usize) {
    call(script, PREFIX, &[bytes]);
    call(script, LIST_MISSING, &[numbers]);
    call(script, LIST_RANGES, &[2 * numbers]);
    call(script, WRITE_NOTE, &[note]);
    script.frame(COUNT_MARKS, 0, 0, 0);
}

/// Keeps the head of a plan, and makes the file the memory of its session: marks, and a store of bytes that differ.
fn lend(script: &mut Script, size: usize, s: u32, marks: &[u8]) {
    let data = size.div_ceil(s as usize).max(1);
    script.load(&plan(size, s, (marks.len() - data) as u32).file_around(&[]));
    script.read();
    lend_as(script, marks, marks.len() * s as usize);
}

/// Memory for the head at hand.
fn lend_as(script: &mut Script, marks: &[u8], store: usize) {
    script.load(&[marks, &text(store)].concat());
    script.frame(LEND, 0, store, marks.len());
}

fn read(script: &mut Script, title: &str, bytes: &[u8], rooms: &[usize]) {
    script.say(title);
    script.load(bytes);
    call(script, READ_NOTE, rooms);
}

/// Before a header is read size, N, M and S are 0, and nothing is lent.
pub fn before_a_header(script: &mut Script) {
    script.say("prefix, missing list and note before any header");
    call_all(script, 2, 2, 24);
}

pub fn worked_note(script: &mut Script) {
    let stage = Stage::set(script, &plan(14, 4, 1));
    stage.begin(script, "C10 held 0, 2 and 4 of N = 4, M = 1");
    for index in [0, 2, 4] {
        stage.offer(script, index);
    }
    call(script, PREFIX, &[0, 3, 4, 5]);
    call(script, LIST_MISSING, &[0, 1, 2, 3]);
    call(script, LIST_RANGES, &[0, 2, 3, 4, 5]);
    call(script, WRITE_NOTE, &[0, 22, 23, 38, 39, 40]);
    script.frame(COUNT_MARKS, 0, 0, 0);
    script.say("with 1 enough are held, and the prefix goes up to 3");
    stage.offer(script, 1);
    call(script, PREFIX, &[11, 12, 13]);
    call(script, LIST_MISSING, &[0, 1]);
    call(script, LIST_RANGES, &[0, 1]);
    call(script, WRITE_NOTE, &[22, 23, 24]);
    script.say("with 3 the prefix is the content, and still unverified");
    stage.offer(script, 3);
    call(script, PREFIX, &[13, 14, 15, 16]);
    call(script, LIST_MISSING, &[0]);
    read(script, "the note of C10 is read back", &WORKED, &[0, 3, 4, 5]);
    let stage = Stage::set(script, &Plan { uuid: std::array::from_fn(|i| 0xFF - i as u8), ..plan(9, 4, 0) });
    stage.begin(script, "another UUID, M = 0, held 1");
    stage.offer(script, 1);
    call_all(script, 1, 3, 40);
    script.say("C9 missing 0, 1, 2 and 5");
    lend(script, 24, 4, &[0, 2, 0, 1, 1, 2, 0]);
    call_all(script, 1, 5, 40);
}

/// All sets of marks of N = 3, M = 2, each from the one before by one change.
pub fn every_set_of_marks(script: &mut Script) {
    script.say("each set of marks of N = 3, M = 2, size 5, S = 2");
    lend(script, 5, 2, &[0; 5]);
    call_all(script, 6, 4, 40);
    let mut marks = [0u8; 5];
    let mut rising = [true; 5];
    while let Some(digit) = (0..5).find(|&i| if rising[i] { marks[i] < 2 } else { 0 < marks[i] }) {
        for lower in 0..digit {
            rising[lower] = !rising[lower];
        }
        marks[digit] = if rising[digit] { marks[digit] + 1 } else { marks[digit] - 1 };
        script.edit(&[Byte(digit, marks[digit])]);
        script.frame(LEND, 0, 10, 5);
        call_all(script, 6, 4, 40);
    }
}

pub fn sizes(script: &mut Script) {
    let held: [(usize, &[u8]); 9] = [
        (0, &[0]),
        (0, &[1]),
        (0, &[2, 1]),
        (1, &[1, 0]),
        (4, &[1, 0]),
        (5, &[1, 1, 0]),
        (7, &[1, 1]),
        (8, &[1, 1]),
        (9, &[1, 1, 0, 2, 0]),
    ];
    for (size, marks) in held {
        script.say(&format!("size {size}, S = 4, marks {marks:?}"));
        lend(script, size, 4, marks);
        let leading = marks.iter().take_while(|&&mark| mark == 1).count();
        let end = size.min(4 * leading);
        call(script, PREFIX, &[end.saturating_sub(1), end, end + 1]);
        call(script, LIST_MISSING, &[0, 1, 2]);
        call(script, LIST_RANGES, &[0, 1, 2, 3]);
        call(script, WRITE_NOTE, &[22, 23, 30, 31, 32]);
    }
}

/// 71 of the lent memory.
pub fn wrong_memory(script: &mut Script) {
    script.say("a mark above 2 in each place");
    lend(script, 5, 2, &[1, 0, 1, 0, 2]);
    for place in 0..5 {
        for mark in [2, 3, 4, 128, 255] {
            script.edit(&[Byte(place, mark)]);
            script.frame(LEND, 0, 10, 5);
            call_all(script, 2, 2, 31);
            script.restore();
        }
    }
    for (store, marks) in [(10, 5), (9, 5), (11, 5), (0, 5), (8, 5), (10, 4), (10, 6), (10, 0), (0, 0)] {
        script.say(&format!("a store of {store} bytes and {marks} marks"));
        lend_as(script, &[1, 0, 1, 0, 2, 0][..marks], store);
        call_all(script, 2, 1, 31);
    }
    script.say("71 before 52");
    lend_as(script, &[1, 0, 1, 0, 3], 10);
    call_all(script, 0, 0, 0);
    script.say("52 with every mark right");
    lend_as(script, &[1, 0, 1, 0, 2], 10);
    call_all(script, 0, 0, 0);
    call_all(script, 1, 0, 30);
}

/// 71 of size, N, M and S.
pub fn wrong_numbers(script: &mut Script) {
    let most = MOST as usize;
    script.say("each number by itself at and around its bounds; right are size 5, N = 3, M = 2, S = 2");
    lend(script, 5, 2, &[1, 0, 1, 0, 2]);
    each_head_number(script, |script| call_all(script, 2, 1, 31));
    for (low, high) in [(5, 1), (5, 1 << 31), (0, 256), (1, 256), (most, 255), (most, most)] {
        script.say(&format!("size {}", (high as u64) << 32 | low as u64));
        script.frame(SET_HEAD, 0, low, high);
        call_all(script, 2, 1, 31);
    }
    for (size, n, m, s) in AT_HOUSE_LIMITS {
        script.say(&format!(
            "at and above the house limits: size {size}, N = {n}, M = {m}, S = {s}, with memory to match"
        ));
        set_head_numbers(script, [size, n, m, s]);
        script.load(&vec![0; n + m + (n + m) * s]);
        script.frame(LEND, 0, (n + m) * s, n + m);
        call_all(script, 2, 1, 31);
    }
}

/// N = 1,024 and M = 32, every other data block held: the longest note, of 512 ranges.
pub fn largest_session(script: &mut Script) {
    script.say("N = 1024, M = 32, each odd index held");
    let marks: Vec<u8> = (0..1056).map(|index| u8::from(index % 2 == 1 && index < 1024)).collect();
    lend(script, 2047, 2, &marks);
    call(script, PREFIX, &[0, 1]);
    call(script, LIST_MISSING, &[511, 512]);
    call(script, LIST_RANGES, &[1023, 1024]);
    call(script, WRITE_NOTE, &[4119]);
    script.frame(COUNT_MARKS, 0, 0, 0);
    script.say("1,023 are held, the last not: the longest prefix with a gap");
    script.load(&[vec![1; 1023], vec![0; 33], text(2112)].concat());
    script.frame(LEND, 0, 2112, 1056);
    call(script, PREFIX, &[2046]);
    call(script, LIST_MISSING, &[1]);
    call(script, LIST_RANGES, &[2]);
    call(script, WRITE_NOTE, &[32]);
    script.say("none is held");
    script.load(&[vec![0; 1056], text(2112)].concat());
    script.frame(LEND, 0, 2112, 1056);
    call(script, LIST_MISSING, &[1023, 1024]);
    call(script, LIST_RANGES, &[1, 2]);
    call(script, WRITE_NOTE, &[30, 31]);
    let even: Vec<(u32, u32)> = (0..513).map(|index| (2 * index, 2 * index)).collect();
    read(script, "512 ranges fill the output, 513 do not fit it", &note(&UUID, &even[..512]), &[1023, 1024]);
    script.load(&note(&UUID, &even));
    call(script, READ_NOTE, &[4]);
}

pub fn damaged_notes(script: &mut Script) {
    script.say("each value of each byte of the note of C10");
    script.load(&WORKED);
    for place in 0..WORKED.len() {
        script.frame(NOTE_VALUES, 0, place, 0);
    }
    script.say("each length of that note, and bytes behind it");
    script.load(&[&WORKED[..], &[0; 9]].concat());
    script.frame(NOTE_LENGTHS, 0, 0, 0);
    call(script, READ_NOTE, &[6]);
    script.say("each value of each byte of ranges at the upper end");
    script.load(&note(&UUID, &[(0, MOST - 3), (MOST - 1, MOST)]));
    for place in 21..39 {
        script.frame(NOTE_VALUES, 0, place, 0);
    }
    script.frame(NOTE_LENGTHS, 0, 0, 0);
}

pub fn ranges_of_notes(script: &mut Script) {
    let cases: [(&str, &[(u32, u32)]); 27] = [
        ("no range", &[]),
        ("index 0", &[(0, 0)]),
        ("every index", &[(0, MOST)]),
        ("the last index", &[(MOST, MOST)]),
        ("first above last", &[(1, 0)]),
        ("first far above last", &[(MOST, 0)]),
        ("first above last behind a right range", &[(1, 1), (5, 4)]),
        ("first above last before a right range", &[(2, 1), (5, 5)]),
        ("a gap of one index", &[(0, 1), (3, 3)]),
        ("touching", &[(0, 1), (2, 3)]),
        ("overlapping in one index", &[(0, 2), (2, 3)]),
        ("the second inside the first", &[(0, 9), (3, 4)]),
        ("the first inside the second", &[(3, 4), (0, 9)]),
        ("twice the same", &[(3, 4), (3, 4)]),
        ("falling", &[(7, 8), (3, 4)]),
        ("the third touches", &[(0, 0), (2, 2), (3, 3)]),
        ("the third falls", &[(10, 10), (20, 20), (15, 15)]),
        ("three that rise", &[(10, 10), (12, 20), (22, 22)]),
        ("touching at the upper end", &[(0, MOST - 1), (MOST, MOST)]),
        ("a gap of one at the upper end", &[(0, MOST - 2), (MOST, MOST)]),
        ("a range behind the last index", &[(5, MOST), (0, 2)]),
        ("behind the last index, where a sum of 32 bits wraps to 1", &[(MOST, MOST), (1, 1)]),
        ("behind the last index, where a sum of 32 bits wraps to 0", &[(MOST - 1, MOST - 1), (0, 0)]),
        ("the last index twice", &[(MOST, MOST), (MOST, MOST)]),
        ("across 2^31", &[(0x7FFF_FFFF, 0x8000_0000), (0x8000_0002, 0x8000_0002)]),
        ("touching across 2^31", &[(0, 0x7FFF_FFFF), (0x8000_0000, MOST)]),
        ("falling across 2^31", &[(0x8000_0000, 0x8000_0001), (5, 5)]),
    ];
    for (title, pairs) in cases {
        let exact = 2 * pairs.len();
        read(script, title, &note(&UUID, pairs), &[exact.saturating_sub(1), exact, exact + 1]);
    }
}

pub fn starts_of_notes(script: &mut Script) {
    let none = note(&UUID, &[]);
    let one = note(&UUID, &[(1, 2)]);
    read(script, "no byte", &[], &[4]);
    read(script, "zeros", &[0; 23], &[4]);
    read(script, "another UUID", &note(&[0xFF; 16], &[(1, 2)]), &[2]);
    wrong_starts(script, &none, &one);
    read(script, "a byte behind", &[&one[..], &[0]].concat(), &[2]);
    read(script, "a pair behind", &[&one[..], &[0, 0, 0, 9, 0, 0, 0, 9]].concat(), &[4]);
    read(script, "a note behind a note", &[&none[..], &none].concat(), &[4]);
    let mut little = one.clone();
    little[..4].reverse();
    read(script, "the length little-endian", &little, &[2]);
}

/// Length, version and range count, of a note of no range and of one.
fn wrong_starts(script: &mut Script, none: &[u8], one: &[u8]) {
    for version in [0, 2, 255] {
        script.say(&format!("version {version}, with and without room"));
        script.load(one);
        script.edit(&[Byte(4, version)]);
        call(script, READ_NOTE, &[2, 0]);
    }
    let wrong = [("one range", one, [19, 26, 28, 31, 35]), ("no range", none, [0, 18, 20, 23, 27])];
    for (title, bytes, lengths) in wrong {
        for length in lengths {
            script.say(&format!("length {length} before {title}"));
            script.load(bytes);
            script.edit(&[Byte(3, length)]);
            call(script, READ_NOTE, &[2]);
        }
    }
    for (high, low) in [(0, 0), (0, 2), (1, 0), (1, 1), (255, 255)] {
        script.say(&format!("range count {high:02X} {low:02X} before one range"));
        script.load(one);
        script.edit(&[Byte(21, high), Byte(22, low)]);
        call(script, READ_NOTE, &[2]);
    }
    script.say("length and count agree, and the bytes do not");
    for (length, count) in [(19, 0), (35, 2)] {
        script.load(one);
        script.edit(&[Byte(3, length), Byte(22, count)]);
        call(script, READ_NOTE, &[4]);
    }
}
