//! Files that are written: inputs at the bounds of each number, list and text and past them, and what is written read back,
//! offered and handed out.
use super::extensions::field;
use crate::chance::Chance;
use crate::probe::*;
use crate::script::*;
use crate::writer::{encoded, Plan};

/// Where the inputs of the frame WRITE have their numbers.
mod input {
    pub const S: usize = 0;
    pub const M: usize = 4;
    pub const FORMAT: usize = 32;
    pub const FLAGS: usize = 34;
    pub const NAME_LENGTH: usize = 36;
    pub const LIST_LENGTH: usize = 38;
    pub const FIELDS_LENGTH: usize = 40;
    pub const NAME: usize = 44;
}

const ROOM: usize = 65_536;

/// The inputs of a plan as the frame WRITE takes them.
fn inputs(plan: &Plan) -> Vec<u8> {
    let list = plan.priorities.iter().flat_map(|index| index.to_le_bytes()).collect::<Vec<u8>>();
    let mut bytes = [plan.s.to_le_bytes(), plan.m.to_le_bytes()].concat();
    bytes.extend(plan.uuid);
    bytes.extend(plan.time.to_le_bytes());
    for number in [plan.format, plan.flags, plan.name.len() as u16, plan.priorities.len() as u16] {
        bytes.extend(number.to_le_bytes());
    }
    bytes.extend((plan.fields.len() as u32).to_le_bytes());
    for part in [&plan.name, &list, &plan.fields, &plan.content] {
        bytes.extend(part);
    }
    bytes
}

fn load(script: &mut Script, title: &str, plan: &Plan) {
    script.say(title);
    script.load(&inputs(plan));
}

fn write(script: &mut Script, room: usize) {
    script.frame(WRITE, 0, room, 0);
}

/// Inputs that are changed, written from if they may be, and as they were again.
fn changed(script: &mut Script, title: &str, edits: &[Edit]) {
    script.say(title);
    script.edit(edits);
    write(script, ROOM);
    script.restore();
}

/// Inputs that are judged; with no room the answer is 61 where they are lawful.
fn judged(script: &mut Script, title: &str, plan: &Plan) {
    load(script, title, plan);
    write(script, 0);
}

/// A lawful plan: written with a byte too few, then read back, and handed out from some N of its chunks in some order.
fn round_trip(script: &mut Script, chance: &mut Chance, title: &str, plan: &Plan) {
    let length = plan.file().len();
    load(script, title, plan);
    write(script, length - 1);
    write(script, length);
    script.read();
    let places = places(plan);
    let mut left: Vec<(usize, usize)> = places.clone();
    script.frame(BEGIN, 0, places.len() * plan.s as usize, places.len());
    script.frame(SCRATCH, 0, (plan.m * plan.s) as usize, 1024);
    for _ in 0..plan.data_count() {
        let (at, length) = left.swap_remove(chance.below(left.len()));
        script.frame(OFFER, 0, at, length);
    }
    script.frame(HAND_OUT, 0, plan.content.len() + 1, 0);
}

pub fn round_trips(script: &mut Script) {
    let mut chance = Chance(20_261_116);
    let mut trip = |title: &str, plan: &Plan| round_trip(script, &mut chance, title, plan);
    for (size, s, m) in
        [(0, 2, 0), (0, 4, 3), (1, 2, 0), (3, 4, 1), (4, 4, 2), (5, 4, 2), (14, 4, 1), (16, 2, 8), (2, 2, 32)]
    {
        trip(&format!("size {size}, S = {s}, M = {m}"), &plan(size, s, m));
    }
    trip("S = 4,096", &plan(4097, 4096, 1));
    trip("32 recovery blocks of 33 data blocks", &plan(65, 2, 32));
    trip("content of zeros", &Plan { content: vec![0; 9], ..plan(0, 4, 2) });
    trip("a name of 255 bytes", &Plan { name: text(255), ..plan(3, 2, 1) });
    trip("no name", &Plan { name: vec![], ..plan(3, 2, 1) });
    trip("another UUID, time and format", &Plan { uuid: [0xFF; 16], time: u64::MAX, format: 0xFEDC, ..plan(3, 2, 1) });
    trip("every flag that is let through", &Plan { flags: 0xFFD0, ..plan(3, 2, 1) });
    trip("every data index in the list", &Plan { priorities: vec![3, 1, 0, 2], ..plan(14, 4, 1) });
    let tags = [(0, 0), (1, 3), (0x0F, 2), (0x13, 1), (0x20, 40), (0x30, 2), (0x0100, 1), (0x0104, 7), (0xFFFF, 3)];
    let fields: Vec<(u16, Vec<u8>)> = tags.into_iter().map(|(tag, length)| (tag, text(length))).collect();
    let full = Plan { fields: encoded(&fields), flags: 0xC0, priorities: vec![2], ..plan(14, 4, 1) };
    trip("fields of every rule, and a list", &full);
    let again = [(0x01, 0), (0x01, 3), (0x0100, 1), (0x0200, 2), (0x0200, 2), (0x0200, 0), (0xFFFF, 1), (0xFFFF, 1)];
    let fields: Vec<(u16, Vec<u8>)> = again.into_iter().map(|(tag, length)| (tag, text(length))).collect();
    trip("foreign tags side by side", &Plan { fields: encoded(&fields), ..plan(14, 4, 1) });
}

/// Each of the numbers at its bounds and past them.
pub fn numbers(script: &mut Script) {
    let most = u32::MAX as usize;
    load(script, "size 14, S = 4, M = 1", &plan(14, 4, 1));
    for s in [0, 1, 2, 3, 4, 5, 4096, 4097, 4098, 65_536, 268_435_456, 268_435_458, most] {
        changed(script, &format!("S {s}"), &[Four(input::S, s)]);
    }
    for m in [0, 1, 32, 33, 65_531, 65_532, 65_534, 65_535, most] {
        changed(script, &format!("M {m}"), &[Four(input::M, m)]);
    }
    for bit in 0..16 {
        changed(script, &format!("flag bit {bit}"), &[Two(input::FLAGS, 1 << bit)]);
    }
    changed(script, "format 65,535", &[Two(input::FORMAT, 65_535)]);
    for (size, s) in [(2047, 2), (2048, 2), (2049, 2)] {
        judged(script, &format!("size {size} in blocks of {s}, with no room"), &plan(size, s, 0));
    }
    load(script, "60 before 61", &Plan { flags: 1, ..plan(14, 4, 1) });
    write(script, 0);
    script.say("inputs that end in their numbers");
    script.load(&inputs(&plan(0, 4, 1))[..44]);
    for length in [44, 43, 36, 5, 4, 1, 0] {
        script.edit(&[Cut(length)]);
        write(script, ROOM);
        script.restore();
    }
}

pub fn names(script: &mut Script) {
    for length in [254, 255, 256, 300] {
        judged(script, &format!("a name of {length} bytes"), &Plan { name: text(length), ..plan(3, 2, 0) });
    }
    load(script, "a name of eight bytes", &plan(3, 2, 0));
    for place in [0, 3, 7] {
        changed(script, &format!("a zero at its byte {place}"), &[Byte(input::NAME + place, 0)]);
    }
    changed(script, "a zero behind it", &[Two(input::NAME_LENGTH, 7), Byte(input::NAME + 7, 0)]);
    changed(script, "every byte set", &(0..8).map(|i| Byte(input::NAME + i, 0xFF)).collect::<Vec<_>>());
}

pub fn lists(script: &mut Script) {
    let cases: [(&str, &[u32]); 9] = [
        ("one index", &[4]),
        ("all of five, falling", &[4, 3, 2, 1, 0]),
        ("six of five", &[0, 1, 2, 3, 4, 5]),
        ("one index twice", &[1, 2, 1]),
        ("neighbours alike", &[2, 2]),
        ("index N", &[5]),
        ("index N behind good ones", &[0, 1, 5]),
        ("the greatest index", &[u32::MAX]),
        ("an index that is good in its low bytes", &[0x0001_0000]),
    ];
    for (title, list) in cases {
        judged(script, title, &Plan { priorities: list.to_vec(), ..plan(18, 4, 2) });
    }
    let rising = |count: u32| (0..count).collect::<Vec<u32>>();
    judged(script, "1,024 indices of 1,024", &Plan { priorities: rising(1024), ..plan(2048, 2, 0) });
    judged(script, "1,025 indices of 1,024", &Plan { priorities: rising(1025), ..plan(2048, 2, 0) });
    judged(
        script,
        "1,024 indices, the last as the first",
        &Plan { priorities: [rising(1023), vec![0]].concat(), ..plan(2048, 2, 0) },
    );
    load(script, "a list that takes all of the content", &Plan { priorities: vec![0], ..plan(8, 4, 0) });
    changed(script, "three indices", &[Two(input::LIST_LENGTH, 3)]);
    changed(script, "more than there is", &[Two(input::LIST_LENGTH, 65_535)]);
}

pub fn fields(script: &mut Script) {
    let judge = |script: &mut Script, title: &str, flags: u16, fields: Vec<u8>| {
        judged(script, title, &Plan { fields, flags, ..plan(18, 4, 2) });
    };
    for tag in [0x000F, 0x0010, 0x0011, 0x0012, 0x0013] {
        judge(script, &format!("tag {tag:#06x}"), 0, field(tag, 1, 1));
        let second = [field(0, 0, 0), field(tag, 0, 0)].concat();
        judge(script, &format!("tag {tag:#06x} behind another"), 0, second);
    }
    judge(script, "tag 0x0011 in a value", 0, field(0x0200, 6, 0).into_iter().chain(field(0x0011, 0, 0)).collect());
    judge(
        script,
        "tag 0x0011 behind a field that is not whole",
        0,
        [field(0x0200, 99, 0), field(0x0011, 0, 0)].concat(),
    );
    for (first, second) in [(0x0200, 0x0201), (0x0200, 0x0200), (0x0201, 0x0200), (0x01FF, 0x0200), (0xFFFF, 0xFFFF)] {
        let both = [field(first, 1, 1), field(second, 1, 1)].concat();
        judge(script, &format!("tags {first:#06x} and {second:#06x}"), 0, both);
    }
    for left in 1..6 {
        judge(script, &format!("{left} bytes that are no field"), 0, text(left));
    }
    orders(script);
    for (title, flags, bytes) in [
        ("0x0020 with 8(N+M) bytes and bit 6", 0x40, field(0x0020, 56, 56)),
        ("0x0020 without bit 6", 0x80, field(0x0020, 56, 56)),
        ("0x0020 with a byte less", 0x40, field(0x0020, 55, 55)),
        ("0x0030 with two bytes and bit 7", 0x80, field(0x0030, 2, 2)),
        ("0x0030 without bit 7", 0x40, field(0x0030, 2, 2)),
        ("0x0030 with three bytes", 0x80, field(0x0030, 3, 3)),
        ("0x0100 with no byte", 0, field(0x0100, 0, 0)),
        ("a field that ends a byte late", 0, field(0x0200, 301, 300)),
        ("a field that ends a byte early", 0, field(0x0200, 299, 300)),
        ("a length that wraps", 0, field(0x0200, u32::MAX - 5, 8)),
    ] {
        judge(script, title, flags, bytes);
    }
    longest(script);
}

/// Tags that come again or fall, alone and at the front, in the middle and at the end of a longer list.
fn orders(script: &mut Script) {
    let list = |tags: &[u16]| tags.iter().flat_map(|&tag| field(tag, 1, 1)).collect::<Vec<u8>>();
    let written = |tags: &[u16]| Plan { fields: list(tags), ..plan(18, 4, 2) };
    for (title, tags) in [
        ("equal foreign tags side by side", &[0x0300, 0x0300][..]),
        ("equal foreign tags apart", &[0x0300, 0x0301, 0x0300]),
        ("equal known tags side by side", &[0x0101, 0x0101]),
        ("equal known tags apart", &[0x0101, 0x0102, 0x0101]),
        ("known tags that fall", &[0x0102, 0x0101]),
        ("foreign tags that fall", &[0x0302, 0x0301]),
        ("a foreign tag below a known one", &[0x0101, 0x00FF]),
    ] {
        let (before, after) = (&[0x0002, 0x0003][..], &[0x0400, 0x0400, 0x0500][..]);
        judged(script, title, &written(tags));
        judged(script, &format!("{title}, before others"), &written(&[tags, after].concat()));
        judged(script, &format!("{title}, among others"), &written(&[before, tags, after].concat()));
        judged(script, &format!("{title}, after others"), &written(&[before, tags].concat()));
    }
    judged(
        script,
        "a fall before bytes that are no field",
        &Plan { fields: [list(&[2, 1]), vec![0]].concat(), ..plan(18, 4, 2) },
    );
    load(script, "tags that fall: 60 before 61", &written(&[0x0302, 0x0301]));
    for room in [0, ROOM] {
        write(script, room);
    }
}

/// Fields that are made of zeros after the inputs' numbers and name: tags rising from a first, and their lengths.
fn grown(script: &mut Script, title: &str, first: usize, lengths: &[usize]) {
    let start = inputs(&Plan { name: vec![], ..plan(0, 4, 0) });
    let total: usize = lengths.iter().map(|length| 6 + length).sum();
    script.say(title);
    script.load(&start);
    script.frame(GROW, 0, total, 0);
    script.edit(&[Four(input::FIELDS_LENGTH, total)]);
    let mut at = start.len();
    for (tag, length) in (first..).zip(lengths) {
        script.edit(&[Two(at, tag), Four(at + 2, *length)]);
        at += 6 + length;
    }
    write(script, ROOM);
}

/// A field's greatest lengths, and H of 65,536; a file with that region is longer than any output here.
fn longest(script: &mut Script) {
    for (tag, length) in [(0x0104, 4096), (0x0104, 4097), (0x0105, 4097), (0x0200, 16_384), (0x0200, 16_385)] {
        grown(script, &format!("tag {tag:#06x} with {length} bytes"), tag, &[length]);
    }
    for last in [16_028, 16_029, 16_030] {
        grown(script, &format!("H {}", 331 + 3 * 16_390 + 6 + last), 0x0200, &[16_384, 16_384, 16_384, last]);
    }
    script.frame(RESTORE, 0, 0, 0);
    script.edit(&[Four(input::FIELDS_LENGTH, u32::MAX as usize)]);
    write(script, ROOM);
}
