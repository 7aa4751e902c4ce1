//! Extension fields: their order, tags that come again, their ends, and the rule of each tag.
use super::headers::{at, breaches, breakable, shape};
use crate::probe::*;
use crate::script::*;
use crate::writer::{encoded, Plan};

/// A header with these bytes after its priority list.
fn extended(flags: u16, extension: &[u8]) -> Vec<u8> {
    let mut file = Plan { flags, ..plan(18, 4, 2) }.file_around(&[]);
    let trailer = file.split_off(file.len() - 64);
    file.extend(extension);
    let length = (file.len() - 12) as u32;
    file[at::H..at::H + 4].copy_from_slice(&length.to_le_bytes());
    file.extend(trailer);
    file
}

/// A field with a length that need not be its value's.
pub fn field(tag: u16, length: u32, value: usize) -> Vec<u8> {
    [&tag.to_le_bytes()[..], &length.to_le_bytes(), &text(value)].concat()
}

/// A header with an extension, sealed and read.
fn extension(script: &mut Script, title: &str, flags: u16, bytes: &[u8]) {
    script.say(title);
    script.load(&extended(flags, bytes));
    script.seal();
    script.frame(KEEP, 0, 0, 0);
    script.read();
}

/// A tag that has a rule, and a length that its rule wants in a file of seven blocks with flag bits 6 and 7.
const KNOWN: [(u16, usize); 7] =
    [(0x0020, 56), (0x0030, 2), (0x0100, 1), (0x0101, 1), (0x0102, 1), (0x0103, 1), (0x0104, 1)];

/// Fields with these tags and lengths, one after the other.
fn list<'a>(fields: impl IntoIterator<Item = &'a (u16, usize)>) -> Vec<u8> {
    fields.into_iter().flat_map(|&(tag, length)| field(tag, length as u32, length)).collect()
}

/// Any order is read.
pub fn extension_order(script: &mut Script) {
    extension(script, "tags rising by one", 0, &list(&[(0x0200, 1), (0x0201, 1)]));
    extension(script, "tags falling by one", 0, &list(&[(0x0201, 1), (0x0200, 1)]));
    extension(script, "tags that fall where bytes are read big-endian", 0, &list(&[(0x01FF, 1), (0x0200, 1)]));
    extension(script, "tag 0 first", 0, &list(&[(0, 1), (1, 1)]));
    extension(script, "the third tag falls", 0, &list(&[(0x0200, 1), (0x0300, 1), (0x02FF, 0)]));
    let falling = list(&[(0x0104, 1), (0x0030, 2), (0x0100, 1)]);
    extension(script, "known tags in no order", 0x80, &falling);
    extension(script, "known tags in no order, and a flag bit not set", 0, &falling);
    extension(script, "each known tag once, falling", 0xC0, &list(KNOWN.iter().rev()));
}

/// Foreign tags are read as often as they come.
pub fn extension_repeats(script: &mut Script) {
    extension(script, "equal unknown tags", 0, &list(&[(0x0200, 1), (0x0200, 1)]));
    // each of these is next to a known tag or a reserved one, or is at an end of all
    for tag in [0, 0x0010, 0x0011, 0x0012, 0x001F, 0x0021, 0x002F, 0x0031, 0x00FF, 0x0105, 0x2000, 0xFFFF] {
        extension(script, &format!("tag {tag:#06x} twice"), 0, &list(&[(tag, 1), (tag, 1)]));
    }
    let among = [(0x0200, 2), (0x0030, 2), (0x0200, 0), (0x0104, 1), (0x0100, 1), (0x0200, 2)];
    extension(script, "a foreign tag three times among known ones", 0x80, &list(&among));
    extension(script, "a byte left over behind a repeat", 0, &[list(&[(0x0200, 1), (0x0200, 1)]), vec![0]].concat());
    filled_with_fields(script);
}

/// A known tag is refused when it comes again, wherever that is.
pub fn known_repeats(script: &mut Script) {
    for (tag, length) in KNOWN {
        let one = (tag, length);
        let foreign = (0x0200, 2);
        let case = if tag == 0x0030 { "D.14 " } else { "" };
        extension(script, &format!("{case}tag {tag:#06x} twice"), 0xC0, &list(&[one, one]));
        extension(script, &format!("tag {tag:#06x} twice, a foreign one between"), 0xC0, &list(&[one, foreign, one]));
        let others: Vec<(u16, usize)> = KNOWN.into_iter().filter(|&other| other != one).collect();
        let around = [&[one, foreign][..], &others, &[foreign, one]].concat();
        extension(script, &format!("tag {tag:#06x} first and last"), 0xC0, &list(&around));
        extension(script, &format!("tag {tag:#06x} again, with no bytes"), 0xC0, &list(&[one, foreign, (tag, 0)]));
        let in_value = [field(0x0200, 6 + length as u32, 0), list(&[one, one])].concat();
        extension(script, &format!("tag {tag:#06x} in a foreign value, and after it"), 0xC0, &in_value);
    }
    let left_over = [list(&[(0x0030, 2), (0x0030, 2)]), vec![0]].concat();
    extension(script, "a byte left over behind a known tag's repeat", 0x80, &left_over);
}

/// A region filled with empty fields of tag 0, which are zeros: as many as H can count and a few bytes more; then with known tags
/// before and after them.
fn filled_with_fields(script: &mut Script) {
    script.load(&extended(0, &[]));
    for bytes in [6 * 10_866, 6 * 10_867, 6 * 10_867 + 1, 6 * 10_867 + 3] {
        script.say(&format!("{} empty fields, {} over", bytes / 6, bytes % 6));
        script.edit(&[Four(at::H, 331 + bytes)]);
        script.frame(LONG_HEADER, 0, bytes, 0);
    }
    let (one, other) = (&KNOWN[3..4], &KNOWN[4..5]);
    for (title, before, after) in [
        ("one known tag before and after", one, one),
        ("two known tags before and after", one, other),
        ("each known tag before", &KNOWN[..], &[]),
        ("each known tag after", &[], &KNOWN[..]),
    ] {
        script.say(&format!("{title} 10,800 empty fields"));
        script.load_sparse(&extended(0xC0, &[list(before), vec![0; 6 * 10_800], list(after)].concat()));
        script.seal();
        script.read();
    }
}

pub fn extension_ends(script: &mut Script) {
    for left in 1..6 {
        extension(script, &format!("{left} bytes that are no field"), 0, &text(left));
        let more = [field(0x0200, 2, 2), vec![0xFF; left]].concat();
        extension(script, &format!("{left} bytes behind a field"), 0, &more);
    }
    extension(script, "D.24 an empty unknown field", 0, &field(0x0200, 0, 0));
    extension(script, "D.15 an unknown field up to the region's end", 0, &field(0x0200, 300, 300));
    extension(script, "D.21 a field that ends a byte late", 0, &field(0x0200, 301, 300));
    extension(script, "a field that ends a byte early", 0, &field(0x0200, 299, 300));
    extension(script, "an empty field that ends a byte late", 0, &field(0x0200, 1, 0));
    extension(script, "a length that leaps", 0, &field(0x0200, u32::MAX, 8));
    extension(script, "a length that wraps to the field's front", 0, &field(0x0200, u32::MAX - 5, 8));
    extension(script, "a length that wraps to the next field", 0, &field(0x0200, 0x8000_0000, 8));
    extension(script, "length 16,384", 0, &field(0x0200, 16_384, 16_384));
    extension(script, "D.44 length 16,385", 0, &field(0x0200, 16_385, 16_385));
}

pub fn extension_rules(script: &mut Script) {
    for (tag, title, flags, length) in [
        (0x0020, "0x0020 with 8(N+M) bytes and bit 6", 0x40, 56),
        (0x0020, "D.27 0x0020 without bit 6", 0x00, 56),
        (0x0020, "0x0020 with bit 7 in its place", 0x80, 56),
        (0x0020, "0x0020 with eight bytes less", 0x40, 48),
        (0x0020, "0x0020 with a byte less", 0x40, 55),
        (0x0020, "0x0020 with a byte more", 0x40, 57),
        (0x0020, "0x0020 with 8N bytes", 0x40, 40),
        (0x0020, "0x0020 with no bytes", 0x40, 0),
        (0x0030, "0x0030 with two bytes and bit 7", 0x80, 2),
        (0x0030, "0x0030 without bit 7", 0x00, 2),
        (0x0030, "0x0030 with bit 6 in its place", 0x40, 2),
        (0x0030, "D.25 0x0030 with eight bytes", 0x80, 8),
        (0x0030, "0x0030 with a byte", 0x80, 1),
        (0x0030, "0x0030 with three bytes", 0x80, 3),
        (0x0030, "0x0030 with no bytes", 0x80, 0),
    ] {
        extension(script, title, flags, &field(tag, length, length as usize));
    }
    extension(script, "bits 6 and 7 without fields", 0xC0, &[]);
    extension(script, "D.59 bits 5 and 6 with 0x0020", 0x60, &field(0x0020, 56, 56));
    large_offset_index(script);
    for length in [0, 1, 4096, 4097] {
        extension(script, &format!("0x00FF with length {length}"), 0, &field(0x00FF, length, length as usize));
        for tag in 0x0100..=0x0105 {
            script.header(&format!("{tag:#06x} with length {length}"), &[Two(at::LIST, tag)]);
        }
    }
}

/// Fields looked up: in a good header, with another list before them, and in headers that are refused.
pub fn lookups(script: &mut Script) {
    let file = super::headers::every_rule().file();
    script.say("each field of a header looked up, and tags that it lacks");
    script.load(&file);
    for tag in [0, 1, 2, 0x10, 0x11, 0x12, 0x20, 0x30, 0xFF, 0x100, 0x104, 0x105, 0x7FFF, 0x8000, 0xFFFE, 0xFFFF] {
        script.frame(FIND_FIELD, 0, tag, 0);
    }
    script.say("the first and the last field of cut inputs");
    for length in [0, 11, 12, 343, 361, 429, 532, 533, 596, 597] {
        script.edit(&[Cut(length)]);
        for tag in [0x0000, 0xFFFF] {
            script.frame(FIND_FIELD, 0, tag, 0);
        }
        script.restore();
    }
    changed_lookups(script);
    for priorities in [vec![], vec![1], vec![3, 2, 1, 0]] {
        script.say(&format!("a field after {} indices", priorities.len()));
        script.load(&Plan { priorities, fields: encoded(&[(7, text(5))]), ..plan(14, 4, 1) }.file());
        for tag in [6, 7, 8] {
            script.frame(FIND_FIELD, 0, tag, 0);
        }
    }
    extension(script, "the first of equal tags", 0, &list(&[(0x0200, 3), (0x0200, 1)]));
    script.frame(FIND_FIELD, 0, 0x0200, 0);
    let behind = [(0x0300, 2), (0x0200, 3), (0x0300, 0), (0x0200, 1)];
    extension(script, "the first of equal tags, behind a greater one", 0, &list(&behind));
    for tag in [0x0200, 0x0300, 0x02FF] {
        script.frame(FIND_FIELD, 0, tag, 0);
    }
}

/// The last field with other H and the first with other P, each as it is and sealed; then any in a header of each refusal.
fn changed_lookups(script: &mut Script) {
    let mut look_up = |title: String, edit: Edit, tag: usize| {
        script.say(&title);
        script.edit(&[edit]);
        script.frame(FIND_FIELD, 0, tag, 0);
        script.seal();
        script.frame(FIND_FIELD, 0, tag, 0);
        script.restore();
    };
    for length in [0, 330, 331, 515, 520, 521, 522, 65_536, 65_537] {
        look_up(format!("the last field with H {length}"), Four(at::H, length), 0xFFFF);
    }
    for count in [0, 2, 3, 4, 46, 47, 48, 65_535] {
        look_up(format!("the first field with P {count}"), Two(at::P, count), 0);
    }
    let file = breakable().file_around(&[]);
    script.load(&file);
    for breach in breaches(file.len()) {
        script.say(&format!("a field of a header with {}", breach.number));
        script.break_header(&breach.before, &breach.after);
        script.frame(FIND_FIELD, 0, 0x0030, 0);
        script.restore();
    }
}

/// The offset index of the most blocks that the house takes, and of one block fewer.
fn large_offset_index(script: &mut Script) {
    let bytes = 8 * (1024 + 32);
    extension(script, "0x0020 of seven blocks with the length for 1,056", 0x40, &field(0x0020, bytes, bytes as usize));
    script.header("0x0020 of 1,056 blocks", &shape(2048, 1024, 32, 2));
    script.header("0x0020 of 1,055 blocks", &shape(2048, 1024, 31, 2));
}
