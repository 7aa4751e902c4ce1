//! Headers: written files, each number and list at its bounds, damage in every byte, and the order of the checks.
use crate::probe::*;
use crate::script::*;
use crate::writer::{encoded, Plan};

/// Places of fields, counted from the file's first byte.
pub mod at {
    pub const VERSION: usize = 4;
    pub const H: usize = 8;
    pub const SIZE: usize = 28;
    pub const NAME: usize = 38;
    pub const HASH: usize = 293;
    pub const N: usize = 325;
    pub const M: usize = 329;
    pub const S: usize = 333;
    pub const ERASURE: usize = 337;
    pub const COMPRESSION: usize = 338;
    pub const FLAGS: usize = 339;
    pub const P: usize = 341;
    pub const LIST: usize = 343;
}

/// A written file, read, and each of its chunks checked, alone and with all that comes after it.
fn written(script: &mut Script, title: &str, plan: &Plan) {
    script.file(title, &plan.file());
    for (at, length) in places(plan) {
        script.check(at, length);
        script.check(at, 65_536);
    }
}

pub fn every_rule() -> Plan {
    let with_list = Plan { priorities: vec![2, 0, 3], flags: 0x00D0, ..plan(14, 4, 1) };
    let value = |length| text(length);
    let tags =
        [(0x0000, 0), (0x0001, 3), (0x0010, 1), (0x0012, 0), (0x0020, 40), (0x0030, 2), (0x00FF, 5), (0x0100, 1)];
    let more = [(0x0101, 9), (0x0102, 1), (0x0103, 2), (0x0104, 7), (0x0105, 0), (0x7FFF, 4), (0x8000, 1), (0xFFFF, 6)];
    let fields: Vec<(u16, Vec<u8>)> = tags.into_iter().chain(more).map(|(tag, length)| (tag, value(length))).collect();
    Plan { fields: encoded(&fields), ..with_list }
}

pub fn written_files(script: &mut Script) {
    written(script, "four data blocks and one for recovery", &plan(14, 4, 1));
    written(script, "D.1 one byte, no recovery", &Plan { content: vec![0x42], ..plan(0, 2, 0) });
    written(script, "no recovery", &plan(14, 4, 0));
    written(script, "D.60 size 0, blocks of 4,096", &plan(0, 4096, 0));
    written(script, "size S", &plan(8, 8, 2));
    written(script, "size S + 1", &plan(9, 8, 2));
    written(script, "one data block and 32 for recovery", &plan(2, 2, 32));
    written(script, "D.57 a priority list without its profile", &Plan { priorities: vec![2, 0, 1], ..plan(14, 4, 1) });
    written(script, "D.28 the image profile without a list", &Plan { format: 0x0022, flags: 0x0010, ..plan(14, 4, 1) });
    written(script, "every flag that is let through", &Plan { flags: 0xFFD0, ..plan(14, 4, 1) });
    written(script, "fields of every rule", &every_rule());
    written(script, "a name of 255 bytes", &Plan { name: text(255), ..plan(3, 4, 0) });
    written(script, "no name", &Plan { name: Vec::new(), ..plan(3, 4, 0) });
    let name = b"one\0two".to_vec();
    written(script, "D.26 bytes behind the name's end", &Plan { name, ..plan(3, 4, 0) });
}

/// Size, N, M and S, with the erasure identifier that suits M.
pub fn shape(size: u64, n: usize, m: usize, s: usize) -> Vec<Edit> {
    let (low, high) = (size as u32 as usize, (size >> 32) as usize);
    let erasure = Byte(at::ERASURE, u8::from(m > 0));
    vec![Four(at::SIZE, low), Four(at::SIZE + 4, high), Four(at::N, n), Four(at::M, m), Four(at::S, s), erasure]
}

pub fn numbers_at_bounds(script: &mut Script) {
    script.load(&plan(18, 4, 2).file_around(&[]));
    let most = u32::MAX as usize;
    #[rustfmt::skip]
    let shapes: [(u64, usize, usize, usize); 56] = [
        (0, 0, 0, 4), (0, 1, 0, 4), (0, 2, 0, 4), (0, 3, 0, 65_536), (0, 1, 0, 65_536),
        (3, 0, 0, 4), (3, 1, 0, 4), (3, 2, 0, 4), (4, 1, 0, 4), (4, 2, 0, 4), (5, 1, 0, 4), (5, 2, 0, 4), (5, 3, 0, 4),
        (2047, 1024, 0, 2), (2048, 1024, 0, 2), (2049, 1024, 0, 2), (2049, 1025, 0, 2), (2050, 1025, 0, 2), (2046, 1024, 0, 2),
        (131_068, 65_534, 0, 2), (131_070, 65_535, 0, 2), (131_072, 65_536, 0, 2), (200_000, 100_000, 0, 2),
        (8_589_934_590, most, 0, 2), (8_589_934_592, 0, 0, 2),
        (8, 2, 32, 4), (8, 2, 33, 4), (8, 2, 65_533, 4), (8, 2, 65_534, 4), (4, 1, 65_534, 4), (4, 1, 65_535, 4), (4, 1, most, 4),
        (131_068, 65_534, 1, 2), (131_068, 65_534, 2, 2), (8, 2, 65_536, 4),
        (8, 2, 0, 0), (0, 1, 0, 0), (1, 1, 0, 1), (2, 1, 0, 2), (2, 1, 0, 3), (4096, 1, 0, 4096), (4097, 2, 0, 4096),
        (4_194_304, 1024, 32, 4096), (4_194_305, 1025, 32, 4096), (4097, 1, 0, 4097), (4098, 1, 0, 4098), (65_537, 1, 0, 65_537),
        (9, 1, 0, 268_435_456), (9, 1, 0, 268_435_457), (9, 1, 0, 268_435_458), (9, 1, 0, most), (9, 1, 0, most - 1),
        (1 << 40, 4096, 0, 268_435_456), ((1 << 40) + 1, 4097, 0, 268_435_456), (u64::MAX, 1, 0, 4), ((1 << 32) + 8, 2, 0, 4),
    ];
    for (size, n, m, s) in shapes {
        let case = match (size, n, s) {
            (0, 1, 65_536) => "D.60 ",
            (0, 3, 65_536) => "D.61 ",
            (_, 100_000, _) => "D.47 ",
            (8, _, 0) => "D.62 ",
            (_, _, 65_537) => "D.69 ",
            _ => "",
        };
        script.header(&format!("{case}size {size}, N {n}, M {m}, S {s}"), &shape(size, n, m, s));
    }
}

pub fn identifiers_and_flags(script: &mut Script) {
    script.load(&plan(18, 4, 2).file_around(&[]));
    identifiers(script);
    for bit in 0..16 {
        script.header(&format!("flag bit {bit}"), &[Two(at::FLAGS, 1 << bit)]);
    }
    script.header("every flag that is let through", &[Two(at::FLAGS, 0xFFD0)]);
    script.header("every flag", &[Two(at::FLAGS, 0xFFFF)]);
    for (major, minor) in [(255, 1), (1, 1), (256, 1), (1, 0), (0, 0), (0, 2), (0, 256), (0, 257)] {
        let case = if major == 255 { "D.3 " } else { "" };
        let version = [Two(at::VERSION, major), Two(at::VERSION + 2, minor)];
        script.header(&format!("{case}version {major}.{minor}"), &version);
    }
    single_bytes(script);
}

fn identifiers(script: &mut Script) {
    for m in [0, 2] {
        for erasure in [0, 1, 2, 3, 0x7F, 0x80, 0x82, 0xFF] {
            let case = match (m, erasure) {
                (2, 0x82) => "D.53 ",
                (2, 0) => "D.70 ",
                _ => "",
            };
            let title = format!("{case}M {m} with erasure identifier {erasure}");
            script.header(&title, &[Four(at::M, m), Byte(at::ERASURE, erasure)]);
        }
    }
    for compression in [1, 2, 3, 0x80, 0xFF] {
        let case = if compression == 2 { "D.51 " } else { "" };
        let title = format!("{case}compression identifier {compression}");
        script.header(&title, &[Byte(at::COMPRESSION, compression)]);
    }
}

/// Bytes that no other case sets.
fn single_bytes(script: &mut Script) {
    script.header("D.2 another fourth byte of the magic", &[Byte(3, 1)]);
    script.header("every byte of the content hash set", &(293..325).map(|at| Byte(at, 0xFF)).collect::<Vec<_>>());
    script.header("format 0xFEDC", &[Two(36, 0xFEDC)]);
    script.header("a zero in the name", &[Byte(at::NAME + 2, 0)]);
    script.header("the name's last byte set", &[Byte(at::NAME + 254, 7)]);
    script.header("the UUID's ends set", &[Byte(12, 0xA1), Byte(27, 0xB2)]);
    // the trailer begins at 343; its time is never judged
    script.header("every byte of the time set", &(383..391).map(|at| Byte(at, 0xFF)).collect::<Vec<_>>());
    script.header("another word at the trailer's front", &[Byte(346, b'X')]);
    script.header("D.29 the trailer's byte 7 set", &[Byte(350, 1)]);
    script.header("the trailer's last byte set", &[Byte(406, 1)]);
}

pub fn header_lengths(script: &mut Script) {
    script.load(&plan(18, 4, 2).file());
    for length in [0, 4, 330, 331, 332, 335, 336, 337, 65_460, 65_536, 65_537, u32::MAX as usize - 3, u32::MAX as usize]
    {
        let case = match length {
            331 => "D.13a ",
            335 => "D.13b ",
            _ => "",
        };
        script.header(&format!("{case}H {length}"), &[Four(at::H, length)]);
    }
    script.load(&Plan { fields: encoded(&[(0x0200, vec![])]), ..plan(18, 4, 2) }.file());
    for length in 330..=344 {
        script.header(&format!("H {length} where a field ends at 337"), &[Four(at::H, length)]);
    }
}

pub fn priority_lists(script: &mut Script) {
    let list = |priorities: &[u32]| Plan { priorities: priorities.to_vec(), ..plan(18, 4, 2) }.file_around(&[]);
    let lists: [(&str, &[u32]); 9] = [
        ("D.54 six indices of five blocks", &[0, 1, 2, 3, 4, 5]),
        ("all indices, falling", &[4, 3, 2, 1, 0]),
        ("D.55 one index twice", &[1, 2, 1]),
        ("neighbours alike", &[1, 2, 2]),
        ("D.56 index N", &[0, 5]),
        ("index N - 1", &[0, 4]),
        ("the greatest index", &[u32::MAX]),
        ("index N first", &[5, 0]),
        ("two indices that differ in their last byte", &[0x0100_0000, 0]),
    ];
    for (title, indices) in lists {
        script.file(title, &list(indices));
    }
    script.load(&list(&[0, 1]));
    for count in [0, 1, 2, 3, 5, 6, 256, 65_535] {
        let case = if count == 3 { "D.20 " } else { "" };
        script.header(&format!("{case}P {count} in a region with room for two"), &[Two(at::P, count)]);
    }
    for length in 331..=340 {
        script.header(&format!("two indices and H {length}"), &[Four(at::H, length)]);
    }
    script.header("a list that is read past the region would be good", &[Two(at::P, 3), Four(at::LIST + 8, 3)]);
}

pub fn damaged_headers(script: &mut Script) {
    let plan = every_rule();
    let file = plan.file();
    script.load(&file);
    let region_end = 8 + plan.region().len();
    for mask in [0x01, 0x80, 0xFF] {
        script.say(&format!("each byte of a file changed by {mask:02x}"));
        script.frame(HEADER_BYTES, mask, 0, file.len());
    }
    for mask in [0x01, 0x02, 0x20, 0x40, 0x80, 0xFF] {
        script.say(&format!("each byte of preamble and region changed by {mask:02x}, and sealed"));
        script.frame(HEADER_BYTES_SEALED, mask, 0, region_end);
        script.say(&format!("each byte of the trailer changed by {mask:02x}, and sealed"));
        script.frame(HEADER_BYTES_SEALED, mask, file.len() - 64, file.len());
    }
    script.say("each shorter length of the file");
    script.frame(HEADER_LENGTHS, 0, 0, file.len());
    script.say("each length of a file that is filled up with zeros");
    script.load(&[file, vec![0; 200]].concat());
    script.frame(HEADER_LENGTHS, 0, 0, 65_536);
}

/// A header that can break each rule: N = 5, M = 2; after one index a field of two bytes.
pub fn breakable() -> Plan {
    Plan { priorities: vec![0], fields: encoded(&[(0x0030, vec![0, 0])]), flags: 0x80, ..plan(18, 4, 2) }
}

/// A breach of each check of that header, in a file of so many bytes.
pub fn breaches(length: usize) -> Vec<Breach> {
    let trailer = length - 64;
    vec![
        breach(11, &[Byte(0, 0)], &[]),
        breach(12, &[Byte(6, 2)], &[]),
        // sealed first: there is no region of this length to seal
        breach(13, &[], &[Four(at::H, 330)]),
        breach(10, &[], &[Cut(length - 1)]),
        // a size above 2^40, whatever the rest is
        breach(14, &[Four(at::SIZE + 4, 257)], &[]),
        breach(15, &[Four(at::S, 4098), Four(at::N, 1)], &[]),
        // an erasure identifier without recovery blocks
        breach(16, &[Four(at::M, 0)], &[]),
        breach(17, &[Byte(at::ERASURE, 2)], &[]),
        breach(18, &[Byte(at::COMPRESSION, 1)], &[]),
        breach(19, &[Byte(at::FLAGS, 0x81)], &[]),
        breach(20, &[Four(at::LIST, 5)], &[]),
        breach(21, &[Byte(at::LIST + 6, 3)], &[]),
        breach(22, &[], &[Byte(trailer + 4, 1)]),
        breach(23, &[], &[Byte(trailer + 8, 0x5A), Byte(trailer + 9, 0xA5)]),
    ]
}

pub fn header_order(script: &mut Script) {
    let file = breakable().file_around(&[]);
    script.say("two checks of a header broken at once, each with each");
    script.load(&file);
    pairs(&breaches(file.len()), |title, before, after| {
        script.say(title);
        script.break_header(before, after);
        script.read();
        script.restore();
    });
    script.say("under 12 bytes and another magic");
    script.edit(&[Byte(0, 0), Cut(11)]);
    script.read();
    script.restore();
}
