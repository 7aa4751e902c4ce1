//! Chunks: each field at its bounds, damage in every byte, and the order of the checks.
use crate::probe::*;
use crate::script::*;
use crate::writer::Plan;

/// Places of a chunk's fields, counted from its first byte.
mod in_chunk {
    pub const UUID: usize = 4;
    pub const INDEX: usize = 20;
    pub const KIND: usize = 24;
    pub const LENGTH: usize = 28;
    pub const COMPRESSION: usize = 32;
    pub const ERASURE: usize = 33;
    pub const RESERVED: usize = 34;
}

/// Before any header is read, chunks are held to one of zeros: an empty payload is the most that it takes, and no session fits.
pub fn before_a_header(script: &mut Script) {
    script.say("a chunk before any header, and an offer");
    let plan = Plan { uuid: [0; 16], ..plan(2, 2, 0) };
    script.load(&plan.file());
    let (at, _) = places(&plan)[0];
    script.check(at, 90);
    script.edit(&[Four(at + in_chunk::LENGTH, 0), Four(at + 80, END_MARKER)]);
    script.frame(SEAL_CHUNK, 0, at, 0);
    script.check(at, 90);
    script.frame(CHUNK_BYTES, 0x01, at, 90);
    script.frame(CHUNK_LENGTHS, 0, at, 90);
    script.frame(BEGIN, 0, 0, 0);
    script.frame(OFFER, 0, at, 90);
}

pub fn damaged_chunks(script: &mut Script) {
    let plan = plan(14, 4, 1);
    script.load(&plan.file());
    script.read();
    for (title, place) in [("data", 1), ("recovery", 4)] {
        let (at, length) = places(&plan)[place];
        for mask in [0x01, 0x02, 0x04, 0x80, 0xFF] {
            script.say(&format!("each byte of a {title} chunk changed by {mask:02x}"));
            script.frame(CHUNK_BYTES, mask, at, length);
            script.say("the same, sealed");
            script.frame(CHUNK_BYTES_SEALED, mask, at, length);
            script.say("the same, sealed, with the next bytes of the file behind it");
            script.frame(CHUNK_BYTES_SEALED, mask, at, length + 12);
        }
        script.say(&format!("D.11 each shorter length of a {title} chunk"));
        script.frame(CHUNK_LENGTHS, 0, at, length);
        script.say("each length of it with bytes behind");
        script.frame(CHUNK_LENGTHS, 0, at, length + 64);
    }
}

/// Each byte that is in no payload and no hash wrong, and with it each byte of the chunk in turn: of two in one field the
/// first is told, and of two fields the one that is checked first.
pub fn two_wrong_bytes(script: &mut Script) {
    let plan = plan(14, 4, 1);
    let file = plan.file();
    script.load(&file);
    script.read();
    let (at, length) = places(&plan)[1];
    for place in (0..48).chain(84..88) {
        script.say(&format!("byte {place} of a chunk changed, and sealed: each length of it, and each byte as well"));
        script.break_chunk(at, &[Byte(at + place, file[at + place] ^ 0x01)], &[]);
        script.frame(CHUNK_LENGTHS, 0, at, length + 2);
        script.frame(CHUNK_BYTES_SEALED, 0x40, at, length);
        script.restore();
    }
}

pub fn chunk_fields(script: &mut Script) {
    // N = 3, M = 2, S = 8
    let plan = plan(20, 8, 2);
    script.load(&plan.file());
    script.read();
    let (at, length) = places(&plan)[1];
    let most = u32::MAX as usize;
    indices_and_types(script, (at, length));
    let payloads = [0, 1, 6, 7, 8, 9, 10, 15, 16, 17, 18, 264, 65_544, 200_000, most - 83, most];
    payload_lengths(script, (at, 300), &payloads);
    single_bytes(script, (at, length));
}

/// S whose first byte is zero: of a payload length the first byte may be right and the second wrong.
pub fn wide_lengths(script: &mut Script) {
    let lengths = [(256, [0, 1, 255, 256, 257, 511, 512, 513]), (4096, [0, 16, 256, 4095, 4096, 4097, 8192, 8193])];
    for (s, payloads) in lengths {
        let plan = plan(0, s, 0);
        script.say(&format!("S = {s}"));
        script.load_sparse(&plan.file());
        script.read();
        let (at, length) = places(&plan)[0];
        script.frame(CHUNK_LENGTHS, 0, at, length);
        let longest = 84 + 2 * s as usize;
        script.frame(GROW, 0, longest, 0);
        script.frame(KEEP, 0, 0, 0);
        payload_lengths(script, (at, longest), &payloads);
    }
}

fn indices_and_types(script: &mut Script, whole: (usize, usize)) {
    let (at, _) = whole;
    let edits = |index, kind| [Four(at + in_chunk::INDEX, index), Four(at + in_chunk::KIND, kind)];
    for index in [0, 1, 2, 3, 4, 5, 6, 256, 65_536, 1 << 24, u32::MAX as usize] {
        for kind in [0, 1, 2, 3, 257, 1 << 24] {
            let case = match (index, kind) {
                (5, 2) => "D.18 ",
                (1, 3) => "D.22 ",
                _ => "",
            };
            let title = format!("{case}index {index} with type {kind}");
            script.chunk(&title, whole, &edits(index, kind), &[]);
        }
    }
    // the first byte is right, and a later one is not
    for (index, kind) in [(1, 65_537), (1, (1 << 24) + 1), (3, 258), (3, 65_538), (3, (1 << 24) + 2)] {
        script.chunk(&format!("index {index} with type {kind}"), whole, &edits(index, kind), &[]);
    }
}

/// The chunk at the front of some bytes with other payload lengths.
fn payload_lengths(script: &mut Script, (at, length): (usize, usize), payloads: &[usize]) {
    for &payload in payloads {
        let length_field = Four(at + in_chunk::LENGTH, payload);
        let marker = Four(at + 80 + payload, END_MARKER);
        let case = if payload == 17 { "D.68 " } else { "" };
        script.chunk(&format!("{case}payload length {payload}"), (at, length), &[length_field], &[marker]);
        script.chunk("the same without an end marker there", (at, length), &[length_field], &[]);
        script.chunk("the same with a byte too few", (at, 83 + payload), &[length_field], &[marker]);
    }
}

fn single_bytes(script: &mut Script, whole: (usize, usize)) {
    let (at, _) = whole;
    for identifier in [1, 2, 0x80, 0xFF] {
        let edit = Byte(at + in_chunk::COMPRESSION, identifier);
        script.chunk(&format!("D.33 compression identifier {identifier}"), whole, &[edit], &[]);
    }
    for identifier in [0, 2, 0x80, 0xFF] {
        let edit = Byte(at + in_chunk::ERASURE, identifier);
        script.chunk(&format!("erasure identifier {identifier}"), whole, &[edit], &[]);
    }
    script.chunk("identifiers exchanged", whole, &[Two(at + in_chunk::COMPRESSION, 0x0001)], &[]);
    script.chunk("D.9 the last reserved byte", whole, &[Byte(at + 47, 1)], &[]);
    script.chunk("D.5 another UUID", whole, &[Byte(at + in_chunk::UUID + 15, 0x1F)], &[]);
    script.chunk("D.67 no end marker", whole, &[], &[Four(at + 88, END_MARKER + 1)]);
    script.chunk("D.4 another payload without its hash", whole, &[], &[Byte(at + 48, 0xEE)]);
    script.chunk("another payload with its hash", whole, &[Byte(at + 48, 0xEE)], &[]);
}

/// A breach of each check of the chunk at a place, which has eight bytes of payload, N = 3 and M = 2.
pub fn breaches(at: usize) -> Vec<Breach> {
    // too short even for six bytes of payload
    let short = Cut(at + 89);
    vec![
        breach(31, &[Byte(at, 0)], &[]),
        // sealed first: there are too few bytes to seal
        breach(32, &[], &[Four(at + in_chunk::LENGTH, 17)]),
        breach(30, &[], &[short]),
        breach(33, &[], &[Byte(at + 56, 0x5A), Byte(at + 57, 0xA5)]),
        breach(34, &[], &[Byte(at + 88, 0)]),
        breach(35, &[Byte(at + in_chunk::UUID, 9)], &[]),
        breach(36, &[Four(at + in_chunk::INDEX, 5)], &[]),
        breach(37, &[Four(at + in_chunk::KIND, 3)], &[]),
        breach(38, &[Byte(at + in_chunk::RESERVED, 1)], &[]),
        breach(39, &[Byte(at + in_chunk::ERASURE, 0)], &[]),
        // six bytes of payload, and an end marker after their hash
        breach(40, &[Four(at + in_chunk::LENGTH, 6), Four(at + 86, END_MARKER)], &[]),
    ]
}

/// A chunk of such a plan for each number from 33 to 40, which breaks that check and no other; its index is 1.
pub fn refused_chunks(plan: &Plan) -> Vec<Vec<u8>> {
    let broken = |breach: Breach| {
        let mut script = Script::default();
        script.load(&plan.chunks()[1]);
        script.break_chunk(0, &breach.before, &breach.after);
        let mut chunk = file_left(script.0);
        // six bytes of payload leave two after the end marker
        chunk.truncate(if breach.number == 40 { 90 } else { 92 });
        chunk
    };
    breaches(0).into_iter().filter(|breach| breach.number >= 33).map(broken).collect()
}

pub fn chunk_order(script: &mut Script) {
    let plan = plan(20, 8, 2);
    script.say("two checks of a chunk broken at once, each with each");
    script.load(&plan.file());
    script.read();
    let (at, _) = places(&plan)[1];
    pairs(&breaches(at), |title, before, after| script.chunk(title, (at, 92), before, after));
    script.say("under 48 bytes and another magic");
    script.edit(&[Byte(at, 0), Cut(at + 47)]);
    script.check(at, 92);
    script.restore();
}

/// A head with other identifiers or another UUID than its file's, held to chunks that have its own and to chunks that have not.
pub fn other_heads(script: &mut Script) {
    let plan = plan(20, 8, 2);
    script.load(&plan.file());
    let whole @ (at, length) = places(&plan)[1];
    let mut numbers = vec![];
    for value in [0, 1, 2, 0x80, 0xFF] {
        numbers.push((4, value, 0, Byte(at + in_chunk::ERASURE, value as u8)));
        numbers.push((5, value, 0, Byte(at + in_chunk::COMPRESSION, value as u8)));
    }
    for place in [0, 7, 15, 16] {
        numbers.push((6, place, 0xAA, Byte(at + in_chunk::UUID + place, 0xAA)));
    }
    for (which, a, b, edit) in numbers {
        script.say(&format!("a head with number {which} at {a}, {b}"));
        script.read();
        script.frame(SET_HEAD, which, a, b);
        script.check(at, length);
        script.chunk("a chunk with the same", whole, &[edit], &[]);
        script.frame(BEGIN, 0, 40, 5);
        script.frame(OFFER_CHUNKS, 0, places(&plan)[0].0, 5 * length);
        script.frame(WRITE_NOTE, 0, 31, 0);
    }
}
