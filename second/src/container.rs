//! The container as the paper has it, for comparison: a text is taken apart from its front, field by field.
use crate::blake3::hash;
use std::collections::BTreeSet;

/// What an accepted header says. The name is cut before its first zero.
#[derive(Default)]
pub struct Head {
    pub header_length: u64,
    pub uuid: Vec<u8>,
    pub size: u64,
    pub format: u64,
    pub name: Vec<u8>,
    pub hash: Vec<u8>,
    pub n: u64,
    pub m: u64,
    pub s: u64,
    pub erasure: u64,
    pub compression: u64,
    pub flags: u64,
    pub priorities: u64,
}

/// What H may be.
pub const LENGTHS: std::ops::RangeInclusive<u64> = 331..=65_536;

/// What is left of a text that is read from its front.
struct Rest<'a>(&'a [u8]);

impl<'a> Rest<'a> {
    fn bytes(&mut self, count: u64) -> Option<&'a [u8]> {
        if (self.0.len() as u64) < count {
            return None;
        }
        let (front, rest) = self.0.split_at(count as usize);
        self.0 = rest;
        Some(front)
    }

    fn number(&mut self, width: u64) -> Option<u64> {
        let bytes = self.bytes(width)?;
        Some(bytes.iter().rev().fold(0, |high, &byte| high << 8 | u64::from(byte)))
    }
}

/// Refused with a number unless the fact holds.
pub fn must(fact: bool, number: u8) -> Result<(), u8> {
    fact.then_some(()).ok_or(number)
}

fn is_set(flags: u64, bit: u32) -> bool {
    flags >> bit & 1 == 1
}

pub fn read_header(input: &[u8]) -> Result<Head, u8> {
    let mut rest = Rest(input);
    let preamble = rest.bytes(8).ok_or(10)?;
    let mut fields = rest.0;
    let length = Rest(fields).number(4).ok_or(10)?;
    must(preamble[..4] == [0x53, 0x46, 0x43, 0x00], 11)?;
    must(preamble[4..] == [0, 0, 1, 0], 12)?;
    must(LENGTHS.contains(&length), 13)?;
    // the region is the length field and as many bytes as it says
    let region = Rest(fields).bytes(4 + length).ok_or(10)?;
    fields = &fields[region.len()..];
    let trailer = fields.len().checked_sub(64).ok_or(10)?;
    let head = read_region(region)?;
    check_trailer(region, &fields[trailer..])?;
    Ok(head)
}

/// 14 to 21, of a header region that has its fixed fields.
pub fn read_region(region: &[u8]) -> Result<Head, u8> {
    let mut rest = Rest(region);
    let head = fixed_fields(&mut rest).expect("a region has at least 335 bytes");
    check_numbers(&head)?;
    check_priorities(&head, &mut rest)?;
    check_extension(&head, &mut rest)?;
    Ok(head)
}

fn fixed_fields(rest: &mut Rest) -> Option<Head> {
    let mut head = Head {
        header_length: rest.number(4)?,
        uuid: rest.bytes(16)?.to_vec(),
        size: rest.number(8)?,
        format: rest.number(2)?,
        name: rest.bytes(255)?.to_vec(),
        hash: rest.bytes(32)?.to_vec(),
        n: rest.number(4)?,
        m: rest.number(4)?,
        s: rest.number(4)?,
        erasure: rest.number(1)?,
        compression: rest.number(1)?,
        flags: rest.number(2)?,
        priorities: rest.number(2)?,
    };
    if let Some(end) = head.name.iter().position(|&byte| byte == 0) {
        head.name.truncate(end);
    }
    Some(head)
}

/// 14 and 15.
fn check_shape(head: &Head) -> Result<(), u8> {
    let &Head { size, n, m, s, .. } = head;
    must((2..=268_435_456).contains(&s) && s % 2 == 0, 14)?;
    must((1..=65_534).contains(&n) && m <= 65_534 && n + m <= 65_535, 14)?;
    must(size <= 1 << 40 && n == size.div_ceil(s).max(1), 14)?;
    must(n <= 1024 && m <= 32 && s <= 4096, 15)
}

/// Whether size, N, M and S pass 14 and 15.
pub fn is_shape_lawful(head: &Head) -> bool {
    check_shape(head).is_ok()
}

/// 14 to 19.
fn check_numbers(head: &Head) -> Result<(), u8> {
    let &Head { m, erasure, compression, flags, .. } = head;
    check_shape(head)?;
    must((m == 0) == (erasure == 0), 16)?;
    must(matches!(erasure, 0 | 1), 17)?;
    must(compression == 0, 18)?;
    must(![0, 1, 2, 3, 5].into_iter().any(|bit| is_set(flags, bit)), 19)
}

/// 20.
fn check_priorities(head: &Head, rest: &mut Rest) -> Result<(), u8> {
    let list: Option<Vec<u64>> = (0..head.priorities).map(|_| rest.number(4)).collect();
    let list = list.ok_or(20)?;
    let different: BTreeSet<u64> = list.iter().copied().collect();
    must(head.priorities <= head.n, 20)?;
    must(different.len() == list.len(), 20)?;
    must(different.last().is_none_or(|&greatest| greatest < head.n), 20)
}

/// 21. Fields come in any order; a tag that has no rule is skipped each time that it comes.
fn check_extension(head: &Head, rest: &mut Rest) -> Result<(), u8> {
    let mut met = BTreeSet::new();
    while !rest.0.is_empty() {
        let tag = rest.number(2).ok_or(21)?;
        let length = rest.number(4).ok_or(21)?;
        rest.bytes(length).ok_or(21)?;
        must(length <= 16_384, 21)?;
        let lawful = match tag {
            0x0020 => length == 8 * (head.n + head.m) && is_set(head.flags, 6),
            0x0030 => length == 2 && is_set(head.flags, 7),
            0x0100..=0x0104 => (1..=4096).contains(&length),
            _ => continue,
        };
        must(lawful && met.insert(tag), 21)?;
    }
    Ok(())
}

/// The place in the input where the value of the first field with this tag begins, and its length; or the header's number.
pub fn find_field(input: &[u8], wanted: u64) -> Result<Option<(usize, u64)>, u8> {
    let head = read_header(input)?;
    Ok(field_before(12 + head.header_length as usize, input, wanted))
}

/// That place, where the region ends at another.
fn field_before(region_end: usize, input: &[u8], wanted: u64) -> Option<(usize, u64)> {
    let mut rest = Rest(&input[8..region_end]);
    let priorities = fixed_fields(&mut rest)?.priorities;
    rest.bytes(4 * priorities)?;
    loop {
        let (tag, length) = (rest.number(2)?, rest.number(4)?);
        let place = region_end - rest.0.len();
        rest.bytes(length)?;
        if tag == wanted {
            return Some((place, length));
        }
    }
}

/// 22 and 23.
fn check_trailer(region: &[u8], trailer: &[u8]) -> Result<(), u8> {
    let mut rest = Rest(trailer);
    let mut next = |count| rest.bytes(count).expect("a trailer has 64 bytes");
    let (word, zeros, hashed, _time, more_zeros) = (next(4), next(4), next(32), next(8), next(16));
    must(word == b"TRLR" && zeros == [0; 4] && more_zeros == [0; 16], 22)?;
    must(hashed == hash(region), 23)
}

/// Why a chunk is refused: the number, and the place of the byte where the chunk broke, counted from its first.
#[derive(Clone, Copy, PartialEq, Debug)]
pub struct Refusal {
    pub number: u8,
    pub place: Option<usize>,
}

impl Refusal {
    pub fn at(number: u8, place: usize) -> Refusal {
        Refusal { number, place: Some(place) }
    }

    /// What is wrong is in no byte of the chunk.
    pub fn nowhere(number: u8) -> Refusal {
        Refusal { number, place: None }
    }
}

/// Some bytes of a chunk, and the place where they begin.
struct Field<'a> {
    bytes: &'a [u8],
    place: usize,
}

impl Field<'_> {
    fn number(&self) -> u64 {
        Rest(self.bytes).number(self.bytes.len() as u64).expect("a field is there as a whole")
    }

    /// Of a range no byte is the wrong one, so the refusal is at the front of the field.
    fn must(&self, fact: bool, number: u8) -> Result<(), Refusal> {
        fact.then_some(()).ok_or(Refusal::at(number, self.place))
    }

    /// Of bytes that can be right in one way only, the refusal is at the first that is not.
    fn must_be(&self, right: &[u8], number: u8) -> Result<(), Refusal> {
        match self.bytes.iter().zip(right).position(|(byte, right)| byte != right) {
            Some(count) => Err(Refusal::at(number, self.place + count)),
            None => Ok(()),
        }
    }
}

/// Where the index stands in a chunk.
pub const INDEX_PLACE: usize = 20;

/// The index and the payload of a whole chunk; bytes after it are not looked at.
pub fn check_chunk<'a>(head: &Head, input: &'a [u8]) -> Result<(u64, &'a [u8]), Refusal> {
    must(is_shape_lawful(head), 71).map_err(Refusal::nowhere)?;
    let mut rest = Rest(input);
    let mut next = |width| {
        let place = input.len() - rest.0.len();
        let bytes = rest.bytes(width).ok_or(Refusal::at(30, input.len()))?;
        Ok(Field { bytes, place })
    };
    // all of the chunk's header must be there before a field of it is judged
    let (magic, uuid, index, kind, length) = (next(4)?, next(16)?, next(4)?, next(4)?, next(4)?);
    let (identifiers, reserved) = (next(2)?, next(14)?);
    magic.must_be(&[0x43, 0x48, 0x4B, 0x00], 31)?;
    length.must(length.number() <= 2 * head.s, 32)?;
    let (payload, sealed, marker) = (next(length.number())?, next(32)?, next(4)?);
    sealed.must(sealed.bytes == hash(&input[..sealed.place]), 33)?;
    marker.must_be(b"/CHK", 34)?;
    uuid.must_be(&head.uuid, 35)?;
    index.must(index.number() < head.n + head.m, 36)?;
    let suited: u32 = if index.number() < head.n { 1 } else { 2 };
    kind.must_be(&suited.to_le_bytes(), 37)?;
    reserved.must_be(&[0; 14], 38)?;
    identifiers.must_be(&[head.compression as u8, head.erasure as u8], 39)?;
    length.must_be(&(head.s as u32).to_le_bytes(), 40)?;
    Ok((index.number(), payload.bytes))
}

/// How many bytes the chunk at the front takes up, whatever else is wrong with it.
pub fn measure_chunk(head: &Head, input: &[u8]) -> Result<usize, Refusal> {
    match check_chunk(head, input) {
        Err(refusal) if matches!(refusal.number, 71 | 30..=32) => Err(refusal),
        _ => Ok(84 + input[28..32].iter().rev().fold(0, |high, &byte| high << 8 | usize::from(byte))),
    }
}
