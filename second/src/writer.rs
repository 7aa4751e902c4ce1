//! The writer: a plan's region, chunks and file, and which plans are refused.
use crate::blake3::hash;
use crate::code::recovery;
use crate::container::{must, read_region, LENGTHS};

/// What a writer is given; the fields are encoded.
#[derive(Clone, Default)]
pub struct Plan {
    pub content: Vec<u8>,
    pub s: u32,
    pub m: u32,
    pub uuid: [u8; 16],
    pub time: u64,
    pub format: u16,
    pub name: Vec<u8>,
    pub flags: u16,
    pub priorities: Vec<u32>,
    pub fields: Vec<u8>,
}

/// A tag, a length and a value for each field.
pub fn encoded(fields: &[(u16, Vec<u8>)]) -> Vec<u8> {
    let one =
        |(tag, value): &(u16, Vec<u8>)| [&tag.to_le_bytes()[..], &(value.len() as u32).to_le_bytes(), value].concat();
    fields.iter().flat_map(one).collect()
}

/// The tags of encoded fields, as far as whole fields go.
fn tags(fields: &[u8]) -> Vec<u16> {
    let mut tags = Vec::new();
    let mut rest = fields;
    while let Some((start, left)) = rest.split_at_checked(6) {
        let length = u32::from_le_bytes(start[2..].try_into().unwrap());
        let Some(next) = left.get(length as usize..) else { break };
        tags.push(u16::from_le_bytes([start[0], start[1]]));
        rest = next;
    }
    tags
}

impl Plan {
    fn erasure(&self) -> u8 {
        u8::from(self.m > 0)
    }

    pub fn data_count(&self) -> usize {
        self.content.len().div_ceil(self.s as usize).max(1)
    }

    /// The data blocks, the last filled up with zeros; one block of zeros for no content.
    fn data_blocks(&self) -> Vec<Vec<u8>> {
        let mut padded = self.content.clone();
        padded.resize(self.data_count() * self.s as usize, 0);
        padded.chunks(self.s as usize).map(<[u8]>::to_vec).collect()
    }

    pub fn region(&self) -> Vec<u8> {
        let mut name = self.name.clone();
        name.resize(255, 0);
        let mut body = self.uuid.to_vec();
        body.extend((self.content.len() as u64).to_le_bytes());
        body.extend(self.format.to_le_bytes());
        body.extend(name);
        body.extend(hash(&self.content));
        for number in [self.data_count() as u32, self.m, self.s] {
            body.extend(number.to_le_bytes());
        }
        body.extend([self.erasure(), 0]);
        body.extend(self.flags.to_le_bytes());
        body.extend((self.priorities.len() as u16).to_le_bytes());
        body.extend(self.priorities.iter().flat_map(|index| index.to_le_bytes()));
        body.extend(&self.fields);
        [(body.len() as u32).to_le_bytes().to_vec(), body].concat()
    }

    pub fn chunk(&self, index: usize, kind: u32, payload: &[u8]) -> Vec<u8> {
        let mut chunk = b"CHK\0".to_vec();
        chunk.extend(self.uuid);
        for number in [index as u32, kind, payload.len() as u32] {
            chunk.extend(number.to_le_bytes());
        }
        chunk.extend([0, self.erasure()]);
        chunk.extend([0; 14]);
        chunk.extend(payload);
        let sealed = hash(&chunk);
        [&chunk[..], &sealed, b"/CHK"].concat()
    }

    /// The blocks of the file, first data, then recovery.
    pub fn blocks(&self) -> Vec<Vec<u8>> {
        let data = self.data_blocks();
        let recovery_blocks = (0..self.m as usize).map(|k| recovery(self.m as usize, k, &data));
        data.iter().cloned().chain(recovery_blocks).collect()
    }

    /// The chunks of the file, rising by index.
    pub fn chunks(&self) -> Vec<Vec<u8>> {
        let kinds = std::iter::repeat_n(1, self.data_count()).chain(std::iter::repeat(2));
        let numbered = self.blocks().into_iter().zip(kinds).enumerate();
        numbered.map(|(index, (block, kind))| self.chunk(index, kind, &block)).collect()
    }

    /// The chunks with these indices, one after the other.
    pub fn chunks_of(&self, indices: &[usize]) -> Vec<u8> {
        let chunks = self.chunks();
        indices.iter().flat_map(|&index| chunks[index].clone()).collect()
    }

    /// A file with some of its chunks, or any other bytes, between region and trailer.
    pub fn file_around(&self, middle: &[u8]) -> Vec<u8> {
        let region = self.region();
        let mut file = b"SFC\0\0\0\x01\0".to_vec();
        file.extend(&region);
        file.extend(middle);
        file.extend(b"TRLR\0\0\0\0");
        file.extend(hash(&region));
        file.extend(self.time.to_le_bytes());
        file.extend([0; 16]);
        file
    }

    pub fn file(&self) -> Vec<u8> {
        self.file_around(&self.chunks().concat())
    }

    /// 60. Past S, what outgrows its field and the name the region is made, and judged as a reader would.
    fn check(&self) -> Result<(), u8> {
        must(self.s > 0, 60)?;
        must(self.data_count() <= u32::MAX as usize && self.priorities.len() <= u16::MAX.into(), 60)?;
        must(self.name.len() <= 255 && !self.name.contains(&0), 60)?;
        let tags = tags(&self.fields);
        must(tags.iter().all(|tag| !(0x0010..=0x0012).contains(tag)), 60)?;
        must(tags.windows(2).all(|two| two[0] <= two[1]), 60)?;
        let region = self.region();
        must(LENGTHS.contains(&(region.len() as u64 - 4)), 60)?;
        read_region(&region).map(|_| ()).or(Err(60))
    }

    /// The file, for an output of so many bytes.
    pub fn write(&self, room: usize) -> Result<Vec<u8>, u8> {
        self.check()?;
        let file = self.file();
        must(file.len() <= room, 61)?;
        Ok(file)
    }
}
