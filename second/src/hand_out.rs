//! What is given back of a session: the whole content, rebuilt in turns and then released, or one block of it.
use crate::blake3::hash;
use crate::code::decode;
use crate::container::{must, Head};
use crate::note::{is_lent_right, HELD};
use crate::work::Work;

/// How many numbers are lent to what rebuilds.
const NUMBERS: usize = 1024;

/// A session's memory, as it is lent for reading.
pub struct Lent<'a> {
    pub head: &'a Head,
    pub store: &'a [u8],
    pub marks: &'a [u8],
}

impl Lent<'_> {
    fn is_right(&self) -> bool {
        is_lent_right(self.head, self.store, self.marks)
    }

    fn held(&self) -> Vec<Option<Vec<u8>>> {
        let blocks = self.store.chunks(self.head.s as usize).zip(self.marks);
        blocks.map(|(block, &mark)| (mark == HELD).then(|| block.to_vec())).collect()
    }

    /// The data blocks, or 50.
    fn data(&self) -> Result<Vec<Vec<u8>>, u8> {
        decode(self.head.n as usize, self.head.m as usize, &self.held()).ok_or(50)
    }

    /// The data indices that are not held.
    fn missing(&self) -> Vec<usize> {
        (0..self.head.n as usize).filter(|&index| self.marks[index] != HELD).collect()
    }

    fn columns_left(&self, work: &Work) -> u64 {
        if self.missing().is_empty() {
            0
        } else {
            self.head.s / 2 - work.finished
        }
    }

    /// Finishes as many more word columns as the budget allows, and gives how many. All blocks are decoded as a whole, and
    /// those columns of the missing ones are put over what scratch has there.
    pub fn turn(&self, work: &mut Work, numbers: &mut [u16], budget: u64) -> Result<u64, u8> {
        must(self.is_right() && work.is_right(self.head) && numbers.len() == NUMBERS, 71)?;
        let data = self.data()?;
        let count = budget.min(self.columns_left(work));
        let bytes = 2 * work.finished as usize..2 * (work.finished + count) as usize;
        for (place, index) in work.scratch.chunks_mut(self.head.s as usize).zip(self.missing()) {
            place[bytes.clone()].copy_from_slice(&data[index][bytes.clone()]);
        }
        work.finished += count;
        numbers.fill(0);
        Ok(count)
    }

    /// The content as it is joined: what is held, and for what is missing the blocks of scratch, whatever they have.
    fn joined(&self, scratch: &[u8]) -> Vec<u8> {
        let mut places = scratch.chunks(self.head.s as usize);
        let mut next = || places.next().expect("no more blocks are missing than recovery ones are held").to_vec();
        let block = |held: Option<Vec<u8>>| held.unwrap_or_else(&mut next);
        let mut content: Vec<u8> = self.held().into_iter().take(self.head.n as usize).flat_map(block).collect();
        content.truncate(self.head.size as usize);
        content
    }

    /// The content, for an output of so many bytes. Once its hash is judged the rebuild is over.
    pub fn release(&self, work: &mut Work, room: usize) -> Result<Vec<u8>, u8> {
        must(self.is_right() && work.is_right(self.head), 71)?;
        must(self.head.size <= room as u64, 52)?;
        must(self.marks.iter().filter(|&&mark| mark == HELD).count() as u64 >= self.head.n, 50)?;
        must(self.columns_left(work) == 0, 54)?;
        let content = self.joined(&work.scratch);
        work.restart();
        must(hash(&content)[..] == self.head.hash, 51)?;
        Ok(content)
    }

    /// A data block, for an output of so many bytes.
    pub fn block(&self, number: u64, scratch: &mut [u8], numbers: &mut [u16], room: usize) -> Result<Vec<u8>, u8> {
        let is_scratch_right = scratch.len() as u64 == self.head.m * self.head.s && numbers.len() == NUMBERS;
        must(self.is_right() && is_scratch_right, 71)?;
        must(number < self.head.n, 53)?;
        must(self.head.s <= room as u64, 52)?;
        scratch.fill(0);
        numbers.fill(0);
        match self.held().swap_remove(number as usize) {
            Some(block) => Ok(block),
            None => Ok(self.data()?.swap_remove(number as usize)),
        }
    }
}
