//! The rebuild that a session carries from turn to turn: scratch, and how many word columns are finished in it.
use crate::container::Head;

pub struct Work {
    pub scratch: Vec<u8>,
    pub finished: u64,
}

impl Work {
    /// Nothing is finished in scratch of so many zeros.
    pub fn blank(length: usize) -> Work {
        Work { scratch: vec![0; length], finished: 0 }
    }

    /// Whether scratch has a place for each recovery block, and no more columns are finished than a block has.
    pub fn is_right(&self, head: &Head) -> bool {
        self.scratch.len() as u64 == head.m * head.s && 2 * self.finished <= head.s
    }

    pub fn restart(&mut self) {
        self.scratch.fill(0);
        self.finished = 0;
    }
}
