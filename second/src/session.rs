//! A session as what each index has met: no payload, one, or payloads that differ.
use crate::container::{check_chunk, measure_chunk, Head, Refusal, INDEX_PLACE};
use crate::note::is_lent_right;
use crate::work::Work;
use std::collections::{BTreeMap, BTreeSet};

/// The sum of the tallies at which no further offer is counted.
const FULL: u64 = 4_294_967_295;

/// The store and the marks as they were lent, what has been offered, and the rebuild as it stands.
/// Tallies: fresh, repeat, and the refusals by 30 to 42.
pub struct Session {
    lent_store: Vec<u8>,
    lent_marks: Vec<u8>,
    met: BTreeMap<u64, BTreeSet<Vec<u8>>>,
    pub tallies: [u64; 15],
    pub work: Work,
}

/// An accepted offer: whether it was fresh, and its index.
pub struct Offered {
    pub fresh: bool,
    pub index: u64,
}

impl Session {
    /// A held index has met its block of the lent store, and a barred one two payloads that no chunk has.
    pub fn new(head: &Head, lent_store: Vec<u8>, lent_marks: Vec<u8>, work: Work) -> Session {
        let width = head.s as usize;
        let payloads = |(index, mark): (usize, &u8)| match mark {
            1 => {
                let block = lent_store.get(index * width..(index + 1) * width).unwrap_or_default();
                Some((index as u64, BTreeSet::from([block.to_vec()])))
            }
            2 => Some((index as u64, BTreeSet::from([vec![], vec![0]]))),
            _ => None,
        };
        let met = lent_marks.iter().enumerate().filter_map(payloads).collect();
        Session { lent_store, lent_marks, met, tallies: [0; 15], work }
    }

    pub fn offer(&mut self, head: &Head, chunk: &[u8]) -> Result<Offered, Refusal> {
        if !is_lent_right(head, &self.lent_store, &self.lent_marks) || !self.work.is_right(head) {
            return Err(Refusal::nowhere(71));
        }
        if self.tallies.iter().sum::<u64>() >= FULL {
            return Err(Refusal::nowhere(43));
        }
        let marks_before = self.marks();
        let verdict = self.meet(head, chunk);
        let tally = match &verdict {
            Ok(offered) => usize::from(!offered.fresh),
            Err(refusal) => usize::from(refusal.number - 28),
        };
        self.tallies[tally] += 1;
        // what was rebuilt was rebuilt from other marks
        if self.marks() != marks_before {
            self.work.restart();
        }
        verdict
    }

    /// Offers the chunks of some bytes one after the other, and gives the place of the first byte that belongs to none.
    /// Each refusal is told with the place where its chunk begins, and ends nothing.
    pub fn offer_chunks(&mut self, head: &Head, bytes: &[u8], mut tell: impl FnMut(usize, Refusal)) -> usize {
        let mut start = 0;
        while let Ok(length) = measure_chunk(head, &bytes[start..]) {
            if let Err(refusal) = self.offer(head, &bytes[start..start + length]) {
                tell(start, refusal);
            }
            start += length;
        }
        start
    }

    fn meet(&mut self, head: &Head, chunk: &[u8]) -> Result<Offered, Refusal> {
        let (index, payload) = check_chunk(head, chunk)?;
        let payloads = self.met.entry(index).or_default();
        if payloads.len() > 1 {
            return Err(Refusal::at(42, INDEX_PLACE));
        }
        let fresh = payloads.is_empty();
        let new = payloads.insert(payload.to_vec());
        if new && !fresh {
            let at = index as usize * payload.len();
            self.lent_store[at..at + payload.len()].fill(0);
            return Err(Refusal::at(41, INDEX_PLACE));
        }
        Ok(Offered { fresh, index })
    }

    pub fn marks(&self) -> Vec<u8> {
        let met = |index| self.met.get(&index).map_or(0, |payloads| payloads.len().min(2) as u8);
        let mark = |(index, &lent): (usize, &u8)| if lent > 2 { lent } else { met(index as u64) };
        self.lent_marks.iter().enumerate().map(mark).collect()
    }

    /// The held payloads, each from its index times its length on; elsewhere what was lent, or the zeros of a conflict.
    pub fn store(&self) -> Vec<u8> {
        let mut store = self.lent_store.clone();
        let held = self.met.iter().filter(|(_, payloads)| payloads.len() == 1);
        for (&index, payloads) in held {
            let payload = payloads.first().expect("one payload is held");
            let at = index as usize * payload.len();
            if let Some(block) = store.get_mut(at..at + payload.len()) {
                block.copy_from_slice(payload);
            }
        }
        store
    }
}
