//! What a session knows, from its marks alone: the prefix, the missing list, and the resend note both ways.
use crate::container::{is_shape_lawful, must, Head};

pub const HELD: u8 = 1;
pub const BARRED: u8 = 2;

/// Whether the numbers pass 14 and 15, and there is a mark of at most 2 for each block.
fn are_marks_right(head: &Head, marks: &[u8]) -> bool {
    is_shape_lawful(head) && marks.len() as u64 == head.n + head.m && marks.iter().max() <= Some(&2)
}

/// Whether the marks are right, and the store has a place for each block.
pub fn is_lent_right(head: &Head, store: &[u8], marks: &[u8]) -> bool {
    are_marks_right(head, marks) && store.len() as u64 == (head.n + head.m) * head.s
}

/// The data blocks before the first that is not held: how many, and their bytes up to the size.
pub fn prefix(head: &Head, store: &[u8], marks: &[u8]) -> Result<(usize, Vec<u8>), u8> {
    if !is_lent_right(head, store, marks) {
        return Err(71);
    }
    let data = store.chunks(head.s as usize).zip(marks).take(head.n as usize);
    let held: Vec<&[u8]> = data.take_while(|&(_, &mark)| mark == HELD).map(|(block, _)| block).collect();
    Ok((held.len(), held.iter().copied().flatten().copied().take(head.size as usize).collect()))
}

/// How many marks say held, and how many barred.
pub fn counts(head: &Head, marks: &[u8]) -> Result<(usize, usize), u8> {
    must(are_marks_right(head, marks), 71)?;
    let count = |wanted: u8| marks.iter().filter(|&&mark| mark == wanted).count();
    Ok((count(HELD), count(BARRED)))
}

/// The data indices that are not held, and none where enough blocks of either kind are.
pub fn missing(head: &Head, marks: &[u8]) -> Result<Vec<u32>, u8> {
    if !are_marks_right(head, marks) {
        return Err(71);
    }
    let (held, unheld): (Vec<u32>, Vec<u32>) = (0..marks.len() as u32).partition(|&i| marks[i as usize] == HELD);
    let open = (held.len() as u64) < head.n;
    Ok(unheld.into_iter().filter(|&index| open && u64::from(index) < head.n).collect())
}

/// The ranges that rising indices make.
pub fn ranges(indices: &[u32]) -> Vec<(u32, u32)> {
    let runs = indices.chunk_by(|&index, &next| index + 1 == next);
    runs.map(|run| (run[0], run[run.len() - 1])).collect()
}

/// The bytes of a note.
pub fn note(uuid: &[u8], ranges: &[(u32, u32)]) -> Vec<u8> {
    let pairs = ranges.iter().flat_map(|&(first, last)| [first.to_be_bytes(), last.to_be_bytes()]).flatten();
    let body: Vec<u8> =
        [1].into_iter().chain(uuid.iter().copied()).chain((ranges.len() as u16).to_be_bytes()).chain(pairs).collect();
    [&(body.len() as u32).to_be_bytes()[..], &body].concat()
}

/// The maximal ranges that cover the same indices as some pairs do.
fn maximal(pairs: &[(u32, u32)]) -> Vec<(u32, u32)> {
    let mut sorted: Vec<(u32, u32)> = pairs.iter().copied().filter(|(first, last)| first <= last).collect();
    sorted.sort();
    let mut joined: Vec<(u32, u32)> = Vec::new();
    for (first, last) in sorted {
        match joined.last_mut().filter(|before| u64::from(first) <= u64::from(before.1) + 1) {
            Some(before) => before.1 = before.1.max(last),
            None => joined.push((first, last)),
        }
    }
    joined
}

/// The UUID and the pairs of a note. What the bytes seem to say is written down again in the one way that a note has, and
/// must come out the same.
pub fn read_note(bytes: &[u8]) -> Result<(Vec<u8>, Vec<(u32, u32)>), u8> {
    let uuid = bytes.get(5..21).ok_or(70)?;
    let numbers: Vec<u32> = bytes
        .get(23..)
        .ok_or(70)?
        .chunks_exact(4)
        .map(|four| four.iter().fold(0, |high, &byte| high << 8 | u32::from(byte)))
        .collect();
    let pairs: Vec<(u32, u32)> = numbers.chunks_exact(2).map(|pair| (pair[0], pair[1])).collect();
    let again = note(uuid, &maximal(&pairs));
    (again == bytes).then(|| (uuid.to_vec(), pairs)).ok_or(70)
}
