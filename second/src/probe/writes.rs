//! The frame that writes a file from inputs that stand in the file at hand.
use super::{lent, number, shown, Probe, PATTERN, ROOM};
use crate::writer::Plan;

/// The most indices of a priority list.
const INDICES: usize = 2_048;

/// Takes as many bytes off the front as there are.
fn take<'a>(rest: &mut &'a [u8], count: usize) -> &'a [u8] {
    let (front, left) = rest.split_at(count.min(rest.len()));
    *rest = left;
    front
}

/// Inputs in the order of frame.rt: first the numbers, then name, list, fields and content. Numbers past the end are zeros.
fn plan_of(file: &[u8]) -> Plan {
    let mut start = file[..file.len().min(44)].to_vec();
    start.resize(44, 0);
    let mut rest = &file[file.len().min(44)..];
    let name = take(&mut rest, number(&start[36..38]));
    let list = take(&mut rest, 4 * number(&start[38..40]));
    let fields = take(&mut rest, number(&start[40..44]));
    Plan {
        s: number(&start[..4]) as u32,
        m: number(&start[4..8]) as u32,
        uuid: start[8..24].try_into().unwrap(),
        time: number(&start[24..32]) as u64,
        format: number(&start[32..34]) as u16,
        flags: number(&start[34..36]) as u16,
        name: name.to_vec(),
        priorities: list.chunks_exact(4).take(INDICES).map(|four| number(four) as u32).collect(),
        fields: fields.to_vec(),
        content: rest.to_vec(),
    }
}

impl Probe {
    /// Writes into an output of so many bytes; a file that was written becomes the file at hand.
    pub(super) fn write(&mut self, room: usize) {
        let written = plan_of(&self.file).write(room.min(ROOM));
        let (answer, output) = lent(written.clone(), room.min(ROOM), PATTERN);
        match answer {
            Ok(length) => print!("written {length}"),
            Err(number) => print!("{number}"),
        }
        println!(" {}", shown(&output));
        self.file = written.unwrap_or(std::mem::take(&mut self.file));
    }
}
