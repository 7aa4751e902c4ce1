//! Frames of the rebuild that a session carries: scratch and finished columns as a caller may hand them in, a turn, a release.
use super::hand_outs::{state, state_word, SCRATCH_NUMBERS, SCRATCH_PATTERN};
use super::{lent, put, shown, Probe, PATTERN, ROOM};
use super::{FINISHED, RELEASE, SPOIL, TURN, WORK, WORK_FROM};
use crate::hand_out::Lent;
use crate::work::Work;

/// What is told of a rebuild wherever it is shown.
pub fn told(work: &Work) -> String {
    let Work { scratch, finished } = work;
    let bytes = if scratch.iter().all(|&byte| byte == 0) { "zeros".to_string() } else { shown(scratch) };
    format!("scratch {} {bytes} finished {finished}", scratch.len())
}

impl Probe {
    fn turn(&mut self, budget: usize) {
        let (store, marks) = (self.session.store(), self.session.marks());
        let mut numbers = vec![SCRATCH_PATTERN; self.single.numbers.min(SCRATCH_NUMBERS)];
        let memory = Lent { head: &self.head, store: &store, marks: &marks };
        match memory.turn(&mut self.session.work, &mut numbers, budget as u64) {
            Ok(count) => print!("did {count}"),
            Err(number) => print!("{number}"),
        }
        let numbers_word = state_word(state(&numbers, SCRATCH_PATTERN.into()));
        println!(" {} numbers {numbers_word}", told(&self.session.work));
    }

    fn release(&mut self, room: usize) {
        let (store, marks) = (self.session.store(), self.session.marks());
        let memory = Lent { head: &self.head, store: &store, marks: &marks };
        let (answer, output) = lent(memory.release(&mut self.session.work, room), room, PATTERN);
        match answer {
            Ok(end) => print!("complete {end}"),
            Err(number) => print!("{number}"),
        }
        println!(" {} {}", shown(&output), told(&self.session.work));
    }

    pub(super) fn work_frame(&mut self, opcode: u8, small: u8, a: usize, b: usize) {
        let work = &mut self.session.work;
        match opcode {
            WORK => *work = Work { scratch: vec![small; a.min(ROOM)], finished: b as u64 },
            WORK_FROM => {
                let front = &self.file[..a.min(self.file.len())];
                *work = Work { scratch: front.to_vec(), finished: b as u64 };
            }
            SPOIL => {
                let spoilt = work.scratch.get(a).map_or(0, |byte| byte ^ small);
                put(&mut work.scratch, a, &[spoilt]);
            }
            FINISHED => work.finished = a as u64,
            TURN => self.turn(a),
            RELEASE => self.release(a.min(ROOM)),
            _ => {}
        }
    }
}
