//! Frames that ask for the content, by turns and a release, or for a block. Output and scratch have a pattern before.
use super::{lent, shown, Probe, PATTERN, ROOM};
use crate::blake3::{hash, hex};
use crate::hand_out::Lent;
use crate::work::Work;

/// The most numbers that are lent as scratch, and what each has before a call.
pub const SCRATCH_NUMBERS: usize = 1_025;
pub const SCRATCH_PATTERN: u16 = 0xA5A5;
/// The most sets of marks that one frame tries, and the most bytes that each of them may give.
const SETS: usize = 256;
const SWEPT: usize = 4_096;
/// What the bytes of blocks that are not held are changed by.
const NOT_HELD: u8 = 0x5A;

/// How many bytes and numbers are lent as scratch for one answer, and the budget of a hand-out's turns: with 0 there is one
/// turn, for all columns.
#[derive(Default)]
pub struct Single {
    pub bytes: usize,
    pub numbers: usize,
    pub budget: u8,
}

/// What is asked for.
#[derive(Clone, Copy)]
pub enum Call {
    HandOut,
    Block(usize),
}

/// What was answered in the end, how many turns rebuilt anything, and what is left of the lent memory.
struct Told {
    answer: Result<(u64, u64), u8>,
    turns: usize,
    output: Vec<u8>,
    bytes: usize,
    finished: u64,
    numbers: usize,
}

/// What became of parts that had a pattern: 0 where all are zeros, 1 where all are as they were.
pub fn state<T: Copy + Into<u64>>(parts: &[T], pattern: u64) -> usize {
    let all = |value| parts.iter().all(|&part| part.into() == value);
    [all(0), all(pattern)].iter().position(|&holds| holds).unwrap_or(2)
}

pub fn state_word(state: usize) -> &'static str {
    ["zeros", "kept", "mixed"][state]
}

impl Told {
    fn print(&self, call: Call) {
        match (call, self.answer) {
            (_, Err(number)) => print!("{number}"),
            (Call::HandOut, Ok((_, end))) => print!("complete {end}"),
            (Call::Block(_), Ok((block, place))) => print!("unverified {block} {place}"),
        }
        print!(" {} scratch {} numbers {}", shown(&self.output), state_word(self.bytes), state_word(self.numbers));
        match call {
            Call::HandOut => println!(" finished {} turns {}", self.finished, self.turns),
            Call::Block(_) => println!(),
        }
    }

    /// The digest of this and all before it. It does not have the turns, so that it is the same for each budget.
    fn digest(&self, before: [u8; 32]) -> [u8; 32] {
        let (block, place) = self.answer.unwrap_or((0, 0));
        let number = self.answer.err().map_or(0, u64::from) | (self.bytes << 8 | self.numbers << 16) as u64;
        let numbers = [number | self.finished << 24, block, place].map(u64::to_le_bytes).concat();
        hash(&[&before[..], &numbers, &hash(&self.output)].concat())
    }
}

impl Probe {
    /// Turns until one is refused or finds nothing left, and how many did anything.
    fn turns(&self, memory: &Lent, work: &mut Work, numbers: &mut [u16]) -> usize {
        let (budget, most) = match self.single.budget {
            0 => (self.head.s / 2, 1),
            budget => (budget.into(), usize::MAX),
        };
        let did = std::iter::from_fn(|| memory.turn(work, numbers, budget).ok().filter(|&count| count > 0));
        did.take(most).count()
    }

    fn call(&self, call: Call, store: &[u8], marks: &[u8], room: usize) -> Told {
        let Single { bytes, numbers, .. } = self.single;
        let mut work = Work { scratch: vec![PATTERN; bytes.min(ROOM)], finished: 0 };
        let mut numbers = vec![SCRATCH_PATTERN; numbers.min(SCRATCH_NUMBERS)];
        let memory = Lent { head: &self.head, store, marks };
        let (turns, given, told) = match call {
            Call::HandOut => {
                let turns = self.turns(&memory, &mut work, &mut numbers);
                (turns, memory.release(&mut work, room), (0, self.head.size))
            }
            Call::Block(number) => {
                let block = number as u64;
                let given = memory.block(block, &mut work.scratch, &mut numbers, room);
                (0, given, (block, block.wrapping_mul(self.head.s)))
            }
        };
        let (answer, output) = lent(given, room, PATTERN);
        Told {
            answer: answer.map(|_| told),
            turns,
            output,
            bytes: state(&work.scratch, PATTERN.into()),
            finished: work.finished,
            numbers: state(&numbers, SCRATCH_PATTERN.into()),
        }
    }

    /// On the session at hand.
    pub(super) fn ask_for(&self, call: Call, room: usize) {
        self.call(call, &self.session.store(), &self.session.marks(), room.min(ROOM)).print(call);
    }

    /// The same for each of the first sets of marks, which are the digits of the set's number, the lowest first.
    pub(super) fn ask_sets(&self, call: Call, base: u8, count: usize, room: usize) {
        let width = self.head.s as usize;
        let (store, base) = (self.session.store(), usize::from(base.max(1)));
        let (mut given, mut digest) = (0, [0; 32]);
        for set in 0..count.min(SETS) {
            let digit = |rest: &mut usize| {
                let mark = *rest % base;
                *rest /= base;
                Some(mark as u8)
            };
            let marks: Vec<u8> =
                std::iter::repeat(()).take(self.session.marks().len()).scan(set, |rest, ()| digit(rest)).collect();
            let seen = |(place, &byte): (usize, &u8)| {
                let held = width == 0 || marks.get(place / width) == Some(&1);
                byte ^ if held { 0 } else { NOT_HELD }
            };
            let seen_store: Vec<u8> = store.iter().enumerate().map(seen).collect();
            let told = self.call(call, &seen_store, &marks, room.min(SWEPT));
            given += usize::from(told.answer.is_ok());
            digest = told.digest(digest);
        }
        println!("sets {} given {given} {}", count.min(SETS), hex(&digest));
    }
}
