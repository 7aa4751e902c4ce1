//! The frames of a case as a script, and the files and changes that cases are made of.
use crate::probe::*;
use crate::writer::Plan;

/// "/CHK" as a number.
pub const END_MARKER: usize = 0x4B48_432F;

/// A change of the file at hand.
#[derive(Clone, Copy)]
pub enum Edit {
    Byte(usize, u8),
    Two(usize, usize),
    Four(usize, usize),
    Cut(usize),
}
pub use Edit::*;

#[derive(Default)]
pub struct Script(pub Vec<u8>);

impl Script {
    pub fn frame(&mut self, opcode: u8, small: u8, a: usize, b: usize) {
        self.0.extend([opcode, small]);
        self.0.extend((a as u32).to_le_bytes());
        self.0.extend((b as u32).to_le_bytes());
    }

    pub fn say(&mut self, title: &str) {
        self.frame(SAY, 0, title.len(), 0);
        self.0.extend(title.as_bytes());
    }

    pub fn load(&mut self, file: &[u8]) {
        self.frame(LOAD, 0, file.len(), 0);
        self.0.extend(file);
    }

    /// A file that is zeros but for few numbers.
    pub fn load_sparse(&mut self, file: &[u8]) {
        self.load(&[]);
        self.frame(GROW, 0, file.len(), 0);
        for (place, bytes) in file.chunks(4).enumerate() {
            let value = bytes.iter().rev().fold(0, |high, &byte| high << 8 | usize::from(byte));
            if value != 0 {
                self.frame(SET_32, 0, 4 * place, value);
            }
        }
        self.frame(KEEP, 0, 0, 0);
    }

    pub fn edit(&mut self, edits: &[Edit]) {
        for &edit in edits {
            match edit {
                Byte(at, value) => self.frame(SET_BYTE, value, at, 0),
                Two(at, value) => self.frame(SET_16, 0, at, value),
                Four(at, value) => self.frame(SET_32, 0, at, value),
                Cut(length) => self.frame(CUT, 0, length, 0),
            }
        }
    }

    pub fn seal(&mut self) {
        self.frame(SEAL_HEADER, 0, 0, 0);
    }

    pub fn read(&mut self) {
        self.frame(READ_HEADER, 0, 0, 0);
    }

    pub fn restore(&mut self) {
        self.frame(RESTORE, 0, 0, 0);
    }

    /// Breaks a check of the header: changes before the seal, and after it.
    pub fn break_header(&mut self, before: &[Edit], after: &[Edit]) {
        self.edit(before);
        self.seal();
        self.edit(after);
    }

    /// Breaks a check of the chunk at a place in the same way.
    pub fn break_chunk(&mut self, at: usize, before: &[Edit], after: &[Edit]) {
        self.edit(before);
        self.frame(SEAL_CHUNK, 0, at, 0);
        self.edit(after);
    }

    /// A header that is changed and sealed again.
    pub fn header(&mut self, title: &str, edits: &[Edit]) {
        self.say(title);
        self.edit(edits);
        self.seal();
        self.read();
        self.restore();
    }

    /// A file that is loaded as it is.
    pub fn file(&mut self, title: &str, file: &[u8]) {
        self.say(title);
        self.load(file);
        self.read();
    }

    /// A part that is checked as a chunk, and measured.
    pub fn check(&mut self, at: usize, length: usize) {
        self.frame(CHECK_CHUNK, 0, at, length);
        self.frame(MEASURE_CHUNK, 0, at, length);
    }

    /// The chunk at a place that is changed, sealed again, and changed once more.
    pub fn chunk(&mut self, title: &str, (at, length): (usize, usize), edits: &[Edit], after: &[Edit]) {
        self.say(title);
        self.break_chunk(at, edits, after);
        self.check(at, length);
        self.restore();
    }
}

pub fn text(length: usize) -> Vec<u8> {
    (0..length).map(|i| (i * 37 % 251 + 1) as u8).collect()
}

/// A plan of `size` bytes; everything else is the same in each.
pub fn plan(size: usize, s: u32, m: u32) -> Plan {
    Plan {
        content: text(size),
        s,
        m,
        uuid: std::array::from_fn(|i| i as u8),
        time: 0x0123_4567_89AB,
        format: 0x0011,
        name: b"pass.bin".to_vec(),
        ..Plan::default()
    }
}

/// Where the chunks of a written file begin, and how long each is.
pub fn places(plan: &Plan) -> Vec<(usize, usize)> {
    let mut at = 8 + plan.region().len();
    let mut place = |chunk: Vec<u8>| {
        at += chunk.len();
        (at - chunk.len(), chunk.len())
    };
    plan.chunks().into_iter().map(&mut place).collect()
}

/// A breach of one check: changes before the seal, and after it.
pub struct Breach {
    pub number: u8,
    pub before: Vec<Edit>,
    pub after: Vec<Edit>,
}

pub fn breach(number: u8, before: &[Edit], after: &[Edit]) -> Breach {
    Breach { number, before: before.to_vec(), after: after.to_vec() }
}

/// Each pair of checks broken at once.
pub fn pairs(breaches: &[Breach], mut run: impl FnMut(&str, &[Edit], &[Edit])) {
    for (i, first) in breaches.iter().enumerate() {
        for second in &breaches[i..] {
            let title = format!("{} and {}", first.number, second.number);
            let before = [&first.before[..], &second.before].concat();
            let after = [&first.after[..], &second.after].concat();
            run(&title, &before, &after);
        }
    }
}
