//! Frames of damaged, reordered and forged files without end, for comparison outside the gate; the gate runs a slice of them.
use crate::chance::Chance;
use crate::probe::*;
use crate::script::{Byte, Cut, Four, Script};
use crate::writer::{encoded, Plan};
use std::io::Write;

/// How many spoilt files are made from one that was written down.
const OF_ONE: usize = 8;

/// One of several numbers.
fn pick<T: Copy>(chance: &mut Chance, choices: &[T]) -> T {
    choices[chance.below(choices.len())]
}

fn some_plan(chance: &mut Chance) -> Plan {
    let s = pick(chance, &[2, 2, 4, 6, 8, 16, 34]);
    let blocks = chance.below(7);
    let size = blocks * s as usize + chance.below(s as usize + 1);
    let name = chance.below(12);
    let length = chance.below(5);
    let tag = pick(chance, &[0x0001, 0x0013, 0x0200]);
    let fields = [(tag, chance.bytes(length)), (tag, chance.bytes(length))];
    let mut plan = Plan {
        content: chance.bytes(size),
        s,
        m: pick(chance, &[0, 1, 1, 2, 2, 3, 5]),
        uuid: std::array::from_fn(|i| (i + chance.below(2)) as u8),
        time: chance.below(1 << 20) as u64,
        format: chance.below(1 << 16) as u16,
        name: (0..name).map(|_| 1 + chance.below(255) as u8).collect(),
        flags: pick(chance, &[0, 0, 0, 0x10, 0x40, 0xFFD0]),
        priorities: vec![],
        fields: encoded(&fields[..chance.below(3)]),
    };
    if chance.below(4) == 0 {
        plan.priorities = vec![chance.below(plan.data_count()) as u32];
    }
    plan
}

/// A file as it was written down, the places of its chunks, and what it was made from.
struct Base {
    plan: Plan,
    file: Vec<u8>,
    region: usize,
    chunks: Vec<(usize, usize)>,
}

fn shuffle<T>(chance: &mut Chance, parts: &mut [T]) {
    for place in (1..parts.len()).rev() {
        parts.swap(place, chance.below(place + 1));
    }
}

/// A chunk as it was written down: mostly whole, else cut short or with bytes after it.
fn some_chunk(chance: &mut Chance, chunk: &[u8]) -> Vec<u8> {
    let mut chunk = chunk.to_vec();
    match chance.below(32) {
        0 => chunk.truncate(chance.below(chunk.len())),
        1 => {
            let length = chance.below(9);
            chunk.extend(chance.bytes(length));
        }
        _ => {}
    }
    chunk
}

/// A file whose chunks have been repeated, left out and shuffled.
fn some_base(chance: &mut Chance) -> Base {
    let plan = some_plan(chance);
    let mut chunks: Vec<Vec<u8>> = Vec::new();
    for chunk in plan.chunks() {
        for _ in 0..pick(chance, &[0, 1, 1, 1, 1, 1, 2]) {
            chunks.push(some_chunk(chance, &chunk));
        }
    }
    shuffle(chance, &mut chunks);
    let region = plan.region().len();
    let mut at = 8 + region;
    let mut place = |chunk: &Vec<u8>| {
        at += chunk.len();
        (at - chunk.len(), chunk.len())
    };
    let places = chunks.iter().map(&mut place).collect();
    Base { file: plan.file_around(&chunks.concat()), plan, region, chunks: places }
}

impl Base {
    /// Changes a bit of some bytes.
    fn flip(&self, script: &mut Script, chance: &mut Chance, part: std::ops::Range<usize>) {
        if !part.is_empty() {
            let place = part.start + chance.below(part.len());
            script.edit(&[Byte(place, self.file[place] ^ 1 << chance.below(8))]);
        }
    }

    /// Damages a chunk, or forges one: its payload, its header or its index is another, and it is sealed again.
    fn spoil_chunk(&self, script: &mut Script, chance: &mut Chance) {
        if self.chunks.is_empty() {
            return;
        }
        let (at, length) = pick(chance, &self.chunks);
        let middle = at + length.min(48);
        let kind = chance.below(4);
        match kind {
            0 => self.flip(script, chance, at..at + length),
            1 => self.flip(script, chance, middle..at + length),
            2 => self.flip(script, chance, at..middle),
            _ => script.edit(&[Four(at + 20, chance.below(self.plan.data_count()))]),
        }
        if kind > 0 {
            script.frame(SEAL_CHUNK, 0, at, 0);
        }
    }

    /// Damages the header, which may be sealed again, or the trailer, or cuts the file short.
    fn spoil_header(&self, script: &mut Script, chance: &mut Chance) {
        let length = self.file.len();
        match chance.below(5) {
            0 => self.flip(script, chance, 0..8 + self.region),
            1 => {
                self.flip(script, chance, 8..8 + self.region);
                script.seal();
            }
            2 => self.flip(script, chance, length - 64..length),
            3 => {
                // numbers and flags are the most telling
                self.flip(script, chance, 325..343);
                script.seal();
            }
            _ => script.edit(&[Cut(chance.below(length))]),
        }
    }

    /// Rebuilds some columns; now and then scratch or the count is forged, or the release comes too soon.
    fn rebuild(&self, script: &mut Script, chance: &mut Chance) {
        let (s, m) = (self.plan.s as usize, self.plan.m as usize);
        let columns = s / 2;
        match chance.below(24) {
            0 => script.frame(SPOIL, 1 + chance.below(255) as u8, chance.below(m * s + 1), 0),
            1 => script.frame(FINISHED, 0, chance.below(columns + 2), 0),
            2 => script.frame(WORK, chance.below(256) as u8, (m * s + chance.below(3)).saturating_sub(1), columns),
            3 => script.frame(RELEASE, 0, self.plan.content.len(), 0),
            _ => script.frame(TURN, 0, pick(chance, &[0, 1, 1, 2, 3, columns, u32::MAX as usize]), 0),
        }
    }

    /// Asks for all that a session gives back.
    fn ask(&self, script: &mut Script, chance: &mut Chance) {
        let (size, n) = (self.plan.content.len(), self.plan.data_count());
        script.frame(SHOW, 0, 0, 0);
        self.rebuild(script, chance);
        script.frame(PREFIX, 0, size + chance.below(3), 0);
        script.frame(LIST_MISSING, 0, 8, 0);
        script.frame(WRITE_NOTE, 0, 80, 0);
        script.frame(HAND_OUT, 0, size + chance.below(3), 0);
        script.frame(BLOCK, 0, chance.below(n + 1), self.plan.s as usize);
        self.rebuild(script, chance);
        script.frame(RELEASE, 0, (size + chance.below(8)).saturating_sub(1), 0);
    }

    /// Spoils the file, lists it, reads it, and offers its chunks in another order, with turns of a rebuild between them; then
    /// it is as it was.
    fn one_file(&self, script: &mut Script, chance: &mut Chance) {
        for _ in 0..pick(chance, &[0, 1, 1, 2, 2, 3]) {
            self.spoil_chunk(script, chance);
        }
        if chance.below(5) == 0 {
            self.spoil_header(script, chance);
        }
        script.frame(LISTING, 0, LEAST_OUTPUT, 0);
        script.read();
        let (s, m) = (self.plan.s as usize, self.plan.m as usize);
        let count = self.plan.data_count() + m;
        script.frame(BEGIN, 0, count * s, count);
        script.frame(SCRATCH, pick(chance, &[0, 0, 1, 2, 3]), m * s, 1024);
        let mut order = self.chunks.clone();
        shuffle(chance, &mut order);
        for (at, length) in order {
            script.frame(OFFER, 0, at, length);
            if chance.below(3) == 0 {
                self.rebuild(script, chance);
            }
        }
        self.ask(script, chance);
        script.restore();
    }
}

/// The frames of so many spoilt files.
fn spoilt_files(script: &mut Script, seed: u64, count: usize) {
    let mut chance = Chance(seed);
    for start in (0..count).step_by(OF_ONE) {
        let base = some_base(&mut chance);
        script.load(&base.file);
        for number in start..count.min(start + OF_ONE) {
            script.say(&format!("seed {seed} file {number}"));
            base.one_file(script, &mut chance);
        }
    }
}

/// The slice that the gate runs.
pub fn slice(script: &mut Script) {
    spoilt_files(script, 0, 256);
}

/// Writes the frames of so many files to standard output.
pub fn write(seed: u64, count: usize) {
    let mut script = Script::default();
    spoilt_files(&mut script, seed, count);
    std::io::stdout().write_all(&script.0).expect("standard output can be written");
}
