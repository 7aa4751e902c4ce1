//! Sessions: fresh chunks, copies and conflicts, every refusal, lent memory, tallies, and offers in several orders.
use super::chunks::breaches;
use crate::probe::*;
use crate::script::*;
use crate::writer::Plan;

/// A session of a plan: the places of its chunks, and the memory that it wants.
pub struct Stage {
    pub chunks: Vec<(usize, usize)>,
    pub store: usize,
}

impl Stage {
    /// Loads the file and reads its header.
    pub fn set(script: &mut Script, plan: &Plan) -> Stage {
        script.load(&plan.file());
        script.read();
        let chunks = places(plan);
        let store = chunks.len() * plan.s as usize;
        Stage { chunks, store }
    }

    pub fn begin(&self, script: &mut Script, title: &str) {
        self.begin_with(script, title, 0);
    }

    fn begin_with(&self, script: &mut Script, title: &str, first_mark: u8) {
        script.say(title);
        script.frame(BEGIN, first_mark, self.store, self.chunks.len());
    }

    pub fn offer(&self, script: &mut Script, index: usize) {
        let (at, length) = self.chunks[index];
        script.frame(OFFER, 0, at, length);
    }

    /// Offers a chunk with another byte of payload under its old hash; the file is then as it was.
    pub fn offer_unsealed(&self, script: &mut Script, index: usize, byte: u8) {
        let (at, length) = self.chunks[index];
        script.edit(&[Byte(at + 48, byte)]);
        script.frame(OFFER, 0, at, length);
        script.restore();
    }

    /// Offers a chunk with another byte of payload, and seals it; the file is then as it was.
    pub fn offer_other(&self, script: &mut Script, index: usize, byte: u8) {
        let (at, length) = self.chunks[index];
        script.edit(&[Byte(at + 48, byte)]);
        script.frame(SEAL_CHUNK, 0, at, 0);
        script.frame(OFFER, 0, at, length);
        script.restore();
    }
}

pub fn show(script: &mut Script) {
    script.frame(SHOW, 0, 0, 0);
}

/// Size, N, M and S of the head at hand, which are 5, 3, 2 and 2, each by itself at its bounds and around them.
pub fn each_head_number(script: &mut Script, ask: impl Fn(&mut Script)) {
    let most = u32::MAX as usize;
    let numbers = [
        ("size", 5, vec![0, 4, 5, 6, 7, most]),
        ("N", 3, vec![0, 2, 3, 4, 1025, 65_535, most]),
        ("M", 2, vec![0, 1, 2, 3, 33, 65_534, most]),
        ("S", 2, vec![0, 1, 2, 3, 4, 4098, 268_435_456, most]),
    ];
    for (which, (name, right, values)) in (0..).zip(numbers) {
        for value in values {
            script.say(&format!("{name} {value}"));
            script.frame(SET_HEAD, which, value, 0);
            ask(script);
        }
        script.frame(SET_HEAD, which, right, 0);
    }
}

/// Size, N, M and S at the house limits and above them.
pub const AT_HOUSE_LIMITS: [(usize, usize, usize, usize); 5] =
    [(2050, 1025, 0, 2), (2, 1, 33, 2), (4098, 1, 0, 4098), (4096, 1, 0, 4096), (2, 1, 32, 2)];

/// Sets size, N, M and S of the head at hand.
pub fn set_head_numbers(script: &mut Script, numbers: [usize; 4]) {
    for (which, value) in (0..).zip(numbers) {
        script.frame(SET_HEAD, which, value, 0);
    }
}

pub fn offers_and_copies(script: &mut Script) {
    let stage = Stage::set(script, &plan(14, 4, 1));
    stage.begin(script, "D.6 each chunk, and each again");
    show(script);
    for index in [0, 1, 2, 3, 4, 0, 4, 2, 1, 3] {
        stage.offer(script, index);
    }
    show(script);
    stage.begin(script, "the chunks from the last to the first");
    for index in (0..5).rev() {
        stage.offer(script, index);
        show(script);
    }
    stage.begin(script, "D.7 a copy with a wrong hash before and behind the right one");
    for byte in [0xEE, 0xEF] {
        stage.offer_unsealed(script, 0, byte);
        stage.offer(script, 0);
    }
    show(script);
    stage.begin(script, "D.8, D.19, D.23 two copies that differ, then each of them again");
    for index in [0, 1, 4] {
        stage.offer(script, index);
    }
    stage.offer_other(script, 0, 0xEE);
    show(script);
    stage.offer(script, 0);
    stage.offer_other(script, 0, 0xEE);
    stage.offer_other(script, 0, 0xEF);
    stage.offer(script, 1);
    show(script);
    stage.begin(script, "two copies that differ, the first of them again, and two of another index");
    for index in [0, 1] {
        stage.offer(script, index);
        stage.offer_other(script, index, 0xEE);
        stage.offer(script, index);
    }
    show(script);
    stage.begin(script, "a recovery chunk's copies differ in one byte");
    stage.offer_other(script, 4, 0x01);
    stage.offer(script, 4);
    show(script);
}

pub fn every_refusal(script: &mut Script) {
    let stage = Stage::set(script, &plan(20, 8, 2));
    stage.begin(script, "each number from 30 to 40 once");
    stage.offer(script, 2);
    let (at, length) = stage.chunks[1];
    for breach in breaches(at) {
        script.break_chunk(at, &breach.before, &breach.after);
        script.frame(OFFER, 0, at, length);
        script.restore();
    }
    show(script);
    script.say("41 and 42 once, and bytes behind a chunk");
    stage.offer_other(script, 2, 0xEE);
    stage.offer(script, 2);
    script.frame(OFFER, 0, at, 65_536);
    show(script);
}

pub fn lent_memory(script: &mut Script) {
    let stage = Stage::set(script, &plan(14, 4, 1));
    let memory = [(20, 5), (19, 5), (21, 5), (0, 5), (16, 5), (20, 4), (20, 6), (20, 0), (0, 0), (65_536, 4096)];
    for (store, marks) in memory {
        script.say(&format!("a store of {store} bytes and {marks} marks"));
        script.frame(BEGIN, 0, store, marks);
        stage.offer(script, 4);
        show(script);
    }
    for first_mark in [0, 1, 2, 3, 128, 255] {
        stage.begin_with(script, &format!("mark 0 is {first_mark}"), first_mark);
        stage.offer(script, 0);
        stage.offer(script, 1);
        show(script);
    }
    let zeros = Plan { content: vec![0; 14], ..plan(14, 4, 1) };
    let stage = Stage::set(script, &zeros);
    stage.begin_with(script, "a held block of zeros meets a block of zeros", 1);
    stage.offer(script, 0);
    stage.offer(script, 1);
    show(script);
}

pub fn full_tallies(script: &mut Script) {
    let stage = Stage::set(script, &plan(14, 4, 1));
    let most = u32::MAX as usize;
    let fillings: [(&str, &[(usize, usize)]); 8] = [
        ("room for one more offer", &[(0, most - 1)]),
        ("room for two, in several tallies", &[(1, most / 2), (14, most / 2 - 1)]),
        ("no room, in one tally", &[(2, most)]),
        ("no room, in several tallies", &[(0, 1), (1, 1), (2, most - 3), (14, 1)]),
        ("more than fits a number", &[(0, most), (1, most), (13, most)]),
        ("a sum that wraps at 32 bits", &[(0, most), (1, 1)]),
        (
            "several tallies full",
            &[(2, most), (3, most), (4, most), (5, most), (6, most), (7, most), (8, most), (9, most)],
        ),
        ("a tally that there is not", &[(15, most), (most, most)]),
    ];
    for (title, tallies) in fillings {
        stage.begin(script, title);
        for &(tally, count) in tallies {
            script.frame(SET_TALLY, 0, tally, count);
        }
        for index in [3, 3, 1] {
            stage.offer(script, index);
        }
        show(script);
    }
    script.say("71 before 43, and 43 before 30");
    script.frame(BEGIN, 0, 19, 5);
    script.frame(SET_TALLY, 0, 0, most);
    stage.offer(script, 0);
    script.frame(BEGIN, 0, 20, 5);
    script.frame(SET_TALLY, 0, 0, most);
    script.frame(OFFER, 0, 0, 0);
    show(script);
}

/// One collection in several orders: two copies of a chunk, two that differ, one cut short, one of another file.
pub fn any_order(script: &mut Script) {
    let stage = Stage::set(script, &plan(9, 8, 2));
    let collection = 7;
    for (start, stride) in [(0, 1), (6, 6), (3, 2), (1, 3), (5, 4), (2, 5)] {
        stage.begin(script, &format!("a collection from its offer {start} on in steps of {stride}"));
        for turn in 0..collection {
            match (start + turn * stride) % collection {
                index @ 0..=2 => stage.offer(script, index),
                3 => stage.offer(script, 1),
                4 => stage.offer_other(script, 2, 0xEE),
                5 => script.frame(OFFER, 0, stage.chunks[3].0, 91),
                _ => {
                    let (at, length) = stage.chunks[3];
                    script.edit(&[Byte(at + 4, 0xAA)]);
                    script.frame(SEAL_CHUNK, 0, at, 0);
                    script.frame(OFFER, 0, at, length);
                    script.restore();
                }
            }
        }
        show(script);
    }
}
