//! Walks over the chunks of a file: whole ones, none, damage that is stepped over and that ends the walk, copies, wrong memory,
//! heads that no header has; and what is measured with such a head.
use super::chunks::breaches;
use super::sessions::{each_head_number, set_head_numbers, Stage, AT_HOUSE_LIMITS};
use crate::probe::*;
use crate::script::*;
use crate::writer::Plan;

/// As many bytes as any file has.
const ALL: usize = 65_536;

fn walk(script: &mut Script, at: usize) {
    script.frame(OFFER_CHUNKS, 0, at, ALL);
}

/// A new session of a plan, and a walk over bytes that come in place of its chunks.
fn walked(script: &mut Script, title: &str, plan: &Plan, chunks: &[u8]) {
    script.say(title);
    script.load(&plan.file_around(chunks));
    script.read();
    let blocks = plan.chunks().len();
    script.frame(BEGIN, 0, blocks * plan.s as usize, blocks);
    script.frame(OFFER_CHUNKS, 0, 8 + plan.region().len(), chunks.len());
}

pub fn whole_files(script: &mut Script) {
    for (title, plan) in [
        ("a walk over a whole file", plan(14, 4, 1)),
        ("no recovery", plan(14, 4, 0)),
        ("size 0", plan(0, 2, 0)),
        ("one data block and 32 for recovery", plan(2, 2, 32)),
        ("another UUID", Plan { uuid: [0xFF; 16], ..plan(14, 4, 1) }),
        ("S = 4,096", plan(4097, 4096, 1)),
    ] {
        walked(script, title, &plan, &plan.chunks().concat());
    }
    let plan = plan(14, 4, 1);
    let mut chunks = plan.chunks();
    walked(script, "no chunk", &plan, &[]);
    walked(script, "the last chunk alone", &plan, &chunks[4]);
    walked(script, "the same twice", &plan, &chunks[4].repeat(2));
    chunks.reverse();
    walked(script, "from the last to the first", &plan, &chunks.concat());
    script.say("the walk once more");
    let start = 8 + plan.region().len();
    script.frame(OFFER_CHUNKS, 0, start, 5 * 88);
    script.say("into the trailer, from the second chunk on, from the header, and from the file's end");
    for at in [start, start + 88, start + 1, 0, ALL] {
        walk(script, at);
    }
    script.say("before a chunk's end");
    for length in [0, 1, 47, 48, 87, 88, 89, 175, 176] {
        script.frame(OFFER_CHUNKS, 0, start, length);
    }
}

/// A chunk at the front, in the middle and at the end, damaged in each way that a check finds.
pub fn damaged_chunks(script: &mut Script) {
    let stage = Stage::set(script, &plan(20, 8, 2));
    let start = stage.chunks[0].0;
    for place in [0, 1, 4] {
        let (at, _) = stage.chunks[place];
        for breach in breaches(at) {
            stage.begin(script, &format!("a walk with {} at chunk {place}", breach.number));
            script.break_chunk(at, &breach.before, &breach.after);
            walk(script, start);
            script.frame(MEASURE_CHUNK, 0, at, ALL);
            script.restore();
        }
    }
    let (at, _) = stage.chunks[3];
    for length in [0, 7, 9, 16, 17, 1000] {
        stage.begin(script, &format!("chunk 3 with length {length}"));
        script.edit(&[Four(at + 28, length)]);
        walk(script, start);
        script.restore();
    }
}

/// Bytes between chunks, payloads of other lengths that are sealed, and copies that differ.
pub fn other_chunks(script: &mut Script) {
    let plan = plan(11, 4, 1);
    let whole = plan.chunks();
    for length in [0, 3, 5, 8, 9] {
        let odd = plan.chunk(1, 1, &text(length));
        let chunks = [&whole[0][..], &odd, &whole[1], &whole[2]].concat();
        walked(script, &format!("a walk with a chunk of {length} bytes after the first"), &plan, &chunks);
    }
    walked(script, "a byte between two chunks", &plan, &[&whole[0][..], &[0], &whole[1]].concat());
    let other = plan.chunk(1, 1, &text(5)[1..]);
    let orders: [(&str, &[&Vec<u8>]); 3] = [
        ("copies that differ", &[&whole[1], &other, &whole[0]]),
        ("copies after a conflict", &[&whole[1], &other, &whole[1], &other, &whole[2]]),
        ("a copy that is the same", &[&whole[1], &whole[1], &whole[3], &whole[3]]),
    ];
    for (title, order) in orders {
        let chunks: Vec<u8> = order.iter().flat_map(|chunk| chunk.to_vec()).collect();
        walked(script, title, &plan, &chunks);
    }
}

/// 71 and 43 of an offer end no walk; a head of no lawful numbers does.
pub fn wrong_sessions(script: &mut Script) {
    let stage = Stage::set(script, &plan(5, 2, 2));
    let (start, length) = stage.chunks[0];
    for (store, marks) in [(10, 5), (9, 5), (11, 5), (10, 4), (10, 6), (0, 0)] {
        script.say(&format!("a walk with a store of {store} bytes and {marks} marks"));
        script.frame(BEGIN, 0, store, marks);
        walk(script, start);
    }
    for first_mark in [1, 2, 3] {
        script.say(&format!("mark 0 is {first_mark}"));
        script.frame(BEGIN, first_mark, 10, 5);
        walk(script, start);
    }
    stage.begin(script, "room for two more offers, and for none");
    script.frame(SET_TALLY, 0, 4, u32::MAX as usize - 2);
    walk(script, start);
    walk(script, start);
    script.say("a head that no header has: size 5, N = 3, M = 2 and S = 2 are right");
    each_head_number(script, |script| {
        script.frame(BEGIN, 0, 10, 5);
        walk(script, start);
        script.frame(MEASURE_CHUNK, 0, start, length);
        script.frame(CHECK_CHUNK, 0, start, length);
    });
    for (size, n, m, s) in AT_HOUSE_LIMITS {
        script.say(&format!("size {size}, N = {n}, M = {m}, S = {s}"));
        set_head_numbers(script, [size, n, m, s]);
        script.frame(BEGIN, 0, (n + m) * s, n + m);
        walk(script, start);
        script.frame(MEASURE_CHUNK, 0, start, length);
    }
}
