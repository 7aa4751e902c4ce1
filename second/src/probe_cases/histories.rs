//! Histories of a session: every order of a small collection, and long ones with chance in them.
use super::sessions::{show, Stage};
use crate::chance::Chance;
use crate::probe::*;
use crate::script::*;
use crate::writer::Plan;

/// All orders of the numbers below a count.
fn orders(count: usize) -> Vec<Vec<usize>> {
    if count == 0 {
        return vec![vec![]];
    }
    let with_last = |order: Vec<usize>| {
        (0..count).map(move |place| [&order[..place], &[count - 1], &order[place..]].concat()).collect::<Vec<_>>()
    };
    orders(count - 1).into_iter().flat_map(with_last).collect()
}

/// Where each part lies once all are put one after the other.
fn joined(start: usize, parts: &[Vec<u8>]) -> Vec<(usize, usize)> {
    let ends = parts.iter().scan(start, |end, part| {
        *end += part.len();
        Some(*end)
    });
    ends.zip(parts).map(|(end, part)| (end - part.len(), part.len())).collect()
}

/// The chunks of a file that has the same header but for the content's hash, so that each conflicts.
pub fn conflicting_chunks(plan: &Plan) -> Vec<Vec<u8>> {
    let content = plan.content.iter().map(|byte| byte ^ 0x5A).collect();
    Plan { content, ..plan.clone() }.chunks()
}

/// The chunks of a file with another UUID.
fn chunks_of_another_file(plan: &Plan) -> Vec<Vec<u8>> {
    Plan { uuid: [0xAA; 16], ..plan.clone() }.chunks()
}

/// A copy of one chunk, a conflicting one of another, a foreign and a damaged one.
pub fn every_order(script: &mut Script) {
    let plan = plan(9, 8, 1);
    let stage = Stage::set(script, &plan);
    let (chunks, others, foreign) = (plan.chunks(), conflicting_chunks(&plan), chunks_of_another_file(&plan));
    let mut damaged = chunks[2].clone();
    damaged[50] ^= 1;
    let collections = [
        [chunks[0].clone(), chunks[1].clone(), chunks[1].clone(), others[0].clone(), foreign[2].clone()],
        [chunks[2].clone(), others[2].clone(), chunks[2].clone(), others[2].clone(), damaged],
    ];
    for (number, collection) in collections.iter().enumerate() {
        script.say(&format!("every order of collection {number}"));
        script.load(&collection.concat());
        let parts = joined(0, collection);
        for order in orders(parts.len()) {
            script.frame(BEGIN, 0, stage.store, stage.chunks.len());
            for part in order {
                script.frame(OFFER, 0, parts[part].0, parts[part].1);
            }
            show(script);
        }
    }
}

/// Marks as a caller may hand them in: mostly lawful, and now and then one above 2.
fn marks(chance: &mut Chance, count: usize, lawful: bool) -> Vec<u8> {
    let mut marks: Vec<u8> = (0..count).map(|_| [0, 0, 0, 1, 1, 2][chance.below(6)]).collect();
    if !lawful {
        marks[chance.below(count)] = 3 + chance.below(253) as u8;
    }
    marks
}

/// Offers of all kinds, with turns, prefix, missing list, note, hand-out, a block and a release in between.
fn history(script: &mut Script, chance: &mut Chance, parts: &[(usize, usize)], offers: usize) {
    for turn in 1..=offers {
        let (at, length) = parts[chance.below(parts.len())];
        match chance.below(12) {
            0 => script.frame(OFFER, 0, at, chance.below(length)),
            1 => {
                script.edit(&[Byte(at + chance.below(length), chance.below(256) as u8)]);
                script.frame(OFFER, 0, at, length);
                script.restore();
            }
            2 => {
                script.edit(&[Byte(at + chance.below(48 + 6), chance.below(256) as u8)]);
                script.frame(SEAL_CHUNK, 0, at, 0);
                script.frame(OFFER, 0, at, length);
                script.restore();
            }
            _ => script.frame(OFFER, 0, at, length),
        }
        if turn % 3 == 0 {
            script.frame(TURN, 0, chance.below(4), 0);
        }
        if turn % 10 == 0 {
            script.frame(PREFIX, 0, 44, 0);
            script.frame(LIST_MISSING, 0, 8, 0);
            script.frame(WRITE_NOTE, 0, 55, 0);
            script.frame(HAND_OUT, 0, 44, 0);
            script.frame(BLOCK, 0, chance.below(9), 6);
            script.frame(RELEASE, 0, 44, 0);
        }
    }
    show(script);
}

pub fn long_histories(script: &mut Script) {
    let plan = plan(43, 6, 3);
    let mut chance = Chance(20_261_115);
    script.say("long histories");
    let stage = Stage::set(script, &plan);
    script.frame(SCRATCH, 0, 18, 1024);
    let (count, others) = (stage.chunks.len(), conflicting_chunks(&plan));
    let chunks =
        [plan.chunks(), plan.chunks(), others[2..4].to_vec(), chunks_of_another_file(&plan)[..2].to_vec()].concat();
    for round in 0..12 {
        let lawful = round % 4 != 3;
        let start = if round < 3 { vec![0; count] } else { marks(&mut chance, count, lawful) };
        let store = if round < 3 { vec![0; stage.store] } else { text(stage.store) };
        let memory = [start, store].concat();
        script.say(&format!("history {round}"));
        script.load(&[&memory[..], &chunks.concat()].concat());
        // two of the lengths are wrong by one
        let (bytes, number) = [(stage.store, count), (stage.store, count - 1), (stage.store - 1, count)]
            [if round < 10 { 0 } else { round - 9 }];
        script.frame(LEND, 0, bytes, number);
        let offers = if lawful && round < 10 { 50 } else { 10 };
        history(script, &mut chance, &joined(memory.len(), &chunks), offers);
    }
}
