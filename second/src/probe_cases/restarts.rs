//! What comes between the turns of a session: chunks of every kind, of which a fresh and a conflicting one begin the rebuild
//! again, walks over chunks, block requests, and a finished count or scratch that an offer refuses.
use super::chunks::breaches;
use super::handouts::{block, most, scratch_for};
use super::sessions::{show, Stage};
use super::turns::{release, turn};
use crate::probe::*;
use crate::script::*;

/// The size of the content here: N = 3, M = 2, S = 8, so there are four columns.
const SIZE: usize = 20;

fn stage(script: &mut Script) -> Stage {
    let plan = plan(SIZE, 8, 2);
    let stage = Stage::set(script, &plan);
    scratch_for(script, &plan);
    stage
}

/// A session with some chunks, and a turn of one column; then what comes between, shown; then turns to the end, and a release.
fn between(script: &mut Script, stage: &Stage, title: &str, held: &[usize], come: impl Fn(&mut Script)) {
    stage.begin(script, title);
    for &index in held {
        stage.offer(script, index);
    }
    turn(script, 1);
    come(script);
    show(script);
    turn(script, 2);
    turn(script, most());
    release(script, SIZE);
}

pub fn chunks_between(script: &mut Script) {
    let stage = stage(script);
    let offers: [(&str, &[usize], usize); 7] = [
        ("the missing data chunk between turns", &[0, 2, 3], 1),
        ("one of two missing data chunks", &[0, 3, 4], 1),
        ("a recovery chunk that is not needed", &[0, 2, 3], 4),
        ("a recovery chunk that takes the place of another", &[0, 2, 4], 3),
        ("a data chunk that repeats", &[0, 2, 3], 2),
        ("a recovery chunk that repeats", &[0, 2, 3], 3),
        ("a fresh chunk before enough are held", &[0, 3], 2),
    ];
    for (title, held, index) in offers {
        between(script, &stage, title, held, |script| stage.offer(script, index));
    }
    let conflicts: [(&str, &[usize], usize); 5] = [
        ("a data chunk that conflicts, and too few are left", &[0, 2, 3], 0),
        ("a data chunk that conflicts, and enough are left", &[0, 2, 3, 4], 0),
        ("a recovery chunk that conflicts, and too few are left", &[0, 2, 3], 3),
        ("a recovery chunk that conflicts, and another does", &[0, 2, 3, 4], 3),
        ("a recovery chunk that conflicts, and was not needed", &[0, 2, 3, 4], 4),
    ];
    for (title, held, index) in conflicts {
        between(script, &stage, title, held, |script| stage.offer_other(script, index, 0xEE));
    }
}

/// Chunks with a good hash and wrong content, which a release finds out, or a chunk that comes after them.
pub fn forged_between(script: &mut Script) {
    let stage = stage(script);
    between(script, &stage, "an index that becomes barred, then 42", &[0, 1, 3, 4], |script| {
        for _ in 0..2 {
            stage.offer_other(script, 1, 0xEE);
            stage.offer(script, 1);
        }
    });
    between(script, &stage, "a forged chunk before enough are held", &[0, 3], |script| {
        stage.offer_other(script, 2, 0xEE);
    });
    stage.begin(script, "a forged recovery chunk, and a lower one that makes it idle: the columns are others");
    stage.offer(script, 0);
    stage.offer(script, 2);
    stage.offer_other(script, 4, 0xEE);
    turn(script, 1);
    stage.offer(script, 3);
    show(script);
    turn(script, 4);
    release(script, SIZE);
    stage.begin(script, "an index that was barred before the turns");
    for index in [1, 0, 2, 3] {
        stage.offer(script, index);
    }
    stage.offer_other(script, 1, 0xEE);
    turn(script, 3);
    stage.offer(script, 1);
    stage.offer_other(script, 1, 0xEE);
    show(script);
    turn(script, 3);
    release(script, SIZE);
}

/// Each number from 30 to 40 at the missing chunk, and no column is lost.
pub fn refused_between(script: &mut Script) {
    let stage = stage(script);
    let (at, length) = stage.chunks[1];
    for breach in breaches(at) {
        between(script, &stage, &format!("{} between turns", breach.number), &[0, 2, 3], |script| {
            script.break_chunk(at, &breach.before, &breach.after);
            script.frame(OFFER, 0, at, length);
            script.restore();
        });
    }
    between(script, &stage, "43 between turns", &[0, 2, 3], |script| {
        script.frame(SET_TALLY, 0, 1, most());
        stage.offer(script, 1);
        stage.offer_other(script, 0, 0xEE);
    });
}

/// 71 of an offer by what stands beside the session: all of it stays, and the tallies too.
pub fn wrong_beside(script: &mut Script) {
    let stage = stage(script);
    let mut ask = |title: &str, bytes: usize, finished: usize| {
        stage.begin(script, title);
        for index in [0, 2, 3] {
            stage.offer(script, index);
        }
        script.frame(WORK, 0x33, bytes, finished);
        for index in [0, 1] {
            stage.offer_other(script, index, 0xEE);
            stage.offer(script, index);
        }
        // a chunk that is refused, or would be but for 71
        script.frame(OFFER, 0, 0, 0);
        show(script);
    };
    for finished in [0, 1, 4, 5, 6, most()] {
        ask(&format!("offers with {finished} columns finished of 4"), 16, finished);
    }
    for bytes in [15, 17, 0, 8, 24, 65_536] {
        ask(&format!("offers with a scratch of {bytes} bytes for 16"), bytes, 0);
    }
    ask("offers with both wrong", 15, 5);
    script.say("71 before 43");
    script.frame(SET_TALLY, 0, 0, most());
    stage.offer(script, 1);
}

/// 71 of an offer by the session itself, and M = 0, which has no scratch: what stands beside stays as well.
pub fn wrong_sessions(script: &mut Script) {
    let stage = stage(script);
    for (title, first_mark, store) in [("a mark above 2", 3, stage.store), ("a byte less of store", 1, stage.store - 1)]
    {
        script.say(&format!("offers with {title}: scratch and the count stay"));
        script.frame(BEGIN, first_mark, store, 5);
        script.frame(WORK, 0x33, 16, 2);
        stage.offer(script, 0);
        stage.offer(script, 1);
        show(script);
    }
    let plan = plan(SIZE, 8, 0);
    let stage = Stage::set(script, &plan);
    for (bytes, finished) in [(0, 0), (0, 4), (0, 5), (1, 0)] {
        stage.begin(script, &format!("M = 0, a scratch of {bytes} bytes, {finished} columns finished"));
        script.frame(WORK, 0x33, bytes, finished);
        stage.offer(script, 1);
        show(script);
    }
}

/// All chunks of a part are offered between turns: repeats and refused ones, then with a fresh one among them.
pub fn walks_between(script: &mut Script) {
    let stage = stage(script);
    let (first, length) = stage.chunks[0];
    let missing = stage.chunks[1].0;
    for (title, damaged, at, bytes) in [
        ("a walk over a repeat alone", false, first, length),
        ("a walk over chunks that repeat, and one that is refused", true, first, 4 * length),
        ("a walk with fresh chunks in it", false, first, 5 * length),
        ("a walk that a fresh chunk ends", true, first, 5 * length),
        ("a walk over no chunk", false, first + 1, length),
    ] {
        between(script, &stage, title, &[0, 2, 3], |script| {
            if damaged {
                script.edit(&[Byte(missing + 48, 0xEE)]);
            }
            script.frame(OFFER_CHUNKS, 0, at, bytes);
            script.restore();
        });
    }
    between(script, &stage, "a walk with five columns finished", &[0, 2, 3], |script| {
        script.frame(FINISHED, 0, 5, 0);
        script.frame(OFFER_CHUNKS, 0, first, 5 * length);
    });
}

/// A block request has scratch of its own, and whatever else is asked for leaves the rebuild alone.
pub fn requests_between(script: &mut Script) {
    let stage = stage(script);
    let asked = [(PREFIX, SIZE), (LIST_MISSING, 3), (LIST_RANGES, 6), (WRITE_NOTE, 31), (HAND_OUT, SIZE)];
    for (title, held) in [
        ("block requests and others between turns", vec![0, 2, 3]),
        ("the same with two missing", vec![2, 3, 4]),
        ("the same with too few held", vec![2, 3]),
    ] {
        between(script, &stage, title, &held, |script| {
            block(script, &[1, 0, 1, 3], 8);
            block(script, &[1], 7);
            show(script);
            for (opcode, room) in asked {
                script.frame(opcode, 0, room, 0);
            }
            script.frame(COUNT_MARKS, 0, 0, 0);
            script.frame(HAND_OUT, 0, SIZE - 1, 0);
            script.read();
        });
    }
}

/// S = 256: a payload of 512 bytes is not above 2·S, and its length differs from S in the second byte alone.
pub fn wide_blocks(script: &mut Script) {
    let plan = plan(700, 256, 1);
    let stage = Stage::set(script, &plan);
    scratch_for(script, &plan);
    let (file, long, short) = (plan.file(), plan.chunk(1, 1, &text(512)), plan.chunk(1, 1, &text(255)));
    script.load(&[&file[..], &long, &short].concat());
    stage.begin(script, "S = 256, with payloads of 512 and 255 bytes between turns");
    for index in [0, 2, 3] {
        stage.offer(script, index);
    }
    for (at, length) in [(file.len(), long.len()), (file.len() + long.len(), short.len())] {
        turn(script, 40);
        script.frame(OFFER, 0, at, length);
        show(script);
    }
    turn(script, 128);
    release(script, 700);
    show(script);
}
