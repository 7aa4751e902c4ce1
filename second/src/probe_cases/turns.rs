//! Turns and releases: each budget, every set of marks, each finished count, scratch that was forged, memory that is wrong or
//! another, and the order of the checks.
use super::handouts::{block, held_zeros, lend, lend_session, most, noise, scratch_for, set_head, store_of};
use super::sessions::{each_head_number, set_head_numbers, show, AT_HOUSE_LIMITS};
use crate::note::HELD;
use crate::probe::*;
use crate::script::*;
use crate::writer::Plan;
use std::collections::BTreeSet;

pub fn turn(script: &mut Script, budget: usize) {
    script.frame(TURN, 0, budget, 0);
}

pub fn release(script: &mut Script, room: usize) {
    script.frame(RELEASE, 0, room, 0);
}

/// The session that the file at hand is the memory of begins again, with nothing finished.
fn again(script: &mut Script) {
    script.frame(LEND, 0, most(), 5);
}

/// The file becomes the memory of a session, which goes on with the rebuild at hand.
fn change_memory(script: &mut Script, marks: &[u8], store: &[u8]) {
    script.load(&[marks, store].concat());
    script.frame(LEND, 1, store.len(), marks.len());
}

/// Before a header is read size, N, M and S are 0, and nothing is lent.
pub fn before_a_header(script: &mut Script) {
    script.say("a turn and a release before any header");
    turn(script, 0);
    turn(script, 1);
    release(script, 0);
    script.frame(FINISHED, 0, 1, 0);
    turn(script, 1);
    release(script, 2);
    show(script);
}

/// N = 3 and M = 2, the last block a byte short.
fn three_and_two(s: usize) -> Plan {
    plan(3 * s - 1, s as u32, 2)
}

/// None, one or both of the missing blocks that M = 2 allows.
const LOSSES: [[u8; 5]; 3] = [[1, 1, 1, 0, 2], [1, 0, 1, 2, 1], [0, 1, 0, 1, 1]];

/// Turns of one budget until nothing is left, one more, and a release.
pub fn budgets(script: &mut Script) {
    for s in [2, 4, 10, 64] {
        let (plan, columns) = (three_and_two(s), s / 2);
        set_head(script, &plan);
        for (missing, marks) in LOSSES.iter().enumerate() {
            lend(script, marks, &store_of(&plan, marks));
            for budget in BTreeSet::from([0, 1, 2, 3, columns - 1, columns, columns + 1, most()]) {
                script.say(&format!("S = {s}, {missing} missing, turns of {budget}"));
                again(script);
                let turns = if budget == 0 || missing == 0 { 1 } else { columns.div_ceil(budget) };
                for _ in 0..=turns {
                    turn(script, budget);
                }
                release(script, 3 * s);
            }
        }
    }
    let plan = three_and_two(10);
    lend_session(script, "budgets that differ, and releases between them", &plan, &LOSSES[2]);
    for budget in [2, 0, 1, 3, 1] {
        release(script, 29);
        turn(script, budget);
    }
    release(script, 29);
    let plan = Plan { m: 32, ..three_and_two(4) };
    let marks = [vec![0; 3], vec![1; 32]].concat();
    lend_session(script, "only recovery blocks held, of 32", &plan, &marks);
    turn(script, 1);
    turn(script, 1);
    release(script, 12);
}

/// A hand-out of every set of marks, in one turn and in turns of some budgets: each digest is that of one turn.
pub fn every_set(script: &mut Script) {
    for (n, m, s, kinds) in [(3, 2, 8, 3), (2, 3, 10, 3), (4, 1, 6, 3), (5, 3, 8, 2), (1, 4, 12, 3), (3, 1, 8, 4)] {
        let plan = plan(n * s - 1, s as u32, m as u32);
        let (marks, sets) = (vec![HELD; n + m], usize::from(kinds).pow((n + m) as u32));
        set_head(script, &plan);
        for (title, store) in [("written", store_of(&plan, &marks)), ("of noise", noise((n + m) * s))] {
            lend(script, &marks, &store);
            script.say(&format!(
                "each set of marks below {kinds}, N = {n}, M = {m}, S = {s}, the store {title}: one turn, then turns of 1, 3, 255"
            ));
            for budget in [0, 1, 3, 255] {
                script.frame(SCRATCH, budget, m * s, 1024);
                script.frame(HAND_OUT_SETS, kinds, n * s, sets);
            }
        }
    }
}

/// Each finished count that a caller may hand in, over scratch of a pattern, for a turn and for a release.
pub fn finished_counts(script: &mut Script) {
    let plan = three_and_two(10);
    for (missing, marks) in LOSSES.iter().enumerate() {
        set_head(script, &plan);
        lend(script, marks, &store_of(&plan, marks));
        for finished in [0, 1, 2, 3, 4, 5, 6, 7, 1 << 16, most()] {
            script.say(&format!("S = 10, {missing} missing, {finished} columns finished"));
            for budget in [0, 1, most()] {
                script.frame(WORK, 0x77, 20, finished);
                turn(script, budget);
                release(script, 29);
            }
            script.frame(WORK, 0x77, 20, finished);
            release(script, 28);
            release(script, 29);
        }
    }
    lend_session(script, "a release after each turn of one column", &plan, &LOSSES[1]);
    for _ in 0..=5 {
        release(script, 29);
        turn(script, 1);
    }
    script.say("released twice, then rebuilt again, and released with nothing missing twice");
    again(script);
    turn(script, 5);
    for _ in 0..2 {
        release(script, 29);
    }
    turn(script, 5);
    release(script, 29);
    lend(script, &LOSSES[0], &store_of(&plan, &LOSSES[0]));
    for _ in 0..2 {
        release(script, 29);
    }
}

/// Scratch that is not what turns left. N = 3, M = 2, S = 4, and byte 11 of the blocks is no content.
pub fn forged_scratch(script: &mut Script) {
    let plan = three_and_two(4);
    for marks in [[1, 1, 0, 1, 0], [1, 0, 1, 0, 1], [1, 0, 0, 1, 1]] {
        lend_session(
            script,
            &format!("each byte of scratch forged after the last turn, marks {marks:?}"),
            &plan,
            &marks,
        );
        for place in 0..8 {
            again(script);
            turn(script, 2);
            script.frame(SPOIL, 0x01, place, 0);
            release(script, 11);
        }
        script.say("a byte forged twice, a byte that there is not, and a byte forged between the turns");
        for places in [[0, 0], [8, most()], [1, 8], [2, 3]] {
            again(script);
            turn(script, 1);
            for place in places {
                script.frame(SPOIL, 0x80, place, 0);
            }
            turn(script, 1);
            release(script, 11);
        }
    }
    right_scratch(script, &plan);
    let empty = Plan { content: vec![], ..plan };
    lend_session(script, "size 0, the block missing: nothing of scratch is content", &empty, &[0, 0, 1]);
    script.frame(WORK, 0xEE, 8, 2);
    release(script, 0);
    script.frame(WORK, 0xEE, 8, 1);
    release(script, 1);
}

/// Scratch that no turn made may be right.
fn right_scratch(script: &mut Script, plan: &Plan) {
    let (data, marks) = (plan.blocks(), [1, 0, 0, 1, 1]);
    lend_session(script, "the missing blocks as scratch, with each finished count", plan, &marks);
    let (right, turned) = ([&data[1][..], &data[2]].concat(), [&data[2][..], &data[1]].concat());
    for finished in 0..=3 {
        script.load(&right);
        script.frame(WORK_FROM, 0, 8, finished);
        release(script, 11);
    }
    script.say("as many bytes as there are, the blocks in the wrong order, and a front of them that a turn completes");
    script.frame(WORK_FROM, 0, most(), 2);
    release(script, 11);
    script.load(&turned);
    script.frame(WORK_FROM, 0, 8, 2);
    release(script, 11);
    let front = |block: &Vec<u8>| [&block[..2], &[0xEE; 2]].concat();
    script.load(&[front(&data[1]), front(&data[2])].concat());
    for finished in [1, 0, 2] {
        script.frame(WORK_FROM, 0, 8, finished);
        turn(script, 1);
        release(script, 11);
    }
}

/// Store and marks that are others at the next turn: no fault can be told, and the release judges what it joins.
pub fn other_memory(script: &mut Script) {
    let (plan, marks) = (three_and_two(8), [1, 0, 1, 1, 0]);
    let store = store_of(&plan, &marks);
    // a byte of block 0, and of the recovery block that is used, in a column that is finished by then and in one that is not
    for place in [1, 7, 24, 31] {
        lend_session(script, &format!("byte {place} of the store changed between turns"), &plan, &marks);
        let mut changed = store.clone();
        changed[place] ^= 0x10;
        turn(script, 2);
        change_memory(script, &marks, &changed);
        turn(script, 2);
        show(script);
        release(script, 23);
        script.say("the same, and changed back before the release");
        change_memory(script, &marks, &store);
        turn(script, 2);
        change_memory(script, &marks, &changed);
        turn(script, 2);
        change_memory(script, &marks, &store);
        release(script, 23);
    }
    let others = [[0, 1, 1, 1, 0], [1, 0, 0, 1, 1], [1, 1, 1, 0, 0], [1, 0, 1, 0, 1], [1, 0, 0, 1, 0], [1, 0, 1, 1, 3]];
    for other in others {
        lend_session(script, &format!("marks {other:?} from the second turn on"), &plan, &marks);
        turn(script, 1);
        change_memory(script, &other, &store_of(&plan, &other));
        release(script, 23);
        turn(script, 1);
        script.say("the first marks again");
        change_memory(script, &marks, &store);
        turn(script, 3);
        release(script, 23);
    }
}

/// Scratch and numbers that are too short and too long; M = 0, which has none.
pub fn wrong_memory(script: &mut Script) {
    let plan = three_and_two(4);
    lend_session(script, "right are 8 bytes of scratch and 1,024 numbers", &plan, &LOSSES[1]);
    for bytes in [8, 7, 9, 0, 4, 12, 16, 65_536] {
        script.say(&format!("a scratch of {bytes} bytes"));
        script.frame(WORK, 0x33, bytes, 0);
        turn(script, 2);
        script.frame(WORK, 0x33, bytes, 2);
        release(script, 11);
    }
    for marks in [LOSSES[1], [1, 0, 1, 0, 0], [1, 0, 1, 1, 3]] {
        lend(script, &marks, &store_of(&plan, &marks));
        for numbers in [1024, 1023, 1025, 0, 1] {
            script.say(&format!("{numbers} numbers, marks {marks:?}"));
            script.frame(SCRATCH, 0, 8, numbers);
            again(script);
            turn(script, 0);
            turn(script, 2);
            script.frame(WORK, 0x33, 8, 1);
            turn(script, 1);
        }
    }
    for marks in [[1, 1, 1], [1, 0, 1]] {
        lend_session(script, &format!("M = 0, marks {marks:?}"), &Plan { m: 0, ..plan.clone() }, &marks);
        for finished in [0, 1, 2, 3] {
            script.frame(FINISHED, 0, finished, 0);
            turn(script, 1);
            release(script, 10);
            release(script, 11);
        }
        script.frame(WORK, 0, 1, 0);
        turn(script, 1);
        release(script, 11);
    }
}

/// 71 of size, N, M and S; and the largest numbers.
pub fn wrong_numbers(script: &mut Script) {
    lend_session(script, "right are size 5, N = 3, M = 2, S = 2", &plan(5, 2, 2), &[1, 0, 1, 1, 0]);
    each_head_number(script, |script| {
        again(script);
        turn(script, 1);
        release(script, 6);
        script.frame(WORK, 0x33, 4, 1);
        turn(script, 1);
        release(script, 6);
    });
    for (size, n, m, s) in AT_HOUSE_LIMITS {
        script.say(&format!("size {size}, N = {n}, M = {m}, S = {s}, with memory to match"));
        set_head_numbers(script, [size, n, m, s]);
        held_zeros(script, (n + m) * s, n + m);
        turn(script, most());
        release(script, 4098);
        script.frame(FINISHED, 0, s / 2, 0);
        turn(script, most());
        release(script, 4098);
    }
    let (n, gone) = (1024, |index| index % 33 == 5);
    let plan = plan(2 * n - 1, 2, 32);
    let marks: Vec<u8> = (0..n + 32).map(|index| u8::from(index >= n || !gone(index))).collect();
    lend_session(script, "N = 1,024, M = 32, S = 2, every 33rd block gone", &plan, &marks);
    turn(script, 0);
    turn(script, 1);
    turn(script, 1);
    release(script, 2 * n);
}

/// What is wrong at a release, each by itself.
#[derive(Clone, Copy, PartialEq)]
enum Fault {
    Mark,
    Scratch,
    Count,
    Room,
    Few,
    Unfinished,
    Content,
}

/// A release and a turn of a session that is right but for some faults.
fn ask_with(script: &mut Script, plan: &Plan, faults: &[Fault]) {
    let has = |fault| faults.contains(&fault);
    let marks = [1, u8::from(!has(Fault::Few)), 0, 1, if has(Fault::Mark) { 3 } else { 0 }];
    let mut store = store_of(plan, &marks);
    store[0] ^= u8::from(has(Fault::Content));
    lend(script, &marks, &store);
    let (length, finished) = (if has(Fault::Scratch) { 7 } else { 8 }, if has(Fault::Unfinished) { 1 } else { 2 });
    script.load(&[&plan.blocks()[2][..], &[0x33; 4]].concat());
    script.frame(WORK_FROM, 0, length, if has(Fault::Count) { 3 } else { finished });
    turn(script, 0);
    release(script, if has(Fault::Room) { 10 } else { 11 });
}

/// All faults of a release at once, each with each and more: 71 comes first, in three ways, then 52, 50, 54, 51.
pub fn order_of_checks(script: &mut Script) {
    use Fault::*;
    let plan = three_and_two(4);
    set_head(script, &plan);
    for lent in [None, Some(Mark), Some(Scratch), Some(Count)] {
        for set in 0..16 {
            let rest = [Room, Few, Unfinished, Content];
            let others = rest.into_iter().enumerate().filter(|&(bit, _)| set >> bit & 1 == 1).map(|(_, fault)| fault);
            let faults: Vec<Fault> = lent.into_iter().chain(others).collect();
            let number = |fault: &Fault| match fault {
                Mark => "71 by a mark",
                Scratch => "71 by scratch",
                Count => "71 by the count",
                Room => "52",
                Few => "50",
                Unfinished => "54",
                Content => "51",
            };
            let numbers: Vec<&str> = faults.iter().map(number).collect();
            script.say(&format!("a turn and a release with these faults: {}", numbers.join(", ")));
            ask_with(script, &plan, &faults);
        }
    }
    script.say("nothing missing: 54 is not given, and a block request between");
    let marks = [1, 1, 1, 0, 1];
    scratch_for(script, &plan);
    lend(script, &marks, &store_of(&plan, &marks));
    script.frame(WORK, 0x33, 8, 1);
    turn(script, 1);
    block(script, &[1], 4);
    release(script, 10);
    release(script, 11);
}
