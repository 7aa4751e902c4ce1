//! Hand-outs and block requests: every withheld set of small files, the greatest losses, stores that fit no list, lent
//! memory, and the order of the checks.
use super::headers::at;
use super::sessions::{each_head_number, set_head_numbers, show, Stage, AT_HOUSE_LIMITS};
use super::turns::{release, turn};
use crate::note::HELD;
use crate::probe::*;
use crate::script::*;
use crate::writer::Plan;

/// How many numbers of scratch are right.
const NUMBERS: usize = 1024;

pub fn most() -> usize {
    u32::MAX as usize
}

fn hand_out(script: &mut Script, rooms: &[usize]) {
    for &room in rooms {
        script.frame(HAND_OUT, 0, room, 0);
    }
}

pub fn block(script: &mut Script, numbers: &[usize], room: usize) {
    for &number in numbers {
        script.frame(BLOCK, 0, number, room);
    }
}

pub fn scratch_for(script: &mut Script, plan: &Plan) {
    script.frame(SCRATCH, 0, (plan.m * plan.s) as usize, NUMBERS);
}

/// Keeps the head of a plan, and lends scratch for it.
pub fn set_head(script: &mut Script, plan: &Plan) {
    script.load(&plan.file_around(&[]));
    script.read();
    scratch_for(script, plan);
}

/// Memory for the head at hand, from the marks and the blocks.
pub fn lend(script: &mut Script, marks: &[u8], store: &[u8]) {
    script.load(&[marks, store].concat());
    script.frame(LEND, 0, store.len(), marks.len());
}

/// The blocks one after the other, those not held with other bytes in their place.
pub fn store_of(plan: &Plan, marks: &[u8]) -> Vec<u8> {
    let blocks = plan.blocks().into_iter().zip(marks);
    let other = |byte: &u8| byte ^ 0x5A;
    blocks.flat_map(|(block, &mark)| if mark == HELD { block } else { block.iter().map(other).collect() }).collect()
}

/// A session of a plan with these marks.
pub fn lend_session(script: &mut Script, title: &str, plan: &Plan, marks: &[u8]) {
    script.say(title);
    set_head(script, plan);
    lend(script, marks, &store_of(plan, marks));
}

/// Before a header is read size, N, M and S are 0, and nothing is lent.
pub fn before_a_header(script: &mut Script) {
    script.say("hand-out and block request before any header");
    hand_out(script, &[0, 3]);
    block(script, &[0, 1], 2);
    script.frame(HAND_OUT_SETS, 2, 2, 2);
    script.frame(BLOCK_SETS, 2, 0, 2);
    script.frame(BLOCK_SETS, 0, 0, 1);
}

/// Sessions that begin with no block: what the hand-out says after each offer.
pub fn offered_sessions(script: &mut Script) {
    let stage = Stage::set(script, &Plan { content: vec![0x42], ..plan(0, 2, 0) });
    stage.begin(script, "D.1, D.4 one byte, with a wrong hash and with the right one");
    script.frame(SCRATCH, 0, 0, NUMBERS);
    hand_out(script, &[1]);
    stage.offer_unsealed(script, 0, 0x43);
    hand_out(script, &[1]);
    stage.offer(script, 0);
    hand_out(script, &[0, 1, 2]);
    let two = plan(13, 8, 0);
    let stage = Stage::set(script, &two);
    scratch_for(script, &two);
    stage.begin(script, "D.6, D.7 a repeat, and a copy with a wrong hash");
    stage.offer(script, 0);
    stage.offer(script, 0);
    stage.offer_unsealed(script, 0, 0xEE);
    hand_out(script, &[13]);
    stage.offer(script, 1);
    hand_out(script, &[13]);
    conflicts(script);
    let four = plan(14, 4, 2);
    let stage = Stage::set(script, &four);
    scratch_for(script, &four);
    for order in [[5, 4, 3, 2, 1, 0], [0, 1, 2, 3, 4, 5], [4, 0, 5, 2, 1, 3]] {
        stage.begin(script, &format!("N = 4, M = 2, offered in the order {order:?}"));
        for index in order {
            stage.offer(script, index);
            hand_out(script, &[14]);
            block(script, &[0, 3], 4);
        }
        show(script);
    }
}

/// Copies that differ bar their index, and the rest may do.
fn conflicts(script: &mut Script) {
    let plan = plan(13, 8, 1);
    let stage = Stage::set(script, &plan);
    scratch_for(script, &plan);
    stage.begin(script, "D.8, D.19 two copies of chunk 0 differ, and the others give it back");
    stage.offer(script, 0);
    stage.offer_other(script, 0, 0xEE);
    stage.offer(script, 1);
    hand_out(script, &[13]);
    block(script, &[0, 1], 8);
    stage.offer(script, 2);
    hand_out(script, &[13]);
    block(script, &[0, 1, 2], 8);
    show(script);
    stage.begin(script, "a forged chunk comes first and alone: enough are held, and the content is wrong");
    stage.offer_other(script, 0, 0xEE);
    stage.offer(script, 1);
    hand_out(script, &[13]);
    block(script, &[0, 1], 8);
    stage.offer(script, 0);
    hand_out(script, &[13]);
    stage.offer(script, 2);
    hand_out(script, &[13]);
}

/// The shapes of N and M with a sum of at most eight, each with a size that fills its last block or not.
fn small_plans() -> Vec<Plan> {
    let shapes = (1..=8).flat_map(|total: usize| (1..=total).map(move |n| (n, total - n)));
    let plan_of = |(n, m): (usize, usize)| {
        let s = if n % 2 == 0 { 4 } else { 2 };
        plan(n * s - (n + m) % s, s as u32, m as u32)
    };
    shapes.map(plan_of).collect()
}

/// A hand-out and requests for each block and one more, for each set of so many kinds of marks.
fn sweep(script: &mut Script, plan: &Plan, kinds: u8) {
    let n = plan.data_count();
    let sets = usize::from(kinds).pow(n as u32 + plan.m);
    script.frame(HAND_OUT_SETS, kinds, plan.content.len() + 1, sets);
    for number in 0..=n {
        script.frame(BLOCK_SETS, kinds, number, sets);
    }
}

pub fn every_withheld_set(script: &mut Script) {
    for plan in small_plans() {
        let (n, m) = (plan.data_count(), plan.m as usize);
        let case = if (n, m) == (3, 2) { "D.12 " } else { "" };
        lend_session(script, &format!("{case}each set of held blocks of N = {n}, M = {m}"), &plan, &vec![1; n + m]);
        sweep(script, &plan, 2);
    }
    for plan in small_plans() {
        let (n, m) = (plan.data_count(), plan.m as usize);
        if n + m <= 4 {
            lend_session(
                script,
                &format!("each set of marks up to 2, and up to 3, of N = {n}, M = {m}"),
                &plan,
                &vec![1; n + m],
            );
            sweep(script, &plan, 3);
            sweep(script, &plan, 4);
        }
    }
    let plan = plan(11, 4, 2);
    lend_session(script, "D.23 each set of marks up to 2 of N = 3, M = 2", &plan, &[1; 5]);
    sweep(script, &plan, 3);
}

/// Bytes that no file has.
pub fn noise(length: usize) -> Vec<u8> {
    (0..length).map(|i| ((i * i + 3 * i) * 41 % 257) as u8).collect()
}

/// With more than N held the blocks need not fit one list: all data blocks and the lowest recovery blocks decide.
pub fn stores_that_fit_no_list(script: &mut Script) {
    for (n, m, s) in [(1, 3, 2), (2, 6, 2), (3, 3, 4), (4, 4, 2), (5, 2, 4)] {
        let plan = plan(n * s, s as u32, m as u32);
        script.say(&format!("each set of held blocks of a store of noise, N = {n}, M = {m}"));
        set_head(script, &plan);
        lend(script, &vec![1; n + m], &noise((n + m) * s));
        sweep(script, &plan, 2);
        show(script);
    }
    let plan = plan(11, 4, 2);
    let marks = [1; 5];
    for forged in 0..5 {
        script.say(&format!("each set of held blocks of N = 3, M = 2, with block {forged} forged"));
        set_head(script, &plan);
        let mut store = store_of(&plan, &marks);
        store[4 * forged + 1] ^= 0x80;
        lend(script, &marks, &store);
        sweep(script, &plan, 2);
        hand_out(script, &[11]);
        block(script, &[0, 1, 2], 4);
    }
}

/// Marks with every place held but the given ones.
fn all_but(count: usize, gone: &[usize], mark: u8) -> Vec<u8> {
    (0..count).map(|index| if gone.contains(&index) { mark } else { HELD }).collect()
}

pub fn greatest_losses(script: &mut Script) {
    let front: Vec<usize> = (0..32).collect();
    let cases: [(usize, Vec<usize>); 7] = [
        (1, vec![0]),
        (32, front.clone()),
        (33, front.iter().map(|i| i + 1).collect()),
        (64, front.iter().map(|i| 2 * i).collect()),
        (100, front.iter().map(|i| (i * i * 3 + 7) % 101 % 100).collect()),
        (1024, front.iter().map(|i| 992 + i).collect()),
        (1024, front.iter().map(|i| 33 * i).collect()),
    ];
    for (n, gone) in cases {
        let plan = plan(2 * n - 1, 2, 32);
        lend_session(script, &format!("N = {n}, M = 32, S = 2, gone {gone:?}"), &plan, &all_but(n + 32, &gone, 0));
        hand_out(script, &[2 * n - 2, 2 * n - 1]);
        block(script, &[gone[0], gone[gone.len() - 1], n - 1, n], 2);
    }
    let plan = plan(79, 2, 32);
    let gone = |also: &[usize]| [&front[..], also].concat();
    for (title, marks) in [
        ("32 of 40 blocks barred", all_but(72, &front, 2)),
        ("33 of 40 blocks gone", all_but(72, &gone(&[39]), 0)),
        ("32 of 40 blocks and the first recovery block gone", all_but(72, &gone(&[40]), 0)),
        ("32 of 40 blocks gone and the last recovery block barred", all_but(72, &gone(&[71])[..], 2)),
        ("31 of 40 blocks and the first recovery block gone", all_but(72, &gone(&[40])[1..], 0)),
        ("31 of 40 blocks and the last recovery block gone", all_but(72, &gone(&[71])[1..], 0)),
        ("only the recovery blocks held", all_but(72, &(0..40).collect::<Vec<_>>(), 0)),
    ] {
        lend_session(script, title, &plan, &marks);
        hand_out(script, &[79]);
        block(script, &[0, 31, 39], 2);
    }
}

pub fn sizes(script: &mut Script) {
    for (size, m) in [(0, 0), (0, 1), (1, 0), (1, 1), (3, 1), (4, 0), (4, 1), (5, 1), (7, 2), (8, 2), (9, 1)] {
        let plan = plan(size, 4, m);
        let count = plan.data_count() + m as usize;
        set_head(script, &plan);
        for gone in [vec![], vec![0], vec![count - 1]] {
            script.say(&format!("size {size}, S = 4, M = {m}, gone {gone:?}"));
            let marks = all_but(count, &gone, 0);
            lend(script, &marks, &store_of(&plan, &marks));
            hand_out(script, &[size.saturating_sub(1), size, size + 1]);
            block(script, &[0, count - m as usize - 1], 4);
        }
    }
    script.say("D.60 size 0, S = 4,096");
    set_head(script, &plan(0, 4096, 0));
    held_zeros(script, 4096, 1);
    hand_out(script, &[0, 1]);
    block(script, &[0], 4096);
    let plan = plan(2 * 4096 - 9, 4096, 1);
    lend_session(script, "S = 4,096, the second block gone", &plan, &[1, 0, 1]);
    hand_out(script, &[8182, 8183, 8192]);
    block(script, &[0, 1], 4096);
    block(script, &[1], 4095);
    for budget in [2000, 47, 1, most()] {
        turn(script, budget);
        release(script, 8183);
    }
}

/// Memory of zeros, of which the first block is held.
pub fn held_zeros(script: &mut Script, store: usize, marks: usize) {
    script.frame(BEGIN, HELD, store, marks);
}

/// 51, by the content alone.
pub fn wrong_content(script: &mut Script) {
    let plan = plan(5, 4, 1);
    let marks = [1, 1, 0];
    let store = store_of(&plan, &marks);
    for (place, what) in
        [(0, "the first byte"), (3, "a byte"), (4, "the last byte"), (5, "the padding"), (7, "its end")]
    {
        script.say(&format!("size 5, S = 4, {what} changed, with the blocks held and with the second rebuilt"));
        set_head(script, &plan);
        let mut forged = store.clone();
        forged[place] ^= 0x01;
        lend(script, &marks, &forged);
        hand_out(script, &[5, 8]);
        // the recovery block of the changed blocks gives them back
        let changed = Plan { content: forged[..8].to_vec(), ..plan.clone() };
        lend(script, &[1, 0, 1], &store_of(&changed, &[1, 0, 1]));
        hand_out(script, &[5, 8]);
        block(script, &[0, 1], 4);
    }
    script.say("size 0: nothing of the block is content");
    set_head(script, &Plan { content: vec![], ..plan.clone() });
    lend(script, &[1, 0], &[9, 9, 9, 9, 0, 0, 0, 0]);
    hand_out(script, &[0, 4]);
    block(script, &[0], 5);
    for place in [0, 15, 31] {
        script.say(&format!("another byte {place} of the hash in the header"));
        script.load(&plan.file_around(&[]));
        script.edit(&[Byte(at::HASH + place, 0)]);
        script.seal();
        script.read();
        lend(script, &marks, &store);
        hand_out(script, &[5, 8]);
        block(script, &[0, 1], 4);
    }
}

/// A hand-out and a block request of the session with size 5, N = 3, M = 2 and S = 2.
fn ask_both(script: &mut Script) {
    hand_out(script, &[6]);
    block(script, &[1], 3);
}

/// 71 of the lent memory.
pub fn wrong_memory(script: &mut Script) {
    let plan = plan(5, 2, 2);
    let marks = [1, 0, 1, 1, 2];
    lend_session(script, "N = 3, M = 2, S = 2, a mark above 2 in each place", &plan, &marks);
    ask_both(script);
    for place in 0..5 {
        for mark in [2, 3, 255] {
            script.edit(&[Byte(place, mark)]);
            script.frame(LEND, 0, 10, 5);
            ask_both(script);
            script.restore();
        }
    }
    for (store, count) in [(9, 5), (11, 5), (0, 5), (8, 5), (10, 4), (10, 6), (10, 0), (0, 0)] {
        script.say(&format!("a store of {store} bytes and {count} marks"));
        lend(script, &[1, 0, 1, 1, 2, 0][..count], &text(store));
        ask_both(script);
    }
    lend(script, &marks, &store_of(&plan, &marks));
    #[rustfmt::skip]
    let scratches = [
        (4, 1024), (3, 1024), (5, 1024), (0, 1024), (8, 1024), (65_536, 1024), (4, 1023), (4, 1025),
        (4, 0), (4, 1), (0, 0), (3, 1023),
    ];
    for (bytes, numbers) in scratches {
        script.say(&format!("a scratch of {bytes} bytes and {numbers} numbers"));
        script.frame(SCRATCH, 0, bytes, numbers);
        ask_both(script);
    }
    lend_session(script, "M = 0 with and without scratch", &Plan { m: 0, ..plan }, &[1; 3]);
    ask_both(script);
    script.frame(SCRATCH, 0, 1, 1024);
    ask_both(script);
}

/// 71 of size, N, M and S.
pub fn wrong_numbers(script: &mut Script) {
    lend_session(script, "right are size 5, N = 3, M = 2, S = 2", &plan(5, 2, 2), &[1, 0, 1, 1, 0]);
    each_head_number(script, ask_both);
    for (size, n, m, s) in AT_HOUSE_LIMITS {
        script.say(&format!("size {size}, N = {n}, M = {m}, S = {s}, with memory to match"));
        set_head_numbers(script, [size, n, m, s]);
        held_zeros(script, (n + m) * s, n + m);
        script.frame(SCRATCH, 0, m * s, NUMBERS);
        hand_out(script, &[4098]);
        block(script, &[0], 4098);
    }
}

/// Each pair of checks broken at once; what scratch holds shows how far a call came.
pub fn order_of_checks(script: &mut Script) {
    let plan = plan(11, 4, 2);
    let (lent, fewer, forged) = ([1, 1, 0, 3, 1], [1, 0, 0, 1, 0], [1, 1, 0, 1, 0]);
    let both = [1, 0, 0, 3, 0];
    for (title, marks, change) in [
        ("nothing broken", forged, 0),
        ("71", lent, 0),
        ("71 and 50", both, 0),
        ("50", fewer, 0),
        ("51", forged, 1),
        ("71 and 51", lent, 1),
        ("50 and 51", fewer, 1),
    ] {
        script.say(&format!("{title}, with room and without, and 53"));
        set_head(script, &plan);
        let mut store = store_of(&plan, &marks);
        store[0] ^= change;
        lend(script, &marks, &store);
        hand_out(script, &[11, 10, 0]);
        for number in [0, 1, 2, 3, 4, 5, most()] {
            block(script, &[number], 4);
            block(script, &[number], 3);
        }
        show(script);
    }
    let room = 65_536;
    lend_session(script, "the largest output", &plan, &[1, 1, 0, 1, 0]);
    hand_out(script, &[64, 65, room, most()]);
    block(script, &[2], 64);
    block(script, &[2], room);
}
