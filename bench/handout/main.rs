//! Processor times of a hand-out, one turn for all columns and a release, at the house limits with some data blocks gone, against a
//! plain copy of the same bytes with the proved hash of them and against the hand-out of an earlier revision where one is linked;
//! and of the longest turn at some budgets, in one run. Only ratios within a run say something.
#[cfg(before)]
mod before;
#[path = "../../second/src/blake3.rs"]
#[allow(dead_code)]
mod blake3;
#[path = "../../second/src/code.rs"]
#[allow(dead_code)]
mod code;
#[path = "../../second/src/container.rs"]
#[allow(dead_code)]
mod container;
#[path = "../cauchy/cpu.rs"]
#[allow(dead_code)]
mod cpu;
#[path = "../../second/src/field.rs"]
mod field;
#[path = "../measure.rs"]
mod measure;
mod proved;
#[path = "../../second/src/writer.rs"]
#[allow(dead_code)]
mod writer;

use measure::{bytes, each_call, seconds};
use writer::Plan;

fn copy_time(content: &[u8]) -> f64 {
    let mut out = vec![0; content.len()];
    each_call([&mut || {
        out.copy_from_slice(content);
        std::hint::black_box(proved::hash(&out));
    }])[0]
}

/// A session that holds all but `gone` data blocks, spread over the file, with garbage in their place.
struct Session {
    header: Vec<u8>,
    store: Vec<u8>,
    marks: Vec<u8>,
}

impl Session {
    fn new(plan: &Plan, blocks: &[Vec<u8>], gone: usize) -> Session {
        let (n, s) = (plan.data_count(), plan.s as usize);
        let (mut marks, mut store) = (vec![1; blocks.len()], blocks.concat());
        for index in (0..gone).map(|i| i * n / gone) {
            marks[index] = 0;
            store[index * s..(index + 1) * s].fill(0xA5);
        }
        Session { header: plan.file_around(&[]), store, marks }
    }
}

type HandOut = fn(&[u8], &[u8], &[u8], &mut [u8], &mut [u8]) -> u8;

/// The times of some ways to hand a session's content out; each must give the plan's content.
fn hand_out_times<const K: usize>(plan: &Plan, session: &Session, ways: [HandOut; K]) -> [f64; K] {
    let mut outputs = ways.map(|way| (way, vec![0xEE; plan.m as usize * plan.s as usize], vec![0xEE; plan.content.len()]));
    let mut calls = outputs.each_mut().map(|(way, scratch, out)| {
        move || assert!(way(&session.header, &session.store, &session.marks, scratch, out) == 0, "refused")
    });
    let times = each_call(calls.each_mut().map(|call| call as &mut dyn FnMut()));
    assert!(outputs.iter().all(|(_, _, out)| *out == plan.content), "the content is wrong");
    times
}

#[cfg(before)]
fn show(plan: &Plan, session: &Session, label: &str, copy: f64) {
    let [time, old] = hand_out_times(plan, session, [proved::hand_out, before::hand_out]);
    println!("{label}: {time:.4} s, {:.2} times the copy; before / now {:.2}", time / copy, old / time);
}

#[cfg(not(before))]
fn show(plan: &Plan, session: &Session, label: &str, copy: f64) {
    let [time] = hand_out_times(plan, session, [proved::hand_out]);
    println!("{label}: {time:.4} s, {:.2} times the copy", time / copy);
}

/// The least time of each turn of some rebuilds at this budget; the release after each must give the plan's content.
fn turn_times(plan: &Plan, session: &Session, budget: u32) -> Vec<f64> {
    let columns = plan.s / 2;
    let mut least = vec![f64::MAX; columns.div_ceil(budget) as usize];
    for _ in 0..3 {
        let (mut scratch, mut out) = (vec![0xEE; (plan.m * plan.s) as usize], vec![0xEE; plan.content.len()]);
        let (header, store, marks) = (&session.header, &session.store, &session.marks);
        let mut finished = 0;
        for least in &mut least {
            let time = seconds(1, || assert_eq!(proved::turn(header, store, marks, &mut scratch, &mut finished, budget), 0, "refused"));
            *least = least.min(time);
        }
        assert_eq!(finished, columns, "columns are left");
        assert_eq!(proved::release(header, store, marks, &mut scratch, &mut finished, &mut out), 0, "refused");
        assert!(out == plan.content, "the content is wrong");
    }
    least
}

fn show_turns(plan: &Plan, session: &Session, gone: usize) {
    let whole = turn_times(plan, session, plan.s / 2)[0];
    for budget in [1, 16, 64, 256, 2048] {
        let times = turn_times(plan, session, budget);
        let (longest, sum) = (times.iter().copied().fold(0.0, f64::max), times.iter().sum::<f64>());
        println!(
            "budget {budget} with {gone} blocks gone: the longest of {} turns takes {:.2} ms, {:.2} of one for all; together {:.2} times that",
            times.len(),
            longest * 1e3,
            longest / whole,
            sum / whole
        );
    }
}

fn main() {
    for s in [4096, 64] {
        let (n, m) = (1024, 32);
        let plan = Plan { content: bytes(n * s - 1), s: s as u32, m: m as u32, ..Plan::default() };
        let blocks = plan.blocks();
        let copy = copy_time(&plan.content);
        println!("n={n} m={m} s={s}: a copy with its hash takes {copy:.5} s");
        for gone in [0, 1, 16, 30, 32] {
            show(&plan, &Session::new(&plan, &blocks, gone), &format!("hand-out with {gone} blocks gone"), copy);
        }
        if s == 4096 {
            show_turns(&plan, &Session::new(&plan, &blocks, 30), 30);
        }
    }
}
