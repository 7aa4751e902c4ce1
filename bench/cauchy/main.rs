//! Processor times of encoding and rebuilding in one run: the proved calls, the same calls of an earlier revision where one is
//! linked, the second program's plain code on the same bytes, jerasure where it is linked, and par2 on a file of them; and how
//! the proved calls' times grow. Only ratios within a run say something.
#[cfg(before)]
mod before;
#[path = "../../second/src/code.rs"]
mod code;
mod cpu;
#[path = "../../second/src/field.rs"]
mod field;
#[cfg(jerasure)]
mod jerasure;
#[path = "../measure.rs"]
mod measure;
mod par2;
mod proved;

use measure::{bytes, each_call, seconds};

/// A code and how many of its data blocks are gone, from the first on.
#[derive(Clone, Copy)]
struct Shape {
    n: usize,
    m: usize,
    s: usize,
    gone: usize,
}

const LARGEST: Shape = Shape { n: 1024, m: 32, s: 4096, gone: 30 };

/// What a shape's calls are given: the data, their recovery blocks, and the store with garbage where a block is gone.
struct Given {
    data: Vec<u8>,
    recovery: Vec<u8>,
    store: Vec<u8>,
    marks: Vec<u8>,
}

impl Shape {
    fn given(self) -> Given {
        let Shape { n, m, s, gone } = self;
        let data = bytes(n * s);
        let mut recovery = vec![0; m * s];
        proved::encode(n, m, s, &data, &mut recovery);
        let mut store = [data.clone(), recovery.clone()].concat();
        store[..gone * s].fill(0xA5);
        let marks = (0..n + m).map(|i| (gone <= i) as u8).collect();
        Given { data, recovery, store, marks }
    }

    fn encode_time(self) -> f64 {
        let (given, mut out) = (self.given(), vec![0; self.m * self.s]);
        each_call([&mut || proved::encode(self.n, self.m, self.s, &given.data, &mut out)])[0]
    }

    fn rebuild_time(self) -> f64 {
        let Shape { n, m, s, gone } = self;
        let given = self.given();
        let (mut scratch, mut numbers) = (vec![0xEE; m * s], vec![7; 1024]);
        let [time] = each_call([&mut || proved::rebuild_all(n, m, s, &given.store, &given.marks, &mut scratch, &mut numbers)]);
        assert!(scratch[..gone * s] == given.data[..gone * s], "the rebuilt blocks are wrong");
        time
    }
}

/// Times of encoding, of one row and of rebuilding, now and before; all answers and bytes are held to be the same.
#[cfg(before)]
fn now_and_before(shape: Shape) -> [(f64, f64); 3] {
    let Shape { n, m, s, .. } = shape;
    let given = shape.given();
    let (mut ours, mut theirs, mut mine, mut other) = (vec![0; m * s], vec![0; m * s], vec![0; s], vec![0; s]);
    let (mut scratch, mut old_scratch) = (vec![0xEE; m * s], vec![0xEE; m * s]);
    let (mut numbers, mut old_numbers) = (vec![7; 1024], vec![7; 1024]);
    let [encode, old_encode, one, old_one, rebuild, old_rebuild] = each_call([
        &mut || proved::encode(n, m, s, &given.data, &mut ours),
        &mut || before::encode(n, m, s, &given.data, &mut theirs),
        &mut || proved::recovery(n, m, s, 0, &given.data, &mut mine),
        &mut || before::recovery(n, m, s, 0, &given.data, &mut other),
        &mut || proved::rebuild_all(n, m, s, &given.store, &given.marks, &mut scratch, &mut numbers),
        &mut || before::rebuild_all(n, m, s, &given.store, &given.marks, &mut old_scratch, &mut old_numbers),
    ]);
    assert!((ours, mine, scratch, numbers) == (theirs, other, old_scratch, old_numbers), "before and now differ");
    [(encode, old_encode), (one, old_one), (rebuild, old_rebuild)]
}

#[cfg(before)]
fn against_before(label: &str, shape: Shape) {
    let times = now_and_before(shape);
    let [encode, one, rebuild] = times.map(|(now, before)| before / now);
    let [now_encode, now_one, now_rebuild] = times.map(|(now, _)| now * 1e6);
    println!("  {label:<30} encode {encode:5.2}, one row {one:5.2}, rebuild {rebuild:5.2} (now {now_encode:.2}, {now_one:.2} and {now_rebuild:.2} us)");
}

/// The least ratios of many small codes: where little is to be done, tables and room must not cost more than they save.
#[cfg(before)]
fn least_of_small_codes() {
    let mut shapes = Vec::new();
    for n in [1, 2, 5, 40] {
        for m in [1, 2, 5, 32] {
            for s in [2, 6, 16, 30, 64, 300, 1024, 2048] {
                shapes.extend([0, 1, 2, 5, 32].iter().filter(|gone| **gone <= n.min(m)).map(|gone| Shape { n, m, s, gone: *gone }));
            }
        }
    }
    let least = shapes.iter().fold([f64::MAX; 3], |least, shape| {
        let ratios = now_and_before(*shape).map(|(now, before)| before / now);
        [least[0].min(ratios[0]), least[1].min(ratios[1]), least[2].min(ratios[2])]
    });
    println!("  the least of {} small codes     encode {:5.2}, one row {:5.2}, rebuild {:5.2}", shapes.len(), least[0], least[1], least[2]);
}

#[cfg(before)]
fn compare_before() {
    println!("before / now, the same answers and bytes:");
    against_before("the largest code, 30 gone", LARGEST);
    against_before("S = 64", Shape { s: 64, ..LARGEST });
    against_before("S = 2", Shape { s: 2, ..LARGEST });
    against_before("1 gone", Shape { gone: 1, ..LARGEST });
    against_before("M = 1, 1 gone", Shape { m: 1, gone: 1, ..LARGEST });
    against_before("N = 1, 1 gone", Shape { n: 1, gone: 1, ..LARGEST });
    against_before("N = 4, M = 4, 4 gone", Shape { n: 4, m: 4, gone: 4, ..LARGEST });
    against_before("N = 32, 32 gone", Shape { n: 32, gone: 32, ..LARGEST });
    against_before("N = 1, S = 64, 1 gone", Shape { n: 1, s: 64, gone: 1, ..LARGEST });
    against_before("N = 1, M = 1, S = 2, 1 gone", Shape { n: 1, m: 1, s: 2, gone: 1 });
    least_of_small_codes();
}

#[cfg(not(before))]
fn compare_before() {}

#[cfg(jerasure)]
fn compare_jerasure() {
    for bits in [8, 4] {
        jerasure::use_tables(bits);
        let ratio = |s: usize| {
            let shape = Shape { s, ..LARGEST };
            let (given, mut out) = (shape.given(), vec![0; shape.m * s]);
            let time = each_call([&mut || jerasure::encode(shape.n, shape.m, s, &given.data, &mut out)])[0];
            assert!(out == given.recovery, "jerasure makes other recovery blocks");
            time / shape.encode_time()
        };
        println!("jerasure, {bits} by 16 bits / proved: encode {:.2}, with S = 64 {:.2}, with S = 512 {:.2}", ratio(4096), ratio(64), ratio(512));
        // it inverts a matrix as large as there are data blocks, so a smaller code is rebuilt
        let shape = Shape { n: 128, ..LARGEST };
        let (given, Shape { n, m, s, gone }) = (shape.given(), shape);
        let mut store = given.store.clone();
        let time = each_call([&mut || jerasure::rebuild(n, m, s, &mut store, gone)])[0];
        assert!(store[..gone * s] == given.data[..gone * s], "jerasure rebuilds other blocks");
        println!("  rebuild, N = 128: {:.2}", time / shape.rebuild_time());
    }
}

#[cfg(not(jerasure))]
fn compare_jerasure() {
    println!("jerasure is not linked: no ratio to it");
}

fn compare_second(encode: f64, rebuild: f64) {
    let Shape { n, m, s, .. } = LARGEST;
    let given = LARGEST.given();
    let blocks: Vec<Vec<u8>> = given.data.chunks(s).map(|b| b.to_vec()).collect();
    let second_encode = seconds(3, || assert!((0..m).flat_map(|k| code::recovery(m, k, &blocks)).eq(given.recovery.iter().copied())));
    let held: Vec<Option<Vec<u8>>> =
        given.store.chunks(s).zip(&given.marks).map(|(b, mark)| (*mark == 1).then(|| b.to_vec())).collect();
    let second_rebuild = seconds(3, || assert!(code::decode(n, m, &held).unwrap() == blocks));
    println!("second program / proved: encode {:.1}, rebuild {:.1}", second_encode / encode, second_rebuild / rebuild);
}

fn compare_par2(encode: f64, rebuild: f64) {
    let Shape { n, m, s, gone } = LARGEST;
    match par2::times(&bytes(n * s), s, m, gone) {
        Some((create, repair)) => println!("par2 / proved (files and hashes included): encode {:.1}, rebuild {:.1}", create / encode, repair / rebuild),
        None => println!("par2 is not installed: no ratio to it"),
    }
}

fn show_growth(encode: f64, rebuild: f64) {
    let Shape { n, m, s, gone } = LARGEST;
    println!("growth, encode: n doubled {:.2}, m doubled {:.2}, s doubled {:.2}",
        encode / Shape { n: n / 2, ..LARGEST }.encode_time(),
        encode / Shape { m: m / 2, gone: 0, ..LARGEST }.encode_time(),
        encode / Shape { s: s / 2, ..LARGEST }.encode_time());
    println!("growth, rebuild: n doubled {:.2}, loss doubled {:.2}, s doubled {:.2}",
        rebuild / Shape { n: n / 2, ..LARGEST }.rebuild_time(),
        rebuild / Shape { gone: gone / 2, ..LARGEST }.rebuild_time(),
        rebuild / Shape { s: s / 2, ..LARGEST }.rebuild_time());
}

fn main() {
    let Shape { n, m, s, gone } = LARGEST;
    let (encode, rebuild) = (LARGEST.encode_time(), LARGEST.rebuild_time());
    println!("n={n} m={m} s={s} gone={gone}");
    println!("proved: encode {encode:.4} s, rebuild {rebuild:.4} s, encode / rebuild {:.2}", encode / rebuild);
    compare_before();
    compare_jerasure();
    compare_second(encode, rebuild);
    compare_par2(encode, rebuild);
    show_growth(encode, rebuild);
}
