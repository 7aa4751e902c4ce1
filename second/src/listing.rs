//! The listing of a file, as the program sfc_list prints it.
use crate::blake3::hex;
use crate::container::{measure_chunk, must, read_header, Head, Refusal};
use crate::hand_out::Lent;
use crate::note::{counts, missing, ranges};
use crate::session::Session;
use crate::work::Work;
use crate::writer::Plan;
use std::io::{Read, Write};

/// The longest file, and the largest store.
const FILE: usize = 65_536;
const STORE: u64 = 32_768;

/// Offers the chunks of a file, and gives a line for each refusal as it is met. What is left before the trailer was to be a
/// chunk as well: its refusal ended the walk, and is told last.
fn offer_all(session: &mut Session, head: &Head, file: &[u8]) -> Vec<String> {
    let start = 12 + head.header_length as usize;
    let chunks = &file[start..file.len() - 64];
    let mut lines = Vec::new();
    let mut tell = |chunk_start: usize, refusal: Refusal| {
        let place = refusal.place.expect("neither 43 nor 71 can come of a listing's own session");
        lines.push(format!("refused {} {}", refusal.number, start + chunk_start + place));
    };
    let end = session.offer_chunks(head, chunks, &mut tell);
    if end < chunks.len() {
        tell(end, measure_chunk(head, &chunks[end..]).expect_err("the walk went as far as there are chunks"));
    }
    lines
}

fn lines(file: &[u8]) -> Result<Vec<String>, u8> {
    must(file.len() <= FILE, 15)?;
    let head = read_header(file)?;
    let blocks = (head.n + head.m) as usize;
    must(blocks as u64 * head.s <= STORE, 15)?;
    let work = Work::blank((head.m * head.s) as usize);
    let mut session = Session::new(&head, vec![0; blocks * head.s as usize], vec![0; blocks], work);
    let refusals = offer_all(&mut session, &head, file);
    let (store, marks) = (session.store(), session.marks());
    let (held, barred) = counts(&head, &marks)?;
    let mut lines = vec![
        format!("sfc uuid={}", hex(&head.uuid)),
        format!("blocks={} recovery={} size={} block={}", head.n, head.m, head.size, head.s),
    ];
    lines.extend(refusals);
    lines.push(format!("held={held} barred={barred}"));
    lines.extend(ranges(&missing(&head, &marks)?).iter().map(|(first, last)| format!("missing {first}-{last}")));
    let memory = Lent { head: &head, store: &store, marks: &marks };
    // one turn for all columns, so that a release is refused by 50 or 51 alone
    let turned = memory.turn(&mut session.work, &mut [0; 1024], head.s / 2);
    let last = match turned.and_then(|_| memory.release(&mut session.work, head.size as usize)) {
        Ok(_) => "complete",
        Err(51) => "hash differs",
        Err(_) => "incomplete",
    };
    lines.push(last.to_string());
    Ok(lines)
}

pub fn listing(file: &[u8]) -> String {
    let lines = lines(file).unwrap_or_else(|number| vec![format!("refused {number}")]);
    lines.iter().map(|line| line.clone() + "\n").collect()
}

/// The listing of standard input.
pub fn print() {
    let mut file = Vec::new();
    std::io::stdin().read_to_end(&mut file).expect("standard input can be read");
    print!("{}", listing(&file));
}

/// The file whose listing document 01 shows: of four data blocks and one for recovery 0, 2 and 4 have come.
pub fn example() -> Vec<u8> {
    let plan = Plan {
        content: (1..=14).collect(),
        s: 4,
        m: 1,
        uuid: std::array::from_fn(|i| i as u8),
        name: b"pass.bin".to_vec(),
        ..Plan::default()
    };
    plan.file_around(&plan.chunks_of(&[0, 2, 4]))
}

/// Writes that file.
pub fn write_case() {
    std::io::stdout().write_all(&example()).expect("standard output can be written");
}
