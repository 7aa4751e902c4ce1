//! What the program sfc_probe prints for the same frames, which crates/sfc_probe/src/frame.rt describes.
mod hand_outs;
mod listings;
mod turns;
mod writes;

use crate::blake3::{hash, hex};
use crate::container::{check_chunk, find_field, measure_chunk, read_header, Head, Refusal};
use crate::note::{counts, missing, note, prefix, ranges, read_note};
use crate::session::Session;
use crate::work::Work;
use hand_outs::{Call, Single};
pub use listings::{LEAST_OUTPUT, OTHER_LENGTH};
use std::fmt::Display;
use std::io::Read;

pub const SAY: u8 = 1;
pub const LOAD: u8 = 10;
pub const KEEP: u8 = 11;
pub const RESTORE: u8 = 12;
pub const CUT: u8 = 13;
pub const GROW: u8 = 14;
pub const REPEAT: u8 = 15;
pub const SET_BYTE: u8 = 20;
pub const SET_16: u8 = 21;
pub const SET_32: u8 = 22;
pub const SEAL_HEADER: u8 = 23;
pub const SEAL_CHUNK: u8 = 24;
pub const READ_HEADER: u8 = 30;
pub const HEADER_BYTES: u8 = 31;
pub const HEADER_BYTES_SEALED: u8 = 32;
pub const HEADER_LENGTHS: u8 = 33;
pub const FIND_FIELD: u8 = 34;
pub const SET_HEAD: u8 = 35;
pub const LONG_HEADER: u8 = 36;
pub const CHECK_CHUNK: u8 = 40;
pub const CHUNK_BYTES: u8 = 41;
pub const CHUNK_BYTES_SEALED: u8 = 42;
pub const CHUNK_LENGTHS: u8 = 43;
pub const MEASURE_CHUNK: u8 = 44;
pub const BEGIN: u8 = 50;
pub const SET_TALLY: u8 = 51;
pub const OFFER: u8 = 52;
pub const SHOW: u8 = 53;
pub const LEND: u8 = 54;
pub const SCRATCH: u8 = 55;
pub const OFFER_CHUNKS: u8 = 56;
pub const PREFIX: u8 = 60;
pub const LIST_MISSING: u8 = 61;
pub const WRITE_NOTE: u8 = 62;
pub const READ_NOTE: u8 = 63;
pub const NOTE_VALUES: u8 = 64;
pub const NOTE_LENGTHS: u8 = 65;
pub const LIST_RANGES: u8 = 66;
pub const COUNT_MARKS: u8 = 67;
pub const HAND_OUT: u8 = 70;
pub const BLOCK: u8 = 71;
pub const WRITE: u8 = 72;
pub const HAND_OUT_SETS: u8 = 73;
pub const BLOCK_SETS: u8 = 74;
pub const LISTING: u8 = 75;
pub const WORK: u8 = 80;
pub const WORK_FROM: u8 = 81;
pub const SPOIL: u8 = 82;
pub const FINISHED: u8 = 83;
pub const TURN: u8 = 84;
pub const RELEASE: u8 = 85;

/// The most bytes that a file has here, and a printed line.
const ROOM: usize = 65_536;
const LINE: usize = 4_096;
/// The same of a file that is longer for one reading.
const LONG_ROOM: usize = 65_613;
/// The longest output or scratch that is shown byte by byte.
const SHOWN: usize = 64;
/// The most marks of a session.
const MARKS: usize = 4_096;
/// The most numbers of an output.
const NUMBERS: usize = 1_024;

/// What an output has before a call.
const PATTERN: u8 = 0xA5;
const NUMBER_PATTERN: u32 = 0xA5A5_A5A5;

/// The input that is still to be read.
struct Input(std::vec::IntoIter<u8>);

impl Input {
    fn take(&mut self, count: usize) -> Vec<u8> {
        self.0.by_ref().take(count).collect()
    }
}

fn number(bytes: &[u8]) -> usize {
    bytes.iter().rev().fold(0, |high, &byte| high << 8 | usize::from(byte))
}

/// A part of a file that starts at a place and has a length, as far as there is one.
fn clipped(length: usize, start: usize, count: usize) -> std::ops::Range<usize> {
    let start = start.min(length);
    start..start.saturating_add(count).min(length)
}

fn put(file: &mut [u8], at: usize, bytes: &[u8]) {
    if let Some(place) = file.get_mut(at..at.saturating_add(bytes.len())) {
        place.copy_from_slice(bytes);
    }
}

pub fn seal_header(file: &mut [u8]) {
    let length = number(file.get(8..12).unwrap_or(&[0xff; 4]));
    if length + 76 <= file.len() {
        let sealed = hash(&file[8..12 + length]);
        put(file, file.len() - 56, &sealed);
    }
}

pub fn seal_chunk(chunk: &mut [u8]) {
    let length = number(chunk.get(28..32).unwrap_or(&[0xff; 4]));
    if length + 84 <= chunk.len() {
        let sealed = hash(&chunk[..48 + length]);
        put(chunk, 48 + length, &sealed);
    }
}

fn print_head(head: &Head) {
    print!("good H={} uuid={}", head.header_length, hex(&head.uuid));
    // a name is followed by zeros up to its 255 bytes
    print!(" size={} format={} name={} then zeros", head.size, head.format, hex(&head.name));
    print!(" hash={} N={} M={} S={}", hex(&head.hash), head.n, head.m, head.s);
    print!(" erasure={} compression={}", head.erasure, head.compression);
    println!(" flags={} P={}", head.flags, head.priorities);
}

/// Prints neighbours with the same answer as one line; 0 stands for an accepted input.
fn print_runs<T: PartialEq + Display>(first: usize, answers: &[T]) {
    let mut place = first;
    for run in answers.chunk_by(|left, right| left == right) {
        println!("{}..{} {}", place, place + run.len(), run[0]);
        place += run.len();
    }
}

fn header_answer(file: &[u8]) -> u8 {
    read_header(file).err().unwrap_or(0)
}

/// Where a chunk broke.
fn spot(place: Option<usize>) -> String {
    place.map_or("nowhere".to_string(), |place| format!("at {place}"))
}

fn refused(refusal: Refusal) -> String {
    format!("{} {}", refusal.number, spot(refusal.place))
}

/// A refusal in a sweep over places, which is `here` where it has the place that the sweep has come to: so neighbours that
/// are each refused at their own place make one run.
fn chunk_answer(head: &Head, chunk: &[u8], here: usize) -> String {
    match check_chunk(head, chunk) {
        Ok(_) => "0".to_string(),
        Err(refusal) if refusal.place == Some(here) => format!("{} here", refusal.number),
        Err(refusal) => refused(refusal),
    }
}

/// The answers for each place, with that byte of the text changed and the text then sealed.
fn damaged<T>(
    text: &[u8],
    places: std::ops::Range<usize>,
    mask: u8,
    seal: fn(&mut [u8]),
    answer: impl Fn(&[u8], usize) -> T,
) -> Vec<T> {
    let answer_at = |place: usize| {
        let mut changed = text.to_vec();
        changed[place] ^= mask;
        seal(&mut changed);
        answer(&changed, place)
    };
    places.map(answer_at).collect()
}

fn unsealed(_: &mut [u8]) {}

/// An answer in the front of an output of so many parts, or 52; a refusal leaves the output's pattern.
fn lent<T: Copy>(given: Result<Vec<T>, u8>, count: usize, pattern: T) -> (Result<usize, u8>, Vec<T>) {
    let given = given.and_then(|parts| if count < parts.len() { Err(52) } else { Ok(parts) });
    let front = given.clone().unwrap_or_default();
    let output = front.iter().copied().chain(std::iter::repeat(pattern)).take(count).collect();
    (given.map(|parts| parts.len()), output)
}

/// A short output byte by byte, and the hash of a longer one.
fn shown(output: &[u8]) -> String {
    match output.len() {
        0..=SHOWN => hex(output),
        _ => format!("hash {}", hex(&hash(output))),
    }
}

fn numbers(output: &[u32]) -> String {
    output.iter().map(|number| format!(" {number:08x}")).collect()
}

/// First and last of each pair, one pair after the other.
fn bounds(pairs: &[(u32, u32)]) -> Vec<u32> {
    pairs.iter().flat_map(|&(first, last)| [first, last]).collect()
}

/// A list in an output of so many numbers.
fn print_listed(list: Result<Vec<u32>, u8>, room: usize) {
    let (answer, output) = lent(list, room, NUMBER_PATTERN);
    match answer {
        Ok(count) => println!("listed {count}{}", numbers(&output)),
        Err(number) => println!("{number}{}", numbers(&output)),
    }
}

/// 0 for a note whose numbers fit the largest output.
fn note_answer(bytes: &[u8]) -> u8 {
    match read_note(bytes) {
        Ok((_, pairs)) if 2 * pairs.len() <= NUMBERS => 0,
        Ok(_) => 52,
        Err(number) => number,
    }
}

struct Probe {
    file: Vec<u8>,
    kept: Vec<u8>,
    head: Head,
    session: Session,
    single: Single,
}

impl Probe {
    fn sweep_header(&self, from: usize, to: usize, mask: u8, seal: fn(&mut [u8])) {
        let places = from..to.min(self.file.len());
        print_runs(from, &damaged(&self.file, places, mask, seal, |changed, _| header_answer(changed)));
    }

    fn sweep_chunk(&self, part: std::ops::Range<usize>, mask: u8, seal: fn(&mut [u8])) {
        let chunk = &self.file[part];
        let answer = |changed: &[u8], place| chunk_answer(&self.head, changed, place);
        print_runs(0, &damaged(chunk, 0..chunk.len(), mask, seal, answer));
    }

    /// Frames that change the file at hand.
    fn edit_frame(&mut self, opcode: u8, small: u8, a: usize, b: usize) {
        let length = self.file.len();
        match opcode {
            KEEP => self.kept = self.file.clone(),
            RESTORE => self.file = self.kept.clone(),
            CUT => self.file.truncate(a),
            GROW => self.file.resize((length + a).min(ROOM), small),
            REPEAT => {
                self.file.extend_from_within(clipped(length, a, b));
                self.file.truncate(ROOM);
            }
            SET_BYTE => put(&mut self.file, a, &[small]),
            SET_16 => put(&mut self.file, a, &b.to_le_bytes()[..2]),
            SET_32 => put(&mut self.file, a, &b.to_le_bytes()[..4]),
            SEAL_HEADER => seal_header(&mut self.file),
            SEAL_CHUNK => seal_chunk(&mut self.file[a.min(length)..]),
            WRITE => self.write(a),
            _ => {}
        }
    }

    /// Reads the header of a file with more bytes before its last 64, sealed.
    fn read_long(&mut self, value: u8, count: usize) {
        let mut long = vec![value; (self.file.len() + count).min(LONG_ROOM)];
        if let Some(split) = self.file.len().checked_sub(64) {
            let at = long.len() - 64;
            put(&mut long, 0, &self.file[..split]);
            put(&mut long, at, &self.file[split..]);
        }
        seal_header(&mut long);
        self.keep(read_header(&long));
    }

    /// Prints what reading a header gave, and keeps an accepted one.
    fn keep(&mut self, read: Result<Head, u8>) {
        match read {
            Ok(head) => {
                print_head(&head);
                self.head = head;
            }
            Err(number) => println!("{number}"),
        }
    }

    fn check(&self, part: std::ops::Range<usize>) {
        match check_chunk(&self.head, &self.file[part]) {
            // the payload comes after the header of 48 bytes
            Ok((index, _)) => println!("whole {index} 48"),
            Err(refusal) => println!("{}", refused(refusal)),
        }
    }

    fn measure(&self, part: std::ops::Range<usize>) {
        match measure_chunk(&self.head, &self.file[part]) {
            Ok(length) => println!("length {length}"),
            Err(refusal) => println!("{}", refusal.number),
        }
    }

    fn offer_chunks(&mut self, part: std::ops::Range<usize>) {
        println!("walked {}", self.session.offer_chunks(&self.head, &self.file[part], |_, _| {}));
        self.show();
    }

    fn offer(&mut self, part: std::ops::Range<usize>) {
        match self.session.offer(&self.head, &self.file[part]) {
            Ok(offered) => {
                let word = if offered.fresh { "fresh" } else { "repeat" };
                println!("{word} {} {} {}", offered.index, offered.index * self.head.s, spot(None));
            }
            Err(refusal) => println!("{}", refused(refusal)),
        }
    }

    fn show(&self) {
        println!("marks {}", hex(&self.session.marks()));
        println!("store {}", hex(&hash(&self.session.store())));
        let tallies: Vec<String> = self.session.tallies.iter().map(u64::to_string).collect();
        println!("tallies {}", tallies.join(" "));
        println!("rebuild {}", turns::told(&self.session.work));
    }

    /// The rebuild that a session begins with.
    fn blank_work(&self) -> Work {
        Work::blank(ROOM.min((self.head.m * self.head.s) as usize))
    }

    fn begin(&mut self, first_mark: u8, store: usize, marks: usize) {
        let mut marks = vec![0; marks.min(MARKS)];
        put(&mut marks, 0, &[first_mark]);
        self.session = Session::new(&self.head, vec![0; store.min(ROOM)], marks, self.blank_work());
    }

    /// A session on memory as the file has it: first the marks, after them the store. It may go on with the rebuild at hand.
    fn lend(&mut self, goes_on: bool, store: usize, marks: usize) {
        let blank = self.blank_work();
        let work = if goes_on { std::mem::replace(&mut self.session.work, blank) } else { blank };
        let (lent_marks, rest) = self.file.split_at(marks.min(self.file.len()));
        let lent_store = &rest[..store.min(rest.len())];
        let lent_marks = &lent_marks[..lent_marks.len().min(MARKS)];
        self.session = Session::new(&self.head, lent_store.to_vec(), lent_marks.to_vec(), work);
    }

    fn give_prefix(&self, room: usize) {
        let given = prefix(&self.head, &self.session.store(), &self.session.marks());
        let blocks = given.as_ref().map_or(0, |given| given.0);
        let (answer, output) = lent(given.map(|given| given.1), room, PATTERN);
        match answer {
            Ok(bytes) => println!("unverified {blocks} {bytes} {}", hex(&output)),
            Err(number) => println!("{number} {}", hex(&output)),
        }
    }

    fn count_marks(&self) {
        match counts(&self.head, &self.session.marks()) {
            Ok((held, barred)) => println!("held {held} barred {barred}"),
            Err(number) => println!("{number}"),
        }
    }

    fn list_ranges(&self, room: usize) {
        let both = |list: Vec<u32>| bounds(&ranges(&list));
        print_listed(missing(&self.head, &self.session.marks()).map(both), room);
    }

    fn list_missing(&self, room: usize) {
        print_listed(missing(&self.head, &self.session.marks()), room);
    }

    fn write_note(&self, room: usize) {
        let list = missing(&self.head, &self.session.marks());
        let (answer, output) = lent(list.map(|list| note(&self.head.uuid, &ranges(&list))), room, PATTERN);
        match answer {
            Ok(length) => println!("note {length} {}", hex(&output)),
            Err(number) => println!("{number} {}", hex(&output)),
        }
    }

    fn read_note(&self, room: usize) {
        let read = read_note(&self.file);
        let uuid = read.as_ref().map_or(vec![0; 16], |read| read.0.clone());
        let bounds = read.map(|read| bounds(&read.1));
        let (answer, output) = lent(bounds, room, NUMBER_PATTERN);
        match answer {
            Ok(count) => println!("good ranges {} uuid {}{}", count / 2, hex(&uuid), numbers(&output)),
            Err(number) => println!("{number} ranges 0 uuid {}{}", hex(&[0; 16]), numbers(&output)),
        }
    }

    /// Frames of what a session knows, and of notes.
    fn note_frame(&mut self, opcode: u8, a: usize) {
        match opcode {
            PREFIX => self.give_prefix(a.min(ROOM)),
            LIST_MISSING => self.list_missing(a.min(NUMBERS)),
            LIST_RANGES => self.list_ranges(a.min(NUMBERS)),
            COUNT_MARKS => self.count_marks(),
            WRITE_NOTE => self.write_note(a.min(ROOM)),
            READ_NOTE => self.read_note(a.min(NUMBERS)),
            NOTE_VALUES => {
                let answer_with = |value: u8| {
                    let mut changed = self.file.clone();
                    put(&mut changed, a, &[value]);
                    note_answer(&changed)
                };
                print_runs(0, &(0..=255).map(answer_with).collect::<Vec<u8>>());
            }
            NOTE_LENGTHS => {
                let answers: Vec<u8> = (0..self.file.len()).map(|length| note_answer(&self.file[..length])).collect();
                print_runs(0, &answers);
            }
            _ => {}
        }
    }

    /// Frames that ask for what a session gives back, and for a listing.
    fn give_back_frame(&self, opcode: u8, small: u8, a: usize, b: usize) {
        match opcode {
            HAND_OUT => self.ask_for(Call::HandOut, a),
            BLOCK => self.ask_for(Call::Block(a), b),
            HAND_OUT_SETS => self.ask_sets(Call::HandOut, small, b, a),
            // a byte more than the block, to see that it is left
            BLOCK_SETS => self.ask_sets(Call::Block(a), small, b, self.head.s as usize + 1),
            LISTING => self.list(small, a, b),
            _ => {}
        }
    }

    /// Frames of a session.
    fn session_frame(&mut self, opcode: u8, small: u8, a: usize, b: usize) {
        match opcode {
            BEGIN => self.begin(small, a, b),
            LEND => self.lend(small > 0, a, b),
            SCRATCH => self.single = Single { bytes: a, numbers: b, budget: small },
            SET_TALLY => {
                if let Some(tally) = self.session.tallies.get_mut(a) {
                    *tally = b as u64;
                }
            }
            OFFER => self.offer(clipped(self.file.len(), a, b)),
            OFFER_CHUNKS => self.offer_chunks(clipped(self.file.len(), a, b)),
            SHOW => self.show(),
            _ => {}
        }
    }

    /// Frames of a header, a field or a chunk.
    fn reader_frame(&mut self, opcode: u8, small: u8, a: usize, b: usize) {
        let part = clipped(self.file.len(), a, b);
        match opcode {
            READ_HEADER => self.keep(read_header(&self.file)),
            LONG_HEADER => self.read_long(small, a),
            HEADER_BYTES => self.sweep_header(a, b, small, unsealed),
            HEADER_BYTES_SEALED => self.sweep_header(a, b, small, seal_header),
            HEADER_LENGTHS => {
                let answers: Vec<u8> =
                    (a..b.min(self.file.len())).map(|length| header_answer(&self.file[..length])).collect();
                print_runs(a, &answers);
            }
            FIND_FIELD => match find_field(&self.file, a as u64 % 65_536) {
                Ok(Some((place, length))) => println!("at {place} {length}"),
                Ok(None) => println!("nothing"),
                Err(number) => println!("{number}"),
            },
            SET_HEAD => match small {
                0 => self.head.size = (b as u64) << 32 | a as u64,
                1 => self.head.n = a as u64,
                2 => self.head.m = a as u64,
                3 => self.head.s = a as u64,
                4 => self.head.erasure = a as u64 % 256,
                5 => self.head.compression = a as u64 % 256,
                _ => put(&mut self.head.uuid, a, &[b as u8]),
            },
            CHECK_CHUNK => self.check(part),
            MEASURE_CHUNK => self.measure(part),
            CHUNK_BYTES => self.sweep_chunk(part, small, unsealed),
            CHUNK_BYTES_SEALED => self.sweep_chunk(part, small, seal_chunk),
            CHUNK_LENGTHS => {
                let chunk = &self.file[part];
                let answers: Vec<String> =
                    (0..chunk.len()).map(|length| chunk_answer(&self.head, &chunk[..length], length)).collect();
                print_runs(0, &answers);
            }
            _ => {}
        }
    }
}

/// Answers frames, and gives what is at hand after the last.
fn answer(frames: Vec<u8>) -> Probe {
    let mut input = Input(frames.into_iter());
    // before a header is read, chunks are held to one of zeros
    let head = Head { uuid: vec![0; 16], hash: vec![0; 32], ..Head::default() };
    let session = Session::new(&head, Vec::new(), Vec::new(), Work::blank(0));
    let mut probe = Probe { file: Vec::new(), kept: Vec::new(), head, session, single: Single::default() };
    loop {
        let frame = input.take(10);
        if frame.len() < 10 || frame[0] == 0 {
            return probe;
        }
        let (opcode, small, a, b) = (frame[0], frame[1], number(&frame[2..6]), number(&frame[6..]));
        match opcode {
            SAY => println!("{}", String::from_utf8_lossy(&input.take(a.min(LINE)))),
            LOAD => {
                probe.file = input.take(a.min(ROOM));
                probe.kept = probe.file.clone();
            }
            _ => {
                probe.edit_frame(opcode, small, a, b);
                probe.reader_frame(opcode, small, a, b);
                probe.session_frame(opcode, small, a, b);
                probe.work_frame(opcode, small, a, b);
                probe.note_frame(opcode, a);
                probe.give_back_frame(opcode, small, a, b);
            }
        }
    }
}

/// Answers the frames of standard input.
pub fn print() {
    let mut frames = Vec::new();
    std::io::stdin().read_to_end(&mut frames).expect("standard input can be read");
    answer(frames);
}

/// The file that frames leave; they ask for nothing that is printed.
pub fn file_left(frames: Vec<u8>) -> Vec<u8> {
    answer(frames).file
}
