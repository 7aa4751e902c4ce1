//! The frames that sfc_probe is run on: written files, every field at its bounds, damage in every byte, and the order of the
//! checks. A title that begins with D names the case of document 001's appendix that it runs.
mod chunks;
mod extensions;
mod handouts;
pub mod headers;
mod histories;
pub mod listings;
mod notes;
mod restarts;
mod sessions;
mod turns;
mod walks;
mod writes;

use crate::probe::*;
use crate::script::*;
pub use histories::conflicting_chunks;
use std::io::Write;

/// Makes a file of 65,536 bytes with a header of H = 65,460 and no chunk; no field may be longer than 16,384.
fn load_longest_header(script: &mut Script) {
    let mut at = 343;
    script.load(&plan(14, 4, 1).file_around(&[])[..at]);
    script.frame(GROW, 0, 65_536 - at, 0);
    for (tag, length) in (0x0200..).zip([16_384, 16_384, 16_384, 15_953]) {
        script.edit(&[Two(at, tag), Four(at + 2, length)]);
        at += 6 + length;
    }
    script.edit(&[Four(8, at - 12), Four(at, usize::from_le_bytes(*b"TRLR\0\0\0\0"))]);
    script.seal();
}

/// H up to the most that there is and past it, in files that only one frame has room for.
fn longest_headers(script: &mut Script) {
    let (held, last_field) = (65_460, 343 + 3 * 16_390);
    load_longest_header(script);
    let mut read = |title: &str, length: usize, value: usize, small: u8, more: usize| {
        script.say(&format!("H {length}{title}"));
        script.edit(&[Four(8, length), Four(last_field + 2, value)]);
        script.frame(LONG_HEADER, small, more, 0);
    };
    let field_for = |length: usize| 15_953 + length - held;
    for length in [65_460, 65_461, 65_462, 65_500, 65_534, 65_535, 65_536, 65_537] {
        read("", length, field_for(length), 0, length - held);
        read(", its last field of other bytes", length, field_for(length), 7, length - held);
    }
    let (length, value) = (65_536, field_for(65_536));
    for (title, value, more) in [
        (", a field that ends a byte early", value - 1, 76),
        (", a field that ends a byte late", value + 1, 76),
        (", a byte too few for the trailer", value, 75),
        (", a byte before the trailer", value, 77),
        (", more than there is room for", value, 78),
        (", and nothing added", value, 0),
    ] {
        read(title, length, value, 0, more);
    }
    script.load(&[7; 63]);
    script.say("no file has a trailer of fewer bytes");
    for more in [0, 1, 100] {
        script.frame(LONG_HEADER, 7, more, 0);
    }
}

/// Frames with numbers that are out of range: as much is done as there is.
fn frames_out_of_range(script: &mut Script) {
    let most = u32::MAX as usize;
    script.say("frames out of range");
    script.frame(READ_HEADER, 9, most, most);
    script.frame(LONG_HEADER, 9, most, most);
    script.check(most, most);
    script.load(&plan(14, 4, 1).file());
    for opcode in [CUT, SET_BYTE, SET_16, SET_32, SEAL_CHUNK, HEADER_BYTES, HEADER_BYTES_SEALED, HEADER_LENGTHS] {
        script.frame(opcode, 1, most, most);
    }
    for opcode in [CHECK_CHUNK, CHUNK_BYTES, CHUNK_BYTES_SEALED, CHUNK_LENGTHS, SET_TALLY, OFFER, LEND, 2, 99, 255] {
        script.frame(opcode, 1, most, most);
    }
    for opcode in [MEASURE_CHUNK, OFFER_CHUNKS, COUNT_MARKS] {
        script.frame(opcode, 1, most, most);
    }
    for opcode in [NOTE_VALUES, NOTE_LENGTHS, SET_HEAD, FINISHED, WORK_FROM, WORK, SPOIL, TURN, RELEASE, SHOW] {
        script.frame(opcode, 1, most, most);
    }
    script.frame(PREFIX, 0, 3, 0);
    for opcode in [SCRATCH, HAND_OUT, BLOCK, HAND_OUT_SETS, BLOCK_SETS, LISTING, REPEAT] {
        script.frame(opcode, 255, most, most);
    }
    script.read();
    script.edit(&[Two(846, 0xFFFF), Four(845, most), Byte(847, 1), Two(845, 0)]);
    script.read();
    script.edit(&[Cut(0)]);
    script.seal();
    script.frame(SEAL_CHUNK, 0, 0, 0);
    script.read();
    script.check(0, 0);
    script.say("the largest header that the buffer holds, and a byte more than it holds");
    load_longest_header(script);
    script.frame(GROW, 1, most, 0);
    script.read();
    script.frame(HEADER_LENGTHS, 0, 65_530, 65_536);
}

/// Some frames that are about one thing.
type Part = fn(&mut Script);

const BEFORE_A_HEADER: &[Part] =
    &[chunks::before_a_header, notes::before_a_header, handouts::before_a_header, turns::before_a_header];

const READING: &[Part] = &[
    headers::written_files,
    headers::numbers_at_bounds,
    headers::identifiers_and_flags,
    headers::header_lengths,
    headers::priority_lists,
    extensions::extension_order,
    extensions::extension_repeats,
    extensions::known_repeats,
    extensions::extension_ends,
    extensions::extension_rules,
    extensions::lookups,
    headers::damaged_headers,
    headers::header_order,
    chunks::damaged_chunks,
    chunks::two_wrong_bytes,
    chunks::chunk_fields,
    chunks::wide_lengths,
    chunks::chunk_order,
    chunks::other_heads,
    longest_headers,
];

const SESSIONS: &[Part] = &[
    sessions::offers_and_copies,
    sessions::every_refusal,
    sessions::lent_memory,
    sessions::full_tallies,
    sessions::any_order,
    histories::every_order,
    histories::long_histories,
    walks::whole_files,
    walks::damaged_chunks,
    walks::other_chunks,
    walks::wrong_sessions,
];

const NOTES: &[Part] = &[
    notes::worked_note,
    notes::every_set_of_marks,
    notes::sizes,
    notes::wrong_memory,
    notes::wrong_numbers,
    notes::largest_session,
    notes::damaged_notes,
    notes::ranges_of_notes,
    notes::starts_of_notes,
];

const HAND_OUTS: &[Part] = &[
    handouts::offered_sessions,
    handouts::every_withheld_set,
    handouts::stores_that_fit_no_list,
    handouts::greatest_losses,
    handouts::sizes,
    handouts::wrong_content,
    handouts::wrong_memory,
    handouts::wrong_numbers,
    handouts::order_of_checks,
];

const TURNS: &[Part] = &[
    turns::budgets,
    turns::every_set,
    turns::finished_counts,
    turns::forged_scratch,
    turns::other_memory,
    turns::wrong_memory,
    turns::wrong_numbers,
    turns::order_of_checks,
    restarts::chunks_between,
    restarts::forged_between,
    restarts::refused_between,
    restarts::wrong_beside,
    restarts::wrong_sessions,
    restarts::walks_between,
    restarts::requests_between,
    restarts::wide_blocks,
];

const WRITES: &[Part] = &[writes::round_trips, writes::numbers, writes::names, writes::lists, writes::fields];

const LISTINGS: &[Part] = &[
    listings::whole_files,
    listings::withheld_sets,
    listings::damaged_chunks,
    listings::lengths,
    listings::refused_chunks,
    listings::copies,
    listings::refused_headers,
    listings::numbers,
    listings::full_store,
    listings::most_refusals,
    listings::most_ranges,
    listings::longest_files,
    listings::lent_memory,
];

/// Writes the frames to standard output, those of a part from outside among them.
pub fn write(part_from_outside: Part) {
    let mut script = Script::default();
    let last = [part_from_outside, frames_out_of_range];
    for part in [BEFORE_A_HEADER, READING, SESSIONS, NOTES, HAND_OUTS, TURNS, WRITES, LISTINGS, &last].concat() {
        part(&mut script);
    }
    std::io::stdout().write_all(&script.0).expect("standard output can be written");
}
