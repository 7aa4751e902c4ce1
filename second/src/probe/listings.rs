//! The frame that asks for the listing of the file. Memory and output have a pattern before the call.
use super::hand_outs::{state, state_word};
use super::{lent, Probe, PATTERN, ROOM};
use crate::container::must;
use crate::listing::listing;

/// How many parts each piece of lent memory has to have: store, marks, scratch, its numbers, content, bounds.
const DESK: [usize; 6] = [32_768, 1_056, 32_768, 1_024, 32_768, 1_024];
/// The small number of a frame that gives the file another length.
pub const OTHER_LENGTH: u8 = 7;
/// The least output that is taken.
pub const LEAST_OUTPUT: usize = 65_536;

impl Probe {
    /// The file, with zeros after its end, or its front, where another length is asked for.
    fn lengthened(&self, piece: u8, length: usize) -> Vec<u8> {
        let mut file = self.file.clone();
        if piece == OTHER_LENGTH {
            file.resize(length.min(ROOM + 1), 0);
        }
        file
    }

    pub(super) fn list(&self, piece: u8, room: usize, length: usize) {
        let file = self.lengthened(piece, length);
        let mut desk = DESK.map(|right| vec![PATTERN; right]);
        if let Some(other) = desk.get_mut(usize::from(piece).wrapping_sub(1)) {
            other.resize(length.min(other.len() + 1), PATTERN);
        }
        // an output may be longer than it has to be, here by a byte
        let room = room.min(LEAST_OUTPUT + 1);
        let is_desk_right = desk.iter().map(Vec::len).eq(DESK);
        let allowed = must(is_desk_right, 71).and_then(|()| must(LEAST_OUTPUT <= room, 52));
        if allowed.is_ok() {
            desk.iter_mut().for_each(|lent_piece| lent_piece.fill(0));
        }
        let (answer, output) = lent(allowed.map(|()| listing(&file).into_bytes()), room, PATTERN);
        match answer {
            Ok(count) => print!("listed {count}"),
            Err(number) => print!("{number}"),
        }
        let (text, after_text) = output.split_at(answer.unwrap_or(0));
        let word = |parts: &[u8]| state_word(state(parts, PATTERN.into()));
        let words: Vec<&str> = desk.iter().map(|lent_piece| word(lent_piece)).collect();
        println!(" behind {} desk {}", word(after_text), words.join(" "));
        print!("{}", String::from_utf8_lossy(text));
    }
}
