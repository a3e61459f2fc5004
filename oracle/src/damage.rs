//! A table of the port that somebody else wrote into.
use crate::layout::{record, ACTIVE, BODY_LEN, FRAGMENT_RECORDS, HEADER_BYTES, HEADER_LEN, RECORDS, TX_BYTES};

/// One of its numbers, or of its records.
#[derive(Clone, Copy, Debug)]
pub enum Place {
    Number(usize),
    Record(usize),
}

/// The bits that are turned over there. Done twice, nothing is damaged.
#[derive(Clone, Copy, Debug)]
pub struct Damage {
    pub at: Place,
    pub bits: u64,
}

/// A slot's three lengths among its words, of the header, of the records and of the body, and the rooms for them.
pub const LENGTHS: [usize; 3] = [HEADER_LEN, RECORDS, BODY_LEN];
pub const ROOMS: [u64; 3] = [HEADER_BYTES as u64, FRAGMENT_RECORDS as u64, TX_BYTES as u64];

/// "Does that transfer's memory hold a header of at most H, at most R records lying end to end from 0, and a body length that is
/// their sum and at most B (all 0 if free)?"
pub fn is_sound(words: &[u64], records: &[u64]) -> bool {
    let lengths = LENGTHS.map(|at| words[at]);
    let is_free = words[ACTIVE] == 0;
    if is_free {
        return lengths == [0, 0, 0];
    }
    if lengths.iter().zip(ROOMS).any(|(length, room)| *length > room) {
        return false;
    }
    let [_, held, body] = lengths;
    let mut end = 0;
    for (_, len, offset) in records[..held as usize].iter().copied().map(record) {
        if u64::from(offset) != end {
            return false;
        }
        end += u64::from(len);
    }
    body == end
}
