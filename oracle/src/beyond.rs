//! Why the original's answer may not stand; and a reading of document 02's sentences on chunks beyond their count and property
//! bytes above 7F (K3). The cutter's reading, with K6's limits, stands in cut.rs. Each function puts document 01's questions in
//! their order, and K3's among them where its sentences say. Where the first no is to one of K3's, the original gives another
//! answer: such an input is left out of the comparison with the original, and held against this reading.
use crate::input::{Chunk, Whole};
use crate::layout::HEADER_BYTES;
use crate::outcome::Refusal;
use midici_pe::reassembler::probe::Slot;
use std::fmt;

/// Why the original's answer does not stand: what K3 turns down, or K6's limit.
#[derive(Clone, Copy, Debug, PartialEq, Eq, PartialOrd, Ord)]
pub enum Beyond {
    /// "Property bytes above 7F give 1".
    PropertyByte,
    /// "A nonzero count below the frame number now gives 8".
    OwnCount,
    /// "a frame number above the known count gives 8".
    KnownCount,
    /// "and so does a new count below a number already held".
    HeldNumber,
    /// K6: "The upper clamp rises to 16,384".
    Limit,
}

/// Why it may not stand: of a function that reads or writes a chunk, of the cutter, of its capacities, and of a slot.
pub const OF_CHUNK: [Beyond; 2] = [Beyond::PropertyByte, Beyond::OwnCount];
pub const OF_CUTTER: [Beyond; 2] = [Beyond::PropertyByte, Beyond::Limit];
pub const OF_CAPACITY: [Beyond; 1] = [Beyond::Limit];
pub const OF_SLOT: [Beyond; 4] = [Beyond::PropertyByte, Beyond::OwnCount, Beyond::KnownCount, Beyond::HeldNumber];

impl Beyond {
    /// Does it turn a chunk down by its own bytes, whatever its slot holds?
    pub fn is_by_bytes(self) -> bool {
        OF_CHUNK.contains(&self)
    }
}

impl fmt::Display for Beyond {
    fn fmt(&self, f: &mut fmt::Formatter) -> fmt::Result {
        f.write_str(match self {
            Beyond::PropertyByte => "property byte",
            Beyond::OwnCount => "own count",
            Beyond::KnownCount => "known count",
            Beyond::HeldNumber => "number held",
            Beyond::Limit => "limit above 4,096",
        })
    }
}

/// The first question that is answered no, and what it turns down where it is one of K3's.
#[derive(Clone, Copy, Debug)]
pub struct No {
    pub refusal: Refusal,
    pub beyond: Option<Beyond>,
}

pub type Asked<T = ()> = Result<T, No>;
/// What a function grants, by its input, or the first no.
pub type Reading = fn(&[u8]) -> Asked<Vec<u64>>;

/// One of document 01's questions, with the number of its no.
pub fn ask(yes: bool, number: u8) -> Asked {
    ask_with_value(yes, number, 0)
}

fn ask_with_value(yes: bool, number: u8, value: u8) -> Asked {
    yes.then_some(()).ok_or(No { refusal: Refusal { number, value }, beyond: None })
}

/// One of K3's.
pub fn ask_beyond(yes: bool, beyond: Beyond) -> Asked {
    let number = if beyond == Beyond::PropertyByte { 1 } else { 8 };
    yes.then_some(()).ok_or(No { refusal: Refusal { number, value: 0 }, beyond: Some(beyond) })
}

pub fn up_to_7f(bytes: &[u8]) -> bool {
    bytes.iter().all(|b| *b <= 0x7F)
}

/// Two bytes of 7 bits, low one first.
fn field(bytes: &[u8]) -> Asked<u16> {
    ask(up_to_7f(&bytes[..2]), 1)?;
    Ok(u16::from(bytes[0]) + 128 * u16::from(bytes[1]))
}

/// "Nine bytes? 2. Request id up to 7F? 1. Header length bytes up to 7F? 1. At least 9 + header length bytes? 2. Header bytes up
/// to 7F? 1. Count, then number, then property length bytes up to 7F? 1. Property all there? 2. Nothing left over? 1." Here K3:
/// "after the left-over question in reading".
pub fn read(data: &[u8]) -> Asked<Chunk<'_>> {
    ask(data.len() >= 9, 2)?;
    ask(data[0] <= 0x7F, 1)?;
    let header_len = usize::from(field(&data[1..])?);
    ask(data.len() >= 9 + header_len, 2)?;
    let (header, rest) = data[3..].split_at(header_len);
    ask(up_to_7f(header), 1)?;
    let (num_chunks, chunk_num) = (field(rest)?, field(&rest[2..])?);
    let (property_len, property) = (usize::from(field(&rest[4..])?), &rest[6..]);
    ask(property.len() >= property_len, 2)?;
    ask(property.len() <= property_len, 1)?;
    ask_beyond(up_to_7f(property), Beyond::PropertyByte)?;
    let chunk = Chunk { request_id: data[0], num_chunks, chunk_num, header, property };
    number_and_count(chunk)?;
    Ok(chunk)
}

/// "Frame number 1, or no header? 8." Then K3: "A nonzero count below the frame number now gives 8, asked last in reading a frame
/// and, in writing one, before the buffer."
fn number_and_count(chunk: Chunk) -> Asked {
    ask(chunk.chunk_num == 1 || chunk.header.is_empty(), 8)?;
    ask_beyond(chunk.num_chunks == 0 || chunk.chunk_num <= chunk.num_chunks, Beyond::OwnCount)
}

/// "Id? 1. Header and property up to 16,383? 1. Count and number? 1. Header bytes? 1." Here K3: "after the header bytes in
/// writing". "Number 1 or no header? 8. Buffer? 3." How many bytes are written, those `in_front` of the chunk too.
fn write_behind(in_front: usize, chunk: Chunk, room: usize) -> Asked<usize> {
    ask(chunk.request_id <= 0x7F, 1)?;
    ask(chunk.header.len() <= 16_383 && chunk.property.len() <= 16_383, 1)?;
    ask(chunk.num_chunks <= 16_383 && chunk.chunk_num <= 16_383, 1)?;
    ask(up_to_7f(chunk.header), 1)?;
    ask_beyond(up_to_7f(chunk.property), Beyond::PropertyByte)?;
    number_and_count(chunk)?;
    let need = in_front + chunk.need();
    ask(room >= need, 3)?;
    Ok(need)
}

pub fn write(chunk: Chunk, room: usize) -> Asked<usize> {
    write_behind(0, chunk, room)
}

/// "asking consoles (28), a kind that carries a frame (24), then the frame's questions, with the buffer (3) measured for both".
pub fn write_message(whole: Whole, room: usize) -> Asked<usize> {
    ask(whole.source < 1 << 28 && whole.dest < 1 << 28, 28)?;
    ask_with_value(matches!(whole.sub_id2, 0x34..=0x39 | 0x3F), 24, whole.sub_id2)?;
    write_behind(13, whole.chunk, room)
}

/// "Frame 1: header at most H? 4. No header yet, or the same? 8 .. Count 0, or none known, or the same? 8". Then K3: "In a
/// transfer, right after the count question and before the count is taken, a frame number above the known count gives 8, and so
/// does a new count below a number already held". What is held and known is what the original's slot has before the chunk.
pub fn slot_takes(slot: Slot, chunk: Chunk) -> Asked {
    if chunk.chunk_num == 1 {
        ask(chunk.header.len() <= HEADER_BYTES, 4)?;
        ask(!slot.header_set() || slot.header() == chunk.header, 8)?;
    }
    let known = slot.num_chunks();
    ask(chunk.num_chunks == 0 || known == 0 || chunk.num_chunks == known, 8)?;
    ask_beyond(known == 0 || chunk.chunk_num <= known, Beyond::KnownCount)?;
    let is_new_count = known == 0 && chunk.num_chunks != 0;
    let mut held = slot.index_room().take(slot.records()).map(|(chunk_num, _, _)| chunk_num);
    ask_beyond(!is_new_count || held.all(|chunk_num| chunk_num <= chunk.num_chunks), Beyond::HeldNumber)
}
