//! Random lists for a run, as the original cuts them, or a reading where the limit is one of K6's, or as chunks are written one by
//! one; and chunks made wrong.
use crate::cut::{first, later};
use crate::functions::{chunks, cutter};
use crate::input::List;
use crate::inputs::seven_bit;
use crate::layout::HEADER_BYTES;
use crate::rng::Rng;
use midici_pe::frame::PeChunk;

/// How large the lists of a run are.
#[derive(Clone, Copy, PartialEq, Eq)]
pub enum Sizes {
    /// Mostly a few hundred bytes.
    Small,
    /// Often around 65,536 bytes.
    Large,
    /// One of some 2,048 chunks first.
    Many,
}

/// The chunks of a list with a request id.
pub fn list(rng: &mut Rng, sizes: Sizes, request_id: u8) -> Vec<Vec<u8>> {
    if sizes == Sizes::Large && rng.once_in(2) {
        return if rng.once_in(4) { full(rng, request_id) } else { in_large_pieces(rng, request_id) };
    }
    match rng.below(64) {
        0 => with_header_around_4096(rng, request_id),
        1..=3 => any(rng, request_id),
        4..=6 => cut(rng, request_id, 48, 1_000, 256),
        7..=14 => with_late_count(rng, request_id),
        _ => small(rng, request_id),
    }
}

/// A list that is cut; once in 64 a chunk's property ends with a byte above 7F, so that the chunk is left out.
pub fn cut(rng: &mut Rng, request_id: u8, header_len: usize, body_len: usize, max_sysex: u32) -> Vec<Vec<u8>> {
    let (header, body) = (seven_bit(rng, header_len), low(rng, body_len));
    let list = List { request_id, max_sysex, header: &header, body: &body };
    let mut chunks = cutter::split(list).expect("a list that can be cut");
    let k = rng.below(chunks.len());
    let property_at = if k == 0 { 9 + header_len } else { 9 };
    if rng.once_in(64) {
        if let Some(last) = chunks[k][property_at..].last_mut() {
            *last |= 0x80;
        }
    }
    chunks
}

/// Bytes up to 7F, eight for each number drawn.
fn low(rng: &mut Rng, n: usize) -> Vec<u8> {
    rng.fill(n).iter().map(|b| b & 0x7F).collect()
}

pub fn small(rng: &mut Rng, request_id: u8) -> Vec<Vec<u8>> {
    let header_len = rng.below(12);
    let pieces = rng.pick(&[0, 0, 1, 1, 1, 2, 2, 3, 4]);
    let body_len = if rng.once_in(4) { rng.around(104 * pieces) } else { 104 * pieces + rng.below(40) };
    cut(rng, request_id, header_len, body_len, 128)
}

/// A small list of which one chunk alone tells the count.
pub fn with_late_count(rng: &mut Rng, request_id: u8) -> Vec<Vec<u8>> {
    let chunks = small(rng, request_id);
    let teller = rng.below(chunks.len());
    let told = |(k, raw_chunk): (usize, &Vec<u8>)| {
        let mut chunk = PeChunk::decode(raw_chunk).expect("a chunk of a list");
        chunk.num_chunks = if k == teller { chunk.num_chunks } else { 0 };
        bytes(chunk)
    };
    chunks.iter().enumerate().map(told).collect()
}

/// Any limit, and any header that it takes.
fn any(rng: &mut Rng, request_id: u8) -> Vec<Vec<u8>> {
    let max_sysex = cutter::any_limit(rng);
    let (later, longest) = (later(max_sysex), later(max_sysex).min(HEADER_BYTES));
    let header_len = if rng.once_in(4) { longest } else { rng.below(longest + 1) };
    let first = first(max_sysex, header_len).expect("a header that fits");
    let pieces = rng.below(4);
    let body_len = if rng.once_in(2) { rng.around(first + pieces * later) } else { rng.below(3 * later) };
    cut(rng, request_id, header_len, body_len, max_sysex)
}

/// A body of 65,536 bytes, one less, or up to two more.
fn full(rng: &mut Rng, request_id: u8) -> Vec<Vec<u8>> {
    let (header_len, body_len, max_sysex) = (rng.below(100), 65_535 + rng.below(4), rng.pick(&[4_096, 16_384]));
    cut(rng, request_id, header_len, body_len, max_sysex)
}

/// The same in chunks of up to 16,383 bytes.
fn in_large_pieces(rng: &mut Rng, request_id: u8) -> Vec<Vec<u8>> {
    let header = seven_bit(rng, 10);
    let last = rng.below(8);
    let lengths = [16_383, 16_383, 16_383, 16_383, last, 0];
    let chunk = |(k, len): (usize, &usize)| PeChunk {
        request_id,
        header: if k == 0 { header.clone() } else { Vec::new() },
        num_chunks: lengths.len() as u16,
        chunk_num: k as u16 + 1,
        property: low(rng, *len),
    };
    lengths.iter().enumerate().map(chunk).map(bytes).collect()
}

/// One chunk whose header is around 4,096 bytes, or longer, which no list that is cut has.
fn with_header_around_4096(rng: &mut Rng, request_id: u8) -> Vec<Vec<u8>> {
    let header_len = if rng.once_in(4) { 4_000 + rng.below(12_384) } else { rng.around(4_096) };
    let (header, property) = (seven_bit(rng, header_len), low(rng, 5));
    vec![bytes(PeChunk { request_id, header, num_chunks: 1, chunk_num: 1, property })]
}

/// Chunks of up to two bytes, around `most` of them. All of them tell the count at which they are whole, or none, or one.
pub fn many(rng: &mut Rng, request_id: u8, most: usize) -> Vec<Vec<u8>> {
    let count = most - 2 + rng.below(6);
    let one = 1 + rng.below(count);
    let tellers = rng.pick(&[(1, count), (0, 0), (one, one)]);
    let chunk = |k: usize| PeChunk {
        request_id,
        header: Vec::new(),
        num_chunks: if (tellers.0..=tellers.1).contains(&k) { count as u16 } else { 0 },
        chunk_num: k as u16,
        property: low(rng, k % 3),
    };
    (1..=count).map(chunk).map(bytes).collect()
}

fn bytes(chunk: PeChunk) -> Vec<u8> {
    chunk.to_vec().expect("a chunk that can be written")
}

/// A chunk of a list with something else in one of its fields, or damaged.
pub fn wrong(rng: &mut Rng, raw_chunk: &[u8]) -> Vec<u8> {
    let mut raw_chunk = raw_chunk.to_vec();
    let Ok(mut chunk) = PeChunk::decode(&raw_chunk) else { return raw_chunk };
    match rng.below(16) {
        0..=1 => chunk.num_chunks = 0,
        2..=3 => chunk.num_chunks = other_count(rng, &chunk),
        4 => beyond_count(rng, &mut chunk),
        5 => (chunk.chunk_num, chunk.num_chunks) = (16_383 - rng.below(2) as u16, 0),
        6 => chunk.chunk_num = 0,
        7 => chunk.chunk_num = 1,
        8 => other_header(rng, &mut chunk),
        9 => chunk.property = low(rng, chunk.property.len() / 2),
        _ => {
            chunks::damage(rng, &mut raw_chunk);
            return raw_chunk;
        }
    }
    if chunk.chunk_num != 1 {
        chunk.header.clear();
    }
    bytes(chunk)
}

/// A count within one of what it was; where none was told, one around the chunk's number.
fn other_count(rng: &mut Rng, chunk: &PeChunk) -> u16 {
    let near = if chunk.num_chunks == 0 { chunk.chunk_num } else { chunk.num_chunks };
    (rng.around(near.into()) % 16_384) as u16
}

/// A number above the count, or next to it; every second time with no count beside it.
fn beyond_count(rng: &mut Rng, chunk: &mut PeChunk) {
    chunk.chunk_num = chunk.num_chunks + rng.below(4) as u16;
    if rng.once_in(2) {
        chunk.num_chunks = 0;
    }
}

/// The first chunk with another header: a byte changed, or one more or less.
fn other_header(rng: &mut Rng, chunk: &mut PeChunk) {
    chunk.chunk_num = 1;
    match (rng.below(3), chunk.header.last_mut()) {
        (0, Some(last)) => *last ^= 1,
        (1, Some(_)) => chunk.header.truncate(chunk.header.len() - 1),
        _ => chunk.header.push(0x20),
    }
}
