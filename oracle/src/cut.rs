//! The cutter: a reading of document 01's sentences, with K3's question and K6's limits of document 02. Where the limit is above
//! the original's largest, a list is held against this reading, bytes and all. Every other is held against the original, and so is
//! this reading.
use crate::beyond::{ask, ask_beyond, up_to_7f, Asked, Beyond};
use crate::input::List;

/// Is it a limit that the original takes as 4,096, and K6 does not?
pub fn is_larger(max_sysex: u32) -> bool {
    max_sysex > 4_096
}

/// "Limit clamped to 128..4,096". K6: "The upper clamp rises to 16,384".
pub fn clamped(max_sysex: u32) -> u32 {
    max_sysex.clamp(128, 16_384)
}

/// "budget is limit − 15".
pub fn budget(max_sysex: u32) -> usize {
    clamped(max_sysex) as usize - 15
}

/// "later frames carry budget − 9".
pub fn later(max_sysex: u32) -> usize {
    budget(max_sysex) - 9
}

/// "Header + 9 within budget? 4." And: "the first budget − 9 − header length".
pub fn first(max_sysex: u32, header_len: usize) -> Asked<usize> {
    ask(header_len <= later(max_sysex), 4)?;
    Ok(later(max_sysex) - header_len)
}

/// A list that is cut: how many chunks it has, and how many body bytes the first carries, and a later one.
pub struct Cut<'a> {
    list: List<'a>,
    pub chunks: usize,
    first: usize,
    later: usize,
}

/// "Request id? 1. Header bytes? 1." Here K3: "after the header bytes in .. cutting". "Header up to 16,383? 4." Here K6: "a header
/// over 4,096 bytes is now turned down by the cutter with 4, in place of the 16,383 limit". "Header + 9 within budget? 4. At most
/// 16,383 frames? 5."
pub fn cut(list: List) -> Asked<Cut> {
    ask(list.request_id <= 0x7F, 1)?;
    ask(up_to_7f(list.header), 1)?;
    ask_beyond(up_to_7f(list.body), Beyond::PropertyByte)?;
    ask(list.header.len() <= 4_096, 4)?;
    let (first, later) = (first(list.max_sysex, list.header.len())?, later(list.max_sysex));
    let chunks = 1 + list.body.len().saturating_sub(first).div_ceil(later);
    ask(chunks <= 16_383, 5)?;
    Ok(Cut { list, chunks, first, later })
}

impl<'a> Cut<'a> {
    /// How many bytes of the body the first k chunks carry.
    fn carried(&self, k: usize) -> usize {
        let most = if k == 0 { 0 } else { self.first + (k - 1) * self.later };
        most.min(self.list.body.len())
    }

    /// The header and the property of chunk k.
    fn parts(&self, k: usize) -> (&'a [u8], &'a [u8]) {
        let header = if k == 1 { self.list.header } else { &[] };
        (header, &self.list.body[self.carried(k - 1)..self.carried(k)])
    }

    /// Its bytes: "Request id, header length (14 bits), header, frame count (14), frame number (14), property length (14),
    /// property."
    fn chunk(&self, k: usize) -> Vec<u8> {
        let (header, property) = self.parts(k);
        let field = |n: usize| [(n % 128) as u8, (n / 128) as u8];
        let mut bytes = vec![self.list.request_id];
        bytes.extend(field(header.len()));
        bytes.extend(header);
        [self.chunks, k, property.len()].iter().for_each(|n| bytes.extend(field(*n)));
        bytes.extend(property);
        bytes
    }

    /// "Is k from 1 to the count? 29. Buffer long enough? 3." The bytes of chunk k.
    pub fn written(&self, k: usize, room: usize) -> Asked<Vec<u8>> {
        ask((1..=self.chunks).contains(&k), 29)?;
        let bytes = self.chunk(k);
        ask(room >= bytes.len(), 3)?;
        Ok(bytes)
    }
}

/// How many bytes chunk k takes.
pub fn cut_chunk(list: List, k: usize, room: usize) -> Asked<usize> {
    Ok(cut(list)?.written(k, room)?.len())
}

/// All chunks at once, one behind the other, and their lengths: how many chunks, and how many bytes. Where the room for the bytes
/// or for the lengths is too short it is 3, asked last.
pub fn cut_all(list: List, room: usize, lengths_room: usize) -> Asked<(usize, usize)> {
    let chunks = cut(list)?.chunks;
    let need = list.header.len() + list.body.len() + 9 * chunks;
    ask(room >= need && lengths_room >= chunks, 3)?;
    Ok((chunks, need))
}

/// The bytes of all chunks.
pub fn split(list: List) -> Asked<Vec<Vec<u8>>> {
    let cut = cut(list)?;
    Ok((1..=cut.chunks).map(|k| cut.chunk(k)).collect())
}
