//! chunker.rs: capacities, and lists that are cut. Of K6's limits, which the original takes as 4,096, a reading gives the answers.
use super::chunks::{bodies, body, header, headers, random_body, random_header, random_number, random_request_id, IDS};
use crate::beyond::Asked;
use crate::cut;
use crate::input::{from, u16_at, u32_at, u64_at, List};
use crate::inputs::{changed, random_room, room, with_random_room, with_room, Each};
use crate::layout::HEADER_BYTES;
use crate::outcome::{copy_in, Outcome, Refusal};
use crate::rng::Rng;
use midici_pe::chunker::{self, first_chunk_property_capacity, later_chunk_property_capacity};
use std::fmt::Debug;

const LIMITS: [u32; 14] = [0, 127, 128, 129, 130, 256, 4_095, 4_096, 4_097, 5_000, 16_383, 16_384, 16_385, u32::MAX];

/// All limits up to 20,000, and the last ones.
pub fn limits(each: Each) {
    (0..=20_000).chain(u32::MAX - 5_000..=u32::MAX).for_each(|limit: u32| each(&limit.to_le_bytes()));
}

/// Header lengths around every budget, and the last ones that the original can add to.
pub fn header_lengths(each: Each) {
    let last = u64::MAX - 9;
    let lengths = (0..=5_000).chain(16_350..=16_390).chain([1 << 31, 1 << 32, 1 << 63]).chain(last - 3..=last);
    for header_len in lengths {
        LIMITS.iter().for_each(|limit| each(&[&limit.to_le_bytes()[..], &header_len.to_le_bytes()].concat()));
    }
}

/// How many bytes of the body the first chunk carries; none where the header does not fit.
fn first(max_sysex: u32, header_len: usize) -> usize {
    cut::first(max_sysex, header_len).unwrap_or(0)
}

/// Body lengths within one of what the first chunk carries, alone and with one to three later ones; and 0 and 1.
fn body_lengths(max_sysex: u32, header_len: usize) -> Vec<usize> {
    let (first, later) = (first(max_sysex, header_len), cut::later(max_sysex));
    let full = (0..=3).flat_map(|n| (0..3).map(move |d| (first + n * later + d).saturating_sub(1)));
    let mut lengths: Vec<usize> = [0, 1].into_iter().chain(full).collect();
    lengths.sort();
    lengths.dedup();
    lengths
}

/// At small limits all header lengths from 0 to 130, at others some of them; and some around what a chunk, a table and a field
/// hold.
fn header_lens(max_sysex: u32) -> impl Iterator<Item = usize> {
    let longer = [4_071, 4_072, 4_073, 4_095, 4_096, 4_097, 16_360, 16_361, 16_383, 16_384, 16_385];
    (0..=130).step_by(if max_sysex <= 256 { 1 } else { 13 }).chain(longer)
}

/// Lists with these headers, each also with a byte of its body above 7F; then a few that the first questions turn down, or not.
fn lists(each: &mut dyn FnMut(List)) {
    for (max_sysex, n) in LIMITS.iter().flat_map(|limit| header_lens(*limit).map(|n| (*limit, n))) {
        let header = &header(n)[..];
        for body_len in body_lengths(max_sysex, n) {
            let body = &body(body_len)[..];
            each(List { request_id: 5, max_sysex, header, body });
            if let Some(at) = high_place(max_sysex, n, body_len) {
                each(List { request_id: 5, max_sysex, header, body: &changed(body, &[(at, 0x80)]) });
            }
        }
    }
    for (request_id, n) in IDS.iter().flat_map(|id| [0, 1, 104, 105, 16_383, 16_384].map(|n| (*id, n))) {
        for (header, len) in headers(n).iter().flat_map(|header| [0, 1, 300].map(|len| (header, len))) {
            bodies(len).iter().for_each(|body| each(List { request_id, max_sysex: 128, header, body }));
        }
    }
    every_place(each);
}

/// One of a body's places: by the header's length the first, the last of the first piece, the one behind it, or the last.
fn high_place(max_sysex: u32, header_len: usize, body_len: usize) -> Option<usize> {
    let first = first(max_sysex, header_len);
    let place = [0, first.saturating_sub(1), first, body_len.saturating_sub(1)][header_len % 4];
    (body_len > 0).then(|| place.min(body_len - 1))
}

/// A body of four pieces with a byte around 7F at each of its places.
fn every_place(each: &mut dyn FnMut(List)) {
    let good = body(90 + 3 * 104);
    for (at, byte) in (0..good.len()).flat_map(|at| [0x7F, 0x80, 0xFF].map(|byte| (at, byte))) {
        each(List { request_id: 5, max_sysex: 128, header: b"{\"a\":\"bcde\"}", body: &changed(&good, &[(at, byte)]) });
    }
}

/// At limit 128, bodies within one of what the most chunks carry, and one of 65,537 chunks; also with the last byte above 7F.
fn long_lists(each: &mut dyn FnMut(List)) {
    for n in [0, 1, 104] {
        let full = (104 - n) + 16_382 * 104;
        for len in [full - 1, full, full + 1, (104 - n) + 65_536 * 104] {
            let (header, body) = (&header(n)[..], body(len));
            each(List { request_id: 5, max_sysex: 128, header, body: &body });
            each(List { request_id: 5, max_sysex: 128, header, body: &changed(&body, &[(len - 1, 0xFF)]) });
        }
    }
}

pub fn to_count(each: Each) {
    lists(&mut |list| each(&list.bytes()));
    long_lists(&mut |list| each(&list.bytes()));
}

fn split_case(room: usize, chunk_num: usize, list: List) -> Vec<u8> {
    with_room(room, &[&(chunk_num as u16).to_le_bytes()[..], &list.bytes()].concat())
}

/// Every chunk of every list, with room one short, exact and one more; and the numbers that no chunk has. Of the long lists
/// the first and the last chunks.
pub fn to_split(each: Each) {
    let mut cut = |list: List, places: &dyn Fn(usize) -> Vec<usize>| {
        let chunks = split(list).unwrap_or_default();
        for k in places(chunks.len()) {
            let len = chunks[k - 1].len();
            (len - 1..=len + 1).for_each(|room| each(&split_case(room, k, list)));
        }
        for k in [0, chunks.len() + 1, 65_535] {
            [0, 16_384].iter().for_each(|room| each(&split_case(*room, k, list)));
        }
    };
    lists(&mut |list| cut(list, &|count| (1..=count).collect()));
    long_lists(&mut |list| cut(list, &|count| [1, 2, count - 1, count].into_iter().filter(|_| count > 0).collect()));
}

fn split_all_case(room: usize, lengths_room: usize, list: List) -> Vec<u8> {
    [&(room as u32).to_le_bytes()[..], &(lengths_room as u16).to_le_bytes(), &list.bytes()].concat()
}

/// How many bytes its output has: room for the chunks, and behind it two bytes for each length.
pub fn chunks_room(input: &[u8]) -> usize {
    u32_at(input, 0) as usize + 2 * usize::from(u16_at(input, 4))
}

/// Every list, with room and places that just hold all, or more; with one of them one short; and with none.
pub fn to_split_all(each: Each) {
    let mut cut = |list: List| {
        let chunks = split(list).unwrap_or_default();
        let (need, count) = (chunks.iter().map(Vec::len).sum::<usize>(), chunks.len());
        let short = [(need.saturating_sub(1), count), (need, count.saturating_sub(1)), (0, count), (need, 0), (0, 0)];
        for (room, lengths_room) in [(need, count), (need + 3, count + 2)].into_iter().chain(short) {
            each(&split_all_case(room, lengths_room, list));
        }
    };
    lists(&mut cut);
    long_lists(&mut cut);
}

/// A limit: at a boundary, any between them, or any at all.
pub fn any_limit(rng: &mut Rng) -> u32 {
    match rng.below(16) {
        0 => rng.draw() as u32,
        1..=3 => 100 + rng.below(4_100) as u32,
        4..=5 => 4_000 + rng.below(12_500) as u32,
        _ => rng.pick(&LIMITS),
    }
}

pub fn random_header_length(rng: &mut Rng) -> Vec<u8> {
    let limit = any_limit(rng);
    let later = cut::later(limit);
    let header_len = if rng.once_in(2) { rng.around(later) } else { rng.below(later + 100) };
    [&limit.to_le_bytes()[..], &(header_len as u64).to_le_bytes()].concat()
}

/// A list's input: a header around what the first chunk or a table holds or shorter, and a body around a multiple of what the
/// chunks carry, or any.
pub fn random_to_count(rng: &mut Rng) -> Vec<u8> {
    let max_sysex = if rng.once_in(2) { 128 } else { any_limit(rng) };
    let later = cut::later(max_sysex);
    let header_len = if rng.once_in(8) { rng.around(later.min(HEADER_BYTES)) } else { rng.below(60) };
    let first = first(max_sysex, header_len);
    let chunks = if rng.once_in(64) { rng.below(40) } else { rng.below(4) };
    let body_len = if rng.once_in(2) { rng.around(first + chunks * later) } else { rng.below(120) };
    let (header, body) = (random_header(rng, header_len), random_body(rng, body_len));
    List { request_id: random_request_id(rng), max_sysex, header: &header, body: &body }.bytes()
}

/// A chunk of a list: mostly one of the first ones or the last; with room mostly around what it takes.
pub fn random_to_split(rng: &mut Rng) -> Vec<u8> {
    let input = random_to_count(rng);
    let chunks = split(List::read(&input)).unwrap_or_default();
    let chunk_num = if rng.once_in(8) { random_number(rng).into() } else { rng.below(chunks.len() + 2) };
    let need = chunk_num.checked_sub(1).and_then(|k| chunks.get(k)).map_or(9, Vec::len);
    with_random_room(rng, need, [&(chunk_num as u16).to_le_bytes()[..], &input].concat())
}

/// All chunks of a list, with room and places mostly around what they take, each by itself.
pub fn random_to_split_all(rng: &mut Rng) -> Vec<u8> {
    let input = random_to_count(rng);
    let list = List::read(&input);
    let chunks = split(list).unwrap_or_default();
    let (need, count) = (chunks.iter().map(Vec::len).sum(), chunks.len());
    let exact = rng.once_in(3);
    let mut room = |need| if exact { need } else { random_room(rng, need) };
    split_all_case(room(need), room(count), list)
}

pub fn random_limit(rng: &mut Rng) -> Vec<u8> {
    any_limit(rng).to_le_bytes().to_vec()
}

/// What the reading makes of the limit in front of an input, and, if it is none of K6's, the original too.
fn of_limit<T: PartialEq + Debug>(input: &[u8], original: fn(u32) -> T, reading: fn(u32) -> T) -> T {
    let limit = u32_at(input, 0);
    let read = reading(limit);
    assert!(cut::is_larger(limit) || original(limit) == read, "limit {limit}: the original is not what is read, {read:?}");
    read
}

pub fn clamp_max_sysex(input: &[u8], _: Vec<u8>) -> Outcome {
    Outcome::granted([of_limit(input, chunker::clamp_max_sysex, cut::clamped)])
}

pub fn pe_payload_budget(input: &[u8], _: Vec<u8>) -> Outcome {
    Outcome::granted([of_limit(input, chunker::pe_payload_budget, cut::budget) as u64])
}

pub fn later_capacity(input: &[u8], _: Vec<u8>) -> Outcome {
    Outcome::granted([of_limit(input, later_chunk_property_capacity, cut::later) as u64])
}

/// No case has a length from 2^64 - 9 on: there the original's sum overflows.
pub fn first_capacity(input: &[u8], _: Vec<u8>) -> Outcome {
    let (limit, header_len) = (u32_at(input, 0), u64_at(input, 4) as usize);
    let read = cut::first(limit, header_len).map_err(|no| no.refusal);
    let original = || first_chunk_property_capacity(limit, header_len).map_err(Refusal::from);
    assert!(cut::is_larger(limit) || original() == read, "limit {limit}, header {header_len}: the original is not what is read");
    Outcome::of(read.map(|n| vec![n as u64]))
}

pub fn chunk_count(input: &[u8], _: Vec<u8>) -> Outcome {
    Outcome::of(split(List::read(input)).map(|chunks| vec![chunks.len() as u64]))
}

/// By document 02; so too of the next two that end so.
pub fn chunk_count_by_02(input: &[u8]) -> Asked<Vec<u64>> {
    Ok(vec![cut::cut(List::read(input))?.chunks as u64])
}

/// All chunks: the original's, which are the reading's too where K3 turns nothing down; or of K6's limits the reading's.
pub fn split(list: List) -> Result<Vec<Vec<u8>>, Refusal> {
    let read = cut::split(list);
    if cut::is_larger(list.max_sysex) {
        return read.map_err(|no| no.refusal);
    }
    let original = chunker::split(list.request_id, list.header, list.body, list.max_sysex);
    assert!(read.is_err() || original.as_ref().ok() == read.as_ref().ok(), "a list of the original is not what is read");
    original.map_err(Refusal::from)
}

/// The original returns all chunks where the port writes one, so the last two questions are document 01's: "Is k from 1 to the
/// count? 29. Buffer long enough? 3."
pub fn split_chunk(input: &[u8], mut out: Vec<u8>) -> Outcome {
    let out_of_range = Refusal { number: 29, value: 0 };
    let reply = split(List::read(from(input, 4))).and_then(|chunks| {
        let place = usize::from(u16_at(input, 2)).checked_sub(1).ok_or(out_of_range)?;
        copy_in(chunks.get(place).ok_or(out_of_range)?, &mut out)
    });
    Outcome { reply, out }
}

pub fn split_chunk_by_02(input: &[u8]) -> Asked<Vec<u64>> {
    let chunk = cut::cut_chunk(List::read(from(input, 4)), u16_at(input, 2).into(), room(input));
    chunk.map(|n| vec![n as u64])
}

/// All that the original returns: the chunks one behind the other, and in the places behind their room the lengths. The last
/// question is the port's: 3 where one of the two is too short.
pub fn split_all(input: &[u8], mut out: Vec<u8>) -> Outcome {
    let (room, places) = out.split_at_mut(u32_at(input, 0) as usize);
    let reply = split(List::read(from(input, 6))).and_then(|chunks| {
        let lengths: Vec<u8> = chunks.iter().flat_map(|chunk| (chunk.len() as u16).to_le_bytes()).collect();
        let bytes = chunks.concat();
        if bytes.len() > room.len() || lengths.len() > places.len() {
            return Err(Refusal { number: 3, value: 0 });
        }
        copy_in(&lengths, places)?;
        copy_in(&bytes, room)?;
        Ok(vec![chunks.len() as u64, bytes.len() as u64])
    });
    Outcome { reply, out }
}

pub fn split_all_by_02(input: &[u8]) -> Asked<Vec<u64>> {
    let all = cut::cut_all(List::read(from(input, 6)), u32_at(input, 0) as usize, u16_at(input, 4).into());
    all.map(|(chunks, bytes)| vec![chunks as u64, bytes as u64])
}
