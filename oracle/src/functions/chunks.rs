//! frame.rs: chunks, and whole messages around them.
use crate::beyond::{self, Asked};
use crate::input::{from, Chunk, Whole};
use crate::inputs::{any_lists, change, changed, fill, lists, muids, random_muid, room, seven_bit, with_random_room, with_room};
use crate::inputs::{Each, KINDS};
use crate::outcome::{copy_in, Outcome, Refusal};
use crate::rng::Rng;
use midici_core::error::CiError;
use midici_core::header::CiHeader;
use midici_core::muid::Muid;
use midici_core::spec;
use midici_pe::frame::{PeChunk, PeChunkRef};

const LENGTHS: [usize; 4] = [0, 1, 16_383, 16_384];
const NUMBERS: [u16; 5] = [0, 1, 16_383, 16_384, 65_535];
/// More counts with a number next to each.
const NEIGHBOURS: [(u16, u16); 6] = [(1, 2), (2, 1), (2, 2), (2, 3), (16_382, 16_383), (16_383, 16_382)];
/// The last byte that a property may have, the next one, and the last of all.
const PROPERTY_BYTES: [u8; 3] = [0x7F, 0x80, 0xFF];
pub const IDS: [u8; 3] = [0x00, 0x7F, 0x80];

/// Bytes up to 7F, going up in a header and down in a body.
pub fn header(n: usize) -> Vec<u8> {
    (0..n).map(|i| (i % 127) as u8 + 1).collect()
}

pub fn body(n: usize) -> Vec<u8> {
    (0..n).map(|i| 127 - (i % 127) as u8).collect()
}

/// A body, and where it has bytes also with its first, its middle or its last one above 7F.
pub fn bodies(n: usize) -> Vec<Vec<u8>> {
    let high = [(0, 0x80), (n / 2, 0xFF), (n.saturating_sub(1), 0x80)];
    let high = high.iter().filter(|_| n > 0).map(|at| changed(&body(n), &[*at]));
    [body(n)].into_iter().chain(high).collect()
}

/// A header, and where it has bytes also with its first or its last one set to 80.
pub fn headers(n: usize) -> Vec<Vec<u8>> {
    let places = if n == 0 { vec![] } else { vec![0, n - 1] };
    let high = places.iter().map(|at| [&header(*at), &[0x80][..], &header(n - 1 - at)].concat());
    [header(n)].into_iter().chain(high).collect()
}

/// The bytes that a chunk of up to 11 bytes has at a place: those for the lengths, numbers and signs that matter there.
fn meant(at: usize) -> &'static [u8] {
    match at {
        0 => &[0x00, 0x7F, 0x80],
        2 | 9.. => &[0x00, 0x01, 0x80],
        _ => &[0x00, 0x01, 0x02, 0x7F, 0x80],
    }
}

/// Every chunk of up to 11 bytes over those bytes, those beyond their count, and the long ones.
pub fn to_decode(each: Each) {
    (0..=11).for_each(|n| fill(&mut vec![0; n], 0, &meant, each));
    beyond_chunks(each);
    long_chunks(each);
}

/// Every chunk of up to 11 bytes of a few, those beyond their count, and the long ones; with room for one byte less, for all, and
/// for one more.
pub fn to_rewrite(each: Each) {
    let mut roomy = |chunk: &[u8]| rooms(chunk.len()).iter().for_each(|room| each(&with_room(*room, chunk)));
    (1..=11).for_each(|n| lists(&[0x00, 0x01, 0x80], n, &mut roomy));
    beyond_chunks(&mut roomy);
    long_chunks(&mut roomy);
}

/// Chunks with lengths at boundaries, and with bytes above 7F at three places of the property.
fn long_chunks(each: Each) {
    for (header_len, property_len) in pairs(&[0, 1, 127, 128, 129, 16_383]) {
        for property in bodies(property_len) {
            faults(PeChunk { request_id: 5, header: header(header_len), num_chunks: 2, chunk_num: 1, property }, each);
        }
    }
}

/// Chunks of up to three property bytes around 7F, without a header or with one of a byte, and with numbers around the count.
fn beyond_chunks(each: Each) {
    beyond_fields(&mut |num_chunks, chunk_num, property| {
        let headers: &[&[u8]] = if chunk_num == 1 { &[b"", b"{"] } else { &[b""] };
        for header in headers {
            let (header, property) = (header.to_vec(), property.to_vec());
            faults(PeChunk { request_id: 5, header, num_chunks, chunk_num, property }, each);
        }
    });
}

/// Counts 0 to 3 with the numbers 0 to 4, and properties of up to three bytes around 7F.
fn beyond_fields(each: &mut dyn FnMut(u16, u16, &[u8])) {
    for (num_chunks, chunk_num) in (0..=3).flat_map(|count| (0..=4).map(move |number| (count, number))) {
        (0..=3).for_each(|n| lists(&PROPERTY_BYTES, n, &mut |property| each(num_chunks, chunk_num, property)));
    }
}

/// A chunk as it is, one byte short, with one byte more, and with one bit of the framing changed.
fn faults(chunk: PeChunk, each: Each) {
    let good = chunk.to_vec().expect("a chunk that the original writes");
    each(&good);
    each(&good[..good.len() - 1]);
    [0x00, 0xFF].iter().for_each(|more| each(&[&good, &[*more][..]].concat()));
    for at in (0..9).map(|i| if i < 3 { i } else { i + chunk.header.len() }) {
        [0x80, 0x01].iter().for_each(|bit| each(&changed(&good, &[(at, good[at] ^ bit)])));
    }
}

fn pairs(from: &[usize]) -> Vec<(usize, usize)> {
    from.iter().flat_map(|a| from.iter().map(|b| (*a, *b))).collect()
}

/// All chunks with lengths, count, number and id at boundaries, and headers and properties with and without a byte above 7F; and
/// those with few property bytes and numbers around the count.
fn chunks(each: &mut dyn FnMut(Chunk)) {
    let numbers = NUMBERS.iter().flat_map(|count| NUMBERS.map(|number| (*count, number)));
    let numbers: Vec<(u16, u16)> = numbers.chain(NEIGHBOURS).collect();
    for (header_len, property_len) in pairs(&LENGTHS) {
        let (headers, properties) = (headers(header_len), bodies(property_len));
        for (header, property) in headers.iter().flat_map(|header| properties.iter().map(move |property| (header, property))) {
            for (request_id, (num_chunks, chunk_num)) in IDS.iter().flat_map(|id| numbers.iter().map(|pair| (*id, *pair))) {
                each(Chunk { request_id, num_chunks, chunk_num, header, property });
            }
        }
    }
    beyond_fields(&mut |num_chunks, chunk_num, property| {
        for (request_id, header) in [(5, &b""[..]), (5, b"{"), (5, &[0x80]), (0x80, b"")] {
            each(Chunk { request_id, num_chunks, chunk_num, header, property });
        }
    });
}

/// The rooms around what is needed, and none.
fn rooms(need: usize) -> [usize; 4] {
    [0, need - 1, need, need + 1]
}

pub fn to_encode(each: Each) {
    chunks(&mut |chunk| rooms(chunk.need()).iter().for_each(|room| each(&with_room(*room, &chunk.bytes()))));
}

/// The chunks at boundaries; with a plain chunk all kinds, and all pairs of consoles at boundaries.
pub fn whole_to_encode(each: Each) {
    let mut written = |whole: Whole| {
        let need = 13 + whole.chunk.need();
        rooms(need).iter().for_each(|room| each(&with_room(*room, &whole.bytes())));
        each(&with_room(whole.chunk.need(), &whole.bytes()));
    };
    chunks(&mut |chunk| written(Whole { sub_id2: 0x34, source: 0x0102_0304, dest: 0x0FFF_FFFF, chunk }));
    let good = Chunk { request_id: 5, num_chunks: 1, chunk_num: 1, header: b"{}", property: &[0x7F] };
    let beyond = [Chunk { property: &[0xFF], ..good }, Chunk { chunk_num: 2, header: b"", ..good }];
    for chunk in [good, Chunk { chunk_num: 2, ..good }, Chunk { request_id: 0x80, ..good }].into_iter().chain(beyond) {
        any_lists(1, &mut |kind| written(Whole { sub_id2: kind[0], source: 5, dest: 6, chunk }));
        for (source, dest) in muids().into_iter().flat_map(|source| muids().into_iter().map(move |dest| (source, dest))) {
            [0x33, 0x3F].iter().for_each(|kind| written(Whole { sub_id2: *kind, source, dest, chunk }));
        }
    }
}

/// A length: mostly up to 20; around a power of two; now and then around 16,383.
fn length(rng: &mut Rng) -> usize {
    match rng.below(256) {
        0 => rng.around(16_383),
        1..=31 => rng.around(128),
        32..=63 => rng.below(300),
        _ => rng.below(21),
    }
}

/// A number of 14 bits, mostly small; now and then any of 16 bits, or at the end of the 14.
pub fn random_number(rng: &mut Rng) -> u16 {
    match rng.below(16) {
        0 => rng.draw() as u16,
        1..=2 => rng.around(16_383) as u16,
        3..=4 => rng.below(16_384) as u16,
        _ => rng.below(4) as u16,
    }
}

pub fn random_request_id(rng: &mut Rng) -> u8 {
    if rng.once_in(16) {
        rng.byte()
    } else {
        rng.byte() & 0x7F
    }
}

/// A header, once in sixteen with a byte of any value.
pub fn random_header(rng: &mut Rng, n: usize) -> Vec<u8> {
    let mut header = seven_bit(rng, n);
    if n > 0 && rng.once_in(16) {
        let at = rng.below(n);
        header[at] = rng.byte();
    }
    header
}

/// Bytes up to 7F, once in six with one above.
pub fn random_body(rng: &mut Rng, n: usize) -> Vec<u8> {
    let mut body = seven_bit(rng, n);
    if n > 0 && rng.once_in(6) {
        let any = rng.below(n);
        body[rng.pick(&[0, any, n - 1])] = rng.byte() | 0x80;
    }
    body
}

/// A count and a number: every second one within one of the other.
fn random_numbers(rng: &mut Rng) -> (u16, u16) {
    let num_chunks = random_number(rng);
    let near = rng.once_in(2);
    (num_chunks, if near { rng.around(num_chunks.into()) as u16 } else { random_number(rng) })
}

/// One that the original writes.
fn good(rng: &mut Rng) -> Vec<u8> {
    let with_header = rng.once_in(2);
    let header_len = if with_header { length(rng).min(16_383) } else { 0 };
    let property_len = length(rng).min(16_383);
    let (num_chunks, number) = random_numbers(rng);
    let chunk = PeChunk {
        request_id: rng.byte() & 0x7F,
        header: seven_bit(rng, header_len),
        num_chunks: num_chunks & 0x3FFF,
        chunk_num: if header_len > 0 { 1 } else { number & 0x3FFF },
        property: random_body(rng, property_len),
    };
    chunk.to_vec().expect("a good chunk")
}

/// A copy of a good chunk: once in eight as it is; else damaged.
pub fn damaged(rng: &mut Rng) -> Vec<u8> {
    let mut chunk = good(rng);
    damage(rng, &mut chunk);
    chunk
}

/// A good chunk is left as it is, or gets up to two bytes changed, is cut short, made longer, or gets a length off by one or
/// another number.
pub fn damage(rng: &mut Rng, chunk: &mut Vec<u8>) {
    let header_len = usize::from(chunk[1]) + 128 * usize::from(chunk[2]);
    match rng.below(8) {
        0 => (),
        1 | 2 => change(rng, chunk),
        3 => change_framing(rng, chunk, header_len),
        4 => chunk.truncate(rng.below(chunk.len())),
        5 => {
            let n = 1 + rng.below(3);
            chunk.extend(rng.bytes(n));
        }
        6 => {
            let at = rng.pick(&[1, 7 + header_len]);
            off_by_one(rng, &mut chunk[at..at + 2]);
        }
        _ => off_by_one(rng, &mut chunk[5 + header_len..7 + header_len]),
    }
}

/// One of the nine bytes besides header and property.
fn change_framing(rng: &mut Rng, chunk: &mut [u8], header_len: usize) {
    let at = rng.below(9);
    chunk[if at < 3 { at } else { at + header_len }] = rng.byte();
}

/// A field of 14 bits one higher or lower, around the end.
fn off_by_one(rng: &mut Rng, field: &mut [u8]) {
    let value = u16::from(field[0]) + 128 * u16::from(field[1]);
    let value = if rng.once_in(2) { value + 1 } else { value + 16_383 } % 16_384;
    field.copy_from_slice(&[(value % 128) as u8, (value / 128) as u8]);
}

/// A chunk's input for a writer, and how many bytes it takes, written; mostly without a header where the number is not 1.
fn written(rng: &mut Rng) -> (Vec<u8>, usize) {
    let (num_chunks, chunk_num) = random_numbers(rng);
    let header_len = if chunk_num == 1 || rng.once_in(8) { length(rng) } else { 0 };
    let property_len = length(rng);
    let (header, property) = (random_header(rng, header_len), random_body(rng, property_len));
    let chunk = Chunk { request_id: random_request_id(rng), num_chunks, chunk_num, header: &header, property: &property };
    (chunk.bytes(), chunk.need())
}

pub fn random_to_encode(rng: &mut Rng) -> Vec<u8> {
    let (input, need) = written(rng);
    with_random_room(rng, need, input)
}

pub fn random_to_rewrite(rng: &mut Rng) -> Vec<u8> {
    let chunk = if rng.once_in(2) { good(rng) } else { damaged(rng) };
    with_random_room(rng, chunk.len(), chunk)
}

pub fn random_whole_to_encode(rng: &mut Rng) -> Vec<u8> {
    let (input, need) = written(rng);
    let kind = if rng.once_in(8) { rng.byte() } else { rng.pick(&KINDS) };
    let whole = Whole { sub_id2: kind, source: random_muid(rng), dest: random_muid(rng), chunk: Chunk::read(&input) };
    with_random_room(rng, 13 + need, whole.bytes())
}

/// Request id, header length, count, number, and the property's place and length; header and property are shown as the output.
pub fn decode(data: &[u8], _: Vec<u8>) -> Outcome {
    match PeChunkRef::decode(data) {
        Ok(chunk) => {
            let at = |part: &[u8]| part.as_ptr() as usize - data.as_ptr() as usize;
            assert_eq!(at(chunk.header), 3, "the header's place in {data:02X?}");
            let header_len = chunk.header.len() as u64;
            let mut values = vec![chunk.request_id.into(), header_len, chunk.num_chunks.into(), chunk.chunk_num.into()];
            values.extend([at(chunk.property) as u64, chunk.property.len() as u64]);
            Outcome { reply: Ok(values), out: [chunk.header, chunk.property].concat() }
        }
        Err(e) => Outcome::of(Err(e.into())),
    }
}

/// By document 02; so too of the next three that end so.
pub fn decode_by_02(data: &[u8]) -> Asked<Vec<u64>> {
    let Chunk { request_id, num_chunks, chunk_num, header, property } = beyond::read(data)?;
    let (header_len, property_len) = (header.len() as u64, property.len() as u64);
    Ok(vec![request_id.into(), header_len, num_chunks.into(), chunk_num.into(), 9 + header_len, property_len])
}

fn owned(chunk: Chunk) -> PeChunk {
    let Chunk { request_id, num_chunks, chunk_num, header, property } = chunk;
    PeChunk { request_id, header: header.to_vec(), num_chunks, chunk_num, property: property.to_vec() }
}

pub fn encode(input: &[u8], mut out: Vec<u8>) -> Outcome {
    let reply = owned(Chunk::read(from(input, 2))).encode(&mut out).map(|n| vec![n as u64]).map_err(Refusal::from);
    Outcome { reply, out }
}

pub fn encode_by_02(input: &[u8]) -> Asked<Vec<u64>> {
    beyond::write(Chunk::read(from(input, 2)), room(input)).map(|n| vec![n as u64])
}

/// The original's view made its own and written again.
pub fn rewrite(input: &[u8], mut out: Vec<u8>) -> Outcome {
    let written = PeChunkRef::decode(from(input, 2)).and_then(|chunk| chunk.to_owned().encode(&mut out));
    Outcome { reply: written.map(|n| vec![n as u64]).map_err(Refusal::from), out }
}

pub fn rewrite_by_02(input: &[u8]) -> Asked<Vec<u64>> {
    beyond::write(beyond::read(from(input, 2))?, room(input)).map(|n| vec![n as u64])
}

/// The original has no such function: this is its header's writer and then its chunk's, in document 01's order of questions:
/// "asking consoles (28), a kind that carries a frame (24), then the frame's questions, with the buffer (3) measured for both".
pub fn whole_encode(input: &[u8], mut out: Vec<u8>) -> Outcome {
    let reply = whole_bytes(Whole::read(input)).and_then(|bytes| copy_in(&bytes, &mut out));
    Outcome { reply, out }
}

pub fn whole_encode_by_02(input: &[u8]) -> Asked<Vec<u64>> {
    beyond::write_message(Whole::read(input), room(input)).map(|n| vec![n as u64])
}

fn whole_bytes(whole: Whole) -> Result<Vec<u8>, Refusal> {
    let Whole { sub_id2, source, dest, chunk } = whole;
    let header = CiHeader { device_id: 0x7F, sub_id2, version: 2, source: Muid::from_u32(source)?, dest: Muid::from_u32(dest)? };
    if !spec::is_pe_chunked_sub_id(sub_id2) {
        return Err(CiError::UnsupportedSubId2(sub_id2).into());
    }
    let chunk = owned(chunk).to_vec()?;
    let mut bytes = vec![0; spec::CI_HEADER_LEN];
    header.encode(&mut bytes)?;
    bytes.extend(chunk);
    Ok(bytes)
}
