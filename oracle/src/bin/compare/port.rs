//! The port's answers, through the exports of crates/hub_c, hub_message and codec_exports_c.
use exports::Refusing;
use midici_core::spec::CI_HEADER_LEN;
use oracle::case::Case;
use oracle::input::{from, header_and_rest, long_words, u16_at, u32_at, u64_at, u8_at, words, Chunk, Fields, List, Whole};
use oracle::op::Op;
use oracle::outcome::{Outcome, Refusal, Reply};

/// What an output that is lent holds before a call.
pub fn fill(at: usize) -> u8 {
    (at * 73 + 0xA5) as u8
}

/// What the port answers, or how its answer is none that document 01 knows.
pub type Found<T> = Result<T, String>;

/// The port's answer to a case, with the output that is lent.
pub fn answer(case: &Case, mut lent: Vec<u8>) -> Found<Outcome> {
    let (input, out) = (&case.input[..], &mut lent[..]);
    let reply = match case.op {
        Op::ReadU14Le7 => count(exports::codec_read_u14_le7(input)),
        Op::WriteU14Le7 => count(exports::codec_write_u14_le7(u16_at(input, 2), out)),
        Op::MuidFromU32 => count(exports::codec_muid_from_u32(u32_at(input, 0))),
        Op::MuidOrdinary => count(exports::codec_muid_ordinary(u32_at(input, 0))),
        Op::MuidIsBroadcast => granted([exports::codec_muid_is_broadcast(u32_at(input, 0))]),
        Op::MuidIsReserved => granted([exports::codec_muid_is_reserved(u32_at(input, 0))]),
        Op::MuidEncode7bitLe => granted(muid_encode_7bit_le(u32_at(input, 0))),
        Op::MuidDecode7bitLe => count(exports::codec_muid_decode_7bit_le(&u32_at(input, 0).to_le_bytes())),
        Op::MuidGenerate => muid_generate(&words(input)),
        Op::HeaderDecode => header_decode(input),
        Op::HeaderEncode => count(exports::codec_header_encode(header(input), out)),
        Op::IsPeChunkedSubId => granted([exports::codec_is_pe_chunked_sub_id(u8_at(input, 0))]),
        Op::KindOf => kind_of(u8_at(input, 0)),
        Op::CapsDecode => caps_decode(input),
        Op::CapsEncode => caps_encode(header(input), from(input, Fields::END), out),
        Op::MessageDecode => return message_decode(input),
        Op::MessageEncode => count(exports::codec_message_encode(header(input), from(input, Fields::END), out)),
        Op::Mcoded7Decode => count(exports::codec_mcoded7_decode(from(input, 2), out)),
        Op::Mcoded7Encode => count(exports::codec_mcoded7_encode(from(input, 2), out)),
        Op::FirstRequestId => granted([exports::codec_first_request_id()]),
        Op::AllocOutRequestId => alloc_out_request_id(u8_at(input, 0)),
        Op::NegotiatedRequests => granted([exports::codec_negotiated_requests(u8_at(input, 0), u8_at(input, 1))]),
        Op::ChunkDecode => return chunk_decode(input),
        Op::ChunkEncode => chunk_encode(Chunk::read(from(input, 2)), out),
        Op::ChunkRewrite => count(exports::codec_rewrite(from(input, 2), out)),
        Op::ClampMaxSysex => granted([exports::codec_clamp_max_sysex(u32_at(input, 0))]),
        Op::PePayloadBudget => granted([exports::codec_pe_payload_budget(u32_at(input, 0))]),
        Op::LaterCapacity => granted([exports::codec_later_chunk_property_capacity(u32_at(input, 0))]),
        Op::FirstCapacity => count(exports::codec_first_chunk_property_capacity(u32_at(input, 0), u64_at(input, 4) as usize)),
        Op::ChunkCount => chunk_count(List::read(input)),
        Op::SplitChunk => split_chunk(List::read(from(input, 4)), u16_at(input, 2), out),
        Op::WholeEncode => whole_encode(Whole::read(input), out),
        Op::Position => position(&long_words(from(input, 2)), u16_at(input, 0)),
        Op::SyxList => return syx_list(u16_at(input, 0).into(), from(input, 4), long_words(out)),
        Op::HeaderFind => header_find(header_and_rest(input, 0)),
        Op::Split => split(List::read(from(input, 6)), out.split_at_mut(u32_at(input, 0) as usize)),
    };
    Ok(Outcome { reply: reply?, out: lent })
}

/// The refusal, or else what is granted. A refusal with anything granted beside it, or a grant with a refusal's value, is no
/// answer.
pub fn reply<A: Refusing>(answer: A, granted: impl Fn(&A) -> Vec<u64>) -> Found<Reply> {
    let (number, value) = (answer.refusal(), answer.value());
    match number {
        0 if value == 0 => Ok(Ok(granted(&answer))),
        0 => Err(format!("value {value} beside a grant of {:?}", granted(&answer))),
        _ if answer.grants_nothing() => Ok(Err(Refusal { number, value })),
        _ => Err(format!("refusal {number} beside a grant of {:?}", granted(&answer))),
    }
}

fn granted<T: Into<u64>>(values: impl IntoIterator<Item = T>) -> Found<Reply> {
    Ok(Ok(values.into_iter().map(Into::into).collect()))
}

pub fn count(answer: exports::Answer) -> Found<Reply> {
    reply(answer, |exports::Answer { refusal: _, value: _, count }| vec![*count])
}

fn muid_encode_7bit_le(value: u32) -> [u8; 4] {
    let mut bytes = [0xEE; 4];
    exports::codec_muid_encode_7bit_le(value, &mut bytes);
    bytes
}

fn muid_generate(words: &[u32]) -> Found<Reply> {
    let exports::GeneratedAnswer { found, number } = exports::codec_muid_generate(words);
    granted([found.into(), number])
}

fn fields(header: exports::HeaderFields) -> Fields {
    let exports::HeaderFields { device_id, sub_id2, version, source, dest } = header;
    Fields { device_id, sub_id2, version, source, dest }
}

fn header(input: &[u8]) -> exports::HeaderFields {
    let Fields { device_id, sub_id2, version, source, dest } = Fields::read(input);
    exports::HeaderFields { device_id, sub_id2, version, source, dest }
}

fn header_decode(body: &[u8]) -> Found<Reply> {
    reply(exports::codec_header_decode(body), |exports::HeaderAnswer { refusal: _, value: _, header }| fields(*header).values())
}

fn kind_of(kind: u8) -> Found<Reply> {
    let exports::KindAnswer { known, sub_id2, chunked, reply } = exports::codec_kind_of(kind);
    granted([known, sub_id2, chunked, reply])
}

fn caps_encode(header: exports::HeaderFields, data: &[u8], out: &mut [u8]) -> Found<Reply> {
    count(exports::codec_caps_encode(header, u8_at(data, 0), u8_at(data, 1), u8_at(data, 2), out))
}

fn caps_decode(body: &[u8]) -> Found<Reply> {
    let answer = exports::codec_caps_decode(body);
    let exports::CapsAnswer { refusal: _, value: _, header, simultaneous_requests, pe_major, pe_minor } = answer;
    let data = [simultaneous_requests, pe_major, pe_minor].map(u64::from);
    reply(answer, |_| [&fields(header).values()[..], &data].concat())
}

/// The part of a message or of a chunk that an answer names.
fn part(of: &[u8], at: u64, len: u64) -> Found<&[u8]> {
    let end = at.checked_add(len).and_then(|end| usize::try_from(end).ok());
    let part = end.and_then(|end| of.get(at as usize..end));
    part.ok_or_else(|| format!("{len} bytes at {at}, of {}", of.len()))
}

/// The payload is shown as the output: it stands behind the header.
fn message_decode(body: &[u8]) -> Found<Outcome> {
    let answer = exports::codec_message_decode(body);
    let exports::MessageAnswer { refusal, value: _, header, payload_at, payload_len } = answer;
    let payload = part(body, payload_at, payload_len)?.to_vec();
    if refusal == 0 && payload_at != CI_HEADER_LEN as u64 {
        return Err(format!("a payload at {payload_at}"));
    }
    Ok(Outcome { reply: reply(answer, |_| fields(header).values())?, out: payload })
}

fn alloc_out_request_id(counter: u8) -> Found<Reply> {
    let exports::RequestId { request_id, counter } = exports::midici_pe_alloc_out_request_id(counter);
    granted([request_id, counter])
}

/// Header and property are shown as the output: the header stands at 3.
fn chunk_decode(data: &[u8]) -> Found<Outcome> {
    let answer = exports::codec_decode_fields(data);
    let exports::ChunkAnswer { refusal, value: _, request_id, header_len, num_chunks, chunk_num, property_at, property_len } =
        answer;
    let header = if refusal == 0 { part(data, 3, header_len)? } else { &[] };
    let out = [header, part(data, property_at, property_len)?].concat();
    let values = |_: &_| vec![request_id.into(), header_len, num_chunks.into(), chunk_num.into(), property_at, property_len];
    Ok(Outcome { reply: reply(answer, values)?, out })
}

/// Is a chunk that the port reads written again as it was, by its bytes and by the fields that were read?
pub fn round_trip(data: &[u8]) -> Found<()> {
    let exports::ChunkAnswer { refusal: _, value: _, request_id, header_len, num_chunks, chunk_num, property_at, property_len } =
        exports::codec_decode_fields(data);
    let (header, property) = (part(data, 3, header_len)?, part(data, property_at, property_len)?);
    let chunk = Chunk { request_id, num_chunks, chunk_num, header, property };
    let same = |write: &dyn Fn(&mut [u8]) -> Found<Reply>| {
        let mut out = vec![0xEE; data.len()];
        Found::Ok(write(&mut out)? == Ok(vec![data.len() as u64]) && out == data)
    };
    if same(&|out| count(exports::codec_rewrite(data, out)))? && same(&|out| chunk_encode(chunk, out))? {
        return Ok(());
    }
    Err("it is read, and not written again as it was".into())
}

fn chunk_encode(chunk: Chunk, out: &mut [u8]) -> Found<Reply> {
    let Chunk { request_id, num_chunks, chunk_num, header, property } = chunk;
    count(exports::codec_encode_chunk(request_id, header, num_chunks, chunk_num, property, out))
}

fn chunk_count(list: List) -> Found<Reply> {
    let List { request_id, max_sysex, header, body } = list;
    count(exports::midici_pe_chunk_count(request_id, header, body, max_sysex))
}

fn split_chunk(list: List, chunk_num: u16, out: &mut [u8]) -> Found<Reply> {
    let List { request_id, max_sysex, header, body } = list;
    count(exports::midici_pe_split_chunk(request_id, header, body, max_sysex, chunk_num, out))
}

/// The chunks go into the room, their lengths into the places behind it, two bytes each.
fn split(list: List, (room, places): (&mut [u8], &mut [u8])) -> Found<Reply> {
    let List { request_id, max_sysex, header, body } = list;
    let mut lengths: Vec<u16> = (0..places.len() / 2).map(|k| u16_at(places, 2 * k)).collect();
    let answer = exports::midici_pe_split(request_id, header, body, max_sysex, room, &mut lengths);
    places.chunks_exact_mut(2).zip(lengths).for_each(|(place, length)| place.copy_from_slice(&length.to_le_bytes()));
    reply(answer, |exports::CutAnswer { refusal: _, chunks, bytes }| vec![*chunks, *bytes])
}

fn whole_encode(whole: Whole, out: &mut [u8]) -> Found<Reply> {
    let Whole { sub_id2, source, dest, chunk } = whole;
    let Chunk { request_id, num_chunks, chunk_num, header, property } = chunk;
    count(exports::midici_pe_encode_message(sub_id2, source, dest, request_id, header, num_chunks, chunk_num, property, out))
}

fn position(index: &[u64], chunk_num: u16) -> Found<Reply> {
    let exports::PlaceAnswer { found, place } = exports::codec_position(index, chunk_num);
    granted([found.into(), place])
}

/// The first words are the column of places, the others that of lengths; both are shown as the output.
fn syx_list(places_room: usize, file: &[u8], mut columns: Vec<u64>) -> Found<Outcome> {
    let (places, lengths) = columns.split_at_mut(places_room);
    let answer = exports::midici_pe_syx_list(file, places, lengths);
    let reply = reply(answer, |exports::SyxAnswer { refusal: _, messages, torn }| vec![*messages, *torn])?;
    Ok(Outcome { reply, out: columns.iter().flat_map(|word| word.to_le_bytes()).collect() })
}

fn header_find((header, name): (&[u8], &[u8])) -> Found<Reply> {
    let answer = exports::midici_pe_header_find(header, name);
    reply(answer, |exports::FoundAnswer { refusal: _, kind, place, length }| vec![u64::from(*kind), *place, *length])
}
