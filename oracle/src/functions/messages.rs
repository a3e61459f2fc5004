//! header.rs, spec.rs, pe_caps.rs and pe_msg.rs: CI messages.
use crate::input::{from, u8_at, Fields};
use crate::inputs::{any_lists, changed, lists, muids, random_muid, random_version, seven_bit, with_random_room, with_room};
use crate::inputs::{Each, BYTES, KINDS, VERSIONS};
use crate::outcome::{Outcome, Refusal};
use crate::rng::Rng;
use midici_core::error::CiError;
use midici_core::header::CiHeader;
use midici_core::muid::Muid;
use midici_core::pe_caps::PeCapabilities;
use midici_core::pe_msg::PeMessage;
use midici_core::spec;

const FEW: [u8; 6] = [0x00, 0x0D, 0x7E, 0x7F, 0x80, 0xFF];

/// A good message of a kind and a version.
fn message(kind: u8, version: u8, data: &[u8]) -> Vec<u8> {
    let header = [0x7E, 0x7F, 0x0D, kind, version, 0x01, 0x02, 0x03, 0x04, 0x7F, 0x7F, 0x7F, 0x7F];
    [&header, data].concat()
}

/// A good message at every length up to 20, each of its bytes set to each value, and each two set to values at boundaries,
/// at its length and one byte shorter.
fn damaged(good: &[u8], each: Each) {
    for n in 0..=20 {
        let mut cut = good.to_vec();
        cut.resize(n, 0x7F);
        each(&cut);
    }
    for at in 0..good.len() {
        any_lists(1, &mut |b| each(&changed(good, &[(at, b[0])])));
        for second in 0..at {
            lists(&FEW, 2, &mut |b| {
                let twice = changed(good, &[(at, b[0]), (second, b[1])]);
                each(&twice);
                each(&twice[..good.len() - 1]);
            });
        }
    }
}

/// A message with a good header, of one of the kinds or of any, and up to seven bytes behind it; then, every second time,
/// up to three bytes are changed or the message is cut or made longer.
fn random_damaged(rng: &mut Rng, kinds: &[u8]) -> Vec<u8> {
    let kind = if kinds.is_empty() || rng.once_in(8) { rng.byte() } else { rng.pick(kinds) };
    let mut message = vec![0x7E, rng.byte(), 0x0D, kind, random_version(rng)];
    let rest = 8 + rng.below(8);
    message.extend(seven_bit(rng, rest));
    if rng.once_in(2) {
        return message;
    }
    for _ in 0..rng.below(4) {
        let at = rng.below(message.len());
        message[at] = rng.byte();
    }
    if rng.once_in(3) {
        message.resize(rng.below(21), 0x7F);
    }
    message
}

/// Header fields with all kinds and versions at boundaries, and all pairs of consoles at boundaries.
fn all_fields(each: &mut dyn FnMut(Fields)) {
    let plain = Fields { device_id: 0x7F, sub_id2: 0x34, version: 2, source: 0x0102_0304, dest: 0x0FFF_FFFF };
    any_lists(1, &mut |b| VERSIONS.iter().for_each(|v| each(Fields { device_id: b[0], sub_id2: b[0], version: *v, ..plain })));
    for source in muids() {
        muids().iter().for_each(|dest| each(Fields { source, dest: *dest, ..plain }));
    }
}

/// A writer's input: the room around what is needed, a header, and what stands behind it.
fn random_written(rng: &mut Rng, need: usize, rest: &[u8]) -> Vec<u8> {
    let kind = if rng.once_in(2) { rng.byte() } else { rng.pick(&KINDS) };
    let (device_id, version) = (rng.byte(), random_version(rng));
    let fields = Fields { device_id, sub_id2: kind, version, source: random_muid(rng), dest: random_muid(rng) };
    with_random_room(rng, need, [&fields.bytes(), rest].concat())
}

fn fields(header: CiHeader) -> Fields {
    Fields {
        device_id: header.device_id,
        sub_id2: header.sub_id2,
        version: header.version,
        source: header.source.to_u32(),
        dest: header.dest.to_u32(),
    }
}

/// The header of a writer's input. A number above 28 bits is refused here: the original's header cannot hold it.
fn header(input: &[u8]) -> Result<CiHeader, CiError> {
    let Fields { device_id, sub_id2, version, source, dest } = Fields::read(input);
    Ok(CiHeader { device_id, sub_id2, version, source: Muid::from_u32(source)?, dest: Muid::from_u32(dest)? })
}

fn encoded(input: &[u8], mut out: Vec<u8>, write: impl Fn(CiHeader, &mut [u8]) -> Result<usize, CiError>) -> Outcome {
    let written = header(input).and_then(|header| write(header, &mut out));
    Outcome { reply: written.map(|n| vec![n as u64]).map_err(Refusal::from), out }
}

pub fn headers(each: Each) {
    damaged(&message(0x34, 2, &[]), each);
}

pub fn random_header(rng: &mut Rng) -> Vec<u8> {
    random_damaged(rng, &[])
}

pub fn header_decode(input: &[u8], _: Vec<u8>) -> Outcome {
    Outcome::of(CiHeader::decode(input).map(|(header, _)| fields(header).values()).map_err(Refusal::from))
}

pub fn headers_written(each: Each) {
    all_fields(&mut |fields| (0..=15).for_each(|room| each(&with_room(room, &fields.bytes()))));
}

pub fn random_header_written(rng: &mut Rng) -> Vec<u8> {
    random_written(rng, 13, &[])
}

pub fn header_encode(input: &[u8], out: Vec<u8>) -> Outcome {
    encoded(input, out, |header, out| header.encode(out))
}

pub fn is_pe_chunked_sub_id(input: &[u8], _: Vec<u8>) -> Outcome {
    Outcome::granted([spec::is_pe_chunked_sub_id(u8_at(input, 0))])
}

/// Whether the kind is known, the kind, whether it carries a chunk, and its reply kind. The original has no table: what it
/// has are the nine constants and its function; which of them replies to which is document 01's module 3.
pub fn kind_of(input: &[u8], _: Vec<u8>) -> Outcome {
    let kind = u8_at(input, 0);
    let reply = match kind {
        spec::SUB_ID2_PE_CAPS_INQUIRY => spec::SUB_ID2_PE_CAPS_REPLY,
        spec::SUB_ID2_PE_GET_INQUIRY => spec::SUB_ID2_PE_GET_REPLY,
        spec::SUB_ID2_PE_SET_INQUIRY => spec::SUB_ID2_PE_SET_REPLY,
        spec::SUB_ID2_PE_SUBSCRIPTION => spec::SUB_ID2_PE_SUBSCRIPTION_REPLY,
        spec::SUB_ID2_PE_CAPS_REPLY
        | spec::SUB_ID2_PE_GET_REPLY
        | spec::SUB_ID2_PE_SET_REPLY
        | spec::SUB_ID2_PE_SUBSCRIPTION_REPLY
        | spec::SUB_ID2_PE_NOTIFY => 0,
        _ => return Outcome::granted([0_u8; 4]),
    };
    Outcome::granted([1, kind, spec::is_pe_chunked_sub_id(kind).into(), reply])
}

/// A capability message of every kind and version at each length around what it needs, and damaged ones.
pub fn caps(each: Each) {
    any_lists(2, &mut |b| (0..=4).for_each(|n| each(&message(b[0], b[1], &[0x04, 0x01, 0x7F, 0xFF][..n]))));
    for version in VERSIONS {
        damaged(&message(0x30, version, &[0x04, 0x01, 0x02]), each);
        damaged(&message(0x31, version, &[0x04]), each);
        lists(&BYTES, 3, &mut |data| each(&message(0x31, version, data)));
    }
}

pub fn random_caps(rng: &mut Rng) -> Vec<u8> {
    random_damaged(rng, &[0x30, 0x31])
}

pub fn caps_decode(input: &[u8], _: Vec<u8>) -> Outcome {
    let granted = |caps: PeCapabilities| {
        let mut values = fields(caps.header).values();
        values.extend([caps.simultaneous_requests, caps.pe_major, caps.pe_minor].map(u64::from));
        values
    };
    Outcome::of(PeCapabilities::decode(input).map(granted).map_err(Refusal::from))
}

/// With values up to 7F for all headers, and with values at boundaries for each version.
pub fn caps_written(each: Each) {
    let mut written =
        |fields: Fields, values: &[u8]| (12..=18).for_each(|room| each(&with_room(room, &[&fields.bytes(), values].concat())));
    all_fields(&mut |fields| written(fields, &[0x00, 0x7F, 0x01]));
    for version in VERSIONS {
        let fields = Fields { device_id: 0x7F, sub_id2: 0x31, version, source: 5, dest: 6 };
        lists(&BYTES, 3, &mut |values| written(fields, values));
    }
}

pub fn random_caps_written(rng: &mut Rng) -> Vec<u8> {
    let need = rng.pick(&[14, 16]);
    let values = if rng.once_in(4) { rng.bytes(3) } else { seven_bit(rng, 3) };
    random_written(rng, need, &values)
}

pub fn caps_encode(input: &[u8], out: Vec<u8>) -> Outcome {
    let data = from(input, Fields::END);
    let caps = |header| PeCapabilities {
        header,
        simultaneous_requests: u8_at(data, 0),
        pe_major: u8_at(data, 1),
        pe_minor: u8_at(data, 2),
    };
    encoded(input, out, |header, out| caps(header).encode(out))
}

pub fn messages(each: Each) {
    any_lists(2, &mut |b| (0..=2).for_each(|n| each(&message(b[0], b[1], &[0x00, 0xFF][..n]))));
    damaged(&message(0x3F, 1, &[0x05, 0x80, 0xFF]), each);
}

pub fn random_message(rng: &mut Rng) -> Vec<u8> {
    random_damaged(rng, &KINDS)
}

/// The payload is shown as the output.
pub fn message_decode(input: &[u8], _: Vec<u8>) -> Outcome {
    match PeMessage::decode(input) {
        Ok(message) => Outcome { reply: Ok(fields(message.header).values()), out: message.pe_payload },
        Err(e) => Outcome::of(Err(e.into())),
    }
}

pub fn messages_written(each: Each) {
    all_fields(&mut |fields| {
        for n in 0..=3 {
            let input = [&fields.bytes(), &[0x05, 0x80, 0xFF][..n]].concat();
            (11..=17).for_each(|room| each(&with_room(room, &input)));
        }
    });
}

pub fn random_message_written(rng: &mut Rng) -> Vec<u8> {
    let n = rng.below(21);
    let payload = rng.bytes(n);
    random_written(rng, 13 + n, &payload)
}

pub fn message_encode(input: &[u8], out: Vec<u8>) -> Outcome {
    let payload = from(input, Fields::END);
    encoded(input, out, |header, out| PeMessage { header, pe_payload: payload.to_vec() }.encode(out))
}
