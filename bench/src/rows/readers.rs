//! The readers: each over many inputs, and called through a pointer on both sides, so that neither is built into the loop.
use crate::inputs::{bytes, keep, rng, seven_bit, List, REQUEST_ID};
use crate::port;
use crate::row::Row;
use exports::raw;
use midici_core::header::CiHeader;
use midici_core::pe_caps::PeCapabilities;
use midici_core::spec::{SUB_ID2_PE_CAPS_INQUIRY, SUB_ID2_PE_GET_INQUIRY};
use midici_pe::chunker::split;
use midici_pe::frame::PeChunkRef;
use midici_pe::{mcoded7, wire};
use oracle::rng::Rng;
use std::hint::black_box;

type Inputs = &'static [Vec<u8>];
type FromPort<A> = unsafe extern "C" fn(*const u8, usize) -> A;
type FromRust<A, E> = fn(&'static [u8]) -> Result<A, E>;

/// How many inputs a reader has.
const INPUTS: usize = 64;

pub fn each(visit: &mut impl FnMut(Row)) {
    let mut rng = rng();
    let chunks = List::new(65_536, 256).chunks();
    visit(chunk("chunk 1 at 256, header of 48 bytes", many(|_| chunks[0].clone())));
    visit(chunk("later chunk at 256, no header", many(|k| chunks[k + 1].clone())));
    visit(chunk("chunk 1 at 4096, header of 4000 bytes", many(|_| with_long_header(&mut rng))));
    visit(field(many(|_| seven_bit(&mut rng, 2))));
    visit(header(many(|_| message(&mut rng, SUB_ID2_PE_GET_INQUIRY, &[]))));
    visit(capabilities(many(|_| message(&mut rng, SUB_ID2_PE_CAPS_INQUIRY, &[4, 0, 0]))));
    [1_000, 65_536].iter().for_each(|len| visit(mcoded7_text(keep(bytes(&mut rng, *len)))));
}

fn many(make: impl FnMut(usize) -> Vec<u8>) -> Inputs {
    keep((0..INPUTS).map(make).collect::<Vec<_>>())
}

fn with_long_header(rng: &mut Rng) -> Vec<u8> {
    split(REQUEST_ID, &seven_bit(rng, 4_000), &seven_bit(rng, 10), 4_096).expect("a list that can be cut").remove(0)
}

fn message(rng: &mut Rng, sub_id2: u8, data: &[u8]) -> Vec<u8> {
    [&[0x7E, 0x7F, 0x0D, sub_id2, 2], &seven_bit(rng, 8)[..], data].concat()
}

/// Each side gives the fields that it read, and all of them are added up, as a caller would take them from the answer.
fn reader<const FIELDS: usize>(
    name: &str,
    inputs: Inputs,
    port: impl Fn(&'static [u8]) -> [u64; FIELDS] + 'static,
    rust: impl Fn(&'static [u8]) -> [u64; FIELDS] + 'static,
) -> Row {
    for input in inputs {
        assert_eq!(port(input), rust(input), "{name}: {input:02X?}");
    }
    let by_port = move || {
        black_box(inputs.iter().map(|input| port(input).iter().sum::<u64>()).sum::<u64>());
    };
    let by_rust = move || {
        black_box(inputs.iter().map(|input| rust(input).iter().sum::<u64>()).sum::<u64>());
    };
    Row { operations: INPUTS as u64, ..Row::new("readers", name.to_string(), by_port, by_rust) }
}

fn chunk(name: &str, inputs: Inputs) -> Row {
    let decode: FromPort<exports::ChunkAnswer> = black_box(raw::codec_decode_fields);
    let rust: FromRust<PeChunkRef<'static>, _> = black_box(PeChunkRef::decode);
    let by_port = move |input: &'static [u8]| {
        let chunk = unsafe { decode(input.as_ptr(), input.len()) };
        let (header, property) = (chunk.header_len, chunk.property_len);
        [chunk.request_id as u64, header, chunk.num_chunks as u64, chunk.chunk_num as u64, property]
    };
    reader(name, inputs, by_port, move |input| {
        let chunk = rust(input).expect("a good chunk");
        let (header, property) = (chunk.header.len() as u64, chunk.property.len() as u64);
        [chunk.request_id as u64, header, chunk.num_chunks as u64, chunk.chunk_num as u64, property]
    })
}

fn field(inputs: Inputs) -> Row {
    let read: FromPort<exports::Answer> = black_box(raw::codec_read_u14_le7);
    let rust: FromRust<u16, _> = black_box(wire::read_u14_le7);
    let by_port = move |input: &'static [u8]| [unsafe { read(input.as_ptr(), input.len()) }.count];
    reader("field of 14 bits", inputs, by_port, move |input| [rust(input).expect("a good field") as u64])
}

fn header(inputs: Inputs) -> Row {
    let decode: FromPort<exports::HeaderAnswer> = black_box(raw::codec_header_decode);
    let rust: FromRust<(CiHeader, &'static [u8]), _> = black_box(CiHeader::decode);
    let by_port = move |input: &'static [u8]| port_header(&unsafe { decode(input.as_ptr(), input.len()) }.header);
    reader("CI header", inputs, by_port, move |input| rust_header(&rust(input).expect("a good header").0))
}

fn capabilities(inputs: Inputs) -> Row {
    let decode: FromPort<exports::CapsAnswer> = black_box(raw::codec_caps_decode);
    let rust: FromRust<PeCapabilities, _> = black_box(PeCapabilities::decode);
    let by_port = move |input: &'static [u8]| {
        let caps = unsafe { decode(input.as_ptr(), input.len()) };
        let [device, kind, version, source, dest] = port_header(&caps.header);
        [device, kind, version, source, dest, caps.simultaneous_requests as u64]
    };
    reader("capability message", inputs, by_port, move |input| {
        let caps = rust(input).expect("a good message");
        let [device, kind, version, source, dest] = rust_header(&caps.header);
        [device, kind, version, source, dest, caps.simultaneous_requests as u64]
    })
}

fn port_header(header: &exports::HeaderFields) -> [u64; 5] {
    [header.device_id as u64, header.sub_id2 as u64, header.version as u64, header.source as u64, header.dest as u64]
}

fn rust_header(header: &CiHeader) -> [u64; 5] {
    let (source, dest) = (header.source.to_u32() as u64, header.dest.to_u32() as u64);
    [header.device_id as u64, header.sub_id2 as u64, header.version as u64, source, dest]
}

/// The Rust gives a new list, the port writes into a buffer.
fn mcoded7_text(bytes: &'static Vec<u8>) -> Row {
    let text = keep(mcoded7::encode(bytes));
    let mut out = vec![1; bytes.len()];
    assert_eq!((port::mcoded7_decode(text, &mut out), &out), (bytes.len(), bytes));
    assert_eq!(mcoded7::decode(text).as_ref(), Ok(bytes));
    let by_port = move || {
        black_box(port::mcoded7_decode(black_box(text), &mut out));
    };
    let by_rust = move || {
        let _ = black_box(mcoded7::decode(black_box(text)));
    };
    Row::new("readers", format!("Mcoded7 text of {} bytes", bytes.len()), by_port, by_rust)
}
