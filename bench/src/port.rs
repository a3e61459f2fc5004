//! The port's side.
use crate::inputs::{List, PEERS, REQUEST_ID};
use oracle::layout::{numbers_len, slots, FRAGMENT_RECORDS, HEADER_BYTES, TX_BYTES};
use oracle::stage::{next_chunk_at, WORDS};

const SHAPE: exports::Shape =
    exports::Shape { max_peers: PEERS, header_bytes: HEADER_BYTES, tx_bytes: TX_BYTES, fragment_records: FRAGMENT_RECORDS };

/// A table of full size with the memory that it is lent, and the two outputs. Nothing of it is cleared between lists.
pub struct Table {
    numbers: Vec<u64>,
    index: Vec<u64>,
    headers: Vec<u8>,
    arenas: Vec<u8>,
    pub out_header: Vec<u8>,
    pub out_body: Vec<u8>,
}

impl Table {
    pub fn new() -> Table {
        let mut table = Table {
            numbers: vec![0; numbers_len(PEERS)],
            index: vec![0; slots(PEERS) * FRAGMENT_RECORDS],
            headers: vec![1; slots(PEERS) * HEADER_BYTES],
            arenas: vec![1; slots(PEERS) * TX_BYTES],
            out_header: vec![1; HEADER_BYTES],
            out_body: vec![1; TX_BYTES],
        };
        let Table { numbers, index, headers, arenas, .. } = &mut table;
        let made = exports::midici_pe_new(SHAPE, numbers, index, headers, arenas);
        assert_eq!(made.refusal, 0, "the port's new");
        table
    }

    pub fn feed(&mut self, peer: u32, raw_chunk: &[u8]) -> exports::FedAnswer {
        exports::midici_pe_feed(
            SHAPE,
            &mut self.numbers,
            &mut self.index,
            &mut self.headers,
            &mut self.arenas,
            peer,
            raw_chunk,
            0,
            &mut self.out_header,
            &mut self.out_body,
        )
    }

    pub fn drop_peer(&mut self, peer: u32) {
        exports::midici_pe_drop_peer(SHAPE, &mut self.numbers, peer);
    }

    /// Lists the open slots in the three columns: how many there are.
    pub fn open_list(&self, [peers, request_ids, chunks_held]: &mut [Vec<u64>; 3]) -> usize {
        exports::midici_pe_open_list(SHAPE, &self.numbers, peers, request_ids, chunks_held).count as usize
    }
}

/// An outgoing stage.
pub struct Stage(Vec<u64>);

impl Stage {
    pub fn new() -> Stage {
        let mut words = vec![1; WORDS];
        assert_eq!(exports::midici_pe_stage_new(&mut words).refusal, 0, "the port's stage");
        Stage(words)
    }

    /// A list of the buffer joins: how many chunks will leave.
    pub fn join(&mut self, buffer: &[u8], place: usize, list: exports::Outgoing) -> usize {
        exports::midici_pe_stage_join(&mut self.0, buffer, place as u64, list).count as usize
    }

    pub fn turn(&mut self, buffer: &[u8], out: &mut [u8]) -> exports::TurnAnswer {
        exports::midici_pe_stage_turn(&mut self.0, buffer, out)
    }

    /// From the first places this chunk is to leave next.
    pub fn put_back(&mut self, places: usize, chunk_num: u16) {
        (0..places).for_each(|place| self.0[next_chunk_at(place)] = chunk_num.into());
    }
}

pub fn chunk_count(list: &List) -> usize {
    exports::midici_pe_chunk_count(REQUEST_ID, &list.header, &list.body, list.max_sysex).count as usize
}

/// Writes a chunk of the list into out: its length.
pub fn split_chunk(list: &List, chunk_num: u16, out: &mut [u8]) -> usize {
    exports::midici_pe_split_chunk(REQUEST_ID, &list.header, &list.body, list.max_sysex, chunk_num, out).count as usize
}

/// Writes all chunks of the list into out, one behind the other, and their lengths: how many chunks, and how many bytes.
pub fn split(list: &List, out: &mut [u8], lengths: &mut [u16]) -> (usize, usize) {
    let answer = exports::midici_pe_split(REQUEST_ID, &list.header, &list.body, list.max_sysex, out, lengths);
    (answer.chunks as usize, answer.bytes as usize)
}

/// Reads an Mcoded7 text into out: how many bytes it has.
pub fn mcoded7_decode(text: &[u8], out: &mut [u8]) -> usize {
    exports::codec_mcoded7_decode(text, out).count as usize
}

/// Lists the messages of a .syx file.
pub fn syx_list(file: &[u8], places: &mut [u64], lengths: &mut [u64]) -> exports::SyxAnswer {
    exports::midici_pe_syx_list(file, places, lengths)
}

/// Looks a name up in a header.
pub fn header_find(header: &[u8], name: &[u8]) -> exports::FoundAnswer {
    exports::midici_pe_header_find(header, name)
}
