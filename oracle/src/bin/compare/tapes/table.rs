//! The table of a tape, and the calls that its commands stand for, one by one, through the exports of crates/hub.
use crate::table::{counted, fed};
use oracle::layout::{numbers_len, slots, Shape};
use oracle::run::Told;
use oracle::tape::{self, Command};

const SHAPE: exports::Shape = {
    let Shape { max_peers, header_bytes, tx_bytes, fragment_records } = tape::SHAPE;
    exports::Shape { max_peers, header_bytes, tx_bytes, fragment_records }
};
const SLOTS: usize = slots(SHAPE.max_peers);

pub struct Table {
    numbers: Vec<u64>,
    index: Vec<u64>,
    headers: Vec<u8>,
    arenas: Vec<u8>,
    out_header: Vec<u8>,
    out_body: Vec<u8>,
    out_peers: Vec<u64>,
    out_request_ids: Vec<u64>,
}

impl Table {
    /// In memory that holds anything before `new`.
    pub fn new() -> Result<Table, String> {
        let mut table = Table {
            numbers: vec![0xA5; numbers_len(SHAPE.max_peers)],
            index: vec![0xA5; SLOTS * SHAPE.fragment_records],
            headers: vec![0xA5; SLOTS * SHAPE.header_bytes],
            arenas: vec![0xA5; SLOTS * SHAPE.tx_bytes],
            out_header: vec![0xA5; SHAPE.header_bytes],
            out_body: vec![0xA5; SHAPE.tx_bytes],
            out_peers: vec![0xA5; SLOTS],
            out_request_ids: vec![0xA5; SLOTS],
        };
        let Table { numbers, index, headers, arenas, .. } = &mut table;
        match counted(exports::midici_pe_new(SHAPE, numbers, index, headers, arenas)) {
            Told { refusal: 0, .. } => Ok(table),
            told => Err(format!("new answers {told:?}")),
        }
    }

    pub fn call(&mut self, command: &Command) -> Told {
        let Table { numbers, index, headers, arenas, out_header, out_body, out_peers, out_request_ids } = self;
        match *command {
            Command::Feed { peer, now_ms, raw_chunk: ref chunk } => {
                fed(exports::midici_pe_feed(SHAPE, numbers, index, headers, arenas, peer, chunk, now_ms, out_header, out_body))
            }
            Command::Cancel { peer, request_id } => counted(exports::midici_pe_cancel(SHAPE, numbers, peer, request_id)),
            Command::DropPeer { peer } => counted(exports::midici_pe_drop_peer(SHAPE, numbers, peer)),
            Command::Poll { now_ms } => counted(exports::midici_pe_poll(SHAPE, numbers, now_ms, out_peers, out_request_ids)),
        }
    }
}
