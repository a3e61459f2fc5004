//! A table's memory: its full size, and where each number stands in it.
use midici_pe::reassembler::probe::{Slot, PEER_SLOTS};

/// For how many peers a table is, and how many bytes of a header, of a body, and records each slot has room for.
pub struct Shape {
    pub max_peers: usize,
    pub header_bytes: usize,
    pub tx_bytes: usize,
    pub fragment_records: usize,
}

/// Full size, and the most peers that a table has.
pub const HEADER_BYTES: usize = 4_096;
pub const TX_BYTES: usize = 65_536;
pub const FRAGMENT_RECORDS: usize = 2_048;
pub const MAX_PEERS: usize = 16;
pub const MAX_SLOTS: usize = slots(MAX_PEERS);

/// The numbers begin with the clock. Then come the words of each peer: whether its record is bound, its MUID, and its slots.
pub const CLOCK: usize = 0;
pub const BOUND: usize = 0;
pub const MUID: usize = 1;
const SLOTS_AT: usize = 2;
const PEER_WORDS: usize = SLOTS_AT + PEER_SLOTS * SLOT_WORDS;

/// The words of a slot.
pub const ACTIVE: usize = 0;
pub const REQUEST_ID: usize = 1;
const LAST_ACTIVITY_MS: usize = 2;
pub const LRU_TICK: usize = 3;
const NUM_CHUNKS: usize = 4;
const HEADER_SET: usize = 5;
pub const HEADER_LEN: usize = 6;
pub const RECORDS: usize = 7;
pub const BODY_LEN: usize = 8;
pub const SLOT_WORDS: usize = 9;

pub const fn slots(max_peers: usize) -> usize {
    PEER_SLOTS * max_peers
}

pub const fn numbers_len(max_peers: usize) -> usize {
    peer_at(max_peers)
}

/// Where the words of a peer begin.
pub const fn peer_at(peer: usize) -> usize {
    CLOCK + 1 + PEER_WORDS * peer
}

/// Where the words of a slot begin, counted over all peers.
pub const fn slot_at(slot: usize) -> usize {
    peer_at(slot / PEER_SLOTS) + SLOTS_AT + SLOT_WORDS * (slot % PEER_SLOTS)
}

/// What a slot of the original holds, as the port stores it.
pub fn slot_words(slot: Slot) -> [u64; SLOT_WORDS] {
    let mut words = [0; SLOT_WORDS];
    words[ACTIVE] = slot.is_active().into();
    words[REQUEST_ID] = slot.request_id().into();
    words[LAST_ACTIVITY_MS] = slot.last_activity_ms();
    words[LRU_TICK] = slot.lru_tick();
    words[NUM_CHUNKS] = slot.num_chunks().into();
    words[HEADER_SET] = slot.header_set().into();
    words[HEADER_LEN] = slot.header().len() as u64;
    words[RECORDS] = slot.records() as u64;
    words[BODY_LEN] = slot.property_bytes() as u64;
    words
}

/// Where a record's length and its offset begin in its word; its chunk's number stands below.
pub const LEN_BIT: u32 = 16;
const OFFSET_BIT: u32 = 32;

/// A record with a chunk's number, its length and its offset, as the port stores it.
pub fn record_word((chunk_num, len, offset): (u16, u16, u32)) -> u64 {
    u64::from(chunk_num) | u64::from(len) << LEN_BIT | u64::from(offset) << OFFSET_BIT
}

/// The record of a word.
pub fn record(word: u64) -> (u16, u16, u32) {
    (word as u16, (word >> LEN_BIT) as u16, (word >> OFFSET_BIT) as u32)
}
