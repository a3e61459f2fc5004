//! What a call on a table is lent.
use crate::layout::{numbers_len, slots, FRAGMENT_RECORDS, HEADER_BYTES, TX_BYTES};

/// The slices that calls are lent.
#[derive(Clone, Copy, Debug, PartialEq, Eq)]
pub enum Part {
    Numbers,
    Index,
    Headers,
    Arenas,
    OutHeader,
    OutBody,
    OutPeers,
    OutRequestIds,
    OutChunksHeld,
}

impl Part {
    /// How many places it needs, of a table for so many peers.
    pub fn need(self, max_peers: usize) -> usize {
        match self {
            Part::Numbers => numbers_len(max_peers),
            Part::Index => slots(max_peers) * FRAGMENT_RECORDS,
            Part::Headers => slots(max_peers) * HEADER_BYTES,
            Part::Arenas => slots(max_peers) * TX_BYTES,
            Part::OutHeader => HEADER_BYTES,
            Part::OutBody => TX_BYTES,
            Part::OutPeers | Part::OutRequestIds | Part::OutChunksHeld => slots(max_peers),
        }
    }
}

/// What is wrong with what is lent, if anything: one of the four numbers of the shape is one above its range, or one of the
/// slices is one place too short.
#[derive(Clone, Copy, Debug, PartialEq, Eq)]
pub enum Lent {
    Right,
    Shape(usize),
    Short(Part),
}
