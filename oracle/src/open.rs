//! The open list as document 02 orders it (K7), read from the original's private fields, or from the port's numbers as they are
//! stored.
use crate::layout::{peer_at, slot_at, slots, ACTIVE, LRU_TICK, MUID, RECORDS, REQUEST_ID};
use midici_pe::reassembler::probe::{self, PEER_SLOTS};
use midici_pe::reassembler::Reassembler;
use std::collections::BTreeSet;
use std::fmt;

/// An open slot. Rows are compared field by field: "lowest tick, then lowest console number, lowest request id, place".
#[derive(Clone, Copy, Debug, PartialEq, Eq, PartialOrd, Ord)]
pub struct OpenSlot {
    pub tick: u64,
    pub peer: u64,
    pub request_id: u64,
    pub place: usize,
    pub held: u64,
}

/// What decides between two rows.
#[derive(Clone, Copy, Debug, PartialEq, Eq, PartialOrd, Ord)]
pub enum By {
    Tick,
    Peer,
    RequestId,
    Place,
}

impl fmt::Display for By {
    fn fmt(&self, f: &mut fmt::Formatter) -> fmt::Result {
        f.write_str(match self {
            By::Tick => "tick",
            By::Peer => "peer",
            By::RequestId => "request id",
            By::Place => "place",
        })
    }
}

/// The rows of the original's slots; it has no such call.
pub fn of_original(r: &Reassembler) -> Vec<OpenSlot> {
    let row = |place: usize| {
        let (p, s) = (place / PEER_SLOTS, place % PEER_SLOTS);
        let (slot, peer) = (probe::slot(r, p, s), probe::peer(r, p).1.into());
        let (tick, request_id, held) = (slot.lru_tick(), slot.request_id().into(), slot.records() as u64);
        slot.is_active().then_some(OpenSlot { tick, peer, request_id, place, held })
    };
    sorted((0..slots(probe::max_peers(r))).filter_map(row))
}

/// The rows of a table's numbers, whatever they are.
pub fn of_numbers(numbers: &[u64], max_peers: usize) -> Vec<OpenSlot> {
    let row = |place: usize| {
        let (slot, peer) = (&numbers[slot_at(place)..], numbers[peer_at(place / PEER_SLOTS) + MUID]);
        let (tick, request_id, held) = (slot[LRU_TICK], slot[REQUEST_ID], slot[RECORDS]);
        (slot[ACTIVE] != 0).then_some(OpenSlot { tick, peer, request_id, place, held })
    };
    sorted((0..slots(max_peers)).filter_map(row))
}

fn sorted(rows: impl Iterator<Item = OpenSlot>) -> Vec<OpenSlot> {
    let mut rows: Vec<OpenSlot> = rows.collect();
    rows.sort_unstable();
    rows
}

impl OpenSlot {
    fn decided_by(&self, other: &OpenSlot) -> By {
        if self.tick != other.tick {
            By::Tick
        } else if self.peer != other.peer {
            By::Peer
        } else if self.request_id != other.request_id {
            By::RequestId
        } else {
            By::Place
        }
    }
}

/// What decided between two rows, against their places; and place, where all else is equal.
pub fn deciding(rows: &[OpenSlot]) -> BTreeSet<By> {
    let pairs = rows.iter().enumerate().flat_map(|(k, row)| rows[k + 1..].iter().map(move |behind| (row, behind)));
    let by = pairs.map(|(row, behind)| (row.decided_by(behind), row.place > behind.place));
    by.filter(|(by, is_moved)| *is_moved || *by == By::Place).map(|(by, _)| by).collect()
}
