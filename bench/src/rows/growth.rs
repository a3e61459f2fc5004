//! One chunk fed where some records are held already. To have more than the clock's own time to measure, each run feeds one
//! chunk to each of sixteen slots that hold as many.
use crate::inputs::{keep, one_byte_chunks, PEER, PEERS};
use crate::port;
use crate::row::{Row, Side};
use midici_core::muid::Muid;
use midici_pe::reassembler::probe::PEER_SLOTS;
use midici_pe::reassembler::Reassembler;
use oracle::layout::FRAGMENT_RECORDS;
use std::hint::black_box;

/// The chunks for each slot.
type Lists = &'static [Vec<Vec<u8>>];

const SLOTS: usize = 16;

pub fn each(visit: &mut impl FnMut(Row)) {
    let lists: Lists = keep((0..SLOTS).map(|slot| one_byte_chunks(slot as u8)).collect::<Vec<_>>());
    let mut held = 1;
    while held < FRAGMENT_RECORDS {
        visit(row(lists, held, "waiting"));
        held *= 2;
    }
    visit(row(lists, FRAGMENT_RECORDS - 2, "waiting"));
    visit(row(lists, FRAGMENT_RECORDS - 1, "whole"));
}

fn row(lists: Lists, held: usize, answer: &str) -> Row {
    let port = Growing { table: port::Table::new(), lists, held };
    let rust = Growing { table: Reassembler::new(PEERS), lists, held };
    Row { operations: SLOTS as u64, one_run: true, ..Row::new("growth", format!("{held}, {answer}"), port, rust) }
}

/// The two tables as they are used here.
trait Table {
    /// Feeds one chunk: is the list whole?
    fn feed(&mut self, peer: u32, raw_chunk: &[u8]) -> bool;
    fn drop_peer(&mut self, peer: u32);
}

impl Table for port::Table {
    fn feed(&mut self, peer: u32, raw_chunk: &[u8]) -> bool {
        port::Table::feed(self, peer, raw_chunk).whole == 1
    }

    fn drop_peer(&mut self, peer: u32) {
        port::Table::drop_peer(self, peer);
    }
}

impl Table for Reassembler {
    fn feed(&mut self, peer: u32, raw_chunk: &[u8]) -> bool {
        let fed = Reassembler::feed(self, muid(peer), raw_chunk, 0);
        black_box(fed).is_ok_and(|event| event.is_some())
    }

    fn drop_peer(&mut self, peer: u32) {
        Reassembler::drop_peer(self, muid(peer));
    }
}

fn muid(peer: u32) -> Muid {
    Muid::from_u32(peer).expect("a peer")
}

struct Growing<T> {
    table: T,
    lists: Lists,
    held: usize,
}

fn peer_of(slot: usize) -> u32 {
    PEER + (slot / PEER_SLOTS) as u32
}

impl<T: Table> Side for Growing<T> {
    /// Empties all slots, and feeds as many chunks as are to be held.
    fn prepare(&mut self) {
        (0..SLOTS).step_by(PEER_SLOTS).for_each(|slot| self.table.drop_peer(peer_of(slot)));
        for (slot, list) in self.lists.iter().enumerate() {
            list[..self.held].iter().for_each(|chunk| assert!(!self.table.feed(peer_of(slot), chunk)));
        }
    }

    fn run(&mut self) {
        for (slot, list) in self.lists.iter().enumerate() {
            black_box(self.table.feed(peer_of(slot), black_box(&list[self.held])));
        }
    }
}
