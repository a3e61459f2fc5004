//! The open list of a table in which every slot is open. The original has no such call, so the oracle's reading of its private
//! fields stands here for it (oracle/src/open.rs): it gives the rows as a new list, sorted.
use crate::inputs::{one_byte_chunk, Order, PEER, PEERS};
use crate::port;
use crate::row::Row;
use midici_core::muid::Muid;
use midici_pe::reassembler::probe::PEER_SLOTS;
use midici_pe::reassembler::Reassembler;
use oracle::layout::slots;
use oracle::open::{self, OpenSlot};
use std::hint::black_box;

const SLOTS: usize = slots(PEERS);

pub fn each(visit: &mut impl FnMut(Row)) {
    for order in Order::OF_TICKS {
        visit(row(order));
    }
}

fn row(order: Order) -> Row {
    let (port, rust) = opened(order);
    let mut columns = [(); 3].map(|()| vec![1; SLOTS]);
    assert_eq!(port.open_list(&mut columns), SLOTS);
    assert_eq!(columns, in_columns(&open::of_original(&rust)));
    let by_port = move || {
        black_box(black_box(&port).open_list(&mut columns));
    };
    let by_rust = move || {
        black_box(open::of_original(black_box(&rust)));
    };
    Row::new("open lists", format!("{SLOTS} open slots, ticks {}", order.name()), by_port, by_rust)
}

/// Both tables with all slots open. The second chunk of each comes in this order of their places.
fn opened(order: Order) -> (port::Table, Reassembler) {
    let (mut port, mut rust) = (port::Table::new(), Reassembler::new(PEERS));
    let mut feed = |place: usize, chunk_num: u16| {
        let peer = PEER + (place / PEER_SLOTS) as u32;
        let chunk = one_byte_chunk((place % PEER_SLOTS) as u8, chunk_num);
        assert_eq!(port.feed(peer, &chunk).refusal, 0);
        assert_eq!(rust.feed(Muid::from_u32(peer).expect("a peer"), &chunk, 0), Ok(None));
    };
    (0..SLOTS).for_each(|place| feed(place, 1));
    order.numbers(SLOTS).iter().for_each(|number| feed(usize::from(*number) - 1, 2));
    (port, rust)
}

fn in_columns(rows: &[OpenSlot]) -> [Vec<u64>; 3] {
    let column = |of: fn(&OpenSlot) -> u64| rows.iter().map(of).collect();
    [column(|row| row.peer), column(|row| row.request_id), column(|row| row.held)]
}
