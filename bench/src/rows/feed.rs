//! All chunks of a list fed to an empty slot, until it is whole.
use crate::inputs::{one_byte_chunks, Chunks, List, Order, PEER, PEERS, REQUEST_ID};
use crate::port;
use crate::row::Row;
use midici_core::muid::Muid;
use midici_pe::reassembler::{ReassembleEvent, Reassembler};
use oracle::layout::FRAGMENT_RECORDS;
use std::hint::black_box;

pub fn each(visit: &mut impl FnMut(Row)) {
    for list in List::all() {
        for order in Order::OF_CHUNKS {
            let name = format!("{}, {}", list.name(), order.name());
            visit(row(name, order.of(list.chunks())).beside_copies(&list.body));
        }
    }
    for order in Order::OF_CHUNKS {
        visit(row(format!("{FRAGMENT_RECORDS} chunks of one byte, {}", order.name()), order.of(one_byte_chunks(REQUEST_ID))));
    }
    let list = List::new(65_536, 256);
    let name = format!("{}, count told by the last chunk", list.name());
    visit(row(name, Order::InOrder.of(list.chunks_with_late_count())).beside_copies(&list.body));
}

fn row(name: String, chunks: Chunks) -> Row {
    compare(chunks);
    let (mut port, mut rust) = (port::Table::new(), Reassembler::new(PEERS));
    let by_port = move || {
        black_box(fed_by_port(&mut port, chunks));
    };
    let by_rust = move || {
        black_box(fed_by_rust(&mut rust, chunks));
    };
    Row::new("feed", name, by_port, by_rust)
}

/// The lengths of header and body, which are in the outputs.
fn fed_by_port(table: &mut port::Table, chunks: Chunks) -> Option<(usize, usize)> {
    let mut whole = None;
    for chunk in chunks {
        let answer = table.feed(PEER, black_box(chunk));
        if answer.whole == 1 {
            whole = Some((answer.header_len as usize, answer.body_len as usize));
        }
    }
    whole
}

fn fed_by_rust(table: &mut Reassembler, chunks: Chunks) -> Option<ReassembleEvent> {
    let peer = Muid::from_u32(PEER).expect("a peer");
    let mut whole = None;
    for chunk in chunks {
        if let Ok(Some(event)) = table.feed(peer, black_box(chunk), 0) {
            whole = Some(event);
        }
    }
    whole
}

fn compare(chunks: Chunks) {
    let mut table = port::Table::new();
    let (header_len, body_len) = fed_by_port(&mut table, chunks).expect("a whole list of the port");
    let Some(ReassembleEvent::Complete { header, body, .. }) = fed_by_rust(&mut Reassembler::new(PEERS), chunks) else {
        panic!("no whole list of the Rust")
    };
    assert_eq!((&table.out_header[..header_len], &table.out_body[..body_len]), (&header[..], &body[..]));
}
