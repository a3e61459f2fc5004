//! A list cut. The Rust gives all chunks in one new list; at 16,384, where it does not cut, a plain Rust cutter does so
//! (oracle/src/cut.rs). The port writes them one behind the other into one output, with their lengths, in one call; or it counts
//! them, and then writes them one by one into one buffer.
use crate::inputs::List;
use crate::port;
use crate::row::{Row, Side};
use std::hint::black_box;

/// Room for the longest chunk.
const ROOM: usize = 16_384;

pub fn each(visit: &mut impl FnMut(Row)) {
    for list in List::all() {
        visit(Row::new("split", list.name(), at_once(list), by_rust(list)).beside_copies(&list.body));
    }
    for list in List::all() {
        visit(Row::new("chunk by chunk", list.name(), one_by_one(list), by_rust(list)));
    }
}

fn by_rust(list: &'static List) -> impl Side {
    move || {
        black_box(black_box(list).chunks());
    }
}

/// All chunks with one call.
fn at_once(list: &'static List) -> impl Side {
    let chunks = list.chunks();
    let (mut out, mut lengths) = (vec![1; chunks.iter().map(Vec::len).sum()], vec![1; chunks.len()]);
    assert_eq!(port::split(list, &mut out, &mut lengths), (chunks.len(), out.len()));
    assert_eq!(out, chunks.concat());
    assert!(lengths.iter().copied().eq(chunks.iter().map(|chunk| chunk.len() as u16)));
    move || {
        black_box(port::split(black_box(list), &mut out, &mut lengths));
    }
}

/// One chunk with each call. Each of them asks about the whole body.
fn one_by_one(list: &'static List) -> impl Side {
    let chunks = list.chunks();
    let mut out = vec![1; ROOM];
    let count = port::chunk_count(list) as u16;
    assert_eq!(usize::from(count), chunks.len());
    for k in 1..=count {
        let len = port::split_chunk(list, k, &mut out);
        assert_eq!(out[..len], chunks[usize::from(k) - 1]);
    }
    move || {
        let list = black_box(list);
        black_box(port::chunk_count(list));
        for k in 1..=count {
            black_box(port::split_chunk(list, k, &mut out));
        }
    }
}
