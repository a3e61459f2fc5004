//! A turn of an outgoing stage with some lists waiting, beside the port's own `split_chunk` of the same chunks. The original has
//! neither. A run has a turn for each list; then the numbers of their next chunks are put back, so that as many wait throughout.
use crate::inputs::List;
use crate::port;
use crate::row::{Row, Side};
use std::hint::black_box;

const LIMIT: u32 = 256;
/// The chunk that leaves: one without a header, and not the last.
const CHUNK: u16 = 2;
/// Room for the longest chunk.
const ROOM: usize = 16_384;

type Lists = Vec<&'static List>;

pub fn each(visit: &mut impl FnMut(Row)) {
    for body_len in [1_000, 65_536] {
        for waiting in [1, 8, 16] {
            let lists: Lists = (0..waiting).map(|_| List::new(body_len, LIMIT)).collect();
            let name = format!("{waiting} waiting, {}", lists[0].name());
            let row = Row::new("turns", name, by_turns(&lists), by_split_chunk(lists));
            visit(Row { operations: waiting, ..row });
        }
    }
}

/// The lists in one buffer, at the first places of a stage.
fn by_turns(lists: &Lists) -> impl Side {
    let (mut stage, mut buffer) = (port::Stage::new(), Vec::new());
    let joining: Vec<_> = lists.iter().map(|list| list.put_in(&mut buffer)).collect();
    for (place, list) in joining.iter().enumerate() {
        assert_eq!(stage.join(&buffer, place, *list), lists[place].chunks().len());
    }
    let places = lists.len();
    let mut out = vec![1; ROOM];
    for k in 1..=CHUNK {
        for (place, list) in lists.iter().enumerate() {
            let (answer, chunks) = (stage.turn(&buffer, &mut out), list.chunks());
            assert_eq!((answer.place as usize, answer.chunk_num, usize::from(answer.num_chunks)), (place, k, chunks.len()));
            assert_eq!(out[..answer.length as usize], chunks[usize::from(k) - 1]);
        }
    }
    move || {
        stage.put_back(places, CHUNK);
        for _ in 0..places {
            black_box(stage.turn(black_box(&buffer), &mut out));
        }
    }
}

fn by_split_chunk(lists: Lists) -> impl Side {
    let mut out = vec![1; ROOM];
    for list in &lists {
        let len = port::split_chunk(list, CHUNK, &mut out);
        assert_eq!(out[..len], list.chunks()[usize::from(CHUNK) - 1]);
    }
    move || {
        for list in &lists {
            black_box(port::split_chunk(black_box(list), CHUNK, &mut out));
        }
    }
}
