//! Calls on a table of one peer: document 01's examples and short random runs, with the original's answers. A call's input reads
//! so: peer (4) and time (8) in front of a chunk that is fed; peer and request id; peer; time; nothing.
use midici_core::muid::Muid;
use midici_pe::reassembler::{ReassembleEvent, Reassembler};
use oracle::original::table::left_out_chunk;
use oracle::outcome::{Answer, Outcome};
use oracle::random::Rng;
use std::collections::BTreeSet;

const MAX_PEERS: usize = 1;
const RUNS: usize = 60;
const CALLS: usize = 16;

pub enum Call {
    New,
    Feed { peer: u32, now_ms: u64, raw_chunk: Vec<u8> },
    Cancel { peer: u32, request_id: u8 },
    DropPeer { peer: u32 },
    Poll { now_ms: u64 },
    MemoryStats,
}

impl Call {
    /// The byte by which the program `replay` knows it, and the input.
    pub fn record(&self) -> (u8, Vec<u8>) {
        match self {
            Call::New => (64, Vec::new()),
            Call::Feed { peer, now_ms, raw_chunk } => (65, [&peer.to_le_bytes()[..], &now_ms.to_le_bytes(), raw_chunk].concat()),
            Call::Cancel { peer, request_id } => (66, [&peer.to_le_bytes()[..], &[*request_id]].concat()),
            Call::DropPeer { peer } => (67, peer.to_le_bytes().to_vec()),
            Call::Poll { now_ms } => (68, now_ms.to_le_bytes().to_vec()),
            Call::MemoryStats => (69, Vec::new()),
        }
    }
}

/// What short chunks reach: of a feed's refusals 5 is left out, and 28, 30 and 31, which the original does not have.
pub fn reached() -> BTreeSet<Answer> {
    let refusals = [1, 2, 4, 6, 7, 8].map(Answer::Refused);
    [Answer::Waiting, Answer::Whole].into_iter().chain(refusals).collect()
}

/// How the feeds among the calls ended.
pub fn ends(calls: &[Call], answers: &[Outcome]) -> BTreeSet<Answer> {
    let feeds = calls.iter().zip(answers).filter(|(call, _)| matches!(call, Call::Feed { .. }));
    feeds
        .map(|(_, answer)| match &answer.reply {
            Err(refusal) => Answer::Refused(refusal.number),
            Ok(values) if values[0] == 0 => Answer::Waiting,
            Ok(_) => Answer::Whole,
        })
        .collect()
}

/// The original's answers, one call after the other. A feed: whole or not, and the two lengths, with header and body as the
/// output; a poll: how many time out, then each one's peer and request id.
pub fn answers(calls: &[Call]) -> Vec<Outcome> {
    let mut table = Reassembler::new(MAX_PEERS);
    calls.iter().map(|call| answer(&mut table, call)).collect()
}

/// The calls but those that feed a chunk which K3 turns down: these are not made.
fn without_left_out(calls: Vec<Call>) -> Vec<Call> {
    let mut table = Reassembler::new(MAX_PEERS);
    let is_made = |call: &Call| {
        let left_out = match call {
            Call::Feed { peer, raw_chunk, .. } => left_out_chunk(&table, muid(*peer), raw_chunk).is_some(),
            _ => false,
        };
        if !left_out {
            answer(&mut table, call);
        }
        !left_out
    };
    calls.into_iter().filter(is_made).collect()
}

fn answer(table: &mut Reassembler, call: &Call) -> Outcome {
    Outcome::of(Ok(match call {
        Call::New => {
            *table = Reassembler::new(MAX_PEERS);
            vec![0]
        }
        Call::Feed { peer, now_ms, raw_chunk } => return fed(table, muid(*peer), raw_chunk, *now_ms),
        Call::Cancel { peer, request_id } => vec![table.cancel(muid(*peer), *request_id).into()],
        Call::DropPeer { peer } => vec![table.drop_peer(muid(*peer)) as u64],
        Call::Poll { now_ms } => polled(&table.poll(*now_ms)),
        Call::MemoryStats => {
            let stats = table.memory_stats();
            vec![stats.reserved_bytes as u64, stats.active_bytes as u64, stats.active_slots as u64]
        }
    }))
}

fn muid(peer: u32) -> Muid {
    Muid::from_u32(peer).expect("28 bits")
}

fn fed(table: &mut Reassembler, peer: Muid, raw_chunk: &[u8], now_ms: u64) -> Outcome {
    match table.feed(peer, raw_chunk, now_ms) {
        Ok(None) => Outcome::of(Ok(vec![0, 0, 0])),
        Ok(Some(ReassembleEvent::Complete { header, body, .. })) => {
            Outcome { reply: Ok(vec![1, header.len() as u64, body.len() as u64]), out: [header, body].concat() }
        }
        Ok(Some(event)) => panic!("feed of the original: {event:?}"),
        Err(e) => Outcome::of(Err(e.into())),
    }
}

fn polled(events: &[ReassembleEvent]) -> Vec<u64> {
    let rows = events.iter().flat_map(|event| match event {
        ReassembleEvent::Timeout { peer, request_id } => [peer.to_u32().into(), (*request_id).into()],
        event => panic!("poll of the original: {event:?}"),
    });
    [events.len() as u64].into_iter().chain(rows).collect()
}

/// A chunk's bytes. Header and property have fewer than 16,384 bytes.
fn chunk(request_id: u8, header: &[u8], num_chunks: u16, chunk_num: u16, property: &[u8]) -> Vec<u8> {
    let two = |n: u16| [n as u8 % 128, (n >> 7) as u8];
    let front = [&[request_id], &two(header.len() as u16)[..], header].concat();
    [&front, &two(num_chunks)[..], &two(chunk_num), &two(property.len() as u16), property].concat()
}

fn feed(peer: u32, now_ms: u64, raw_chunk: Vec<u8>) -> Call {
    Call::Feed { peer, now_ms, raw_chunk }
}

/// Document 01's: "Last time 1,000: poll at 3,999 nothing, at 4,000 a timeout, at 500 nothing. Frames 1 of 2, 5 of 2, 2 of 2: body
/// is 1, 2, 5." The second of these is left out. Then a header of 4,097 bytes, which is 4.
pub fn examples() -> Vec<Call> {
    let opened = || feed(9, 1_000, chunk(5, &[], 2, 2, &[2]));
    without_left_out(vec![
        Call::New,
        opened(),
        Call::Poll { now_ms: 3_999 },
        Call::Poll { now_ms: 4_000 },
        opened(),
        Call::Poll { now_ms: 500 },
        Call::New,
        feed(9, 1_000, chunk(5, b"{", 2, 1, &[1])),
        feed(9, 1_000, chunk(5, &[], 2, 5, &[5])),
        feed(9, 1_000, chunk(5, &[], 2, 2, &[2])),
        feed(9, 1_000, chunk(5, &[0x20; 4_097], 2, 1, &[])),
    ])
}

/// Random runs of few peers and ids, so that lists end, clash and find no room.
pub fn runs() -> Vec<Call> {
    without_left_out((0..RUNS).flat_map(|seed| run(&mut Rng::new(seed as u64))).collect())
}

fn run(rng: &mut Rng) -> Vec<Call> {
    let ids = [1, 2, 3, 6, 9][rng.below(5)];
    let mut now_ms = rng.below(5_000) as u64;
    let mut calls = vec![Call::New];
    for _ in 0..CALLS {
        now_ms = (now_ms + rng.below(900) as u64).saturating_sub(rng.below(300) as u64);
        calls.push(call(rng, ids, now_ms));
    }
    calls
}

fn call(rng: &mut Rng, ids: usize, now_ms: u64) -> Call {
    let peer = if rng.below(8) == 0 { 0x0FFF_FFFF } else { 9 };
    let request_id = 5 + rng.below(ids) as u8;
    match rng.below(20) {
        0 => Call::Cancel { peer, request_id },
        1 => Call::DropPeer { peer },
        2 | 3 => Call::Poll { now_ms: now_ms + [0, 2_500, 3_000][rng.below(3)] },
        4 => Call::MemoryStats,
        _ => feed(peer, now_ms, fed_chunk(rng, request_id)),
    }
}

/// Mostly one of two or three chunks, with the header in the first; now and then without its last byte or with one more.
fn fed_chunk(rng: &mut Rng, request_id: u8) -> Vec<u8> {
    let num_chunks = [2, 2, 2, 2, 3, 0][rng.below(6)];
    let chunk_num = [1, 1, 1, 2, 2, 2, 3, 0, 16_383][rng.below(9)];
    let header: &[u8] = if chunk_num == 1 { [&b"{}"[..], b"{}", b"{}", b"{ }"][rng.below(4)] } else { b"" };
    let property: Vec<u8> = (0..rng.below(4)).map(|_| rng.below(128) as u8).collect();
    let mut bytes = chunk(request_id, header, num_chunks, chunk_num, &property);
    match rng.below(24) {
        0 => bytes.truncate(bytes.len() - 1),
        1 => bytes.push(0),
        _ => {}
    }
    bytes
}
