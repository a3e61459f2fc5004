//! The port's side of a run: the memory that a table is lent, and its calls, through the exports of crates/hub.
use crate::port::fill;
use oracle::call::{What, Written};
use oracle::damage::{Damage, Place};
use oracle::layout::{self, CLOCK, FRAGMENT_RECORDS, HEADER_BYTES, MAX_PEERS, MAX_SLOTS, SLOT_WORDS, TX_BYTES};
use oracle::lent::{Lent, Part};
use oracle::open::{self, OpenSlot};
use oracle::run::{Call, Start, Told};
use std::fmt;

/// Places behind what the largest table needs.
const BEHIND: usize = 8;

/// The memory of a table and its outputs. A smaller table is lent the front of it; runs use it one after the other.
pub struct Table {
    start: Start,
    pub numbers: Vec<u64>,
    pub index: Vec<u64>,
    pub headers: Vec<u8>,
    pub arenas: Vec<u8>,
    out_header: Vec<u8>,
    out_body: Vec<u8>,
    out_peers: Vec<u64>,
    out_request_ids: Vec<u64>,
    out_chunks_held: Vec<u64>,
    /// What the outputs hold before a call.
    bytes_before: Vec<u8>,
    words_before: Vec<u64>,
}

impl Table {
    /// Memory with such bytes in its rooms.
    pub fn new(headers: &[u8], arenas: &[u8]) -> Table {
        let longer = |bytes: &[u8]| [bytes, &[0xC3; BEHIND]].concat();
        let index = [vec![0; MAX_SLOTS * FRAGMENT_RECORDS], vec![0xC3; BEHIND]].concat();
        let bytes_before: Vec<u8> = (0..TX_BYTES + BEHIND).map(fill).collect();
        let words_before: Vec<u64> = (0..MAX_SLOTS + BEHIND).map(|at| 0xA5A5_0000_0000_0000 + at as u64).collect();
        Table {
            start: Start { max_peers: 0, spare: 0, clock: None },
            numbers: vec![0; layout::numbers_len(MAX_PEERS) + BEHIND],
            index,
            headers: longer(headers),
            arenas: longer(arenas),
            out_header: bytes_before[..HEADER_BYTES + BEHIND].to_vec(),
            out_body: bytes_before.clone(),
            out_peers: words_before.clone(),
            out_request_ids: words_before.clone(),
            out_chunks_held: words_before.clone(),
            bytes_before,
            words_before,
        }
    }

    /// How many words of `numbers` a table of this run has.
    pub fn words(&self) -> usize {
        layout::numbers_len(self.start.max_peers)
    }

    pub fn slots(&self) -> usize {
        layout::slots(self.start.max_peers)
    }

    pub fn slot_words(&self, slot: usize) -> &[u64] {
        &self.numbers[layout::slot_at(slot)..][..SLOT_WORDS]
    }

    pub fn slot_records(&self, slot: usize) -> &[u64] {
        &self.index[slot * FRAGMENT_RECORDS..][..FRAGMENT_RECORDS]
    }

    /// Damages the table; and undoes it, done again.
    pub fn damage(&mut self, damage: &[Damage]) {
        for Damage { at, bits } in damage {
            match at {
                Place::Number(k) => self.numbers[*k] ^= bits,
                Place::Record(k) => self.index[*k] ^= bits,
            }
        }
    }

    /// Its open slots as they are stored.
    pub fn open_slots(&self) -> Vec<OpenSlot> {
        open::of_numbers(&self.numbers, self.start.max_peers)
    }

    /// Is what lies behind the largest table's rooms as it was?
    pub fn is_kept_behind(&self) -> bool {
        let headers = &self.headers[MAX_SLOTS * HEADER_BYTES..];
        let arenas = &self.arenas[MAX_SLOTS * TX_BYTES..];
        let index = &self.index[MAX_SLOTS * FRAGMENT_RECORDS..];
        headers == [0xC3; BEHIND] && arenas == [0xC3; BEHIND] && index == [0xC3; BEHIND]
    }

    /// Makes a table where another was, with garbage in its numbers and here and there in its records.
    pub fn make(&mut self, start: Start, garbage: u64) -> Told {
        self.start = start;
        self.numbers.fill(garbage);
        self.index[..MAX_SLOTS * FRAGMENT_RECORDS].iter_mut().step_by(641).for_each(|word| *word = garbage);
        let told = self.call(&Call { lent: Lent::Right, what: What::New, damage: Vec::new() });
        if let Some(clock) = start.clock {
            self.numbers[CLOCK] = clock;
        }
        told
    }

    /// The shape that a call names.
    fn shape(&self, lent: Lent) -> exports::Shape {
        let above = |which, most: usize, right| if lent == Lent::Shape(which) { most + 1 } else { right };
        exports::Shape {
            max_peers: above(0, MAX_PEERS, self.start.max_peers),
            header_bytes: above(1, HEADER_BYTES, HEADER_BYTES),
            tx_bytes: above(2, TX_BYTES, TX_BYTES),
            fragment_records: above(3, FRAGMENT_RECORDS, FRAGMENT_RECORDS),
        }
    }

    pub fn call(&mut self, call: &Call) -> Told {
        let shape = self.shape(call.lent);
        let start = self.start;
        let front = |part| ..length(start, call, part);
        let numbers = &mut self.numbers[front(Part::Numbers)];
        let index = &mut self.index[front(Part::Index)];
        let headers = &mut self.headers[front(Part::Headers)];
        let arenas = &mut self.arenas[front(Part::Arenas)];
        let out_header = &mut self.out_header[front(Part::OutHeader)];
        let out_body = &mut self.out_body[front(Part::OutBody)];
        let peers = &mut self.out_peers[front(Part::OutPeers)];
        let ids = &mut self.out_request_ids[front(Part::OutRequestIds)];
        let held = &mut self.out_chunks_held[front(Part::OutChunksHeld)];
        match call.what {
            What::New => counted(exports::midici_pe_new(shape, numbers, index, headers, arenas)),
            What::Feed { peer, raw_chunk: ref chunk, now_ms } => {
                fed(exports::midici_pe_feed(shape, numbers, index, headers, arenas, peer, chunk, now_ms, out_header, out_body))
            }
            What::FeedMessage { ref body, now_ms } => {
                fed(exports::midici_pe_feed_message(shape, numbers, index, headers, arenas, body, now_ms, out_header, out_body))
            }
            What::Cancel { peer, request_id } => counted(exports::midici_pe_cancel(shape, numbers, peer, request_id)),
            What::DropPeer { peer } => counted(exports::midici_pe_drop_peer(shape, numbers, peer)),
            What::Poll { now_ms } => counted(exports::midici_pe_poll(shape, numbers, now_ms, peers, ids)),
            What::MemoryStats => totalled(exports::midici_pe_memory_stats(shape, numbers)),
            What::ReservedBytes => counted(exports::midici_pe_reserved_bytes(shape)),
            What::OpenList => counted(exports::midici_pe_open_list(shape, numbers, peers, ids, held)),
        }
    }

    /// Do the outputs begin with what was to be written, and hold what they held behind it? Then they are made as before:
    /// how many bytes were compared. Of a call that is lent one of the columns all three are compared.
    pub fn outputs(&mut self, what: &What, written: &Written) -> Result<u64, String> {
        let is_lent = |parts: &[Part]| what.row().lent.iter().any(|part| parts.contains(part));
        let mut bytes = 0;
        if is_lent(&[Part::OutHeader, Part::OutBody]) {
            bytes += output("out_header", &mut self.out_header, &written.header, &self.bytes_before)?;
            bytes += output("out_body", &mut self.out_body, &written.body, &self.bytes_before)?;
        }
        if is_lent(&[Part::OutPeers, Part::OutRequestIds, Part::OutChunksHeld]) {
            bytes += 8 * output("out_peers", &mut self.out_peers, &written.peers, &self.words_before)?;
            bytes += 8 * output("out_request_ids", &mut self.out_request_ids, &written.request_ids, &self.words_before)?;
            bytes += 8 * output("out_chunks_held", &mut self.out_chunks_held, &written.held, &self.words_before)?;
        }
        Ok(bytes)
    }
}

/// How long a slice is, where a call is lent it.
fn length(start: Start, call: &Call, part: Part) -> usize {
    if !call.what.row().lent.contains(&part) {
        return 0;
    }
    let need = part.need(start.max_peers);
    if call.lent == Lent::Short(part) {
        need - 1
    } else {
        need + start.spare
    }
}

/// Does an output begin with what was to be written, and hold what it held behind it? Then it is made as before.
pub fn output<T: Copy + PartialEq + fmt::Debug>(name: &str, out: &mut [T], written: &[T], before: &[T]) -> Result<u64, String> {
    let n = written.len();
    if let Some(at) = (0..n).find(|at| out[*at] != written[*at]) {
        return Err(format!("{name} has {:?} at {at}, and is to have {:?}", out[at], written[at]));
    }
    if out[n..] != before[n..out.len()] {
        return Err(format!("{name} is not kept behind the first {n}"));
    }
    out[..n].copy_from_slice(&before[..n]);
    Ok(out.len() as u64)
}

pub fn counted(answer: exports::Answer) -> Told {
    let exports::Answer { refusal, value, count } = answer;
    Told { refusal, value, numbers: [count, 0, 0] }
}

pub fn fed(answer: exports::FedAnswer) -> Told {
    let exports::FedAnswer { refusal, value, whole, header_len, body_len } = answer;
    Told { refusal, value, numbers: [whole.into(), header_len, body_len] }
}

fn totalled(answer: exports::StatsAnswer) -> Told {
    let exports::StatsAnswer { refusal, value, reserved_bytes, active_bytes, active_slots } = answer;
    Told { refusal, value, numbers: [reserved_bytes, active_bytes, active_slots] }
}
