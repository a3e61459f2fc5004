//! What is measured on, the same bytes for both sides, from a fixed seed.
use midici_pe::chunker;
use midici_pe::frame::PeChunk;
use oracle::cut;
use oracle::input;
use oracle::layout::FRAGMENT_RECORDS;
use oracle::rng::Rng;

pub const REQUEST_ID: u8 = 5;
pub const PEER: u32 = 0x0123_4567;
/// The peers of a table.
pub const PEERS: usize = 16;
const SEED: u64 = 1;

pub type Chunks = &'static [Vec<u8>];

/// Keeps a value to the program's end, so that both sides refer to it.
pub fn keep<T>(value: T) -> &'static T {
    Box::leak(Box::new(value))
}

/// The random numbers of an input.
pub fn rng() -> Rng {
    Rng::new(SEED)
}

pub fn bytes(rng: &mut Rng, n: usize) -> Vec<u8> {
    (0..n).map(|_| rng.draw() as u8).collect()
}

pub fn seven_bit(rng: &mut Rng, n: usize) -> Vec<u8> {
    bytes(rng, n).iter().map(|b| b & 0x7F).collect()
}

/// In which order the chunks of a list come, or those of many slots.
#[derive(Clone, Copy)]
pub enum Order {
    InOrder,
    Reversed,
    Shuffled,
}

impl Order {
    pub const OF_CHUNKS: [Order; 2] = [Order::InOrder, Order::Shuffled];
    pub const OF_TICKS: [Order; 3] = [Order::InOrder, Order::Reversed, Order::Shuffled];

    pub fn name(self) -> &'static str {
        match self {
            Order::InOrder => "in order",
            Order::Reversed => "reversed",
            Order::Shuffled => "shuffled",
        }
    }

    /// The numbers from 1 to a count in this order.
    pub fn numbers(self, count: usize) -> Vec<u16> {
        let mut numbers: Vec<u16> = (1..=count as u16).collect();
        match self {
            Order::InOrder => (),
            Order::Reversed => numbers.reverse(),
            Order::Shuffled => rng().shuffle(&mut numbers),
        }
        numbers
    }

    /// The chunks in this order.
    pub fn of(self, chunks: Vec<Vec<u8>>) -> Chunks {
        keep(self.numbers(chunks.len()).iter().map(|k| chunks[usize::from(*k) - 1].clone()).collect::<Vec<_>>())
    }
}

/// A header of 48 bytes and a body, and the limit at which they are cut.
pub struct List {
    pub header: Vec<u8>,
    pub body: Vec<u8>,
    pub max_sysex: u32,
}

impl List {
    /// The five lists.
    pub fn all() -> [&'static List; 5] {
        [(1_000, 256), (65_536, 128), (65_536, 256), (65_536, 4_096), (65_536, 16_384)]
            .map(|(len, max_sysex)| List::new(len, max_sysex))
    }

    pub fn new(body_len: usize, max_sysex: u32) -> &'static List {
        let rng = &mut rng();
        keep(List { header: seven_bit(rng, 48), body: seven_bit(rng, body_len), max_sysex })
    }

    pub fn name(&self) -> String {
        format!("{} bytes at {}", self.body.len(), self.max_sysex)
    }

    /// Puts its header and its body behind what the buffer holds: how it joins a stage.
    pub fn put_in(&self, buffer: &mut Vec<u8>) -> exports::Outgoing {
        let (header_at, body_at) = (buffer.len(), buffer.len() + self.header.len());
        buffer.extend(&self.header);
        buffer.extend(&self.body);
        exports::Outgoing {
            header_at: header_at as u64,
            header_len: self.header.len() as u64,
            body_at: body_at as u64,
            body_len: self.body.len() as u64,
            request_id: REQUEST_ID.into(),
            max_sysex: self.max_sysex.into(),
        }
    }

    /// Cut by the Rust, or at a limit above 4,096, where it does not cut, by the oracle's plain cutter.
    pub fn chunks(&self) -> Vec<Vec<u8>> {
        let List { header, body, max_sysex } = self;
        let chunks = if cut::is_larger(*max_sysex) {
            cut::split(input::List { request_id: REQUEST_ID, max_sysex: *max_sysex, header, body }).ok()
        } else {
            chunker::split(REQUEST_ID, header, body, *max_sysex).ok()
        };
        chunks.expect("a list that can be cut")
    }

    /// The same, but that the last one alone tells the count.
    pub fn chunks_with_late_count(&self) -> Vec<Vec<u8>> {
        let chunks = self.chunks();
        let last = chunks.len() - 1;
        let told = |(k, raw_chunk): (usize, &Vec<u8>)| {
            let mut chunk = PeChunk::decode(raw_chunk).expect("a chunk of a list");
            chunk.num_chunks = if k == last { chunk.num_chunks } else { 0 };
            chunk.to_vec().expect("a chunk that can be written")
        };
        chunks.iter().enumerate().map(told).collect()
    }
}

/// A list that the cutter would not make: one byte in each chunk, and as many chunks as a slot has records.
pub fn one_byte_chunks(request_id: u8) -> Vec<Vec<u8>> {
    (1..=FRAGMENT_RECORDS as u16).map(|chunk_num| one_byte_chunk(request_id, chunk_num)).collect()
}

pub fn one_byte_chunk(request_id: u8, chunk_num: u16) -> Vec<u8> {
    let header = if chunk_num == 1 { b"{}".to_vec() } else { Vec::new() };
    let property = vec![chunk_num as u8 & 0x7F];
    let chunk = PeChunk { request_id, header, num_chunks: FRAGMENT_RECORDS as u16, chunk_num, property };
    chunk.to_vec().expect("a chunk that can be written")
}
