//! What runs and tapes are made of: peers, request ids, times, and lists on their way.
use crate::rng::Rng;

const EDGE_PEERS: [u32; 5] = [0x0FFF_FFFF, 0, 1, 0x0FFF_FFFE, 0x0FFF_FF00];
const REQUEST_IDS: [u8; 8] = [0x05, 0x00, 0x7F, 0x01, 0x02, 0x40, 0x7E, 0x03];
const TIMES: [u64; 8] = [0, 1, 1_000, 3_000, 1 << 32, 1 << 63, u64::MAX - 4_000, u64::MAX];

pub fn peers(rng: &mut Rng, n: usize) -> Vec<u32> {
    (0..n).map(|_| if rng.once_in(3) { rng.pick(&EDGE_PEERS) } else { rng.draw() as u32 >> 4 }).collect()
}

/// A peer, now and then any number.
pub fn named(rng: &mut Rng, peers: &[u32]) -> u32 {
    match rng.below(64) {
        0 => rng.draw() as u32,
        1 => rng.pick(&[0x1000_0000, u32::MAX]),
        _ => rng.pick(peers),
    }
}

/// From one to all of them.
pub fn request_ids(rng: &mut Rng) -> Vec<u8> {
    let ids = 1 + rng.below(REQUEST_IDS.len());
    REQUEST_IDS[..ids].to_vec()
}

/// The time at which calls begin.
pub fn first_time(rng: &mut Rng) -> u64 {
    rng.pick(&TIMES)
}

/// The next call's time: mostly a little later; now and then some three seconds, back, or anywhere, where time jumps.
pub fn next_time(rng: &mut Rng, now_ms: u64, jumps: bool) -> u64 {
    let by = rng.below(100) as u64;
    match rng.below(32) {
        0 if jumps => rng.pick(&TIMES).wrapping_add(by),
        1 => now_ms.saturating_add(2_950 + by),
        2 => now_ms.saturating_sub(50 * by),
        3..=7 => now_ms,
        _ => now_ms.saturating_add(by),
    }
}

/// A list that is being sent: its chunks, the order in which they go, and how many went.
pub struct Sent {
    pub peer: u32,
    chunks: Vec<Vec<u8>>,
    order: Vec<usize>,
    at: usize,
}

impl Sent {
    /// In order, the other way round, or shuffled, from one of the peers.
    pub fn new(rng: &mut Rng, chunks: Vec<Vec<u8>>, peers: &[u32]) -> Sent {
        let mut order: Vec<usize> = (0..chunks.len()).collect();
        match rng.below(8) {
            0..=3 => (),
            4 => order.reverse(),
            _ => rng.shuffle(&mut order),
        }
        Sent { peer: rng.pick(peers), chunks, order, at: 0 }
    }

    /// As its chunks begin with it.
    pub fn request_id(&self) -> u8 {
        self.chunks[0][0]
    }

    pub fn has_gone(&self) -> bool {
        self.at == self.order.len()
    }

    /// The next chunk, which may stay the next.
    pub fn next(&mut self, stays: bool) -> Vec<u8> {
        let place = self.at;
        self.at += usize::from(!stays);
        self.chunks[self.order[place]].clone()
    }

    /// The next chunk, or one that went before.
    pub fn again(&self, rng: &mut Rng) -> Vec<u8> {
        self.chunks[self.order[rng.below(self.at + 1)]].clone()
    }
}
