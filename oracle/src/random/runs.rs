//! Random runs: a table, and the calls on it, one after the other.
use super::damage;
use super::lists::{self, Sizes};
use super::senders::{self, Sent};
use crate::call::What;
use crate::damage::Damage;
use crate::functions::chunks;
use crate::inputs::{change, KINDS};
use crate::layout::FRAGMENT_RECORDS;
use crate::lent::Lent;
use crate::original::table::reached;
use crate::rng::Rng;
use crate::run::{Call, Start};
use midici_core::header::CiHeader;
use midici_core::muid::Muid;
use midici_core::pe_msg::PeMessage;
use midici_pe::reassembler::{probe, Reassembler};

/// How many calls a run has, besides those that feed a list of some 2,048 chunks.
const CALLS: usize = 60;
/// Once in so many calls the slot that a chunk reaches is damaged first, or what an open list reads.
const DAMAGED_IN: usize = 16;
const PEERS: [usize; 16] = [0, 1, 1, 1, 1, 1, 2, 2, 2, 2, 2, 8, 8, 8, 16, 16];

/// What a run is made of.
pub struct Script {
    rng: Rng,
    start: Start,
    peers: Vec<u32>,
    request_ids: Vec<u8>,
    sizes: Sizes,
    lists: Vec<Sent>,
    /// How many lists are sent side by side.
    side_by_side: usize,
    /// Once in so many chunks one is wrong.
    wrong_in: usize,
    /// Does time jump?
    jumps: bool,
    now_ms: u64,
    left: usize,
}

impl Script {
    pub fn new(mut rng: Rng) -> Script {
        let max_peers = rng.pick(&PEERS);
        let start = Start { max_peers, spare: rng.pick(&[0, 0, 3]), clock: clock(&mut rng) };
        let sizes = sizes(&mut rng);
        let named = 1 + rng.below(max_peers + 2);
        let mut script = Script {
            start,
            peers: senders::peers(&mut rng, named),
            request_ids: senders::request_ids(&mut rng),
            sizes,
            lists: Vec::new(),
            side_by_side: 1 + rng.below(if sizes == Sizes::Small { 2 * max_peers + 4 } else { 3 }),
            wrong_in: if sizes == Sizes::Small { rng.pick(&[3, 8, 30, 1_000]) } else { rng.pick(&[60, 1_000]) },
            jumps: rng.once_in(8),
            now_ms: senders::first_time(&mut rng),
            left: CALLS,
            rng,
        };
        script.send_many();
        script
    }

    pub fn start(&self) -> Start {
        self.start
    }

    /// The next call, if there is one, given the table as it stands in the original.
    pub fn next(&mut self, r: &Reassembler) -> Option<Call> {
        self.left = self.left.checked_sub(1)?;
        self.now_ms = senders::next_time(&mut self.rng, self.now_ms, self.jumps);
        let what = self.what(r);
        let call = Call { lent: self.lent(&what), what, damage: Vec::new() };
        Some(Call { damage: self.damage(r, &call), ..call })
    }

    /// What is done to the table before a call; mostly nothing.
    fn damage(&mut self, r: &Reassembler, call: &Call) -> Vec<Damage> {
        if !self.rng.once_in(DAMAGED_IN) {
            return Vec::new();
        }
        match reached(r, call) {
            Some(slot) => damage::slot(&mut self.rng, r, slot),
            None if call.lists() => damage::listed(&mut self.rng, r),
            None => Vec::new(),
        }
    }

    /// Is this one of the calls that feed the list of some 2,048 chunks? Nothing is wrong with them.
    fn is_first_list(&self) -> bool {
        self.left >= CALLS
    }

    fn what(&mut self, r: &Reassembler) -> What {
        match self.rng.below(128) {
            _ if self.is_first_list() => self.feed_first(),
            0..=3 => self.cancel(r),
            4..=5 => What::DropPeer { peer: self.named() },
            6..=13 => What::Poll { now_ms: self.poll_time(r) },
            14..=16 => What::MemoryStats,
            17 => What::ReservedBytes,
            18 => What::New,
            19..=20 => self.feed_any(),
            21..=24 => What::OpenList,
            _ => self.feed(),
        }
    }

    /// Once in forty what is lent is not right; of `new`, which ends all that is open, mostly.
    fn lent(&mut self, what: &What) -> Lent {
        let right = if matches!(what, What::New) { self.rng.once_in(8) } else { !self.rng.once_in(40) };
        if right || self.is_first_list() {
            return Lent::Right;
        }
        let lent = what.row().lent;
        let short = lent.get(self.rng.below(lent.len().max(1)));
        let short = short.filter(|part| part.need(self.start.max_peers) > 0);
        let shape = self.rng.once_in(2);
        match short {
            Some(part) if !shape => Lent::Short(*part),
            _ => Lent::Shape(self.rng.below(4)),
        }
    }

    fn named(&mut self) -> u32 {
        senders::named(&mut self.rng, &self.peers)
    }

    /// The records and slots that are open.
    fn open(r: &Reassembler) -> Vec<(usize, usize)> {
        let places = (0..probe::max_peers(r)).flat_map(|p| (0..probe::PEER_SLOTS).map(move |s| (p, s)));
        places.filter(|(p, s)| probe::slot(r, *p, *s).is_active()).collect()
    }

    /// Mostly of what is open.
    fn cancel(&mut self, r: &Reassembler) -> What {
        let open = Self::open(r);
        if open.is_empty() || self.rng.once_in(4) {
            return What::Cancel { peer: self.named(), request_id: self.rng.byte() };
        }
        let (p, s) = self.rng.pick(&open);
        What::Cancel { peer: probe::peer(r, p).1, request_id: probe::slot(r, p, s).request_id() }
    }

    /// Now, or around the moment at which an open slot's time is up.
    fn poll_time(&mut self, r: &Reassembler) -> u64 {
        let open = Self::open(r);
        if open.is_empty() || self.rng.once_in(4) {
            return self.now_ms;
        }
        let (p, s) = self.rng.pick(&open);
        let since = self.rng.pick(&[0, 2_999, 2_999, 3_000, 3_000, 3_001]);
        probe::slot(r, p, s).last_activity_ms().saturating_add(since)
    }

    /// A chunk of a list, now and then wrong or under another peer.
    fn feed(&mut self) -> What {
        let wrong = self.rng.once_in(self.wrong_in);
        let stays = wrong && self.rng.once_in(2);
        let (peer, chunk) = self.chunk(stays);
        let chunk = if wrong { lists::wrong(&mut self.rng, &chunk) } else { chunk };
        let peer = if self.rng.once_in(64) { self.rng.pick(&self.peers) } else { peer };
        self.fed(peer, chunk)
    }

    /// The next chunk of a list, which may stay the next; or now and then one that went before. A list that has gone makes room
    /// for another.
    fn chunk(&mut self, stays: bool) -> (u32, Vec<u8>) {
        self.lists.retain(|list| !list.has_gone());
        while self.lists.len() < self.side_by_side {
            self.send_another();
        }
        let which = self.rng.below(self.lists.len());
        let again = self.rng.once_in(2 * self.wrong_in);
        let list = &mut self.lists[which];
        let chunk = if again { list.again(&mut self.rng) } else { list.next(stays) };
        (list.peer, chunk)
    }

    /// The next chunk of the list of some 2,048 chunks.
    fn feed_first(&mut self) -> What {
        let list = &mut self.lists[0];
        let (peer, chunk) = (list.peer, list.next(false));
        self.fed(peer, chunk)
    }

    /// A chunk that no list has, under any peer of the run or any number.
    fn feed_any(&mut self) -> What {
        What::Feed { peer: self.named(), raw_chunk: chunks::damaged(&mut self.rng), now_ms: self.now_ms }
    }

    /// A chunk by itself, or in a message.
    fn fed(&mut self, peer: u32, raw_chunk: Vec<u8>) -> What {
        let now_ms = self.now_ms;
        if self.rng.once_in(3) {
            return What::FeedMessage { body: self.message(peer, raw_chunk), now_ms };
        }
        What::Feed { peer, raw_chunk, now_ms }
    }

    fn send_another(&mut self) {
        let request_id = self.rng.pick(&self.request_ids);
        let chunks = lists::list(&mut self.rng, self.sizes, request_id);
        self.send(chunks);
    }

    /// The list of some 2,048 chunks, where the run has one: it goes alone, and the calls begin behind it.
    fn send_many(&mut self) {
        if self.sizes == Sizes::Many {
            let request_id = self.request_ids[0];
            let chunks = lists::many(&mut self.rng, request_id, FRAGMENT_RECORDS);
            self.left += chunks.len();
            self.send(chunks);
        }
    }

    fn send(&mut self, chunks: Vec<Vec<u8>>) {
        let sent = Sent::new(&mut self.rng, chunks, &self.peers);
        self.lists.push(sent);
    }

    /// A message around a chunk; in a list that goes as others do, once in `wrong_in` with up to two bytes changed, cut short,
    /// or of another kind.
    fn message(&mut self, peer: u32, chunk: Vec<u8>) -> Vec<u8> {
        let first_list = self.is_first_list();
        let rng = &mut self.rng;
        let muid = |n: u32| Muid::from_u32(n).expect("a number of 28 bits");
        let header = CiHeader {
            device_id: rng.byte(),
            sub_id2: rng.pick(&[0x34, 0x35, 0x36, 0x37, 0x38, 0x39, 0x3F]),
            version: rng.byte(),
            source: muid(peer),
            dest: muid(rng.draw() as u32 >> 4),
        };
        let mut body = PeMessage { header, pe_payload: chunk }.to_vec().expect("a message that can be written");
        if !first_list && rng.once_in(self.wrong_in) {
            match rng.below(4) {
                0 => change(rng, &mut body[..13]),
                1 => body.truncate(rng.below(14)),
                2 => body[3] = rng.pick(&KINDS),
                _ => change(rng, &mut body),
            }
        }
        body
    }
}

/// Where the clock starts: mostly as `new` leaves it; else shortly before its end.
fn clock(rng: &mut Rng) -> Option<u64> {
    rng.once_in(16).then(|| u64::MAX - rng.below(20) as u64)
}

fn sizes(rng: &mut Rng) -> Sizes {
    match rng.below(512) {
        0 => Sizes::Many,
        1..=31 => Sizes::Large,
        _ => Sizes::Small,
    }
}
