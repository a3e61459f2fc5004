//! Random damage to a table: to the slot that a chunk reaches, or to what an open list reads.
use crate::damage::{Damage, Place, LENGTHS, ROOMS};
use crate::layout::{
    peer_at, slot_at, slot_words, slots, ACTIVE, BODY_LEN, FRAGMENT_RECORDS, LEN_BIT, LRU_TICK, MUID, RECORDS, REQUEST_ID,
    TX_BYTES,
};
use crate::rng::Rng;
use midici_pe::reassembler::probe::{self, Slot, PEER_SLOTS};
use midici_pe::reassembler::Reassembler;

/// A slot of the original, and its place.
#[derive(Clone, Copy)]
struct Target<'a> {
    slot: Slot<'a>,
    peer: u32,
    place: usize,
}

impl<'a> Target<'a> {
    fn new(r: &'a Reassembler, place: usize) -> Target<'a> {
        let (p, s) = (place / PEER_SLOTS, place % PEER_SLOTS);
        Target { slot: probe::slot(r, p, s), peer: probe::peer(r, p).1, place }
    }

    fn word(self, at: usize) -> u64 {
        slot_words(self.slot)[at]
    }

    fn word_becomes(self, at: usize, becomes: u64) -> Damage {
        Damage { at: Place::Number(slot_at(self.place) + at), bits: self.word(at) ^ becomes }
    }

    fn peer_becomes(self, becomes: u64) -> Damage {
        Damage { at: Place::Number(peer_at(self.place / PEER_SLOTS) + MUID), bits: u64::from(self.peer) ^ becomes }
    }

    fn record(self, at: usize, bits: u64) -> Damage {
        Damage { at: Place::Record(FRAGMENT_RECORDS * self.place + at), bits }
    }
}

/// To the slot at a place: mostly one of its lengths or records; now and then three of them, or a body around its room.
pub fn slot(rng: &mut Rng, r: &Reassembler, place: usize) -> Vec<Damage> {
    let slot = Target::new(r, place);
    match rng.below(8) {
        0 => (0..3).map(|_| one(rng, slot)).collect(),
        1 => body_around_its_room(rng, slot),
        _ => vec![one(rng, slot)],
    }
}

fn one(rng: &mut Rng, target: Target) -> Damage {
    if rng.once_in(2) {
        length(rng, target)
    } else {
        record(rng, target)
    }
}

/// A length that is the room, above it, next to what it was, or has another bit.
fn length(rng: &mut Rng, target: Target) -> Damage {
    let which = rng.below(LENGTHS.len());
    let (at, room) = (LENGTHS[which], ROOMS[which]);
    let is = target.word(at);
    let bit = 1 << rng.below(64);
    let becomes = rng.pick(&[room, room + 1, u64::MAX, is + 1, is.wrapping_sub(1), is ^ bit]);
    target.word_becomes(at, becomes)
}

/// One bit of a record's number, length or offset; that of the record behind those that are held too.
fn record(rng: &mut Rng, target: Target) -> Damage {
    let at = rng.below((target.slot.records() + 1).min(FRAGMENT_RECORDS));
    target.record(at, 1 << rng.below(64))
}

/// The last record longer, so that the body's length is still the sum and within one of the room; nothing where a record cannot
/// be that long.
fn body_around_its_room(rng: &mut Rng, target: Target) -> Vec<Damage> {
    let is = target.word(BODY_LEN);
    let becomes = rng.around(TX_BYTES) as u64;
    let last = target.slot.records().checked_sub(1).and_then(|at| Some((at, target.slot.index_room().nth(at)?.1)));
    let longer = |(at, len): (usize, u16)| {
        let len_becomes = u16::try_from(u64::from(len) + becomes.checked_sub(is)?).ok()?;
        let record = target.record(at, u64::from(len ^ len_becomes) << LEN_BIT);
        Some(vec![record, target.word_becomes(BODY_LEN, becomes)])
    };
    last.and_then(longer).unwrap_or_default()
}

/// To what an open list reads: a slot becomes like another one, both open, mostly but for its tick, its peer or its request id.
/// Nothing where the table has no slots.
pub fn listed(rng: &mut Rng, r: &Reassembler) -> Vec<Damage> {
    let places = slots(probe::max_peers(r));
    if places == 0 {
        return Vec::new();
    }
    let (first, second) = (Target::new(r, rng.below(places)), Target::new(r, rng.below(places)));
    let any = rng.draw();
    let odd = rng.pick(&[0, 1, u64::MAX, 1 << 28, 1 << 32, 1 << 63, any]);
    let (mut tick, mut peer, mut request_id) = (first.word(LRU_TICK), first.peer.into(), first.word(REQUEST_ID));
    match rng.below(4) {
        0 => tick = odd,
        1 => peer = odd,
        2 => request_id = odd,
        _ => (),
    }
    vec![
        first.word_becomes(ACTIVE, 1),
        second.word_becomes(ACTIVE, any | 1),
        second.word_becomes(LRU_TICK, tick),
        second.peer_becomes(peer),
        second.word_becomes(REQUEST_ID, request_id),
        second.word_becomes(RECORDS, any),
    ]
}
