//! The original's answers to the calls of a run, the slots that they reach, and the calls that are left out.
use crate::beyond::{self, Asked, Beyond, No};
use crate::call::{muid, What, Written};
use crate::lent::Lent;
use crate::outcome::Refusal;
use crate::run::{Call, Told};
use midici_core::muid::Muid;
use midici_core::pe_msg::PeMessage;
use midici_pe::frame::PeChunkRef;
use midici_pe::reassembler::{probe, Reassembler};

/// The original's answer. It is lent no memory: document 01's first question is put here, "Shape in range and lent memory long
/// enough? 30."
pub fn call(r: &mut Reassembler, call: &Call) -> (Told, Written) {
    let mut written = Written::default();
    let numbers = match call.lent {
        Lent::Right => call.what.original(r, &mut written),
        _ => Err(Refusal { number: 30, value: 0 }),
    };
    let told = match numbers {
        Ok(numbers) => Told { refusal: 0, value: 0, numbers },
        Err(refusal) => refusal.into(),
    };
    (told, written)
}

/// The chunk that a call feeds, and the peer under which it does, where every question ahead of the chunk's gets yes.
fn fed(call: &Call) -> Option<(Muid, Vec<u8>)> {
    if call.lent != Lent::Right {
        return None;
    }
    match &call.what {
        What::Feed { peer, raw_chunk, .. } => Some((muid(*peer).ok()?, raw_chunk.clone())),
        What::FeedMessage { body, .. } => {
            let message = PeMessage::decode(body).ok()?;
            Some((message.header.source, message.pe_payload))
        }
        _ => None,
    }
}

/// The slot whose memory question 31 asks about, where a call feeds a chunk and gets yes to every question ahead of it.
pub fn reached(r: &Reassembler, call: &Call) -> Option<usize> {
    let (peer, raw_chunk) = fed(call)?;
    slot_for(r, peer, PeChunkRef::decode(&raw_chunk).ok()?.request_id)
}

/// What K3 turns down of a call, where it does, and with which refusal: such a call is not put to the original.
pub fn left_out(r: &Reassembler, call: &Call) -> Option<(Refusal, Beyond)> {
    let (peer, raw_chunk) = fed(call)?;
    left_out_chunk(r, peer, &raw_chunk)
}

/// What K3 turns down of a chunk that a peer sends: by its bytes, or by what the slot holds that it reaches.
pub fn left_out_chunk(r: &Reassembler, peer: Muid, raw_chunk: &[u8]) -> Option<(Refusal, Beyond)> {
    let No { refusal, beyond } = asked(r, peer, raw_chunk).err()?;
    Some((refusal, beyond?))
}

/// What the reading asks of a chunk, and of the slot where it reaches one.
fn asked(r: &Reassembler, peer: Muid, raw_chunk: &[u8]) -> Asked {
    let chunk = beyond::read(raw_chunk)?;
    let Some(slot) = slot_for(r, peer, chunk.request_id) else { return Ok(()) };
    beyond::slot_takes(probe::slot(r, slot / probe::PEER_SLOTS, slot % probe::PEER_SLOTS), chunk)
}

/// "Own, unbound or idle record? 7. Transfer open with this id, or a free one? 6."
fn slot_for(r: &Reassembler, peer: Muid, request_id: u8) -> Option<usize> {
    let p = record_for(r, peer)?;
    let slots: Vec<_> = (0..probe::PEER_SLOTS).map(|s| probe::slot(r, p, s)).collect();
    let open = slots.iter().position(|slot| slot.is_active() && slot.request_id() == request_id);
    let s = open.or_else(|| slots.iter().position(|slot| !slot.is_active()))?;
    Some(p * probe::PEER_SLOTS + s)
}

/// "A console takes the record bound to it .., else the first unbound, else the first with nothing open".
fn record_for(r: &Reassembler, peer: Muid) -> Option<usize> {
    let mut records = 0..probe::max_peers(r);
    let is_idle = |p: usize| (0..probe::PEER_SLOTS).all(|s| !probe::slot(r, p, s).is_active());
    let own = records.clone().find(|p| probe::peer(r, *p) == (true, peer.to_u32()));
    let unbound = records.clone().find(|p| !probe::peer(r, *p).0);
    own.or(unbound).or_else(|| records.find(|p| is_idle(*p)))
}
