//! Is the port's lent memory what the original's private fields hold? Each comparison says how many bytes it compared.
use crate::table::Table;
use midici_pe::reassembler::probe::{self, Slot};
use midici_pe::reassembler::Reassembler;
use oracle::layout::{self, record_word, slot_words, BOUND, CLOCK, FRAGMENT_RECORDS, HEADER_BYTES, MUID, TX_BYTES};

/// The clock, every record and every number of each slot, and of each open slot header, records and body; and that the numbers
/// behind the table hold the garbage that was there.
pub fn compare(table: &Table, r: &Reassembler, garbage: u64) -> Result<u64, String> {
    same("the clock", table.numbers[CLOCK], probe::clock(r))?;
    let mut bytes = 0;
    for p in 0..probe::max_peers(r) {
        let words = &table.numbers[layout::peer_at(p)..];
        let (bound, muid) = probe::peer(r, p);
        same_at("bound", p, words[BOUND], bound.into())?;
        same_at("muid", p, words[MUID], muid.into())?;
        for s in 0..probe::PEER_SLOTS {
            let slot = probe::slot(r, p, s);
            let (found, expected) = (table.slot_words(probe::PEER_SLOTS * p + s), slot_words(slot));
            if found != expected {
                return Err(format!("slot {s} of record {p} has {found:?}, the original's has {expected:?}"));
            }
            if slot.is_active() {
                bytes += in_use(table, probe::PEER_SLOTS * p + s, slot)?;
            }
        }
    }
    if table.numbers[table.words()..].iter().any(|word| *word != garbage) {
        return Err("the numbers behind the table are not kept".into());
    }
    Ok(bytes + 8 * table.numbers.len() as u64)
}

fn same(name: &str, port: u64, original: u64) -> Result<(), String> {
    if port != original {
        return Err(format!("{name} is {port}, the original's is {original}"));
    }
    Ok(())
}

fn same_at(name: &str, p: usize, port: u64, original: u64) -> Result<(), String> {
    if port != original {
        return Err(format!("{name} of record {p} is {port}, the original's is {original}"));
    }
    Ok(())
}

/// What an open slot has stored.
fn in_use(table: &Table, slot: usize, original: Slot) -> Result<u64, String> {
    let (header, arena, records) = (original.header(), original.arena(), original.records());
    let index = &table.slot_records(slot)[..records];
    if table.headers[slot * HEADER_BYTES..][..header.len()] != *header {
        return Err(format!("the header in room {slot} is not the original's"));
    }
    if !index.iter().copied().eq(original.index_room().take(records).map(record_word)) {
        return Err(format!("the records in room {slot} are not the original's"));
    }
    if table.arenas[slot * TX_BYTES..][..arena.len()] != *arena {
        return Err(format!("the bytes in room {slot} are not the original's"));
    }
    Ok((header.len() + 8 * records + arena.len()) as u64)
}

/// All rooms whole, those parts too that nothing uses: old bytes and records are kept.
pub fn compare_rooms(table: &Table, r: &Reassembler) -> Result<u64, String> {
    for slot in 0..table.slots() {
        let original = probe::slot(r, slot / probe::PEER_SLOTS, slot % probe::PEER_SLOTS);
        if table.headers[slot * HEADER_BYTES..][..HEADER_BYTES] != *original.header_room() {
            return Err(format!("header room {slot} is not kept"));
        }
        if !table.slot_records(slot).iter().copied().eq(original.index_room().map(record_word)) {
            return Err(format!("the records' room {slot} is not kept"));
        }
        if table.arenas[slot * TX_BYTES..][..TX_BYTES] != *original.arena_room() {
            return Err(format!("body room {slot} is not kept"));
        }
    }
    if !table.is_kept_behind() {
        return Err("what lies behind the rooms is not kept".into());
    }
    Ok((table.slots() * (HEADER_BYTES + 8 * FRAGMENT_RECORDS + TX_BYTES)) as u64)
}
