//! The lines of a tape by the original's answers, on its table of full size, as far as that goes.
use super::table::{call, left_out, reached};
use crate::call::What;
use crate::lent::Lent;
use crate::run::Call;
use crate::tape::{Command, Tape, SHAPE};
use midici_pe::frame::PeChunkRef;
use midici_pe::reassembler::{probe, Reassembler};

/// The lines, and how many of them are the reading's.
pub struct Lines {
    pub lines: Vec<String>,
    pub by_reading: usize,
}

/// A line for each command up to the first to which a table of full size could give another answer than the tape's ("Domain: ..
/// full size for the table"), or whose chunk K3 turns down in its slot, which is then another than the original's. A chunk that
/// K3 turns down in reading it leaves the table as it is: it has the line of the reading of document 02.
pub fn lines(tape: &Tape) -> Lines {
    let (mut r, mut by_reading) = (Reassembler::new(SHAPE.max_peers), 0);
    let line = |command: &Command| {
        let made = Call { lent: Lent::Right, what: command.what(), damage: Vec::new() };
        let told = match left_out(&r, &made) {
            Some((refusal, beyond)) if beyond.is_by_bytes() => {
                by_reading += 1;
                refusal.into()
            }
            None if fits(&r, &made) => call(&mut r, &made).0,
            _ => return None,
        };
        Some(command.line(told))
    };
    let lines = tape.commands.iter().map_while(line).collect();
    Lines { lines, by_reading }
}

/// Would a slot of the tape's table have room for what a call brings?
fn fits(r: &Reassembler, call: &Call) -> bool {
    let (Some(slot), What::Feed { raw_chunk, .. }) = (reached(r, call), &call.what) else { return true };
    let Ok(chunk) = PeChunkRef::decode(raw_chunk) else { return true };
    let slot = probe::slot(r, slot / probe::PEER_SLOTS, slot % probe::PEER_SLOTS);
    let body_len = slot.property_bytes() + chunk.property.len();
    chunk.header.len() <= SHAPE.header_bytes && slot.records() < SHAPE.fragment_records && body_len <= SHAPE.tx_bytes
}
