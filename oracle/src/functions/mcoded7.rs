//! mcoded7.rs: texts of seven bits.
use crate::input::from;
use crate::inputs::{any_lists, change, fill, lists, with_random_room, with_room, Each, BYTES};
use crate::outcome::{copy_in, Outcome, Refusal};
use crate::rng::Rng;
use midici_pe::error::PeError;
use midici_pe::mcoded7;

/// All lists of up to two bytes; of three, all first bytes with two at boundaries; of four, all at boundaries: each with room
/// for 0 to 4 bytes, and 5.
pub fn texts(each: Each) {
    let mut roomy = |list: &[u8]| (0..=5).for_each(|room| each(&with_room(room, list)));
    (0..=2).for_each(|n| any_lists(n, &mut roomy));
    let any: Vec<u8> = (0..=0xFF).collect();
    fill(&mut [0; 3], 0, &|at| if at == 0 { &any } else { &BYTES }, &mut roomy);
    lists(&BYTES, 4, &mut roomy);
}

/// Bytes of a length around a multiple of seven, up to 71; now and then up to some thousands.
fn random_data(rng: &mut Rng) -> Vec<u8> {
    let groups = if rng.once_in(256) { rng.below(400) } else { rng.below(11) };
    let n = if rng.once_in(2) { rng.around(7 * groups) } else { rng.below(71) };
    rng.bytes(n)
}

pub fn random_bytes(rng: &mut Rng) -> Vec<u8> {
    let data = random_data(rng);
    with_random_room(rng, mcoded7::encode(&data).len(), data)
}

/// A text: a good one; or with up to two bytes changed; or with a bit more in the last group's flag byte; or cut.
pub fn random_text(rng: &mut Rng) -> Vec<u8> {
    let data = random_data(rng);
    let mut text = mcoded7::encode(&data);
    match rng.below(8) {
        0 | 1 => change(rng, &mut text),
        2 => spare_flag(rng, &mut text),
        3 => text.truncate(rng.below(text.len() + 1)),
        _ => (),
    }
    let need = text.len() - text.len().div_ceil(8);
    with_random_room(rng, need, text)
}

fn spare_flag(rng: &mut Rng, text: &mut [u8]) {
    if !text.is_empty() {
        let last = (text.len() - 1) / 8 * 8;
        text[last] |= 1 << rng.below(7);
    }
}

/// The original returns a new list where the port writes into a lent output, so the question of room is document 01's:
/// "Output long enough? 3.", asked last.
fn copied(bytes: Result<Vec<u8>, PeError>, mut out: Vec<u8>) -> Outcome {
    let reply = bytes.map_err(Refusal::from).and_then(|bytes| copy_in(&bytes, &mut out));
    Outcome { reply, out }
}

pub fn decode(input: &[u8], out: Vec<u8>) -> Outcome {
    copied(mcoded7::decode(from(input, 2)), out)
}

pub fn encode(input: &[u8], out: Vec<u8>) -> Outcome {
    copied(Ok(mcoded7::encode(from(input, 2))), out)
}
