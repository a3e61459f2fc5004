//! wire.rs: fields of 14 bits.
use crate::input::u16_at;
use crate::inputs::{any_lists, with_random_room, with_room, Each};
use crate::outcome::{Outcome, Refusal};
use crate::rng::Rng;
use midici_pe::wire;

/// All lists of up to two bytes; of three, all pairs with 00 and FF behind them.
pub fn reads(each: Each) {
    (0..=2).for_each(|n| any_lists(n, each));
    any_lists(2, &mut |pair| [0x00, 0xFF].iter().for_each(|b| each(&[pair, &[*b]].concat())));
}

pub fn random_read(rng: &mut Rng) -> Vec<u8> {
    let n = if rng.once_in(4) { rng.below(4) } else { 3 };
    rng.bytes(n)
}

pub fn read_u14_le7(input: &[u8], _: Vec<u8>) -> Outcome {
    Outcome::of(wire::read_u14_le7(input).map(|v| vec![v.into()]).map_err(Refusal::from))
}

/// All values, with room for 0 to 3 bytes.
pub fn writes(each: Each) {
    any_lists(2, &mut |value| (0..=3).for_each(|room| each(&with_room(room, value))));
}

/// A value of 16 bits, every second one next to a power of two.
pub fn random_write(rng: &mut Rng) -> Vec<u8> {
    let power = 1 << rng.below(17);
    let value = if rng.once_in(2) { rng.around(power) } else { rng.below(0x1_0000) };
    with_random_room(rng, 2, (value as u16).to_le_bytes().to_vec())
}

/// The original does not say how many bytes it wrote: always two.
pub fn write_u14_le7(input: &[u8], mut out: Vec<u8>) -> Outcome {
    let reply = wire::write_u14_le7(u16_at(input, 2), &mut out).map(|()| vec![2]).map_err(Refusal::from);
    Outcome { reply, out }
}
