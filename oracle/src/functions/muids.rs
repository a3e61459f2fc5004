//! muid.rs: numbers of 28 bits.
use crate::input::{u32_at, words};
use crate::inputs::{self, lists, random_muid, seven_bit, Each, BYTES};
use crate::outcome::{Outcome, Refusal};
use crate::rng::Rng;
use midici_core::error::CiError;
use midici_core::muid::Muid;
use rand_core::RngCore;

const WORDS: [u32; 7] = [0, 0x0FFF_FEFF, 0x0FFF_FF00, 0x0FFF_FFFF, 0x1000_0000, 0x1FFF_FF00, 0xFFFF_FFFF];

pub fn numbers(each: Each) {
    inputs::muids().iter().for_each(|v| each(&v.to_le_bytes()));
}

pub fn random_number(rng: &mut Rng) -> Vec<u8> {
    random_muid(rng).to_le_bytes().to_vec()
}

pub fn numbers_of_28_bits(each: Each) {
    inputs::muids().iter().filter(|v| **v < 0x1000_0000).for_each(|v| each(&v.to_le_bytes()));
}

pub fn random_number_of_28_bits(rng: &mut Rng) -> Vec<u8> {
    (random_muid(rng) % 0x1000_0000).to_le_bytes().to_vec()
}

fn told(muid: Result<Muid, CiError>) -> Outcome {
    Outcome::of(muid.map(|m| vec![m.to_u32().into()]).map_err(Refusal::from))
}

/// The original's type holds no more than 28 bits, so no case of its methods has more.
fn muid(input: &[u8]) -> Muid {
    Muid::from_u32(u32_at(input, 0)).expect("a number of 28 bits")
}

pub fn from_u32(input: &[u8], _: Vec<u8>) -> Outcome {
    told(Muid::from_u32(u32_at(input, 0)))
}

pub fn ordinary(input: &[u8], _: Vec<u8>) -> Outcome {
    told(Muid::ordinary(u32_at(input, 0)))
}

pub fn is_broadcast(input: &[u8], _: Vec<u8>) -> Outcome {
    Outcome::granted([muid(input).is_broadcast()])
}

pub fn is_reserved(input: &[u8], _: Vec<u8>) -> Outcome {
    Outcome::granted([muid(input).is_reserved()])
}

pub fn encode_7bit_le(input: &[u8], _: Vec<u8>) -> Outcome {
    Outcome::granted(muid(input).encode_7bit_le())
}

pub fn four_bytes(each: Each) {
    lists(&BYTES, 4, each);
}

/// Four bytes, mostly up to 7F.
pub fn random_four_bytes(rng: &mut Rng) -> Vec<u8> {
    let mut bytes = seven_bit(rng, 4);
    if rng.once_in(3) {
        let at = rng.below(4);
        bytes[at] = rng.byte();
    }
    bytes
}

pub fn decode_7bit_le(input: &[u8], _: Vec<u8>) -> Outcome {
    told(Muid::decode_7bit_le(&u32_at(input, 0).to_le_bytes()))
}

/// Up to three words for a generator, each at a boundary.
pub fn lent_words(each: Each) {
    let places: Vec<u8> = (0..WORDS.len() as u8).collect();
    for n in 0..=3 {
        lists(&places, n, &mut |list| each(&list.iter().flat_map(|i| WORDS[usize::from(*i)].to_le_bytes()).collect::<Vec<u8>>()));
    }
}

/// Up to five, most of them not ordinary.
pub fn random_lent_words(rng: &mut Rng) -> Vec<u8> {
    let n = rng.below(6);
    let word = |rng: &mut Rng| if rng.once_in(4) { random_muid(rng) } else { rng.draw() as u32 | 0x0FFF_FF00 };
    (0..n).flat_map(|_| word(rng).to_le_bytes()).collect()
}

/// A generator that has the lent words, and ordinary ones without end behind them.
struct Lent<'a> {
    words: &'a [u32],
    taken: usize,
}

impl RngCore for Lent<'_> {
    fn next_u32(&mut self) -> u32 {
        self.taken += 1;
        self.words.get(self.taken - 1).copied().unwrap_or(0)
    }
}

/// Whether one of the lent words served, and the number.
pub fn generate(input: &[u8], _: Vec<u8>) -> Outcome {
    let words = &words(input);
    let mut lent = Lent { words, taken: 0 };
    let muid = Muid::generate(&mut lent);
    let found = lent.taken <= words.len();
    Outcome::granted([u32::from(found), if found { muid.to_u32() } else { 0 }])
}
