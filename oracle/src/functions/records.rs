//! From reassembler.rs: the search for a chunk's number among a slot's records.
use crate::input::{from, long_words, u16_at};
use crate::inputs::{lists, Each};
use crate::layout::{record, record_word, FRAGMENT_RECORDS};
use crate::outcome::Outcome;
use crate::rng::Rng;
use midici_pe::reassembler::probe;

const NUMBERS: [u16; 6] = [0, 1, 2, 0x00FF, 0x3FFF, 0xFFFF];
/// A record's length and offset, so that numbers stand in other fields too.
const OTHERS: [(u16, u32); 2] = [(0, 0x0001_0002), (0xFFFF, 0xFFFF_FFFF)];

fn input(chunk_num: u16, words: &[u64]) -> Vec<u8> {
    let bytes = words.iter().flat_map(|word| word.to_le_bytes());
    chunk_num.to_le_bytes().into_iter().chain(bytes).collect()
}

/// Up to three records with numbers at the boundaries, each of them searched for; and as many as count, one fewer or up to two
/// more, with the number at the first places or the last ones, at two of them, or nowhere.
pub fn to_search(each: Each) {
    let words: Vec<u64> = NUMBERS.iter().flat_map(|n| OTHERS.map(|(len, offset)| record_word((*n, len, offset)))).collect();
    let places: Vec<u8> = (0..words.len() as u8).collect();
    for n in 0..=3 {
        lists(&places, n, &mut |list| {
            let words: Vec<u64> = list.iter().map(|i| words[usize::from(*i)]).collect();
            NUMBERS.iter().for_each(|chunk_num| each(&input(*chunk_num, &words)));
        });
    }
    for n in FRAGMENT_RECORDS - 1..=FRAGMENT_RECORDS + 2 {
        let ends = [0, 1, n - 3, n - 2, n - 1];
        each(&input(5, &holding(n, &[])));
        ends.iter().for_each(|at| ends.iter().for_each(|second| each(&input(5, &holding(n, &[*at, *second])))));
    }
}

/// So many records, with the number 5 at these places, and lengths of 5 all over.
fn holding(n: usize, places: &[usize]) -> Vec<u64> {
    let number = |at: usize| if places.contains(&at) { 5 } else { at as u16 + 6 };
    (0..n).map(|at| record_word((number(at), 5, 5 * at as u32))).collect()
}

/// Mostly few records, now and then around as many as count; mostly one of their numbers, which may stand there twice.
pub fn random_to_search(rng: &mut Rng) -> Vec<u8> {
    let n = if rng.once_in(64) { FRAGMENT_RECORDS - 4 + rng.below(8) } else { rng.below(20) };
    let words: Vec<u64> = (0..n).map(|_| (rng.draw() & !0xFFFF) | (rng.below(2 * n) as u64)).collect();
    let held = words.get(rng.below(n + 1)).map(|word| record(*word).0);
    let chunk_num = held.filter(|_| !rng.once_in(4)).unwrap_or_else(|| rng.draw() as u16);
    input(chunk_num, &words)
}

/// Whether one of the records that a slot has room for has the number, and the first place at which one has it.
pub fn position(input: &[u8], _: Vec<u8>) -> Outcome {
    let records = long_words(from(input, 2)).into_iter().take(FRAGMENT_RECORDS).map(record);
    let place = probe::position(records, u16_at(input, 0));
    Outcome::granted([place.is_some().into(), place.unwrap_or(0) as u64])
}
