//! What inputs of several functions are made of, at the boundaries and at random.
use crate::input::u16_at;
use crate::rng::Rng;

/// Takes inputs, one after the other.
pub type Each<'a> = &'a mut dyn FnMut(&[u8]);

pub const BYTES: [u8; 12] = [0x00, 0x01, 0x20, 0x3F, 0x40, 0x41, 0x60, 0x7E, 0x7F, 0x80, 0xC0, 0xFF];
pub const VERSIONS: [u8; 6] = [0x00, 0x01, 0x02, 0x03, 0x7F, 0xFF];
pub const KINDS: [u8; 12] = [0x30, 0x31, 0x33, 0x34, 0x35, 0x36, 0x37, 0x38, 0x39, 0x3A, 0x3E, 0x3F];
const MUID_EDGES: [u32; 8] = [0, 0x80, 0x4000, 0x0020_0000, 0x0FFF_FF00, 0x0FFF_FFFF, 0x8000_0000, 0xFFFF_FFFF];
const RANDOM_MUID_EDGES: [u32; 8] = [0, 0x7F, 0x80, 0x0FFF_FEFF, 0x0FFF_FF00, 0x0FFF_FFFE, 0x0FFF_FFFF, 0x1000_0000];

/// No bytes.
pub fn nothing(each: Each) {
    each(&[]);
}

/// Each byte.
pub fn any_byte(each: Each) {
    any_lists(1, each);
}

/// Each two bytes.
pub fn any_two(each: Each) {
    any_lists(2, each);
}

/// Each list of n of the bytes.
pub fn lists(bytes: &[u8], n: usize, each: Each) {
    fill(&mut vec![0; n], 0, &|_| bytes, each);
}

/// Each list of n bytes.
pub fn any_lists(n: usize, each: Each) {
    lists(&(0..=0xFF).collect::<Vec<u8>>(), n, each);
}

/// Each list that has the first places as they are and at each later one of the bytes that are meant for it.
pub fn fill<'a>(list: &mut [u8], at: usize, bytes: &dyn Fn(usize) -> &'a [u8], each: Each) {
    if at == list.len() {
        return each(list);
    }
    for b in bytes(at) {
        list[at] = *b;
        fill(list, at + 1, bytes, each);
    }
}

/// With bytes in other places.
pub fn changed(good: &[u8], at: &[(usize, u8)]) -> Vec<u8> {
    let mut bytes = good.to_vec();
    at.iter().for_each(|(at, b)| bytes[*at] = *b);
    bytes
}

/// The room in front of a writer's input.
pub fn with_room(room: usize, input: &[u8]) -> Vec<u8> {
    [&(room as u16).to_le_bytes()[..], input].concat()
}

/// The room that a writer's input begins with.
pub fn room(input: &[u8]) -> usize {
    u16_at(input, 0).into()
}

/// Of a function that writes nothing.
pub fn no_room(_: &[u8]) -> usize {
    0
}

/// Numbers within two of each boundary.
pub fn muids() -> Vec<u32> {
    MUID_EDGES.iter().flat_map(|edge| (0..5).map(|d: u32| edge.wrapping_add(d).wrapping_sub(2))).collect()
}

/// No bytes.
pub fn random_nothing(_: &mut Rng) -> Vec<u8> {
    Vec::new()
}

pub fn random_byte(rng: &mut Rng) -> Vec<u8> {
    rng.bytes(1)
}

pub fn random_two(rng: &mut Rng) -> Vec<u8> {
    rng.bytes(2)
}

/// The room in front of the input of a writer that needs `need` bytes.
pub fn with_random_room(rng: &mut Rng, need: usize, input: Vec<u8>) -> Vec<u8> {
    with_room(random_room(rng, need), &input)
}

/// Mostly one short, exact or one more.
pub fn random_room(rng: &mut Rng, need: usize) -> usize {
    if rng.once_in(8) {
        rng.below(need + 5)
    } else {
        rng.around(need)
    }
}

/// A number of 32 bits, mostly within 28.
pub fn random_muid(rng: &mut Rng) -> u32 {
    match rng.below(16) {
        0 => rng.draw() as u32,
        1..=7 => rng.pick(&RANDOM_MUID_EDGES).wrapping_add(rng.below(5) as u32).wrapping_sub(2),
        _ => rng.draw() as u32 % 0x1000_0000,
    }
}

pub fn seven_bit(rng: &mut Rng, n: usize) -> Vec<u8> {
    rng.bytes(n).iter().map(|b| b & 0x7F).collect()
}

/// One byte or two are another, where there is one.
pub fn change(rng: &mut Rng, bytes: &mut [u8]) {
    for _ in 0..1 + rng.below(2) {
        if !bytes.is_empty() {
            let at = rng.below(bytes.len());
            bytes[at] = rng.byte();
        }
    }
}

pub fn random_version(rng: &mut Rng) -> u8 {
    if rng.once_in(8) {
        rng.byte()
    } else {
        rng.pick(&VERSIONS)
    }
}
