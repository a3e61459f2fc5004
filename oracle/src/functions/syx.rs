//! .syx files. The original does not read them: what the port is compared with is a reading of document 02's sentences (K1).
use crate::input::{from, u16_at};
use crate::inputs::{changed, lists, random_room, seven_bit, with_room, Each};
use crate::outcome::{Outcome, Refusal};
use crate::rng::Rng;

/// What starts and ends a message, what tears it, and the ends of what its body holds.
const BYTES: [u8; 7] = [0x00, 0x7F, 0x80, 0xF0, 0xF7, 0xF8, 0xFF];
/// Lengths around which one that reads several bytes at once has its boundaries, and some other ones.
const LENGTHS: [usize; 8] = [0, 1, 8, 16, 32, 64, 128, 250];

/// What a file holds: place and length of each message's body, and how many messages are torn.
struct Held {
    bodies: Vec<(usize, usize)>,
    torn: u64,
}

/// "F0, bytes up to 7F, F7". "A message that meets the file's end, or a byte above 7F other than F7, is torn; it is counted, not
/// listed, and if that byte is F0 a new one starts there." So a message starts at each F0, wherever it stands.
fn held(file: &[u8]) -> Held {
    let mut held = Held { bodies: Vec::new(), torn: 0 };
    for place in (1..=file.len()).filter(|place| file[place - 1] == 0xF0) {
        let len = file[place..].iter().take_while(|b| **b <= 0x7F).count();
        if file.get(place + len) == Some(&0xF7) {
            held.bodies.push((place, len));
        } else {
            held.torn += 1;
        }
    }
    held
}

/// How many words the columns have.
fn columns(input: &[u8]) -> [usize; 2] {
    [u16_at(input, 0).into(), u16_at(input, 2).into()]
}

/// How many bytes the columns have, the places first and the lengths behind them.
pub fn columns_room(input: &[u8]) -> usize {
    8 * columns(input).iter().sum::<usize>()
}

fn put(words: impl Iterator<Item = usize>, column: &mut [u8]) {
    column.chunks_exact_mut(8).zip(words).for_each(|(room, word)| room.copy_from_slice(&(word as u64).to_le_bytes()));
}

/// "32 when the lent list cannot hold all messages, asked last, list unchanged."
pub fn list(input: &[u8], mut out: Vec<u8>) -> Outcome {
    let Held { bodies, torn } = held(from(input, 4));
    if columns(input).iter().any(|words| *words < bodies.len()) {
        return Outcome { reply: Err(Refusal { number: 32, value: 0 }), out };
    }
    let (places, lengths) = out.split_at_mut(8 * columns(input)[0]);
    put(bodies.iter().map(|(place, _)| *place), places);
    put(bodies.iter().map(|(_, len)| *len), lengths);
    Outcome { reply: Ok(vec![bodies.len() as u64, torn]), out }
}

fn case(places: usize, lengths: usize, file: &[u8]) -> Vec<u8> {
    with_room(places, &with_room(lengths, file))
}

/// With columns that hold all messages, exactly or with a word more; and with one of them a word too short.
fn with_columns(file: &[u8], each: Each) {
    let n = held(file).bodies.len();
    let mut rooms = vec![(n, n), (n + 1, n + 1)];
    if n > 0 {
        rooms.extend([(n - 1, n), (n, n - 1)]);
    }
    rooms.iter().for_each(|(places, lengths)| each(&case(*places, *lengths, file)));
}

/// Dirt, a message of n bytes, dirt and an empty message.
fn among_dirt(n: usize) -> Vec<u8> {
    let (dirt, body) = (vec![0x7F; n], vec![0x7F; n]);
    [&dirt, &[0xF0][..], &body, &[0xF7], &dirt, &[0xF0, 0xF7]].concat()
}

/// All files of up to seven of the bytes; any byte at any place of a longer one; and lengths that two bytes just hold, or not.
pub fn files(each: Each) {
    (0..=7).for_each(|n| lists(&BYTES, n, &mut |file| with_columns(file, each)));
    let file = among_dirt(70);
    for at in 0..file.len() {
        (0..=0xFF).for_each(|b| with_columns(&changed(&file, &[(at, b)]), each));
    }
    (65_534..=65_537).for_each(|n| with_columns(&among_dirt(n), each));
}

/// Bytes up to 7F, once in eight with any byte among them.
fn random_body(rng: &mut Rng) -> Vec<u8> {
    let n = rng.pick(&LENGTHS);
    let n = rng.around(n);
    let mut body = seven_bit(rng, n);
    if n > 0 && rng.once_in(8) {
        body[rng.below(n)] = if rng.once_in(2) { rng.byte() } else { rng.pick(&BYTES) };
    }
    body
}

/// Mostly a message; else one without its end or its start, or dirt.
fn random_piece(rng: &mut Rng) -> Vec<u8> {
    let body = random_body(rng);
    match rng.below(8) {
        0 => [&[0xF0], &body[..]].concat(),
        1 => [&body[..], &[0xF7]].concat(),
        2 => rng.fill(body.len()),
        _ => [&[0xF0], &body[..], &[0xF7]].concat(),
    }
}

/// Up to eight such pieces, once in sixteen any of `BYTES`; columns mostly one short, exact or one more, each by itself.
pub fn random_file(rng: &mut Rng) -> Vec<u8> {
    let n = rng.below(9);
    let file: Vec<u8> = if rng.once_in(16) {
        (0..10 * n).map(|_| rng.pick(&BYTES)).collect()
    } else {
        (0..n).flat_map(|_| random_piece(rng)).collect()
    };
    let need = held(&file).bodies.len();
    case(random_room(rng, need), random_room(rng, need), &file)
}
