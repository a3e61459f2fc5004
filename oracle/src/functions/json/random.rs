//! Random headers: right ones made of pieces, and most of the others nearly right.
use super::texts::short_names;
use super::{case, spellings, LONGEST};
use crate::rng::Rng;

/// Of these names are made: few, so that some are one. With and without an escape of two letters, and above 7F.
const UNITS: [u16; 12] = [0x61, 0x62, 0x22, 0x5C, 0x2F, 0x0A, 0x08, 0x00, 0x7F, 0xE1, 0xD83D, 0xDE00];
const SPACES: [&[u8]; 5] = [b" ", b"\t", b"\n", b"\r", b"\r\n  "];
/// What comes into a text that is damaged, beside any byte.
const BYTES: &[u8] = b"{}[]\",:\\/ u0159-.eEtfn\t\x1F\x7F\x80";

/// Mostly of a few names; now and then of up to as many as fit. One in three is damaged, one in 64 is about as long as may be.
pub fn random_header(rng: &mut Rng) -> Vec<u8> {
    let names = if rng.once_in(512) { many_names(rng) } else { few_names(rng) };
    let mut header = written(rng, &names);
    if rng.once_in(64) {
        lengthen(rng, &mut header);
    }
    if rng.once_in(3) {
        (0..1 + rng.below(2)).for_each(|_| damage(rng, &mut header));
    }
    case(&header, &given(rng, &names))
}

fn few_names(rng: &mut Rng) -> Vec<Vec<u16>> {
    (0..rng.below(6)).map(|_| name(rng)).collect()
}

/// Up to four units, once in 32 up to some forty.
fn name(rng: &mut Rng) -> Vec<u16> {
    let most = if rng.once_in(32) { 40 } else { 5 };
    (0..rng.below(most)).map(|_| rng.pick(&UNITS)).collect()
}

/// Different ones in any order; every second time one of them stands in another one's place too.
fn many_names(rng: &mut Rng) -> Vec<Vec<u16>> {
    let mut names: Vec<Vec<u16>> =
        short_names(1 + rng.below(598)).iter().map(|name| name.iter().map(|b| u16::from(*b)).collect()).collect();
    rng.shuffle(&mut names);
    if rng.once_in(2) {
        let at = rng.below(names.len());
        names[at] = names[rng.below(names.len())].clone();
    }
    names
}

fn written(rng: &mut Rng, names: &[Vec<u16>]) -> Vec<u8> {
    let write: fn(&mut Rng, &[u16]) -> Vec<u8> = if names.len() > 40 { short_member } else { member };
    let members: Vec<Vec<u8>> = names.iter().map(|name| write(rng, name)).collect();
    [space(rng), b"{", space(rng), &members.join(&b','), b"}", space(rng)].concat()
}

/// In the fewest bytes, once in 64 in another spelling.
fn short_member(rng: &mut Rng, name: &[u16]) -> Vec<u8> {
    let name = if rng.once_in(64) { spelled(rng, name) } else { low_bytes(name) };
    [b"\"", &name[..], b"\":", &[b'0' + rng.below(10) as u8]].concat()
}

fn member(rng: &mut Rng, name: &[u16]) -> Vec<u8> {
    let (name, value) = (spelled(rng, name), value(rng));
    [space(rng), b"\"", &name, b"\"", space(rng), b":", space(rng), &value, space(rng)].concat()
}

fn space(rng: &mut Rng) -> &'static [u8] {
    if rng.once_in(4) {
        rng.pick(&SPACES)
    } else {
        b""
    }
}

/// Each unit in one of its spellings.
fn spelled(rng: &mut Rng, units: &[u16]) -> Vec<u8> {
    units.iter().flat_map(|unit| spellings(*unit).swap_remove(rng.below(spellings(*unit).len()))).collect()
}

fn low_bytes(units: &[u16]) -> Vec<u8> {
    units.iter().map(|unit| *unit as u8).collect()
}

fn value(rng: &mut Rng) -> Vec<u8> {
    match rng.below(8) {
        0 => b"true".to_vec(),
        1 => b"false".to_vec(),
        2 => b"null".to_vec(),
        3..=5 => number(rng).to_string().into_bytes(),
        _ => {
            let units = name(rng);
            [b"\"", &spelled(rng, &units)[..], b"\""].concat()
        }
    }
}

/// Of each count of digits; once in sixteen around the largest.
fn number(rng: &mut Rng) -> usize {
    let below = rng.pick(&[10, 100, 1_000, 10_000, 65_536]);
    if rng.once_in(16) {
        rng.around(65_535)
    } else {
        rng.below(below)
    }
}

/// With white space in front or behind, to about as long as may be.
fn lengthen(rng: &mut Rng, header: &mut Vec<u8>) {
    let space = vec![b' '; rng.around(LONGEST).saturating_sub(header.len())];
    let at = if rng.once_in(2) { 0 } else { header.len() };
    header.splice(at..at, space);
}

/// A byte more, or less, or another one; or the text is cut.
fn damage(rng: &mut Rng, header: &mut Vec<u8>) {
    let at = rng.below(header.len() + 1);
    let b = if rng.once_in(4) { rng.byte() } else { rng.pick(BYTES) };
    match rng.below(8) {
        0 => header.truncate(at),
        1..=3 => header.insert(at, b),
        4 | 5 if at < header.len() => header[at] = b,
        _ if at < header.len() => drop(header.remove(at)),
        _ => (),
    }
}

/// Mostly one of the names, its units as bytes; once in eight as it may stand in a text.
fn given(rng: &mut Rng, names: &[Vec<u16>]) -> Vec<u8> {
    let name = if names.is_empty() || rng.once_in(8) { name(rng) } else { names[rng.below(names.len())].clone() };
    if rng.once_in(8) {
        spelled(rng, &name)
    } else {
        low_bytes(&name)
    }
}
