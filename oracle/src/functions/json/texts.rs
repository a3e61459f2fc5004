//! Headers at the boundaries.
use super::{case, spellings, LONGEST};
use crate::inputs::{changed, lists, Each};

/// What stands outside of strings, but for the three literals.
const OUTSIDE: &[u8] = b"{}\":,0 ";
/// What stands inside of strings and of their escapes, and the ends of what does not.
const INSIDE: &[u8] = b"\"\\/u0Fn\x1F\x7F\x80";
/// Digits, and what other numbers have.
const OF_NUMBERS: &[u8] = b"01569-.e ";
/// It has a value of each kind, names and a string with escapes, and all white space.
const GOOD: &[u8] = b" {\"a\\n\" : \"b\\u00e9\\\\\",\t\"\":65535,\n\"a\":true ,\"/\":false,\"\\u002F\\/\":null,\"x\":0}\r";
/// Numbers above the largest, some of which are below it where only 16, 32 or 64 bits are kept.
const LONG_NUMBERS: &str =
    "99999 100000 131071 655350 4294967296 4294967297 18446744073709551616 18446744073709551617 100000000000000000000000000000001";

/// All texts of up to seven of the bytes outside of strings, and all of up to five inside of one and in a number's place; every
/// byte in each place of a good text; each unit; numbers, lengths and counts of names around their limits.
pub fn headers(each: Each) {
    (0..=7).for_each(|n| lists(OUTSIDE, n, &mut |text| each(&case(text, b""))));
    for n in 0..=5 {
        lists(INSIDE, n, &mut |text| each(&case(&[b"{\"", text, b"\":0}"].concat(), text)));
        lists(INSIDE, n, &mut |text| each(&case(&[b"{\"a\":\"", text, b"\"}"].concat(), b"a")));
        lists(OF_NUMBERS, n, &mut |text| each(&case(&valued(text), b"a")));
    }
    numbers(each);
    damaged(each);
    units(each);
    pairs_of_spellings(each);
    lengths(each);
    counts_of_names(each);
}

fn valued(value: &[u8]) -> Vec<u8> {
    [b"{\"a\":", value, b"}"].concat()
}

fn numbers(each: Each) {
    (0..=70_000).for_each(|number: u32| each(&case(&valued(number.to_string().as_bytes()), b"a")));
    LONG_NUMBERS.split(' ').for_each(|number| each(&case(&valued(number.as_bytes()), b"a")));
}

/// A good text with any byte in the place of another or between two, without one, or cut.
fn damaged(each: Each) {
    for at in 0..=GOOD.len() {
        let (front, rest) = GOOD.split_at(at);
        each(&case(front, b"a"));
        (0..=0xFF).for_each(|b| each(&case(&[front, &[b], rest].concat(), b"a")));
        if at < GOOD.len() {
            each(&case(&[front, &rest[1..]].concat(), b"/"));
            (0..=0xFF).for_each(|b| each(&case(&changed(GOOD, &[(at, b)]), b"/")));
        }
    }
}

/// Each unit by its digits; the given name is its low byte.
fn units(each: Each) {
    for unit in 0..=0xFFFF {
        spellings(unit)[..2].iter().for_each(|way| each(&case(&[b"{\"", &way[..], b"\":1}"].concat(), &[unit as u8])));
    }
}

/// Any two spellings of units up to 80, and of two that have the same low byte, as the names of one text.
fn pairs_of_spellings(each: Each) {
    let spelled: Vec<(u16, Vec<u8>)> =
        (0..=0x80).chain([0x161, 0xD83D]).flat_map(|unit| spellings(unit).into_iter().map(move |way| (unit, way))).collect();
    for (unit, way) in &spelled {
        spelled.iter().for_each(|(_, other)| each(&case(&members(&[way, other]), &[*unit as u8])));
    }
}

/// A text with so many names, written as they are; each value tells its name's place.
fn members(names: &[&Vec<u8>]) -> Vec<u8> {
    let member = |(at, name): (usize, &&Vec<u8>)| [b"\"", &name[..], b"\":", (at % 10).to_string().as_bytes()].concat();
    let members: Vec<Vec<u8>> = names.iter().enumerate().map(member).collect();
    [b"{", &members.join(&b',')[..], b"}"].concat()
}

/// A text that is made so long by a piece with so many bytes of one sort.
fn filled(len: usize, front: &[u8], fill: u8, rest: &[u8]) -> Vec<u8> {
    [front, &vec![fill; len - front.len() - rest.len()], rest].concat()
}

/// White space, a string, a name, a number or a torn text, each around the longest length; and behind two names that are one.
fn lengths(each: Each) {
    let pieces: [(&[u8], u8, &[u8]); 8] = [
        (b"{\"a\":1}", b' ', b""),
        (b"", b'\n', b"{\"a\":1}"),
        (b"{\"a\":\"", b'x', b"\"}"),
        (b"{\"", b'x', b"\":1,\"a\":2}"),
        (b"{\"a\":", b'1', b"}"),
        (b"{\"a\":\"", b'x', b"\""),
        (b"{\"a\":1", b'\t', b",\"\\u0061\":2}"),
        (b"", b'{', b""),
    ];
    for len in (LONGEST - 2..=LONGEST + 2).chain([2 * LONGEST, 65_535]) {
        pieces.iter().for_each(|(front, fill, rest)| each(&case(&filled(len, front, *fill, rest), b"a")));
    }
}

/// So many different names, the shortest first, that need no escape: those of one byte, then those of two.
pub fn short_names(count: usize) -> Vec<Vec<u8>> {
    let letters: Vec<u8> = (0x20..=0x7F).filter(|b| ![b'"', b'\\'].contains(b)).collect();
    let ones = letters.iter().map(|b| vec![*b]);
    let twos = letters.iter().flat_map(|a| letters.iter().map(|b| vec![*a, *b]));
    ones.chain(twos).take(count).collect()
}

/// Up to as many names as fit, and one more: all different; and with one of them at the end again, or in front or at the end in
/// another spelling.
fn counts_of_names(each: Each) {
    for count in (1..=40).chain([63, 64, 65, 127, 128, 129, 255, 256, 257, 511, 512, 513, 596, 597, 598, 599]) {
        let names = short_names(count);
        let all: Vec<&Vec<u8>> = names.iter().collect();
        for name in [&names[0], &names[count / 2], &names[count - 1]] {
            let other = [&spellings(name[0].into())[0], &name[1..]].concat();
            each(&case(&members(&all), name));
            each(&case(&members(&[&all[..], &[name]].concat()), name));
            each(&case(&members(&[&all[..], &[&other]].concat()), name));
            each(&case(&members(&[&[&other], &all[..]].concat()), name));
        }
    }
}
