//! A name looked up in a header that is read as a flat JSON object. The original has no such reader, so a Rust one stands here
//! for it.
mod reader;

use crate::inputs::{keep, rng};
use crate::port;
use crate::row::Row;
use reader::Found;
use std::hint::black_box;

const LONGEST: usize = 4_096;
const SHORT: &[u8; 48] = b"{\"resource\":\"X-SceneList\",\"offset\":0,\"limit\":12}";

pub fn each(visit: &mut impl FnMut(Row)) {
    refused().iter().for_each(|(refusal, header)| assert_eq!(compared(header, b"a").refusal, *refusal));
    let names = keep(most_names());
    visit(row("48 bytes, 3 names".to_string(), SHORT, b"resource"));
    visit(row(format!("{LONGEST} bytes, one name"), keep(long_string()), b"resource"));
    visit(row(format!("{LONGEST} bytes, {} names", names.len()), keep(with_names(names)), &names[names.len() - 1]));
}

/// The bytes that stand for themselves in a string.
fn plain() -> Vec<u8> {
    (0x20..0x80).filter(|b| !b"\"\\".contains(b)).collect()
}

fn long_string() -> Vec<u8> {
    let (front, behind, plain, mut rng) = (b"{\"resource\":\"", b"\"}", plain(), rng());
    let string: Vec<u8> = (0..LONGEST - front.len() - behind.len()).map(|_| rng.pick(&plain)).collect();
    [&front[..], &string, behind].concat()
}

/// As many names as fit: 94 of one byte and 504 of two. With the empty name they would be no more.
fn most_names() -> Vec<Vec<u8>> {
    let plain = plain();
    let ones = plain.iter().map(|a| vec![*a]);
    let twos = plain.iter().flat_map(|a| plain.iter().map(|b| vec![*a, *b]));
    let mut len = b"{}".len() - b",".len();
    let fits = |name: &Vec<u8>| {
        len += name.len() + b"\"\":0,".len();
        len <= LONGEST
    };
    ones.chain(twos).take_while(fits).collect()
}

/// A header of these names, each with a digit, and white space up to the longest length.
fn with_names(names: &[Vec<u8>]) -> Vec<u8> {
    let member = |(k, name): (usize, &Vec<u8>)| [b"\"", &name[..], b"\":", &[b'0' + (k % 10) as u8]].concat();
    let members: Vec<Vec<u8>> = names.iter().enumerate().map(member).collect();
    let mut header = [b"{", &members.join(&b',')[..], b"}"].concat();
    header.resize(LONGEST, b' ');
    header
}

/// Headers with the refusals that they are given.
fn refused() -> Vec<(u8, Vec<u8>)> {
    let mut names = most_names();
    *names.last_mut().expect("a name") = names[0].clone();
    let mut all = vec![(33, vec![b' '; LONGEST + 1]), (35, b"{\"a\":1,\"\\u0061\":2}".to_vec()), (35, with_names(&names))];
    let not_flat =
        ["", "{", "{}{", "{\"a\"}", "{\"a\":01}", "{\"a\":65536}", "{\"a\":-1}", "{\"a\":[]}", "{\"a\":1,}", "{\"\\x\":1}"];
    all.extend(not_flat.map(|text| (34, text.as_bytes().to_vec())));
    all
}

/// What both sides answer.
fn compared(header: &[u8], name: &[u8]) -> Found {
    let exports::FoundAnswer { refusal, kind, place, length } = port::header_find(header, name);
    let found = Found { refusal, kind, place, length };
    assert_eq!(found, reader::find(header, name));
    found
}

fn row(title: String, header: &'static [u8], name: &'static [u8]) -> Row {
    assert_ne!(compared(header, name).kind, 0, "{title}");
    let by_port = move || {
        black_box(port::header_find(black_box(header), black_box(name)));
    };
    let by_rust = move || {
        black_box(reader::find(black_box(header), black_box(name)));
    };
    Row::new("headers", title, by_port, by_rust)
}
