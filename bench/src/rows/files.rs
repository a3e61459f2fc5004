//! A .syx file of a megabyte read: place and length of each message, and how many are torn. The original has no such reader, so
//! a plain Rust one stands here for it.
use crate::inputs::{bytes, keep, rng, seven_bit};
use crate::port;
use crate::row::Row;
use std::hint::black_box;

const FILE: usize = 1_048_576;
const MESSAGES: usize = 4_000;

pub fn each(visit: &mut impl FnMut(Row)) {
    visit(row(format!("{FILE} bytes, {MESSAGES} messages"), keep(messages(MESSAGES))));
    visit(row(format!("{FILE} bytes, one message"), keep(messages(1))));
    visit(row(format!("{FILE} bytes, no message"), keep(dirt())));
}

/// So many messages, one after the other, of lengths within one of each other.
fn messages(count: usize) -> Vec<u8> {
    let mut file = seven_bit(&mut rng(), FILE);
    for k in 0..count {
        file[k * FILE / count] = 0xF0;
        file[(k + 1) * FILE / count - 1] = 0xF7;
    }
    file
}

/// Any bytes but F0.
fn dirt() -> Vec<u8> {
    bytes(&mut rng(), FILE).iter().map(|b| if *b == 0xF0 { 0 } else { *b }).collect()
}

fn row(name: String, file: &'static [u8]) -> Row {
    let read = read_by_rust(file);
    let (mut places, mut lengths) = (vec![0; read.places.len()], vec![0; read.lengths.len()]);
    let answer = port::syx_list(file, &mut places, &mut lengths);
    assert_eq!((answer.refusal, answer.messages), (0, places.len() as u64));
    assert_eq!(read, Read { places: places.clone(), lengths: lengths.clone(), torn: answer.torn });
    let by_port = move || {
        black_box(port::syx_list(black_box(file), &mut places, &mut lengths));
    };
    let by_rust = move || {
        black_box(read_by_rust(black_box(file)));
    };
    Row::new("files", name, by_port, by_rust).beside_copy(file)
}

#[derive(Default, Debug, PartialEq, Eq)]
struct Read {
    places: Vec<u64>,
    lengths: Vec<u64>,
    torn: u64,
}

/// It allocates what it returns, as the original's functions do. Of five plain ways this was the quickest: one loop over the
/// bytes with a state takes twice its time. Not so plain, and not here: passing over blocks of 64 bytes by `contains` and
/// `is_ascii` takes a tenth to a quarter of it on these files.
fn read_by_rust(file: &[u8]) -> Read {
    let mut read = Read::default();
    let mut rest = file;
    while let Some(dirt) = first(rest, |b| b == 0xF0) {
        rest = &rest[dirt + 1..];
        let len = first(rest, |b| b > 0x7F).unwrap_or(rest.len());
        if rest.get(len) == Some(&0xF7) {
            read.places.push((file.len() - rest.len()) as u64);
            read.lengths.push(len as u64);
        } else {
            read.torn += 1;
        }
        rest = &rest[len..];
    }
    read
}

/// The place of the first byte that is looked for. Not built into its callers, where its loop, in some builds, came to lie so
/// that it took twice the time.
#[inline(never)]
fn first(bytes: &[u8], looked_for: impl Fn(u8) -> bool) -> Option<usize> {
    bytes.iter().position(|b| looked_for(*b))
}
