//! Writes the list that the program `replay` plays: `vectors DIR` writes DIR/stdin, records of a function's byte, the
//! length of its input in two bytes, low one first, and the input; and DIR/stdout, the original's answer to each on a line.
//! Document 01's examples come first, then random cases of each function, then random runs on a table. What K3 of document 02
//! turns down and the original does not is left out, and so are K6's limits.
mod table;

use oracle::case::Case;
use oracle::export::Export;
use oracle::input::List;
use oracle::op::Op;
use oracle::outcome::{Answer, Outcome};
use oracle::random::Rng;
use oracle::{original, random};
use std::collections::{BTreeMap, BTreeSet};

/// What the program's output holds before a call, how long an input may be, and how much room the program has.
const FILL: u8 = 0xEE;
const LONGEST: usize = 120;
const ROOM: usize = 256;

/// How many bytes of the list the program takes.
const LIST: usize = 65_536;

/// How many cases there are of each answer of a function, and how many are tried to find them.
const OF_EACH: usize = 6;
const TRIES: usize = 20_000;

/// The functions that the program plays.
fn replayed() -> impl Iterator<Item = (Op, Export)> {
    Op::ALL.into_iter().filter(|(op, _)| op.row().replayed)
}

/// The refusals of these functions, and 6 and 7 of the table; but for 5: it takes a body of 65,537 bytes, or
/// 2,049 chunks.
fn refusals() -> BTreeSet<u8> {
    let functions = replayed().flat_map(|(_, export)| export.refusals).copied();
    functions.chain([6, 7]).filter(|number| *number != 5).collect()
}

fn answer(case: &Case) -> Outcome {
    original::answer(case, case.lent(|_| FILL))
}

/// Document 01's examples of these functions, and the ends of the counter and of the requests. Its chunk that ends in FF, which
/// K3 turns down, ends in 7F here; the limit 5,000 is left out (K6).
fn examples() -> Vec<Case> {
    let examples: &[(Op, &[u8])] = &[
        (Op::ReadU14Le7, &[0x68, 0x07]),
        (Op::ReadU14Le7, &[0x80, 0x00]),
        (Op::WriteU14Le7, &[2, 0, 0xFF, 0x3F]),
        (Op::WriteU14Le7, &[2, 0, 0x00, 0x40]),
        (Op::MuidDecode7bitLe, &[0x7F, 0x7F, 0x7F, 0x7F]),
        (Op::Mcoded7Decode, &[1, 0, 0x40, 0x01]),
        (Op::Mcoded7Encode, &[2, 0, 0x81]),
        (Op::AllocOutRequestId, &[0]),
        (Op::AllocOutRequestId, &[126]),
        (Op::AllocOutRequestId, &[127]),
        (Op::AllocOutRequestId, &[128]),
        (Op::AllocOutRequestId, &[255]),
        (Op::NegotiatedRequests, &[0, 0]),
        (Op::NegotiatedRequests, &[4, 0]),
        (Op::NegotiatedRequests, &[4, 3]),
        (Op::NegotiatedRequests, &[4, 255]),
        (Op::ChunkDecode, &[0x05, 0x02, 0x00, 0x7B, 0x7D, 0x01, 0x00, 0x01, 0x00, 0x00, 0x00]),
        (Op::ChunkDecode, &[0x05, 0x02, 0x00, 0x7B, 0x7D, 0x01, 0x00, 0x01, 0x00, 0x00, 0x00, 0x00]),
        (Op::ChunkDecode, &[0x05, 0x02, 0x00, 0x7B, 0x7D, 0x01, 0x00, 0x01, 0x00, 0x00]),
        (Op::ChunkDecode, &[0x05, 0x01, 0x00, 0x7B, 0x02, 0x00, 0x02, 0x00, 0x00, 0x00]),
        (Op::ChunkDecode, &[0x05, 0x00, 0x00, 0x01, 0x00, 0x00, 0x00, 0x01, 0x00, 0x7F]),
        (Op::LaterCapacity, &[0, 0, 0, 0]),
        (Op::LaterCapacity, &[128, 0, 0, 0]),
        (Op::LaterCapacity, &[0x00, 0x10, 0, 0]),
        (Op::FirstCapacity, &[128, 0, 0, 0, 104]),
        (Op::FirstCapacity, &[128, 0, 0, 0, 105]),
    ];
    let short = examples.iter().map(|(op, input)| Case { op: *op, input: input.to_vec() });
    let cuts = [cut(256, &[0x20; 48], &[0x41; 1_000]), cut(256, b"{}", b""), cut(128, &[0x20; 104], &[0x41; 200])];
    let too_wide = Case { op: Op::ChunkCount, input: list(128, &[0x20; 105], &[0x41; 200]) };
    short.chain(cuts.into_iter().flatten()).chain([too_wide]).collect()
}

fn list(max_sysex: u32, header: &[u8], body: &[u8]) -> Vec<u8> {
    List { request_id: 5, max_sysex, header, body }.bytes()
}

/// A list that is cut: how many chunks there are, and each of them, written and then read; and the number after the last.
fn cut(max_sysex: u32, header: &[u8], body: &[u8]) -> Vec<Case> {
    let list = list(max_sysex, header, body);
    let count = Case { op: Op::ChunkCount, input: list.clone() };
    let chunks = answer(&count).reply.expect("the list is cut")[0] as u16;
    let split = |k: u16| Case { op: Op::SplitChunk, input: [&(ROOM as u16).to_le_bytes()[..], &k.to_le_bytes(), &list].concat() };
    let read = |split: &Case| {
        let Outcome { reply, out } = answer(split);
        Case { op: Op::ChunkDecode, input: out[..reply.expect("a chunk is written")[0] as usize].to_vec() }
    };
    let written = (1..=chunks).map(split);
    let both = written.flat_map(|split| {
        let read = read(&split);
        [split, read]
    });
    [count].into_iter().chain(both).chain([split(chunks + 1)]).collect()
}

/// Random cases of a function, with each of its answers as often as `OF_EACH` says.
fn sample(op: Op) -> Vec<Case> {
    let mut rng = Rng::new(u64::from(op.code()));
    let mut seen = BTreeSet::new();
    let mut taken: BTreeMap<Answer, usize> = BTreeMap::new();
    let cases = (0..TRIES).map(|_| random::case(op, &mut rng));
    let compared = cases.filter(|case| !original::is_left_out(case));
    let short = compared.filter(|case| case.input.len() <= LONGEST && case.lent(|_| FILL).len() <= ROOM);
    let new = short.filter(|case| seen.insert(case.input.clone()));
    new.filter(|case| {
        let n = taken.entry(answer(case).answer(op)).or_default();
        *n += 1;
        *n <= OF_EACH
    })
    .collect()
}

fn record(code: u8, input: &[u8]) -> Vec<u8> {
    let length = (input.len() as u16).to_le_bytes();
    [&[code], &length[..], input].concat()
}

/// The records and the answers of a list of cases, and of a list of calls on a table.
type Played = (Vec<u8>, Vec<Outcome>);

fn cases(cases: &[Case]) -> Played {
    assert!(!cases.iter().any(original::is_left_out), "the original gives the answers of all that is in the list");
    (cases.iter().flat_map(|case| record(case.op.code(), &case.input)).collect(), cases.iter().map(answer).collect())
}

fn calls(calls: &[table::Call]) -> Played {
    let records = calls.iter().map(table::Call::record);
    (records.flat_map(|(code, input)| record(code, &input)).collect(), table::answers(calls))
}

/// Are all answers of a feed that short chunks reach in the list?
fn all_reached() -> bool {
    let calls: Vec<table::Call> = table::examples().into_iter().chain(table::runs()).collect();
    table::ends(&calls, &table::answers(&calls)) == table::reached()
}

fn main() -> std::io::Result<()> {
    let dir = std::env::args().nth(1).expect("usage: vectors DIR");
    let samples: Vec<Case> = replayed().flat_map(|(op, _)| sample(op)).collect();
    let parts = [cases(&examples()), calls(&table::examples()), cases(&samples), calls(&table::runs())];
    let (records, answers): (Vec<_>, Vec<_>) = parts.into_iter().unzip();
    let (list, answers) = (records.concat(), answers.into_iter().flatten().collect::<Vec<Outcome>>());
    let refused: BTreeSet<u8> = answers.iter().filter_map(|answer| answer.reply.as_ref().err()).map(|r| r.number).collect();
    assert_eq!(refused, refusals(), "every refusal is in the list");
    assert!(all_reached(), "every answer of a feed is in the list");
    assert!(list.len() <= LIST, "the list has {} bytes", list.len());
    std::fs::write(format!("{dir}/stdin"), list)?;
    std::fs::write(format!("{dir}/stdout"), answers.iter().map(|answer| format!("{answer}\n")).collect::<String>())
}
