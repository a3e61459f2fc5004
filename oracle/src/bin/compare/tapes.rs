//! Tapes through the program `tape`: its text is held against the lines of the same calls, made one by one through the exports,
//! and these against the original's answers, or K3's, as far as document 01's domain and what K3 asks of slots allow.
mod program;
mod seen;
mod table;

pub use seen::Seen;

use oracle::original;
use oracle::random::{tapes, Rng};
use oracle::tape::{Tape, CUT_OFF, EXAMPLE, EXAMPLE_LINES};
use program::Given;
use std::fs;
use table::Table;

/// Where a tape is written that makes a difference.
const DIFFERING: &str = "target/oracle/differing.tape";

/// The lines of the same calls, one for each command.
fn lines_of_exports(tape: &Tape, seen: &mut Seen) -> Result<Vec<String>, String> {
    let mut table = Table::new()?;
    let line = |command| {
        let told = table.call(command);
        seen.count_line(command, told);
        command.line(told)
    };
    Ok(tape.commands.iter().map(line).collect())
}

/// The first line that differs, with its number.
fn difference(name: &str, expected: &str, found: &str) -> Result<(), String> {
    if expected == found {
        return Ok(());
    }
    let (mut expected, mut found) = (expected.split_inclusive('\n'), found.split_inclusive('\n'));
    let mut number = 0;
    loop {
        number += 1;
        let (expected, found) = (expected.next(), found.next());
        if expected != found {
            let shown = |line: Option<&str>| line.map_or("nothing more".into(), |line| format!("{line:?}"));
            return Err(format!("line {number}: by the exports {}, by {name} {}", shown(expected), shown(found)));
        }
    }
}

/// Plays a tape on all sides.
fn compare_one(program: &str, bytes: &[u8], pieces: &[usize], seen: &mut Seen) -> Result<(), String> {
    let tape = Tape::read(bytes);
    let lines = lines_of_exports(&tape, seen)?;
    let by_original = original::tape::lines(&tape);
    difference("the original or K3", &lines[..by_original.lines.len()].concat(), &by_original.lines.concat())?;
    let text = lines.concat() + &tape.last_line();
    if bytes == EXAMPLE {
        difference("document 02", &text, EXAMPLE_LINES)?;
    }
    let due = if tape.last == Some(CUT_OFF) { text.len() - tape.last_line().len() } else { text.len() };
    let printed = program::play(program, &Given { tape: bytes, pieces, text: &text, due })?;
    difference("the program", &text, &printed.text)?;
    if !printed.in_time {
        return Err("the program prints the lines of whole commands only when its input ends".into());
    }
    seen.count_tape(&tape, bytes.len(), &by_original);
    Ok(())
}

fn random(seed: u64, number: u64) -> (Vec<u8>, Vec<usize>) {
    let mut rng = Rng::new(seed ^ 0x7A9E_0000_0000_0000 ^ number << 20);
    let bytes = tapes::tape(&mut rng);
    let pieces = tapes::pieces(&mut rng, bytes.len());
    (bytes, pieces)
}

/// Where the tape that makes a difference is kept, and how it came.
fn kept(bytes: &[u8], pieces: &[usize]) -> String {
    let kept = fs::write(DIFFERING, bytes).map_or_else(|e| format!("is not kept: {e}"), |()| format!("is {DIFFERING}"));
    let shown = &pieces[..pieces.len().min(12)];
    format!("the tape {kept}; its {} bytes came in {} pieces, the first of {shown:?}", bytes.len(), pieces.len())
}

/// The request's example and an empty tape, then random ones.
pub fn compare(program: &str, seed: u64, tapes: u64) -> Result<Seen, String> {
    let mut seen = Seen::default();
    for number in 0..tapes {
        let (bytes, pieces) = match number {
            0 => (EXAMPLE.to_vec(), vec![EXAMPLE.len()]),
            1 => (Vec::new(), Vec::new()),
            _ => random(seed, number),
        };
        let compared = compare_one(program, &bytes, &pieces, &mut seen);
        compared.map_err(|difference| format!("tape {number}, {difference}\n  {}", kept(&bytes, &pieces)))?;
    }
    Ok(seen)
}
