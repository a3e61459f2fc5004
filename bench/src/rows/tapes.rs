//! A tape of 10 MB through the program `tape`, a process for each run. Beside it a C program (bench/tape_calls.c), a process for
//! each run too: what it times itself of the same calls, made from a list that it read before, alone and with their lines; and
//! the whole process where it only reads the tape.
use crate::inputs::{rng, seven_bit};
use crate::row::{Row, Side};
use midici_pe::chunker::split;
use oracle::rng::Rng;
use oracle::tape::{Command as Played, SHAPE};
use std::fs::{self, File};
use std::path::{Path, PathBuf};
use std::process::{Command, Stdio};

const TABLE: &str = "tapes";
const MEGABYTES: usize = 10;
const PEERS: [u32; 2] = [0x0123_4567, 0x0765_4321];
/// A list is cancelled in so many turns of two lists.
const CANCELLED_IN: u64 = 8;

/// The rows whose table and name are chosen: the others' tapes are not made.
pub fn each(is_chosen: impl Fn(&str, &str) -> bool, visit: &mut impl FnMut(Row)) {
    for max_sysex in [256, 4_096] {
        let name = format!("{MEGABYTES} MB, lists cut at {max_sysex}");
        if is_chosen(TABLE, &name) {
            visit(row(name, max_sysex));
        }
    }
}

fn row(name: String, max_sysex: u32) -> Row {
    let tape = written(max_sysex);
    let program = Process { program: "target/programs/tape", word: None, tape: tape.clone() };
    let from_c = |word| Process { program: "target/c/tape_calls", word: Some(word), tape: tape.clone() };
    assert!(program.output() == from_c("print").output(), "the program and the C program print different lines");
    let mut row = Row::new(TABLE, name, Whole(program), Timed(from_c("calls")));
    row.one_run = true;
    row.sides.push(Box::new(Timed(from_c("lines"))));
    row.sides.push(Box::new(Whole(from_c("read"))));
    row
}

fn root() -> &'static Path {
    Path::new(concat!(env!("CARGO_MANIFEST_DIR"), "/.."))
}

/// The file of a tape.
fn written(max_sysex: u32) -> PathBuf {
    let tape = root().join(format!("target/bench/tape.{max_sysex}"));
    fs::create_dir_all(tape.parent().expect("a folder")).expect("a folder for the tape");
    fs::write(&tape, received(max_sysex)).expect("a tape");
    tape
}

/// A list of each of two peers at a time, their chunks shuffled together, a millisecond between them, and then a poll; in every
/// eighth turn a third list begins and is cancelled.
fn received(max_sysex: u32) -> Vec<u8> {
    let (mut rng, mut bytes, mut now_ms) = (rng(), Vec::new(), 0);
    for turn in 0.. {
        let mut turn = commands_of_a_turn(&mut rng, turn, max_sysex);
        turn.push(Played::Poll { now_ms: 0 });
        for command in &mut turn {
            now_ms += 1;
            set_time(command, now_ms);
            command.write(&mut bytes);
        }
        if bytes.len() >= MEGABYTES * 1_000_000 {
            break;
        }
    }
    bytes
}

fn set_time(command: &mut Played, at: u64) {
    if let Played::Feed { now_ms, .. } | Played::Poll { now_ms } = command {
        *now_ms = at;
    }
}

fn commands_of_a_turn(rng: &mut Rng, turn: u64, max_sysex: u32) -> Vec<Played> {
    let request_id = (turn % 100) as u8;
    let mut commands: Vec<Played> = PEERS.iter().flat_map(|peer| fed(rng, *peer, request_id, max_sysex)).collect();
    rng.shuffle(&mut commands);
    if turn.is_multiple_of(CANCELLED_IN) {
        let begun = fed(rng, PEERS[0], request_id, 128).swap_remove(0);
        commands.extend([begun, Played::Cancel { peer: PEERS[0], request_id }]);
    }
    commands
}

/// The feeds of a list with a header of 48 bytes and a body of 1,000 bytes up to all for which there is room.
fn fed(rng: &mut Rng, peer: u32, request_id: u8, max_sysex: u32) -> Vec<Played> {
    let body_len = 1_000 + rng.below(SHAPE.tx_bytes - 999);
    let (header, body) = (seven_bit(rng, 48), seven_bit(rng, body_len));
    let chunks = split(request_id, &header, &body, max_sysex).expect("a list that can be cut");
    chunks.into_iter().map(|raw_chunk| Played::Feed { peer, now_ms: 0, raw_chunk }).collect()
}

/// A program, its word where it takes one, and the tape that is its input.
struct Process {
    program: &'static str,
    word: Option<&'static str>,
    tape: PathBuf,
}

impl Process {
    fn command(&self) -> Command {
        let mut command = Command::new(root().join(self.program));
        command.args(self.word).stdin(File::open(&self.tape).expect("a tape"));
        command
    }

    fn output(&self) -> String {
        let output = self.command().output().expect("a program");
        assert!(output.status.success(), "{} ends with {}", self.program, output.status);
        String::from_utf8(output.stdout).expect("lines")
    }
}

/// The whole process; what it prints goes nowhere.
struct Whole(Process);

impl Side for Whole {
    fn run(&mut self) {
        let status = self.0.command().stdout(Stdio::null()).status().expect("a program");
        assert!(status.success(), "{} ends with {status}", self.0.program);
    }
}

/// What the process times of itself, and prints.
struct Timed(Process);

impl Side for Timed {
    fn run(&mut self) {
        self.turn(1);
    }

    fn turn(&mut self, runs: u64) -> f64 {
        (0..runs).map(|_| self.0.output().trim().parse::<f64>().expect("nanoseconds")).sum()
    }
}
