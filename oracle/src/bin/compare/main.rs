//! Compares the port with the original: `compare SEED CASES RUNS PROGRAM`. All inputs of a function where they are few; else all
//! that are short or at the boundaries, and then CASES random ones; then RUNS runs of calls on a table; then for every tenth run
//! one on an outgoing stage, and a tape through PROGRAM, which is `tape`. What the original lacks is compared with a reading of
//! document 02; so are lists cut at K6's limits, and what K3 turns down and the original does not, but in a run what it turns down by
//! what a slot holds. It stops at the first difference. It fails too where an export is not compared, or never gave a refusal that it
//! can give, where nothing was left out for one of K3's questions or for K6's limits, where tick, peer, request id or place never
//! decided the order of an open list (K7), where something never came up on a stage (K8), or where a kind of line never came.
//! `compare tapes SEED TAPES PROGRAM` compares tapes alone, `compare stages SEED RUNS` stages alone, `compare exports` prints the
//! names of the exports that are compared.
mod port;
mod runs;
mod stages;
mod state;
mod summary;
mod table;
mod tapes;

use oracle::call::What;
use oracle::case::Case;
use oracle::export::{Export, NONE_OF_HUB};
use oracle::op::Op;
use oracle::random::stages::CALLS;
use oracle::random::Rng;
use oracle::{original, random, stage};
use std::collections::BTreeSet;
use std::process::ExitCode;
use summary::Summary;

const USAGE: [&str; 4] =
    ["compare SEED CASES RUNS PROGRAM", "compare tapes SEED TAPES PROGRAM", "compare stages SEED RUNS", "compare exports"];

/// So many runs give every refusal that an export can give; the inputs at the boundaries give all of a function's.
const RUNS_FOR_ALL: u64 = 2_000;
/// A run on a stage for so many runs on a table, and a tape for so many.
const RUNS_FOR_A_STAGE: u64 = 10;
const RUNS_FOR_A_TAPE: u64 = 10;

fn compared() -> Vec<Export> {
    Op::ALL.iter().map(|(_, export)| *export).chain(What::exports()).chain(stage::EXPORTS).collect()
}

/// Is every export compared that the source declares, and is every one declared that is compared?
fn check_exports() -> Result<(), String> {
    let compared: BTreeSet<&str> = compared().iter().map(|export| export.name).collect();
    let declared = BTreeSet::from(exports::NAMES);
    let (missing, unknown) = (&declared - &compared, &compared - &declared);
    if missing.is_empty() && unknown.is_empty() {
        return Ok(());
    }
    Err(format!("NOT ALL EXPORTS: not compared: {missing:?}; compared, but not in the source: {unknown:?}"))
}

/// Puts one case to both sides.
fn compare(case: &Case, export: Export, summary: &mut Summary) -> Result<(), String> {
    let (expected, left_out) = original::expected(case, case.lent(port::fill))?;
    let found = port::answer(case, case.lent(port::fill));
    if found.as_ref() != Ok(&expected) {
        let found = found.map_or_else(|wrong| wrong, |found| found.to_string());
        let by_original = case.op.row().in_original && left_out.is_none();
        let other = if by_original { "the original:" } else { "document 02: " };
        return Err(format!("{case}\n  {other} {expected}\n  the port:     {found}"));
    }
    if case.op == Op::ChunkDecode && expected.reply.is_ok() {
        port::round_trip(&case.input).map_err(|wrong| format!("{case}\n  {wrong}"))?;
        summary.round_trips += 1;
    }
    summary.count(export, expected.answer(case.op));
    left_out.into_iter().for_each(|beyond| summary.leave_out(export, beyond));
    summary.bytes += expected.out.len() as u64;
    Ok(())
}

/// All comparisons of one function.
fn compare_all(op: Op, export: Export, seed: u64, cases: u64, summary: &mut Summary) -> Result<(), String> {
    let mut result = Ok(());
    (op.row().inputs)(&mut |input| {
        if result.is_ok() {
            result = compare(&Case { op, input: input.to_vec() }, export, summary);
        }
    });
    result?;
    let mut rng = Rng::new(seed ^ u64::from(op.code()) << 56);
    let cases = if op.row().all_compared { 0 } else { cases };
    (0..cases).try_for_each(|_| compare(&random::case(op, &mut rng), export, summary))
}

fn compare_functions(seed: u64, cases: u64, summary: &mut Summary) -> Result<(), String> {
    println!("The port and the original, seed {seed}, {cases} random cases for each function but those with all inputs");
    println!("How often each export was called, and each answer came, refusals by their numbers. Left out are calls to which");
    println!("the original gives another answer than document 02 (K3), and limits above 4,096, which it takes as that (K6):");
    println!("they are compared with a reading of that document.");
    for (op, export) in Op::ALL {
        compare_all(op, export, seed, cases, summary)?;
        let all = if op.row().all_compared { ", all inputs" } else { "" };
        let other = if op.row().in_original { "" } else { ", beside a reading of document 02, not the original" };
        println!("{}{all}{other}", summary.line(export));
    }
    println!("{} chunks that were read, each written again as it was", summary.round_trips);
    Ok(())
}

fn compare_runs(seed: u64, runs: u64, summary: &mut Summary) -> Result<(), String> {
    println!("{runs} runs of sixty calls, and more with lists of some 2,048 chunks, on tables of 0, 1, 2, 8 and 16 peers.");
    println!("Left out are calls with a chunk that K3 turns down: by its own bytes (property byte, own count), and then they");
    println!("are put to the port alone and compared with the reading; or by what its slot holds, and then to neither side.");
    runs::compare(seed, runs, summary)?;
    What::exports().for_each(|export| println!("{}", summary.line(export)));
    println!("{}", summary.open_lists());
    Ok(())
}

fn compare_stages(seed: u64, runs: u64, summary: &mut Summary) -> Result<(), String> {
    println!("{runs} runs of {CALLS} calls on an outgoing stage (K8), beside a reading of document 02. What leaves is held against the");
    println!("lists that joined, as the original cuts them, or above 4,096 the reading.");
    stages::compare(seed, runs, summary)?;
    stage::EXPORTS.iter().for_each(|export| println!("{}", summary.line(*export)));
    println!("{}", summary.stages.told());
    Ok(())
}

/// Did the exports give every refusal that they can give, and no other? Of fewer runs than reach them all it is only said.
fn check_refusals(runs: u64, summary: &Summary) -> Result<(), String> {
    summary.check(&compared()).map_err(|unknown| format!("REFUSALS THAT ARE NOT LISTED: {unknown}"))?;
    match summary.missing(&compared()) {
        None => println!("Each export gave every refusal that it can give; those of hub together all but {NONE_OF_HUB:?}."),
        Some(missing) if runs >= RUNS_FOR_ALL => return Err(format!("NOT ALL REFUSALS: {missing}")),
        Some(missing) => println!("Too few runs to reach every refusal: {missing}. RUNS={RUNS_FOR_ALL} reaches all."),
    }
    Ok(())
}

/// Was something left out for each of K3's questions and for K6's limits, of each export that has it? Of fewer runs than reach it
/// all it is only said.
fn check_left_out(runs: u64, summary: &Summary) -> Result<(), String> {
    let of_functions = summary.never_left_out(Op::ALL.iter().map(|(_, export)| *export));
    let of_runs = summary.never_left_out(What::exports());
    match of_functions.or(of_runs.clone().filter(|_| runs >= RUNS_FOR_ALL)) {
        Some(missing) => return Err(format!("NOTHING LEFT OUT: {missing}")),
        None if of_runs.is_some() => println!("Too few runs to leave out everything. RUNS={RUNS_FOR_ALL} does."),
        None => println!("For each of K3's questions and for K6's limits, calls were left out of each export that has it."),
    }
    Ok(())
}

/// Did each of tick, peer and request id decide between slots of an open list, and on damaged numbers place too? Of fewer runs
/// than reach it all it is only said.
fn check_open_lists(runs: u64, summary: &Summary) -> Result<(), String> {
    match summary.never_decided() {
        None => println!("Tick, peer and request id each decided in open lists, and place on damaged numbers."),
        Some(missing) if runs >= RUNS_FOR_ALL => return Err(format!("NOT ALL ORDERS: {missing}")),
        Some(missing) => println!("Too few runs for every order: {missing}. RUNS={RUNS_FOR_ALL} reaches all."),
    }
    Ok(())
}

/// Did everything come up on a stage that is to? Of fewer runs than reach it all it is only said.
fn check_stages(runs: u64, summary: &Summary) -> Result<(), String> {
    match summary.never_on_stages() {
        None => println!("All of this came up on stages, and turns that hand out a chunk, a last one, or say that nobody waits."),
        Some(missing) if runs >= RUNS_FOR_ALL => return Err(format!("NOT ALL OF STAGES: {missing}")),
        Some(missing) => println!("Too few runs for all of stages: {missing}. RUNS={RUNS_FOR_ALL} reaches all."),
    }
    Ok(())
}

/// Tapes through the program. Of fewer than reach every kind of line it is only said which one is missing.
fn compare_tapes(seed: u64, tapes: u64, program: &str) -> Result<(), String> {
    println!("{tapes} tapes through {program} (K4), each in pieces, and how often each kind of line came");
    let seen = tapes::compare(program, seed, tapes).map_err(differs)?;
    println!("{}", seen.told());
    seen.check().map_err(|unknown| format!("A LINE THAT IS NOT LISTED: {unknown}"))?;
    let for_all = RUNS_FOR_ALL / RUNS_FOR_A_TAPE;
    match seen.missing() {
        None => println!("Each kind of line came that a command can have, and each end of a tape."),
        Some(missing) if tapes >= for_all => return Err(format!("NOT ALL LINES: {missing}")),
        Some(missing) => println!("Too few tapes to reach every kind of line: {missing}. {for_all} reach all."),
    }
    Ok(())
}

fn differs(difference: String) -> String {
    format!("DIFFERENCE: {difference}")
}

fn number(word: &str, name: &str) -> Result<u64, String> {
    word.parse().map_err(|e| format!("{name} is {word}: {e}"))
}

fn compare_all_parts(seed: u64, cases: u64, runs: u64, program: &str) -> Result<(), String> {
    let mut summary = Summary::default();
    compare_functions(seed, cases, &mut summary).map_err(differs)?;
    compare_runs(seed, runs, &mut summary).map_err(differs)?;
    compare_stages(seed, runs.div_ceil(RUNS_FOR_A_STAGE), &mut summary).map_err(differs)?;
    println!("{}, no difference", summary.totals(&compared()));
    check_refusals(runs, &summary)?;
    check_left_out(runs, &summary)?;
    check_open_lists(runs, &summary)?;
    check_stages(runs, &summary)?;
    compare_tapes(seed, runs.div_ceil(RUNS_FOR_A_TAPE), program)
}

fn run(args: &[&str]) -> Result<(), String> {
    check_exports()?;
    match args {
        ["exports"] => {
            compared().iter().for_each(|export| println!("{}", export.name));
            Ok(())
        }
        ["tapes", seed, tapes, program] => compare_tapes(number(seed, "SEED")?, number(tapes, "TAPES")?, program),
        ["stages", seed, runs] => {
            compare_stages(number(seed, "SEED")?, number(runs, "RUNS")?, &mut Summary::default()).map_err(differs)
        }
        [seed, cases, runs, program] => {
            compare_all_parts(number(seed, "SEED")?, number(cases, "CASES")?, number(runs, "RUNS")?, program)
        }
        _ => Err(format!("usage: {}", USAGE.join(", or "))),
    }
}

fn main() -> ExitCode {
    let args: Vec<String> = std::env::args().skip(1).collect();
    let words: Vec<&str> = args.iter().map(String::as_str).collect();
    match run(&words) {
        Ok(()) => ExitCode::SUCCESS,
        Err(message) => {
            println!("{message}");
            ExitCode::FAILURE
        }
    }
}
