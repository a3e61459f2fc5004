//! Runs of calls on a table, each put to the port and to the original, with all that both hold compared after every call.
use crate::state;
use crate::summary::{Stored, Summary};
use crate::table::Table;
use midici_pe::reassembler::{probe, probe::Rooms, Reassembler};
use oracle::call::{listed, Tells, What, Written};
use oracle::damage::is_sound;
use oracle::layout::{HEADER_BYTES, MAX_SLOTS, TX_BYTES};
use oracle::open;
use oracle::original;
use oracle::outcome::{Answer, Refusal};
use oracle::random::runs::Script;
use oracle::random::Rng;
use oracle::run::{Call, Start, Told};

/// One run in so many has all rooms compared after every call; the others when they end.
const CLOSELY: u64 = 64;
const LONGEST_SHORTENED: usize = 100;
/// After so many runs it is told how far they are.
const TOLD_AFTER: u64 = 20_000;

/// Both sides, with memory that a table takes over from the one before it.
struct Sides {
    table: Table,
    rooms: Rooms,
}

/// A table on both sides.
struct Pair<'a> {
    sides: &'a mut Sides,
    original: Reassembler,
    garbage: u64,
    closely: bool,
}

impl Sides {
    fn new() -> Sides {
        let bytes = |n: usize, step: usize| (0..n).map(|at| ((at * step) >> 3) as u8).collect::<Vec<u8>>();
        let (headers, arenas) = (bytes(MAX_SLOTS * HEADER_BYTES, 13), bytes(MAX_SLOTS * TX_BYTES, 29));
        Sides { table: Table::new(&headers, &arenas), rooms: Rooms::new(&headers, &arenas) }
    }

    /// Makes a table on both sides. After the call the clock is set, where the run starts with another.
    fn make(&mut self, start: Start, garbage: u64, closely: bool, summary: &mut Summary) -> Result<Pair<'_>, String> {
        let mut original = Reassembler::new(start.max_peers);
        self.rooms.lend(&mut original);
        if let Some(clock) = start.clock {
            probe::set_clock(&mut original, clock);
        }
        let told = self.table.make(start, garbage);
        if told != (Told { refusal: 0, value: 0, numbers: [0; 3] }) {
            return Err(format!("new answers {told:?}"));
        }
        summary.count(What::New.row().export, answer(&What::New, told));
        let pair = Pair { sides: self, original, garbage, closely };
        summary.bytes += pair.state()? + state::compare_rooms(&pair.sides.table, &pair.original)?;
        Ok(pair)
    }
}

impl Pair<'_> {
    /// Puts a call to both sides; before that to the port alone with a damaged table, where the call says so. A call with a chunk
    /// that K3 turns down by its own bytes is put to the port alone, and by what its slot holds to neither side.
    fn call(&mut self, call: &Call, summary: &mut Summary) -> Result<(), String> {
        if let Some((refusal, beyond)) = original::table::left_out(&self.original, call) {
            summary.leave_out(call.what.row().export, beyond);
            return if beyond.is_by_bytes() { self.call_refused(call, refusal, summary) } else { Ok(()) };
        }
        self.call_damaged(call, summary).map_err(|difference| format!("with the damage, {difference}"))?;
        let (expected, written) = original::table::call(&mut self.original, call);
        if matches!(call.what, What::New) && expected.refusal == 0 {
            self.renew();
        }
        let found = self.sides.table.call(call);
        if expected != found {
            return Err(format!("the original answers {expected:?}, the port {found:?}"));
        }
        summary.count(call.what.row().export, answer(&call.what, found));
        summary.bytes += self.sides.table.outputs(&call.what, &written)? + self.state()?;
        if call.lists() {
            summary.count_open_list(Stored::ByCalls, &open::of_original(&self.original));
        }
        if self.closely {
            summary.bytes += state::compare_rooms(&self.sides.table, &self.original)?;
        }
        Ok(())
    }

    /// Puts a call to the port alone with a damaged table, where the call says so: an open list; or one that reaches a slot which is
    /// not sound then.
    fn call_damaged(&mut self, call: &Call, summary: &mut Summary) -> Result<(), String> {
        if call.damage.is_empty() {
            return Ok(());
        }
        if call.lists() {
            return self.list_damaged(call, summary);
        }
        let Some(slot) = original::table::reached(&self.original, call) else { return Ok(()) };
        self.damage(call);
        let sound = is_sound(self.sides.table.slot_words(slot), self.sides.table.slot_records(slot));
        self.damage(call);
        if sound {
            return Ok(());
        }
        self.call_refused(call, Refusal { number: 31, value: 0 }, summary)
    }

    /// Damages the table as a call says; and undoes it, done again.
    fn damage(&mut self, call: &Call) {
        self.sides.table.damage(&call.damage);
    }

    /// An open list takes stored numbers as they are.
    fn list_damaged(&mut self, call: &Call, summary: &mut Summary) -> Result<(), String> {
        self.damage(call);
        let (rows, found) = (self.sides.table.open_slots(), self.sides.table.call(call));
        self.damage(call);
        let mut written = Written::default();
        let expected = Told { refusal: 0, value: 0, numbers: listed(&rows, &mut written) };
        if found != expected {
            return Err(format!("the reading answers {expected:?}, the port {found:?}"));
        }
        summary.count(call.what.row().export, answer(&call.what, found));
        summary.count_open_list(Stored::Damaged, &rows);
        summary.bytes += self.sides.table.outputs(&call.what, &written)? + self.state()?;
        Ok(())
    }

    /// Puts a call to the port alone, with the table damaged where the call says so: it refuses, and leaves all lent memory as it
    /// is. K3 turns a chunk down before question 31 is asked.
    fn call_refused(&mut self, call: &Call, refusal: Refusal, summary: &mut Summary) -> Result<(), String> {
        self.damage(call);
        let found = self.sides.table.call(call);
        self.damage(call);
        if found != refusal.into() {
            return Err(format!("it is to be refused with {}, and the port answers {found:?}", refusal.number));
        }
        summary.count(call.what.row().export, Answer::Refused(refusal.number));
        summary.bytes += self.sides.table.outputs(&call.what, &Written::default())? + self.state()?;
        summary.bytes += state::compare_rooms(&self.sides.table, &self.original)?;
        Ok(())
    }

    /// Another table of the original.
    fn renew(&mut self) {
        self.sides.rooms.take_back(&mut self.original);
        self.original = Reassembler::new(probe::max_peers(&self.original));
        self.sides.rooms.lend(&mut self.original);
    }

    fn state(&self) -> Result<u64, String> {
        state::compare(&self.sides.table, &self.original, self.garbage)
    }

    /// The run's end.
    fn end(mut self) -> Result<u64, String> {
        let bytes = state::compare_rooms(&self.sides.table, &self.original);
        self.sides.rooms.take_back(&mut self.original);
        bytes
    }
}

fn answer(what: &What, told: Told) -> Answer {
    match what.row().tells {
        _ if told.refusal != 0 => Answer::Refused(told.refusal),
        Tells::Granted => Answer::Granted,
        Tells::Whole if told.numbers[0] == 0 => Answer::Waiting,
        Tells::Whole => Answer::Whole,
        Tells::Whether if told.numbers[0] == 0 => Answer::No,
        Tells::Whether => Answer::Yes,
    }
}

/// The calls of a run from a seed, up to the one that differs, if one does.
struct Played {
    start: Start,
    calls: Vec<Call>,
}

fn play(sides: &mut Sides, seed: u64, run: u64, summary: &mut Summary) -> Result<(), (String, Played)> {
    let garbage = seed.rotate_left(17) ^ run << 8;
    let mut script = Script::new(Rng::new(seed ^ 0x7AB1_E000_0000_0000 ^ run << 20));
    let start = script.start();
    let mut calls = Vec::new();
    let mut all = || {
        let mut pair = sides.make(start, garbage, run.is_multiple_of(CLOSELY), summary)?;
        while let Some(call) = script.next(&pair.original) {
            calls.push(call);
            pair.call(&calls[calls.len() - 1], summary)?;
        }
        summary.bytes += pair.end()?;
        Ok(())
    };
    all().map_err(|difference| (difference, Played { start, calls }))
}

/// How these calls differ on fresh memory, if they do.
fn difference(start: Start, calls: &[Call]) -> Option<String> {
    let (mut sides, mut summary) = (Sides::new(), Summary::default());
    match sides.make(start, u64::MAX, true, &mut summary) {
        Ok(mut pair) => calls.iter().find_map(|call| pair.call(call, &mut summary).err()),
        Err(difference) => Some(difference),
    }
}

/// The difference with the fewest calls: each is left out without which the rest still differs. A run with a list of some 2,048
/// chunks stays as it is.
fn shortened(mut found: String, mut played: Played) -> (String, Played) {
    if played.calls.len() > LONGEST_SHORTENED {
        return (found, played);
    }
    for at in (0..played.calls.len()).rev() {
        let call = played.calls.remove(at);
        match difference(played.start, &played.calls) {
            Some(shorter) => found = shorter,
            None => played.calls.insert(at, call),
        }
    }
    (found, played)
}

/// All runs. A difference is told with the fewest calls that show it.
pub fn compare(seed: u64, runs: u64, summary: &mut Summary) -> Result<(), String> {
    let mut sides = Sides::new();
    for run in 0..runs {
        if run > 0 && run.is_multiple_of(TOLD_AFTER) {
            println!("  {run} runs, no difference");
        }
        play(&mut sides, seed, run, summary).map_err(|(difference, played)| {
            let (difference, Played { start, calls }) = shortened(difference, played);
            let shown = &calls[calls.len().saturating_sub(LONGEST_SHORTENED)..];
            let lines: Vec<String> = shown.iter().map(|call| format!("\n  {call}")).collect();
            format!("run {run}, {} calls: {difference}\n  {start:?}{}", calls.len(), lines.concat())
        })?;
    }
    Ok(())
}
