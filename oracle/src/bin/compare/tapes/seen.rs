//! What was compared of tapes: how many, and how often each kind of line came.
use oracle::original::tape::Lines;
use oracle::outcome::Answer;
use oracle::run::Told;
use oracle::tape::{Command, Tape, CODES, CUT_OFF, FEED, UNKNOWN};
use std::collections::{BTreeMap, BTreeSet};

/// The commands' names, and the refusals that they can have on a tape: what is lent is right there, and nobody else writes it.
const NAMES: [&str; CODES.len()] = ["feed", "cancel", "drop", "poll"];
const REFUSALS: [&[u8]; CODES.len()] = [&[28, 2, 1, 8, 7, 6, 4, 5], &[28], &[28], &[]];
/// The numbers of last lines, and that there is none.
const LAST: [Option<u8>; 3] = [Some(UNKNOWN), Some(CUT_OFF), None];

#[derive(Default)]
pub struct Seen {
    pub tapes: u64,
    pub bytes: u64,
    /// How many tapes the original played to their last command, how many lines it gave, and how many the reading of K3.
    pub by_original: u64,
    pub lines_by_original: u64,
    pub lines_by_reading: u64,
    lines: BTreeMap<(u8, Answer), u64>,
    last: BTreeMap<Option<u8>, u64>,
}

/// The kinds of lines that commands can have.
fn kinds() -> BTreeSet<(u8, Answer)> {
    let granted = |code| if code == FEED { [Answer::Waiting, Answer::Whole] } else { [Answer::No, Answer::Yes] };
    let refused = |refusals: &'static [u8]| refusals.iter().map(|number| Answer::Refused(*number));
    let of = |(code, refusals): (u8, _)| granted(code).into_iter().chain(refused(refusals)).map(move |answer| (code, answer));
    CODES.into_iter().zip(REFUSALS).flat_map(of).collect()
}

fn name((code, answer): &(u8, Answer)) -> String {
    format!("{code} {}: {answer}", NAMES[usize::from(*code) - 1])
}

fn last_name(last: Option<u8>) -> String {
    last.map_or("none".into(), |number| format!("r{number}"))
}

impl Seen {
    pub fn count_line(&mut self, command: &Command, told: Told) {
        *self.lines.entry((command.code(), command.answer(told))).or_default() += 1;
    }

    /// A tape that was compared, with the lines that the original and the reading gave.
    pub fn count_tape(&mut self, tape: &Tape, bytes: usize, by_original: &Lines) {
        self.tapes += 1;
        self.bytes += bytes as u64;
        self.by_original += u64::from(by_original.lines.len() == tape.commands.len());
        self.lines_by_original += (by_original.lines.len() - by_original.by_reading) as u64;
        self.lines_by_reading += by_original.by_reading as u64;
        *self.last.entry(tape.last).or_default() += 1;
    }

    fn of(&self, code: u8) -> Vec<(Answer, u64)> {
        self.lines.iter().filter(|((of, _), _)| *of == code).map(|((_, answer), n)| (*answer, *n)).collect()
    }

    fn line(&self, code: u8) -> String {
        let told: Vec<String> = self.of(code).iter().map(|(answer, n)| format!("{answer}: {n}")).collect();
        let total: u64 = self.of(code).iter().map(|(_, n)| n).sum();
        format!("{:35} {total:>9}   {}", format!("{code} {}", NAMES[usize::from(code) - 1]), told.join(", "))
    }

    fn last(&self, number: Option<u8>) -> u64 {
        self.last.get(&number).copied().unwrap_or(0)
    }

    pub fn told(&self) -> String {
        let lines: String = CODES.map(|code| self.line(code) + "\n").concat();
        let last = LAST.map(|last| format!("{}: {}", last_name(last), self.last(last))).join(", ");
        let commands: u64 = self.lines.values().sum();
        format!(
            "{lines}last lines: {last}\n\
             {} tapes, {} bytes, {commands} commands through the program and one by one through the exports, no difference;\n\
             {} of them answered by the original too, and {} by a reading of K3; {} tapes to their last command",
            self.tapes, self.bytes, self.lines_by_original, self.lines_by_reading, self.by_original
        )
    }

    /// Was there a line that no command can have?
    pub fn check(&self) -> Result<(), String> {
        let kinds = kinds();
        self.lines.keys().find(|kind| !kinds.contains(kind)).map_or(Ok(()), |kind| Err(name(kind)))
    }

    /// Which kind of line, or of a tape's end, never came?
    pub fn missing(&self) -> Option<String> {
        let line = kinds().iter().find(|kind| !self.lines.contains_key(kind)).map(name);
        let last = || LAST.into_iter().find(|last| self.last(*last) == 0);
        line.or_else(|| last().map(|last| format!("last line {}", last_name(last))))
    }
}
