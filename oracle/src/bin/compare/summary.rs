//! What was compared: how often each export gave each answer, what was left out, and how many bytes.
use crate::stages;
use oracle::beyond::Beyond;
use oracle::export::{Export, NONE_OF_HUB, NUMBERS};
use oracle::open::{self, By, OpenSlot};
use oracle::outcome::Answer;
use oracle::stage;
use std::collections::{BTreeMap, BTreeSet};

type Answers = BTreeMap<Answer, u64>;

/// Where an open list's numbers come from: calls alone, or somebody else has written into them.
#[derive(Clone, Copy, PartialEq, Eq, PartialOrd, Ord)]
pub enum Stored {
    ByCalls,
    Damaged,
}

impl Stored {
    /// What can decide between two slots of such a table. Calls leave no two with one peer and request id.
    fn orders(self) -> &'static [By] {
        match self {
            Stored::ByCalls => &[By::Tick, By::Peer, By::RequestId],
            Stored::Damaged => &[By::Tick, By::Peer, By::RequestId, By::Place],
        }
    }
}

#[derive(Default)]
pub struct Summary {
    pub bytes: u64,
    /// How many chunks that were read were written again.
    pub round_trips: u64,
    answers: BTreeMap<&'static str, Answers>,
    left_out: BTreeMap<(&'static str, Beyond), u64>,
    /// How many open lists had two ticks held at 2^64 - 1.
    held_ticks: u64,
    /// In how many this decided between two slots, against their places or, of place, with all else equal.
    open_lists: BTreeMap<(Stored, By), u64>,
    pub stages: stages::Seen,
}

fn calls(answers: &Answers) -> u64 {
    answers.values().sum()
}

fn told(answers: &Answers) -> String {
    let told: Vec<String> = answers.iter().map(|(answer, n)| format!("{answer}: {n}")).collect();
    told.join(", ")
}

/// The numbers of the refusals among the answers.
fn refusals(answers: &Answers) -> BTreeSet<u8> {
    let number = |answer: &Answer| if let Answer::Refused(number) = answer { Some(*number) } else { None };
    answers.keys().filter_map(number).collect()
}

/// The numbers with which an export can refuse.
fn listed(export: &Export) -> BTreeSet<u8> {
    export.refusals.iter().copied().collect()
}

impl Summary {
    pub fn count(&mut self, export: Export, answer: Answer) {
        *self.answers.entry(export.name).or_default().entry(answer).or_default() += 1;
    }

    /// A call that the original would answer otherwise.
    pub fn leave_out(&mut self, export: Export, beyond: Beyond) {
        *self.left_out.entry((export.name, beyond)).or_default() += 1;
    }

    pub fn count_open_list(&mut self, stored: Stored, rows: &[OpenSlot]) {
        let held = rows.iter().filter(|row| row.tick == u64::MAX).count();
        self.held_ticks += u64::from(stored == Stored::ByCalls && held > 1);
        for by in open::deciding(rows) {
            *self.open_lists.entry((stored, by)).or_default() += 1;
        }
    }

    fn listed(&self, stored: Stored, by: By) -> u64 {
        self.open_lists.get(&(stored, by)).copied().unwrap_or(0)
    }

    /// In how many open lists each of tick, peer, request id and place decided.
    pub fn open_lists(&self) -> String {
        let told = |stored: Stored| {
            let by: Vec<String> = stored.orders().iter().map(|by| format!("{by}: {}", self.listed(stored, *by))).collect();
            by.join(", ")
        };
        let (by_calls, damaged, held) = (told(Stored::ByCalls), told(Stored::Damaged), self.held_ticks);
        format!(
            "Open lists (K7) in which this decided between two slots, against their places or, of place, with all else equal:\n\
             {by_calls}; on damaged numbers, beside a reading of them, {damaged}. With two ticks held at 2^64 - 1: {held}"
        )
    }

    /// What never decided, where it can?
    pub fn never_decided(&self) -> Option<String> {
        let never = |stored: Stored| stored.orders().iter().find(|by| self.listed(stored, **by) == 0);
        let by_calls = never(Stored::ByCalls).map(|by| format!("{by} decided"));
        let by = by_calls.or_else(|| never(Stored::Damaged).map(|by| format!("{by} decided on damaged numbers")))?;
        Some(format!("in no open list {by}"))
    }

    /// What never came up on a stage, where it can?
    pub fn never_on_stages(&self) -> Option<String> {
        let given = self.of(stage::TURN);
        let never = [Answer::Handed, Answer::Last, Answer::Nobody].into_iter().find(|answer| !given.contains_key(answer));
        let answer = never.map(|answer| format!("no turn gave {answer}"));
        answer.or_else(|| self.stages.missing().map(|name| format!("no {name}")))
    }

    fn left_out(&self, export: Export) -> String {
        let told = |beyond: &Beyond| format!("{beyond}: {}", self.left_out.get(&(export.name, *beyond)).unwrap_or(&0));
        match export.beyond {
            [] => String::new(),
            all => format!("; left out: {}", all.iter().map(told).collect::<Vec<_>>().join(", ")),
        }
    }

    fn of(&self, export: Export) -> Answers {
        self.answers.get(export.name).cloned().unwrap_or_default()
    }

    /// The answers of several exports together.
    fn of_all(&self, exports: &[Export]) -> Answers {
        let mut all = Answers::new();
        for (answer, n) in exports.iter().flat_map(|export| self.of(*export)) {
            *all.entry(answer).or_default() += n;
        }
        all
    }

    /// How often an export gave each answer.
    pub fn line(&self, export: Export) -> String {
        let answers = self.of(export);
        format!("{:35} {:>9}   {}{}", export.name, calls(&answers), told(&answers), self.left_out(export))
    }

    /// How often the exports of hub gave each answer, and the others; and how much was compared in all.
    pub fn totals(&self, exports: &[Export]) -> String {
        let (hub, codecs): (Vec<Export>, Vec<Export>) = exports.iter().partition(|export| export.is_of_hub());
        let total = |name: &str, exports: &[Export]| {
            let answers = self.of_all(exports);
            format!("{name}, {} exports, {} calls: {}\n", exports.len(), calls(&answers), told(&answers))
        };
        let (calls, bytes) = (calls(&self.of_all(exports)), self.bytes);
        total("hub", &hub)
            + &total("codec_exports", &codecs)
            + &format!("{calls} calls, {bytes} bytes of outputs and memory compared")
    }

    /// Did an export give a refusal that it cannot give?
    pub fn check(&self, exports: &[Export]) -> Result<(), String> {
        exports.iter().try_for_each(|export| match &refusals(&self.of(*export)) - &listed(export) {
            unknown if unknown.is_empty() => Ok(()),
            unknown => Err(format!("{} gave {unknown:?}, and can give {:?}", export.name, export.refusals)),
        })
    }

    /// Which refusals did an export not give that it can give? And do those of hub together give all but `NONE_OF_HUB`?
    pub fn missing(&self, exports: &[Export]) -> Option<String> {
        let one = |export: &Export| {
            let missing = &listed(export) - &refusals(&self.of(*export));
            (!missing.is_empty()).then(|| format!("{} did not give {missing:?}", export.name))
        };
        let of_hub = || {
            let hub: Vec<Export> = exports.iter().copied().filter(|export| export.is_of_hub()).collect();
            let missing = &(&BTreeSet::from(NUMBERS) - &BTreeSet::from(NONE_OF_HUB)) - &refusals(&self.of_all(&hub));
            (!missing.is_empty()).then(|| format!("hub did not give {missing:?}"))
        };
        exports.iter().find_map(one).or_else(of_hub)
    }

    /// For which of K3's questions, or for K6's limits, was nothing left out that an export was handed, or was to be in a run?
    pub fn never_left_out(&self, mut exports: impl Iterator<Item = Export>) -> Option<String> {
        exports.find_map(|Export { name, beyond, .. }| {
            let missing = beyond.iter().find(|beyond| !self.left_out.contains_key(&(name, **beyond)))?;
            Some(format!("no call of {name} for {missing}"))
        })
    }
}
