//! What was compared of stages, besides their answers.
use std::collections::BTreeMap;

#[derive(Clone, Copy, PartialEq, Eq, PartialOrd, Ord)]
pub enum Met {
    /// A call on a stage into which somebody else has written.
    Damaged,
    /// A turn with a stored turn above 15.
    LateTurn,
    /// A call about a list that ends above 2^64 - 1.
    Overflow,
    /// A list that left, put together again; and so by the original's reassembler.
    Whole,
    WholeByOriginal,
    /// A place that the sixteenth turn served.
    Sixteenth,
}

const ALL: [(Met, &str); 6] = [
    (Met::Damaged, "calls on stages that somebody else wrote into"),
    (Met::LateTurn, "turns with a stored turn above 15"),
    (Met::Overflow, "calls about a list that ends above 2^64 - 1"),
    (Met::Whole, "lists that left, each put together again"),
    (Met::WholeByOriginal, "of these put together by the original too"),
    (Met::Sixteenth, "places served by the sixteenth turn"),
];

#[derive(Default)]
pub struct Seen(BTreeMap<Met, u64>);

impl Seen {
    pub fn count_if(&mut self, is_met: bool, met: Met) {
        if is_met {
            *self.0.entry(met).or_default() += 1;
        }
    }

    fn of(&self, met: Met) -> u64 {
        self.0.get(&met).copied().unwrap_or(0)
    }

    pub fn told(&self) -> String {
        ALL.map(|(met, name)| format!("{name}: {}", self.of(met))).join("\n")
    }

    /// What was never met?
    pub fn missing(&self) -> Option<&'static str> {
        ALL.iter().find(|(met, _)| self.of(*met) == 0).map(|(_, name)| *name)
    }
}
