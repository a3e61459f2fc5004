//! Times: in each round the sides of a row take turns.
use crate::row::Row;

const ROUNDS: usize = 41;
/// How long a turn takes at least, unless it is one run.
const TURN_NS: f64 = 50_000.0;

/// Each side's nanoseconds for one operation.
pub type Round = Vec<f64>;

pub fn rounds(row: &mut Row) -> Vec<Round> {
    let runs = if row.one_run { 1 } else { runs_for_a_turn(row) };
    let operations = (runs * row.operations) as f64;
    (0..ROUNDS).map(|first| turns(row, first, runs).iter().map(|ns| ns / operations).collect()).collect()
}

/// A turn of each side, and another one is first in the next round.
fn turns(row: &mut Row, first: usize, runs: u64) -> Vec<f64> {
    let sides = row.sides.len();
    let mut taken = vec![0.0; sides];
    for k in 0..sides {
        let side = (first + k) % sides;
        taken[side] = row.sides[side].turn(runs);
    }
    taken
}

/// So many that each side takes a turn's time.
fn runs_for_a_turn(row: &mut Row) -> u64 {
    let mut runs = 1;
    while row.sides.iter_mut().any(|side| side.turn(runs) < TURN_NS) {
        runs *= 2;
    }
    runs
}

/// The median time of a side.
pub fn median(rounds: &[Round], side: usize) -> f64 {
    middle(rounds.iter().map(|round| round[side]))
}

/// The port's time by that of a side: the median of the rounds' ratios.
pub fn ratio(rounds: &[Round], side: usize) -> f64 {
    middle(rounds.iter().map(|round| round[0] / round[side]))
}

/// The quickest turn of a side.
pub fn quickest(rounds: &[Round], side: usize) -> f64 {
    rounds.iter().map(|round| round[side]).fold(f64::MAX, f64::min)
}

fn middle(values: impl Iterator<Item = f64>) -> f64 {
    let mut values: Vec<f64> = values.collect();
    values.sort_by(f64::total_cmp);
    values[values.len() / 2]
}
