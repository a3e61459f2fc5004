//! Random cases around the boundaries, from a seed, random runs on tables and on outgoing stages, and random tapes.
mod damage;
mod lists;
pub mod runs;
mod senders;
pub mod stages;
pub mod tapes;

pub use crate::rng::Rng;

use crate::case::Case;
use crate::op::Op;

pub fn case(op: Op, rng: &mut Rng) -> Case {
    Case { op, input: (op.row().random)(rng) }
}
