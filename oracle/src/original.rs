//! The original's answers, and what the port is to answer.
pub mod table;
pub mod tape;

use crate::beyond::{Beyond, No};
use crate::case::Case;
use crate::cut;
use crate::functions::cutter;
use crate::input::{u32_at, List};
use crate::outcome::{Outcome, Refusal, Reply};

/// The original's answer to a case, with the output that is lent; of K6's limits the answer of a reading.
pub fn answer(case: &Case, out: Vec<u8>) -> Outcome {
    (case.op.row().original)(&case.input, out)
}

/// The chunks of a list: the original's, or of K6's limits those of a reading.
pub fn split(list: List) -> Result<Vec<Vec<u8>>, Refusal> {
    cutter::split(list)
}

/// What K3 turns down of a case, where it does: it is left out of the comparison with the original.
fn turned_down(case: &Case) -> Option<(Refusal, Beyond)> {
    let No { refusal, beyond } = (case.op.row().reading?)(&case.input).err()?;
    Some((refusal, beyond?))
}

/// Is its limit one of K6's?
fn is_larger(case: &Case) -> bool {
    case.op.row().limit_at.is_some_and(|at| cut::is_larger(u32_at(&case.input, at)))
}

/// Is a case left out of the comparison with the original?
pub fn is_left_out(case: &Case) -> bool {
    is_larger(case) || turned_down(case).is_some()
}

/// What the port is to answer to a case, with the output that is lent, and why it is not the original's answer, if it is not: that
/// of the reading where the limit is one of K6's; or the refusal that K3 brings, and then the output is as it was.
pub fn expected(case: &Case, out: Vec<u8>) -> Result<(Outcome, Option<Beyond>), String> {
    if is_larger(case) {
        return Ok((answer(case, out), Some(Beyond::Limit)));
    }
    let original = answer(case, out.clone());
    if let Some((refusal, beyond)) = turned_down(case) {
        if original.reply == Err(refusal) {
            return Err(format!("{case}\n  is left out, and the original answers the same: {original}"));
        }
        return Ok((Outcome { reply: Err(refusal), out }, Some(beyond)));
    }
    match by_02(case) {
        Some(reply) if reply != original.reply => {
            Err(format!("{case}\n  the original: {original}\n  document 02, where K3 turns nothing down: {reply:?}"))
        }
        _ => Ok((original, None)),
    }
}

/// What document 02's reading answers, where there is one.
fn by_02(case: &Case) -> Option<Reply> {
    let reading = case.op.row().reading?;
    Some(reading(&case.input).map_err(|no| no.refusal))
}
