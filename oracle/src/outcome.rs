//! What a call leaves, in document 01's terms.
use midici_core::error::CiError;
use midici_pe::error::PeError;
use std::fmt;

/// The number of the question that was answered no, and its value: 24 has the kind, the others 0.
#[derive(Clone, Copy, Debug, PartialEq, Eq)]
pub struct Refusal {
    pub number: u8,
    pub value: u8,
}

impl From<CiError> for Refusal {
    fn from(e: CiError) -> Refusal {
        let (number, value) = match e {
            CiError::Truncated => (21, 0),
            CiError::NotUniversalSysex => (22, 0),
            CiError::NotMidiCi => (23, 0),
            CiError::UnsupportedSubId2(kind) => (24, kind),
            CiError::BadLength => (25, 0),
            CiError::BadField => (26, 0),
            CiError::BufferTooSmall => (27, 0),
            CiError::InvalidMuid => (28, 0),
        };
        Refusal { number, value }
    }
}

impl From<PeError> for Refusal {
    fn from(e: PeError) -> Refusal {
        let number = match e {
            PeError::BadField => 1,
            PeError::Truncated => 2,
            PeError::BufferTooSmall => 3,
            PeError::HeaderTooLarge => 4,
            PeError::Oversize => 5,
            PeError::TooManyConcurrent => 6,
            PeError::PeerTableFull => 7,
            PeError::InconsistentChunking => 8,
            PeError::BadMcoded7 => 9,
        };
        Refusal { number, value: 0 }
    }
}

/// The values that are granted, or the refusal.
pub type Reply = Result<Vec<u64>, Refusal>;

/// The reply, and the whole lent output.
#[derive(Debug, PartialEq, Eq)]
pub struct Outcome {
    pub reply: Reply,
    pub out: Vec<u8>,
}

/// The sorts of answers that are counted.
#[derive(Clone, Copy, PartialEq, Eq, PartialOrd, Ord)]
pub enum Answer {
    Granted,
    Waiting,
    Whole,
    No,
    Yes,
    Handed,
    Last,
    Nobody,
    Refused(u8),
}

impl Outcome {
    /// Of a call that writes nothing.
    pub fn of(reply: Reply) -> Outcome {
        Outcome { reply, out: Vec::new() }
    }

    /// Of one that grants values and writes nothing.
    pub fn granted<T: Into<u64>>(values: impl IntoIterator<Item = T>) -> Outcome {
        Outcome::of(Ok(values.into_iter().map(Into::into).collect()))
    }
}

/// What the original returns as a new list, in the front of a lent output. "Buffer? 3."
pub fn copy_in(bytes: &[u8], out: &mut [u8]) -> Reply {
    let room = out.get_mut(..bytes.len()).ok_or(Refusal::from(PeError::BufferTooSmall))?;
    room.copy_from_slice(bytes);
    Ok(vec![bytes.len() as u64])
}

/// Refusals by their numbers.
impl fmt::Display for Answer {
    fn fmt(&self, f: &mut fmt::Formatter) -> fmt::Result {
        match self {
            Answer::Granted => write!(f, "granted"),
            Answer::Waiting => write!(f, "waiting"),
            Answer::Whole => write!(f, "whole"),
            Answer::No => write!(f, "no"),
            Answer::Yes => write!(f, "yes"),
            Answer::Handed => write!(f, "handed"),
            Answer::Last => write!(f, "last"),
            Answer::Nobody => write!(f, "nobody"),
            Answer::Refused(number) => write!(f, "{number}"),
        }
    }
}

/// A line of the list that the program `replay` plays: values, or `r` with the refusal's number and value; then each byte of
/// the output, behind a colon.
impl fmt::Display for Outcome {
    fn fmt(&self, f: &mut fmt::Formatter) -> fmt::Result {
        match &self.reply {
            Ok(values) => values.iter().try_for_each(|v| write!(f, "{v} "))?,
            Err(refusal) => write!(f, "r {} {} ", refusal.number, refusal.value)?,
        }
        write!(f, ":")?;
        self.out.iter().try_for_each(|b| write!(f, " {b}"))
    }
}
