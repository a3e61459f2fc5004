//! A run: a table of full size, and calls on it.
use crate::call::What;
use crate::damage::Damage;
use crate::lent::Lent;
use crate::outcome::Refusal;
use std::fmt;

/// How a table is made: for so many peers, in memory that is longer than it needs by so many places; and the clock that it
/// starts with, where that is another than after `new`.
#[derive(Clone, Copy, Debug)]
pub struct Start {
    pub max_peers: usize,
    pub spare: usize,
    pub clock: Option<u64>,
}

/// A call, and how the table is damaged before, where it is: the slot that it reaches, or what an open list reads.
#[derive(Clone)]
pub struct Call {
    pub lent: Lent,
    pub what: What,
    pub damage: Vec<Damage>,
}

/// What a call answers: the refusal with its value, and the other numbers: a count; whether a list is whole, with its two
/// lengths; three totals.
#[derive(Clone, Copy, Debug, PartialEq, Eq)]
pub struct Told {
    pub refusal: u8,
    pub value: u8,
    pub numbers: [u64; 3],
}

impl From<Refusal> for Told {
    fn from(Refusal { number, value }: Refusal) -> Told {
        Told { refusal: number, value, numbers: [0; 3] }
    }
}

impl Call {
    /// Is it an open list that is not refused?
    pub fn lists(&self) -> bool {
        matches!(self.what, What::OpenList) && self.lent == Lent::Right
    }
}

impl fmt::Display for Call {
    fn fmt(&self, f: &mut fmt::Formatter) -> fmt::Result {
        write!(f, "{}", self.what.row().export.name)?;
        if self.lent != Lent::Right {
            write!(f, " lent {:?}", self.lent)?;
        }
        self.damage.iter().try_for_each(|Damage { at, bits }| write!(f, " damaged at {at:?} by {bits:X}"))?;
        self.what.handed().iter().try_for_each(|field| write!(f, ", {field}"))
    }
}
