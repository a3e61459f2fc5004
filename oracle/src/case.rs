//! A call: a function, and its input as bytes.
use crate::op::Op;
use std::fmt;

pub struct Case {
    pub op: Op,
    pub input: Vec<u8>,
}

impl fmt::Display for Case {
    fn fmt(&self, f: &mut fmt::Formatter) -> fmt::Result {
        write!(f, "{:?}", self.op)?;
        self.input.iter().try_for_each(|b| write!(f, " {b:02X}"))
    }
}

impl Case {
    /// The output that is lent, each byte as `fill` says for its place.
    pub fn lent(&self, fill: impl Fn(usize) -> u8) -> Vec<u8> {
        (0..(self.op.row().room)(&self.input)).map(fill).collect()
    }
}
