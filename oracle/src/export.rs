//! The port's exports, and the numbers with which each can refuse.
use crate::beyond::Beyond;

/// Its name, and the numbers of the questions that it can answer no, in document 01's order, or 02's; and why the original's
/// answer does not always stand.
#[derive(Clone, Copy)]
pub struct Export {
    pub name: &'static str,
    pub refusals: &'static [u8],
    pub beyond: &'static [Beyond],
}

pub const fn export(name: &'static str, refusals: &'static [u8]) -> Export {
    Export { name, refusals, beyond: &[] }
}

/// "Numbers 1 to 9 are `PeError`'s cases in its order, 21 to 28 `CiError`'s, 29 to 31 the port's." And the others are document 02's:
/// 32 of .syx files, 33 to 35 of headers that are read as JSON, 38 and 39 of the outgoing stage.
pub const NUMBERS: [u8; 26] = [1, 2, 3, 4, 5, 6, 7, 8, 9, 21, 22, 23, 24, 25, 26, 27, 28, 29, 30, 31, 32, 33, 34, 35, 38, 39];

/// Those with which no export of crates/hub can refuse: 9 is asked of an Mcoded7 text, 25 of a capability message, and 27 is
/// asked of the room for a CI message, for which the writer of a whole message asks 3. The exports of crates/codec_exports_c can.
pub const NONE_OF_HUB: [u8; 3] = [9, 25, 27];

impl Export {
    pub fn is_of_hub(self) -> bool {
        self.name.starts_with("midici_pe_")
    }
}
