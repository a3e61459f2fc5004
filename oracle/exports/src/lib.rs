//! The port's exports, as build.rs reads them from the source of the crates that have them: structs, functions over slices, the
//! same as they are declared (`raw`), and their names (`NAMES`). A byte that is a yes or a no is a number here, so that one
//! that is neither can be seen.
include!(concat!(env!("OUT_DIR"), "/exports.rs"));

/// An answer that begins with a refusal's number and its value; an answer without a value has 0.
pub trait Refusing {
    fn refusal(&self) -> u8;
    fn value(&self) -> u8;
    /// Is every other field 0?
    fn grants_nothing(&self) -> bool;
}
