//! Of each function that is compared: its inputs at the boundaries, or all of them where they are few; random ones; and the
//! original's answer. A file has those of one of the original's files, or two; json.rs and syx.rs have what the original lacks.
pub mod chunks;
pub mod controller;
pub mod cutter;
pub mod json;
pub mod mcoded7;
pub mod messages;
pub mod muids;
pub mod records;
pub mod syx;
pub mod wire;
