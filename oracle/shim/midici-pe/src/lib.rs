//! Stand-in for midici-pe's lib.rs, which is not at hand: the original files, unchanged, where layout.sh puts them.
#![no_std]
extern crate alloc;

#[path = "../../../../target/oracle/crates/midici-pe/src/chunker.rs"]
pub mod chunker;
pub mod controller;
#[path = "../../../../target/oracle/crates/midici-pe/src/error.rs"]
pub mod error;
#[path = "../../../../target/oracle/crates/midici-pe/src/frame.rs"]
pub mod frame;
#[path = "../../../../target/oracle/crates/midici-pe/src/mcoded7.rs"]
pub mod mcoded7;
/// With the module `probe` behind its text.
#[path = "../../../../target/oracle/probed/reassembler.rs"]
pub mod reassembler;
#[path = "../../../../target/oracle/crates/midici-pe/src/wire.rs"]
pub mod wire;
