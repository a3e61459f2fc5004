//! Stand-in for midici-core's lib.rs, which is not at hand: the original files, unchanged, where layout.sh puts them.
#![no_std]
extern crate alloc;

#[path = "../../../../target/oracle/crates/midici-core/src/error.rs"]
pub mod error;
#[path = "../../../../target/oracle/crates/midici-core/src/header.rs"]
pub mod header;
#[path = "../../../../target/oracle/crates/midici-core/src/muid.rs"]
pub mod muid;
#[path = "../../../../target/oracle/crates/midici-core/src/pe_caps.rs"]
pub mod pe_caps;
#[path = "../../../../target/oracle/crates/midici-core/src/pe_msg.rs"]
pub mod pe_msg;
#[path = "../../../../target/oracle/crates/midici-core/src/spec.rs"]
pub mod spec;

/// Stand-in for mgmt.rs, which is not at hand: two builders of pe_caps.rs name its function. It is never called.
mod mgmt {
    use crate::header::CiHeader;
    use crate::muid::Muid;

    pub fn mgmt_header(_sub_id2: u8, _source: Muid, _dest: Muid) -> CiHeader {
        unimplemented!("mgmt.rs is not among the files given")
    }
}

pub use muid::Muid;
