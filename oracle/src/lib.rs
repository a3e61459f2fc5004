//! The original's side of the comparison: the functions that are compared, their inputs as bytes, runs of calls on a table and on an
//! outgoing stage, tapes, and the original's answers, or a reading's.
pub mod beyond;
pub mod call;
pub mod case;
pub mod cut;
pub mod damage;
pub mod export;
mod functions;
pub mod input;
mod inputs;
pub mod layout;
pub mod lent;
pub mod op;
pub mod open;
pub mod original;
pub mod outcome;
pub mod random;
pub mod rng;
pub mod run;
pub mod stage;
pub mod tape;
