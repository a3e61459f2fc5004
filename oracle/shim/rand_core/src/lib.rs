//! Stand-in for rand_core 0.6: the one method that muid.rs calls.
#![no_std]

pub trait RngCore {
    fn next_u32(&mut self) -> u32;
}
