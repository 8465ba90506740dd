//! The wrapper as a crate of its own, for cargo.
#![no_std]

#[path = "highboyrobin.rs"]
mod wrapper;
pub use wrapper::*;
