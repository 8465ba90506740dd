// The wrapper in a crate without std and without a heap.
#![no_std]

#[path = "../../link/highboyrobin.rs"]
pub mod highboyrobin;
