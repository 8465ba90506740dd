//! Wrong in whose block it is: libraries that keep something of one block for all.

use crate::lent::Call;
use crate::library::{Library, BLOCK_ROWS};
use crate::model::MODEL;
use std::sync::Mutex;

/// What is wrong with a library in several functions, and the wrong one.
pub const LIBRARIES: &[(&str, Library)] = &[
    (
        "shows the rows of the last command, whosever block it was",
        Library {
            block_write: |call| wrote(call, |call| call.address == 0),
            block_read: |call| read_with(call, |call, last| call.rows = last.rows),
            ..MODEL
        },
    ),
    (
        "shows the flags of the last write, whosever block it was",
        Library {
            block_write: |call| wrote(call, |_| true),
            block_read: |call| {
                read_with(call, |call, last| {
                    call.block.put(&last.block.content()[..2])
                })
            },
            ..MODEL
        },
    ),
];

/// What the last write that is looked at left.
static LAST: Mutex<Option<Call>> = Mutex::new(None);

/// A write that is taken and, where it is one to look at, kept.
fn wrote(call: &mut Call, looked_at: fn(&Call) -> bool) -> u32 {
    let result = (MODEL.block_write)(call);
    if result == 0 && looked_at(call) {
        *LAST.lock().expect("one thread") = Some(call.clone());
    }
    result
}

/// A read of the lent memory with something of what was kept.
fn read_with(call: &mut Call, with: fn(&mut Call, Call)) -> u32 {
    let mut other = call.clone();
    if let Some(last) = LAST.lock().expect("one thread").clone() {
        if call.block.len() > 1 && call.rows.len() >= BLOCK_ROWS {
            with(&mut other, last);
        }
    }
    let result = (MODEL.block_read)(&mut other);
    if result == 0 {
        call.answer = other.answer;
    }
    result
}
