//! What the writes to a block came to, and the bytes that were read at once.

use super::Tally;
use crate::independent::Outcome;
use crate::library::Function;

/// What a write can come to: the refusals that a command tells are these and no others.
pub const COMMANDS: &[&str] = &[
    "no command",
    "cleared",
    "planned at the bound",
    "planned at the least",
    "told 0",
    "told 1",
    "told 3",
    "told 5",
    "told 6",
    "told 7",
    "told 8",
    "told 10",
    "told 12",
    "told 13",
    "told 21",
];

pub fn kind_of_command(outcome: Option<Outcome>) -> String {
    match outcome {
        None => "no command".to_string(),
        Some(Outcome::Cleared) => "cleared".to_string(),
        Some(Outcome::AtBound(_)) => "planned at the bound".to_string(),
        Some(Outcome::AtLeast(_)) => "planned at the least".to_string(),
        Some(Outcome::Refused(number)) => format!("told {number}"),
    }
}

impl Tally {
    /// Counts bytes of a block that were read one after the other.
    pub fn count_reads(&mut self, reads: u64) {
        self.calls += reads;
        let key = (Function::BlockRead.name(), "read".to_string());
        *self.counts.entry(key).or_insert(0) += reads;
    }
}
