//! One block through many accesses: the memory that is lent to a library, and beside it the request's block, which
//! has the same accesses and, from a clear on, never sees that memory. "From a cleared block any sequence of reads
//! and writes sees what this table says".

use crate::expect::block::lying;
use crate::independent::Block;
use crate::lent::{held_rows, Call};
use crate::library::Function;
use crate::trial::Trial;

#[derive(Clone)]
pub struct Bus {
    pub call: Call,
    pub block: Block,
}

impl Bus {
    /// A block that lies in what is lent, whatever is in it.
    pub fn of(call: Call) -> Bus {
        let block = lying(&call);
        Bus { call, block }
    }

    pub fn clear(&mut self, trial: &mut Trial) {
        if let Some((_, after)) = trial.call(Function::BlockClear, self.call.clone()) {
            self.call = after;
            self.block = Block::cleared();
        }
    }

    /// After a command the block holds the rows that the library left, which were compared.
    pub fn write(&mut self, trial: &mut Trial, address: u8, value: u8) {
        let call = Call {
            address,
            value,
            ..self.call.clone()
        };
        let Some((_, after)) = trial.call(Function::BlockWrite, call) else {
            return;
        };
        self.call = after;
        if address != 0 {
            return self.block.store(address, value);
        }
        let file = self.block.order_file().unwrap_or_default();
        let outcome = self.block.outcome(value, |_| trial.least(file));
        let rows = held_rows(self.call.rows.content());
        self.block.end(outcome, rows);
    }

    /// Writes bytes one after the other from an address on.
    pub fn put(&mut self, trial: &mut Trial, from: u8, bytes: &[u8]) {
        for (address, value) in (from..=255).zip(bytes) {
            self.write(trial, address, *value);
        }
    }

    /// Writes an order file, up to the longest, and its length.
    pub fn put_file(&mut self, trial: &mut Trial, file: &[u8]) {
        let laid = &file[..file.len().min(self.block.file.len())];
        self.put(trial, 32, laid);
        self.put_length(trial, file.len() as u16);
    }

    pub fn put_length(&mut self, trial: &mut Trial, length: u16) {
        self.put(trial, 8, &length.to_le_bytes());
    }

    pub fn put_bound(&mut self, trial: &mut Trial, bound: i32) {
        self.put(trial, 4, &bound.to_le_bytes());
    }

    pub fn put_row(&mut self, trial: &mut Trial, row: u16) {
        self.put(trial, 10, &row.to_le_bytes());
    }

    pub fn read_all(&self, trial: &mut Trial) {
        trial.read_all(&self.call, &self.block);
    }
}
