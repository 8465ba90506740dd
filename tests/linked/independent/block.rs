//! Document 02, "A register block for the dock": "Makers will reach the planner over a bus as 256 bytes." What
//! the request names is a field each, kept as the flag or the number that it is; "numbers are little-endian".

use super::limits::SCREEN;
use super::{least, plan, read_within, Order, Row};
use std::ops::RangeInclusive;

/// "A file length over 220 gives 12."
pub const LONGEST_FILE: usize = 220;

const BOUNDS: RangeInclusive<i32> = -10_000_000..=10_000_000;

#[derive(Clone, Debug)]
pub struct Block {
    pub done: bool,
    pub refused: bool,
    pub interrupt: bool,
    /// "byte 3 bit 0 allows the interrupt"
    pub allowed: bool,
    /// "the refusal number"
    pub number: u8,
    pub bound: i32,
    pub length: u16,
    /// "a row number from 1"
    pub row: u16,
    /// "the lateness used (0 after a refusal)"
    pub lateness: i32,
    /// "the rows held"
    pub rows: Vec<Row>,
    /// the order file, and what lies behind its length
    pub file: [u8; LONGEST_FILE],
}

/// What a command comes to; plans with the lateness used.
#[derive(Clone, Copy, Debug, PartialEq)]
pub enum Outcome {
    AtBound(i32),
    AtLeast(i32),
    Cleared,
    Refused(u8),
}

impl Outcome {
    /// The lateness used, where there are rows to hold.
    pub fn planned_at(self) -> Option<i32> {
        match self {
            Outcome::AtBound(lateness) | Outcome::AtLeast(lateness) => Some(lateness),
            Outcome::Cleared | Outcome::Refused(_) => None,
        }
    }
}

impl Block {
    /// "Clear makes all bytes 0."
    pub fn cleared() -> Block {
        Block {
            done: false,
            refused: false,
            interrupt: false,
            allowed: false,
            number: 0,
            bound: 0,
            length: 0,
            row: 0,
            lateness: 0,
            rows: Vec::new(),
            file: [0; LONGEST_FILE],
        }
    }

    /// The byte at an address: "Byte 0, bytes 252 to 255 and unnamed bits read 0".
    pub fn read(&self, address: u8) -> u8 {
        let place = usize::from(address);
        match address {
            0 | 252..=255 => 0,
            1 => self.flags(),
            2 => self.number,
            3 => self.allowed.into(),
            4..=7 => self.bound.to_le_bytes()[place - 4],
            8..=9 => self.length.to_le_bytes()[place - 8],
            10..=11 => self.row.to_le_bytes()[place - 10],
            12..=15 => self.lateness.to_le_bytes()[place - 12],
            16..=31 => self.row_shown()[(place - 16) / 4].to_le_bytes()[place % 4],
            32..=251 => self.file[place - 32],
        }
    }

    /// "bit 0 done, bit 1 refused, bit 2 interrupt".
    fn flags(&self) -> u8 {
        let bits = [self.done, self.refused, self.interrupt].map(u8::from);
        bits[0] + 2 * bits[1] + 4 * bits[2]
    }

    /// "that row or zeros".
    fn row_shown(&self) -> Row {
        let place = usize::from(self.row).checked_sub(1);
        let row = place.and_then(|place| self.rows.get(place));
        row.copied().unwrap_or([0; 4])
    }

    /// "Byte 0 takes a command"; which rows it holds is this implementation's choice.
    pub fn write(&mut self, address: u8, value: u8) {
        if address != 0 {
            return self.store(address, value);
        }
        let outcome = self.outcome(value, least);
        let rows = outcome.planned_at().and_then(|bound| {
            let order = self.order().expect("an order that is planned");
            plan(&order, bound)
        });
        self.end(outcome, rows.unwrap_or_default());
    }

    /// A write that is no command: of flags "writing a 1 clears that bit"; "Writes to bytes 2, 12 to 31 and 252
    /// to 255 do nothing."
    pub fn store(&mut self, address: u8, value: u8) {
        let place = usize::from(address);
        let bit = |number: u8| value >> number & 1 == 1;
        match address {
            1 => {
                self.done &= !bit(0);
                self.refused &= !bit(1);
                self.interrupt &= !bit(2);
            }
            3 => self.allowed = bit(0),
            4..=7 => {
                let bytes = changed(self.bound.to_le_bytes(), place - 4, value);
                self.bound = i32::from_le_bytes(bytes);
            }
            8..=9 => {
                let bytes = changed(self.length.to_le_bytes(), place - 8, value);
                self.length = u16::from_le_bytes(bytes);
            }
            10..=11 => {
                let bytes = changed(self.row.to_le_bytes(), place - 10, value);
                self.row = u16::from_le_bytes(bytes);
            }
            32..=251 => self.file[place - 32] = value,
            _ => {}
        }
    }

    /// "1 plan at the bound, 2 plan at least lateness, 3 clear; others set refused with number 0". The least
    /// lateness of an accepted order is lent.
    pub fn outcome(&self, command: u8, least: impl FnOnce(&Order) -> i32) -> Outcome {
        let outcome = match command {
            1 => self.at_bound(least),
            2 => self.order().map(|order| Outcome::AtLeast(least(&order))),
            3 => Ok(Outcome::Cleared),
            _ => Err(0),
        };
        outcome.unwrap_or_else(Outcome::Refused)
    }

    fn at_bound(&self, least: impl FnOnce(&Order) -> i32) -> Result<Outcome, u8> {
        let order = self.order()?;
        if !BOUNDS.contains(&self.bound) {
            return Err(8);
        }
        if self.bound < least(&order) {
            return Err(10);
        }
        Ok(Outcome::AtBound(self.bound))
    }

    /// "the order file at the screen's limits, judged as a screen order", or the number of a refusal: "A file
    /// length over 220 gives 12."
    pub fn order(&self) -> Result<Order, u8> {
        let file = self.order_file().ok_or(12)?;
        read_within(&SCREEN, file).map_err(|refusal| refusal.number as u8)
    }

    /// The order file, where it is not too long.
    pub fn order_file(&self) -> Option<&[u8]> {
        self.file.get(..self.length.into())
    }

    /// "Every command first clears bits 0 and 1, bytes 2 and 12 to 15 and the rows held". "Finished or refused,
    /// a command but 3 sets its flag, and bit 2 if allowed." These are the rows of a plan, else none.
    pub fn end(&mut self, outcome: Outcome, rows: Vec<Row>) {
        if outcome == Outcome::Cleared {
            *self = Block::cleared();
            return;
        }
        self.done = outcome.planned_at().is_some();
        self.refused = !self.done;
        self.number = match outcome {
            Outcome::Refused(number) => number,
            _ => 0,
        };
        self.lateness = outcome.planned_at().unwrap_or(0);
        self.rows = rows;
        self.interrupt |= self.allowed;
    }
}

/// The bytes of a number with another one at a place.
fn changed<const N: usize>(mut bytes: [u8; N], place: usize, value: u8) -> [u8; N] {
    bytes[place] = value;
    bytes
}
