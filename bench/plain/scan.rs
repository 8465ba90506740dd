//! The numbers in a line, byte by byte. A number is done at the byte behind it.

use super::order::MOST_PROCESSORS;

/// No line has as many numbers.
const MANY: usize = 100;

#[derive(Default)]
pub struct Scan {
    /// the number under way: its last eight digits, whether it has any, whether a minus sign stands
    /// before it
    value: u32,
    digits: bool,
    minus: bool,
    /// how many numbers are done, the first of them, and each second one
    pub done: usize,
    pub first: u32,
    pub dues: [i32; MOST_PROCESSORS],
}

impl Scan {
    pub fn of(line: &[u8]) -> Scan {
        let mut scan = Scan::default();
        for &byte in line {
            scan.step(byte);
        }
        scan
    }

    fn step(&mut self, byte: u8) {
        if byte.is_ascii_digit() {
            self.value = self.value % 10_000_000 * 10 + u32::from(byte - b'0');
            self.digits = true;
            return;
        }
        if self.digits {
            self.finish();
        }
        self.value = 0;
        self.digits = false;
        self.minus = byte == b'-';
    }

    fn finish(&mut self) {
        if self.done == 0 {
            self.first = self.value;
        }
        if self.done % 2 == 1 {
            if let Some(due) = self.dues.get_mut(self.done / 2) {
                let value = self.value as i32;
                *due = if self.minus { -value } else { value };
            }
        }
        self.done = MANY.min(self.done + 1);
    }
}
