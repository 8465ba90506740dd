//! Words and numbers as text in ASCII, one behind the other in a buffer.

/// Room for the 35 bytes of each of 16 classes, and for the 38 of the sums.
const ROOM: usize = 16 * 35 + 38;

pub struct Text {
    bytes: [u8; ROOM],
    length: usize,
}

impl Text {
    pub fn new() -> Text {
        Text {
            bytes: [0; ROOM],
            length: 0,
        }
    }

    pub fn written(&self) -> &[u8] {
        &self.bytes[..self.length]
    }

    pub fn word(&mut self, word: &[u8]) {
        self.bytes[self.length..][..word.len()].copy_from_slice(word);
        self.length += word.len();
    }

    /// A number in base ten.
    pub fn number(&mut self, n: u32) {
        let mut digits = [b'0'; 10];
        let mut first = digits.len() - 1;
        let mut left = n;
        digits[first] += (left % 10) as u8;
        while 10 <= left {
            left /= 10;
            first -= 1;
            digits[first] += (left % 10) as u8;
        }
        self.word(&digits[first..]);
    }

    /// A number with a minus sign where it is negative.
    pub fn signed(&mut self, n: i32) {
        if n < 0 {
            self.word(b"-");
        }
        self.number(n.unsigned_abs());
    }
}
